"""Pictures and the page: `chart` and `page`, and what a browser makes of them where one is installed.

How many frames of a scenario are lost, repeated and refused was counted by hand, from it and the report beside it.
"""

import contextlib
import json
import os
import shlex
import shutil
import signal
import subprocess
import tempfile
import time
import urllib.error
import urllib.request
import xml.etree.ElementTree as ElementTree
from unittest import mock

from bench import DATA, TOP, Skipped, bevuntri, golden, refuses, same

WORKED = os.path.join(TOP, "scenarios", "worked")
FENCE = os.path.join(TOP, "scenarios", "survey.fence")
SVG = "{http://www.w3.org/2000/svg}"
MARKUP = "<img src=x onerror=alert(1)>"
BROWSERS = ("chromium", "chromium-browser", "google-chrome")


def classes(picture, name):
    """Returns how many paths of a class a picture has."""
    return sum(path.get("class") == name for path in ElementTree.fromstring(picture).iter(SVG + "path"))


def texts(picture):
    return [text.text for text in ElementTree.fromstring(picture).iter(SVG + "text")]


def browser(address):
    """Returns the DOM that a headless browser has once it has loaded a page."""
    found = next(filter(None, map(shutil.which, BROWSERS)), None)
    if not found:
        raise Skipped("no Chromium is installed")
    with tempfile.TemporaryDirectory() as home:
        words = [found, "--headless", "--no-sandbox", "--disable-gpu", f"--user-data-dir={home}", "--dump-dom", address]
        return subprocess.run(words, capture_output=True, timeout=90, check=True).stdout.decode()


@contextlib.contextmanager
def page(*words, folder=DATA):
    """Serves a page at a free port, and ends it."""
    command = [os.path.join(TOP, "bin", "bevuntri"), "page", "--at", "127.0.0.1:0", *words]
    process = subprocess.Popen(command, cwd=folder, stdout=subprocess.PIPE, stderr=subprocess.PIPE)
    try:
        yield process.stdout.readline().decode().strip()
    finally:
        process.send_signal(signal.SIGTERM)
        _, told = process.communicate(timeout=10)
        same("page ends with", (process.returncode, told), (0, b""))


def fetch(address):
    with urllib.request.urlopen(address, timeout=10) as reply:
        return reply.read().decode(), reply.headers


def status_of(request):
    """Returns the status of a request that is refused."""
    try:
        return urllib.request.urlopen(request, timeout=10).status
    except urllib.error.HTTPError as error:
        return error.code


def state(address):
    """Returns what the page's first event has."""
    with urllib.request.urlopen(address + "events", timeout=10) as reply:
        return json.loads(reply.readline().decode().removeprefix("data: "))


def test_charts_of_worked_scenarios():
    """In lost-count frame 7 comes late; in repeats it comes twice more; in flight the station is given none of the nine
    positions and four items reached."""
    for name, wanted in (("lost-count", (0, 0, 1)), ("repeats", (0, 2, 0)), ("flight", (13, 0, 0)),
                         ("two-stations", (0, 0, 0))):
        picture, told, status = bevuntri("chart", f"{WORKED}/{name}.scenario")
        same(name, (told, status), ("", 0))
        same(name, tuple(classes(picture, each) for each in ("lost", "repeated", "refused")), wanted)
    picture = bevuntri("chart", f"{WORKED}/lost-count.scenario")[0]
    for text in ("PING 1", "COUNT mission 2", "ITEM mission 0 (refused 3)", "outcome not installed 15",
                 "refused busy 1", "install mission 1 from 255.190"):
        same(text, text in texts(picture), True)
    same("flight", "MISSION_ITEM_REACHED (lost)" in texts(bevuntri("chart", f"{WORKED}/flight.scenario")[0]), True)


def test_chart_of_a_fence_tells_the_ticks_of_its_flight():
    with open(FENCE, encoding="utf-8") as file:
        text = file.read()
    for ticks, told in ((5, "and ends within its 5"), (3, "and `ticks 3` ended it in the air"), (0, "`ticks 0` flies")):
        flown = text.replace("ticks 5", f"ticks {ticks}").encode()
        picture = bevuntri("chart", "--fence", "-", stdin=flown)[0].decode()
        same(f"ticks {ticks}", ("the flight needs 4 ticks" in picture, told in picture), (True, True))


def test_chart_of_a_fence():
    picture, told, status = bevuntri("chart", "--fence", FENCE)
    same("status", (told, status), ("", 0))
    found = {each: classes(picture, each) for each in ("inclusion", "exclusion", "leg", "touching", "flight", "breach")}
    # The legs begin at the home, which is the first item.
    same("elements", found, {"inclusion": 1, "exclusion": 1, "leg": 1, "touching": 1, "flight": 1, "breach": 3})
    same("total", "outside 1 legs 1 breaches 3" in texts(picture), True)


def test_wrong_scenarios():
    with tempfile.TemporaryDirectory() as folder:
        def case(status, sentence, data, *words):
            with open(os.path.join(folder, "file"), "wb") as file:
                file.write(data)
            refuses(status, sentence, "chart", *words, "file", folder=folder)
        case(3, "file: fleet ends with 'bad line 2: word'", b"drone 1\nfly\n")
        case(3, "file: fleet ends with 'bad line 1: count'", b"drone\n")
        case(3, "file: fence ends with 'bad line 1: word'", b"fly\n", "--fence")
        case(3, "UTF-8", b"\xff\x80")
        case(3, "at most 16777216 bytes", b"x" * 50_000_000)
        refuses(4, "'nothing'", "chart", "nothing", folder=folder)
        refuses(4, "'nothing'", "chart", "--fence", "nothing", folder=folder)
        with open(os.path.join(folder, "empty"), "wb"):
            pass
        same("of nothing", bevuntri("chart", "empty", folder=folder)[2], 0)


def test_chart_in_a_browser():
    with tempfile.TemporaryDirectory() as folder:
        name = os.path.join(folder, "chart.svg")
        with open(name, "wb") as file:
            file.write(bevuntri("chart", f"{WORKED}/lost-count.scenario")[0])
        found = browser("file://" + name)
        same("labels", ("ITEM mission 0 (refused 3)" in found, found.count('class="refused"')), (True, 1))


def test_page_of_a_text():
    with page("--text", "page.text") as address:
        text, headers = fetch(address)
        same("policy", "default-src 'none'" in headers["Content-Security-Policy"], True)
        same("nothing from outside", "://" in text.replace("http://www.w3.org/2000/svg", ""), False)
        time.sleep(0.5)
        came = state(address)
        same("way", came["nodes"]["1.1"]["way"], [[473977420, 85455940], [473979420, 85458940], [473982420, 85453940]])
        same("plan", came["plans"], {"mission from 255.190 to 1.1": {"count": 2, "items": {
            "0": [16, 473977420, 85455940], "1": [16, 473987420, 85459940]}}})
        same("links", came["links"], {"1": "1"})
        same("refusals", came["refusals"], [golden("page.text").decode().split("\n")[11]])
        metrics = fetch(address + "metrics?from=here")[0].split("\n")
        for line in ('bevuntri_frames_total 9', 'bevuntri_node_frames_total{node="1.1"} 6',
                     'bevuntri_port_admitted_total{port="1"} 9', 'bevuntri_port_links{port="2"} 0',
                     'bevuntri_message_frames_total{message="GLOBAL_POSITION_INT"} 3'):
            same(line, line in metrics, True)
        same("another path", status_of(address + "../etc/passwd"), 404)
        same("another site's name", status_of(urllib.request.Request(address, headers={"Host": "example.org"})), 403)


def test_page_of_a_fifo():
    """Each of two writers is read."""
    with tempfile.TemporaryDirectory() as folder:
        os.mkfifo(os.path.join(folder, "frames"))
        with page("--text", "frames", folder=folder) as address:
            for count in (9, 18):
                with open(os.path.join(folder, "frames"), "wb") as fifo:
                    fifo.write(golden("page.text"))
                time.sleep(0.5)
                same("frames", state(address)["frames"], count)


def test_page_of_a_relay():
    """A script stands in for the program: it prints a relay's lines, and ends or fails as it is told."""
    script = "#!/bin/sh\nif [ \"$1\" = relay ]; then echo \"$@\" > words; cat page.text; %s; fi\nexec %s \"$@\"\n"
    program, words = os.environ["BEVUNTRI_PROGRAM"], ["--key", "key", "tcp:127.0.0.1:1", "udp:127.0.0.1:2"]
    with tempfile.TemporaryDirectory() as folder:
        shutil.copy(os.path.join(DATA, "page.text"), folder)
        name = os.path.join(folder, "program")

        def stand_in(end):
            with open(name, "w", encoding="ascii") as file:
                file.write(script % (end, shlex.quote(program)))
            os.chmod(name, 0o755)
        stand_in("exec sleep 60")
        with mock.patch.dict(os.environ, BEVUNTRI_PROGRAM=name):
            with page(*words, folder=folder) as address:
                time.sleep(1)
                same("frames", state(address)["frames"], 9)
            with open(os.path.join(folder, "words"), encoding="ascii") as file:
                same("words", file.read(), "relay --key=key --print -- tcp:127.0.0.1:1 udp:127.0.0.1:2\n")
            stand_in("exit 2")
            _, told, status = bevuntri("page", "--at", "127.0.0.1:0", *words, folder=folder)
            same("no relay", (status, told.count("\n"), "relay ends with status 2" in told), (2, 1, True))


def test_page_in_a_browser():
    with page("--text", "page.text") as address:
        escaped = MARKUP.replace("<", "&lt;").replace(">", "&gt;")
        time.sleep(0.5)
        found = browser(address)
        same("no markup", ("<img" in found, escaped in found), (False, True))
        same("map", (found.count('class="way"'), found.count('class="plan"')), (1, 1))
        same("table", ("<td>47.3982420 8.5453940</td>" in found, "<td>489.5</td>" in found), (True, True))


def test_wrong_words_of_page():
    refuses(2, "page expects", "page")
    refuses(2, "page expects", "page", "--key", "key")
    refuses(2, "page expects", "page", "--text", "-", "tcp:127.0.0.1:1")
    refuses(2, "expected HOST:NUMBER", "page", "--text", "-", "--at", "8080")
    refuses(4, "'nothing'", "page", "--at", "127.0.0.1:0", "--text", "nothing")
