"""Telemetry logs and texts of the program: `json`, `log-stats` and `track`.

Logs are made here, row by row, by the frames of tests/wire.py: 8 bytes of microseconds, highest first, and a frame
(documentation of pymavlink's mavlogdump). The golden JSON lines were written by hand.
"""

import os
import struct
import subprocess
import sys
import tempfile
import time
import xml.etree.ElementTree as ElementTree

from bench import TOP, bevuntri, golden, prints, refuses, same

sys.path.insert(0, os.path.join(TOP, "tests"))
from wire import POSITION, checksum, frame_of

START = 1_700_000_000_000_000
COMMON = os.path.join(TOP, "defs", "common.json")
GPX = "{http://www.topografix.com/GPX/1/1}"


def row(micros, node, number, identity, payload):
    return struct.pack(">Q", micros) + frame_of(node, number, 0, identity, payload, key=None)


def position(boot, north, east, altitude=488_000, above=0):
    return struct.pack("<IiiiihhhH", boot, north, east, altitude, above, 0, 0, 0, 65535)


def vfr_hud(number):
    """A frame of VFR_HUD, 74, whose check byte is 20; its sender is 1.1."""
    payload = struct.pack("<ffffhH", 1.5, 2, 3, 4, 90, 50)
    body = bytes([len(payload), 0, 0, number, 1, 1, 74, 0, 0]) + payload
    return b"\xfd" + body + checksum(body + b"\x14").to_bytes(2, "little")


FLIGHT = b"".join([
    row(START, (1, 1), 250, POSITION, position(0, 473977420, 85455940)),
    row(START + 500_000, (1, 1), 251, POSITION, position(500, 473977430, -5, 488_100, -100)),
    row(START + 600_000, (2, 1), 0, 0, bytes([0, 0, 0, 0, 2, 3, 81, 4, 3])),
    struct.pack(">Q", START + 700_000) + vfr_hud(252),
    row(START + 1_000_000, (1, 1), 1, POSITION, position(1000, 473977440, 85455960, -1, 7)),
    row(START + 2_000_000, (2, 1), 1, 0, bytes([0, 0, 0, 0, 2, 3, 81, 4, 3])),
])


def with_file(data, test):
    """Calls a test with a folder in which there is the file `log`."""
    with tempfile.TemporaryDirectory() as folder:
        with open(os.path.join(folder, "log"), "wb") as file:
            file.write(data)
        return test(folder)


def test_json_of_decode_and_of_relay():
    prints(golden("decode.jsonl"), "json", stdin=golden("decode.text"))
    prints(golden("relay.jsonl"), "json", stdin=golden("relay.text"))


def test_json_of_wrong_lines():
    for line in (b"", b"hello", b"\xff\x00", b"0 HEARTBEAT 1.1", b"x" * 50_000_000, b"0 PING 1.1 #0 seq=1 more=2"):
        refuses(3, "line 1", "json", stdin=line + b"\n")
    refuses(3, "'VFR_HUD' isn't defined", "json", stdin=b"0 VFR_HUD 1.1 #0 airspeed=3f800000\n")
    refuses(4, "nothing.json", "json", "--defs", "nothing.json")
    prints(b"", "json")


def test_log_stats():
    """Of 1.1 the frames 252 to 255 and 0 are missing without VFR_HUD, and with it 253 to 255 and 0."""
    skipped = 8 + len(vfr_hud(252))
    known = b"""sender 1.1 frames 3 lost 5 rate 1.500
sender 2.1 frames 2 lost 0 rate 1.000
message GLOBAL_POSITION_INT frames 3 rate 1.500
message HEARTBEAT frames 2 rate 1.000
unknown 74 frames 1
rows 5 seconds 2.000000 skipped %d
""" % skipped
    more = b"""sender 1.1 frames 4 lost 4 rate 2.000
sender 2.1 frames 2 lost 0 rate 1.000
message GLOBAL_POSITION_INT frames 3 rate 1.500
message HEARTBEAT frames 2 rate 1.000
message VFR_HUD frames 1 rate 0.500
rows 6 seconds 2.000000 skipped 0
"""

    def test(folder):
        for wanted, words in ((known, []), (more, ["--defs", COMMON])):
            same("log-stats", bevuntri("log-stats", *words, "log", folder=folder), (wanted, "", 0))
            prints(wanted, "log-stats", *words, "-", stdin=FLIGHT)
    with_file(FLIGHT, test)


def test_log_stats_of_100_000_rows():
    rows = b"".join(row(START + 1000 * at, (1 + at % 3, 1), at // 3, POSITION, position(at, at, -at))
                    for at in range(100_000))

    def test(folder):
        begun = time.monotonic()
        came, _, status = bevuntri("log-stats", "log", folder=folder)
        lines = came.decode().split("\n")
        same("log-stats", (status, lines[0], lines[-2]), (0, "sender 1.1 frames 33334 lost 0 rate 333.343",
                                                         "rows 100000 seconds 99.999000 skipped 0"))
        same("within twenty seconds", time.monotonic() - begun < 20, True)
    with_file(rows, test)


def test_track_as_table_and_gpx():
    table = b"""time_us,system,latitude,longitude,altitude_m,relative_altitude_m
1700000000000000,1,47.397742,8.545594,488.000,0.000
1700000000500000,1,47.397743,-0.0000005,488.100,-0.100
1700000001000000,1,47.397744,8.545596,-0.001,0.007
"""

    def test(folder):
        for words in ([], ["--csv"], ["1"], ["--csv", "1"]):
            same("track", bevuntri("track", "log", *words, folder=folder), (table, "", 0))
            prints(table, "track", "-", *words, stdin=FLIGHT)
        gpx = ElementTree.fromstring(bevuntri("track", "--gpx", "log", folder=folder)[0])
        points = [(point.get("lat"), point.get("lon"), point.find(GPX + "ele").text, point.find(GPX + "time").text)
                  for point in gpx.findall(f"{GPX}trk/{GPX}trkseg/{GPX}trkpt")]
        same("first and last", (len(points), points[0], points[2]), (
            3, ("47.397742", "8.545594", "488.000", "2023-11-14T22:13:20.000000Z"),
            ("47.397744", "8.545596", "-0.001", "2023-11-14T22:13:21.000000Z")))
        refuses(3, "of system 2", "track", "log", "2", folder=folder)
        refuses(2, "'256'", "track", "log", "256", folder=folder)
        refuses(2, "--gpx and --svg", "track", "log", "--gpx", "--svg", folder=folder)
    with_file(FLIGHT, test)


def test_gpx_has_no_longitude_of_180():
    """GPX 1.1 has longitudes from -180 degrees to below 180, and latitudes from -90 to 90."""
    ends = [(900_000_000, 1_800_000_000), (-900_000_000, -1_800_000_000), (0, 1_799_999_999)]
    rows = b"".join(row(START, (1, 1), at, POSITION, position(at, *place)) for at, place in enumerate(ends))
    gpx = ElementTree.fromstring(bevuntri("track", "--gpx", "-", stdin=rows)[0])
    same("places", [(point.get("lat"), point.get("lon")) for point in gpx.iter(GPX + "trkpt")],
         [("90", "-180"), ("-90", "-180"), ("0", "179.9999999")])
    same("in a table", b",1,90,180," in bevuntri("track", "-", stdin=rows)[0], True)


def test_standard_input_that_is_a_folder_or_closed():
    for words in (["json"], ["log-stats", "-"], ["track", "-"], ["plan", "import", "-"]):
        for redirection in ("< .", "<&-"):
            line = f"'{TOP}/bin/bevuntri' {' '.join(words)} {redirection}"
            done = subprocess.run(["bash", "-c", line], capture_output=True, check=False, timeout=60)
            same(line, (done.returncode, done.stdout, done.stderr.count(b"\n")), (4, b"", 1))


def test_track_as_picture():
    def test(folder):
        picture, _, status = bevuntri("track", "--svg", "log", folder=folder)
        ways = ElementTree.fromstring(picture).findall("{http://www.w3.org/2000/svg}polyline")
        same("ways", (status, [len(way.get("points").split()) for way in ways]), (0, [3]))
    with_file(FLIGHT, test)


def test_wrong_logs():
    for data in (b"", b"\x00", b"\xff" * 3000, b"{}" * 1000):
        def test(folder):
            for words in (["log-stats"], ["track"], ["track", "--svg"]):
                refuses(3, "log: expected rows of a telemetry log", *words, "log", folder=folder)
        with_file(data, test)
    def test_definitions(folder):
        refuses(3, "--defs=log: log show ends with 'bad definitions: json'", "log-stats", "--defs", "log", "log",
                folder=folder)
        refuses(4, "--defs=nothing: log show", "log-stats", "--defs", "nothing", "log", folder=folder)
    with_file(FLIGHT, test_definitions)
    for name in ("log-stats", "track"):
        refuses(4, "'nothing'", name, "nothing")
        refuses(4, "'.'", name, ".")
