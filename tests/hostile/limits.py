"""What is bounded, driven to its bound and one step further; `ends` uses it.

A case runs the program on a folder's files, or over loopback, and returns what was seen; what isn't as the manual and
the model have it is a `Differs`."""

import hashlib
import os
import socket
import subprocess
import sys
import time

import frames
from cuts import BAD_STORE, KEY_TEXT, LATE, NODE, STATION, heartbeat, image_of
from frames import bytes_of, message
from lines import World
from readings import decode_text, route_text
from victims import Run

sys.path.insert(0, os.path.join(os.path.dirname(os.path.realpath(__file__)), ".."))
from peer import Differs, Station, UdpEnd
from slots import contents_of, store_of
from wire import await_bound, free_port

LAST, MOST, ENTRIES = 2**48 - 1, 256, 1_000_000
HEADS = b"\xfd" * 256
LISTED = message(frames.PARAM_REQUEST_READ, 0, *NODE, bytes(16))
ARM = message(frames.COMMAND_LONG, 0x3F800000, 0, 0, 0, 0, 0, 0, 400, *NODE, 0)
STATION_WORDS = ["station", "--key", "k", "255", "190", "1", "file:a:x"]


def check(holds, otherwise):
    if not holds:
        raise Differs(otherwise)


def ran(program, folder, words, files, status, text, left=None):
    """Runs the program on files, and compares its status, what it prints, and what it leaves."""
    for name, data in {"k": KEY_TEXT, **files}.items():
        with open(os.path.join(folder, name), "wb") as file:
            file.write(data)
    done = subprocess.run([program, *words], cwd=folder, stdin=subprocess.DEVNULL, capture_output=True, timeout=60, check=False)
    told = f"{' '.join(words)}: status {done.returncode} and not {status}"
    check(done.returncode == status, f"{told}: {done.stdout[-200:]!r}")
    if done.stdout != text:
        ours, theirs = text.splitlines(), done.stdout.splitlines()
        at = next((n for n, (one, other) in enumerate(zip(ours, theirs)) if one != other), min(len(ours), len(theirs)))
        raise Differs(f"{' '.join(words)}: line {at + 1} is {theirs[at:at + 1]} and not {ours[at:at + 1]}")
    check(done.stderr == b"", f"{done.stderr[:200]!r} on standard error")
    for name, data in (left or {}).items():
        with open(os.path.join(folder, name), "rb") as file:
            came = file.read()
        check(came == data or contents_of(data) is not None and contents_of(came) == contents_of(data), f"the file {name} differs")


def told_by(world, **more):
    """The lines of a world that has ended, and the status."""
    text = "".join(line + "\n" for line in world.texts) + "".join(more.values())
    return 13 if world.is_spent else 0, text.encode()


def drone_told(parts, kept=None):
    """What a drone tells of these datagrams, one after another, and its status, text and image after them."""
    world = World(False)
    world.do_drone("1")
    if kept is not None:
        world.nodes["1.1"].__init__(world, 1, (0, 0), kept, [[], [], []])
    for line in ["heartbeat 1.1", *(f"noise 1.1 {part.hex()}" for part in parts)]:
        if not world.is_spent:
            world.line(line)
    return *told_by(world), image_of(world.nodes["1.1"])


# ---- 256 bytes fd as one datagram

def heads_in_a_file(program, folder):
    ran(program, folder, ["decode", "a"], {"a": HEADS}, 0, decode_text(HEADS, False))
    nodes = "drone 1\nstation 255 190\n"
    noise = f"noise 1.1 {HEADS.hex()}\nnoise 255.190 {HEADS.hex()}\n"
    plans = "".join(f"plan 1.1 {kind} 0\n" for kind in ("mission", "fence", "rally"))
    ran(program, folder, ["fleet", "a"], {"a": (nodes + noise).encode()}, 0, plans.encode())
    return 2


def heads_at_a_drone(program, folder):
    """Nothing is told, sent or kept of them, and the next frame is answered at once."""
    port = free_port(socket.SOCK_DGRAM)
    with open(os.path.join(folder, "k"), "wb") as file:
        file.write(KEY_TEXT)
    run = Run(program, folder, "drone", "--key", "k", "1", f"udplisten:127.0.0.1:{port}")
    try:
        await_bound(port, time.monotonic() + 10)
        station = Station(UdpEnd(port), time.monotonic() + 10)
        station.settle()
        for _ in range(20):
            station.end.send(HEADS)
            begun = time.monotonic()
            station.settle()
            check(time.monotonic() - begun < 2, "the next frame isn't answered at once")
        told = {line.split()[2] for line in run.lines()}
        check(told <= {"HEARTBEAT", "PING", "GLOBAL_POSITION_INT"}, f"it tells {told}")
        check(run.child.poll() is None, "it ended")
        station.end.close()
    finally:
        run.stop()
    return 20


def heads_at_a_station(program, folder):
    """Its drone sends them before each answer: the command is acknowledged."""
    drone = socket.socket(socket.AF_INET, socket.SOCK_DGRAM)
    drone.bind(("127.0.0.1", 0))
    drone.settimeout(10)
    with open(os.path.join(folder, "k"), "wb") as file:
        file.write(KEY_TEXT)
    run = Run(program, folder, "station", "--key", "k", "255", "190", "1", f"udp:127.0.0.1:{drone.getsockname()[1]}",
              "command", "400", "3f800000")
    try:
        _, station = drone.recvfrom(2048)
        drone.sendto(HEADS, station)
        acknowledged = message(frames.COMMAND_ACK, 400, 0, 0, 0, *STATION)
        drone.sendto(bytes_of(NODE, 0, LATE, acknowledged), station)
        run.ends(10, 0)
        check(run.lines()[-1] == "command 255.190 result 0", f"its last line is {run.lines()[-1]!r}")
        check(not any("drop" in line for line in run.lines()), "it tells of them")
    finally:
        run.stop()
        drone.close()
    return 1


def heads_at_a_router(program, folder):
    """As many bytes are skipped, and the frame behind them goes out."""
    with open(os.path.join(folder, "k"), "wb") as file:
        file.write(KEY_TEXT)
    whole, count = bytes_of(NODE, 0, LATE, heartbeat()), 0
    for open_ in ("", "open:"):
        for one in ([], ["--one"]):
            port, hearer, speaker = free_port(socket.SOCK_DGRAM), socket.socket(socket.AF_INET, socket.SOCK_DGRAM), \
                socket.socket(socket.AF_INET, socket.SOCK_DGRAM)
            hearer.bind(("127.0.0.1", 0))
            hearer.settimeout(10)
            run = Run(program, folder, "route", "--key", "k", *one, "--turns", "60", f"{open_}udplisten:127.0.0.1:{port}",
                      f"udp:127.0.0.1:{hearer.getsockname()[1]}")
            try:
                await_bound(port, time.monotonic() + 10)
                speaker.sendto(HEADS, ("127.0.0.1", port))
                speaker.sendto(whole, ("127.0.0.1", port))
                check(hearer.recv(2048) == whole, "another frame went out")
                run.ends(20, 11)
                line = f"port 1 read {256 + len(whole)} skipped 256 written 0 turns"
                check(line in run.lines(), f"it prints {run.lines()}")
                count += 1
            finally:
                run.stop()
                hearer.close()
                speaker.close()
    return count


# ---- 256 and 257 streams

def names(count):
    return [(1 + at // 200, 2 + at % 200) for at in range(count)]


def streams_at_decode(program, folder):
    """It keeps nothing of streams: each verdict is right, of many more."""
    data = b"".join(bytes_of((at % 256, at // 256), 0, at, heartbeat(), at % 7) for at in range(600))
    ran(program, folder, ["decode", "--key", "k", "a"], {"a": data}, 0, decode_text(data, True))
    return 600


def streams_at_a_router(program, folder):
    """The 257th stream is refused with 5, by name or by link; the first ones go on."""
    many = [bytes_of(name, 0, 10 + at, heartbeat()) for at, name in enumerate(names(MOST + 1))]
    links = [bytes_of(NODE, 0, 10 + at, heartbeat(), at) for at in range(MOST)] + [bytes_of(STATION, 0, 900, heartbeat())]
    for parts in (many[:MOST], many, links):
        name, link = parts[0][5:7], parts[0][-13]
        data = b"".join(parts) + bytes_of(tuple(name), 1, 5000, heartbeat(), link)
        text, out = route_text(data, False)
        check((b" refused 5\n" in text) == (len(parts) > MOST), "the model is wrong")
        for one in ([], ["--one"]):
            ran(program, folder, ["route", *one, "--key", "k", "file:a:x", "file:b:y"], {"a": data, "b": b""}, 0, text, {"y": out})
    return 6


def streams_at_a_drone(program, folder):
    """256 streams have their uploads, commands and parameters; of the 257th each frame is dropped with 5, and the first
    one goes on. Of one name with 256 links the same."""
    asked = [message(frames.COUNT, 1, *NODE, 0), message(frames.ACK, *NODE, 15, 0), ARM, LISTED]
    ways = [[(name, 0) for name in names(MOST + 1)], [(STATION, link) for link in range(MOST)] + [((9, 9), 0)]]
    for senders in ways:
        senders, stamp, parts = senders + senders[:1], LATE, []
        for sender, link in senders:
            for sent in asked:
                stamp += 1
                parts.append(bytes_of(sender, 0, stamp, sent, link))
        status, text, image = drone_told(parts)
        lines = text.decode().splitlines()
        check(lines.count("drop 1.1 5") == 4 and lines[-1].endswith("PARAM_VALUE"), "the model is wrong")
        ran(program, folder, ["drone", "--key", "k", "--store", "s", "1", "file:a:x"], {"a": b"".join(parts)}, status, text,
            {"s": store_of(image)})
        os.unlink(os.path.join(folder, "s"))
    return 2


def streams_at_a_file_server(program, folder):
    """Each of 256 names has an answer to its request of the list, the end of a list that is empty; the 257th has none."""
    request = lambda number: message(frames.FILE, 0, *NODE, bytes([number, 0, 0, 3, 0, 0, 0, 0, 0, 0, 0, 0]).ljust(251, b"\0"))
    senders = names(MOST + 1)
    parts = [bytes_of(name, 0, LATE + at, request(0)) for at, name in enumerate(senders)]
    parts.append(bytes_of(senders[0], 1, LATE + 1000, request(1)))
    to = [f"{name[0]}.{name[1]}" for name in senders]
    lines = ["1 1.1 HEARTBEAT", *(f"{2 + at} 1.1 FILE_TRANSFER_PROTOCOL to {to[at]}" for at in range(MOST)), "drop 1.1 5",
             f"{2 + MOST} 1.1 FILE_TRANSFER_PROTOCOL to {to[0]}"]
    ran(program, folder, ["drone", "--key", "k", "1", "file:a:x"], {"a": b"".join(parts)}, 0, "".join(one + "\n" for one in lines).encode())
    with open(os.path.join(folder, "x"), "rb") as file:
        replies = [frames.fields_of(one[5])[3] for one in frames.frames_in(file.read())[1:]]
    wrong = [reply[:13].hex() for reply in replies if (reply[3], reply[4], reply[5], reply[12]) != (129, 1, 3, 6)]
    check(len(replies) == MOST + 1 and not wrong, f"{len(replies)} replies, {wrong[:1]}")
    return MOST + 1


def streams_at_a_station(program, folder):
    """A drone that is the 256th sender is heard, and one that is the 257th isn't."""
    acknowledged = message(frames.COMMAND_ACK, 400, 0, 0, 0, *STATION)
    for others in (MOST - 1, MOST):
        parts = [bytes_of(name, 0, LATE, heartbeat()) for name in names(others)]
        parts.append(bytes_of(NODE, 0, LATE + 1, acknowledged))
        world = World(False)
        for line in ("drone 1", "station 255 190", "heartbeat 255.190", "command 255.190 1.1 400 3f800000",
                     *(f"noise 255.190 {part.hex()}" for part in parts)):
            world.line(line)
        while world.nodes["255.190"].commander.doing:
            world.line("tick 255.190")
            world.line("heartbeat 255.190")
        status, text = told_by(world, end="no answer 5\n" * (others == MOST))
        ran(program, folder, [*STATION_WORDS, "command", "400", "3f800000"], {"a": b"".join(parts)}, 9 if others == MOST else status, text)
    return 2


# ---- timestamps spent

def stamps_at_a_drone(program, folder):
    """An insider's frame of the last timestamp leaves a drone one frame; so does the last but one in a store. What is read
    at once is one call, of which nothing is told once a timestamp is missing."""
    words = ["drone", "--key", "k", "--store", "s", "1", "file:a:x"]
    ping = message(frames.PING, 0, 5, 0, 0)
    for stamps in ((LAST,), (LAST - 1, LAST), (LAST - 2, LAST - 1, LAST), (LAST, LAST)):
        whole = b"".join(bytes_of((9, 9), at, stamp, ping) for at, stamp in enumerate(stamps)) + bytes_of((9, 8), 0, LAST, ping)
        status, text, image = drone_told([whole])
        check(status == 13, "the model is wrong")
        ran(program, folder, words, {"a": whole}, 13, text, {"s": store_of(image)})
        ran(program, folder, words, {"a": b""}, 13, b"stamps spent\n", {"s": store_of(image)})
        os.unlink(os.path.join(folder, "s"))
    for bound in (LAST - 2, LAST - 1, LAST):
        kept = store_of(bytes([1]) + bound.to_bytes(8, "little") + bytes(6))
        whole = bytes_of((9, 9), 0, LAST, ping)
        status, text, image = drone_told([whole], bound)
        ran(program, folder, words, {"a": whole, "s": kept}, status, text, {"s": store_of(image)})
    beyond = store_of(bytes([1]) + (LAST + 1).to_bytes(8, "little") + bytes(6))
    ran(program, folder, words, {"a": b"", "s": beyond}, 3, BAD_STORE, {"s": beyond})
    return 12


def stamps_at_a_station(program, folder):
    """The same of a station."""
    for stamp, status in ((LAST - 20, 9), (LAST - 1, 13), (LAST, 13)):
        world = World(False)
        noise = bytes_of((9, 9), 0, stamp, heartbeat())
        for line in ("drone 1", "station 255 190", "heartbeat 255.190", "params 255.190 1.1", f"noise 255.190 {noise.hex()}"):
            world.line(line)
        while world.nodes["255.190"].lister.drone and not world.is_spent:
            world.line("tick 255.190")
            if not world.is_spent:
                world.line("heartbeat 255.190")
        came, text = told_by(world, end="" if status == 13 else "no answer 5\n")
        check(came == (13 if status == 13 else 0), "the model is wrong")
        ran(program, folder, [*STATION_WORDS, "param", "list"], {"a": noise}, status, text)
    return 3


def stamps_at_a_router(program, folder):
    """A frame of the last timestamp goes out, and every frame of the present behind it is refused with 4."""
    now = LATE // 4
    parts = [bytes_of(NODE, 0, now, heartbeat()), bytes_of((9, 9), 0, LAST, heartbeat()), bytes_of(NODE, 1, now + 1, heartbeat()),
             bytes_of((2, 1), 0, now + 2, heartbeat()), bytes_of((2, 1), 1, LAST - 6_000_000, heartbeat())]
    text, out = route_text(b"".join(parts), False)
    check(text.count(b"refused 4") == 2, "the model is wrong")
    for one in ([], ["--one"]):
        ran(program, folder, ["route", *one, "--key", "k", "file:a:x", "file:b:y"], {"a": b"".join(parts), "b": b""}, 0, text, {"y": out})
    return 2


# ---- the journal of a router

def journal(program, folder, one, more):
    """A million frames are routed and told; with one more the limit alone is."""
    block = [bytes_of(NODE, number, 0, heartbeat(), key=None) for number in range(256)]
    count, size = ENTRIES + more, len(block[0])
    with open(os.path.join(folder, "a"), "wb") as file:
        file.write((b"".join(block) * (count // 256 + 1))[:count * size])
    for name, data in (("b", b""), ("k", KEY_TEXT)):
        with open(os.path.join(folder, name), "wb") as file:
            file.write(data)
    words = [program, "route", *one, "--key", "k", "open:file:a:x", "open:file:b:y"]
    with open(os.path.join(folder, "printed"), "wb") as file:
        status = subprocess.run(words, cwd=folder, stdin=subprocess.DEVNULL, stdout=file, timeout=60, check=False).returncode
    with open(os.path.join(folder, "printed"), "rb") as file:
        printed = file.read()
    if more:
        check((status, printed) == (6, b"limit entries 1000000\n"), f"status {status}, {len(printed)} bytes, {printed[:60]!r}")
        return 1
    ports = [f"port 1 read {count * size} skipped 0 written 0 ended", f"port 2 read 0 skipped 0 written {count * size} ended"]
    wanted = b"1 1.1/0 0 0 to 2\n" * count + "".join(line + "\n" for line in ports).encode()
    check(status == 0 and printed == wanted, f"status {status}, {len(printed)} bytes, the last {printed[-120:]!r}")
    sum_of = lambda name: hashlib.sha256(open(os.path.join(folder, name), "rb").read()).digest()
    check(sum_of("a") == sum_of("y"), "other bytes went out")
    return 1


CASES = {
    "256 bytes fd in a file": heads_in_a_file, "256 bytes fd at a drone": heads_at_a_drone,
    "256 bytes fd at a station": heads_at_a_station, "256 bytes fd at a router": heads_at_a_router,
    "600 streams at decode --key": streams_at_decode, "256 and 257 streams at a router": streams_at_a_router,
    "256 and 257 streams at a drone": streams_at_a_drone,
    "256 and 257 streams at a drone's files": streams_at_a_file_server,
    "256 and 257 streams at a station": streams_at_a_station, "timestamps spent at a drone": stamps_at_a_drone,
    "timestamps spent at a station": stamps_at_a_station, "timestamps spent at a router": stamps_at_a_router,
}
for words_, one_ in (("with threads", []), ("with --one", ["--one"])):
    for more_ in (0, 1):
        CASES[f"a journal of {ENTRIES + more_:,} entries {words_}"] = lambda p, f, one=one_, more=more_: journal(p, f, one, more)
