"""Insiders that shut others out, and a peer between a station and a drone that replays what it heard; `attack` uses them.

Each function runs the program once, and returns how much memory it took at most, in KiB, and how many datagrams
were sent at it. What isn't as it should be is a `Differs`.
"""

import os
import random
import socket
import subprocess
import threading
import time

import frames
import peers
from nodes import plan
from stores import stored
from victims import Run
from peer import MISSION, Differs, Station, UdpEnd, mission
from wire import KEY, await_bound, free_port

LAST, MINUTE, NAMES, OUT = 2**48 - 1, 6_000_000, 256, 1.0
PING = frames.message(frames.PING, 0, 9, 0, 0)


class Flown:
    """A drone on the store of a folder, an insider at its port, and an honest station that is shut out or isn't."""

    def __init__(self, program, folder):
        self.port = free_port(socket.SOCK_DGRAM)
        self.run = Run(program, folder, "drone", "--key", "key", "--store", "store", "1", f"udplisten:127.0.0.1:{self.port}")
        await_bound(self.port, time.monotonic() + 10)
        self.end, self.sent = UdpEnd(self.port), 0

    def insider(self, sender, stamp):
        self.end.send(frames.bytes_of(sender, self.sent, stamp, PING))
        self.sent += 1

    def heard(self):
        """The timestamps of the drone's frames that the insider has had yet, PINGs alone."""
        stamps, until = [], time.monotonic() + OUT
        while time.monotonic() < until:
            stamps += [frame.stamp for frame in self.end.receive(0.1) if frame.identity == frames.PING]
        return stamps

    def is_shut(self, code):
        """Whether an honest station gets no answer, and the drone tells that its frames were dropped with this code."""
        before = len(self.run.lines())
        station = Station(UdpEnd(self.port), time.monotonic() + OUT)
        try:
            station.settle()
            return False
        except Differs:
            return f"drop 1.1 {code}" in self.run.lines()[before:]
        finally:
            station.end.close()

    def stop(self):
        memory = self.run.memory() if self.run.child.poll() is None else 0
        self.run.stop()
        self.end.close()
        return memory


def need(holds, otherwise):
    if not holds:
        raise Differs(otherwise)


def late_at_a_drone(program, folder):
    """An insider's timestamp near the last one shuts a station out with 4, and out of a drone that starts again on the
    store with 6; the plan stays. With the last timestamp of all each run ends with 13."""
    drone = Flown(program, folder)
    try:
        plan(drone.port, 7)
        need(not drone.is_shut(4), "it is shut out before")
        drone.insider((9, 9), LAST - MINUTE)
        need(drone.heard(), "the insider has no answer")
        need(drone.is_shut(4), "the station isn't shut out with 4")
    finally:
        memory = drone.stop()
    drone = Flown(program, folder)
    try:
        need(drone.is_shut(6), "the station isn't shut out with 6 after a start")
        drone.insider((9, 9), LAST - 2)
        drone.insider((9, 9), LAST - 1)
        drone.run.ends(5, 13)
        need(drone.run.lines()[-1] == "stamps spent", f"its last line is {drone.run.lines()[-1]!r}")
    finally:
        drone.stop()
    bound, plans = stored(os.path.join(folder, "store"))
    need(bound == LAST and plans[0] == mission(7), f"the store has the bound {bound} and {len(plans[0])} items")
    words = [program, "drone", "--key", "key", "--store", "store", "1", "file:/dev/null:/dev/null"]
    done = subprocess.run(words, cwd=folder, capture_output=True, timeout=10, check=False)
    need((done.returncode, done.stdout) == (13, b"stamps spent\n"), f"it starts again: {done.stdout[:99]!r}")
    return memory, drone.sent


def names_at_a_drone(program, folder):
    """256 names of an insider shut a station out with 5; a drone that starts again on the store hears it, until the
    insider sends again."""
    drone = Flown(program, folder)
    try:
        for at in range(NAMES):
            drone.insider((1 + at // 200, 2 + at % 200), peers.now())
        need(drone.heard(), "the insider has no answer")
        need(drone.is_shut(5), "the station isn't shut out with 5")
    finally:
        memory = drone.stop()
    drone = Flown(program, folder)
    try:
        plan(drone.port, 7)
        for at in range(NAMES):
            drone.insider((1 + at // 200, 2 + at % 200), peers.now())
        need(not drone.is_shut(5), "a station that was heard first is shut out")
        plan(drone.port, 3)
    finally:
        drone.stop()
    return memory, 2 * NAMES


def station_that_is_shut_out(program, folder, code):
    """What is sent at a station before its drone answers leaves it without an answer; its next run has one."""
    peer = socket.socket(socket.AF_INET, socket.SOCK_DGRAM)
    peer.bind(("127.0.0.1", 0))
    peer.settimeout(10)
    words = ["station", "--key", "key", "255", "190", "1", f"udp:127.0.0.1:{peer.getsockname()[1]}", "command", "400", "3f800000"]
    acknowledged = frames.message(frames.COMMAND_ACK, 400, 0, 0, 0, 255, 190)
    others = [frames.bytes_of((9, 9), 0, LAST - MINUTE, PING)] if code == 4 else \
        [frames.bytes_of((1 + at // 200, 2 + at % 200), 0, peers.now(), PING) for at in range(NAMES)]
    try:
        for sent, status in ((others, 9), ([], 0)):
            run = Run(program, folder, *words)
            try:
                _, station = peer.recvfrom(2048)
                for whole in [*sent, frames.bytes_of((1, 1), 0, peers.now(), acknowledged)]:
                    time.sleep(peers.PACE)
                    peer.sendto(whole, station)
                run.ends(10, status)
                need((f"drop 255.190 {code}" in run.lines()) == (status == 9), f"it tells {run.lines()[-3:]}")
            finally:
                run.stop()
            peer.setblocking(False)
            while True:
                try:
                    peer.recv(2048)
                except BlockingIOError:
                    break
            peer.settimeout(10)
    finally:
        peer.close()
    return 0, len(others)


class Between(threading.Thread):
    """A peer between a station and a drone over UDP: it passes all on, and after each datagram sends some of all that it
    heard before, of either, to either, in another order."""

    def __init__(self, port, seed):
        super().__init__(daemon=True)
        self.front, self.back = (socket.socket(socket.AF_INET, socket.SOCK_DGRAM) for _ in range(2))
        for each in (self.front, self.back):
            each.bind(("127.0.0.1", 0))
            each.settimeout(0.002)
        self.drone, self.station, self.chance = ("127.0.0.1", port), None, random.Random(seed)
        self.heard, self.sent, self.is_over = [], 0, threading.Event()

    def run(self):
        while not self.is_over.is_set():
            for each in (self.front, self.back):
                try:
                    data, sender = each.recvfrom(65_536)
                except (TimeoutError, OSError):
                    continue
                if each is self.front:
                    self.station = sender
                self.put(each is self.front, data)
                for old in self.chance.sample(self.heard, min(4, len(self.heard))):
                    self.put(self.chance.random() < 0.5, old)
                self.heard = (self.heard + [data])[-4000:]

    def put(self, is_for_drone, data):
        self.sent += 1
        if is_for_drone:
            self.back.sendto(data, self.drone)
        elif self.station:
            self.front.sendto(data, self.station)

    def again(self):
        """All that it heard, in another order, to both."""
        for old in self.chance.sample(self.heard, len(self.heard)):
            time.sleep(peers.PACE / 5)
            self.put(True, old)
            self.put(False, old)

    def stop(self):
        self.is_over.set()
        self.join(5)
        for each in (self.front, self.back):
            each.close()


def replays_between(program, folder):
    """All operations of a station with a drone, one after another, through a peer that replays: each ends as it should,
    and what it brings is right."""
    port = free_port(socket.SOCK_DGRAM)
    drone = Run(program, folder, "drone", "--key", "key", "--store", "store", "1", f"udplisten:127.0.0.1:{port}")
    between = None
    for name, data in (("items", b"items 30 6 16 100 200\n"), ("bytes", bytes(range(256)) * 40)):
        with open(os.path.join(folder, name), "wb") as file:
            file.write(data)
    # A station keeps nothing from one run to the next, so that what was replayed of an earlier run may answer the same
    # command, parameter or file: each is asked for once. What is asked of plans begins with a PING that isn't sent twice.
    operations = [["--file", "items", "upload", "mission"], ["get", "mission"], ["command", "400", "3f800000"],
                  ["param", "read", "SIM_STEP"], ["--file", "bytes", "file", "put", "f"], ["file", "get", "f"], ["clear", "rally"],
                  ["param", "list"], ["file", "remove", "f"], ["get", "mission"], ["clear", "all"]]
    try:
        await_bound(port, time.monotonic() + 10)
        between = Between(port, 7)
        between.start()
        for words in operations:
            run = Run(program, folder, "station", "--key", "key", "255", "190", "1",
                      f"udp:127.0.0.1:{between.front.getsockname()[1]}", *words)
            try:
                status = run.child.wait(40)
                with open(run.printed, "rb") as file:
                    printed = file.read()
                need(status == 0, f"{words}: status {status}, {printed[-80:]!r}")
                need(words[:2] != ["get", "mission"] or b"outcome 255.190 got 30\n" in printed, f"{words}: {printed[-80:]!r}")
                need(words[:2] != ["file", "get"] or printed.endswith(bytes(range(256)) * 40), f"{words}: other bytes")
                need(words[:2] != ["param", "read"] or printed.endswith(b' "SIM_STEP" 6 e8030000\n'), f"{words}: {printed[-80:]!r}")
            finally:
                run.stop()
            between.again()
        lines = drone.lines()
        need(sum(line.startswith("install ") for line in lines) == 1, "a replayed upload is installed")
        need(sum(line.startswith("clear ") for line in lines) == 4, "a replayed clear is done")
        need(not any(stored(os.path.join(folder, "store"))[1]), "the store isn't empty")
        return drone.memory(), between.sent
    finally:
        if between:
            between.stop()
        drone.stop()


CASES = {
    "drone over UDP: an insider near the last timestamp": late_at_a_drone,
    "drone over UDP: an insider with 256 names": names_at_a_drone,
    "station over UDP: an insider near the last timestamp": lambda p, f: station_that_is_shut_out(p, f, 4),
    "station over UDP: an insider with 256 names": lambda p, f: station_that_is_shut_out(p, f, 5),
    "station and drone over UDP: a peer between that replays in another order": replays_between,
}
