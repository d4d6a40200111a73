"""A router between two honest peers and a hostile one, and what all victims share; `attack` uses them.

Each function runs the program once under one attack, and returns how much memory it took at most, in KiB, and
how many datagrams or pieces were sent at it. What isn't as it should be is a `Differs`.
"""

import os
import socket
import subprocess
import sys
import threading
import time

import frames
import peers
from peer import Differs
from wire import await_bound, free_port

HONEST, STEP, BIG, PATIENCE = 100, 0.004, bytes(range(251)), 40


class Run:
    """A run of the program in a folder."""

    def __init__(self, program, folder, *words):
        self.printed = os.path.join(folder, f"printed-{words[0]}-{time.monotonic_ns()}")
        with open(self.printed, "wb") as file:
            self.child = subprocess.Popen([program, *words], cwd=folder, stdin=subprocess.DEVNULL, stdout=file,
                                          stderr=subprocess.PIPE)

    def memory(self):
        """The most memory that it took yet, in KiB."""
        try:
            with open(f"/proc/{self.child.pid}/status", encoding="ascii") as file:
                return next(int(line.split()[1]) for line in file if line.startswith("VmHWM"))
        except (OSError, StopIteration):
            status, told = self.child.wait(5), self.child.stderr.read(400)
            raise Differs(f"it ended by itself, with status {status}: {told!r}") from None

    def ends(self, seconds, *statuses):
        try:
            status = self.child.wait(seconds)
        except subprocess.TimeoutExpired:
            raise Differs(f"it doesn't end within {seconds} seconds") from None
        if status not in statuses:
            raise Differs(f"status {status}: {self.child.stderr.read(400)!r}")
        return status

    def lines(self):
        with open(self.printed, encoding="ascii") as file:
            return file.read().splitlines()

    def stop(self):
        self.child.kill()
        self.child.wait()
        self.child.stderr.close()


def honest_frames(count, is_big):
    """What an honest peer sends: heartbeats, or the longest frames there are, each for everyone."""
    sent = (frames.FILE, bytes(3) + BIG) if is_big else frames.message(frames.HEARTBEAT, 0, 2, 3, 81, 4, 3)
    stamp = peers.now()
    return [frames.bytes_of((1, 1), number, stamp + number, sent) for number in range(count)]


def filling():
    """How many of the longest frames are more than the system holds for a peer that doesn't read."""
    with open("/proc/sys/net/ipv4/tcp_wmem", encoding="ascii") as file:
        return int(file.read().split()[2]) // 250 + 3000


def is_all(received, sent):
    """Whether an honest peer has had each frame of the other, in order, whatever else it had."""
    return [whole for whole in received if whole[5:7] == b"\1\1"] == sent


def hear_datagrams(peer, sent, until):
    received = []
    while time.monotonic() < until and not is_all(received, sent):
        try:
            received.append(peer.recv(65_536))
        except TimeoutError:
            pass
    if not is_all(received, sent):
        honest = sum(whole[5:7] == b"\1\1" for whole in received)
        raise Differs(f"{honest} of {len(sent)} honest frames came through")


def udp_peer():
    peer = socket.socket(socket.AF_INET, socket.SOCK_DGRAM)
    peer.setsockopt(socket.SOL_SOCKET, socket.SO_RCVBUF, 4_000_000)
    peer.bind(("127.0.0.1", 0))
    peer.settimeout(0.1)
    return peer


def router_of_datagrams(program, folder, attack, sources, options):
    """A router with a hostile peer at the first of three UDP ports: all frames from the second reach the third."""
    speaker, hearer, port, sent = udp_peer(), udp_peer(), free_port(socket.SOCK_DGRAM), honest_frames(HONEST, False)
    mouth = free_port(socket.SOCK_DGRAM)
    router = Run(program, folder, "route", "--key", "key", *options, f"udplisten:127.0.0.1:{port}",
                 f"udplisten:127.0.0.1:{mouth}", f"udp:127.0.0.1:{hearer.getsockname()[1]}")
    try:
        until = time.monotonic() + PATIENCE
        for each in (port, mouth):
            await_bound(each, until)
        hostile = peers.Datagrams(port, attack, (1, 1), sources)
        hostile.start()
        send = lambda: [(speaker.sendto(whole, ("127.0.0.1", mouth)), time.sleep(STEP)) for whole in sent]
        sender = threading.Thread(target=send, daemon=True)
        sender.start()
        try:
            hear_datagrams(hearer, sent, until)
        finally:
            sender.join()
        hostile.stop()
        return router.memory(), hostile.sent
    finally:
        router.stop()
        speaker.close()
        hearer.close()


def router_of_streams(program, folder, attack, end, reads, options):
    """A router with a hostile peer at the first of three TCP ports: all frames from the second reach the third, and
    once the honest ones have ended it ends with status 0, and with `ended` at their ports."""
    port, sent, received = free_port(socket.SOCK_STREAM), honest_frames(HONEST if reads else filling(), not reads), []
    with socket.create_server(("127.0.0.1", 0)) as first, socket.create_server(("127.0.0.1", 0)) as second:
        first.settimeout(10)
        second.settimeout(10)
        names = [f"tcp:127.0.0.1:{server.getsockname()[1]}" for server in (first, second)]
        router = Run(program, folder, "route", "--key", "key", *options, f"listen:127.0.0.1:{port}", *names)
        hostile = None
        try:
            hostile = peers.Stream(port, attack, (1, 1), end, reads)
            speaker, hearer = first.accept()[0], second.accept()[0]
            hostile.start()
            drain = threading.Thread(target=lambda: all(iter(lambda: speaker.recv(65_536), b"")), daemon=True)
            drain.start()
            send = lambda: [(speaker.sendall(whole), time.sleep(STEP * reads)) for whole in sent]
            threading.Thread(target=send, daemon=True).start()
            hear_stream(hearer, sent, received, time.monotonic() + PATIENCE)
            memory = router.memory()
            for each in (speaker, hearer):
                each.shutdown(socket.SHUT_WR)
            hostile.stop()
            router.ends(PATIENCE, 0)
            ports = [line.split() for line in router.lines() if line.startswith("port ")]
            hows = [words[-1] for words in ports]
            if hows[1:] != ["ended", "ended"] or hows[0] not in (("ended", "failed") if reads else ("failed",)):
                raise Differs(f"the ports are {hows}")
            return memory, hostile.sent
        finally:
            router.stop()
            if hostile:
                hostile.stream.close()


def hear_stream(stream, sent, received, until):
    honest = []
    stream.settimeout(0.2)
    wanted = b"".join(sent)
    while time.monotonic() < until and sum(map(len, honest)) < len(wanted):
        try:
            data = stream.recv(65_536)
        except TimeoutError:
            continue
        if not data:
            break
        received.append(data)
        honest = honest_in(b"".join(received)) if len(sent) <= HONEST else received
    if b"".join(honest) != wanted:
        raise Differs(f"{sum(map(len, honest))} of {len(wanted)} honest bytes came through")


def honest_in(data):
    """The frames of the honest speaker in a stream of whole frames."""
    found, at = [], 0
    while at + 12 <= len(data):
        size = 12 + data[at + 1] + 13 * data[at + 2]
        whole, at = data[at:at + size], at + size
        if whole[5:7] == b"\1\1" and len(whole) == size:
            found.append(whole)
    return found
