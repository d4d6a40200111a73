"""A drone and a station that hostile peers are set on; `attack` uses them.

Each function runs the program under one attack, and returns how much memory it took at most, in KiB, and how many
datagrams or pieces were sent at it. What isn't as it should be is a `Differs`.
"""

import os
import socket
import time

import peers
from stores import NoStore, stored
from victims import Run
from peer import MISSION, Differs, Station, UdpEnd, mission
from wire import await_bound, free_port

UNDER_ATTACK, PATIENCE = 0.7, 40


def drone(program, folder, attack, sources, end):
    """A drone with a store under attack over UDP, or over TCP if it is said how the peer ends: it then takes a plan
    from an honest station, and so does a drone that starts on the store again."""
    port = free_port(socket.SOCK_DGRAM if end is None else socket.SOCK_STREAM)
    kind = "udplisten" if end is None else "listen"
    run = Run(program, folder, "drone", "--key", "key", "--store", "store", "1", f"{kind}:127.0.0.1:{port}")
    try:
        if end is None:
            await_bound(port, time.monotonic() + 10)
            hostile = peers.Datagrams(port, attack, (1, 1), sources)
        else:
            hostile = peers.Stream(port, attack, (1, 1), end)
        hostile.start()
        time.sleep(UNDER_ATTACK)
        memory = run.memory() if end is None else run.memory() if run.child.poll() is None else 0
        hostile.stop()
        if end is None:
            plan(port, 7)
            memory = run.memory()
        else:
            run.ends(PATIENCE, 0, 12)
    finally:
        run.stop()
    again(program, folder, end is None)
    return memory, hostile.sent


def plan(port, count):
    station = Station(UdpEnd(port), time.monotonic() + PATIENCE)
    station.upload(MISSION, mission(count))
    if station.download(MISSION) != mission(count):
        raise Differs("the drone shows another plan than was uploaded")
    station.end.close()


def again(program, folder, has_plan):
    """A drone starts on the store that was left, with the plan that it acknowledged, and takes another."""
    try:
        _, plans = stored(os.path.join(folder, "store"))
    except NoStore as fault:
        raise Differs(str(fault)) from None
    if has_plan and plans[0] != mission(7):
        raise Differs("the store doesn't have the plan")
    port = free_port(socket.SOCK_DGRAM)
    run = Run(program, folder, "drone", "--key", "key", "--store", "store", "1", f"udplisten:127.0.0.1:{port}")
    try:
        await_bound(port, time.monotonic() + 10)
        plan(port, 3)
    finally:
        run.stop()


def station(program, folder, attack, sources, statuses):
    """A station whose drone is a hostile peer: it gives up, or is told something by one that has the key."""
    port = free_port(socket.SOCK_DGRAM)
    run = Run(program, folder, "station", "--key", "key", "--ticks", "4", "255", "190", "1",
              f"udplisten:127.0.0.1:{port}", "get", "mission")
    try:
        await_bound(port, time.monotonic() + 10)
        hostile = peers.Datagrams(port, attack, (255, 190), sources)
        hostile.start()
        time.sleep(UNDER_ATTACK / 2)
        memory = run.memory() if run.child.poll() is None else 0
        status = run.ends(PATIENCE, *statuses)
        hostile.stop()
        if status == 9 and run.lines()[-1] != "no answer 4":
            raise Differs(f"its last line is {run.lines()[-1]!r}")
    finally:
        run.stop()
    return memory, hostile.sent
