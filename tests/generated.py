#!/usr/bin/env python3
"""Writes the scenario that `make N` plays: `tests/generated.py N > FILE`, for `fleet FILE`.

It is written from the rules of the generator, and not from the program's code, so that the sums of `make` can be compared
with those of what `fleet` prints of it.
"""

import sys

ROUNDS = 200
SUMS = [("installs", b"install "), ("outcomes", b"outcome "), ("drops", b"drop "), ("refused", b"refused ")]


def draws_from(number):
    state = number
    while True:
        state = (state * 1103515245 + 12345) % 2**31
        yield state // 65536


def scenario_of(number):
    """Returns the text of the scenario."""
    draws = draws_from(number)
    lines = [f"drone {sys_id}" for sys_id in range(1, 5)] + [f"station {sys_id} 190" for sys_id in range(251, 255)]
    for place in range(1, ROUNDS + 1):
        station = f"{251 + next(draws) % 4}.190"
        drone = f"{1 + next(draws) % 4}.1"
        items, course = 1 + next(draws) % 25, next(draws) % 4
        first, again = next(draws) % 60, 1 + next(draws) % 1000
        lines += ["empty", f"items {items} 6 16 {1000 * place} {2000 * place}", f"begin {station} {drone} mission"]
        if course > 0:
            lines.append(f"flow {first}")
        lines += [[], [f"cancel {station}"], [f"tick {station}"] * 5, [f"deliver {again} {drone}"]][course]
        lines.append("flow 200")
    return "".join(line + "\n" for line in lines).encode()


def sums_of(report):
    """Returns what `make` prints of the report of its scenario."""
    lines = report.splitlines(keepends=True)
    frames = sum(line[:1].isdigit() and line.split(b" ")[1].count(b".") == 1 for line in lines)
    sums = [f"rounds {ROUNDS}\n", f"frames {frames}\n"]
    sums += [f"{name} {sum(line.startswith(word) for line in lines)}\n" for name, word in SUMS]
    return "".join(sums).encode() + b"".join(line for line in lines if line.startswith(b"plan "))


if __name__ == "__main__":
    sys.stdout.buffer.write(scenario_of(int(sys.argv[1])))
