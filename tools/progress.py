"""progress.py FOLDER LOG: tells on standard error how far a build is, from what `rt ci` prints.

FOLDER has the sources that are built. The first line says how long it will take here. On a terminal
one line follows that is written again and again, elsewhere one at each quarter.
"""

import glob
import os
import re
import select
import signal
import sys
import time

# Processor minutes a line, as measured: the crates of `fleet`, with 97,500 lines, took 26 to 65,
# and 10 to 26 minutes by the clock on four processors, 13 on two of a fast host.
FASTEST, SLOWEST = 26 / 97_500, 65 / 97_500
# The longest chain of crates takes this part of the whole, however many processors there are.
CHAIN = 0.4
DONE = re.compile(rb"rt: ([a-z0-9_]+) (proved$|is kept)")


def lines_of(folder, crate):
    """Returns how many lines of sources a crate has."""
    paths = [path for part in ("src", "specs", "proofs")
             for path in glob.glob(f"{folder}/crates/{crate}/{part}/**", recursive=True)]
    return sum(open(path, "rb").read().count(b"\n") for path in paths if os.path.isfile(path))


def minutes_text(seconds):
    minutes = round(seconds / 60)
    return "less than a minute" if minutes < 1 else f"{minutes} minute{'s' * (minutes != 1)}"


class Progress:
    """How far the build is."""

    def __init__(self, folder, out):
        with open(folder + "/crates.txt", encoding="utf-8") as file:
            names = [line.partition(":")[0].strip() for line in file if ":" in line]
        self.lines = {name: lines_of(folder, name) for name in names}
        self.out, self.done, self.begun = out, set(), time.monotonic()
        self.is_terminal, self.quarter = out.isatty(), 0

    def begin(self):
        processors = len(os.sched_getaffinity(0))
        work = sum(self.lines.values()) * max(1 / processors, CHAIN)
        low, high = (max(1, round(work * each)) for each in (FASTEST, SLOWEST))
        self.say(f"proving {len(self.lines)} crates, which takes about {low} to {high} minutes on"
                 f" {processors} processor{'s' * (processors != 1)} the first time; `bin/bevuntri"
                 " --unproved ..` runs the program before, unproved", "\n")

    def say(self, text, end):
        start = "\r\033[K" if self.is_terminal else ""
        print(f"{start}bevuntri: {text}", end=end, file=self.out, flush=True)

    def far(self):
        """Returns how far the build is, and how long the rest takes at this pace."""
        passed = time.monotonic() - self.begun
        part = sum(self.lines[name] for name in self.done) / max(1, sum(self.lines.values()))
        text = f"{len(self.done)} of {len(self.lines)} crates are proved after "
        text += f"{int(passed) // 60}:{int(passed) % 60:02d}"
        if 0.05 < part < 1:
            text += f", about {minutes_text(passed / part - passed)} more"
        return text, part

    def take(self, line):
        """Takes a line of the build."""
        match = DONE.match(line)
        if match and match[1].decode() in self.lines:
            self.done.add(match[1].decode())
            text, part = self.far()
            if not self.is_terminal and int(part * 4) > self.quarter:
                self.quarter = int(part * 4)
                self.say(text, "\n")

    def tick(self):
        if self.is_terminal:
            self.say(self.far()[0], "")

    def end(self):
        if self.is_terminal:
            self.say(self.far()[0], "\n")


def main(folder, log_name):
    progress, rest = Progress(folder, sys.stderr), b""
    progress.begin()
    with open(log_name, "wb") as log:
        while True:
            progress.tick()
            if not select.select([0], [], [], 1)[0]:
                continue
            piece = os.read(0, 1 << 16)
            if not piece:
                break
            log.write(piece)
            log.flush()
            *lines, rest = (rest + piece).split(b"\n")
            for line in lines:
                progress.take(line)
    progress.end()


try:
    main(*sys.argv[1:])
except KeyboardInterrupt:
    print(file=sys.stderr)
    signal.signal(signal.SIGINT, signal.SIG_DFL)
    os.kill(os.getpid(), signal.SIGINT)
