"""The program as a child: with this process's streams and signals, and its status at the end."""

import os
import resource
import signal
import stat
import subprocess
import threading

from texts import LARGEST_TEXT

FORWARDED = (signal.SIGTERM, signal.SIGHUP, signal.SIGINT, signal.SIGQUIT, signal.SIGUSR1,
             signal.SIGUSR2)


class Input:
    """Standard input of the program: what it was given can be read once more."""

    def __init__(self, is_used):
        self.kept, self.start = bytearray(), None
        try:
            mode = os.fstat(0).st_mode if is_used else 0
        except OSError:
            mode = 0
        self.is_copied = stat.S_ISFIFO(mode) or stat.S_ISCHR(mode) or stat.S_ISSOCK(mode)
        if stat.S_ISREG(mode):
            self.start = os.lseek(0, 0, os.SEEK_CUR)

    def copy_to(self, pipe):
        """Hands on all that comes, until the program takes no more."""
        try:
            while piece := os.read(0, 1 << 16):
                pipe.write(piece)
                if len(self.kept) <= LARGEST_TEXT:
                    self.kept += piece
        except OSError:
            pass
        try:
            pipe.close()
        except OSError:
            pass

    def data(self):
        if self.start is not None:
            return os.pread(0, LARGEST_TEXT, self.start)
        return bytes(self.kept)


def run(program, words, given, is_pipe_ignored):
    """Runs the program with what this process has, and returns its status, below 0 for a signal."""
    pipe = subprocess.PIPE if given.is_copied else None
    child = subprocess.Popen([program, *words], stdin=pipe, bufsize=0, close_fds=False,
                             restore_signals=not is_pipe_ignored)
    for number in FORWARDED:
        if signal.getsignal(number) is not signal.SIG_IGN:
            signal.signal(number, lambda number, _: child.send_signal(number))
    if given.is_copied:
        threading.Thread(target=given.copy_to, args=(child.stdin,), daemon=True).start()
    return child.wait()


def last_line(program, words, data):
    """Returns the last line that the program prints of the same words once more."""
    done = subprocess.Popen([program, *words], stdin=subprocess.PIPE, stdout=subprocess.PIPE)
    feeder = threading.Thread(target=feed, args=(done.stdin, data), daemon=True)
    feeder.start()
    tail = b""
    while piece := done.stdout.read(1 << 16):
        tail = (tail + piece)[-1000:]
    done.wait()
    return tail.decode("utf-8", "replace").rstrip("\n").rpartition("\n")[2]


def feed(pipe, data):
    try:
        pipe.write(data)
        pipe.close()
    except OSError:
        pass


def end_as(status):
    """Ends this process with a status, or by the signal that ended the program."""
    if status < 0:
        resource.setrlimit(resource.RLIMIT_CORE, (0, 0))
        if -status not in (signal.SIGKILL, signal.SIGSTOP):
            signal.signal(-status, signal.SIG_DFL)
        os.kill(os.getpid(), -status)
    os._exit(status if status >= 0 else 128 - status)
