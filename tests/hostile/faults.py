"""Runs a program whose system calls are refused in turn, by ptrace of Linux on x86-64; `starved` uses it.

A run counts the calls of one class, and from the one chosen on it is refused once, or from there on always: the call
isn't made, and the program gets the error, or a read or write is of fewer bytes than it asked for. A refused `brk` has
no error: as the system does, it answers where the end of the heap is and stays."""

import ctypes
import errno
import os
import signal

LIBC = ctypes.CDLL(None, use_errno=True)
LIBC.ptrace.restype = ctypes.c_long
LIBC.ptrace.argtypes = [ctypes.c_long, ctypes.c_long, ctypes.c_void_p, ctypes.c_void_p]
TRACEME, GETREGS, SETREGS, SYSCALL, SETOPTIONS = 0, 12, 13, 24, 0x4200
# Stops of system calls are told from signals; new threads are traced too; the program ends with its tracer.
OPTIONS = 1 | 2 | 4 | 8 | 0x100000
WALL, NONE = 0x40000000, 2**64 - 1
SYSCALLS = {
    "read": (0, 17, 19, 45, 47), "write": (1, 18, 20, 44, 46), "sync": (74, 75), "open": (2, 257),
    "rename": (82, 264, 316), "memory": (9, 12, 25),
}
ERRORS = {"read": errno.EIO, "write": errno.ENOSPC, "sync": errno.EIO, "open": errno.EMFILE, "rename": errno.EIO,
          "memory": errno.ENOMEM}
MMAP, BRK = 9, 12
ANONYMOUS, NAMES = 0x20, ("r15 r14 r13 r12 rbp rbx r11 r10 r9 r8 rax rcx rdx rsi rdi orig_rax rip cs eflags rsp ss "
                          "fs_base gs_base ds es fs gs").split()


class Registers(ctypes.Structure):
    _fields_ = [(name, ctypes.c_ulonglong) for name in NAMES]


def ptrace(request, process, data=None):
    if LIBC.ptrace(request, process, None, data) < 0:
        raise OSError(ctypes.get_errno(), "ptrace")


class Plan:
    """Which calls are refused: of a class, from the one of a number on (from 0), once or always, with an error or
    short."""

    def __init__(self, which, at, is_always=False, is_short=False):
        self.which, self.at, self.is_always, self.is_short = which, at, is_always, is_short
        self.seen, self.refused, self.is_begun, self.inside = 0, 0, False, {}

    def is_counted(self, registers):
        """Whether a call is one of the class: of the program itself, from the first file that it opens by name on."""
        number = registers.orig_rax
        if number not in SYSCALLS[self.which]:
            return False
        if number == MMAP:
            return registers.r10 & ANONYMOUS != 0
        if number == BRK:
            return registers.rdi != 0
        return not (self.which in ("read", "write") and registers.rdi == 2)

    def enters(self, process, registers):
        """A call begins; it is refused by making none of it."""
        if not self.is_begun or not self.is_counted(registers):
            return
        chosen = self.seen >= self.at if self.is_always else self.seen == self.at
        self.seen += 1
        if not chosen:
            return
        self.refused += 1
        # What is to be in a register once the call returns: its error, or a word that the call left as it was.
        if self.is_short:
            self.inside[process] = "rdx", registers.rdx
            registers.rdx = min(registers.rdx, 1 + registers.rdx // 2)
        elif registers.orig_rax == BRK:
            self.inside[process] = "rdi", registers.rdi
            registers.rdi = 0
        else:
            self.inside[process] = "rax", -ERRORS[self.which] & NONE
            registers.orig_rax = NONE
        ptrace(SETREGS, process, ctypes.byref(registers))

    def leaves(self, process, registers):
        name, word = self.inside.pop(process, (None, None))
        if name:
            setattr(registers, name, word)
            ptrace(SETREGS, process, ctypes.byref(registers))


def run(words, folder, output, plan, begins, seconds=60):
    """Runs a program under a plan, which begins when the program opens a file whose name has `begins`: its status, or
    the negative number of the signal that ended it."""
    child = os.fork()
    if child == 0:
        begin_child(words, folder, output)
    os.waitpid(child, 0)
    ptrace(SETOPTIONS, child, OPTIONS)
    ptrace(SYSCALL, child, None)
    entered, old = set(), signal.signal(signal.SIGALRM, lambda *_: os.kill(child, signal.SIGKILL))
    signal.alarm(seconds)
    try:
        while True:
            process, status = os.waitpid(-1, WALL)
            if os.WIFEXITED(status) or os.WIFSIGNALED(status):
                if process == child:
                    return os.waitstatus_to_exitcode(status)
                continue
            stop, send = os.WSTOPSIG(status), 0
            if stop == signal.SIGTRAP | 0x80:
                at_stop(process, entered, plan, begins)
            elif stop not in (signal.SIGTRAP, signal.SIGSTOP):
                send = stop
            LIBC.ptrace(SYSCALL, process, None, send)
    finally:
        signal.alarm(0)
        signal.signal(signal.SIGALRM, old)


def begin_child(words, folder, output):
    """In the child: becomes the program, traced."""
    os.chdir(folder)
    os.dup2(os.open(output, os.O_WRONLY | os.O_CREAT | os.O_TRUNC, 0o600), 1)
    os.dup2(os.open(os.devnull, os.O_RDWR), 0)
    os.dup2(0, 2)
    LIBC.ptrace(TRACEME, 0, None, None)
    try:
        os.execv(words[0], words)
    finally:
        os._exit(127)


def at_stop(process, entered, plan, begins):
    registers = Registers()
    ptrace(GETREGS, process, ctypes.byref(registers))
    if process in entered:
        entered.discard(process)
        plan.leaves(process, registers)
        return
    entered.add(process)
    if not plan.is_begun and registers.orig_rax in SYSCALLS["open"]:
        address = registers.rsi if registers.orig_rax == 257 else registers.rdi
        plan.is_begun = begins in text_at(process, address)
    plan.enters(process, registers)


def text_at(process, address):
    with open(f"/proc/{process}/mem", "rb") as memory:
        memory.seek(address)
        return memory.read(64).partition(b"\0")[0]
