"""A system that moves one byte a call, interrupts each second call, and fails late.

`run_slowly` runs a program on it, by `ptrace`, as a debugger would: it needs Linux on x86-64, and no tool. What the
program asks of the files that it opens by a relative name, and of standard output, is changed at each call.
"""
import ctypes
import errno
import os
import signal
import tempfile
from asked import answer_help

answer_help(__name__, __doc__)

TRACE_ME, GET_REGISTERS, SET_REGISTERS, TO_NEXT_CALL, SET_OPTIONS = 0, 12, 13, 24, 0x4200
# Stops at calls are told from signals, and no program outlives this one.
OPTIONS = 0x1 | 0x100000
CALL_STOP = signal.SIGTRAP | 0x80
READ, WRITE, SYNC, SYNC_DATA, OPEN = 0, 1, 74, 75, 257
NO_CALL = (1 << 64) - 1
STANDARD_OUTPUT = 1
NAMES = "r15 r14 r13 r12 rbp rbx r11 r10 r9 r8 rax rcx rdx rsi rdi orig_rax rip cs eflags rsp ss fs_base gs_base ds es fs gs"

libc = ctypes.CDLL(None, use_errno=True)
libc.ptrace.argtypes = [ctypes.c_long, ctypes.c_long, ctypes.c_void_p, ctypes.c_void_p]
libc.ptrace.restype = ctypes.c_long


class Registers(ctypes.Structure):
    _fields_ = [(name, ctypes.c_uint64) for name in NAMES.split()]


def trace(request, process, data=None):
    if libc.ptrace(request, process, None, data) < 0:
        raise OSError(ctypes.get_errno(), f"ptrace {request}")


class SlowSystem:
    """What it refuses, if it refuses something: reads behind so many, to put a file on its disk, standard output."""

    def __init__(self, process, reads=None, sync=None, output=None):
        self.process, self.reads, self.sync, self.output = process, reads, sync, output
        self.files = set()
        self.calls = self.whole_reads = 0
        self.opens = False
        # What the program hears in place of an answer.
        self.refusal = None

    def name_at(self, address):
        with open(f"/proc/{self.process}/mem", "rb", 0) as memory:
            memory.seek(address)
            return memory.read(256).split(b"\0")[0]

    def refusal_of(self, call, file):
        """The error that a call on a file comes to, if it is refused or interrupted."""
        if call in (SYNC, SYNC_DATA):
            return self.sync
        self.calls += 1
        if self.calls % 2 == 1:
            return errno.EINTR
        if file == STANDARD_OUTPUT:
            return self.output
        if call == READ:
            self.whole_reads += 1
            if self.reads is not None and self.whole_reads > self.reads:
                return errno.EIO
        return None

    def begin(self, registers):
        """A call begins: it is not made where it is refused, and else moves one byte."""
        call, file = registers.orig_rax, registers.rdi
        self.opens = call == OPEN and not self.name_at(registers.rsi).startswith(b"/")
        is_ours = file in self.files or (call == WRITE and file == STANDARD_OUTPUT)
        if not is_ours or call not in (READ, WRITE, SYNC, SYNC_DATA):
            return False
        self.refusal = self.refusal_of(call, file)
        if self.refusal is not None:
            registers.orig_rax = NO_CALL
        elif call in (READ, WRITE):
            registers.rdx = min(registers.rdx, 1)
        return True

    def end(self, registers):
        """A call ends: what was refused is told, and which file was opened is known."""
        if self.opens and registers.rax < 1 << 16:
            self.files.add(registers.rax)
        if self.refusal is None:
            return False
        registers.rax = (1 << 64) - self.refusal
        self.refusal = None
        return True

    def follow(self):
        """Goes on from call to call until the program ends. Its status."""
        registers = Registers()
        begins, handed_on = True, None
        while True:
            trace(TO_NEXT_CALL, self.process, handed_on)
            _, status = os.waitpid(self.process, 0)
            if not os.WIFSTOPPED(status):
                return os.waitstatus_to_exitcode(status)
            handed_on = None
            if os.WSTOPSIG(status) != CALL_STOP:
                handed_on = os.WSTOPSIG(status)
                continue
            trace(GET_REGISTERS, self.process, ctypes.byref(registers))
            if self.begin(registers) if begins else self.end(registers):
                trace(SET_REGISTERS, self.process, ctypes.byref(registers))
            begins = not begins


def start(words, folder, output, errors):
    """A process that stops before the program's first step."""
    process = os.fork()
    if process:
        return process
    try:
        os.chdir(folder)
        os.dup2(output.fileno(), 1)
        os.dup2(errors.fileno(), 2)
        libc.ptrace(TRACE_ME, 0, None, None)
        os.execv(words[0], words)
    finally:
        os._exit(127)


def run_slowly(words, folder, **refused):
    """The status, and what the program says on standard output and on standard error."""
    with tempfile.TemporaryFile() as output, tempfile.TemporaryFile() as errors:
        process = start(words, folder, output, errors)
        os.waitpid(process, 0)
        trace(SET_OPTIONS, process, OPTIONS)
        status = SlowSystem(process, **refused).follow()
        output.seek(0)
        errors.seek(0)
        return status, output.read(), errors.read()
