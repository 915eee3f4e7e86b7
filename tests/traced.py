"""Runs a program under the system's own tracing (ptrace), and has one of its requests for memory fail.

For Linux on x86-64, with nothing but Python's standard library. A request is a call of `malloc` or `realloc` that the
program itself makes. They are counted from 1, in the order of one thread: the program is to start no other. Where the
number is reached, the call answers at once that there is no memory, as the C library does where it has none.
"""
import contextlib
import ctypes
import functools
import os
import platform
import signal
import struct
import subprocess
import tempfile

SECONDS = 120
CALLS = ("malloc", "realloc")

# the system's numbers
TRACE_ME, CONTINUE, STEP, GET_REGISTERS, SET_REGISTERS, SET_OPTIONS = 0, 7, 9, 12, 13, 0x4200
KILL_WITH_TRACER = 0x100000
ENTRY_OF_PROGRAM = 9
TRAP = b"\xcc"
# an instruction without effect, by which functions begin that may be jumped to
ENDBR64 = b"\xf3\x0f\x1e\xfa"

LIBC = ctypes.CDLL(None, use_errno=True)
LIBC.ptrace.argtypes = [ctypes.c_long, ctypes.c_long, ctypes.c_void_p, ctypes.c_void_p]
LIBC.ptrace.restype = ctypes.c_long


class Registers(ctypes.Structure):
    """The registers of a thread that is stopped."""

    _fields_ = [(name, ctypes.c_ulonglong) for name in """r15 r14 r13 r12 rbp rbx r11 r10 r9 r8 rax rcx rdx rsi rdi
                orig_rax rip cs eflags rsp ss fs_base gs_base ds es fs gs""".split()]  # fmt: skip


class CannotTrace(Exception):
    """The system lets no program be traced, or `malloc` isn't found in this one."""


class Ran:
    """What a run came to: its exit status (below 0 a signal's number), what it wrote, how many requests it made up to
    the one that was refused, whether one was refused, and whether it had read of its input before."""

    def __init__(self, status, out, notes, requests, refused, had_read):
        self.status, self.out, self.notes = status, out, notes
        self.requests, self.refused, self.had_read = requests, refused, had_read


def ask(what, pid, where=None, data=None):
    """A request of the tracer to the system."""
    if LIBC.ptrace(what, pid, where, data) < 0:
        raise CannotTrace(f"ptrace: {os.strerror(ctypes.get_errno())}")


@functools.lru_cache(maxsize=None)
def symbols_of(path):
    """Where the functions stand that an ELF file defines, and its entry. Addresses are those in the file."""
    with open(path, "rb") as file:
        text = file.read()
    if text[:5] != b"\x7fELF\x02":
        raise CannotTrace(f"{path} is no ELF file of 64 bits")
    entry, _, sections, _, _, _, _, size, count = struct.unpack_from("<QQQIHHHHH", text, 24)
    heads = [struct.unpack_from("<IIQQQQIIQQ", text, sections + i * size) for i in range(count)]
    found = {}
    for kind, start, length, names in ((it[1], it[4], it[5], it[6]) for it in heads):
        if kind not in (2, 11):
            continue
        for at in range(start, start + length, 24):
            name, _, _, section, value, _ = struct.unpack_from("<IBBHQQ", text, at)
            if section:
                first = heads[names][4] + name
                found[text[first : text.index(b"\0", first)].decode(errors="replace")] = value
    return found, entry


def entry_of(pid):
    """Where the program's entry stands in memory."""
    with open(f"/proc/{pid}/auxv", "rb") as file:
        words = file.read()
    pairs = dict(struct.iter_unpack("<QQ", words))
    return pairs[ENTRY_OF_PROGRAM]


def mapped(pid, ending):
    """The first address of the file whose path ends so, the first beyond it, and its path."""
    lows, highs, path = [], [], None
    with open(f"/proc/{pid}/maps", encoding="utf-8") as file:
        for line in file:
            parts = line.split(maxsplit=5)
            if len(parts) == 6 and parts[5].strip().endswith(ending):
                low, high = (int(it, 16) for it in parts[0].split("-"))
                lows, highs, path = lows + [low], highs + [high], parts[5].strip()
    if path is None:
        raise CannotTrace(f"the program has no file {ending} in memory")
    return min(lows), max(highs), path


class Tracer:
    """A program that is stopped before its first instruction."""

    def __init__(self, program, pid):
        self.pid, self.program = pid, os.path.realpath(program)
        self.stopped()
        ask(SET_OPTIONS, pid, None, KILL_WITH_TRACER)
        self.memory = os.open(f"/proc/{pid}/mem", os.O_RDWR)
        self.registers = Registers()
        self.traps = {}

    def stopped(self):
        """Waits until the program stops. The answer is the signal, or none where it has ended: then how."""
        _, told = os.waitpid(self.pid, 0)
        if os.WIFSTOPPED(told):
            return os.WSTOPSIG(told), None
        return None, os.waitstatus_to_exitcode(told)

    def go_on(self, with_signal=0):
        ask(CONTINUE, self.pid, None, with_signal)
        return self.stopped()

    def read_registers(self):
        ask(GET_REGISTERS, self.pid, None, ctypes.addressof(self.registers))

    def write_registers(self):
        ask(SET_REGISTERS, self.pid, None, ctypes.addressof(self.registers))

    def set_trap(self, at):
        self.traps[at] = os.pread(self.memory, len(ENDBR64), at)
        os.pwrite(self.memory, TRAP, at)

    def clear_traps(self):
        for at, text in self.traps.items():
            os.pwrite(self.memory, text[:1], at)
        self.traps = {}

    def trap_requests(self):
        """Lets the program come to its entry, and sets traps at the calls. The answer is where its own code is."""
        entry = entry_of(self.pid)
        self.set_trap(entry)
        told, _ = self.go_on()
        if told != signal.SIGTRAP:
            raise CannotTrace("the program doesn't come to its entry")
        self.clear_traps()
        self.read_registers()
        self.registers.rip = entry
        self.write_registers()
        functions, entry_in_file = symbols_of(self.program)
        base = entry - entry_in_file
        if any(name not in functions for name in CALLS):
            base, _, library = mapped(self.pid, "libc.so.6")
            functions, _ = symbols_of(library)
        for name in CALLS:
            self.set_trap(base + functions[name])
        low, high, _ = mapped(self.pid, self.program)
        return low, high

    def pass_trap(self, at):
        """Goes on behind the trap as if it weren't there."""
        if self.traps[at] == ENDBR64:
            self.registers.rip = at + len(ENDBR64)
            self.write_registers()
            return
        os.pwrite(self.memory, self.traps[at][:1], at)
        self.registers.rip = at
        self.write_registers()
        ask(STEP, self.pid)
        self.stopped()
        os.pwrite(self.memory, TRAP, at)

    def caller(self):
        return int.from_bytes(os.pread(self.memory, 8, self.registers.rsp), "little")

    def refuse(self):
        """Has the call answer that there is no memory."""
        self.registers.rip, self.registers.rax = self.caller(), 0
        self.registers.rsp += 8
        self.write_registers()

    def run(self, number, input_file):
        """Runs to the end. The answer is the status, the number of requests, and as `Ran` has them."""
        low, high = self.trap_requests()
        requests, refused, had_read = 0, False, False
        told, ended = self.go_on()
        while ended is None:
            at = 0
            if told == signal.SIGTRAP and self.traps:
                self.read_registers()
                at = self.registers.rip - 1
            if at in self.traps:
                requests += low <= self.caller() < high
                if requests == number:
                    refused, had_read = True, os.lseek(input_file, 0, os.SEEK_CUR) > 0
                    self.refuse()
                    self.clear_traps()
                else:
                    self.pass_trap(at)
                told, ended = self.go_on()
            else:
                told, ended = self.go_on(told)
        return ended, requests, refused, had_read


def be_traced():
    """What the new process does before it becomes the program. The alarm ends a run that hangs."""
    signal.alarm(SECONDS)
    LIBC.ptrace(TRACE_ME, 0, None, None)


def run_refusing(program, words, folder, text, number):
    """Runs the program in the folder with these words and this input, and refuses the request of this number; with 0
    none."""
    if platform.machine() != "x86_64" or not os.path.exists("/proc/self/mem"):
        raise CannotTrace("this isn't Linux on x86-64")
    with contextlib.ExitStack() as files:
        given, out, notes = (files.enter_context(tempfile.TemporaryFile()) for _ in range(3))
        given.write(text)
        given.flush()
        given.seek(0)
        process = subprocess.Popen(
            [program, *words], cwd=folder, stdin=given, stdout=out, stderr=notes, preexec_fn=be_traced
        )
        tracer = None
        try:
            tracer = Tracer(program, process.pid)
            status, requests, refused, had_read = tracer.run(number, given.fileno())
            process.returncode = status
        finally:
            if tracer is not None:
                os.close(tracer.memory)
            if process.returncode is None:
                process.kill()
                process.wait()
        out.seek(0)
        notes.seek(0)
        return Ran(status, out.read(), notes.read(), requests, refused, had_read)
