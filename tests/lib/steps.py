"""Takes a held thread of a server on, instruction by instruction, to where it stores what other threads read."""
import ctypes
import os

from tests.lib.threads import ALL_THREADS, LIBC, trace

STEP, REGISTERS = 9, 12
# Where user_regs_struct has the number of a call of the system and the next instruction, among its words.
WORDS, RAX, RIP = 27, 10, 16
# The instruction that calls the system, and the numbers of epoll_wait and epoll_pwait.
CALL, WAITS = b"\x0f\x05", (232, 281)
# A thread takes no more steps on its way to rest.
MOST = 2_000_000


def is_exchange(code):
    """Whether an instruction exchanges a register with memory, as an atomic store does on x86-64."""
    if 0x40 <= code[0] < 0x50:  # (the prefix of the upper registers)
        code = code[1:]
    return code[0] in (0x86, 0x87) and code[1] < 0xC0


def takes_to_store(pid, thread, nth):
    """Takes a held thread to right before its nth atomic store, from 0, and gives whether there is one before it waits for events."""
    registers = (ctypes.c_ulong * WORDS)()
    with open(f"/proc/{pid}/mem", "rb", buffering=0) as memory:
        for _ in range(MOST):
            if LIBC.ptrace(REGISTERS, thread, None, ctypes.cast(registers, ctypes.c_void_p)) < 0:
                raise OSError(ctypes.get_errno(), "a thread's registers can't be read")
            code = os.pread(memory.fileno(), 3, registers[RIP])
            if is_exchange(code):
                if nth == 0:
                    return True
                nth -= 1
            elif code[:2] == CALL and registers[RAX] in WAITS:
                return False
            trace(STEP, thread)
            os.waitpid(thread, ALL_THREADS)
    raise AssertionError(f"it hasn't waited for events after {MOST} steps")
