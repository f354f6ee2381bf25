"""Interruptions at places of the package at which Python may call a signal handler."""
import dis
import os
import sys
from functools import lru_cache

import prefq

NEVER = 60
PACKAGE = os.path.dirname(prefq.__file__)
SEED = 1
TIMES = int(os.environ.get("PREFQ_TIMES", "1"))


class Interruption(BaseException):
    """What a signal handler raises, as KeyboardInterrupt is raised by Ctrl-C."""


class Interrupter:
    """Raises an interruption at the n-th place of the package at which Python may call a signal handler: behind a call, and at the begin of a function."""

    def __init__(self, place):
        self.left, self.where = place, None

    def runs(self, function):
        before = sys.gettrace()
        sys.settrace(self)
        try:
            function()
        finally:
            sys.settrace(before)

    def __call__(self, frame, event, _):
        if os.path.dirname(frame.f_code.co_filename) != PACKAGE:
            return None
        frame.f_trace_opcodes = True
        if event == "opcode" and frame.f_lasti in places_of(frame.f_code):
            self.left -= 1
            if self.left == 0:
                self.where = f"{os.path.basename(frame.f_code.co_filename)}, line {frame.f_lineno}"
                self.interrupts()
        return self

    def interrupts(self):
        raise Interruption


class Handler(Interrupter):
    """Calls a signal handler there, which returns."""

    def __init__(self, place, handler):
        super().__init__(place)
        self.interrupts = handler


@lru_cache(maxsize=None)
def places_of(code):
    """The offsets of the instructions before which Python may call a signal handler. It does so as a part of the call that is over: where only that call is in a `with`
    or a `try`, what is raised there is handled there, and cannot be raised at the next instruction."""
    instructions = list(dis.get_instructions(code))
    return {after.offset for before, after in zip(instructions, instructions[1:])
            if before.opname in ("CALL", "CALL_FUNCTION_EX", "CALL_KW", "RESUME") and handler_of(code, before.offset) == handler_of(code, after.offset)}


def handler_of(code, offset):
    """Where what is raised at an instruction is handled; None where it leaves the function."""
    return next((entry.target for entry in dis._parse_exception_table(code) if entry.start <= offset < entry.end), None)
