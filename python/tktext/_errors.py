"""The error of a refused command."""

from __future__ import annotations

from typing import TYPE_CHECKING

from . import _core

if TYPE_CHECKING:
    import tkinter

    class TclError(tkinter.TclError):
        """Why a command was refused."""

        fault: str

else:
    try:
        from _tkinter import TclError
    except ImportError:

        class TclError(Exception):
            """Why a command was refused: `fault` is the core's message; the error's text may add a hint.

            It is tkinter's own class if that is installed.
            """


_WRONG_ARGUMENTS = "wrong # args"


def refusal(fault: str, more: str = "") -> TclError:
    """Returns the error of a core's message and a hint."""
    error = TclError(f"{fault}: {more}" if more else fault)
    error.fault = fault
    return error


def error_of_fault(words: list[bytes], fault: bytes) -> TclError:
    """Returns the error of a command's words and the core's message."""
    # A byte 0 would end a word or the message, so another byte is used that no name has.
    hint = _core.hint([word.replace(b"\0", b"\x01") for word in words], fault.replace(b"\0", b"\x01"))
    said = fault.decode("utf-8")
    if hint is None:
        return refusal(said)
    if said == _WRONG_ARGUMENTS:
        return refusal(said, f'should be "{words[0].decode("utf-8")} {hint}"')
    return refusal(said, f"must be {hint}")
