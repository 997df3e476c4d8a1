"""An open handle, as a machine, a host and a controller have one."""

from __future__ import annotations

from ctypes import byref
from types import TracebackType
from typing import Any, Dict, List, Optional, Type, TypeVar

from ._library import Answer, Handle
from .words import Code, Collected, Hints, Refused, State, Status

Self = TypeVar("Self", bound="Opened")


class Opened:
    """An open handle. Used by `with`, or closed by `close`."""

    def __init__(self, functions: Dict[str, Any]) -> None:
        self._functions = functions
        self._handle = Handle()
        self._answer = Answer()
        self._at, self._told = byref(self._handle), byref(self._answer)

    def __enter__(self: Self) -> Self:
        return self

    def __exit__(self, kind: Optional[Type[BaseException]], why: Optional[BaseException], trace: Optional[TracebackType]) -> None:
        self.close()

    def __del__(self) -> None:
        if getattr(self, "_at", None) is not None:
            self.close()

    def close(self) -> None:
        """Lets all go, whatever is outstanding. A handle that is closed refuses each call with CLOSED_HANDLE."""
        self._functions["close"](self._at)

    def _code(self, name: str, *arguments: object) -> int:
        return int(self._functions[name](self._at, *arguments, self._told))

    def _call(self, name: str, *arguments: object) -> Answer:
        """Makes a call that writes an answer."""
        code = self._code(name, *arguments)
        if code != Code.DONE:
            left = self._answer.cid if self._answer.state == State.LEFT else None
            raise Refused(name, code, self._answer.need, self._answer.free, self._touched(), left)
        return self._answer

    def _look(self, name: str, *arguments: object) -> None:
        """Makes a call that writes none."""
        code = self._functions[name](self._at, *arguments)
        if code != Code.DONE:
            raise Refused(name, code)

    def _touched(self) -> List[int]:
        return list(self._answer.touched[: self._answer.touched_count])

    def _status(self) -> Status:
        return Status(self._answer.sct, self._answer.sc)

    def _collected(self) -> Collected:
        told = self._answer
        collected = Collected(told.sct, told.sc)
        collected.hints = Hints(told.retry_delay, told.more, told.do_not_retry)
        collected.tag = int(told.tag)
        return collected
