"""Why something was refused."""

from __future__ import annotations

from typing import Dict, Optional

from .enums import ErrorCode

ERRORS: Dict[int, str] = {
    ErrorCode.MALFORMED: "malformed",
    ErrorCode.BAD_MAGIC: "bad magic",
    ErrorCode.SHORT: "out of the bytes, or no text",
    ErrorCode.TOO_MANY: "too many",
    ErrorCode.NO_MEMORY: "out of memory",
    ErrorCode.NO_ROWS: "no rows",
    ErrorCode.NO_SPACE: "no space",
    ErrorCode.NO_IMAGE: "no image",
}
_CODES = {words: code for code, words in ERRORS.items()}


class Refused(Exception):
    """Why something was refused. `code` is the number of the reason, one of `ErrorCode`, and `words`, its text, says more. It can be copied
    and pickled. `ERRORS` has the words of each code."""

    def __init__(self, code: int, words: str) -> None:
        super().__init__(code, words)
        self.code, self.words = code, words

    def __str__(self) -> str:
        return self.words


def again(error: Refused) -> Refused:
    """Returns an error with the same code and text, without a traceback."""
    return Refused(error.code, error.words)


def code_of(error: Optional[str]) -> int:
    """Returns the code of an item's `error`, or 0 if that is None."""
    return 0 if error is None else int(_CODES[error])
