"""How a run ended, as the program, the library and a server report it."""
from __future__ import annotations

from typing import Sequence

from .errors import REFUSED, USAGE, Failed, Refused, how_it_ended


def read_outcome(words: Sequence[str], status: int, said: bytes) -> str:
    """The text of a run that is done; else the refusal or the failure is raised."""
    answer = said.decode("ascii", "replace")
    if status == 0:
        return answer
    if status in REFUSED and answer.startswith("refused: "):
        refused = Refused(status, answer.rstrip("\n"))
        if status == USAGE:
            from .hints import usage  # which loads tables that nothing else here needs
            refused.hint = usage(words)
        raise refused
    raise Failed(f"{' '.join(words)}: {how_it_ended(status)}")
