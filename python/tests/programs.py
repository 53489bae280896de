"""Programs that stand in for trinorm in tests, and whether a process still runs."""
import os
from pathlib import Path


def script(folder: str, text: str) -> str:
    """A shell script. Returns its path."""
    path = os.path.join(folder, "program")
    with open(path, "w", encoding="utf8") as file:
        file.write("#!/bin/sh\n" + text)
    os.chmod(path, 0o755)
    return path


def is_running(process: int) -> bool:
    """Whether a process runs; one that has ended, and that nobody has waited for, does not."""
    try:
        return Path(f"/proc/{process}/stat").read_text("utf8").rpartition(")")[2].split()[0] not in "ZX"
    except OSError:
        return False
