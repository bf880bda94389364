"""Which blade of a release or of a clone runs at once. Licence: public domain (CC0)."""
from __future__ import annotations

import os
import subprocess
from typing import Optional

# of the release or the clone
TOP = os.path.dirname(os.path.dirname(os.path.dirname(os.path.realpath(__file__))))


def version() -> str:
    """That of the program: VERSION stands above companions/ in a clone, in a release and where one is
    installed."""
    try:
        with open(os.path.join(TOP, "VERSION"), encoding="ascii") as file:
            return file.read().strip()
    except OSError:
        return "unknown"


def ready_program() -> Optional[str]:
    """The program of this release; or of this clone, if it is built or dist/ holds it
    (tools/building/program). Nothing is built here."""
    released, script = os.path.join(TOP, "libexec",
                                    "blade"), os.path.join(TOP, "tools", "building", "program")
    if os.access(released, os.X_OK):
        return released
    if not os.access(script, os.X_OK):
        return None
    found = subprocess.run([script], stdin=subprocess.DEVNULL, stdout=subprocess.PIPE, text=True, check=False)
    return found.stdout.rstrip("\n") if found.returncode == 0 else None
