"""Paths as they are told. Licence: public domain (CC0)."""
from __future__ import annotations

import os

UPS = 2  # a path that goes further up from the current folder is told whole


def shown(path: str) -> str:
    """A path as a compiler was probably given it: from the current folder, where it stands below or near."""
    if not path:
        return ""
    near, common = os.path.relpath(path), os.path.commonpath([os.path.abspath(path), os.getcwd()])
    return path if near.count("../") > UPS or common == "/" != os.getcwd() else near
