"""The exit statuses that all tools share; docs/CLI.md has their table. Licence: public domain (CC0)."""
from __future__ import annotations

DONE = YES = 0
NO = 1  # the answer is no
USAGE = 2
INPUT = 3  # a file isn't there, can't be read or written, or isn't as it should be
GAVE_UP = 4  # there is no answer: a tool is missing, time or a bound is over, or two tools don't agree
LOST = 5  # a label is wrong or was lost, so that a secret would be public
INTERRUPTED = 130  # by SIGINT
