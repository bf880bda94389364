"""What was found, as one page for the browser that needs nothing else. Licence: public domain (CC0)."""
from __future__ import annotations

import base64
import hashlib
import html
import json
import os
import re
from typing import Dict, List, Optional, Sequence, Tuple

from .causes import Cause
from .flow import Findings
from ..formats.image import Command, Image, Operand
from ..c.lines import Line, Lines
from ..formats.operators import ACCESS_NAMES, KINDS
from ..formats.certificate import Protect, function_name
from .evidence import Evidence
from .text import by_line, declared_text, evidence_text, kinds_text, verdict_text
from ..printing import all_printable, printable

WAYS = 12  # so many ends of a cause get a way that can be clicked
STEPS = 200  # so many sites of a way are kept, half of them at each end


def operand_text(image: Image, operand: Operand) -> str:
    return image.variable_name(operand.value) if operand.is_variable else str(operand.value)


def command_text(image: Image, command: Command) -> str:
    """A command in words."""
    operands = " ".join(operand_text(image, operand) for operand in command.operands)
    if command.kind == "Set":
        return f"{image.variable_name(command.writes)} = {KINDS.get(command.operator, '?')} {operands}"
    if command.kind == "Load":
        return (f"{image.variable_name(command.writes)} = {ACCESS_NAMES.get(command.operator, 'load')} "
                f"{operands} of memory {command.memory}")
    if command.kind == "Store":
        return f"{ACCESS_NAMES.get(command.operator, 'store')} {operands} to memory {command.memory}"
    if command.kind in ("Arg", "Out"):
        return f"{command.kind} {image.variable_name(command.writes)} = {operands}"
    return " ".join([command.kind, operands, *map(str, command.targets)]).replace("  ", " ").strip()


class Files:
    """The files of lines by number, and of each the lines from the first to the last one that has code, with
    two before."""

    def __init__(self, lines: Lines) -> None:
        self.lines = lines
        self.numbers: Dict[str, int] = {}
        self.ranges: List[Tuple[int, int]] = []

    def place(self, line: Line) -> Tuple[int, int]:
        """The number of a line's file, and its own; -1 where it has none."""
        if not line.number:
            return -1, 0
        at = self.numbers.setdefault(line.path, len(self.numbers))
        if at == len(self.ranges):
            self.ranges.append((line.number, line.number))
        first, last = self.ranges[at]
        self.ranges[at] = min(first, line.number), max(last, line.number)
        return at, line.number

    def data(self) -> List[dict]:
        found = []
        for path, (first, last) in zip(self.numbers, self.ranges):
            first = max(1, first - 2)
            found.append({"name": os.path.basename(path), "first": first, "lines": [
                text.replace("\t", "    ") for text in self.lines.sources.lines(path)[first - 1 : last]]})
        return found


def listing_of(image: Image, lines: Lines, files: Files) -> List[dict]:
    """Each function with its commands: position, command, instruction, and the numbers of its file and line
    of C."""
    found = []
    for number, function in enumerate(image.functions):
        rows = []
        for position in range(function.entry, function.entry + function.length):
            spot = lines.spot(position)
            told = lines.instruction(position) if spot and spot.row.position == position else ""
            rows.append([position, command_text(image, image.commands[position]), told,
                         *files.place(lines.line(position))])
        found.append({"name": function_name(number, image, lines), "rows": rows})
    return found


def cause_data(number: int, cause: Cause, lines: Lines) -> dict:
    """A cause as the page has it: its texts, its loads, and ways to its ends."""
    ways = []
    for same in by_line(cause, lines)[:WAYS] if cause.reach else []:
        way = cause.way(same[0])
        place = lines.place(way.end.position)
        sites = way.sites if len(way.sites) <= STEPS else way.sites[: STEPS // 2] + way.sites[-STEPS // 2 :]
        ways.append({"text": f"{way.end.kind} {place} {way.end.position}", "more": len(same) - 1,
                     "sites": sites, "end": way.end.position})
    return {
        "number": number, "ends": cause.ends, "kinds": kinds_text(cause.counts),
        "place": f"{cause.declared} {cause.place}".strip(), "source": cause.source, "loads": cause.loads,
        "reason": cause.observed or str(cause.likely or ""), "ways": ways}


def protect_data(protect: Protect, lines: Lines) -> dict:
    sites, sink = protect.reason or ([protect.position], protect.position)
    return {"at": protect.position, "weight": protect.weight, "place": lines.place(protect.position),
            "sites": sites, "sink": sink}


def page_of(path: str, found: Findings, causes: Sequence[Cause], protects: Sequence[Protect], lines: Lines,
            evidence: Optional[Evidence] = None) -> str:
    if lines.has_lines:
        lines.ask(range(7, len(found.image.commands)))
    files = Files(lines)
    data = {
        "declared": declared_text(found), "verdict": verdict_text(found, (), evidence),
        "evidence": list(evidence_text(evidence, lines)) if evidence else [],
        "witnessed": evidence.witness.end(found.image) if evidence and evidence.witness else None,
        "functions": listing_of(found.image, lines, files), "files": files.data(),
        "causes": [cause_data(number, cause, lines) for number, cause in enumerate(causes, 1)],
        "protects": [protect_data(protect, lines) for protect in protects],
        "refused": sorted({end.position for end in found.refused})}
    with open(os.path.join(os.path.dirname(os.path.abspath(__file__)), "page.html"),
              encoding="utf-8") as file:
        template = file.read()
    words = {"TITLE": html.escape(printable(os.path.basename(path))), "DATA": spelled(data),
             "POLICY": policy(template)}
    return re.sub("@([A-Z]+)@", lambda found: words[found[1]], template)


def spelled(data: dict) -> str:
    """JSON in which nothing ends the element that it stands in, or begins another."""
    text = json.dumps(all_printable(data), separators=(",", ":"))
    return text.replace("<", "\\u003c").replace(">", "\\u003e").replace("&", "\\u0026")


def policy(template: str) -> str:
    """Lets the browser run the page's own script, show its own style, and ask for nothing."""
    hashes = [base64.b64encode(hashlib.sha256(found.encode()).digest()).decode()
              for name in ("script", "style")
              for found in re.findall(f"<{name}>(.*?)</{name}>", template, re.DOTALL)]
    script, style = hashes
    return (f"default-src 'none'; script-src 'sha256-{script}'; style-src 'sha256-{style}'; base-uri "
            "'none'; form-action 'none'")
