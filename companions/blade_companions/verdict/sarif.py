"""What is refused, for scripts (JSON, by problems.schema.json) and for code scanning and editors (SARIF
2.1.0). Licence: public domain (CC0)."""
from __future__ import annotations

import hashlib
import json
import os
import re
from typing import Optional, Sequence, Tuple

from .diagnostics import ERROR, RULES, Problem, Rule, Told, problem_text
from ..c.lines import Line, Lines
from ..programs import TOP

PROTECT = "blade-protect"
PAGE = os.path.join(TOP, "docs", "rules.md")  # which has a section for each rule
SCHEMA = "https://json.schemastore.org/sarif-2.1.0.json"


def line_object(line: Line) -> Optional[dict]:
    return {"file": line.path, "line": line.number, "column": line.column} if line.number else None


def as_json(told: Told, image: str, modules: Sequence[str]) -> str:
    found = told.found
    secrets = {
        "parameters": [[number, index] for number, one in enumerate(found.image.functions) for index,
                       secret in enumerate(one.secret_params) if secret],
        "globals": [number for number, secret in enumerate(found.image.secret_globals) if secret],
        "memories": [number for number, secret in enumerate(found.image.secret_memories) if secret],
        "demands": [[function, index] for function, index in found.image.demands],
    }
    problems = [{
        "rule": one.rule.name, "message": problem_text(one), "place": line_object(one.line),
        "function": one.function, "position": one.position,
        "instruction": one.instruction, "module": one.module, "offset": one.offset, "ends": one.ends,
        "likely": one.likely._asdict() if one.likely else None, "shown": told.observed.get(one.position),
        "witnessed": one.position == told.witnessed,
        "way": [{"place": line_object(step.line), "position": step.position, "function": step.function,
                 "message": step.message} for step in one.steps],
    } for one in told.problems]
    sources = [{"place": line_object(one.line), "position": one.position if one.position >= 0 else None,
                "text": one.text, "ends": one.cause.ends,
                "likely": one.likely._asdict() if one.likely else None} for one in told.sources]
    protects = [{"place": line_object(step.line), "position": step.position, "function": step.function,
                 "weight": weight, "message": step.message}
                for step, weight in zip(told.protects, told.weights)]
    whole = {"format": "blade-explain 1", "image": image, "modules": list(modules),
             "constant-time": found.is_constant_time, "declared": secrets, "ends": len(found.ends),
             "refused": len(found.refused), "problems": problems, "sources": sources, "protects": protects,
             "warnings": told.warnings}
    return json.dumps(whole, indent=1) + "\n"


def artifact(path: str, root: str) -> dict:
    full = os.path.abspath(path)
    near = os.path.relpath(full, root)
    if near.startswith(".."):
        return {"uri": "file://" + quoted(full)}
    return {"uri": quoted(near), "uriBaseId": "SRCROOT"}


def quoted(path: str) -> str:
    return "".join(letter if letter.isascii() and (letter.isalnum() or letter in "/._-~+,")
                   else "".join(f"%{byte:02X}" for byte in letter.encode("utf-8", "surrogateescape"))
                   for letter in path)


def location(line: Line, function: str, message: str, root: str, module: str, offset: int) -> dict:
    if line.number:
        region = {"startLine": line.number, **({"startColumn": line.column} if line.column else {})}
        physical = {"artifactLocation": artifact(line.path, root), "region": region}
    else:
        physical = {"artifactLocation": artifact(module, root),
                    "region": {"byteOffset": offset, "byteLength": 1}}
    made: dict = {"physicalLocation": physical}
    if function:
        made["logicalLocations"] = [{"name": function, "kind": "function"}]
    if message:
        made["message"] = {"text": message}
    return made


def fingerprint(one: Problem, source: str) -> str:
    """The same for a place whose lines move: by rule, function, instruction and the text of the line."""
    parts = (one.rule.name, os.path.basename(one.line.path), one.function, one.instruction.split(" ")[0],
             source)
    return hashlib.sha256("\0".join(parts).encode()).hexdigest()[:32]


def help_of(name: str) -> str:
    """Where the rule is explained, in this release or clone: SARIF asks for an absolute URI."""
    return f"file://{quoted(PAGE)}#{name}"


def rule_object(rule: Rule, level: str) -> dict:
    return {
        "id": rule.name, "name": rule.title,
        "shortDescription": {"text": rule.text[0].upper() + rule.text[1:]},
        "fullDescription": {"text": f"{rule.text[0].upper() + rule.text[1:]}, so that who observes "
                            "addresses, divisions and branches learns of it."},
        "help": {"text": "If what is loaded is public, make it a parameter or keep it in the ledger. If it "
                 f"is secret: {rule.help}."},
        "helpUri": help_of(rule.name), "defaultConfiguration": {"level": level},
        "properties": {"tags": ["security", "constant-time"], "security-severity": "6.0"},
    }


PROTECT_RULE = {
    "id": PROTECT, "name": "Protect",
    "shortDescription": {"text": "A value is held back until no older branch is open"},
    "fullDescription": {"text": "Of a value that is loaded under a guess, so that it can't reach an address "
                        "or a branch. No lighter set of protects passes."},
    "helpUri": help_of(PROTECT), "defaultConfiguration": {"level": "note"},
    "properties": {"tags": ["speculation"]},
}


def as_sarif(told: Told, image: str, modules: Sequence[str], lines: Lines, root: str, version: str) -> str:
    """The log of one run."""
    rules = list(dict.fromkeys(RULES.values()))
    results, seen = [], {}
    for one in told.problems:
        mark = fingerprint(one, lines.source(one.line))
        seen[mark] = seen.get(mark, -1) + 1
        flow = [{"location": location(step.line, step.function, step.message, root,
                                      *module_place(lines, step.position, image)), "nestingLevel": 0}
                for step in one.steps]
        text = problem_text(one) + (f". It is {one.likely}" if one.likely else "")
        results.append({
            "ruleId": one.rule.name, "ruleIndex": rules.index(one.rule), "level": ERROR
            if one.position == told.witnessed else told.level, "message": {"text": text + told.also(one)},
            "locations": [location(one.line, one.function, "", root,
                                   *module_place(lines, one.position, image))],
            "codeFlows": [{"threadFlows": [{"locations": flow}]}],
            "partialFingerprints": {"bladePlace/v1": f"{mark}:{seen[mark]}"},
            "properties": {"position": one.position, "instruction": one.instruction, "ends": one.ends},
        })
    for step, weight in zip(told.protects, told.weights):
        results.append({
            "ruleId": PROTECT, "ruleIndex": len(rules), "level": "note", "message": {"text": step.message},
            "locations": [location(step.line, step.function, "", root,
                                   *module_place(lines, step.position, image))],
            "properties": {"position": step.position, "weight": weight},
        })
    run = {
        "tool": {"driver": {"name": "blade", "version": version,
                            "rules": [rule_object(rule, told.level) for rule in rules] + [PROTECT_RULE]}},
        "originalUriBaseIds": {"SRCROOT": {"uri": "file://" + quoted(root.rstrip("/")) + "/"}},
        "columnKind": "unicodeCodePoints", "invocations": [{"executionSuccessful": True}], "results": results,
        "properties": {"constant-time": told.found.is_constant_time, "ends": len(told.found.ends),
                       "refused": len(told.found.refused), "warnings": told.warnings},
    }
    return json.dumps({"$schema": SCHEMA, "version": "2.1.0", "runs": [run]}, indent=1) + "\n"


ERROR_LINE = re.compile(r"(.+?):(\d+)(?::(\d+))?: error: (.*) \[(blade-[a-z-]+)\]$")


def errors_as_sarif(lines: Sequence[str], root: str, version: str) -> str:
    """The log of a run that came to no verdict: its errors in the form of compilers, as far as they tell a
    file and a rule."""
    found = [match.groups() for match in map(ERROR_LINE.match, lines) if match]
    names = list(dict.fromkeys(rule for *_, rule in found))
    results = [{
        "ruleId": rule, "ruleIndex": names.index(rule), "level": "error", "message": {"text": message},
        "locations": [location(Line(path, int(number), "", int(column or 0)), "", "", root, "", 0)],
    } for path, number, column, message, rule in found]
    run = {
        "tool": {"driver": {"name": "blade", "version": version,
                            "rules": [{"id": name, "helpUri": help_of(name)} for name in names]}},
        "originalUriBaseIds": {"SRCROOT": {"uri": "file://" + quoted(root.rstrip("/")) + "/"}},
        "invocations": [{"executionSuccessful": False}], "results": results,
    }
    return json.dumps({"$schema": SCHEMA, "version": "2.1.0", "runs": [run]}, indent=1) + "\n"


def module_place(lines: Lines, position: int, image: str) -> Tuple[str, int]:
    spot = lines.spot(position)
    return (spot.linked.module.path, spot.row.place) if spot else (image, 0)
