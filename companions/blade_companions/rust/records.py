"""What the macros of the crate blade-labels leave in LLVM's text of a crate: records, each with a pointer to
a function. They are read and taken out. Licence: public domain (CC0)."""
from __future__ import annotations

import re
from typing import Dict, List, NamedTuple, Sequence, Tuple

from ..c.declarations import INCLUDED
from ..c.ir import MENTION, SYMBOL, inside, plain, split_at_commas, unescaped
from ..c.opaque import Named
from ..formats.reading import Bad
from .demangling import demangled

MARK = "blade-label "
VERSION = "1"
RECORD = re.compile(r'c"(blade-label [^"]*)"')
USED = ("@llvm.used ", "@llvm.compiler.used ")
KINDS = ("secret-param", "public-result", "secret-memory")
STRING = re.compile(r'(%?)"([^"]*)"')
ODD = re.compile(r"[^-\w.$\\]")  # in a name of a type: it would be read as more than a name
DECLARED = re.compile(rf"declare (.*?)({SYMBOL})\(")
CALL = re.compile(rf"(\s+(?:tail |notail )?call [^@]*)({SYMBOL})\(")
TRAPPING = ".0"  # behind the symbol of a function that traps in place of another one


class Record(NamedTuple):
    """A label as a macro has written it: the symbol of the function that the record points to (none for the
    memory), the function's path in the source, the parameter, and where the macro stands."""

    kind: str
    symbol: str
    path: str
    which: str
    where: str

    @property
    def named(self) -> Named:
        return Named(self.kind, self.symbol or "0", self.which, self.where)

    @property
    def name(self) -> str:
        """The last part of the path."""
        return self.path.rpartition("::")[2].strip().replace("r#", "")

    def line(self) -> str:
        """As blade.h would write it, for the section blade.secrets."""
        return "\t".join([*self.named, INCLUDED])


def with_plain_types(text: str) -> str:
    """LLVM's text with names for types that have no blanks and brackets in them."""
    known: Dict[str, str] = {}

    def named(found: "re.Match[str]") -> str:
        if not found[1] or not ODD.search(found[2]):
            return found[0]
        return known.setdefault(found[0], f"%blade.type.{len(known)}")

    return STRING.sub(named, text)


def record_of(line: str, text: str) -> Record:
    """A record's line; it names at most one function."""
    parts = unescaped(text).rstrip("\n").split("\t")
    functions = [plain(one) for one in MENTION.findall(line[: line.index(' c"')])[1:]]
    if parts[0] != MARK + VERSION:
        raise Bad(f"a label of another version of blade-labels: {parts[0]}")
    if len(parts) != 5 or parts[1] not in KINDS or len(functions) != (parts[1] != "secret-memory"):
        raise Bad(f"a label that the macros of blade-labels don't write: {' '.join(parts)}")
    return Record(parts[1], functions[0] if functions else "", parts[2], parts[3].replace("r#", ""), parts[4])


def taken_out(lines: Sequence[str]) -> Tuple[List[str], List[Record]]:
    """The lines without records, and the records."""
    kept, found, symbols = [], [], set()
    for line in lines:
        text = RECORD.search(line) if line.startswith("@") else None
        if text:
            found.append(record_of(line, text[1]))
            symbols.add(MENTION.match(line)[0])
        else:
            kept.append(line)
    kept = [without(line, symbols) if line.startswith(USED) else line for line in kept]
    rest = [
        line
        for line in kept
        if MARK + VERSION + "\\09" in line
        or any(one in symbols for one in MENTION.findall(line))
        and not line.startswith("!")
    ]
    if rest:
        raise Bad(f"a label that isn't read here: {rest[0][:200]}")
    return kept, found


def without(line: str, symbols: Sequence[str]) -> str:
    """A list of what is used, without some symbols."""
    start, end = line.index("] [") + 3, line.rindex("]")
    entries = split_at_commas(line[start:end])
    left = [one for one in entries if not set(MENTION.findall(one)) & set(symbols)]
    if not left:
        return ""
    kind = line[line.index(" x ") + 3 : line.index("] [")]
    return (
        f"{line.partition(' = ')[0]} = appending global [{len(left)} x {kind}] [{', '.join(left)}]"
        + line[end + 1 :]
    )


def panics(lines: Sequence[str], defined: Sequence[str]) -> List[str]:
    """The functions of Rust's library that never return, as LLVM's text spells them: those by which Rust
    panics."""
    known, found = set(defined), []
    groups = {line.split()[1]: line for line in lines if line.startswith("attributes #")}
    for line in lines:
        told = DECLARED.match(line)
        symbol = plain(told[2]) if told else ""
        if told and demangled(symbol) != symbol and symbol not in known:
            words = line[told.end() + len(inside(line, told.end() - 1)) :]
            if "noreturn" in words or any(
                "noreturn" in groups.get(one, "").split() for one in re.findall(r"#\d+", words)
            ):
                found.append(told[2])
    return found


def with_traps(lines: Sequence[str], defined: Sequence[str]) -> List[str]:
    """The lines with a function that traps in place of each one by which Rust panics. It gets no arguments:
    they are of use for a message alone, which nobody would see."""
    wanted, made = set(panics(lines, defined)), []
    for line in lines:
        found = CALL.match(line) if " call " in line else None
        if found and found[2] in wanted:
            rest = line[found.end() + len(inside(line, found.end() - 1)) :]
            line = f"{found[1]}{trapping(found[2])}({rest}"
        made.append(line)
    for one in sorted(wanted):
        made += [
            f"define linkonce_odr hidden void {trapping(one)}() noinline noreturn nounwind cold {{",
            "  call void @llvm.trap()",
            "  unreachable",
            "}",
        ]
    if wanted and not any(line.startswith("declare void @llvm.trap()") for line in lines):
        made.append("declare void @llvm.trap()")
    return made


def trapping(symbol: str) -> str:
    return f'{symbol[:-1]}{TRAPPING}"' if symbol.endswith('"') else symbol + TRAPPING
