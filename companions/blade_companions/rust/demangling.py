"""Names of Rust's symbols as Rust spells them, in both kinds of mangling. Licence: public domain (CC0)."""
from __future__ import annotations

import functools
import re
from typing import Callable, Dict, List

from ..nesting import shortened

LEGACY = r"_ZN(?:\d[\w.$]*)17h[0-9a-f]{16}E"
V0 = r"_R(?:[A-Z])[\w]*"
SYMBOL = re.compile(rf"(?<![\w$])(?:{LEGACY}|{V0})(?:\.(?:llvm\.)?\d+)*")
CODES = {"SP": "@", "BP": "*", "RF": "&", "LT": "<", "GT": ">", "LP": "(", "RP": ")", "C": ","}
BASIC: Dict[str, str] = {
    "a": "i8", "b": "bool", "c": "char", "d": "f64", "e": "str", "f": "f32", "h": "u8", "i": "isize",
    "j": "usize", "l": "i32", "m": "u32", "n": "i128", "o": "u128", "s": "i16", "t": "u16", "u": "()",
    "v": "...", "x": "i64", "y": "u64", "z": "!", "p": "_"}
DIGITS = "0123456789abcdefghijklmnopqrstuvwxyzABCDEFGHIJKLMNOPQRSTUVWXYZ"
DEEPEST, MOST = 200, 4000  # of what is read of a symbol: nesting, and letters that it becomes


class Odd(Exception):
    """A symbol that isn't read here."""


def legacy(symbol: str) -> str:
    """A symbol of the older mangling, without its hash."""
    parts, place, end = [], 3, symbol.rindex("17h")
    while place < end:
        size = re.match(r"\d+", symbol[place:])
        if not size:
            raise Odd
        place += len(size[0])
        parts.append(symbol[place : place + int(size[0])])
        place += int(size[0])
    return "::".join(map(part_of, parts))


def part_of(text: str) -> str:
    text = text[1:] if text.startswith("_$") else text
    text = re.sub(r"\$u([0-9a-f]{1,6})\$", lambda found: letter(int(found[1], 16)), text)
    text = re.sub(r"\$([A-Z]+)\$", lambda found: CODES.get(found[1], found[0]), text)
    return text.replace("..", "::")


def letter(code: int) -> str:
    return chr(code) if code < 0x110000 else "?"


class Reader:
    """Reads a symbol of the newer mangling (v0)."""

    def __init__(self, text: str) -> None:
        self.text, self.place, self.depth, self.bound, self.made = text, 0, 0, 0, 0

    def peek(self) -> str:
        return self.text[self.place : self.place + 1]

    def next(self) -> str:
        if self.place >= len(self.text):
            raise Odd
        self.place += 1
        return self.text[self.place - 1]

    def eat(self, letter: str) -> bool:
        found = self.peek() == letter
        self.place += found
        return found

    def number(self) -> int:
        """A number in base 62, which ends with _."""
        if self.eat("_"):
            return 0
        value = 0
        while not self.eat("_"):
            at = DIGITS.find(self.next())
            if at < 0:
                raise Odd
            value = value * 62 + at
        return value + 1

    def optional(self, tag: str) -> int:
        return self.number() + 1 if self.eat(tag) else 0

    def plain(self) -> str:
        """An identifier without its disambiguator."""
        is_puny = self.eat("u")
        found = re.compile(r"0|[1-9]\d*").match(self.text, self.place)
        if not found:
            raise Odd
        self.place = found.end()
        self.eat("_")
        text = self.text[self.place : self.place + int(found[0])]
        self.place += int(found[0])
        return puny(text) if is_puny else text

    def back(self, read: Callable[[], str]) -> str:
        """What stands at an earlier place."""
        start, to = self.place - 1, self.number()
        if to >= start:
            raise Odd
        place, self.place = self.place, to
        text = read()
        self.place = place
        return text

    def guarded(self, read: Callable[[], str]) -> str:
        self.depth += 1
        if self.depth > DEEPEST or self.made > MOST:
            raise Odd
        text = read()
        self.depth -= 1
        self.made += len(text) if self.depth < 3 else 1
        return text

    def path(self, in_value: bool = False) -> str:
        return self.guarded(lambda: self.path_inside(in_value))

    def path_inside(self, in_value: bool) -> str:
        tag = self.next()
        if tag == "C":
            self.optional("s")
            return self.plain()
        if tag in "MXY":
            if tag != "Y":
                self.optional("s")
                self.path()
            kind = self.type()
            return f"<{kind}>" if tag == "M" else f"<{kind} as {self.path()}>"
        if tag == "N":
            return self.nested(in_value)
        if tag == "I":
            base = self.path(in_value)
            return f"{base}{'::' * in_value}<{', '.join(self.until(self.argument))}>"
        if tag == "B":
            return self.back(lambda: self.path(in_value))
        raise Odd

    def nested(self, in_value: bool) -> str:
        space = self.next()
        base = self.path(in_value)
        number, name = self.optional("s"), self.plain()
        if not space.isupper():
            return f"{base}::{name}" if name else base
        kind = {"C": "closure", "S": "shim"}.get(space, space)
        return f"{base}::{{{kind}{':' * bool(name)}{name}#{number}}}"

    def until(self, read: Callable[[], str]) -> List[str]:
        found = []
        while not self.eat("E"):
            found.append(read())
        return found

    def argument(self) -> str:
        if self.eat("L"):
            return self.lifetime(self.number())
        return self.constant() if self.eat("K") else self.type()

    def lifetime(self, number: int) -> str:
        if not number:
            return "'_"
        depth = self.bound - number
        return f"'{chr(97 + depth)}" if 0 <= depth < 26 else f"'_{depth}"

    def type(self) -> str:
        return self.guarded(self.type_inside)

    def type_inside(self) -> str:
        tag = self.next()
        if tag in BASIC:
            return BASIC[tag]
        if tag in "RQ":
            life = self.lifetime(self.number()) + " " if self.eat("L") else ""
            return f"&{'' if life in ('', chr(39) + '_ ') else life}{'mut ' * (tag == 'Q')}{self.type()}"
        if tag in "PO":
            return f"*{'const' if tag == 'P' else 'mut'} {self.type()}"
        if tag == "A":
            return f"[{self.type()}; {self.constant()}]"
        if tag == "S":
            return f"[{self.type()}]"
        if tag == "T":
            kinds = self.until(self.type)
            return f"({', '.join(kinds)}{',' * (len(kinds) == 1)})"
        if tag == "F":
            return self.binding(self.function)
        if tag == "D":
            text = self.binding(lambda: " + ".join(self.until(self.trait)))
            if not self.eat("L"):
                raise Odd
            life = self.number()
            return f"dyn {text}" + (f" + {self.lifetime(life)}" if life else "")
        if tag == "B":
            return self.back(self.type)
        self.place -= 1
        return self.path()

    def binding(self, read: Callable[[], str]) -> str:
        count, before = self.optional("G"), self.bound
        if count > DEEPEST:
            raise Odd
        self.bound += count
        names = ", ".join(self.lifetime(count - at) for at in range(count))
        text = read()
        self.bound = before
        return f"for<{names}> {text}" if count else text

    def function(self) -> str:
        told = "unsafe " if self.eat("U") else ""
        if self.eat("K"):
            name = "C" if self.eat("C") else self.plain().replace("_", "-")
            told += f'extern "{name}" '
        given = ", ".join(self.until(self.type))
        result = self.type()
        return f"{told}fn({given})" + (f" -> {result}" if result != "()" else "")

    def trait(self) -> str:
        """A trait of a dyn type, with its associated types."""
        if self.peek() == "I":
            self.next()
            base, inside = self.path(), self.until(self.argument)
        else:
            base, inside = self.path(), []
        while self.eat("p"):
            name = self.plain()
            inside.append(f"{name} = {self.type()}")
        return f"{base}<{', '.join(inside)}>" if inside else base

    def constant(self) -> str:
        return self.guarded(self.constant_inside)

    def constant_inside(self) -> str:
        tag = self.next()
        if tag == "p":
            return "_"
        if tag == "B":
            return self.back(self.constant)
        if tag not in "hmtyojaslxnibc":
            raise Odd
        sign = "-" if self.eat("n") else ""
        found = re.compile(r"[0-9a-f]*_").match(self.text, self.place)
        if not found:
            raise Odd
        self.place = found.end()
        value = int(found[0][:-1] or "0", 16)
        if tag == "b":
            return "true" if value else "false"
        return repr(letter(value)) if tag == "c" else f"{sign}{value}"


def puny(text: str) -> str:
    """An identifier with letters beyond ASCII."""
    base, _, rest = text.rpartition("_")
    try:
        return (f"{base}-{rest}" if base else rest).encode().decode("punycode")
    except UnicodeError:
        raise Odd from None


def newer(symbol: str) -> str:
    reader = Reader(symbol[2:])
    text = reader.path(True)
    if reader.place < len(reader.text) and reader.peek().isupper():
        reader.path()  # the crate that made this instance
    if reader.place < len(reader.text):
        raise Odd
    return text


@functools.lru_cache(100_000)
def demangled(symbol: str) -> str:
    """A symbol as Rust spells it; any other name stays as it is."""
    found = SYMBOL.fullmatch(symbol)
    if not found or len(symbol) > 10 * MOST:
        return symbol
    plain = re.sub(r"(?:\.(?:llvm\.)?\d+)+$", "", symbol)
    try:
        return (legacy if plain.startswith("_ZN") else newer)(plain)
    except (Odd, ValueError, RecursionError):
        return symbol


def told(name: str) -> str:
    """A symbol as it is told in a line of text."""
    return shortened(demangled(name))


def names_told(text: str) -> str:
    """A text with Rust's names in place of symbols."""
    return SYMBOL.sub(lambda found: told(found[0]), text)
