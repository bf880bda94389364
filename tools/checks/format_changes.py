"""Seeded changes of images and certificates, by which tools/checks/formats compares formats/read.py with the
program: bytes, numbers and commands of images, demands and weights for images without, texts and numbers of
certificates. Licence: public domain (CC0)."""
from __future__ import annotations

import random
import json
import re
from unittest import mock
from typing import Any, Tuple, Union

import read as outside
from blade_companions.formats.encoding import leb

NUMBERS = [0, 1, 256, 257, 1 << 20, (1 << 31) - 1, 1 << 31, (1 << 32) - 1, 1 << 32, 1 << 63, (1 << 64) - 1,
           1 << 64, 1 << 70]
# commands that any function may have
PLAIN = [b"\x08", b"\x04\x00", b"\x09\x07", b"\x06\x00", b"\x03\x01\x00\x07\x08"]
SPELLED = ["-0", "-1", "1.0", "1e0", "01", "4294967295", "4294967296", "18446744073709551615",
           "18446744073709551616", "1e400", "1e-400", "1e308", "1" + "0" * 308, "1" + "0" * 309, "NaN",
           "null", "true", '"5"', "[]", "{}", "1.", ".5", "+1", "\u0661", "7", '"\\ud800"',
           '"\\ud83d\\ude00"', '"\\x"', '"\t"', '"\\u0000"']
BETWEEN = [" ", "\n", "\t", "\r", "\0", "\ufeff", "\u00a0", "\f", "/**/", ",", "0", '"', "\\", "x"]
NAMES = ["amount", "sink", "sites", "weight", "paths", "x"]


class Recorder(outside.Bytes):
    """Bytes that keep each number, each other piece, and where commands begin."""

    def __init__(self, contents: bytes) -> None:
        super().__init__(contents)
        self.pieces, self.starts, self.in_number = [], [], False

    def some(self, count: int) -> bytes:
        found = super().some(count)
        if not self.in_number:
            self.pieces.append(found)
        return found

    def number(self, bits: int = 32) -> int:
        self.in_number = True
        value = super().number(bits)
        self.in_number = False
        self.pieces.append(value)
        return value

    def field(self, name: str) -> Union[Any, int]:
        if name == "code":
            self.starts.append(self.place)
        return super().field(name)


def recorded(image: bytes) -> Tuple[Recorder, Any]:
    """The recorder of an image, and its program."""
    recorder = Recorder(image)
    with mock.patch.object(outside, "Bytes", lambda _: recorder):
        return recorder, outside.Program(image)


def listed(chance: random.Random, image: bytes) -> bytes:
    """An image of version 01 as one of version 02, with some demands and weights."""
    recorder, program = recorded(image)
    demands = [bytes([0]) + leb(at) + leb(index) for at,
               function in enumerate(program.functions) for index in range(function.results)]
    demands += [bytes([1]) + leb(at) for at, one in enumerate(program.globals) if not one.secret]
    demands = [it for it in demands if chance.random() < 0.5]
    weights, last = [], -1
    for position, _ in program.sites:
        if chance.random() < 0.6 or not weights:
            weights.append(leb(position - last - 1) + leb(chance.choice([1, 2, 10, (1 << 21) + 1])))
            last = position
    lists = b"".join(leb(len(them)) + b"".join(them) for them in (demands, weights))
    return image[:4] + b"\2" + image[5 : recorder.starts[0]] + lists + image[recorder.starts[0] :]


def image_bytes(chance: random.Random, image: bytes) -> bytes:
    """Some bytes changed, put in or taken out, or the end cut off."""
    data = bytearray(image)
    for _ in range(chance.choice([1, 1, 2, 3])):
        at, kind = chance.randrange(len(data)), chance.randrange(5)
        if kind < 2:
            data[at] = chance.choice([chance.randrange(256), data[at] ^ 1 << chance.randrange(8),
                                      (data[at] + 1) % 256])
        elif kind == 2:
            data[at:at] = bytes([chance.randrange(256)])
        else:
            del data[at : len(data) if kind == 4 else at + 1]
            data += b"" if data else b"B"
    return bytes(data)


def image_numbers(chance: random.Random, image: bytes) -> bytes:
    """Some numbers or codes changed, or a number spelled longer."""
    pieces = recorded(image)[0].pieces
    numbers = [at for at, it in enumerate(pieces) if isinstance(it, int)]
    codes = [at for at, it in enumerate(pieces) if isinstance(it, bytes) and len(it) == 1]
    longer = chance.choice(numbers) if chance.random() < 0.05 else -1
    for _ in range(chance.choice([1, 1, 1, 2])):
        at, kind = chance.choice(numbers), chance.randrange(6)
        if kind < 3:
            pieces[at] = max(0, pieces[at] + chance.choice([-2, -1, -1, 1, 1, 2]))
        elif kind < 5:
            pieces[at] = chance.choice([chance.choice(NUMBERS), pieces[chance.choice(numbers)]])
        elif codes:
            code = chance.choice(codes)
            pieces[code] = bytes(
                [chance.choice([pieces[code][0] ^ 1, pieces[code][0] ^ 8, (pieces[code][0] + 1) % 256, 15])])
    return b"".join(leb(it, at == longer) if isinstance(it, int) else it for at, it in enumerate(pieces))


def image_commands(chance: random.Random, image: bytes) -> bytes:
    """Some commands changed for others, or protected or not."""
    starts = recorded(image)[0].starts + [len(image)]
    commands = [image[one:other] for one, other in zip(starts, starts[1:])]
    for _ in range(chance.choice([1, 1, 2, 4])):
        at, other, kind = chance.randrange(len(commands)), chance.randrange(len(commands)), chance.randrange(
            5)
        if kind == 0:
            commands[at], commands[other] = commands[other], commands[at]
        elif kind == 1:
            commands[at] = chance.choice([commands[other], chance.choice(PLAIN)])
        elif commands[at][0] in (outside.SET, outside.LOAD, outside.ARG, outside.OUT):
            commands[at] = bytes([commands[at][0], commands[at][1] ^ outside.PROTECTED]) + commands[at][2:]
    return image[: starts[0]] + b"".join(commands)


def certificate_text(chance: random.Random, text: str) -> str:
    """A number spelled otherwise, something put in, a byte changed, the end cut off, a key twice or deep
    arrays."""
    kind, keys, numbers = chance.randrange(8), list(re.finditer(r'"\w+":',
                                                                text)), list(re.finditer(r"\d+", text))
    at, key, number = chance.randrange(len(text)), chance.choice(keys), chance.choice(numbers)
    if kind < 2:
        return text[: number.start()] + chance.choice(SPELLED) + text[number.end() :]
    if kind == 2:
        return text[:at] + chance.choice(BETWEEN) + text[at:]
    if kind == 3:
        return text[: at + 1]
    if kind < 6:
        name = chance.choice([*NAMES, key.group()[1:-2], f"\\u{ord(key.group()[1]):04x}{key.group()[2:-2]}"])
        return text[: key.start()] + f'"{name}":' + (f"{chance.choice(SPELLED)},{key.group()}" if kind == 4
                                                     else "") + text[key.end() :]
    if kind == 6:
        deep = chance.choice([1, 123, 124, 125, 126, 127, 128, 129, 3000])
        return text[: number.start()] + chance.choice(["[" * deep + "]" * deep, '{"a":' * deep + "1"
                                                       + "}" * deep]) + text[number.end() :]
    return text[:at] + text[at + 1 :]


def certificate_numbers(chance: random.Random, text: str) -> str:
    """Amounts, sinks, sites and the weight changed, paths doubled, split or left out."""
    value = json.loads(text)
    for _ in range(chance.choice([1, 1, 2])):
        path = (chance.choice(value["paths"]) if value["paths"]
                else {"amount": 0, "sink": chance.randrange(40), "sites": []})
        kind = chance.randrange(7)
        if kind == 0:
            value["weight"] = chance.choice([0, value["weight"] + 1])
        elif kind == 1:
            path["amount"] = chance.choice([0, path["amount"] + 1, (1 << 64) - 1])
        elif kind == 2:
            path["sink"] = chance.choice([chance.randrange(60), path["sink"] + 1, (1 << 32) - 1])
        elif kind == 3:
            path["sites"] = [max(0, it + chance.choice([-1, 0, 0, 1]))
                             for it in path["sites"]] + chance.choice([[], [chance.randrange(60)]])
        elif kind == 4:
            value["paths"].append(dict(path))
        elif kind == 5 and path["amount"] > 1:
            path["amount"] -= 1
            value["paths"].append({**path, "amount": 1})
        elif path in value["paths"]:
            value["paths"].remove(path)
    return json.dumps(value, separators=chance.choice([(",", ":"), (" ,\n", ": ")]))
