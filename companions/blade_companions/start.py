"""Writes a start file from the names of C's parameters, for run, interp, twin, blade-trace, blade-witness and
blade-cc --start. Buffers are placed where nothing else is: behind C's stack and data, at the end of the
memory. Licence: public domain (CC0).

    blade-start MODULE .. FUNCTION --arg NAME=VALUE .. -o START [--vault NAME,..]

MODULE .. are the modules of an image in harden's order, FUNCTION is exported by the last one. NAME is a
parameter of C, or its number in the module, from 0. Each parameter needs a value:

    123, -1, 0x7b     a number
    @FILE             the address of a buffer with the bytes of a file
    hex:0a1b          the address of a buffer with these bytes
    text:abc          the address of a buffer with this text and a zero byte behind it
    zero:64           the address of a buffer of so many zero bytes, for what the function writes
    at:NAME, at:NAME+8     the address of another parameter's buffer, or so many bytes behind it
    size:NAME         the number of bytes of another parameter's buffer

--vault NAME,.. puts the bytes of these buffers into the memory of the first module, which is the vault; C's
memory has them else. It prints the map of the memory. What it says of a buffer, M:OFFSET:SIZE, is what
blade-witness and blade-explain take behind --secret and --keep.

It ends with 0; 2 for a wrong call; 3 for files that it can't read or write, names that there are none of,
and buffers for which there is no room."""
from __future__ import annotations

import argparse
import re
import sys
from dataclasses import dataclass
from typing import Dict, List, Sequence, Tuple

from .c.dwarf import Param, subprograms
from .ending import ended, is_answered
from .formats.encoding import I32
from .formats.memories import Layout, layout_of
from .formats.module import FUNCTION, MEMORY, Module, read_module
from .formats.reading import LIMITS, Bad, limited, read_file
from .formats.running import start_text
from .printing import called, say
from .statuses import DONE, USAGE
from .writing import write_file

UNIT = 16  # the bytes that addresses of buffers are multiples of
HEAP = frozenset(["dlmalloc", "try_init_allocator", "init_top"])  # functions of wasi-libc's malloc
WRAPPED = ".command_export"
NUMBER = re.compile(r"-?(?:[0-9]{1,20}|0x[0-9a-fA-F]{1,16})")
REFERENCE = re.compile(r"(at|size):([^+]+)(?:\+([0-9]{1,10}))?")
HEXADECIMAL = re.compile(r"(?:[0-9a-fA-F]{2})+")


@dataclass
class Buffer:
    """A parameter's buffer: its bytes, and where they are placed."""

    name: str
    data: bytes
    is_room: bool = False  # zero bytes, which the start file needs no line for
    address: int = 0


class Function:
    """An exported function, and its parameters by their names."""

    def __init__(self, module: Module, name: str) -> None:
        name = name.rpartition("/")[2]
        exports = {told: index for (sort, told), index in module.exports.items() if sort == FUNCTION}
        if name not in exports:
            raise Bad(f"{module.path} exports no function {name}: it exports "
                      f"{', '.join(map(called, list(exports)[:8])) or 'none'}")
        self.name, self.types = name, module.type_of(exports[name]).params
        self.params = params_of(module, exports[name], len(self.types))

    def index(self, name: str) -> int:
        """A parameter's number in the module."""
        names = [one.name for one in self.params]
        if name in names:
            return names.index(name)
        if name.isascii() and name.isdigit() and len(name) < 5 and int(name) < len(self.types):
            return int(name)
        raise Bad(f"{self.name} has no parameter {name}: it is {self.text()}")

    def called(self, index: int) -> str:
        return self.params[index].name or str(index)

    def text(self) -> str:
        return f"{self.name}({', '.join(map(self.called, range(len(self.types))))})"

    def number(self, index: int, value: int) -> int:
        """A number as the start file has it."""
        bits = 32 if self.types[index] == I32 else 64
        if not -(1 << bits - 1) <= value < 1 << bits:
            raise Bad(f"{value} is no number of {bits} bits, as {self.called(index)} of {self.name} is")
        return value % (1 << bits)


def params_of(module: Module, function: int, count: int) -> Sequence[Param]:
    """The parameters of the module's function as C calls them; without names if C has other ones. The linker
    exports a function of its own in place of one that needs what wasi-libc does behind it."""
    inner = module.names.get(function, "")
    inner = inner[: -len(WRAPPED)] if inner.endswith(WRAPPED) else ""
    known = next((one for one in subprograms(module) if one.function == function
                  or inner and one.function is not None and inner in (one.name, one.linkage)), None)
    params = known.params if known else []
    if known and known.gives_struct and len(params) + 1 == count:
        return [Param("result", None, True, False), *params]
    return params if len(params) == count else [Param("", None, True, False)] * count


def buffer_of(name: str, value: str) -> Buffer:
    """The buffer that a value asks for."""
    kind, _, rest = value.partition(":")
    if value.startswith("@"):
        return Buffer(name, read_file(value[1:], "start"))
    if kind == "hex" and HEXADECIMAL.fullmatch(rest):
        return Buffer(name, bytes.fromhex(rest))
    if kind == "text":
        return Buffer(name, rest.encode("utf-8", "surrogateescape") + b"\0")
    if kind == "zero" and rest.isascii() and rest.isdigit() and 0 < int(rest[:9]) <= LIMITS["start"]:
        return Buffer(name, bytes(int(rest)), True)
    raise Bad(f"{name}={value}: a value is a number, @FILE, hex:BYTES, text:TEXT, zero:SIZE, at:NAME "
              "or size:NAME")


class Call:
    """A call of a function by names."""

    def __init__(self, function: Function, given: Sequence[str]) -> None:
        self.function = function
        self.values: Dict[int, str] = {}
        self.buffers: Dict[int, Buffer] = {}
        for one in given:
            name, equals, value = one.partition("=")
            if not equals:
                raise Bad(f"--arg {one}: NAME=VALUE is due")
            index = function.index(name)
            if index in self.values:
                raise Bad(f"--arg {one}: {function.called(index)} has a value already")
            self.values[index] = value
            if not NUMBER.fullmatch(value) and not REFERENCE.fullmatch(value):
                self.buffers[index] = self.buffer(index, value)
        missing = [function.called(index) for index in range(len(function.types)) if index not in self.values]
        if missing:
            raise Bad(f"{function.text()} needs --arg {missing[0]}=VALUE"
                      + (f", and so on for {', '.join(missing[1:])}" if missing[1:] else ""))

    def buffer(self, index: int, value: str) -> Buffer:
        param = self.function.params[index]
        if self.function.types[index] != I32 or not param.is_pointer:
            raise Bad(f"{self.function.called(index)} of {self.function.name} is no pointer, "
                      f"and {value} is a buffer")
        return buffer_of(self.function.called(index), value)

    def place(self, layout: Layout) -> None:
        """Gives each buffer its address: behind one another, up to the end of the memory."""
        sizes = [-(-len(one.data) // UNIT) * UNIT for one in self.buffers.values()]
        address = layout.end - sum(sizes)
        if address < layout.free:
            raise Bad(f"the buffers need {sum(sizes)} bytes, and {layout.end - layout.free} are free: "
                      "give the module more pages (blade-cc --memory PAGES)")
        for one, size in zip(self.buffers.values(), sizes):
            one.address, address = address, address + size

    def argument(self, index: int) -> int:
        value = self.values[index]
        if index in self.buffers:
            return self.buffers[index].address
        reference = REFERENCE.fullmatch(value)
        if not reference:
            return self.function.number(index, int(value, 0) if "x" in value else int(value))
        other = self.buffers.get(self.function.index(reference[2]))
        if other is None:
            raise Bad(f"{self.function.called(index)}={value}: {reference[2]} has no buffer")
        more = int(reference[3] or 0)
        return self.function.number(index, other.address + more if reference[1] == "at"
                                    else len(other.data) + more)

    def text(self, memories: Dict[int, int]) -> str:
        """The start file; memories are those of buffers, by their parameters."""
        contents = [(memories[index], one.address, one.data) for index, one in self.buffers.items()
                    if one.data and not one.is_room]
        return start_text([self.argument(index) for index in range(len(self.function.types))], contents)


def refuse_heap(module: Module) -> None:
    """wasi-libc's malloc takes all of the memory behind C's data, and writes to its end."""
    if not HEAP.isdisjoint(module.names.values()):
        raise Bad(f"{module.path}: the malloc of wasi-libc takes all memory behind C's data, so no place for "
                  "buffers is left: link by blade-cc --allocator")


def memory_of(modules: Sequence[Module]) -> int:
    """The number of the last module's memory among those of all."""
    return sum(one.memories - len(one.imported(MEMORY)) for one in modules[:-1])


def map_of(call: Call, layout: Layout, memories: Dict[int, int], memory: int) -> List[str]:
    """The map of the memory, a line for each part."""
    known = "" if layout.is_known else (", as far as segments and the stack pointer tell: link by blade-cc, "
                                        "or with --export=__heap_base")
    first = min((one.address for one in call.buffers.values()), default=layout.end)
    lines = [f"{memory}:0:{layout.free}  C's stack and data{known}"] if layout.free else []
    if first > layout.free:
        lines.append(f"{memory}:{layout.free}:{first - layout.free}  free")
    return lines + [f"{memories[index]}:{one.address}:{len(one.data)}  {one.name}="
                    + called(call.values[index]) for index, one in call.buffers.items()]


def words_of(words: Sequence[str]) -> argparse.Namespace:
    parser = argparse.ArgumentParser(prog="blade-start", usage="blade-start MODULE .. FUNCTION "
                                     "--arg NAME=VALUE .. -o START [--vault NAME,..]", add_help=False,
                                     allow_abbrev=False)
    parser.add_argument("files", nargs="+")
    parser.add_argument("--arg", action="append", default=[])
    parser.add_argument("--vault", default="")
    parser.add_argument("-o", dest="out", required=True)
    asked = parser.parse_intermixed_args(list(words))
    if len(asked.files) < 2:
        parser.error("a module and a function are due")
    return asked


def made(asked: argparse.Namespace) -> Tuple[str, List[str]]:
    """The start file, and the map."""
    modules = [read_module(path) for path in asked.files[:-1]]
    function = Function(modules[-1], asked.files[-1])
    call, layout, memory = Call(function, asked.arg), layout_of(modules[-1]), memory_of(modules)
    if call.buffers:
        refuse_heap(modules[-1])
    call.place(layout)
    inside = {function.index(name) for name in asked.vault.split(",") if name}
    if inside and not memory:
        raise Bad("--vault: there is no module with a memory in front")
    memories = {index: 0 if index in inside else memory for index in call.buffers}
    text = call.text(memories)
    limited("start", len(text))
    return text, map_of(call, layout, memories, memory)


def run(words: Sequence[str]) -> int:
    if is_answered("blade-start", words, __doc__ or ""):
        return DONE
    if not words:
        print(__doc__, file=sys.stderr)
        return USAGE
    asked = words_of(words)
    text, told = made(asked)
    write_file(asked.out, text.encode())
    for line in told:
        say(line)
    return DONE


def main(words: Sequence[str]) -> int:
    return ended("blade-start", lambda: run(words))


if __name__ == "__main__":
    sys.exit(main(sys.argv[1:]))
