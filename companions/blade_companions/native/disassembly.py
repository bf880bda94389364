"""Objects and linked files of x86-64 as objdump shows them, with the command of the image that each
instruction belongs to. Licence: public domain (CC0)."""
from __future__ import annotations

import os
import re
import shutil
import subprocess
from dataclasses import dataclass, field
from typing import Callable, List, Optional, Set, Tuple

from ..formats.reading import Bad, GaveUp
from ..c.symbolizer import frames_of, symbolizer

SECTION = re.compile(r"^Disassembly of section (.+):$")
SYMBOL = re.compile(r"^([0-9a-f]+) <(.+)>:$")
INSTRUCTION = re.compile(r"^ *([0-9a-f]+):\t(.*)$")
RELOCATION = re.compile(r"^\s+[0-9a-f]+: R_\S+\s+(\S+?)(?:[-+]0x[0-9a-f]+)?$")
WORDS_OF_DIVISION = ("mull", "mulq", "divl", "divq", "idiv")
PREFIXES = ("notrack ", "bnd ", "cs ", "rep ", "repz ", "repnz ", "lock ", "data16 ")
TARGET = re.compile(r"^([0-9a-f]+) <")
REGISTER = re.compile(r"%(\w+)")
BARRIER = re.compile(r"^blade\.protect\.(\d+)\.%(\w+)\.\d+$")
FAMILIES = {"a": "rax", "b": "rbx", "c": "rcx", "d": "rdx"}
NO_LINE = "no line"
OBJECT, PROGRAM, SHARED, X86_64 = 1, 2, 3, 62  # what the head of an ELF file says


def whole(register: str) -> str:
    """The register of 64 bits that a part belongs to: rax of al."""
    if register[0] == "r" and register[1].isdigit():
        return register.rstrip("bwd")
    bare = register[1:] if register[0] in "re" and len(register) == 3 else register
    bare = bare[:-1] if len(bare) == 3 and bare.endswith("l") else bare  # sil, dil, bpl, spl
    return FAMILIES[bare[0]] if bare[0] in FAMILIES and len(bare) == 2 and bare[1] in "xlh" else f"r{bare}"


@dataclass
class Instruction:
    """An instruction of a function."""

    address: int
    mnemonic: str
    operands: List[str]
    place: str = NO_LINE  # of C, or of the image
    position: Optional[int] = None  # of the command that it comes of
    relocation: str = ""
    is_joined: bool = False  # whether the compiler made it of several that have lines, and so gave it none

    @property
    def text(self) -> str:
        return f"{self.mnemonic} {','.join(self.operands)}".strip()

    @property
    def target(self) -> Optional[int]:
        """Where a direct jump or call leads."""
        found = TARGET.match(self.operands[-1]) if self.operands else None
        return int(found[1], 16) if found else None

    @property
    def is_conditional(self) -> bool:
        return self.mnemonic.startswith("j") and self.mnemonic != "jmp" or self.mnemonic.startswith("loop")

    @property
    def is_indirect(self) -> bool:
        return self.mnemonic in ("jmp", "call") and self.operands[0].startswith("*")


@dataclass
class Code:
    """A function of an object."""

    name: str
    section: str = ""
    instructions: List[Instruction] = field(default_factory=list)
    barriers: List[Tuple[int, int, str]] = field(default_factory=list)  # address, position, register

    def targets(self) -> Set[int]:
        """Where its jumps lead."""
        jumps = (one for one in self.instructions if one.mnemonic.startswith("j"))
        return {one.target for one in jumps if one.target is not None}


def split(text: str) -> List[str]:
    """Operands, which commas part outside of parentheses."""
    return [one.strip() for one in re.split(r",(?![^(]*\))", text) if one.strip()]


def kind_of(path: str) -> int:
    """Whether an ELF file of x86-64 is an object or is linked. Other files are refused."""
    with open(path, "rb") as file:
        head = file.read(20)
    kind, machine = int.from_bytes(head[16:18], "little"), int.from_bytes(head[18:20], "little")
    if head[:6] != b"\x7fELF\2\1" or len(head) < 20 or machine != X86_64:
        raise Bad("only ELF files of x86-64 can be checked: an object, a shared library or a program")
    if kind not in (OBJECT, PROGRAM, SHARED):
        raise Bad("this ELF file is neither an object nor linked")
    if kind == PROGRAM:  # a number in its code may be the address of a table, and nothing says so
        raise Bad("a program at a fixed address can't be checked: link it with -pie")
    return kind


def lines_of(path: str, kind: int) -> List[str]:
    """What objdump prints: relocations too, those of the linker or those of the loader."""
    words = ["objdump", "-d", "-r" if kind == OBJECT else "-R", "--no-show-raw-insn", "-M", "att", path]
    if not shutil.which(words[0]):
        raise GaveUp("objdump is needed to check an object")
    done = subprocess.run(words, capture_output=True, text=True, errors="replace", check=False)
    if done.returncode:
        raise Bad(f"objdump: {done.stderr.strip()[:200]}")
    return done.stdout.splitlines()


def without_prefixes(text: str) -> str:
    """An instruction without its prefixes, and without what objdump remarks."""
    text = text.split("#")[0].strip()
    prefix = next((one for one in PREFIXES if text.startswith(one)), "")
    return without_prefixes(text[len(prefix) :]) if prefix else text


class Listing:
    """Reads what objdump prints. A barrier's symbol doesn't begin a function."""

    def __init__(self) -> None:
        self.codes: List[Code] = []
        self.section = ""

    def symbol(self, address: int, name: str) -> None:
        barrier = BARRIER.match(name)
        if barrier and self.codes:
            self.codes[-1].barriers.append((address, int(barrier[1]), whole(barrier[2])))
        else:
            self.codes.append(Code(name, self.section))

    def line(self, line: str) -> None:
        section, symbol = SECTION.match(line), SYMBOL.match(line)
        relocation, instruction = RELOCATION.match(line), INSTRUCTION.match(line)
        instructions = self.codes[-1].instructions if self.codes else []
        if section:
            self.section = section[1]
        elif symbol:
            self.symbol(int(symbol[1], 16), symbol[2])
        elif relocation and instructions:
            instructions[-1].relocation = relocation[1]
        elif instruction:
            mnemonic, _, rest = without_prefixes(instruction[2]).partition(" ")
            instructions.append(Instruction(int(instruction[1], 16), mnemonic, split(rest)))


def attribute(path: str, name: str, codes: List[Code]) -> List[Code]:
    """Notes the command that each instruction belongs to: the innermost place that is a line of the image's
    file. Gives the functions that have such lines."""
    tool = symbolizer()
    if tool is None:
        raise GaveUp("llvm-symbolizer is needed to check an object")
    by_address = {one.address: one for code in codes for one in code.instructions}
    for address, frames in frames_of(tool, path, sorted(by_address)):
        one, places = by_address[address], [(os.path.basename(frame.path), frame.line) for frame in frames]
        if not places or places[0][0] not in (f"{name}.c", f"{name}.image"):
            continue  # without debugging information nothing is known
        one.place, one.is_joined = "{}:{}".format(*places[0]), places[0][1] == 0
        if not one.is_joined:
            one.position = next((line for file, line in places if file == f"{name}.image"), None)
    return [code for code in codes if any(one.place != NO_LINE for one in code.instructions)]


def disassemble(path: str, name: str, is_wanted: Callable[[str], bool]) -> List[Code]:
    """The wanted functions of an object of NAME.c, or of a linked file. A linked file may have functions of
    other images, which are called the same: they have no lines of NAME."""
    kind, listing = kind_of(path), Listing()
    for line in lines_of(path, kind):
        listing.line(line)
    codes = [code for code in listing.codes if is_wanted(code.name)]
    if len({code.section for code in codes}) > 1 and kind == OBJECT:
        raise Bad("the functions of an object have to be in one section: their addresses are counted in each")
    lined = attribute(path, name, codes)
    return codes if kind == OBJECT else lined


# ---- registers

WRITES_ALONE = ("mov", "lea", "set", "pop", "cmov")  # what they write isn't read before, but by cmov
READS_ALONE = ("cmp", "test", "push", "j", "call", "nop", "bt", "ret")


def registers(operand: str) -> Set[str]:
    return {whole(one) for one in REGISTER.findall(operand)}


def is_register(operand: str) -> bool:
    return operand.startswith("%")


def is_wide(one: Instruction) -> bool:
    """Whether an instruction multiplies or divides in rax and rdx."""
    is_single = one.mnemonic in ("mul", "imul", "div", "idiv") and len(one.operands) == 1
    return is_single or one.mnemonic.startswith(WORDS_OF_DIVISION)


def only_writes(one: Instruction) -> bool:
    """Whether an instruction doesn't read its last operand, if that is a register."""
    is_choice = one.mnemonic.startswith("cmov")
    is_product = one.mnemonic == "imul" and len(one.operands) == 3
    return one.mnemonic.startswith(WRITES_ALONE) and not is_choice or is_product


def reads(one: Instruction) -> Set[str]:
    """The registers that an instruction reads."""
    if is_wide(one):
        return registers(one.operands[0]) | {"rax", "rdx"}
    if one.mnemonic in ("cltd", "cqto", "cltq", "cwtl"):
        return {"rax"}
    if one.mnemonic == "xor" and len(set(one.operands)) == 1 or one.target is not None:
        return set()
    is_only_written = bool(one.operands) and is_register(one.operands[-1]) and only_writes(one)
    operands = one.operands[:-1] if is_only_written else one.operands
    return {register for operand in operands for register in registers(operand)}


def writes(one: Instruction) -> Set[str]:
    """The registers that an instruction writes."""
    if one.mnemonic.startswith("call"):
        return {"rax", "rcx", "rdx", "rsi", "rdi", "r8", "r9", "r10", "r11"}
    if is_wide(one):
        return {"rax", "rdx"}
    if one.mnemonic in ("cltd", "cqto"):
        return {"rdx"}
    if one.mnemonic in ("cltq", "cwtl"):
        return {"rax"}
    is_bit = one.mnemonic.startswith(("bts", "btr", "btc"))
    if one.mnemonic.startswith(READS_ALONE) and not is_bit or not one.operands:
        return set()
    found = registers(one.operands[-1]) if is_register(one.operands[-1]) else set()
    return found | (registers(one.operands[0]) if one.mnemonic.startswith("xchg") else set())
