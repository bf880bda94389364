"""What the machine code of a translated image may contain. Licence: public domain (CC0).

The check looks at machine code, not at the C: a compiler may add what the image doesn't say, or leave out
what it does. Debugging lines say which command an instruction belongs to. Each barrier has a symbol, which
names the protect and the register of the value. The check takes objects and linked files."""
from __future__ import annotations

import re
from typing import Callable, Dict, Iterator, List, NamedTuple, Optional, Set

from ..formats.image import TRAPS, Image
from ..formats.operators import DIVISIONS, MOVE

from .disassembly import Code, Instruction, disassemble, is_register, reads, whole, writes
from .emission import MOST_CALLS, counts_depth
from .flow import reachable
from .reading import calls, secret_variables, transient_variables

FUNCTION = re.compile(r"^f(\d+)(?:\.[a-z0-9.]+)?$")
TRAP = re.compile(
    r"^trap(?:\.[a-z0-9.]+)?$"
)  # the only function of the runtime that a function of the image calls
NOTHING = "no function of the image is in the file, or its symbols or its lines are gone"


class Checked(NamedTuple):
    """What was found wrong, and how much was looked at."""

    findings: List[str]
    branches: int
    joined: int  # branches that the compiler made of several, and gives no line
    protects: int
    barriers: int


def called_functions(image: Image) -> Set[int]:
    """The functions that an export leads to."""
    called = calls(image)
    found = {function for _, function in image.names}
    waiting = list(found)
    while waiting:
        new = called[waiting.pop()] - found
        found |= new
        waiting += new
    return found


def expected_protects(image: Image) -> Set[int]:
    """The protected positions that some run may come to."""
    found = set()
    for number in called_functions(image):
        reached = reachable(image, image.functions[number].entry)
        found |= {position for position in reached if image.commands[position].is_protected}
    return found


def deciding_variables(image: Image) -> Set[int]:
    """The variables that the conditions of Tests are made of, through Sets whose values the compiler may look
    into."""
    guarded = secret_variables(image) | transient_variables(image)
    reads_of: Dict[int, Set[int]] = {}
    for command in image.commands:
        if command.kind in ("Set", "Load") and command.writes not in guarded:
            reads_of.setdefault(command.writes, set()).update([] if command.is_protected else command.reads)
    found = {variable for command in image.commands if command.kind == "Test" for variable in command.sinks}
    waiting = list(found)
    while waiting:
        new = reads_of.get(waiting.pop(), set()) - found
        found |= new
        waiting += new
    return found & reads_of.keys()


def is_spill(one: Instruction, register: str) -> bool:
    """Whether an instruction only keeps a register on the stack."""
    if one.mnemonic != "mov" or not one.operands[1].endswith("(%rsp)"):
        return False
    return is_register(one.operands[0]) and whole(one.operands[0][1:]) == register


class Check:
    """The check of one object or linked file."""

    def __init__(self, image: Image, path: str, name: str, line_of: Callable[[int], str]) -> None:
        self.image, self.line_of = image, line_of
        self.deciding = deciding_variables(image)
        self.counts_depth = counts_depth(calls(image))
        found = disassemble(path, name, lambda symbol: bool(TRAP.match(symbol) or FUNCTION.match(symbol)))
        self.codes = [code for code in found if FUNCTION.match(code.name)]
        self.addresses = {one.address for code in self.codes for one in code.instructions}
        self.addresses |= {code.instructions[0].address for code in found if code.instructions}
        self.symbols = {code.name for code in found} | {".text"}
        self.branches = self.joined = self.barriers = 0
        self.met: Set[int] = set()  # the protects that have a barrier
        self.readers_of: Dict[int, List[int]] = {}
        for position, command in enumerate(image.commands):
            for is_variable, value in command.operands:
                if is_variable:
                    self.readers_of.setdefault(value, []).append(position)

    # ---- branches, calls, tables

    def may_branch(self, position: Optional[int]) -> bool:
        """Whether the command may have a branch: a Test, what the condition of a Test is made of, a division,
        whose operands an observer learns anyway, or a Call that tests the depth."""
        if position is None or not TRAPS <= position < len(self.image.commands):
            return False
        command = self.image.commands[position]
        is_division = command.kind == "Set" and command.operator in DIVISIONS
        decides = command.kind in ("Set", "Load") and command.writes in self.deciding
        tests_depth = command.kind == "Call" and self.counts_depth
        return command.kind == "Test" or decides or is_division or tests_depth

    def leaves(self, one: Instruction) -> bool:
        """Whether an instruction names a place outside of the image's functions: by a relocation, or as the
        target of a jump or a call."""
        if one.relocation:
            return one.relocation not in self.symbols
        return one.target is not None and one.target not in self.addresses

    def tests_depth(self, former: Optional[Instruction]) -> bool:
        """Whether an instruction compares with the most open calls: a compiler may test that before it comes
        to a Call."""
        compares = self.counts_depth and former is not None and former.mnemonic == "cmp"
        return compares and former.operands[0] == f"${MOST_CALLS:#x}"

    def instruction(self, one: Instruction, former: Optional[Instruction]) -> Iterator[str]:
        """What is wrong with an instruction by itself; the former one is known."""
        if one.is_conditional:
            self.branches += 1
            self.joined += one.is_joined
            if not one.is_joined and not self.may_branch(one.position) and not self.tests_depth(former):
                yield "a branch that no Test of the image has"
        if one.is_indirect:
            yield "an indirect jump or call"
        if self.leaves(one):
            yield f"a call or a table that the image doesn't have: {one.relocation or one.operands[-1]}"
        is_direct = one.mnemonic.startswith(("call", "jmp"))
        if not is_direct and any("(%rip)" in operand for operand in one.operands):
            yield "a table in memory"

    # ---- barriers

    def leaders(self, code: Code) -> Set[int]:
        """The addresses at which a straight run of instructions begins."""
        after = {
            two.address
            for one, two in zip(code.instructions, code.instructions[1:])
            if one.mnemonic.startswith("j") or one.mnemonic.startswith("ret")
        }
        return after | code.targets()

    def written_by(self, code: Code, leaders: Set[int], at: int, register: str) -> Iterator[Instruction]:
        """From an instruction back to the one that writes a register, in a straight run; nothing where it is
        written elsewhere."""
        while at > 0 and code.instructions[at].address not in leaders:
            at -= 1
            yield code.instructions[at]
            if register in writes(code.instructions[at]):
                return

    def readers(self, position: int) -> Set[int]:
        """The commands that read a protected value, also by other names that a move gave it, and the
        protected one itself."""
        if not self.is_protected(position):
            return set()
        names, found = {self.image.commands[position].writes}, {position}
        waiting = list(names)
        while waiting:
            for reader in self.readers_of.get(waiting.pop(), ()):
                found.add(reader)
                command = self.image.commands[reader]
                is_copy = command.kind == "Set" and command.operator == MOVE
                if (is_copy or command.kind in ("Arg", "Out")) and command.writes not in names:
                    names.add(command.writes)
                    waiting.append(command.writes)
        return found

    def early_readers(
        self, code: Code, leaders: Set[int], at: int, position: int, register: str
    ) -> Iterator[Instruction]:
        """The readers of a protected value that take it in front of its barrier: in its register, or from
        where it was copied."""
        readers, run = self.readers(position), list(self.written_by(code, leaders, at, register))
        if not run or register not in writes(run[-1]):
            return
        first, copies = run[-1], set()
        for one in run[:-1]:
            if is_spill(one, register):
                copies.add(one.operands[1])
            elif register in reads(one) and first.position == position and one.position in readers:
                yield one
        if first.mnemonic == "mov" and is_register(first.operands[0]):
            source = f"%{first.operands[0][1:]}"
            origin = list(self.written_by(code, leaders, code.instructions.index(first), whole(source[1:])))
            if origin and origin[-1].position == position:
                copies.add(source)
        for copy in copies:
            yield from (one for one in self.later_readers(code, at, copy) if one.position in readers)

    def later_readers(self, code: Code, at: int, copy: str) -> Iterator[Instruction]:
        """What reads a register or a place of the stack behind an instruction, in the order of the listing,
        until it is written."""
        for one in code.instructions[at + 1 :]:
            if is_register(copy):
                if whole(copy[1:]) in reads(one):
                    yield one
                if whole(copy[1:]) in writes(one):
                    return
            elif copy in one.operands[:-1] or copy in one.operands and not one.mnemonic.startswith("mov"):
                yield one
            elif copy in one.operands:
                return

    def barrier(
        self, code: Code, leaders: Set[int], address: int, position: int, register: str
    ) -> Iterator[str]:
        """What is wrong with the barrier at an address."""
        at = next((number for number, one in enumerate(code.instructions) if one.address == address), None)
        if at is None or code.instructions[at].mnemonic != "lfence":
            yield f"{code.name}+{address:#x}: no barrier stands where protect {position} has one"
            return
        for one in self.early_readers(code, leaders, at, position, register):
            place = f"{code.name}+{one.address:#x}: {one.text}"
            yield f"{place}: reads the value of protect {position} in front of its barrier"

    # ---- the whole

    def code(self, code: Code) -> Iterator[str]:
        """What is wrong with a function of the file."""
        for one, former in zip(code.instructions, [None, *code.instructions]):
            for what in self.instruction(one, former):
                yield f"{code.name}+{one.address:#x}: {one.text}: {what} ({self.placed(one)})"
        leaders = self.leaders(code)
        for address, position, register in code.barriers:
            self.met.add(position)
            self.barriers += 1
            yield from self.barrier(code, leaders, address, position, register)

    def placed(self, one: Instruction) -> str:
        """The place of an instruction, with the line of the source where that is known."""
        line = self.line_of(one.position) if one.position is not None else ""
        return f"{one.place}, {line}" if line else one.place

    def protects(self, expected: Set[int]) -> Iterator[str]:
        """What is wrong with the barriers as a whole."""
        for position in sorted(expected - self.met):
            line = self.line_of(position)
            yield f"protect {position} has no barrier{f' ({line})' if line else ''}"
        for position in sorted(self.met - expected):
            if not self.is_protected(position):
                yield f"a barrier stands at {position}, which isn't protected"

    def is_protected(self, position: int) -> bool:
        return position < len(self.image.commands) and self.image.commands[position].is_protected

    def run(self) -> Checked:
        findings = [one for code in self.codes for one in self.code(code)]
        expected = expected_protects(self.image)
        if not self.codes and called_functions(self.image):
            findings.append(NOTHING)
        findings += self.protects(expected)
        return Checked(findings, self.branches, self.joined, len(expected), self.barriers)


def no_line(_position: int) -> str:
    return ""


def check_object(image: Image, path: str, name: str, line_of: Callable[[int], str] = no_line) -> Checked:
    """Checks an object that was compiled from NAME.c, or a file that such an object was linked into."""
    return Check(image, path, name, line_of).run()
