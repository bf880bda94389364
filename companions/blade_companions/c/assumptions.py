"""What a source lets the compiler assume, in LLVM's text: an assumption may say that a value marked by
BLADE_SECRET is the unmarked one, or has some of its bits, and then the code uses that. Licence: public domain
(CC0)."""
from __future__ import annotations

import re
from typing import Callable, List, Sequence

INITIAL = "-ftrivial-auto-var-init=pattern"  # else the compiler chooses what a variable without a value has
TRAP = "declare void @llvm.trap()"
UNREACHABLE = re.compile(r"(\s+)unreachable((?:, !.*)?)$")
ASSUME = re.compile(r"\s+(?:\w+ )?call void @llvm\.assume\(")
ALONE = r"(?<![%@!\w.$-])"  # no part of a name
# Words that say what a parameter, a result or a function is not.
WORD = re.compile(ALONE + r"(?:(?:dereferenceable|dereferenceable_or_null|range)\([^()]*\)|"
                  r"(?<![,)] )align \d+|"  # of a pointer, not of an access
                  r"(?:nonnull|noundef|noalias|mustprogress|willreturn)(?![\w.$(:-]))[ ]?")
TOLD = re.compile(r", !(?:nonnull|noundef|range|align|dereferenceable|dereferenceable_or_null|tbaa|"
                  r"tbaa\.struct|noalias|alias\.scope|invariant\.load|invariant\.group) !\d+")
ENDLESS = '!"llvm.loop.mustprogress"'  # such a loop may be taken to end
# Words of instructions: of what doesn't keep to them no bit is known.
FLAG = re.compile(ALONE + r"(?:nsw|nuw|exact|inbounds|nusw|nneg|disjoint|samesign)(?![\w.$(:-]) ")
POISON = re.compile(ALONE + r"(?:undef|poison)(?![\w.$(:-])")
ZERO = re.compile(r"(@llvm\.(?:abs|ctlz|cttz)\.\w+\(.*), i1 true\)")  # no answer for some argument
EXTENDED = re.compile(ALONE + r"(?:zeroext|signext) ")
DIVISION = re.compile(r"(\s+%\S+ = [us](?:div|rem) (i32|i64) \S+, )(%[^\s,]+)(.*)$")
SHIFT = re.compile(r"(\s+%\S+ = (?:shl|lshr|ashr) i(32|64) \S+, )(%?[^\s,]+)(.*)$")
RESULT = re.compile(r"  (%retval) = alloca (.+?)(?:, align \d+)?$")


def outside_of_quotes(line: str, change: Callable[[str], str]) -> str:
    return '"'.join(change(part) if at % 2 == 0 else part for at, part in enumerate(line.split('"')))


def said(line: str) -> str:
    """A line without the words that say something of a value."""
    if line.startswith("!"):
        return line.replace(ENDLESS, '!"blade.loop"')
    if not line.startswith(("define ", "declare ", "attributes ", " ")):
        return line
    line = outside_of_quotes(line, lambda part: WORD.sub("", TOLD.sub("", part)))
    if line.startswith(" "):
        line = ZERO.sub(r"\1, i1 false)", outside_of_quotes(line, lambda part: FLAG.sub("", part)))
        if "@llvm.dbg." not in line:
            line = outside_of_quotes(line, lambda part: POISON.sub("zeroinitializer", part))
    if line.startswith("define ") and line.endswith("{"):
        # Without it what is done with a null pointer may be taken not to happen.
        line = re.sub(r"(?= #\d+[^()]*\{$)", " null_pointer_is_valid", line, count=1)
    return not_extended(line)


def not_extended(line: str) -> str:
    """A line by which nobody relies on the high bits of a small number: a function not on those of its
    parameters, a caller not on those of the result. Who gives one still extends it."""
    head, brace, rest = line.partition("(")
    if line.startswith("define "):
        return head + brace + EXTENDED.sub("", rest)
    return EXTENDED.sub("", head) + brace + rest if re.search(" (?:call|invoke) ", head) else line


def defined(line: str, at: int, has_plain_pointers: bool) -> List[str]:
    """A line that says something also where C doesn't: where a divisor is 0, where a shift is by more than
    there are bits, and of the result of a function that gives nothing back."""
    division, shift, result = DIVISION.match(line), SHIFT.match(line), RESULT.match(line)
    if division:
        head, kind, divisor, rest = division.groups()
        return [f'  %blade.divisor{at} = call {kind} asm "", "=r,0"({kind} {divisor})',
                f"{head}%blade.divisor{at}{rest}"]
    if shift:
        head, bits, amount, rest = shift.groups()
        if not amount.startswith("%"):
            return [f"{head}{int(amount) % int(bits) if amount.isdigit() else amount}{rest}"]
        return [f"  %blade.amount{at} = and i{bits} {amount}, {int(bits) - 1}",
                f"{head}%blade.amount{at}{rest}"]
    if result:
        pointer = "ptr" if has_plain_pointers else f"{result[2]}*"
        return [line, f"  store {result[2]} zeroinitializer, {pointer} {result[1]}"]
    return [line]


def without_assumptions(lines: Sequence[str], has_plain_pointers: bool) -> List[str]:
    """The lines of a text with nothing that the compiler may assume: where it could not come it traps. C's
    variables have values from the first (INITIAL)."""
    found: List[str] = []
    for at, line in enumerate(lines):
        end = UNREACHABLE.match(line)
        if end:
            found += [f"{end[1]}call void @llvm.trap(){end[2]}", line]
        elif not ASSUME.match(line):
            found += defined(said(line), at, has_plain_pointers)
    return found if any(line.startswith(TRAP) for line in found) else [*found, TRAP]
