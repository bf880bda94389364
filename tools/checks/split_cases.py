"""What tools/checks/cc asks of blade-cc --split and blade-split: worked routines without a ledger say yes,
with their published vectors; what leaks stays a no, or traps at its line of C. Licence: public domain
(CC0)."""
from __future__ import annotations

import json
import os
import subprocess
import sys
from unittest import mock
from typing import Dict, NamedTuple, Sequence, Tuple

import known_bits
import random_splits
import routines as worked
from harness import COMPANIONS, TOP, Check, lanes
from blade_companions.formats.labels import entries_of
from blade_companions.formats.module import FUNCTION, read_module
from blade_companions.splitting import knowledge

CC, SPLIT, EXPLAIN = (f"{COMPANIONS}/blade-{name}" for name in ("cc", "split", "explain"))
AT = worked.AT
PIECES = ["piece/shadow.wasm", "piece/piece.wasm"]
SECRET = ["--label", "secret-memory 0"]
BITS = 8  # the width at which the algebra of known bits is tried
HEAD = "typedef unsigned char u8;\ntypedef unsigned u32;\n"


class Leaky(NamedTuple):
    """A function that leaks a byte of its key: its source, and the line of C by which it does."""

    name: str
    line: int
    source: str


LEAKY = [
    # Bytes are substituted by a table, as in AES by tables.
    Leaky(
        "tables",
        6,
        HEAD + "static u8 table[256];\nvoid tables(u8 *out, const u8 *key) {\n"
        "    for (int i = 0; i < 256; i++) table[i] = i * 7 + 99;\n"
        "    for (int i = 0; i < 16; i++) out[i] = table[out[i] ^ key[i]];\n}\n",
    ),
    Leaky(
        "lookup",
        4,
        HEAD + "static const u8 table[16] = {3, 14, 9, 0, 7, 12, 5, 10, 1, 15, 6, 11, 2, 13, 8};\n"
        "void lookup(u8 *out, const u8 *key) { out[0] = table[key[3] & 15]; }\n",
    ),
    # The base to the power of the key, which multiplies only for the key's bits that are set.
    Leaky(
        "power",
        7,
        HEAD
        + "__attribute__((noinline)) static u32 times(u32 a, u32 b) { return (a * b ^ a >> 5) & 0xFFFFFF; }\n"
        "void power(u8 *out, const u8 *key) {\n    u32 r = 1, b = out[0] | out[1] << 8;\n"
        "    for (int i = 0; i < 8; i++) {\n        if (key[i] & 128) r = times(r, b);\n"
        "        r = times(r, r);\n    }\n    for (int i = 0; i < 3; i++) out[i] = r >> 8 * i;\n}\n",
    ),
]
# A context with a count, as in a hash; the second part of its work is met if more than four bytes come.
PIECE = (
    HEAD
    + """struct piece { u32 used; u8 bytes[64]; };
void add(struct piece *p, const u8 *data, u32 size) {
    for (u32 i = 0; i < size && p->used < 64; i++)
        p->bytes[p->used++] ^= data[i];
    if (size > 4)
        p->used = data[0] & 31;
}
void begin(struct piece *p) { p->used = 0; for (int i = 0; i < 64; i++) p->bytes[i] = 0; }
u32 two(struct piece *p, const u8 *data, u32 size) {
    begin(p);
    add(p, data, size);
    add(p, data, 2);
    return p->used;
}
"""
)

# Of a piece and a power: a public count, and a branch on a secret.
BOTH = """void both(struct piece *p, u8 *out, const u8 *key, u32 size) {
    begin(p);
    add(p, out, size);
    power(out, key);
}
"""
# A count that is checked: the run traps if it is too great.
ENDS = HEAD + """struct piece { u32 used; u8 bytes[64]; };
u32 ends(struct piece *p) {
    if (p->used > 4)
        __builtin_trap();
    return p->bytes[p->used];
}
"""

# blade-cc with a split that forgets the recorded runs.
FORGETFUL = """
import sys
sys.path.insert(0, sys.argv[1])
from blade_companions import cc
from blade_companions.c import splitting
real = splitting.split
splitting.split = lambda module, runs, public, told: real(module, [], public, told)
sys.exit(cc.main(sys.argv[2:]))
"""


class Splits:
    """Runs the tools in the check's folder."""

    def __init__(self, check: Check) -> None:
        self.check = check
        self.environment = {**os.environ, "BLADE": check.program, "BINARYEN_CORES": "1"}

    def run(self, *words: str) -> "subprocess.CompletedProcess[str]":
        return subprocess.run(
            words, capture_output=True, text=True, check=False, cwd=self.check.folder, env=self.environment
        )

    def cc(self, name: str, status: int, *words: str, told: str = "") -> "subprocess.CompletedProcess[str]":
        done = self.run(CC, *words)
        text = done.stdout + done.stderr
        self.check.say(
            name, done.returncode == status and told in text, f"status {done.returncode}: {text[-600:]}"
        )
        return done

    def start(
        self, name: str, arguments: Sequence[int], *contents: Tuple[int, bytes], memory: int = 0
    ) -> str:
        lines = [f"arg {one}" for one in arguments] + [
            f"memory {memory} {at} {data.hex()}" for at, data in contents
        ]
        self.check.write(name, "\n".join(lines) + "\n")
        return name

    def rows(self, image: str, entry: str, start: str, memory: int) -> Dict[int, bytes]:
        done = self.check.blade("run", image, entry, start)
        return {
            int(words[2]): bytes.fromhex(words[3])
            for words in map(str.split, done.stdout.splitlines())
            if words[:2] == ["row", str(memory)]
        }


def of_routine(splits: Splits, name: str) -> None:
    """A worked routine in one memory: `--split` says yes, and the result is the published one."""
    check, case = splits.check, worked.CASES[name]
    check.write(f"{name}.start", worked.start_of(case, 0, False))
    is_split = worked.VERDICTS[name, "one"] == "no"
    told = "constant-time yes" if not is_split else "after splitting: "
    splits.cc(
        f"{name} by --split",
        0,
        "-ffreestanding",
        *SECRET,
        "--split",
        "--record",
        f"{case.export}={name}.start",
        f"{TOP}/examples/routines/{case.source}.c",
        "-o",
        f"{name}/",
        told=told,
    )
    check.say(
        f"{name}: a split only if it needs one", os.path.exists(check.path(f"{name}/shadow.wasm")) == is_split
    )
    start, memory = f"{name}/build/start0" if is_split else f"{name}.start", int(is_split)
    done = check.blade(
        "run", f"{name}/{case.source}.img", f"{case.source}/{case.export}", start, "--steps", worked.STEPS
    )
    check.say(
        f"{name}: the published result ({case.origin})",
        worked.bytes_of(case, memory, done.stdout) == case.result,
        done.stdout[-300:],
    )
    if is_split:
        found = [one["message"] for one in json.loads(check.read(f"{name}/problems.json"))["protects"]]
        check.say(f"{name}: protects by lines of C", any(f"{case.source}.c:" in one for one in found), found)
    done = check.blade("verify", f"{name}/{case.source}.img", f"{name}/{case.source}.json")
    words = [line.split()[1:] for line in done.stdout.splitlines()]
    check.say(f"{name}: verify says yes four times", words == [["yes"]] * 4, done.stdout)


def routines(check: Check) -> None:
    splits = Splits(check)
    for name in worked.CASES:
        of_routine(splits, name)


def controls(check: Check) -> None:
    """What leaks: with a run that shows it the verdict stays no, and the lines are named; without one the
    program traps at the line of the load."""
    splits = Splits(check)
    for one in LEAKY:
        check.write(f"{one.name}.c", one.source)
        contents = (AT, bytes(range(1, 17))), (AT + 64, bytes(range(0xA0, 0xB0)))
        start = splits.start(f"{one.name}.start", [AT, AT + 64], *contents)
        words = ["-O1", *SECRET, "--export", one.name, f"{one.name}.c", "-o", f"{one.name}/"]
        done = splits.cc(
            f"{one.name}, recorded", 1, "--split", "--record", start, *words, told="constant-time no"
        )
        check.say(f"{one.name} says nothing of a yes", "yes" not in done.stdout, done.stdout)
        report = check.read(f"{one.name}/split.txt").decode()
        check.say(
            f"{one.name}: the line is named",
            "a secret met" in report and f"{one.name}.c:{one.line} " in report,
            report,
        )
        done = splits.cc(f"{one.name}, not recorded", 0, "--split", *words, told="after splitting: ")
        untried(splits, one, done)
        trapped(splits, one, contents)


def untried(splits: Splits, one: Leaky, done: "subprocess.CompletedProcess[str]") -> None:
    """A yes of a split that no run tried says so, in each output."""
    check, told = splits.check, "constant-time yes after splitting, not tried: no run was recorded; none of "
    check.say(f"{one.name}: not tried, and said so", f"{one.name}: {told}" in done.stdout, done.stdout)
    warnings = [line for line in done.stderr.splitlines() if line.startswith("blade-cc: warning: --split: ")]
    check.say(f"{one.name}: a warning", len(warnings) == 1 and "--record START tries it" in warnings[0],
              done.stderr)
    places = [json.loads(check.read(f"{one.name}/problems.json"))["warnings"],
              json.loads(check.read(f"{one.name}/{one.name}.sarif"))["runs"][0]["properties"]["warnings"]]
    check.say(f"{one.name}: the warning in JSON and SARIF", all(
        [f"blade-cc: warning: {line}" for line in lines] == warnings for lines in places), places)


def trapped(splits: Splits, one: Leaky, contents: Sequence[Tuple[int, bytes]]) -> None:
    check, base = splits.check, f"{one.name}/{one.name}"
    modules = [f"{one.name}/shadow.wasm", f"{base}.wasm"]
    start = splits.start(f"{one.name}.other", [AT, AT + 64], *contents, memory=1)
    entry = f"{one.name}/{one.name}"
    done = check.blade("run", f"{base}.img", entry, start)
    check.say(
        f"{one.name} traps",
        done.returncode == 16 and done.stdout.startswith("trapped unreachable"),
        done.stdout,
    )
    done = splits.run(SPLIT, "--trap", f"{base}.img", entry, start, *modules)
    wanted = f"split: a public number was not known here: {one.name}.c:{one.line} {one.name}\n"
    check.say(f"{one.name} says at which line", done.stdout == wanted, done.stdout + done.stderr)


def made(check: Check) -> None:
    """A context: start files of two exports, other lengths, what the report has, and what comes after it."""
    splits = Splits(check)
    check.write("piece.c", PIECE)
    data = bytes(range(0x80, 0x90))
    both = [splits.start(f"{name}.start", [AT, AT + 128, size], (AT + 128, data))
            for name, size in (("short", 4), ("long", 8))]
    short, long = (["--record", f"two={one}"] for one in both)
    begin = ["--record", f"begin={splits.start('begin.start', [AT])}"]
    words = ["-O1", "--label", "secret-memory 0 public-result two 0", "piece.c", "-o", "piece/"]
    splits.cc("no run for the second part", 0, "--split", *short, *begin, *words, told="after splitting: ")
    report = check.read("piece/split.txt").decode()
    check.say("the report has code that no run reached, by lines",
              "no recorded run came to" in report and "piece.c:8 " in report, report)
    check.say("and what is known at the start, and the cost",
              "known at the start" in report and "cost of short.start: commands" in report, report)
    for size, name in ((3, "three"), (0, "none"), (8, "eight")):
        other(splits, size, name, data, PIECES)
    by_other_tools(splits)
    splits.cc("without --split nothing of it stays", 1, *words, told="--record START tries the split program")
    left = [name for name in ("shadow.wasm", "split.txt") if os.path.exists(check.path(f"piece/{name}"))]
    check.say("no shadow", not left, left)
    splits.cc("both parts recorded", 1, "--split", *short, *long, *words, told="constant-time no")
    causes = check.read("piece/split.txt").decode().partition("it was loaded by")[2]
    check.say("and the line that takes a secret", "piece.c:8 " in causes, causes)


def by_other_tools(splits: Splits) -> None:
    """What other tools tell of split modules."""
    check, module = splits.check, read_module(splits.check.path("piece/piece.wasm"))
    found = [os.path.basename(one) for one in json.loads(check.read("piece/problems.json"))["modules"]]
    check.say("problems.json says of which modules", found == ["shadow.wasm", "piece.wasm"], found)
    entries = set(entries_of(module))
    wanted = {("secret-memory", (0,)), ("public-result", (module.exports[FUNCTION, "two"], 0))}
    check.say("labels of the original are there, of the exported function, too", wanted <= entries, entries)
    done = splits.run(EXPLAIN, "piece/piece.img", *PIECES, "--page", "piece/page.html")
    check.say("blade-explain takes split modules, with a page", done.returncode == 0
              and "piece.c" in check.read("piece/page.html").decode(), done.stdout + done.stderr)


def other(splits: Splits, size: int, name: str, data: bytes, modules: Sequence[str]) -> None:
    """Another run than the recorded one ends as without a split, byte by byte, or it traps at the line that
    wasn't recorded."""
    check = splits.check
    start = splits.start(f"{name}.start", [AT, AT + 128, size], (AT + 128, data))
    after = splits.start(f"{name}.split", [AT, AT + 128, size], (AT + 128, data), memory=1)
    plain = splits.rows("piece/build/plain/piece.img", "piece/two", start, 0)
    if size <= 4:
        found = splits.rows("piece/piece.img", "piece/two", after, 1)
        check.say(f"{size} bytes: C's memory as without a split", plain and plain == found, (plain, found))
        return
    done = splits.run(SPLIT, "--trap", "piece/piece.img", "piece/two", after, *modules)
    check.say(
        f"{size} bytes trap where a secret becomes the count",
        done.stdout.startswith("split: a public number was not known here: piece.c:"),
        done.stdout + done.stderr,
    )


def stops(check: Check) -> None:
    """A recorded run that doesn't return is no yes; a yes with a recorded run has no warning; of a no, what
    is gone is counted."""
    splits = Splits(check)
    check.write("ends.c", ENDS)
    words = ["-O1", *SECRET, "--export", "ends", "ends.c", "-o", "ends/"]
    run = ["--split", "--record"]
    bad = splits.start("ends.bad", [AT], (AT, bytes([9, 0, 0, 0, 1])))
    good = splits.start("ends.good", [AT], (AT, bytes([2, 0, 0, 0, 1])))
    public = ["--public", f"{AT}:4"]
    done = splits.cc("a recorded run that traps", 1, *run, bad, *public, *words,
                     told="record a run that returns")
    check.say("and the verdict is no", "ends: constant-time no: " in done.stdout, done.stdout)
    done = splits.cc("a recorded run that returns", 0, *run, good, *public, *words,
                     told="ends: constant-time yes: none of ")
    check.say("without a warning", "warning" not in done.stderr and "not tried" not in done.stdout
              and json.loads(check.read("ends/problems.json"))["warnings"] == [], done.stdout + done.stderr)
    check.write("both.c", PIECE + LEAKY[2].source.replace(HEAD, "") + BOTH)
    both = splits.start("both.start", [AT, AT + 128, AT + 160, 4], (AT + 128, bytes(range(1, 33))),
                        (AT + 160, bytes(range(0xA0, 0xC0))))
    done = splits.cc("a leak beside a count", 1, *run, both, "-O1", *SECRET, "--export", "both", "both.c",
                     "-o", "both/", told=" gone after splitting (problems.json has all)")
    check.say("the leak is told, and not the count", "p->used" not in done.stderr and "if (key[i] & 128)"
              in done.stderr, done.stderr)
    check.say("and how much remains", " violations remain of " in done.stdout, done.stdout)
    wrong(splits)


def wrong(splits: Splits) -> None:
    """If the tool itself is wrong, and the split program traps in a recorded run, the verdict stays no."""
    one = LEAKY[0]
    done = splits.run(sys.executable, "-c", FORGETFUL, COMPANIONS, "-O1", *SECRET, "--export", one.name,
                      f"{one.name}.c", "-o", "wrong/", "--split", "--record", f"{one.name}.start")
    told = (f"the run from {one.name}.start doesn't return: split: a public number was not known here: "
            f"{one.name}.c:{one.line} {one.name}")
    splits.check.say("a recorded run that traps in the split program alone", done.returncode == 1
                     and told in done.stderr and f"{one.name}: constant-time no: " in done.stdout,
                     done.stdout + done.stderr)


def words(check: Check) -> None:
    """Words that don't go together, and what isn't split."""
    splits = Splits(check)
    check.write("none.c", HEAD + "u32 none(u32 *p) { return p[0] ? p[1] : 3; }\n")
    start = splits.start("none.start", [AT], (AT, bytes(range(1, 9))))
    for name, status, more, told in (
            ("--split=maybe", 2, ["--split=maybe"], "--split=maybe"),
            ("a ledger and a split", 2, ["--split", "--ledger"], "give one of them"),
            ("--record without a split", 2, ["--record", start], "--record goes with --split"),
            ("native code of a split", 2, ["--split", "--native"], "--native"),
            ("a public range that is none", 1, ["--split", "--public", "12"], "not OFFSET:SIZE"),
            ("a start of another export", 1, ["--split", "--record", f"other={start}"], "isn't exported"),
            ("always, of what is no split", 3, ["--split=always", "--record", start], "--split: "),
            ("a name that the shadow has", 1, ["--split", "--name", "shadow"], "the shadow's name"),
            ("never", 1, ["--split=never"], "constant-time no")):
        splits.cc(name, status, *more, *SECRET, "none.c", "-o", "none/", told=told)
    alone(splits, start)


def alone(splits: Splits, start: str) -> None:
    """blade-split by itself."""
    check, module = splits.check, "none/refused/none.wasm"
    done = splits.run(SPLIT, module, "-o", "none/refused")
    check.say("blade-split doesn't overwrite what it reads", done.returncode == 3
              and "would be overwritten" in done.stderr, done.stderr)
    done = splits.run(SPLIT, module, "-o", "parts/", "--also", start, "--public", f"{AT}:8")
    check.say("--also writes a start file", done.returncode == 0
              and f"arg {AT}" in check.read("parts/none.start").decode(), done.stderr)
    done = check.blade("harden", "parts/i.img", "parts/i.json", "parts/shadow.wasm", "parts/none.wasm")
    check.say("the verdict is that of harden", done.stdout.endswith("constant-time yes\n"), done.stdout)
    done = splits.run(f"{COMPANIONS}/blade-native", "parts/i.img", "-o", "parts/none.c")
    check.say("blade-native doesn't take split modules", done.returncode == 3
              and "split modules" in done.stderr, done.stderr)


def algebra(check: Check) -> None:
    """The known bits of each operator, in all cases of 8 bits, or of 4; a mask that is too wide is found."""
    names = list(known_bits.MEANING)
    found = lanes(lambda name: known_bits.is_right(name, known_bits.width(name, BITS), check.folder), names)
    for name, holds in zip(names, found):
        check.say(f"known bits of {name}, all cases of {known_bits.width(name, BITS)} bits", holds)
    with mock.patch.object(knowledge, "low_run", lambda mask: knowledge.ones(mask.bits)):
        check.say("a mask that is too wide", not known_bits.is_right("add", BITS, check.folder))


def splits(check: Check) -> None:
    for one in (algebra, routines, controls, made, stops, words, random_splits.random_splits):
        one(check)
