#!/usr/bin/env python3
"""Builds each worked routine in three ways by blade-cc, and by `--split` those that need it, runs it with a
published vector, compares two keys, and prints a table. Licence: public domain (CC0).

    bench/routines PROGRAM FOLDER [--routines NAME,..] [--ways one,ledger,vault,split] [--most COMMANDS]
    [--table FILE]

PROGRAM is blade; FOLDER takes what is built. It needs the tools of blade-cc. --most bounds the traces on
which two keys are compared. A vector that isn't met, a verdict that isn't the one in VERDICTS, or keys that
are told apart end it with status 1."""
import argparse
import os
import subprocess
import sys
from dataclasses import dataclass
from typing import Dict, List, Sequence, Tuple

TOP = os.path.dirname(os.path.dirname(os.path.realpath(__file__)))
COMPANIONS = f"{TOP}/companions"
sys.dont_write_bytecode = True
sys.path.insert(0, COMPANIONS)
from blade_companions.formats.image import read_image  # noqa: E402
from blade_companions.formats.running import Run, counts, read_start, traced  # noqa: E402

AT = 131072  # where the buffers of a call begin
STEPS = "4000000000"
SECRET = ["--label", "secret-memory 0"]
WAYS = {"one": SECRET, "ledger": ["--ledger", *SECRET], "vault": ["--vault"]}
SUNSCREEN = (b"Ladies and Gentlemen of the class of '99: If I could offer you only one tip for the future, "
             b"sunscreen would be it.")


@dataclass
class Case:
    """A call with a published result: key first, other inputs behind it, each with its offset from AT; where
    the result stands."""

    source: str
    export: str
    arguments: List[int]
    inputs: List[Tuple[int, bytes]]
    result_at: int
    result: bytes
    origin: str


def x(text: str) -> bytes:
    return bytes.fromhex(text)


CASES: Dict[str, Case] = {
    "chacha20": Case("chacha20", "chacha20", [AT, 0, 0x4A000000, 0, 1, AT + 64, 114],
                     [(0, bytes(range(32))), (64, SUNSCREEN)], 64, x(
        "6e2e359a2568f98041ba0728dd0d6981e97e7aec1d4360c20a27afccfd9fae0b"
        "f91b65c5524733ab8f593dabcd62b3571639d624e65152ab8f530c359f0861d8"
        "07ca0dbf500d6a6156a38e088a22b65e52bc514d16ccf806818ce91ab7793736"
        "5af90bbf74a35be6b40b8eedf2785e42874d"), "RFC 8439, 2.4.2"),
    "poly1305": Case("poly1305", "poly1305", [AT + 512, AT, AT + 64, 34], [
        (0, x("85d6be7857556d337f4452fe42d506a80103808afb0db2fd4abff6af4149f51b")),
        (64, b"Cryptographic Forum Research Group")],
        512, x("a8061dc1305136c6c22b8baf0c0127a9"), "RFC 8439, 2.5.2"),
    "sha256": Case("hmac", "sha256_of", [AT + 512, AT, 56],
                   [(0, b"abcdbcdecdefdefgefghfghighijhijkijkljklmklmnlmnomnopnopq")], 512,
                   x("248d6a61d20638b8e5c026930c3e6039a33ce45964ff2167f6ecedd419db06c1"),
                   "FIPS 180-4, 56 bytes"),
    "hmac": Case("hmac", "hmac", [AT + 512, AT, 4, AT + 64, 28, 11],
                 [(0, b"Jefe"), (64, b"what do ya want for nothing?")], 512,
                 x("5bdcc146bf60754e6a042426089575c75a003f089d2739839dec58b964ec3843"), "RFC 4231, case 2"),
    "aes128": Case("aes128", "aes128", [AT, AT + 64, 1],
                   [(0, bytes(range(16))), (64, x("00112233445566778899aabbccddeeff"))], 64,
                   x("69c4e0d86a7b0430d8cdb78070b4c55a"), "FIPS 197, C.1"),
    "x25519": Case("x25519", "x25519", [AT + 512, AT, AT + 64], [
        (0, x("a546e36bf0527c9d3b16154b82465edd62144c0ac1fc5a18506a2244ba449ac4")),
        (64, x("e6db6867583030db3594c1a424b15f7c726624ec26b3353b10a903a6d0ab1c4c"))],
        512, x("c3da55379de9c6908e94ea4df28d084f32eccf03491c71f754b4075577a28552"), "RFC 7748, 5.2"),
}
# The streaming context keeps a public number; in one memory it is secret with the rest.
VERDICTS = {(name, way): "no" if (name, way) in (("sha256", "one"), ("hmac", "one")) else "yes"
            for name in CASES for way in WAYS}


SPLIT = "split"  # a way for routines whose verdict is no in one memory
VERDICTS.update({(name, SPLIT): "yes" for name, way in list(VERDICTS) if way == "one"})


class Wrong(Exception):
    """Something isn't as published, or as it was measured."""


def run(words: List[str], **more) -> str:
    done = subprocess.run(words, capture_output=True, text=True, check=False, **more)
    if done.returncode:
        raise Wrong(f"{' '.join(words[:4])} ..: status {done.returncode}: "
                    f"{(done.stdout + done.stderr)[-300:]}")
    return done.stdout


def built(program: str, source: str, way: str, folder: str, more: Sequence[str] = ()) -> List[str]:
    """The modules of a routine in one way, in the order of linking; beside them stand the image, the
    certificate and the report. `more` has words of blade-cc."""
    words = [f"{COMPANIONS}/blade-cc", "--blade", program, "--no-fail", "-ffreestanding", "-Wall",
             "-Werror=incompatible-pointer-types", *WAYS.get(way, SECRET), *more]
    run([*words, f"{TOP}/examples/routines/{source}.c", "-o", f"{folder}/"],
        env={**os.environ, "BINARYEN_CORES": "1"})
    first = {"one": [], SPLIT: [f"{folder}/shadow.wasm"]}.get(way, [f"{folder}/{way}.wasm"])
    return first + [f"{folder}/{source}.wasm"]


def recorded(name: str, folder: str) -> List[str]:
    """The words by which blade-cc splits a routine by the run of its vector."""
    os.makedirs(folder, exist_ok=True)
    with open(f"{folder}/{name}.record", "w", encoding="utf-8") as file:
        file.write(start_of(CASES[name], 0, False))
    return ["--split", "--record", f"{CASES[name].export}={folder}/{name}.record"]


def start_of(case: Case, memory: int, turned: bool) -> str:
    """The start file; with another key where it is turned."""
    inputs = [(at, bytes(255 - byte for byte in data) if turned and not number else data) for number,
              (at, data) in enumerate(case.inputs)]
    lines = [f"arg {argument}" for argument in case.arguments]
    return "\n".join(lines + [f"memory {memory} {AT + at} {data.hex()}" for at, data in inputs]) + "\n"


def bytes_of(case: Case, memory: int, outcome: str) -> bytes:
    """What an outcome has where the result stands: rows over what stood there at first."""
    first = AT + case.result_at
    space = bytearray(1024)
    for at, data in case.inputs:
        space[at : at + len(data)] = data
    for line in outcome.splitlines():
        words = line.split()
        if words[0] == "row" and int(words[1]) == memory and AT <= int(words[2]) < AT + 1024:
            at = int(words[2]) - AT
            space[at : at + 16] = x(words[3])
    return bytes(space[first - AT : first - AT + len(case.result)])


@dataclass
class Measured:
    commands: int
    protects: int
    weight: int
    verdict: str
    executed: int
    held: int
    twin: str


def measured(program: str, name: str, way: str, folder: str, most: int) -> Measured:
    case, memory = CASES[name], 1 if way in ("ledger", SPLIT) else 0
    folder = f"{folder}/{case.source}"
    modules = built(program, case.source, way, folder, recorded(name, folder) if way == SPLIT else ())
    image, certificate, start, other = (f"{folder}/{name}" for name in (
        f"{case.source}.img", f"{case.source}.json", f"{name}.start", f"{name}.other"))
    for path, turned in ((start, False), (other, True)):
        with open(path, "w", encoding="utf-8") as file:
            file.write(start_of(case, memory, turned))
    export = f"{case.source}/{case.export}"
    for words in ([program, "run", image, export, start], [program, "interp", export, start, *modules]):
        if bytes_of(case, memory, run([*words, "--steps", STEPS])) != case.result:
            raise Wrong(f"{name} {way}: {words[1]} doesn't give the published result ({case.origin})")
    verified = dict(line.split(" ", 1) for line in run([program, "verify", image, certificate]).splitlines())
    verdict = verified["constant-time"].split()[0]
    if verdict != VERDICTS[name, way] or verified["safe"] != verdict:
        raise Wrong(f"{name} {way}: constant-time {verdict}, safe {verified['safe']}")
    with open(f"{folder}/report.txt", encoding="utf-8") as file:
        return counted(program, image, export, (start, other), file.read(), verdict, most)


def counted(program: str, image: str, export: str, starts: Tuple[str, str], report: str, verdict: str,
            most: int) -> Measured:
    """What a run executes, and whether two keys can be told apart along it."""
    with open(image, "rb") as file:
        read = read_image(file.read())
    with open(starts[0], encoding="utf-8") as file:
        start = read_start(file.read())
    executed = counts(Run(read, read.entries[export], start), 1 << 62)
    trace = f"{image}.trace"
    with open(trace, "w", encoding="utf-8") as file:
        file.writelines(f"{line}\n" for line in traced(Run(read, read.entries[export], start), most))
    done = subprocess.run([program, "twin", image, export, trace, *starts], capture_output=True, text=True,
                          check=False)
    told = done.stdout.splitlines()[-1] if done.stdout else f"status {done.returncode}"
    if done.returncode or not told.startswith("equal"):
        raise Wrong(f"{image}: twin of two keys: {told}")
    fields = dict(line.split(" ", 1) for line in report.splitlines() if not line.startswith("protect "))
    protects, _, weight = fields["protects"].split()
    return Measured(int(fields["commands"]), int(protects), int(weight), verdict, executed["commands"],
                    executed["protects"], told)


def row_of(name: str, way: str, one: Measured) -> str:
    return (f"| {name} | {way} | {one.verdict} | {one.commands:,} | {one.protects} w{one.weight} | "
            f"{one.executed:,} | {one.held} | {one.twin} |")


def main(words: List[str]) -> int:
    parser = argparse.ArgumentParser()
    parser.add_argument("program")
    parser.add_argument("folder")
    parser.add_argument("--routines", default=",".join(CASES))
    parser.add_argument("--ways", default=",".join([*WAYS, SPLIT]))
    parser.add_argument("--most", type=int, default=300_000 // 8)
    parser.add_argument("--table")
    given = parser.parse_args(words)
    rows = ["| routine | way | constant-time | commands | protects | executed commands | executed "
            "protects | twin of two keys |",
            "|---|---|---|---|---|---|---|---|"]
    failed = False
    for name in given.routines.split(","):
        for way in given.ways.split(","):
            if way == SPLIT and VERDICTS[name, "one"] == "yes":
                continue
            try:
                rows.append(row_of(name, way,
                                   measured(given.program, name, way, f"{given.folder}/{way}", given.most)))
                print(rows[-1], flush=True)
            except Wrong as wrong:
                failed = True
                print(f"measure: {wrong}", file=sys.stderr, flush=True)
    if given.table:
        with open(given.table, "w", encoding="utf-8") as file:
            file.write("\n".join(rows) + "\n")
    return 1 if failed else 0


if __name__ == "__main__":
    sys.exit(main(sys.argv[1:]))
