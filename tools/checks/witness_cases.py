"""Searches of blade-witness, for tools/checks/examples: each leak that is known here is found and replayed by
the program, and none where the code is constant-time. Licence: public domain (CC0)."""
from __future__ import annotations

import os
import re
import shlex
import subprocess
from typing import List, NamedTuple, Tuple

from harness import COMPANIONS, EXAMPLES, Check, ran

NOTHING, WITNESSED, USAGE, UNREAD, GAVE_UP = range(5)
LIMIT = "600"  # seconds of a search that has to end by itself, on a machine that does other things too
HUNT = "6"  # seconds of one that has to find nothing
SLOW = "no two runs were compared in so few seconds here"


class Leak(NamedTuple):
    """A search that is known to end in one way: the image and the function in it, the lines of the start
    file, more words, the status, what is told of it, and whether only whole runs show it."""

    image: str
    export: str
    start: str
    words: str = ""
    status: int = WITNESSED
    told: Tuple[str, ...] = ()
    by_runs: bool = False


VAULT = "memory 1 0 00112233445566778899aabbccddeeff\n"
TAGS = f"arg 4096\narg 8192\nmemory 0 4096 {'5a' * 16}\nmemory 0 8192 {'5a' * 16}\n"
PIECE = f"arg 4096\narg 5000\narg 4\nmemory 0 4096 03000000{'11' * 64}\nmemory 0 5000 aabbccdd\n"
AT_16 = "arg 3\narg 16\n" + VAULT
LEAKS = [
    Leak("lookup", "lookup/lookup", "arg 3\n",
         told=("address of a load: lookup", "in the order of the program")),
    Leak("result", "compare/compare", TAGS, by_runs=True,
         told=("result 0, which is demanded public: 1 and 0",)),
    Leak("piece.g", "piece/add", PIECE, told=("piece.c:",)),
    Leak("index", "index/f", f"arg 4096\narg 4\nmemory 0 4096 {'0102030405060708'}\n",
         told=("index.c:4", "address of a load")),
    Leak("frame", "frame/f", f"arg 4096\narg 8192\narg 16\nmemory 0 8192 {'11' * 64}\n",
         told=("which is public",), by_runs=True),
    Leak("address", "address/f", f"arg 4096\narg 8192\nmemory 0 8192 {'11' * 8}\n",
         told=("which is public",), by_runs=True),
    Leak("into", "into/f", f"arg 4096\narg 8192\nmemory 1 4096 {'11' * 20}\n",
         told=("which is public",), by_runs=True),
    *(Leak("guesses.low", f"guesses/{name}", AT_16, "--public", told=("under a wrong guess", "guesses.c:"))
      for name in ("address", "branch", "divide", "call")),
    Leak("guesses.low", "guesses/scaled", "arg 3\narg 4\n" + VAULT, "--public",
         told=("under a wrong guess",)),
    Leak("guesses.low", "guesses/two", "arg 3\narg 16\narg 0\n" + VAULT, "--public",
         told=("under a wrong guess",)),
    Leak("guesses.low", "guesses/loop", "arg 196600\narg 8\n" + VAULT, told=("under a wrong guess",)),
    Leak("guesses.low", "guesses/store", AT_16, "--public --forward",
         told=("under a wrong guess", "again: blade forward")),
    Leak("debug.low", "guesses/debug", "arg 3\narg 0\n", told=("under a wrong guess",)),
    Leak("debug", "guesses/debug", "arg 3\narg 0\n", told=("under a wrong guess",)),
]
# What is constant-time, or tells nothing there: the same table's other half.
QUIET = [
    Leak("masked", "masked/masked", "arg 3\n", told=("reaches 2 of 2 violations, and meets at 0 of them",)),
    Leak("masked_ssa", "masked_ssa/masked", "arg 3\n"),
    Leak("compare", "compare/compare", TAGS),
    Leak("quarter", "quarter/quarter", f"arg 4096\nmemory 0 4096 {'0123456789abcdef' * 2}\n"),
    Leak("piece.g", "piece/add", PIECE, "--keep 0:4096:4",
         told=("looks public", "no violation would be left: examples/piece.c:11")),
    Leak("piece", "piece/add", PIECE.replace("memory 0", "memory 1") + "memory 0 4096 03000000\n"),
    Leak("handle", "handle/f",
         f"arg 4096\narg 255\nmemory 1 4096 0020000004000000\nmemory 0 8192 {'11' * 16}\n"),
    *(Leak("guesses", f"guesses/{name}", AT_16, "--public")
      for name in ("address", "branch", "divide", "call", "store")),
    Leak("guesses", "guesses/scaled", "arg 3\narg 4\n" + VAULT, "--public"),
    Leak("guesses", "guesses/two", "arg 3\narg 16\narg 0\n" + VAULT, "--public"),
    Leak("guesses", "guesses/loop", "arg 196600\narg 8\n" + VAULT, "--public"),
    Leak("guesses.low", "guesses/store", AT_16, "--public"),
    Leak("guesses", "guesses/store", AT_16, "--public --forward"),
    *(Leak("calls", f"calls/{name}", f"arg 8192\narg 4096\narg 7\nmemory 0 4096 {'0102030405060708'}\n")
      for name in ("copy", "move", "set", "compare")),
    Leak("forgotten", "forgotten/f",
         f"arg 4096\narg 8192\nmemory 0 4096 {'11' * 16}\nmemory 1 8192 {'22' * 16}\n"),
    Leak("mail", "mail/tag", "arg 1\narg 2\narg 4096\narg 2\nmemory 0 4096 0102030405060708\n"),
    Leak("chat", "chat/tag", "arg 1\narg 2\narg 4096\nmemory 0 4096 01020304081000000506070800000000\n"),
]


def modules_of(check: Check, image: str) -> List[str]:
    """The modules of an image, where there are lines in them."""
    folder, name = check.folder, image.split(".")[0]
    peers = {"guesses": ["vault"], "index": ["vault"], "frame": ["vault"], "address": ["vault"],
             "handle": ["vault"], "into": ["ledger"], "piece": ["ledger"]}
    if name in ("guesses", "debug"):
        return [f"{folder}/{'debug/' * (name == 'debug')}guesses.wasm", f"{folder}/vault.wasm"]
    if image == "lookup":
        return [f"{EXAMPLES}/lookup.wasm"]
    if image == "piece.g":
        return [f"{folder}/plain/piece.wasm"]
    return ([f"{folder}/{peer}.wasm" for peer in peers.get(name, [])] + [f"{folder}/{name}.wasm"]
            if name in peers else [])


def compiled(check: Check, name: str, to: str, flags: Tuple[str, ...] = ()) -> None:
    """A module of C with lines and a memory that doesn't grow."""
    os.makedirs(os.path.dirname(to), exist_ok=True)
    clang = "clang --target=wasm32 -mcpu=mvp -O2 -ffreestanding -g".split()
    link = ("wasm-ld --no-entry --stack-first -z stack-size=65536 --initial-memory=196608 "
            "--max-memory=196608".split())
    subprocess.run([*clang, *flags, f"-I{COMPANIONS}/include", "-c", "-o", f"{to}.o", f"{EXAMPLES}/{name}.c"],
                   check=True)
    subprocess.run([*link, "-o", f"{to}.linked", f"{to}.o"], check=True)
    subprocess.run(["wasm-opt", "-g", "--untee", "--ssa", f"{to}.linked", "-o", to], check=True,
                   stderr=subprocess.DEVNULL)


def make_images(check: Check) -> None:
    """Those that no other check makes."""
    folder, label = check.folder, f"{COMPANIONS}/blade-label"
    subprocess.run([label, "--replace", f"{EXAMPLES}/compare.wasm", f"{folder}/compare.wasm", "secret-memory",
                    "0", "public-result", "0", "0"], check=True)
    check.hardened("result", [f"{folder}/compare.wasm"])
    for name in ("lookup", "masked", "masked_ssa", "compare", "quarter", "list", "sample"):
        check.hardened(name, [f"{EXAMPLES}/{name}.wasm"])
    compiled(check, "piece", f"{folder}/plain/piece.g.wasm")
    subprocess.run([label, f"{folder}/plain/piece.g.wasm", f"{folder}/plain/piece.wasm", "secret-memory",
                    "0"], check=True)
    check.hardened("piece.g", modules_of(check, "piece.g"))
    compiled(check, "guesses", f"{folder}/guesses.wasm")
    os.makedirs(f"{folder}/debug", exist_ok=True)
    subprocess.run([label, f"{folder}/guesses.wasm", f"{folder}/debug/guesses.wasm", "secret-param", "debug",
                    "0"], check=True)
    subprocess.run([label, f"{COMPANIONS}/include/accessors.wasm", f"{folder}/vault.wasm", "secret-memory",
                    "0"], check=True)
    for name in ("guesses", "debug"):
        check.hardened(name, modules_of(check, name))
        check.blade("lower", f"{folder}/{name}.low.img", *modules_of(check, name))


def searched(check: Check, leak: Leak, out: str, *words: str) -> Tuple[int, str]:
    """The status and the text of a search."""
    start = f"{check.folder}/{out}.start"
    with open(start, "w", encoding="ascii") as file:
        file.write(leak.start)
    command = [f"{COMPANIONS}/blade-witness", f"{check.folder}/{leak.image}.img", leak.export, start,
               *modules_of(check, leak.image), *leak.words.split()]
    done = subprocess.run([*command, "--blade", check.program, "--out", f"{check.folder}/{out}", *words],
                          capture_output=True, text=True, check=False)
    return done.returncode, done.stdout + (done.stderr if done.returncode in (USAGE, UNREAD, GAVE_UP) else "")


def replayed(check: Check, out: str, text: str) -> str:
    """What is wrong where the program alone judges what a search wrote, twice: it must tell the runs apart
    where the text says, in its words."""
    with open(f"{check.folder}/{out}.again", encoding="utf-8") as file:
        words = shlex.split(file.read())
    first, second = (subprocess.run([check.program, *words[1:]], capture_output=True, text=True, check=False)
                     for _ in range(2))
    rows = first.stdout.split("\n")[words[1] == "forward" :]
    told = re.search(r"at directive (\d+), .*: one run shows `(.*)`, the other `(.*)`", text)
    wanted = ["public agree", f"differ {told[1]}", told[2], told[3]]
    if first.returncode != 1 or [rows[0], *rows[-4:-1]] != wanted:
        return f"{shlex.join(words)}: status {first.returncode}: {[rows[0], *rows[-4:-1]]}"
    return "" if first.stdout == second.stdout else "the program says another thing the second time"


def fault_of(check: Check, number: int, leak: Leak, *words: str) -> str:
    if not os.path.exists(f"{check.folder}/{leak.image}.img"):
        return "there is no image: the other checks make it"
    status, text = searched(check, leak, f"found{number}", *words)
    if status == GAVE_UP and leak.status == NOTHING:
        return SLOW
    shown = ("but whole runs of two secrets differ",) * leak.by_runs
    missing = [one for one in leak.told + shown if one not in text]
    if status != leak.status or missing:
        return f"status {status}, without {missing}: {text}"
    return replayed(check, f"found{number}", text) if status == WITNESSED and not leak.by_runs else ""


def name_of(leak: Leak) -> str:
    return f"{leak.export} of {leak.image}{' ' * bool(leak.words)}{leak.words}"


def witnesses(check: Check) -> None:
    """Each known leak is witnessed, and replayed."""
    make_images(check)
    for number, leak in enumerate(LEAKS):
        how = "witnessed, and replayed" if not leak.by_runs else "shown by whole runs"
        check.fault(f"{name_of(leak)}: {how}", fault_of(check, number, leak, "--seconds", LIMIT))
    same(check)
    by_hand(check)
    explained(check)
    refused(check)


def same(check: Check) -> None:
    """One seed gives one answer, whatever the processors and the limit in time."""
    for leak in (LEAKS[0], next(one for one in LEAKS if one.export == "guesses/branch")):
        told = []
        for out, words in (("all", ["--seconds", LIMIT]), ("one", ["--seconds", "1000"])):
            kept = os.sched_getaffinity(0)
            os.sched_setaffinity(0, kept if out == "all" else {min(kept)})
            status, text = searched(check, leak, out, *words)
            os.sched_setaffinity(0, kept)
            files = [open(f"{check.folder}/{out}.{end}", "rb").read()
                     for end in ("trace", "a.start", "b.start")]
            told.append((status, text.replace(f"/{out}.", "/."), files))
        check.say(f"{name_of(leak)}: one processor finds what all find", told[0] == told[1], f"{told}")


def by_hand(check: Check) -> None:
    """The table of lookup stands at 1024: the addresses are those of the two indices."""
    indices = [int(open(f"{check.folder}/found0.{name}.start", encoding="ascii").read().split()[1])
               for name in ("a", "b")]
    text = searched(check, LEAKS[0], "found0")[1]
    told = re.search(r"one run shows `read (\d+) .*`, the other `read (\d+) ", text)
    wanted = [1024 + (index & 15) for index in indices]
    check.say("lookup: the addresses are those of the indices",
              told and [int(told[1]), int(told[2])] == wanted and indices[0] == 3, text)


def explain(check: Check, *words: str) -> Tuple[int, str]:
    return ran(f"{COMPANIONS}/blade-explain", f"{check.folder}/lookup.img", f"{EXAMPLES}/lookup.wasm",
               "--blade", check.program, *words)


def explained(check: Check) -> None:
    """blade-explain says what the run and the witness show; a witness that isn't one is refused."""
    out = f"{check.folder}/found0"
    written = [f"{check.folder}/explained.{end}" for end in ("html", "sarif", "json")]
    status, text = explain(check, "--start", "lookup/lookup", f"{EXAMPLES}/three.start", "--witness", out,
                           "--page", written[0], "--sarif", written[1], "--json", written[2])
    shown = all(one in text for one in ("constant-time no, leak witnessed: a secret reaches 1 address",
                                        "leak witnessed: address of a load", "reaches 1 of 1 violations"))
    texts = [open(path, encoding="utf-8").read() for path in written]
    shown = (shown and "leak witnessed" in texts[0] and '"level": "error"' in texts[1]
             and '"witnessed": true' in texts[2])
    check.say("blade-explain shows a witness, in its text, page, SARIF and JSON", status == 0 and shown, text)
    text = explain(check, "--start", "lookup/lookup", f"{EXAMPLES}/three.start")[1]
    check.say("blade-explain --start: reached and met", "reached 1, met 1: " in text and "likely" not in text,
              text)
    for end in ("trace", "a.start", "again"):
        with open(f"{out}.{end}", "rb") as file, open(f"{check.folder}/wrong.{end}", "wb") as other:
            other.write(file.read())
    with open(f"{check.folder}/wrong.b.start", "w", encoding="ascii") as file:
        file.write("arg 3\n")
    status, text = explain(check, "--witness", f"{check.folder}/wrong")
    check.say("blade-explain: two equal starts are no witness",
              status == UNREAD and "says nothing of a leak" in text, f"{status} {text}")


def refused(check: Check) -> None:
    """What can't be searched, and a search that time ends."""
    lookup = LEAKS[0]
    for words, status, told in ((["--keep", "0:x:1"], UNREAD, "M:OFFSET:SIZE"),
                                (["--secret", "0:16:4"], UNREAD, "isn't declared secret"),
                                (["--what"], USAGE, "")):
        done = searched(check, lookup, "refused", *words)
        check.say(f"blade-witness {' '.join(words)}", done[0] == status and told in done[1], f"{done}")
    done = searched(check, QUIET[1], "refused", "--seconds", "0")
    check.say("blade-witness --seconds 0", done[0] == GAVE_UP and done[1].startswith(
        "gave up before anything was searched, stopped after 0 seconds: "), f"{done}")
    for leak in (Leak("guesses", "guesses/address", "arg 3\narg 16\n"),
                 Leak("list", "list/list", "arg 2048\n"),
                 Leak("sample", "sample/sample", "arg 2048\narg 1\narg 4096\n")):
        done = searched(check, leak, "refused")
        check.say(f"{name_of(leak)}: nothing may change",
                  done[0] == GAVE_UP and done[1].startswith(
                      "blade-witness: gave up before anything was searched: nothing may change"), f"{done}")


# The worked routines: the folder and the function of each.
ROUTINES = {"chacha20": "chacha20/chacha20", "poly1305": "poly1305/poly1305", "sha256": "hmac/sha256_of",
            "hmac": "hmac/hmac", "aes128": "aes128/aes128", "x25519": "x25519/x25519"}


def quiet(check: Check) -> None:
    """Nothing is found where the code is constant-time; where the verdict is yes a witness would be a hole in
    a theorem."""
    for number, leak in enumerate(QUIET, 100):
        leak = leak._replace(status=NOTHING)
        fault = fault_of(check, number, leak, "--seconds", HUNT)
        if fault == SLOW:
            check.skip(f"{name_of(leak)}: nothing found", SLOW)
        else:
            check.fault(f"{name_of(leak)}: nothing found", fault)
    for name, export in ROUTINES.items():
        for way in ("one", "ledger", "vault"):
            source = export.split("/")[0]
            image = f"{name}/{way}/{source}/{source}"
            if not os.path.exists(f"{check.folder}/{image}.img"):
                if name != "x25519" or check.options.all:
                    check.fault(f"{name} {way}: nothing found", "there is no image: the other checks make it")
                continue
            with open(f"{check.folder}/{name}/{way}/{source}/{name}.start", encoding="ascii") as file:
                leak = Leak(image, export, file.read(), status=NOTHING)
            status, text = searched(check, leak, f"{name}.{way}", "--seconds", HUNT)
            if status == GAVE_UP:
                check.skip(f"{name} {way}: nothing found", SLOW)
            else:
                check.say(f"{name} {way}: nothing found", status == NOTHING, text)
