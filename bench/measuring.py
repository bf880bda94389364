"""What the benches share: the program, files, what a command costs, and generated functions. Licence: public
domain (CC0)."""
import os
import subprocess
import sys
import time
from typing import List, NamedTuple, Sequence, Union

TOP = os.path.dirname(os.path.dirname(os.path.realpath(__file__)))
COMPANIONS = f"{TOP}/companions"
sys.dont_write_bytecode = True
sys.path.insert(0, COMPANIONS)
from blade_companions.formats.encoding import leb  # noqa: E402

# Items of a function of one i32 to one i32 with one more local: loads by the parameter and by the local, a
# loop around a load, a sum.
ITEMS = [bytes.fromhex(it) for it in ("20 00 28 02 00 21 01", "20 01 28 02 00 21 01",
                                      "03 40 20 01 28 02 00 21 00 0B", "20 00 20 01 6A 21 01")]
# A function of two i32 to one: (loop (local.set 1 (i32.add (local.get 1) (local.get 0))) (br_if 0 (local.tee
# 0 (i32.add (local.get 0) (i32.const -1))))) (local.get 1)
SUM_LOOP = bytes.fromhex("03 40 20 01 20 00 6A 21 01 20 00 41 7F 6A 22 00 0D 00 0B 20 01 0B")


class Used(NamedTuple):
    """What a command printed, its status, its wall seconds, its processor seconds in user code and in the
    system, and the most MB that it took."""

    text: str
    status: int
    wall: float
    user: float
    system: float
    memory: float

    @property
    def processor(self) -> float:
        return self.user + self.system


def program(words: Sequence[str] = ()) -> str:
    """The program: the first word, else that of the variable BLADE, else the one that was built or is in
    dist/."""
    if words or "BLADE" in os.environ:
        return os.path.realpath(words[0] if words else os.environ["BLADE"])
    found = subprocess.run([f"{TOP}/tools/building/program"], stdout=subprocess.PIPE, text=True,
                           check=False).stdout.strip()
    return found or sys.exit("there is no program: ./blade builds one")


def used(*words: str) -> Used:
    """What a command takes. GNU time starts it, since a child of this process would count this one's memory
    as its own."""
    begun = time.monotonic()
    child = subprocess.Popen(["/usr/bin/time", "-q", "-o", ".used", "-f", "%M", *words],
                             stdout=subprocess.PIPE, stderr=subprocess.STDOUT)
    with child.stdout as printed:
        text = printed.read().decode()
    _, status, usage = os.wait4(child.pid, 0)
    child.returncode = os.WEXITSTATUS(status)
    with open(".used", encoding="ascii") as file:
        memory = int(file.read()) / 1024
    return Used(text, child.returncode, time.monotonic() - begun, usage.ru_utime, usage.ru_stime, memory)


def known(line: str, found: object, wanted: object) -> None:
    """Ends the bench where a command gave something else than is known of it."""
    if found != wanted:
        sys.exit(f"{line}: {found!r}, which should be {wanted!r}")


def write(name: str, contents: Union[bytes, str]) -> int:
    """Writes a file of this folder; its length."""
    with open(name, "wb") as file:
        return file.write(contents.encode() if isinstance(contents, str) else contents)


def busy(kinds: Sequence[int], callees: Sequence[int]) -> bytes:
    """The body of a function of one i32 to one i32: items of these kinds, and calls of these functions by the
    local."""
    calls: List[bytes] = [b"\x20\1\x10" + leb(callee) + b"\x21\1" for callee in callees]
    return b"\1\1\x7F" + b"".join(ITEMS[kind] for kind in kinds) + b"".join(calls) + b"\x20\1\x0B"
