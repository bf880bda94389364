"""Builds of what `generate` wrote, by engines that exist: which calls were made, and what came out. Licence:
public domain (CC0)."""
from __future__ import annotations

import collections
import hashlib
import json
import os
import re
import shutil
import signal
import subprocess
import time
from typing import Callable, Counter, Dict, Iterable, List, NamedTuple, Tuple

HERE = os.path.dirname(os.path.realpath(__file__))
# What is made, by the folder of each kind, in the order of the build.
KINDS = ("module", "stub", "library", "client", "kept", "image")
# What the program writes, and what keeps its bytes from build to build.
WRITTEN = ("library", "client", "image")
# Of Snakemake: jobs by the time of files alone, and no solver of linear programs for each choice of the next
# ones.
SNAKEMAKE = ("snakemake", "-s", f"{HERE}/Snakefile", "--rerun-triggers", "mtime", "--scheduler", "greedy",
             "--quiet", "all")


class Failed(Exception):
    """A call that has to pass doesn't."""


class Ran(NamedTuple):
    """How a command ended, what it printed, how long it took, and how much processor time it took here with
    all that it waited for."""

    status: int
    text: str
    seconds: float
    processor: float


def run(words: Iterable[str], folder: str = ".",
        during: Callable[[subprocess.Popen], None] = lambda process: None) -> Ran:
    """Runs a command in a process group of its own, and something else beside it."""
    begun = time.monotonic()
    with open(f"{folder}/.printed", "w+", encoding="utf-8") as text:
        process = subprocess.Popen(list(words), cwd=folder, stdin=subprocess.DEVNULL, stdout=text,
                                   stderr=subprocess.STDOUT, start_new_session=True)
        try:
            during(process)
            _, status, used = os.wait4(process.pid, 0)
        except BaseException:
            os.killpg(process.pid, signal.SIGKILL)
            raise
        process.returncode = os.WEXITSTATUS(status) if os.WIFEXITED(status) else -os.WTERMSIG(status)
        seconds = time.monotonic() - begun
        text.seek(0)
        return Ran(process.returncode, text.read(), seconds, used.ru_utime + used.ru_stime)


class Build:
    """A folder that `generate` wrote, and the program that hardens."""

    def __init__(self, program: str, folder: str) -> None:
        self.program, self.folder = os.path.abspath(program), os.path.abspath(folder)
        os.makedirs(self.folder, exist_ok=True)

    def generate(self, *words: str) -> Ran:
        return run([f"{HERE}/generate", self.folder, *words], self.folder)

    def versions(self) -> Dict[str, int]:
        with open(f"{self.folder}/versions.json", encoding="utf-8") as file:
            return json.load(file)["versions"]

    def change(self, *words: str) -> Tuple[List[str], List[str]]:
        """Has `generate` write another version of some, and says of which libraries and clients."""
        before = self.versions()
        done = self.generate(*words)
        if done.status:
            raise Failed(done.text)
        names = [name for name, version in self.versions().items() if version != before[name]]
        return [name for name in names if name in self.libraries()], [name for name in names
                                                                      if name in self.graph()]

    def graph(self) -> Dict[str, str]:
        """Each client's library."""
        with open(f"{self.folder}/graph", encoding="utf-8") as file:
            return dict(line.split() for line in file)

    def libraries(self) -> List[str]:
        return sorted(name[:-3] for name in os.listdir(f"{self.folder}/interface"))

    def make(self, *words: str, during: Callable[[subprocess.Popen], None] = lambda process: None) -> Ran:
        return run(["make", "-f", f"{HERE}/Makefile", f"BLADE={self.program}", *words], self.folder, during)

    def snakemake(self, *words: str) -> Ran:
        return run([*SNAKEMAKE, "--config", f"blade={self.program}", *words], self.folder)

    def slurm(self, room: str, workers: int, processors: int, *words: str,
              during: Callable[[subprocess.Popen], None] = lambda process: None) -> Ran:
        """Runs a command over workers of Slurm, which is started for it in a folder beside."""
        shutil.rmtree(room, ignore_errors=True)
        return run([f"{HERE}/cluster", "--workers", str(workers), "--processors", str(processors), room,
                    *words], self.folder, during)

    def over_slurm(self, workers: int, processors: int, groups: int, *words: str) -> List[str]:
        """The command by which Snakemake gives its jobs to Slurm, so many groups at once to a worker, and
        tries again what failed."""
        return [*SNAKEMAKE, "--cluster-sync", f"srun --quiet --ntasks=1 --cpus-per-task={processors}",
                "--jobs", str(workers), "--group-components", f"apart={groups}", "--retries", "2",
                "--latency-wait", "30", *words, "--config", f"blade={self.program}"]

    def files(self) -> Dict[str, Tuple[int, int]]:
        """What is there of each kind, and since when."""
        found = {}
        for kind in KINDS:
            if os.path.isdir(f"{self.folder}/{kind}"):
                found.update((f"{kind}/{it.name}", (it.stat().st_mtime_ns, it.inode())) for it in os.scandir(
                    f"{self.folder}/{kind}") if not it.name.startswith(".") and not it.name.endswith(".txt"))
        return found

    def made(self, before: Dict[str, Tuple[int, int]]) -> Counter[str]:
        """How many of each kind were made since then: so many calls were made."""
        return collections.Counter(path.split("/")[0] for path,
                                   since in self.files().items() if before.get(path) != since)

    def sums(self) -> Dict[str, str]:
        """The sums of the bytes of what the program wrote."""
        sums = {}
        for path in self.files():
            if path.split("/")[0] in WRITTEN:
                with open(f"{self.folder}/{path}", "rb") as file:
                    sums[path] = hashlib.sha256(file.read()).hexdigest()
        return sums

    def beside(self) -> List[str]:
        """What calls that were killed left beside their files."""
        return [f"{kind}/{name}" for kind in WRITTEN if os.path.isdir(f"{self.folder}/{kind}")
                for name in os.listdir(f"{self.folder}/{kind}") if re.fullmatch(r"\.blade-\w+\.tmp", name)]

    def clear(self, *kinds: str) -> None:
        """Takes away what was made, of these kinds."""
        for kind in kinds:
            shutil.rmtree(f"{self.folder}/{kind}", ignore_errors=True)
        shutil.rmtree(f"{self.folder}/.snakemake", ignore_errors=True)


def calls_after(graph: Dict[str, str], libraries: Iterable[str] = (),
                clients: Iterable[str] = ()) -> Dict[str, int]:
    """How many calls of each kind have to be made after a change of these libraries and clients alone."""
    libraries, clients = set(libraries), set(clients)
    joined = len(clients | {client for client, library in graph.items() if library in libraries})
    counts = {"module": len(libraries) + len(clients), "library": len(libraries), "client": len(clients),
              "kept": joined, "image": joined}
    return {kind: count for kind, count in counts.items() if count}


def until(is_so: Callable[[], bool], process: subprocess.Popen, seconds: float = 600) -> bool:
    """Waits until something is so, and says whether the process still ran then."""
    end = time.monotonic() + seconds
    while not is_so() and time.monotonic() < end:
        if os.waitid(os.P_PID, process.pid, os.WEXITED | os.WNOHANG | os.WNOWAIT):
            return False
        time.sleep(0.01)
    return True
