"""What tools/rlibs and tools/building/build share: where the kit and the proved libraries are, what a crate
stands on, whether it is built from the files as they are, and the run that proves crates side by side, lowest
first."""
from __future__ import annotations

import fcntl
import hashlib
import os
import shutil
import signal
import subprocess
import time
from typing import Any, Iterator, Sequence

# Not Python's own handler, which prints where it was.
signal.signal(signal.SIGINT, signal.SIG_DFL)
TOP = os.path.dirname(os.path.dirname(os.path.dirname(os.path.realpath(__file__))))
# A proof takes 1 to 3 GB: beside others none is started where less is free.
ROOM = 3 << 30
# Where nothing was measured yet, a crate's seconds are its bytes by this.
BYTES_A_SECOND = 1000


def kit() -> Any:
    """The folder of the kit whose rt is found first; None where there is none."""
    rt = shutil.which('rt')
    folder = os.path.dirname(os.path.dirname(os.path.realpath(rt))) if rt else ''
    return folder if os.path.isfile(f'{folder}/bin/rattle') else None


def identity(folder: str) -> str:
    """The line by which a kit is known."""
    return open(f'{folder}/KIT-ID').read().strip()


def cache() -> str:
    """A folder for what is built of this repository. It is outside: built libraries have sources in them, and
    the gate refuses a repository with sources that no check reads, and with links."""
    base = os.environ.get('XDG_CACHE_HOME') or os.path.expanduser('~/.cache')
    return os.path.join(base, 'blade', hashlib.sha256(TOP.encode()).hexdigest()[:16])


def rlibs() -> Any:
    """Where proved libraries are kept: RLIBS, or rlibs/ beside the repository where that is there, or in its
    cache."""
    beside = os.path.join(os.path.dirname(TOP), 'rlibs')
    return os.environ.get('RLIBS') or (beside if os.path.isdir(beside) else os.path.join(cache(), 'rlibs'))


def read_crates() -> Any:
    """What each crate stands on, by crates.txt."""
    crates = {}
    for line in open(os.path.join(TOP, 'crates.txt')):
        line = line.split('#')[0].strip()
        if ':' in line:
            name, libraries = line.split(':', 1)
            crates[name.strip()] = libraries.split()
    return crates


def read_layers() -> Any:
    """The layers of crates.txt, lowest first: the name of each, and its crates in order. The crates of tests
    are in the last."""
    layers = []
    for line in open(os.path.join(TOP, 'crates.txt')):
        if line.startswith('# ---- '):
            layers.append((line[7:].strip(), []))
        elif ':' in line.split('#')[0] and layers:
            layers[-1][1].append(line.split(':')[0].strip())
    return layers


CRATES = read_crates()


def below(name: str, found: Any = None) -> Any:
    """All crates of the repository that one stands on."""
    found = set() if found is None else found
    for lower in CRATES[name]:
        if lower in CRATES and lower not in found:
            found.add(lower)
            below(lower, found)
    return found


def root_of(name: str) -> str:
    """A crate's root file, from its folder."""
    return ('src/lib.rt' if os.path.isfile(os.path.join(TOP, 'crates', name, 'src', 'lib.rt'))
            else 'src/main.rt')


def files_of(name: str) -> Iterator[Any]:
    """The files that a check of a crate reads."""
    for part in ('src', 'specs', 'proofs'):
        for folder, folders, files in os.walk(os.path.join(TOP, 'crates', name, part)):
            folders.sort()
            for file in sorted(files):
                yield os.path.join(folder, file)


def stamp(name: str, made: Any) -> Any:
    """A sum over a crate's files and those that it stands on; `made` keeps those that are known."""
    if name not in made:
        total = hashlib.sha256()
        for file in files_of(name):
            total.update(os.path.relpath(file, TOP).encode() + open(file, 'rb').read())
        for lower in CRATES[name]:
            total.update(lower.encode() + (stamp(lower, made).encode() if lower in CRATES else b''))
        made[name] = total.hexdigest()
    return made[name]


def text_of(file: str) -> Any:
    """A file's text, or nothing where there is none."""
    return open(file).read() if os.path.isfile(file) else ''


def hold(file: str, waits: Any) -> Any:
    """Takes a lock that ends with the process; where another run has it, calls `waits` and waits."""
    os.makedirs(os.path.dirname(file), exist_ok=True)
    lock = open(file, 'a')
    try:
        fcntl.flock(lock, fcntl.LOCK_EX | fcntl.LOCK_NB)
    except OSError:
        waits()
        fcntl.flock(lock, fcntl.LOCK_EX)
    return lock


def free() -> Any:
    """The memory that is free, in bytes."""
    for line in open('/proc/meminfo'):
        if line.startswith('MemAvailable:'):
            return int(line.split()[1]) << 10
    return ROOM


class Runs:
    """The processes that this one has started; they end when it is ended."""

    def __init__(self) -> None:
        self.running = {}
        for number in (signal.SIGTERM, signal.SIGHUP, signal.SIGINT):
            signal.signal(number, self.end)

    def start(self, name: str, words: Sequence[str], folder: str, log: Any) -> None:
        """Starts a command in a group of its own."""
        out = open(log, 'w')
        how = {'cwd': folder, 'stdin': subprocess.DEVNULL, 'stdout': out, 'stderr': out,
               'start_new_session': True}
        self.running[name] = subprocess.Popen([*guard(), *words], **how), time.time()

    def ended(self) -> Any:
        """The commands that have ended since, each with its status and seconds."""
        found = [(name, ran.returncode, time.time() - begun) for name,
                 (ran, begun) in self.running.items() if ran.poll() is not None]
        for name, _, _ in found:
            del self.running[name]
        return found

    def end(self, number: int, _: Any) -> None:
        """Ends all and then itself, as a signal does."""
        for ran, _ in self.running.values():
            try:
                os.killpg(ran.pid, signal.SIGKILL)
            except OSError:
                pass
        signal.signal(number, signal.SIG_DFL)
        os.kill(os.getpid(), number)


def guard() -> Any:
    """Words before a command's, by which it ends also where this process is killed outright."""
    return ['setpriv', '--pdeathsig', 'KILL'] if shutil.which('setpriv') else []


class Libraries:
    """The proved libraries in their folder."""

    def __init__(self, kit_folder: Any, folder: str) -> None:
        self.kit, self.folder, self.stamps = kit_folder, folder, {}

    def open(self, waits: Any) -> None:
        """Takes the folder for this run; libraries of another kit are none."""
        self.lock = hold(os.path.join(self.folder, 'lock'), waits)
        known = os.path.join(self.folder, 'kit')
        if text_of(known) not in ('', identity(self.kit)):
            for name in CRATES:
                self.forget(name)
        with open(known, 'w') as it:
            it.write(identity(self.kit))

    def path(self, name: str, file: str) -> str:
        return os.path.join(self.folder, name, file)

    def stamp(self, name: str) -> Any:
        return stamp(name, self.stamps)

    def is_built(self, name: str) -> bool:
        """Whether a library is built from the files as they are."""
        return text_of(self.path(name, 'stamp')) == self.stamp(name)

    def forget(self, name: str) -> None:
        if os.path.isfile(self.path(name, 'stamp')):
            os.remove(self.path(name, 'stamp'))

    def words(self, name: str, jobs: Any) -> Any:
        """What the prover is given for a crate."""
        words = [f'{self.kit}/bin/rattle', 'build', '--crate-name', name, root_of(name)]
        words += ['--extern', f'std={self.kit}/rlibs/std.rlib', '-L', f'dependency={self.kit}/rlibs']
        for lower in CRATES[name]:
            root = os.path.join(self.folder, lower) if lower in CRATES else f'{self.kit}/rlibs'
            words += ['--extern', f'{lower}={root}/{lower}.rlib']
        for lower in sorted(below(name)):
            words += ['-L', f'dependency={self.folder}/{lower}']
        return words + ['--antt-project', f'{self.kit}/rattle/logic/antt-project.json', '--logic-built',
                        f'{self.kit}/logic_built', '--links', f'{name}=', '--jobs', str(jobs)]

    def start(self, runs: Any, name: str, jobs: Any) -> None:
        """Starts the proof of a library, which is built where it ends well."""
        os.makedirs(os.path.join(self.folder, name), exist_ok=True)
        self.forget(name)
        words = [*self.words(name, jobs), '--statements', '-o', self.path(name, f'{name}.rlib')]
        runs.start(name, words, os.path.join(TOP, 'crates', name), self.path(name, 'log'))

    def keep(self, name: str, seconds: float) -> None:
        """Marks a library as built from the files as they were when this run began."""
        for file, text in (('seconds', f'{seconds:.0f}'), ('stamp', self.stamp(name))):
            with open(self.path(name, file), 'w') as it:
                it.write(text)

    def guess(self, name: str) -> Any:
        """The seconds that a crate took before, or may take by its bytes."""
        measured = text_of(self.path(name, 'seconds'))
        return float(measured) if measured else 5 + sum(map(os.path.getsize, files_of(name))) / BYTES_A_SECOND


def chain(name: str, guesses: Any, made: Any) -> Any:
    """The seconds of a crate and of the longest chain of crates that stand on it; `made` keeps those that are
    known."""
    if name not in made:
        made[name] = guesses[name] + max([chain(it, guesses, made) for it in guesses if name in CRATES[it]],
                                         default=0)
    return made[name]


def simulated(guesses: Any, spent: Any, lanes: Any) -> Any:
    """The seconds that crates take in so many lanes, each after those that it stands on; `spent` are the
    seconds of those in work."""
    left, ends, now = dict(guesses), {}, 0.0
    for name, seconds in spent.items():
        ends[name] = max(left.pop(name) - seconds, 5)
    while left or ends:
        waits = {*left, *ends}
        for name in [it for it in left if not below(it) & waits][:max(0, lanes - len(ends))]:
            ends[name] = now + left.pop(name)
        now = min(ends.values())
        ends = {name: end for name, end in ends.items() if end > now}
    return now


def prove(libraries: Any, wanted: Any, lanes: Any, says: Any) -> Any:
    """Proves libraries side by side, lowest first, and calls `says` with the state as it goes; the names of
    those that failed."""
    runs, failed = Runs(), []
    left = [it for it in wanted if not libraries.is_built(it)]
    # First what the longest chain of others waits for.
    guesses = {it: libraries.guess(it) for it in left}
    left.sort(key=lambda it: -chain(it, guesses, {}))
    state = State(libraries, len(wanted), lanes, runs, left)
    says(state, None)
    while left or runs.running:
        waits = {*left, *runs.running}
        ready = [it for it in left if not below(it) & waits]
        jobs = max(1, (lanes - len(runs.running)) // max(1, len(ready)))
        for name in ready[:max(0, lanes - len(runs.running))]:
            if not runs.running or free() > ROOM:
                left.remove(name)
                libraries.start(runs, name, jobs)
        time.sleep(0.2)
        for name, status, seconds in runs.ended():
            if status:
                failed.append(name)
                left[:] = [it for it in left if name not in below(it)]
            else:
                libraries.keep(name, seconds)
            state.count(name, status, seconds)
            says(state, name)
        says(state, None)
    return failed


class State:
    """How far a run is."""

    def __init__(self, libraries: Any, total: Any, lanes: Any, runs: Any, left: Any) -> None:
        self.libraries, self.total, self.lanes, self.runs, self.left = libraries, total, lanes, runs, left
        self.begun, self.done, self.last = time.time(), total - len(left), (None, 0, 0)
        self.guesses = {it: libraries.guess(it) for it in left}
        self.guessed = self.took = 0.0

    def count(self, name: str, status: int, seconds: float) -> None:
        """Takes note of a proof that has ended."""
        self.done += not status
        self.last = name, status, seconds
        self.guessed += self.guesses[name]
        self.took += seconds

    def seconds_left(self) -> Any:
        """A guess at the time that the rest takes, by how the guesses so far held."""
        now = time.time()
        spent = {name: now - begun for name, (_, begun) in self.runs.running.items()}
        # Until enough is proved the guesses count as if some of them had held.
        factor = (self.took + 120) / (self.guessed + 120)
        guesses = {name: self.guesses[name] * factor for name in [*self.left, *spent]}
        return simulated(guesses, spent, self.lanes)


if __name__ == '__main__':
    print(rlibs())
