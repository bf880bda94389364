"""From C to a verdict in one command: compiles, links, labels, hardens and verifies, and names the lines of C
through which a secret flows. It runs clang, wasm-ld, wasm-opt and blade; -v prints these commands. Licence:
public domain (CC0).

    blade-cc [OPTIONS] FILE.c ... [-o OUT]     writes the folder OUT/ (NAME.blade): NAME.wasm with labels,
                                               NAME.img, NAME.json, report.txt, problems.json, NAME.sarif
    blade-cc [OPTIONS] FILE.o ... -o NAME.wasm the same, with the other files in NAME.blade/: for make and
                                               CMake
    blade-cc [OPTIONS] -c FILE.c -o FILE.o     only compiles

OPTIONS are clang's, wasm-ld's after -Wl, and these:
    --label 'KIND NAME ...'  adds labels as blade-label takes them to those of blade.h in the sources
    --ledger, --vault        together with -DLEDGER or -DVAULT: adds the module of the accessors
    --sysroot FOLDER         where wasi-libc is: FOLDER/include/wasm32-wasi and FOLDER/lib/wasm32-wasi (if not
                             given, the folder of the variable WASI_SYSROOT, else /usr)
    --config-h[=NAME.h]      makes an empty config.h, or NAME.h, for code whose configure script did not run,
                             and prints where it is; a file of this name in a folder of -I comes first
    --memory PAGES           the number of pages of the memory, which does not grow (3, or one more than the
                             data takes)
    --export NAME            exports only this function; may be given again (if not given, the functions that
                             the sources mark as exported, else all that are not static)
    --counts [EXPORT=]START  chooses protects by how often a run from a start file executes each load; may be
                             given again
    --start [EXPORT=]START   after a no, searches for ten seconds for two runs that show the leak, beginning
                             with a start file (blade-witness)
    --keep M:OFFSET:SIZE     with --start: these bytes of the start file are public; may be given again
    --public-callers=F,...   calls within the module may pass public values as secret parameters of F
    --no-assumptions         clang may not use what the C standard leaves undefined, as in units with
                             BLADE_SECRET; with -c, for other units of the same program
    --part library|client    hardens one side of an interface (blade part) and makes OUT/NAME.part; for a
                             library also a stub, OUT/stub/NAME.wasm (blade-stub)
    --interface FILE         with --part: the interface file
    --stub STUB.wasm         with --part client: the stub of a library; may be given again
    --unlabelled             nothing is declared secret, and this is intended
    --split[=auto|always|never]
                             after a no, moves public numbers that pass through C's secret memory to a public
                             memory, the shadow, and judges again (blade-split). always: also after a yes, and
                             a split that fails is an error. The modules made are shadow.wasm and a split
                             NAME.wasm. If no run is recorded (--record), nothing is tried, and a warning says
                             so
    --record [EXPORT=]START  a start file whose run is recorded for --split, in addition to those of --counts
                             and --start; may be given again
    --public OFFSET:SIZE     for --split: these bytes of C's memory are public at the start
    --native                 if the verdict is yes, also writes OUT/native/ (NAME.blade/native/): NAME.c,
                             NAME.h and NAME.o for this machine (blade-native)
    --no-fail                after a no, ends with status 0, keeps what was made, and prints violations as
                             warnings, not as errors
    --limit N                prints at most N violations (20)
    --all                    also prints violations in libraries; otherwise wasi-libc and each folder outside
                             of the current one is one line with a count
    --allocator[=BYTES]      adds malloc and free with BYTES of heap (262,144), which keep their state outside
                             of C's memory
    --name NAME              the module's name (if not given, that of OUT.wasm or of the only file, or for
                             several files that of the folder OUT/)
    --blade PROGRAM          the program (if not given, that of the variable BLADE, else the one of this
                             repository or release, else blade)
    -v                       prints each command, so that it can be typed

OUT is a folder if it ends with a slash, or if it has no ending and a source is given. Otherwise OUT is a
file. After a no, all files are in OUT/refused/, and the folder's time is set back, so that make builds it
again.
Status: 0 constant-time; 1 not constant-time; 2 usage; 3 clang, the linker or blade refuses the files, or a
run for --counts fails; 4 gave up: a tool is missing or too old, or two tools disagree; 5 a label is wrong or
was lost, or there is none."""
from __future__ import annotations

import fcntl
import os
import shlex
import subprocess
import sys
import tempfile
from collections import Counter
from typing import Dict, List, Optional, Sequence, Tuple

from .verdict import compare, diagnostics, sarif, text
from .c.arguments import BUILD, DISAGREE, LABELS, REFUSED, Asked, Stop, asked_by
from .c import splitting
from .c.build import Builder
from .verdict.causes import causes_of
from .ending import ended, is_answered
from .verdict.flow import find
from .witnesses.hunting import after_no, summary
from .formats.image import Image, read_image
from .formats.labels import Entry, entries_of
from .c.lines import Line, Lines, chosen
from .formats.lowering import LinkedFunction, lower
from .formats.memories import pages_of, with_free, with_pages
from .c.paths import shown
from .formats.certificate import Protect, protects_of, read_certificate
from .formats.reading import Bad, read_file
from .c.refusals import refusal
from .c.callers import Given, gone, public_arguments
from .c.compiling import keep_labelled
from .c.declarations import NOTHING, Labelled, base, left_out, with_source
from .c.sources import Sources
from .c.tools import HERE, INCLUDE, Ran, Runner, found, program, written_to
from .formats.module import FUNCTION, Module, module_of, read_module
from .printing import say
from .programs import version
from .statuses import NO, USAGE, YES

STEPS = "4000000000"  # the most of a run that is counted
MADE = ("wasm", "img", "json")  # of the module: what blade-cc makes where the verdict is yes


def native_files(folder: str, name: str) -> List[str]:
    """What an earlier call made by --native, if there is anything."""
    if not os.path.isdir(folder):
        return []
    from .native.making import files_of
    return files_of(folder, name)


class Driver:
    """The steps, in a folder: build/ has what is on the way, refused/ what isn't judged yet or isn't
    constant-time."""

    image_end = "img"

    def __init__(self, asked: Asked) -> None:
        self.asked, self.runner = asked, Runner(asked.verbose)
        self.program = program(asked.blade)
        self.module = asked.name or asked.base or "a"
        out = asked.out or f"{self.module}.blade/"
        out = f"./{out}" if out.startswith("-") else out  # no tool takes it for a word
        # A linker's output is a file, and so is what has an ending.
        is_named_so = bool(os.path.splitext(out)[1] or not asked.sources)
        is_file = not out.endswith("/") and not os.path.isdir(out) and is_named_so
        self.file = out if is_file else ""
        self.folder = f"{os.path.splitext(out)[0]}.blade" if self.file else out.rstrip("/")
        if self.file and not asked.name:
            self.module = os.path.splitext(os.path.basename(out))[0]
        elif asked.out and not asked.name and not asked.base:
            self.module = name_of_folder(self.folder) or self.module
        if self.module == asked.way:
            raise Stop(USAGE, f"blade-cc: error: the module can't be called {self.module}, as that of the "
                       "accessors is: give it another name by --name NAME")
        self.aside = f"{self.folder}/refused"
        self.where: Dict[Entry, str] = {}  # where labels were declared
        self.called: Dict[Entry, str] = {}  # their parameters as C calls them
        self.explained_by: List[str] = []  # further words for blade-explain
        self.builder = Builder(asked, self.runner, f"{self.folder}/build")

    def made(self) -> List[str]:
        """The names of what is made in the folder where the verdict is yes."""
        return [f"{self.module}.{end}" for end in MADE] + [f"{self.asked.way}.wasm"] * bool(self.asked.way)

    def clear(self) -> None:
        """What an earlier call wrote says nothing of this one, and make would take it for made."""
        reports = [f"{self.module}.sarif", "report.txt", "verify.txt", "problems.json"]
        self.keep_old()
        native = native_files(f"{self.folder}/native", self.module)
        named = [f"{self.folder}/{name}" for name in self.made() + reports]
        split = splitting.files_of(self)
        for path in [*named, *(f"{self.aside}/{name}" for name in self.made()), *native, *split, self.file]:
            if path and os.path.lexists(path):
                os.remove(path)
        for folder in (f"{self.folder}/build", self.aside, *[f"{self.folder}/native"] * self.asked.native):
            names = os.listdir(folder) if os.path.isdir(folder) else []
            for one in [folder, *(f"{folder}/{name}" for name in names)]:
                if os.path.islink(one):
                    os.remove(one)
            os.makedirs(folder, exist_ok=True)
        self.keep_old()

    def keep_old(self) -> None:
        """Where the folder is make's target it stays older than all that it is made of until all is done: a
        call may be killed at any time."""
        if not self.file:
            os.utime(self.folder, (0, 0))

    def enter(self) -> None:
        """Makes the folder, older than anything from the first, and waits for another call that works
        there."""
        if not os.path.isdir(self.folder):
            above = os.path.dirname(os.path.abspath(self.folder))
            os.makedirs(above, exist_ok=True)
            with tempfile.TemporaryDirectory(prefix=".blade-", dir=above) as room:
                os.mkdir(f"{room}/made", 0o777)
                for name in ("build", "refused"):
                    os.mkdir(f"{room}/made/{name}")
                os.utime(f"{room}/made", (0, 0))
                try:
                    os.rename(f"{room}/made", self.folder)
                except OSError:
                    if not os.path.isdir(self.folder):
                        raise
        self.lock = os.open(self.folder, os.O_RDONLY)
        try:
            fcntl.flock(self.lock, fcntl.LOCK_EX | fcntl.LOCK_NB)
        except BlockingIOError:
            say(f"blade-cc: note: another blade-cc is at work in {self.folder}; this one waits for it",
                sys.stderr)
            fcntl.flock(self.lock, fcntl.LOCK_EX)

    def put(self, name: str, data: bytes) -> None:
        """Writes a report: whole, and without a time at which the folder looks made."""
        beside = f"{self.folder}/build/{name}"
        written_to(beside, data)
        os.replace(beside, f"{self.folder}/{name}")
        self.keep_old()

    def all(self) -> int:
        self.enter()
        self.clear()
        for name in ["clang"] * bool(self.asked.sources) + ["wasm-ld", "wasm-opt", "llvm-symbolizer"]:
            found(name)
        objects = self.builder.objects()
        linked = self.builder.link(objects)
        wrong = left_out(linked, self.builder.lines())
        if wrong:
            raise Stop(LABELS, *wrong)
        modules = self.accessors(self.label(linked, self.builder.split(self.module)))
        report, verified = self.harden(modules)
        self.refuse_public_arguments(modules)
        return self.judge(splitting.tried(self, splitting.Outcome(modules, report, verified)))

    def label(self, linked: Module, module: Module) -> str:
        asked, to = self.asked, f"{self.aside}/{self.module}.wasm"
        free = self.builder.free()
        # Of the vault the secrets stand in its own module; where nothing at all is declared, that is said
        # with the verdict.
        self.runner.show([os.path.join(HERE, "blade-label"), module.path, to, *asked.labels, "--unlabelled",
                          "--linked", linked.path, "--free-of", free.path])
        try:
            made, told = with_source(module, asked.labels, False, True, linked)
        except Bad as bad:
            raise Stop(LABELS, f"blade-cc: error: {bad} [blade-label]") from None
        errors = (told.errors or lost(linked, told, asked.public_callers)
                  or self.builder.strangers(linked, told.others, asked.public_callers))
        if errors:
            raise Stop(LABELS, *errors)
        self.where, self.called = dict(told.entries), told.called
        written_to(to, with_free(made, free))
        return to

    def accessors(self, labelled: str) -> List[str]:
        """The module, and in front of it that of the accessors with as many pages."""
        way = self.asked.way
        if not way:
            return [labelled]
        plain, to = os.path.join(INCLUDE, "accessors.wasm"), f"{self.aside}/{way}.wasm"
        words = ["secret-memory", "0"] if way == "vault" else []
        self.runner.show([os.path.join(HERE, "blade-label"), plain, to, "--pages-of", labelled,
                          "--unlabelled", *words])
        made = with_pages(read_module(plain), pages_of(read_module(labelled)))
        written_to(to, with_source(module_of(made, to), words, False, True)[0])
        return [to, labelled]

    def blade(self, *words: str, to: str = "") -> Ran:
        """Runs the program. What its launcher says goes on to who asked: it may build for an hour."""
        return self.runner.run([self.program, *words], to, None)

    def harden(self, modules: List[str]) -> Tuple[str, str]:
        """The report, and what verify says."""
        image, certificate = f"{self.aside}/{self.module}.img", f"{self.aside}/{self.module}.json"
        done = self.blade("harden", image, certificate, *modules, *self.counts(modules),
                          to=f"{self.folder}/build/report.txt")
        if done.status:
            raise Stop(REFUSED, *self.refused(done, modules[-1]))
        verified = self.blade("verify", image, certificate, to=f"{self.folder}/build/verify.txt")
        if verified.status or verified.out.splitlines()[:2] != ["certificate yes", "stable yes"]:
            raise Stop(DISAGREE, "blade-cc: error: verify doesn't agree with harden: "
                       f"{verified.out.strip() or verified.status}")
        return done.out, verified.out

    def refuse_public_arguments(self, modules: List[str]) -> None:
        """What the module's own calls give for a secret parameter is secret in the caller already."""
        image = read_image(read_file(f"{self.aside}/{self.module}.{self.image_end}", "image"))
        functions = lower([read_module(path) for path in modules])
        allowed = {number for number, one in enumerate(functions)
                   if is_meant(one.module, one.index, self.asked.public_callers)}
        given = public_arguments(image, allowed)
        if given:
            lines = Lines(functions)
            lines.ask([one.position for one in given])
            raise Stop(LABELS, *dict.fromkeys(self.about(one, functions, lines) for one in given))

    def about(self, given: Given, functions: Sequence[LinkedFunction], lines: Lines) -> str:
        """An argument that is public, by its line, with what can be done."""
        callee, line = functions[given.function], lines.line(given.position)
        entry = "secret-param", (callee.index, given.parameter)
        where, name = self.where.get(entry, ""), self.called.get(entry, str(given.parameter))
        parameter = f"parameter {name} of {callee.name}" + (f" ({where})" if where else "")
        caller = functions[given.caller].name if given.caller >= 0 else "a function"
        return (f"{line.place + ':' + str(line.column) if line.number else 'blade-cc'}: error: "
                f"{caller} passes a public value as the secret {parameter}: declare "
                f"{caller}'s parameter, mark the value by BLADE_SECRET(x), "
                f"or say --public-callers={base(callee.name)} if that is meant [blade-caller]")

    def counts(self, modules: List[str]) -> List[str]:
        """The words for harden, of runs from the start files."""
        if not self.asked.counts:
            return []
        base = f"{self.folder}/build/{self.module}"
        image, total = f"{base}.lowered.img", f"{base}.counts"
        done = self.blade("lower", image, *modules)
        if done.status:
            raise Stop(REFUSED, *self.refused(done, modules[-1]))
        files = [self.counted(image, one, f"{self.folder}/build/{at}.counts", modules[-1])
                 for at, one in enumerate(self.asked.counts)]
        awk = '$1 == "site" { n[$2] += $3 } END { for (p in n) print "site", p, n[p] }'
        self.runner.show_text(f"(head -1 {shlex.quote(files[0])}; awk {shlex.quote(awk)} {shlex.join(files)} "
                              f"| sort -k 2n) > {shlex.quote(total)}")
        written_to(total, summed([read_file(one).decode() for one in files]).encode())
        return ["--counts", total]

    def counted(self, image: str, given: str, to: str, module: str) -> str:
        """The count file of a run from a start file, given as EXPORT=FILE or, where there is one export, as
        FILE."""
        name, _, start = given.rpartition("=")
        exports = [told for sort, told in read_module(module).exports if sort == FUNCTION]
        if not name and len(exports) != 1:
            raise Stop(USAGE, f"blade-cc: error: --counts {given}: EXPORT=FILE says which function runs: "
                       f"{', '.join(exports[:8])}")
        done = self.blade("run", image, f"{self.module}/{name or exports[0]}", start, "--steps", STEPS,
                          "--counts", to)
        if done.status:
            raise Stop(REFUSED, f"blade-cc: error: the run from {start} ends with: "
                       f"{done.out.splitlines()[0] if done.out else done.status}")
        return to

    def refused(self, done: Ran, path: str) -> List[str]:
        """What the program refused, by the line of C where that is known."""
        module, said = read_module(path), done.out.strip() or f"status {done.status}"
        try:
            function, place, why = refusal(module, said)
        except (Bad, IndexError, ValueError):
            return [f"blade-cc: error: blade refuses {path}: {said} (docs/CLI.md, exit statuses)"]
        if function < 0:
            return [f"blade-cc: error: {why}", f"blade-cc: note: blade says: {said}"]
        where = diagnostics.spelled(line_of(module, place), f"{shown(path)}: offset {place:#x}")
        return [f"{where}: error: {why}",
                f"{where}: note: in {module.function_name(function)}; blade says: {said}"]

    def judge(self, outcome: splitting.Outcome) -> int:
        """Tells the verdict and the places, and keeps what is made where it may be shipped."""
        modules, report, verified = outcome.modules, outcome.report, outcome.verified
        is_yes = verified.endswith("safe yes\n") and report.endswith("constant-time yes\n")
        if is_yes and not self.asked.unlabelled and not is_labelled(modules):
            raise Stop(LABELS, f"blade-cc: error: {self.module}: {NOTHING} [blade-unlabelled]")
        self.put("report.txt", report.encode())
        self.put("verify.txt", verified.encode())
        is_kept = is_yes or self.asked.no_fail
        place = self.folder if is_kept else self.aside
        self.move(self.aside, place, modules)
        modules = [f"{place}/{os.path.basename(path)}" for path in modules]
        told, lines, differ = self.explained(modules, f"{place}/{self.module}", report)
        if differ:
            self.move(place, self.aside, modules)
            raise Stop(DISAGREE, *(f"blade-cc: error: blade-explain doesn't agree with the program: {one}"
                                   for one in differ))
        evidence = None
        if self.asked.start and not is_yes:
            evidence, self.explained_by = after_no(self, told, lines, modules, f"{place}/{self.module}")
        told.warnings = [outcome.warning] * bool(outcome.warning)
        self.tell(told, lines, modules, f"{place}/{self.module}", outcome.remaining)
        if self.asked.native and is_yes:
            self.make_native(f"{place}/{self.module}", modules)
        if is_kept and self.file:
            written_to(self.file, read_file(modules[-1], "module"))
        protects = next(line for line in report.splitlines() if line.startswith("protects "))
        split = f" {outcome.told};" if outcome.told else ""
        verdict = outcome.verdict(text.verdict_text(told.found, (), evidence))
        say(f"{self.module}: {verdict};{split} {protects}; "
            f"{text.declared_text(told.found).partition('. So')[0]}")
        for line in summary(evidence, lines) if evidence else ():
            say(f"{self.module}: {line}")
        for line in splitting.hint(self.asked, modules) if not is_yes else ():
            say(line, sys.stderr)
        return YES if is_kept else NO

    def move(self, of: str, to: str, modules: Sequence[str]) -> None:
        """The image, its certificate and its modules go from one folder to another."""
        names = dict.fromkeys([*self.made(), *map(os.path.basename, modules)])
        for name in names if of != to else []:
            self.runner.show(["mv", f"{of}/{name}", f"{to}/{name}"])
            os.replace(f"{of}/{name}", f"{to}/{name}")
        self.keep_old()

    def explained(self, modules: List[str], made: str,
                  report: str) -> Tuple[diagnostics.Told, Lines, List[str]]:
        """What is to be told of an image; and where that isn't what the program says."""
        image = read_image(read_file(f"{made}.{self.image_end}", "image"))
        functions = lower([read_module(path) for path in modules])
        differ = compare.positions_differ(image, functions)
        lines = Lines([] if differ else functions, self.sources())
        seen, protects = find(image), self.protects(image, made)
        differ += compare.report_differs(seen, protects, report)
        return diagnostics.told_of(seen, lines, causes_of(seen, lines), protects), lines, differ

    def sources(self) -> Sources:
        """The user's sources, of which lines are shown."""
        return Sources([".", *{os.path.dirname(os.path.abspath(one)) for one in self.asked.sources}])

    def protects(self, image: Image, made: str) -> List[Protect]:
        return protects_of(image, read_certificate(read_file(f"{made}.json")))

    def explaining(self, made: str) -> List[str]:
        """The words for blade-explain behind the modules."""
        return ["--certificate", f"{made}.json", "--report", f"{self.folder}/build/report.txt"]

    def make_native(self, made: str, modules: List[str]) -> None:
        """Native code of the image. Its reader of images is in formats/, next to companions/, which nothing
        else here needs: so it is imported only now."""
        from .native.making import native_of
        if native_of(self.program, made, modules, f"{self.folder}/native", found("clang")):
            raise Stop(BUILD, f"blade-cc: error: {self.module}: blade-native doesn't make an object of it")

    def tell(self, told: diagnostics.Told, lines: Lines, modules: List[str], made: str,
             remaining: Optional[splitting.Remaining] = None) -> None:
        """The places: as text, as JSON and as SARIF. As text only those that remain, if a split was tried."""
        told.level = diagnostics.WARNING if self.asked.no_fail else diagnostics.ERROR
        problems, log = f"{self.folder}/problems.json", f"{self.folder}/{self.module}.sarif"
        image = f"{made}.{self.image_end}"
        self.runner.show([os.path.join(HERE, "blade-explain"), image, *modules, *self.explaining(made),
                          "--lines", "--json", problems, "--sarif", log,
                          *(["--errors"] * (not self.asked.no_fail)), *self.explained_by])
        self.put(os.path.basename(problems), sarif.as_json(told, image, modules).encode())
        self.put(os.path.basename(log),
                 sarif.as_sarif(told, image, modules, lines, os.getcwd(), version()).encode())
        for one in told.warnings:
            say(f"blade-cc: warning: {one}", sys.stderr)
        for line in (splitting.remaining_text(self, told, remaining) if remaining else
                     diagnostics.as_text(told, shown(image), self.asked.limit, lines, self.asked.everything)):
            say(line, sys.stderr)


def name_of_folder(folder: str) -> str:
    """The name of a module of several files: that of the folder for what is made."""
    name = os.path.basename(os.path.abspath(folder))
    return name[: -len(".blade")] if name.endswith(".blade") else name


def is_meant(module: Module, index: int, names: Sequence[str]) -> bool:
    """Whether words name a function."""
    called = {module.function_name(index), base(module.function_name(index)),
              *(name for (sort, name), at in module.exports.items() if (sort, at) == (FUNCTION, index))}
    return bool(called & set(names))


def lost(linked: Module, told: Labelled, names: Sequence[str]) -> List[str]:
    """Calls of labelled functions that the source has and the module doesn't."""
    entries = [entry for entry, _ in told.entries]
    allowed = [numbers[0] for _, numbers in entries if len(numbers) == 2
               and is_meant(linked, numbers[0], names)]
    where = {numbers[0]: place for (_, numbers), place in told.entries if len(numbers) == 2}
    return [f"{where[target] or 'blade-cc'}: error: {linked.function_name(caller)} calls "
            f"{linked.function_name(target)} by its source, and nothing of that is left in the "
            f"module: declare {linked.function_name(caller)}'s parameter, "
            f"or say --public-callers={base(linked.function_name(target))} if that is meant [blade-caller]"
            for caller, target in gone(linked, entries, allowed)]


def is_labelled(paths: Sequence[str]) -> bool:
    return any(entries_of(read_module(path)) for path in paths)


def summed(texts: Sequence[str]) -> str:
    """Count files of one program as one: of each position the counts are added."""
    total: Counter = Counter()
    for line in (line for one in texts for line in one.splitlines() if line.startswith("site ")):
        _, position, count = line.split()
        total[int(position)] += int(count)
    return "\n".join([texts[0].splitlines()[0]]
                     + [f"site {position} {total[position]}" for position in sorted(total)]) + "\n"


def line_of(module: Module, place: int) -> Line:
    """The line of C of a place in a module's file."""
    lines = Lines([])
    inside = lines.origins.of(module, place - module.code)
    if lines.tool and module.has_lines:
        lines.look_up(module.path, [inside])
    return lines.known.get((module.path, inside), chosen([]))


def mark(driver: Optional[Driver], is_made: bool) -> None:
    """Where a folder is make's target, one that isn't made is older than all that it is made of."""
    if driver and not driver.file and os.path.isdir(driver.folder):
        os.utime(driver.folder, None if is_made else (0, 0))


def write_errors(driver: Optional[Driver], stop: Stop) -> None:
    """A log of errors for editors, where the work ended before the places were told."""
    if driver and stop.lines and os.path.isdir(driver.folder):
        written_to(f"{driver.folder}/{driver.module}.sarif",
                   sarif.errors_as_sarif(stop.lines, os.getcwd(), version()).encode())


def clang_version() -> int:
    """clang's own answer behind that of blade-cc: configure scripts look for it."""
    sys.stdout.flush()
    try:
        subprocess.run([found("clang"), "--version"], stdin=subprocess.DEVNULL, check=False)
    except Stop:
        pass  # this question needs no clang
    return YES


def driver_of(asked: Asked) -> Driver:
    if asked.part:
        from .part import PartDriver  # it builds on this module
        return PartDriver(asked)
    return Driver(asked)


def status_of(words: Sequence[str], usage: str) -> int:
    if is_answered("blade-cc", words, usage):
        return clang_version() if list(words) == ["--version"] else YES
    if not words:
        print(usage, file=sys.stderr)
        return USAGE
    if words[0] == "--keep-labelled":
        return keep_labelled(words[1:])
    driver, status = None, BUILD
    try:
        asked = asked_by(words)
        if asked.alone:
            return Builder(asked, Runner(asked.verbose), "").alone()
        if not asked.sources and not asked.objects:
            raise Stop(USAGE, "blade-cc: error: no file is given")
        splitting.refuse_words(asked)
        driver = driver_of(asked)
        status = driver.all()
    except Stop as stop:
        write_errors(driver, stop)
        for line in (line for one in stop.lines for line in one.split("\n")):
            say(line, sys.stderr)
        status = stop.status
    finally:
        mark(driver, not status)
    return status


def main(words: Sequence[str]) -> int:
    # Where nobody reads on, a no still isn't a yes.
    return ended("blade-cc: error", lambda: status_of(words, __doc__ or ""), BUILD)


if __name__ == "__main__":
    sys.exit(main(sys.argv[1:]))
