"""blade-cc --part: from C to one side of an interface, by `blade part` in place of `harden`. Licence: public
domain (CC0)."""
from __future__ import annotations

import os
import sys
import tempfile
from typing import List, Sequence, Tuple

from .c.arguments import DISAGREE, LABELS, REFUSED, Stop
from .c.declarations import NOTHING
from .c.paths import shown
from .c.splitting import Outcome
from .c.tools import HERE, written_to
from .cc import Driver, is_labelled
from .formats.certificate import Protect, protects_of
from .formats.image import Image
from .formats.interface import Linked, faults, read_interface, stub_of, unfit
from .formats.module import Module, read_module
from .formats.reading import read_file
from .printing import say
from .statuses import NO, YES
from .verdict import text

# What stands for the certificate of a part, which has none: verify judges the labels of the image by itself.
NO_CERTIFICATE = b'{"paths":[],"weight":0}'


class PartDriver(Driver):
    """The steps for one side: a library, of which a stub is made, or a client over stubs."""

    image_end = "part"

    def made(self) -> List[str]:
        way = [f"{self.asked.way}.wasm"] if self.asked.way else []
        return [f"{self.module}.wasm", f"{self.module}.part", *way]

    @property
    def stub(self) -> str:
        return f"{self.folder}/stub/{self.module}.wasm"

    def clear(self) -> None:
        super().clear()
        if os.path.lexists(self.stub):
            os.remove(self.stub)

    def accessors(self, labelled: str) -> List[str]:
        return [*self.asked.stubs, *super().accessors(labelled)]

    def harden(self, modules: List[str]) -> Tuple[str, str]:
        """The report of part, and what verify says of the labels of this side."""
        self.check([read_module(path) for path in modules])
        image = f"{self.aside}/{self.module}.part"
        done = self.blade("part", self.asked.part, image, self.asked.interface, *modules,
                          to=f"{self.folder}/build/report.txt")
        if done.status:
            raise Stop(REFUSED, *self.refused(done, modules[-1]))
        with tempfile.TemporaryDirectory() as folder:
            written_to(f"{folder}/none.json", NO_CERTIFICATE)
            verified = self.blade("verify", image, f"{folder}/none.json")
        return done.out, verified.out

    def check(self, modules: Sequence[Module]) -> None:
        """Whether the modules have what the interface names; of a client, whether it keeps to it."""
        lines, stubs = read_interface(self.asked.interface), modules[: len(self.asked.stubs)]
        told = (unfit(lines, Linked(modules)) if self.asked.part == "library"
                else faults(lines, stubs, stubs, modules[len(stubs) :]))
        named, known = {line.parts[0] for line in lines}, {module.name for module in modules}
        hints = [f"blade-cc: note: no module is called {name}: a stub is called like its file, and what is "
                 f"compiled here is {self.module} (--name)" for name in sorted(named - known)]
        if told:
            raise Stop(REFUSED, *(f"blade-cc: error: {self.asked.interface}: {one}" for one in told), *hints)

    def judge(self, outcome: Outcome) -> int:
        """Tells the violations of this side, which are violations of each whole, and writes the stub."""
        modules, report, verified = outcome.modules, outcome.report, outcome.verified
        own = modules[len(self.asked.stubs):]
        is_yes = "\nconstant-time yes\n" in verified
        if is_yes and not self.asked.unlabelled and not is_labelled(modules):
            raise Stop(LABELS, f"blade-cc: error: {self.module}: {NOTHING} [blade-unlabelled]")
        is_kept = is_yes or self.asked.no_fail
        place = self.folder if is_kept else self.aside
        self.put("report.txt", report.encode())
        self.move(self.aside, place, own)
        modules = [*self.asked.stubs, *(f"{place}/{os.path.basename(one)}" for one in own)]
        told, lines, differ = self.explained(modules, f"{place}/{self.module}", verified)
        if differ:
            self.move(place, self.aside, own)
            raise Stop(DISAGREE, *(f"blade-cc: error: blade-explain doesn't agree with the program: {one}"
                                   for one in differ))
        self.tell(told, lines, modules, f"{place}/{self.module}")
        if is_kept:
            self.finish(modules)
        protects = next(line for line in report.splitlines() if line.startswith("protects "))
        verdict = ("no violation on this side; join the parts, and let verify judge the whole" if is_yes
                   else text.verdict_text(told.found, (), None))
        say(f"{self.module}: {self.asked.part} part: {verdict}; {protects}; "
            f"{text.declared_text(told.found).partition('. So')[0]}")
        return YES if is_kept else NO

    def protects(self, image: Image, made: str) -> List[Protect]:
        return protects_of(image, None)

    def explaining(self, made: str) -> List[str]:
        return []

    def finish(self, modules: Sequence[str]) -> None:
        """The stub of a library, and the module where a linker's output is due."""
        if self.asked.part == "library":
            lines, library = read_interface(self.asked.interface), Linked([read_module(modules[-1])])
            os.makedirs(os.path.dirname(self.stub), exist_ok=True)
            self.runner.show([os.path.join(HERE, "blade-stub"), modules[-1], self.asked.interface, self.stub])
            written_to(self.stub, stub_of(self.module, lines, library))
            self.keep_old()
            say(f"{self.module}: stub {shown(self.stub)}", sys.stdout)
        if self.file:
            written_to(self.file, read_file(modules[-1], "module"))
