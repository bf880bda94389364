"""Runs cargo and rustc as labels need it: each crate as LLVM's bitcode without any optimisation, and a linker
that packs what rustc would link. Licence: public domain (CC0)."""
from __future__ import annotations

import fcntl
import functools
import hashlib
import io
import json
import os
import re
import shlex
import shutil
import subprocess
import tarfile
from dataclasses import dataclass, field
from typing import Dict, List, NamedTuple, Optional, Sequence, Tuple

from ..c.arguments import BUILD, MISSING, USAGE, Stop
from ..c.inputs import PLAIN, Input, members
from ..c.tools import NEWEST, Runner
from ..printing import printable

TARGET = "wasm32-unknown-unknown"
COLLECT = os.path.join(os.path.dirname(os.path.realpath(__file__)), "collect")
# One unit a crate, as it comes from rustc: what is inlined or dropped is decided behind the labels.
FLAGS = (
    "--cfg blade -C linker-plugin-lto -C no-prepopulate-passes -C codegen-units=1 -C lto=off -C debuginfo=2"
    " -C strip=none -C target-cpu=mvp --emit=llvm-bc"
).split() + ["-C", f"linker={COLLECT}"]
OF_LINKER = ("__heap_base", "__data_end")  # what rustc exports besides: variables of the linker
# From this version on rustc itself inlines small functions, in front of LLVM, unless it optimises nothing.
INLINES = (1, 64)
FORBIDDEN = re.compile(
    r"(?:-C\s*)?(?:passes|llvm-args|linker|linker-flavor|link-args?|lto|opt-level|target-cpu|"
    r"target-feature|no-prepopulate-passes|codegen-units|linker-plugin-lto|save-temps|"
    r"instrument-coverage|profile-use|profile-generate|relocation-model|strip)(?:=.*)?$"
)
FOLDERS = {"dev": "debug", "test": "debug", "bench": "release"}  # of profiles that share one
ENDING = {"lib": "--lib", "example": "--example", "test": "--test", "bin": "--bin"}


class Tools(NamedTuple):
    """rustc, its version and that of its LLVM, and the clang that reads what rustc writes."""

    rustc: str
    version: Tuple[int, int]
    llvm: int
    clang: str
    clang_version: int


@dataclass
class Target:
    """What cargo is asked to build: the package, the target's kind, name and source, whether its kind of
    crate is given, and the folder for what is built."""

    package: str
    manifest: str
    kind: str
    name: str
    source: str
    is_cdylib: bool
    folder: str
    workspace: str

    @property
    def build(self) -> str:
        """Cargo's folder for this workspace alone: cargo takes packages of two workspaces for one, if they
        have the same name, version and place there."""
        return f"{self.folder}/build-{hashlib.sha256(os.fsencode(self.workspace)).hexdigest()[:16]}"


@dataclass
class Linked:
    """What rustc would have linked: the crates' bitcode and other objects, the files of the standard library,
    and the exported functions."""

    objects: List[Input] = field(default_factory=list)
    library: List[str] = field(default_factory=list)
    exports: List[str] = field(default_factory=list)
    level: str = "-O2"


def rustc() -> str:
    return os.environ.get("RUSTC") or "rustc"


def cargo() -> str:
    return os.environ.get("CARGO") or "cargo"


def asked(words: Sequence[str]) -> str:
    """What a tool answers; one that is missing ends the work."""
    try:
        done = subprocess.run(
            words, stdin=subprocess.DEVNULL, capture_output=True, text=True, errors="replace", check=False
        )
    except OSError:
        raise Stop(
            MISSING,
            (
                f"cargo-blade: error: there is no {words[0]}: apt-get install rustc cargo, or give "
                "it by the variables RUSTC and CARGO"
            ),
        ) from None
    if done.returncode:
        raise Stop(BUILD, *done.stderr.rstrip().split("\n"))
    return done.stdout


@functools.lru_cache(None)
def tools() -> Tools:
    told = asked([rustc(), "-vV"])
    version = re.search(r"release: (\d+)\.(\d+)", told)
    llvm = re.search(r"LLVM version: (\d+)", told)
    if not version or not llvm:
        raise Stop(MISSING, f"cargo-blade: error: {rustc()} -vV doesn't say its version and that of LLVM")
    folder = asked([rustc(), "--print", "target-libdir", "--target", TARGET]).strip()
    if not os.path.isdir(folder) or not any(one.startswith("libcore-") for one in os.listdir(folder)):
        raise Stop(
            MISSING,
            (
                f"cargo-blade: error: {rustc()} has no standard library for {TARGET}: apt-get "
                f"install libstd-rust-dev-wasm32 (for Debian's rustc), or rustup target add {TARGET}"
            ),
        )
    return Tools(rustc(), (int(version[1]), int(version[2])), int(llvm[1]), *clang_for(int(llvm[1])))


def clang_for(llvm: int) -> Tuple[str, int]:
    """A clang that is as new as rustc's LLVM."""
    seen = []
    for name in ("clang", *(f"clang-{version}" for version in range(llvm, max(NEWEST, llvm) + 1))):
        found = shutil.which(name) and re.search(r"version (\d+)", asked([name, "--version"]))
        if found and int(found[1]) >= llvm:
            return name, int(found[1])
        seen += [int(found[1])] if found else []
    why = f"clang is of version {max(seen)}" if seen else "there is no clang"
    raise Stop(
        MISSING,
        (
            f"cargo-blade: error: {rustc()} writes LLVM {llvm}, and {why}: apt-get install "
            f"clang-{llvm}, or take an older rustc"
        ),
    )


def metadata(manifest: Optional[str]) -> dict:
    words = [cargo(), "metadata", "--format-version", "1", "--no-deps", "--offline"]
    return json.loads(asked(words + (["--manifest-path", manifest] if manifest else [])))


def target_of(manifest: Optional[str], package: Optional[str], kind: str, name: Optional[str]) -> Target:
    """The target that is asked for, of the package in the current folder or of the one that is named."""
    told = metadata(manifest)
    packages = told["packages"]
    here = os.path.realpath(manifest or "Cargo.toml")
    found = (
        [one for one in packages if one["name"] == package]
        if package
        else [one for one in packages if os.path.realpath(one["manifest_path"]) == here]
        or (packages if len(packages) == 1 else [])
    )
    if len(found) != 1:
        names = ", ".join(one["name"] for one in packages)
        raise Stop(USAGE, f"cargo-blade: error: which package? --package NAME, of {names}")
    targets = [one for one in found[0]["targets"] if fits(one, kind) and name in (None, one["name"])]
    if len(targets) != 1:
        names = ", ".join(one["name"] for one in found[0]["targets"] if fits(one, kind)) or "none"
        raise Stop(
            USAGE,
            f"cargo-blade: error: the package {found[0]['name']} has no {kind} {name or ''}: {names}".replace(
                " :", ":"
            ),
        )
    one = targets[0]
    return Target(
        found[0]["name"],
        found[0]["manifest_path"],
        kind,
        one["name"],
        one["src_path"],
        one["crate_types"] == ["cdylib"],
        f"{told['target_directory']}/blade", told["workspace_root"],
    )


def fits(target: dict, kind: str) -> bool:
    kinds = set(target["kind"])
    return kind in kinds or kind == "lib" and bool(kinds & {"lib", "rlib", "cdylib", "dylib", "staticlib"})


def flags_of_user() -> List[str]:
    """The user's own flags, without those that cargo-blade sets."""
    encoded = os.environ.get("CARGO_ENCODED_RUSTFLAGS")
    words = encoded.split("\x1f") if encoded else os.environ.get("RUSTFLAGS", "").split()
    for at, word in enumerate(words):
        text = word[2:] if word.startswith("-C") and len(word) > 2 else word
        is_option = word.startswith("-C") and len(word) > 2 or at and words[at - 1] in ("-C", "--codegen")
        if (
            is_option
            and FORBIDDEN.match(text.replace("_", "-"))
            or word == "-O"
            or word.startswith(("-Z", "--emit", "--codegen="))
        ):
            raise Stop(
                USAGE,
                (
                    f"cargo-blade: error: RUSTFLAGS has {printable(word)}: with it a labelled function "
                    "may lose its label, or cargo-blade sets it by itself; leave it out"
                ),
            )
    return words


def built(target: Target, words: Sequence[str], profile: str, runner: Runner) -> List[dict]:
    """Runs cargo; its messages."""
    kind = [] if target.is_cdylib or target.kind in ("test", "bin") else ["--crate-type", "cdylib"]
    named = [ENDING[target.kind]] + ([] if target.kind == "lib" else [target.name])
    asked_for = [
        cargo(),
        "rustc",
        "--manifest-path",
        target.manifest,
        "--package",
        target.package,
        *named,
        "--profile",
        profile,
        "--target",
        TARGET,
        "--target-dir",
        target.build,
        "--message-format=json-render-diagnostics",
        *kind,
        *words,
    ]
    flags = flags_of_user() + FLAGS
    setting = {**os.environ, "CARGO_INCREMENTAL": "0"}
    if tools().version >= INLINES:
        flags += ["-C", "opt-level=0"]
        setting[f"CARGO_PROFILE_{profile.upper().replace('-', '_')}_OPT_LEVEL"] = "0"
    setting["CARGO_ENCODED_RUSTFLAGS"] = "\x1f".join(flags)
    runner.show_text(f"RUSTFLAGS={shlex.quote(' '.join(flags))} {shlex.join(asked_for)}")
    try:
        done = subprocess.run(
            asked_for,
            stdout=subprocess.PIPE,
            stdin=subprocess.DEVNULL,
            env=setting,
            text=True,
            errors="replace",
            check=False,
        )
    except OSError:
        raise Stop(MISSING, f"cargo-blade: error: there is no {cargo()}") from None
    if done.returncode:
        raise Stop(BUILD, "cargo-blade: error: cargo doesn't build the crate")
    return [json.loads(line) for line in done.stdout.splitlines() if line.startswith("{")]


def places(target: Target, profile: str) -> List[str]:
    """Where cargo has put modules of the target's name, of whichever package."""
    top = f"{target.build}/{TARGET}/{FOLDERS.get(profile, profile)}"
    names = "|".join(re.escape(one) for one in (target.name, target.name.replace("-", "_")))
    is_such = re.compile(rf"(?:{names})(?:-[0-9a-f]{{16}})?\.wasm")
    folders = [folder for folder in (top, f"{top}/deps", f"{top}/examples") if os.path.isdir(folder)]
    return [f"{folder}/{one}" for folder in folders for one in os.listdir(folder) if is_such.fullmatch(one)]


def collected(
    target: Target, words: Sequence[str], profile: str, runner: Runner
) -> Tuple[List[dict], Linked]:
    """Cargo's messages, and what the target would be linked of. The target is always made anew, and nobody
    else builds meanwhile: else this could be what was made of another package with a target of this name."""
    os.makedirs(target.build, exist_ok=True)
    with open(f"{target.build}/.lock", "w", encoding="ascii") as lock:
        fcntl.flock(lock, fcntl.LOCK_EX)
        for path in places(target, profile):
            os.remove(path)
        messages = built(target, words, profile, runner)
        return messages, unpacked(artifact(messages, target))


def artifact(messages: Sequence[dict], target: Target) -> str:
    """What our linker has packed."""
    for one in reversed(messages):
        if one.get("reason") == "compiler-artifact" and one["target"]["name"] == target.name:
            for path in one["filenames"]:
                if path.endswith(".wasm") and not one.get("fresh"):
                    return path
    raise Stop(BUILD, f"cargo-blade: error: cargo made no new module of {target.name}: is it a cdylib?")


def packages(messages: Sequence[dict]) -> List[Tuple[str, str]]:
    """The folders of the packages that were compiled, with their names."""
    found: Dict[str, str] = {}
    for one in messages:
        if one.get("reason") == "compiler-artifact" and "custom-build" not in one["target"]["kind"]:
            folder = os.path.dirname(one.get("manifest_path") or one["target"]["src_path"])
            found[os.path.realpath(folder)] = name_of(one["package_id"])
    return list(found.items())


def name_of(package: str) -> str:
    """The name and the version of a package, of its id as cargo writes it."""
    if " " in package:
        return "-".join(package.split(" ")[:2])
    place, _, name = package.rpartition("#")
    return name.replace("@", "-") if "@" in name else f"{place.rpartition('/')[2]}-{name}"


def unpacked(path: str) -> Linked:
    """What the linker was given."""
    made = Linked()
    with open(path, "rb") as file:
        data = file.read()
    try:
        packed = tarfile.open(fileobj=io.BytesIO(data))
    except tarfile.TarError:
        raise Stop(
            BUILD,
            (
                f"cargo-blade: error: {path} isn't what cargo-blade's linker packs: does a file "
                "of cargo's configuration set the linker?"
            ),
        ) from None
    with packed:
        words = packed.extractfile("words").read().decode("utf-8", "surrogateescape").split("\0")
        for at, word in enumerate(words):
            read_word(made, words, at, word, packed)
    made.exports = sorted(set(made.exports) - set(OF_LINKER))
    return made


def read_word(made: Linked, words: Sequence[str], at: int, word: str, packed: tarfile.TarFile) -> None:
    if word.startswith("--export="):
        made.exports.append(word.partition("=")[2])
    elif word == "--export":
        made.exports.append(words[at + 1])
    elif word in ("-O0", "-O1", "-O3") and tools().version < INLINES:
        made.level = word
    elif word.startswith("-l"):
        raise Stop(
            BUILD, f"cargo-blade: error: the crate links a native library ({word}), which has no labels"
        )
    elif "/rustlib/" in word and word.endswith(".rlib"):
        made.library.append(word)
    elif f"inputs/{at}" in packed.getnames():
        whole = Input(word, packed.extractfile(f"inputs/{at}").read())
        inside = list(members(whole)) if whole.data.startswith(PLAIN) else [whole]
        made.objects += [one for one in inside if one.is_bitcode or one.is_object]
