"""Declares what is secret in a module, and what has to stay public: the custom section blade.labels.
Licence: public domain (CC0).

    blade-label IN.wasm OUT.wasm [--replace] [--only] [--unlabelled] [--pages-of M.wasm] [--linked
        LINKED.wasm] [--free-of M.wasm] [--public-callers F,..] KIND NAME .. KIND NAME ..
    blade-label IN.wasm OUT.wasm --remove
    blade-label IN.wasm --list
    blade-label IN.wasm --check

KIND NAME .. is secret-param F I, secret-global G, secret-memory M, public-result F I or public-global G. F is
a function and G a global, by the name that it is exported under or has in the name section, or by its index
with imported ones first; I is the index of a parameter or result, or the parameter's name in C, M that of a
memory. What the C code declares by the macros of blade.h counts, too, unless --only says that it doesn't. No
label at all is an error, unless --unlabelled says that this is meant. --pages-of gives the memory as many
pages as that of M.wasm has: for the modules of accessors. --free-of writes down for blade-start where C's
stack and data end, as the linker says it by the global __heap_base that M.wasm exports.

A section blade.sum keeps a sum over the code that the labels were made for. After another tool (wasm-opt) has
changed the code they speak of other functions and parameters: --check says so by status 5, and --replace
labels anew.

A parameter's label is one of the function's code. Where clang inlines the function there is no such code, and
what it is given there is public: keep it by __attribute__((noinline)), as the macros do, or declare the
parameter of the function that is called from outside.

It ends with 0; 2 for words that it doesn't know; 3 for files that it can't read or write; 5 if a label isn't
right or was lost, and then nothing is written."""
import argparse
import sys
from typing import List, Optional, Sequence, Tuple

from .ending import ended, is_answered
from .formats.labels import entries_of, labelled, listing, refuse_changed, without_labels
from .formats.memories import pages_of, with_free, with_pages
from .formats.reading import Bad
from .c.callers import called_in
from .c.declarations import NOTHING, with_source
from .formats.module import Module, module_of, read_module
from .printing import say
from .statuses import DONE, LOST, USAGE
from .writing import write_file

NOTE = ("blade-label: note: a parameter's label holds for calls from outside: "
        "a compiler may have inlined the function, or computed its result, elsewhere in the "
        "module; blade-cc keeps it from that")


def words_of(words: Sequence[str]) -> argparse.Namespace:
    parser = argparse.ArgumentParser(prog="blade-label", usage="see the head of this file, "
                                     "and docs/label-secrets.md", add_help=False)
    parser.add_argument("files", nargs="*")
    for flag in ("--replace", "--only", "--unlabelled", "--remove", "--list", "--check"):
        parser.add_argument(flag, action="store_true")
    parser.add_argument("--pages-of")
    parser.add_argument("--linked")
    parser.add_argument("--free-of")
    parser.add_argument("--public-callers", default="")
    return parser.parse_intermixed_args(words)


def made_of(asked: argparse.Namespace, module: Module) -> Tuple[Optional[bytes], List[str], List[str]]:
    """The labelled module, and what is to be told: errors, and warnings."""
    kinds = asked.files[2:]
    if asked.pages_of:
        module = module_of(with_pages(module, pages_of(read_module(asked.pages_of))), module.path)
    try:
        if asked.remove:
            return without_labels(module), [], []
        if asked.only and (kinds or asked.unlabelled):
            return labelled(module, kinds, asked.replace), [], []
        if asked.only:
            return None, [f"blade-label: {NOTHING}"], []
        linked = read_module(asked.linked) if asked.linked else None
        made, found = with_source(module, kinds, asked.replace, asked.unlabelled, linked)
        return made, found.errors, found.warnings + [NOTE] * ("secret-param" in kinds)
    except Bad as bad:
        return None, [f"blade-label: {bad}"], []


def called_inside(module: Module, meant: Sequence[str]) -> List[str]:
    """Functions with a secret parameter that the module calls itself: what it gives them can't be told
    without an image of it."""
    calls = called_in(module)
    functions = dict.fromkeys(numbers[0] for kind, numbers in entries_of(module) if kind == "secret-param")
    called = {function for one in calls.values() for function in one}
    return [f"blade-label: {module.function_name(one)} is called inside of the module, "
            "and whether what it is given there is secret can't be told here: declare its "
            f"callers' parameters, have blade-cc look, or say --public-callers={module.function_name(one)} "
            "if that is meant"
            for one in functions if one in called and module.function_name(one) not in meant
            and str(one) not in meant]


def run(words: Sequence[str]) -> int:
    if is_answered("blade-label", words, __doc__):
        return DONE
    asked = words_of(words)
    if asked.list and len(asked.files) == 1:
        for line in listing(read_module(asked.files[0])):
            say(line)
        return DONE
    if asked.check and len(asked.files) == 1:
        refuse_changed(read_module(asked.files[0]))
        return DONE
    if len(asked.files) < 2 or asked.check or asked.list or asked.remove and len(asked.files) > 2:
        print(__doc__, file=sys.stderr)
        return USAGE
    made, errors, warnings = made_of(asked, read_module(asked.files[0]))
    if made is not None and not errors and not asked.linked:
        errors = called_inside(module_of(made, asked.files[1]), asked.public_callers.split(","))
    for line in errors + warnings:
        say(line, sys.stderr)
    if errors:
        return LOST
    write_file(asked.files[1], with_free(made, read_module(asked.free_of)) if asked.free_of else made)
    return DONE


def main(words: Sequence[str]) -> int:
    return ended("blade-label", lambda: run(words))


if __name__ == "__main__":
    sys.exit(main(sys.argv[1:]))
