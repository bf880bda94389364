"""NAME.h: what a C or C++ program sees of a translated image. Licence: public domain (CC0)."""
from __future__ import annotations

from typing import Dict, List, NamedTuple, Sequence, Tuple

from .emission import KINDS, Emission
from .names import identifier, memory_names
from .operators import C_TYPES
from .origin import ACCESSORS

Memories = Sequence[Tuple[str, str]]


class Export(NamedTuple):
    """An exported function: its name in C, its number, its name in the image, and the names of its
    parameters."""

    word: str
    number: int
    origin: str
    names: Sequence[str] = ()

    def parameters(self, emission: Emission) -> Sequence[str]:
        """The names of its parameters."""
        return self.names or [f"p{index}" for index in range(len(emission.parameters(self.number)))]


def heading(emission: Emission, export: Export) -> str:
    """The head of an export's function: parameters by value, results by pointers."""
    function, name = emission.image.functions[export.number], emission.name
    words = [f"{name} *m"]
    words += [f"{C_TYPES[kind]} {word}" for kind, word in zip(function.types, export.parameters(emission))]
    words += [f"{C_TYPES[kind]} *r{index}" for index, kind in enumerate(function.result_types)]
    return f"{name}_end {name}_{export.word}({', '.join(words)})"


def secret_words(emission: Emission, export: Export) -> str:
    """Which parameters are declared secret."""
    labels = emission.image.functions[export.number].secret_params
    secret = [word for word, is_secret in zip(export.parameters(emission), labels) if is_secret]
    return f"; secret: {', '.join(secret)}" if secret else ""


def life(name: str) -> str:
    """The type of an instance, and what makes and frees one."""
    return f"""\
/* An instance has its own memories and globals. One thread at a time may use it. A pointer is an offset in a
   memory. */
typedef struct {name} {name};
{name} *{name}_new(void); /* NULL if the system has no room */
void {name}_reset({name} *m); /* wipes it, and gives it its first contents again */
void {name}_free({name} *m); /* wipes it, and gives its room back; NULL is allowed */
"""


def ends(name: str) -> str:
    """The ends of calls."""
    upper = name.upper()
    listed = ", ".join(f"{upper}_{kind.upper()}" for kind in ("ok", *KINDS, "stack_too_small"))
    return f"""\
/* How a call ends. After a trap, memories and globals keep what was written before, and there is no result.
   {upper}_STACK_TOO_SMALL: the thread has less of C's stack left than the call may need; nothing was done. */
typedef enum {{ {listed} }} {name}_end;
const char *{name}_end_text({name}_end end);
"""


def accessors(emission: Emission, told: Memories) -> str:
    """What reads and writes memories and globals."""
    name, globals_ = emission.name, len(emission.image.first_globals)
    return f"""\
/* Memories are read and written by their numbers and by offsets. If not all bytes are in the memory, the
   answer is 0, and nothing is done. */
{memories(emission, told)}
uint32_t {name}_pages(const {name} *m, uint32_t memory);
int {name}_read(const {name} *m, uint32_t memory, uint32_t offset, void *to, uint32_t size);
int {name}_write({name} *m, uint32_t memory, uint32_t offset, const void *from, uint32_t size);

/* Globals are numbered as in the image, which has {globals_}. The answer is 0 if there is no such one. */
int {name}_global(const {name} *m, uint32_t global, uint64_t *value);
int {name}_set_global({name} *m, uint32_t global, uint64_t value);
"""


def memories(emission: Emission, told: Memories) -> str:
    """The memories: a constant for each, by its module's name, if the modules are known."""
    lines = []
    names = memory_names([module for module, _ in told])
    for number, one in enumerate(emission.image.memories):
        size = f"{one.pages} to {one.reserve} pages" if one.pages != one.reserve else f"{one.pages} pages"
        text = f"{size}{', secret' if one.is_secret else ''}"
        if number < len(told):
            module, sentence = told[number]
            text = f"of {identifier(module)}.wasm: {text}{'; ' * bool(sentence)}{sentence}"
            lines.append(f"#define {emission.name.upper()}_MEMORY_{names[number]} {number} /* {text} */")
        else:
            lines.append(f"/* memory {number}: {text} */")
    return "\n".join(lines) or "/* no memory */"


def declarations(emission: Emission, exports: Sequence[Export]) -> str:
    """The functions of the user's modules, and behind them those of the accessors."""
    by_module: Dict[str, List[str]] = {"": []}
    for one in exports:
        module = one.origin.partition("/")[0]
        by_module.setdefault(module if module in ACCESSORS else "", []).append(
            f"/* {one.origin}{secret_words(emission, one)} */\n{heading(emission, one)};")
    own, lines = by_module.pop(""), []
    for module, found in by_module.items():
        lines += [f"\n/* Functions of {module}.wasm, used by the module itself. */"] * bool(own) + found
    return "\n".join(own + lines)


def header(emission: Emission, exports: List[Export], verdict: str = "not verified",
           told: Memories = ()) -> str:
    """The text of NAME.h. Of each memory its module and a sentence are told, if the modules are known."""
    name, upper = emission.name, emission.name.upper()
    functions = declarations(emission, exports)
    return f"""/* Made by blade-native: {verdict}. */
#ifndef {upper}_H
#define {upper}_H
#include <stdint.h>
#ifdef __cplusplus
extern "C" {{
#endif

{life(name)}
{ends(name)}
{functions}

{accessors(emission, told)}
#ifdef __cplusplus
}}
#endif
#endif
"""
