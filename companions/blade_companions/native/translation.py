"""The whole C file of an image, and its header. Licence: public domain (CC0)."""
from __future__ import annotations

import os
import re
from typing import Iterator, List, NamedTuple, Optional, Tuple

from ..formats.image import Image
from .emission import Emission, FunctionEmission
from .exactness import check_exactness
from .header import Export, header, heading
from .names import export_names
from .operators import C_TYPES
from .origin import Origin
from .widths import widths_of

HERE = os.path.dirname(os.path.realpath(__file__))
TEXTS = (
    "returned",
    "unreachable",
    "integer divide by zero",
    "integer overflow",
    "out of bounds memory access",
    "undefined element",
    "uninitialized element",
    "indirect call type mismatch",
    "call stack exhausted",
    "the stack of C is too small",
)
INCLUDES = ("setjmp.h", "stddef.h", "stdlib.h", "string.h", "sys/mman.h")
ROW = 16


class Translation(NamedTuple):
    """The texts of NAME.c and of NAME.h."""

    source: str
    header: str


def part(name: str) -> str:
    """A text that all images share."""
    with open(f"{HERE}/{name}", encoding="ascii") as file:
        return file.read()


def segments(image: Image) -> Iterator[Tuple[int, int, bytes]]:
    """The first contents of memories: the memory, the place, the bytes of rows that follow each other."""
    for number, memory in enumerate(image.memories):
        first, found = 0, b""
        for row, contents in memory.rows:
            if found and row * ROW != first + len(found):
                yield number, first, found
                found = b""
            first = first if found else row * ROW
            found += contents
        if found:
            yield number, first, found


def instance(emission: Emission) -> List[str]:
    """The instance's fields."""
    memories, name = len(emission.image.memories), emission.name
    fields = [f"    {C_TYPES[kind]} g{number};" for number, kind in enumerate(emission.image.global_types)]
    if memories:
        fields += [f"    uint8_t *memory[{memories}];", f"    uint32_t pages[{memories}];"]
    return [
        f"typedef struct {name} instance;",
        f"struct {name} {{",
        "    jmp_buf home;",
        "    int end;",
        *fields,
        "};",
        "",
    ]


def data(image: Image) -> List[str]:
    """The first contents of memories as arrays, and how they are written."""
    lines, calls = [], []
    for number, (memory, first, contents) in enumerate(segments(image)):
        rows = [contents[at : at + ROW] for at in range(0, len(contents), ROW)]
        lines.append(f"static const uint8_t data{number}[{len(contents)}] = {{")
        lines += ["    " + " ".join(f"{byte}," for byte in row) for row in rows]
        lines.append("};")
        calls.append(f"    memcpy(m->memory[{memory}] + {first}u, data{number}, sizeof data{number});")
    return [*lines, "static void fill(instance *m)", "{", "    (void)m;", *calls, "}", ""]


def life(emission: Emission) -> List[str]:
    """The end, the reset and the making of an instance."""
    name, numbers = emission.name, range(len(emission.image.memories))
    free = "\n".join(f"    free_memory(m->memory[{at}], m->pages[{at}]);" for at in numbers)
    make = "\n".join(
        f"    m->memory[{at}] = new_memory({one.reserve});\n"
        f"    if (!m->memory[{at}]) {{ {name}_free(m); return NULL; }}"
        for at, one in enumerate(emission.image.memories)
    )
    return f"""void {name}_free({name} *m)
{{
    if (!m) return;
{free}
    wipe(m, sizeof *m);
    free(m);
}}

{reset(emission)}
{name} *{name}_new(void)
{{
    {name} *m = calloc(1, sizeof *m);
    if (!m) return NULL;
{make}
    {name}_reset(m);
    return m;
}}
""".split(
        "\n"
    )


def reset(emission: Emission) -> str:
    """What wipes an instance, and gives it its first contents again."""
    name, image = emission.name, emission.image
    numbers = range(len(image.memories))
    wipe = "\n".join(f"    wipe(m->memory[{at}], m->pages[{at}] * PAGE);" for at in numbers)
    begin = "\n".join(
        [
            *(f"    m->pages[{at}] = {one.pages}u;" for at, one in enumerate(image.memories)),
            *(f"    m->g{at} = UINT64_C({value});" for at, value in enumerate(image.first_globals)),
        ]
    )
    return f"""void {name}_reset({name} *m)
{{
{wipe}
    wipe(&m->home, sizeof m->home);
{begin}
    fill(m);
}}
"""


def entry(emission: Emission, export: Export) -> List[str]:
    """The function of an export."""
    results = list(emission.results(export.number))
    words = ["m"] + ["1u"] * emission.counts_depth + list(export.parameters(emission))
    call = f"f{export.number}({', '.join(words)});"
    if len(results) == 1:
        call = f"*r0 = {call}"
    elif results:
        given = " ".join(f"*r{index} = r.r{x};" for index, x in enumerate(results))
        call = f"struct results{export.number} r = {call} {given}"
    return f"""{heading(emission, export)}
{{
    if (!HAS_STACK) return {emission.name.upper()}_STACK_TOO_SMALL;
    if (setjmp(m->home)) return ({emission.name}_end)m->end;
    {call}
    return {emission.name.upper()}_OK;
}}
""".split(
        "\n"
    )


def copies(emission: Emission, word: str, kind: str, bytes_: str, line: str) -> str:
    """A function that reads or writes some bytes of a memory. Under a wrong guess, too, it stays within the
    memory."""
    memories, name = len(emission.image.memories), emission.name
    if memories:
        body = f"""    uint32_t is_inside = holds(m->pages, {memories}u, &memory, offset, size);
    offset = select32(offset, 0, is_inside);
    size = select32(size, 0, is_inside);
    if (size) {line}
    return (int)is_inside;"""
    else:
        unused = " ".join(
            f"(void){it};" for it in ("m", "memory", "offset", bytes_.rpartition("*")[2], "size")
        )
        body = f"    {unused}\n    return 0;"
    head = f"int {name}_{word}({kind} *m, uint32_t memory, uint32_t offset, {bytes_}, uint32_t size)"
    return f"{head}\n{{\n{body}\n}}\n"


def of_memories(emission: Emission) -> str:
    """The functions on memories."""
    name, memories = emission.name, len(emission.image.memories)
    pages = f"memory < {memories}u ? m->pages[memory] : 0" if memories else "0"
    read = copies(
        emission, "read", f"const {name}", "void *to", "memcpy(to, m->memory[memory] + offset, size);"
    )
    write = copies(
        emission, "write", name, "const void *from", "memcpy(m->memory[memory] + offset, from, size);"
    )
    return f"""uint32_t {name}_pages(const {name} *m, uint32_t memory)
{{
    (void)m; (void)memory;
    return {pages};
}}

{read}
{write}"""


def of_globals(emission: Emission) -> str:
    """The functions on globals."""
    name, types = emission.name, emission.image.global_types
    gets = "".join(f"    case {at}: *value = m->g{at}; return 1;\n" for at in range(len(types)))
    sets = "".join(
        f"    case {at}: m->g{at} = ({C_TYPES[kind]})value; return 1;\n" for at, kind in enumerate(types)
    )
    return f"""int {name}_global(const {name} *m, uint32_t global, uint64_t *value)
{{
    (void)m; (void)value;
    switch (global) {{
{gets}    default: return 0;
    }}
}}

int {name}_set_global({name} *m, uint32_t global, uint64_t value)
{{
    (void)m; (void)value;
    switch (global) {{
{sets}    default: return 0;
    }}
}}
"""


def accessors(emission: Emission) -> List[str]:
    """The functions on memories and globals, and the texts of ends."""
    name, texts = emission.name, ", ".join(f'"{text}"' for text in TEXTS)
    of_ends = f"""const char *{name}_end_text({name}_end end)
{{
    static const char *const texts[] = {{{texts}}};
    return (unsigned)end < sizeof texts / sizeof *texts ? texts[end] : "unknown";
}}
"""
    return "\n".join([of_memories(emission), of_globals(emission), of_ends]).split("\n")


def exports_of(image: Image, origin: Optional[Origin] = None) -> List[Export]:
    """The exports, with the names of parameters that the module gives."""
    found = []
    for word, number, name in export_names(image.names):
        count = image.functions[number].params
        found.append(Export(word, number, name, origin.parameters(number, count) if origin else ()))
    return found


def translate(
    image: Image, name: str, verdict: str = "not verified", origin: Optional[Origin] = None
) -> Translation:
    """The C of an image; one that C's variables can't stand for is refused."""
    check_exactness(image)
    verdict = re.sub(r"[^a-z0-9 :,.-]", "?", verdict)  # it goes into a comment of C
    emission = Emission(image, widths_of(image), name)
    exports = exports_of(image, origin)
    includes = "".join(f"#include <{one}>\n" for one in INCLUDES)
    head = f"""/* Made by blade-native ({verdict}): compile it with `blade-native --object`. */
#define _GNU_SOURCE
#include "{name}.h"
{includes}
{part("prelude.h")}
"""
    lines = head.split("\n")[:-1] + instance(emission) + part("runtime.c").split("\n") + data(image)
    lines += emission.declarations() + [""]
    for number in range(len(image.functions)):
        lines += FunctionEmission(emission, number).lines(len(lines) + 1)
    for export in exports:
        lines += entry(emission, export)
    lines += life(emission) + accessors(emission)
    return Translation("\n".join(lines), header(emission, exports, verdict,
                                                 origin.memories() if origin else ()))
