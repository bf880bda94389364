"""A program of one run of an image, which prints its outcome in the words of `blade run`. It runs where no
library of this machine can be loaded, as under an emulator. Licence: public domain (CC0)."""
from __future__ import annotations

from typing import List

from outcomes import I32, Image, Start
from blade_companions.native.header import Export
from blade_companions.native.operators import C_TYPES

PROGRAM = """#include "tried.h"
#include <stdio.h>
#include <stdlib.h>
#include <string.h>
{contents}
enum {{ MEMORIES = {memories} }};
static uint8_t *before[MEMORIES + 1];
static void keep(tried *m)
{{
    for (uint32_t at = 0; at < MEMORIES; at++) {{
        uint32_t size = tried_pages(m, at) << 16;
        before[at] = calloc(257, 65536);
        if (!before[at] || !tried_read(m, at, 0, before[at], size)) exit(3);
    }}
}}
static void show(tried *m)
{{
    static uint8_t row[16];
    for (uint32_t at = 0; at < MEMORIES; at++) {{
        uint32_t pages = tried_pages(m, at);
        printf("memory %u pages %u\\n", at, pages);
        for (uint32_t place = 0; place < pages << 16; place += 16) {{
            if (!tried_read(m, at, place, row, 16)) exit(4);
            if (!memcmp(row, before[at] + place, 16)) continue;
            printf("row %u %u ", at, place);
            for (int byte = 0; byte < 16; byte++) printf("%02x", row[byte]);
            puts("");
        }}
    }}
}}
int main(void)
{{
    tried *m = tried_new();
    if (!m) return 2;
    {writes}
    keep(m);
    {results}
    tried_end end = {call};
    if (end) printf("trapped %s", tried_end_text(end)); else printf("returned");
    {shown}
    puts("");
    show(m);
    tried_free(m);
    return 0;
}}
"""


def ending(image: Image, one: Export, start: Start) -> str:
    """The program of a function and a start."""
    function, words = image.functions[one.number], ["m"]
    words += [f"UINT64_C({value})" for value in start.arguments]
    words += [f"&r{index}" for index in range(function.results)]
    contents: List[str] = []
    writes: List[str] = []
    for at, (memory, offset, data) in enumerate(start.contents):
        contents.append(f"static const uint8_t c{at}[] = {{{', '.join(map(str, data))}}};")
        writes.append(f"if (!tried_write(m, {memory}, {offset}u, c{at}, sizeof c{at})) return 5;")
    names = ["i32" if kind == I32 else "i64" for kind in function.result_types]
    printed = [f'if (!end) printf(" {name} %llu", 0ull + r{at});' for at, name in enumerate(names)]
    return PROGRAM.format(
        contents="\n".join(contents),
        memories=len(image.memories),
        writes="\n    ".join(writes),
        results=" ".join(f"{C_TYPES[kind]} r{at} = 0;" for at, kind in enumerate(function.result_types)),
        call=f"tried_{one.word}({', '.join(words)})",
        shown="\n    ".join(printed),
    )
