"""The calls that bench/native measures: each an image's function with its start, and the programs that time
it. Licence: public domain (CC0)."""
from __future__ import annotations

import json
import os
import subprocess
from typing import Dict, List, NamedTuple, Optional, Tuple

from measuring import TOP, program
import routines
from blade_companions.formats.image import Image
from blade_companions.formats.running import Start
from blade_companions.native.operators import C_TYPES
from blade_companions.native.translation import exports_of

AT, SIZE, RESULT = (
    131072,
    16384,
    40960,
)  # where the buffers begin, the bytes of a message, where a result goes
KEY = bytes(range(32))
MESSAGE = bytes(at * 7 & 255 for at in range(SIZE))
BULK: Dict[str, Tuple[List[int], int]] = {  # arguments on large inputs, and where the result is
    "chacha20": ([AT, 0, 0x4A000000, 0, 1, AT + 64, SIZE], 64),
    "poly1305": ([AT + RESULT, AT, AT + 64, SIZE], RESULT),
    "sha256": ([AT + RESULT, AT, SIZE], RESULT),
    "hmac": ([AT + RESULT, AT, 32, AT + 64, SIZE, 11], RESULT),
    "aes128": ([AT, AT + 64, 64], 64),
    "x25519": ([AT + RESULT, AT, AT + 64], RESULT),
}


class Call(NamedTuple):
    """A call that can be repeated: modules in the order of linking, the function, arguments and first
    contents of memories."""

    name: str
    modules: List[str]
    export: str
    start: Start
    shown: Tuple[int, int]  # the memory and the place of 16 bytes to compare
    counted: Optional[
        str
    ] = None  # another start for the profile, if this one takes blade's interpreter too long

    @property
    def profile(self) -> str:
        """The start on which the execution profile is counted."""
        lines = [f"arg {value}" for value in self.start.arguments]
        lines += [f"memory {number} {at} {contents.hex()}" for number, at, contents in self.start.contents]
        return self.counted or "\n".join(lines) + "\n"


def bulk(name: str, way: str, folder: str) -> Call:
    """A routine on a large input, built in a folder."""
    case, memory = routines.CASES[name], 1 if way == "ledger" else 0
    arguments, result = BULK[name]
    place = f"{folder}/{way}/{case.source}"
    os.makedirs(place, exist_ok=True)
    modules = list(routines.built(program(), case.source, way, place))
    start = Start(arguments, [(memory, AT, KEY), (memory, AT + 64, MESSAGE)])
    counted = routines.start_of(case, memory, False)
    return Call(name, modules, f"{case.source}/{case.export}", start, (memory, AT + result), counted)


def small() -> List[Call]:
    """Two examples: a list whose every pointer is loaded, and numbers of which each sixteenth is looked
    up."""
    items = b"".join(
        (at * 3).to_bytes(4, "little") + (2048 + 8 * (at + 1) if at < 499 else 0).to_bytes(4, "little")
        for at in range(500)
    )
    numbers = b"".join((at * 2654435761 & 0xFFFFFFFF).to_bytes(4, "little") for at in range(2000))
    return [
        Call(
            "list", [f"{TOP}/examples/list.wasm"], "list/list", Start([2048], [(0, 2048, items)]), (0, 2048)
        ),
        Call(
            "sample",
            [f"{TOP}/examples/sample.wasm"],
            "sample/sample",
            Start([16384, 2000, 4096], [(0, 16384, numbers)]),
            (0, 2048),
        ),
    ]


def run(words: List[str], statuses=(0,), folder: Optional[str] = None) -> str:
    environment = {**os.environ, "ASAN_OPTIONS": "abort_on_error=1:allocator_may_return_null=1:symbolize=0"}
    done = subprocess.run(words, capture_output=True, text=True, check=False, env=environment, cwd=folder)
    if done.returncode not in statuses:
        raise SystemExit(
            f"bench/native: {' '.join(words)[:300]}: status {done.returncode}: "
            f"{(done.stdout + done.stderr)[-500:]}"
        )
    return done.stdout


def blade(*words: str, statuses=(0,)) -> str:
    return run([program(), *words], statuses)


# ---- programs that time a call: `PROGRAM N` makes N calls, eight times, and prints the least nanoseconds
# of the processor that one takes, and 16 bytes

TIMER = """#include <stdio.h>
#include <stdint.h>
#include <stdlib.h>
#include <string.h>
#include <time.h>
static double now(void)
{
    struct timespec t;
    clock_gettime(CLOCK_PROCESS_CPUTIME_ID, &t);
    return t.tv_sec * 1e9 + t.tv_nsec;
}
static void begin(void);
static int call(void);
static void show(uint8_t *to);
int main(int count, char **words)
{
    long n = count > 1 ? atol(words[1]) : 1;
    double least = 1e300;
    uint8_t found[16];
    for (int turn = 0; turn < 8; turn++) {
        begin();
        double from = now();
        for (long at = 0; at < n; at++) if (call()) return 3;
        double taken = (now() - from) / n;
        if (taken < least) least = taken;
    }
    show(found);
    printf("%.2f ", least);
    for (int at = 0; at < 16; at++) printf("%02x", found[at]);
    puts("");
    return 0;
}
"""


def arrays(start: Start) -> str:
    return "\n".join(
        f"static const uint8_t c{at}[] = {{{', '.join(map(str, contents))}}};"
        for at, (_, _, contents) in enumerate(start.contents)
    )


def native_timer(call: Call, image: Image, name: str = "tried") -> str:
    """Times the translated image."""
    one = next(one for one in exports_of(image) if one.origin == call.export)
    kinds = image.functions[one.number].result_types
    results = [f"static {C_TYPES[kind]} r{index};" for index, kind in enumerate(kinds)]
    words = [
        "m",
        *(f"UINT64_C({value})" for value in call.start.arguments),
        *(f"&r{index}" for index in range(len(results))),
    ]
    writes = " ".join(
        f"{name}_write(m, {number}, {at}u, c{index}, sizeof c{index});"
        for index, (number, at, _) in enumerate(call.start.contents)
    )
    lines = "\n".join(results)
    return f"""{TIMER}#include "{name}.h"
{arrays(call.start)}
{lines}
static {name} *m;
static void begin(void) {{ if (!m) m = {name}_new(); else {name}_reset(m); {writes} }}
static int call(void) {{ return {name}_{one.word}({', '.join(words)}); }}
static void show(uint8_t *to) {{ {name}_read(m, {call.shown[0]}, {call.shown[1]}u, to, 16); }}
"""


def source_timer(call: Call) -> str:
    """Times the C source itself; a number within the buffers is a pointer."""
    symbol, buffers = call.export.split("/")[1], range(AT, AT + 65536)
    kinds = ", ".join("void *" if value in buffers else "uint32_t" for value in call.start.arguments)
    words = ", ".join(
        f"space + {value - AT}" if value in buffers else f"{value}u" for value in call.start.arguments
    )
    copies = " ".join(
        f"memcpy(space + {at - AT}, c{index}, sizeof c{index});"
        for index, (_, at, _) in enumerate(call.start.contents)
    )
    return f"""{TIMER}
{arrays(call.start)}
void {symbol}({kinds});
static uint8_t space[65536];
static void begin(void) {{ memset(space, 0, sizeof space); {copies} }}
static int call(void) {{ {symbol}({words}); return 0; }}
static void show(uint8_t *to) {{ memcpy(to, space + {call.shown[1] - AT}, 16); }}
"""


def wasm2c_timer(call: Call, stem: str) -> str:
    """Times what wasm2c makes of the module."""
    words = ", ".join(["&m", *(f"{value}u" for value in call.start.arguments)])
    copies = " ".join(
        f"memcpy(space + {at}, c{index}, sizeof c{index});"
        for index, (_, at, _) in enumerate(call.start.contents)
    )
    symbol = call.export.split("/")[1]
    return f"""{TIMER}#include "{stem}.h"
{arrays(call.start)}
static Z_{stem}_instance_t m;
static int is_made;
static void begin(void)
{{
    if (!is_made) {{ wasm_rt_init(); Z_{stem}_init_module(); Z_{stem}_instantiate(&m); is_made = 1; }}
    uint8_t *space = Z_{stem}Z_memory(&m)->data;
    memset(space + {AT}, 0, 65536);
    {copies}
}}
static int call(void) {{ Z_{stem}Z_{symbol}({words}); return 0; }}
static void show(uint8_t *to) {{ memcpy(to, Z_{stem}Z_memory(&m)->data + {call.shown[1]}, 16); }}
"""


NODE = """
const fs = require('fs'), call = JSON.parse(fs.readFileSync(process.argv[2])), n = +process.argv[3];
const instance = new WebAssembly.Instance(new WebAssembly.Module(fs.readFileSync(call.module)));
const space = new Uint8Array(instance.exports.memory.buffer), f = instance.exports[call.symbol];
let least = Infinity;
for (let turn = 0; turn < 12; turn++) {
    space.fill(0, call.at, call.at + 65536);
    for (const [at, text] of call.contents) space.set(Buffer.from(text, 'hex'), at);
    const from = process.cpuUsage();
    for (let k = 0; k < n; k++) f(...call.args);
    const taken = process.cpuUsage(from);
    least = Math.min(least, (taken.user + taken.system) * 1000 / n);
}
console.log(least.toFixed(2), Buffer.from(space.slice(call.shown, call.shown + 16)).toString('hex'));
"""


def node_call(call: Call) -> str:
    """What NODE reads."""
    return json.dumps(
        {
            "module": call.modules[-1],
            "symbol": call.export.split("/")[1],
            "args": call.start.arguments,
            "at": AT,
            "contents": [[at, contents.hex()] for _, at, contents in call.start.contents],
            "shown": call.shown[1],
        }
    )


__all__ = [
    "BULK",
    "NODE",
    "Call",
    "blade",
    "bulk",
    "native_timer",
    "node_call",
    "run",
    "small",
    "source_timer",
    "wasm2c_timer",
]
