#!/usr/bin/env python3
"""Prints the modules of `examples/` as arrays, as they are committed there, but for the section `blade.sum`
behind the labels, which only tools read. usage: python3 oracles/examples.py"""
import pathlib

HERE = pathlib.Path(__file__).resolve().parent
SUM = b"\x09blade.sum"  # the name of that section, behind its length and its kind, which are a byte each
MODULES = [
    ("lookup", "A table lookup by a secret index."),
    ("masked", "The same with a mask over the whole table, as clang gives it: one local is the "
     "index and then a counter."),
    ("masked_ssa", "The same after `wasm-opt --untee --ssa`, which gives them two."),
    ("compare", "The comparison of two tags in a secret memory."),
    ("quarter", "ChaCha20's quarter round in a secret memory."),
    ("list", "The sum of a list, without labels."),
]

print("//! The modules of `examples/`, printed by `oracles/examples.py`.")
for name, text in MODULES:
    data = (HERE.parent / "examples" / f"{name}.wasm").read_bytes()
    if SUM in data:
        data = data[: data.index(SUM) - 2]
    print(f"\n/// {text}\npub(crate) const {name.upper()}: [u8; {len(data)}] = [")
    for at in range(0, len(data), 16):
        print("    " + " ".join(f"0x{byte:02X}," for byte in data[at : at + 16]))
    print("];")
