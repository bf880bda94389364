"""How the oracles spell numbers, sections of modules, and images. It is written from the standard and from
FORMATS, and shares nothing with the program or the companions.

A command is its words, as `load v5 v3` or `out 0 v7`: `vN` is a variable, and a number is a constant, a
position, a function or an index. The last number of a load is its offset, if any. Behind them stand marks:
`inside` for each loop round the command, and `protected`."""

OPERATORS = {"move": 0x00, "outside": 0x01, "eqz": 0x45, "eq": 0x46, "gt_u": 0x4B, "add": 0x6A, "sub": 0x6B,
             "div_u": 0x6E}
LOADS = {"load": 0x28, "load64": 0x29, "load8_s": 0x2C, "load8_u": 0x2D, "load64_8_s": 0x30,
         "load64_8_u": 0x31}
STORES = {"store": 0x36, "store64": 0x37, "store8": 0x3A, "store64_8": 0x3C}
MARKS = {"inside": 1, "protected": 8}


def leb(number):
    """A number in its shortest unsigned LEB128."""
    return bytes([number]) if number < 128 else bytes([number % 128 + 128]) + leb(number // 128)


def vector(parts):
    return leb(len(parts)) + b"".join(parts)


def sized(contents):
    return leb(len(contents)) + contents


def name(text):
    return sized(text.encode())


def section(number, contents):
    return bytes([number]) + sized(contents)


def module(sections):
    """A module of pairs of a number and contents; what has no contents is left out."""
    return b"\0asm\1\0\0\0" + b"".join(section(number, contents) for number, contents in sections if contents)


def variable(word):
    return leb(int(word[1:]))


def operand(word):
    return b"\0" + variable(word) if word[0] == "v" else b"\1" + leb(int(word))


def command(words):
    words, mark = list(words), 0
    while words[-1] in MARKS:
        mark += MARKS[words.pop()]
    kind, words, marked = words[0], words[1:], bytes([mark])
    if kind == "set":
        return b"\0" + marked + bytes([OPERATORS[words[1]]]) + variable(words[0]) + b"".join(
            map(operand, words[2:]))
    if kind in LOADS:
        return b"\1" + marked + bytes([LOADS[kind], 0]) + variable(words[0]) + leb(
            int(words[2]) if words[2:] else 0) + operand(words[1])
    if kind in STORES:
        return bytes([2, STORES[kind], 0, 0]) + operand(words[0]) + operand(words[1])
    if kind == "test":
        return b"\3" + operand(words[0]) + leb(int(words[1])) + leb(int(words[2]))
    if kind in ("jump", "call"):
        return (b"\4" if kind == "jump" else b"\6") + leb(int(words[0]))
    if kind == "arg":
        return b"\5" + marked + leb(int(words[0])) + leb(int(words[1])) + operand(words[2])
    if kind == "out":
        return b"\7" + marked + leb(int(words[0])) + operand(words[1])
    assert kind == "ret"
    return b"\x08"


def image(head, text):
    """The image of version 1 with that head, and commands of which each is a line: its position, which counts
    from 7 on, and its words."""
    spelled = []
    for position, line in enumerate(text.strip().splitlines(), 7):
        at, *words = line.split()
        assert int(at) == position, line
        spelled.append(command(words))
    return b"BLIM\1" + bytes(head) + b"".join(spelled)


def rows(data):
    """Bytes as Rattle spells them, sixteen to a line."""
    return [", ".join(f"0x{byte:02X}" for byte in data[at:at + 16]) + "," for at in range(0, len(data), 16)]
