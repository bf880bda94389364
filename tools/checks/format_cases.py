"""What formats/FORMATS.md says of bytes that are refused, as edits of its worked bytes, for
tools/checks/formats. Licence: public domain (CC0)."""
from __future__ import annotations

NO_IMAGE = "image: not an image"
READ = "certificate "  # the image is read and well-formed: verify goes on to the certificate


def rule(number: int, position: int = 0) -> str:
    return f"image: rule {number} at {position}"


# A worked image; the lines that are replaced, by how their texts begin, with other bytes; what verify says
# first.
IMAGES = [
    # Numbers.
    ("inc.wasm", {"no global": "80 00"}, NO_IMAGE),
    ("inc.wasm", {"six commands": "86 00"}, NO_IMAGE),
    ("inc.wasm", {"function 0": "80 80 80 80 10"}, NO_IMAGE),
    ("inc.wasm", {"function 0": "FF FF FF FF 0F"}, rule(3)),
    ("inc.wasm", {"9: Set": "00 00 00 03 01 FF FF FF FF FF FF FF FF FF 01"}, READ),
    ("inc.wasm", {"9: Set": "00 00 00 03 01 80 80 80 80 80 80 80 80 80 02"}, NO_IMAGE),
    ("inc.wasm", {"9: Set": "00 00 00 03 01 80 80 80 80 80 80 80 80 80 80 00"}, NO_IMAGE),
    # Parts.
    ("inc.wasm", {"magic": "42 4C 49 4E"}, NO_IMAGE),
    ("inc.wasm", {"version": "03"}, NO_IMAGE),
    ("inc.wasm", {"version": "00"}, NO_IMAGE),
    ("inc.wasm", {"version": "02"}, NO_IMAGE),
    ("inc.wasm", {"version": "02", "function 0": "00 00 00"}, NO_IMAGE),
    ("inc.wasm", {"version": "02", "function 0": "00 01 00 00 00 00"}, READ),
    ("inc.wasm", {"version": "02", "function 0": "00 01 02 00 00 00"}, NO_IMAGE),
    ("inc.wasm", {"version": "02", "function 0": "00 00 01 08 01"}, READ),
    ("inc.wasm", {"one parameter": "01 7D 00"}, NO_IMAGE),
    ("inc.wasm", {"one parameter": "01 7F 02"}, NO_IMAGE),
    ("inc.wasm", {"one parameter": "01 7E 01"}, READ),
    ("inc.wasm", {"a name": "03 FF 00 0A"}, READ),
    ("inc.wasm", {"six commands": "05"}, NO_IMAGE),
    ("inc.wasm", {"six commands": "07"}, NO_IMAGE),
    ("inc.wasm", {"12: Ret": "08 00"}, NO_IMAGE),
    ("inc.wasm", {"12: Ret": ""}, NO_IMAGE),
    ("inc.wasm", {"12: Ret": "0A"}, NO_IMAGE),
    # Fields.
    ("inc.wasm", {"8: Set": "00 07 00 02 00 00"}, NO_IMAGE),
    ("inc.wasm", {"8: Set": "00 0F 00 02 00 00"}, NO_IMAGE),
    ("inc.wasm", {"8: Set": "00 10 00 02 00 00"}, NO_IMAGE),
    ("inc.wasm", {"8: Set": "00 06 00 02 00 00"}, READ),
    ("inc.wasm", {"8: Set": "00 0E 00 02 00 00"}, READ),
    ("inc.wasm", {"8: Set": "00 00 02 02 00 00"}, NO_IMAGE),
    ("inc.wasm", {"8: Set": "00 00 00 02 02 00"}, NO_IMAGE),
    ("inc.wasm", {"12: Ret": "09 07"}, READ),
    ("inc.wasm", {"12: Ret": "09 08"}, NO_IMAGE),
    ("two.wasm", {"11: Load": "01 08 36 00 07 00 00 05"}, NO_IMAGE),
    ("two.wasm", {"11: Load": "02 28 00 00 00 05 01 00"}, NO_IMAGE),
    # Rules.
    ("two.wasm", {"one memory": "01 03 02 00 01"}, rule(1)),
    ("two.wasm", {"one memory": "01 01 81 02 00 01"}, rule(1)),
    ("two.wasm", {"row 2": "02" + " 00" * 16}, rule(1)),
    ("two.wasm", {"row 2": "FF 1F" + " 01" * 16}, READ),
    ("two.wasm", {"row 2": "80 20" + " 01" * 16}, rule(1)),
    ("inc.wasm", {"no memory": "04" + " 01 80 02 01 00" * 4, "8: Set": "00 00 00 06 00 04",
                  "9: Set": "00 00 00 07 01 01", "10: Set": "00 00 6A 08 00 06 00 07",
                  "11: Out": "07 00 00 00 08"}, READ),
    ("inc.wasm", {"no memory": "05" + " 00 80 02 00 00" * 5}, rule(1)),
    ("inc.wasm", {"five variables": "01"}, rule(2)),
    ("inc.wasm", {"five variables": "FF FF FF FF 07"}, READ),
    ("inc.wasm", {"five variables": "80 80 80 80 08"}, rule(2)),
    ("inc.wasm", {"one function": "02 00 00 00 00"}, rule(2)),
    ("two.wasm", {"two globals": "02 7F 00 FF FF FF FF 0F"}, READ),
    ("two.wasm", {"two globals": "02 7F 00 80 80 80 80 10"}, rule(2)),
    ("inc.wasm", {"one export": "02 01 61 00", "a name": "01 61"}, rule(3)),
    ("inc.wasm", {"function 0": "01"}, rule(3)),
    ("inc.wasm", {"10: Set": "00 00 6A 04 00 02 00 05"}, rule(4, 10)),
    ("inc.wasm", {"10: Set": "00 00 6A 04 00 02 00 01"}, READ),
    ("inc.wasm", {"8: Set": "00 00 00 01 00 00"}, rule(4, 8)),
    ("inc.wasm", {"8: Set": "00 00 00 00 00 00"}, READ),
    ("inc.wasm", {"7: Jump": "04 0D"}, rule(5, 7)),
    ("inc.wasm", {"7: Jump": "04 06"}, READ),
    ("inc.wasm", {"12: Ret": "06 00"}, rule(5, 12)),
    ("inc.wasm", {"12: Ret": "06 01"}, rule(5, 12)),
    ("inc.wasm", {"12: Ret": "03 00 00 06 07"}, READ),
    ("inc.wasm", {"7: Jump": "06 01"}, rule(6, 7)),
    ("inc.wasm", {"7: Jump": "05 00 00 00 01 09"}, READ),
    ("inc.wasm", {"7: Jump": "05 00 00 01 01 09"}, rule(6, 7)),
    ("inc.wasm", {"7: Jump": "05 00 01 00 01 09"}, rule(6, 7)),
    ("inc.wasm", {"11: Out": "07 00 01 00 04"}, rule(6, 11)),
    ("two.wasm", {"11: Load": "01 08 28 01 07 00 00 05"}, rule(6, 11)),
    ("two.wasm", {"9: Set": "00 00 01 06 00 05 00 02 01 03"}, rule(7, 11)),
    ("two.wasm", {"9: Set": "00 06 01 06 00 05 00 02 01 04"}, READ),
    ("two.wasm", {"9: Set": "00 00 01 06 00 03 00 02 01 04"}, rule(7, 11)),
    ("two.wasm", {"9: Set": "00 00 01 06 00 05 00 00 01 04"}, rule(7, 11)),
    ("two.wasm", {"9: Set": "00 00 01 05 00 05 00 02 01 04", "10: Test": "03 00 05 03 0B"}, rule(7, 11)),
    ("two.wasm", {"9: Set": "00 00 01 06 00 05 00 02 01 05", "11: Load": "01 08 28 00 07 01 00 05"}, READ),
    ("two.wasm", {"11: Load": "01 08 2C 00 07 00 00 05"}, rule(7, 11)),
    ("two.wasm", {"10: Test": "03 00 06 0B 0B"}, rule(7, 11)),
    ("two.wasm", {"10: Test": "03 00 06 0C 0B"}, READ),
    ("two.wasm", {"10: Test": "03 00 06 03 0C"}, rule(7, 11)),
    ("two.wasm", {"7: Jump": "04 0A"}, rule(7, 11)),
    ("two.wasm", {"7: Jump": "04 0B"}, rule(7, 11)),
    ("two.wasm", {"7: Jump": "04 09"}, READ),
    ("two.wasm", {"13: Test": "03 00 08 0B 0E"}, rule(7, 11)),
    ("two.wasm", {"8: Set": "00 00 00 02 00 03"}, rule(8, 8)),
    ("two.wasm", {"8: Set": "00 00 00 00 00 03"}, READ),
    ("two.wasm", {"two demands": "02 01 00 00 00 00"}, rule(9)),
    ("two.wasm", {"two demands": "02 01 00 01 00"}, rule(9)),
    ("two.wasm", {"two demands": "01 01 01"}, rule(9)),
    ("two.wasm", {"two demands": "01 01 02"}, rule(9)),
    ("two.wasm", {"two demands": "01 00 00 01"}, rule(9)),
    ("two.wasm", {"six weights": "06 07 81 80 80 01"}, rule(9)),
    ("two.wasm", {"six weights": "06 08 00"}, rule(9)),
    ("two.wasm", {"six weights": "01 08 FA FF FF FF FF FF FF FF 7F", "at 9": "", "at 11": "", "at 12": "",
                  "at 14": "", "at 15": ""}, READ),
    ("two.wasm", {"six weights": "01 08 FB FF FF FF FF FF FF FF 7F", "at 9": "", "at 11": "", "at 12": "",
                  "at 14": "", "at 15": ""}, rule(9)),
    ("two.wasm", {"six weights": "02 08 01 F7 FF FF FF 0F 01", "at 9": "", "at 11": "", "at 12": "",
                  "at 14": "", "at 15": ""}, NO_IMAGE),
    # The least position, then the least rule; rules 1, 2, 3 and 9 before all.
    ("inc.wasm", {"7: Jump": "04 0D", "8: Set": "00 00 00 01 00 00"}, rule(5, 7)),
    ("two.wasm", {"two demands": "01 01 02", "7: Jump": "04 63"}, rule(9)),
    # Growth: a function that grows its memory by its parameter v1, in positions 7 to 15; v0 is the size, v2
    # the result.
    ("grown", {}, READ),
    ("grown", {"7: Set": "00 00 6B 03 01 01 00 00"}, rule(8, 11)),
    ("grown", {"7: Set": "00 00 6A 03 01 02 00 00"}, rule(8, 11)),
    ("grown", {"8: Set": "00 00 4A 04 00 01 00 04"}, rule(8, 11)),
    ("grown", {"8: Set": "00 00 4B 04 00 03 00 01"}, rule(8, 11)),
    ("grown", {"9: Test": "03 00 04 0A 0A"}, rule(8, 11)),
    ("grown", {"9: Test": "03 00 04 0B 0A"}, rule(8, 11)),
    ("grown", {"10: Set": "00 00 00 05 00 01"}, rule(8, 11)),
    ("grown", {"11: Set": "00 00 6A 00 00 01 00 00"}, rule(8, 11)),
    ("grown", {"11: Set": "00 00 6A 00 00 00 00 03"}, rule(8, 11)),
    ("grown", {"7: Set": "00 00 6B 01 01 02 00 00", "8: Set": "00 00 4B 04 00 01 00 01"}, rule(8, 11)),
    ("grown", {"12: Jump": "04 08"}, rule(8, 11)),
    ("grown", {"12: Jump": "04 09"}, rule(8, 11)),
    ("grown", {"12: Jump": "04 0A"}, rule(8, 11)),
    ("grown", {"12: Jump": "04 0B"}, rule(8, 11)),
    ("grown", {"12: Jump": "04 07"}, READ),
    ("grown", {"10: Set": "00 00 00 03 00 00"}, READ),
]
GROWN = """\
42 4C 49 4D 01 00  magic, version, no global
01 01 02 00 00     one memory
01 01 7F 00 01 7F 05 09  one function: five variables, nine commands
01 01 66 00        one export
00 00 6B 03 01 02 00 00  7: Set r
00 00 4B 04 00 01 00 03  8: Set t
03 00 04 0D 0A     9: Test
00 00 00 05 00 00  10: Set v
00 00 6A 00 00 00 00 01  11: Set
04 0E              12: Jump
00 00 00 05 01 FF FF FF FF 0F  13: Set
07 00 00 00 05     14: Out
08                 15: Ret"""

WHOLE = '{"paths":[{"amount":2097153,"sink":14,"sites":[11]}],"weight":2097153}'
SHAPE, NOT_JSON = "certificate: shape", "certificate: not JSON"
# Certificates of two.wasm's image, and what verify says of them; the schema says no where that is the shape,
# but for UNSEEN.
CERTIFICATES = [
    (WHOLE, "certificate yes"),
    (' {"weight" :2097153,\r\n\t"paths":[ {"sites":[11],"sink":14,"amount":2097153} ] } \n',
     "certificate yes"),
    (WHOLE.replace('"weight"', '"weight":5,"weight"'), "certificate yes"),
    (WHOLE.replace('"weight"', '"weigh\\u0074"'), "certificate yes"),
    (WHOLE[:-1], NOT_JSON), (WHOLE + "x", NOT_JSON), ("", NOT_JSON), ("\ufeff" + WHOLE, NOT_JSON),
    (WHOLE.replace("14", "014"), NOT_JSON),
    (WHOLE[:-1] + ',"x":"\\ud800"}', NOT_JSON), (WHOLE[:-1] + ',"x":1e400}', NOT_JSON),
    ("[" * 127 + "]" * 127, SHAPE), ("[" * 128 + "]" * 128, NOT_JSON),
    ("null", SHAPE), ("[]", SHAPE), ("{}", SHAPE), ('{"paths":[]}', SHAPE),
    ('{"paths":{},"weight":0}', SHAPE), (WHOLE[:-1] + ',"x":1}', SHAPE),
    (WHOLE.replace('"sink":14,', ""), SHAPE), (WHOLE.replace('"sink":14', '"sink":14,"x":1'), SHAPE),
    (WHOLE.replace('"sink":14', '"sink":"14"'), SHAPE),
    (WHOLE.replace('"sink":14', '"sink":4294967296'), SHAPE), (WHOLE.replace("[11]", "[4294967296]"), SHAPE),
    (WHOLE.replace("[11]", "[-11]"), SHAPE),
    (WHOLE.replace("[11]", "[true]"), SHAPE), (WHOLE.replace("[11]", "11"), SHAPE),
    ('{"paths":[],"weight":18446744073709551616}', SHAPE),
    ('{"paths":[],"weight":1.0}', SHAPE), ('{"paths":[],"weight":1e0}', SHAPE),
    ('{"paths":[],"weight":-0}', SHAPE),
    # Rules.
    ('{"paths":[],"weight":18446744073709551615}', "certificate no 5 0"),
    (WHOLE.replace("[11]", "[]"), "certificate no 1 0"), (WHOLE.replace("[11]", "[9]"), "certificate no 1 0"),
    (WHOLE.replace('"sink":14', '"sink":10'), "certificate no 1 0"),
    (WHOLE.replace('"sink":14', '"sink":4294967295'), "certificate no 1 0"),
    (WHOLE.replace("[11]", "[11,12]").replace("14", "13"), "certificate yes"),
    (WHOLE.replace("[11]", "[11,15]"), "certificate no 1 0"),
    (WHOLE.replace('amount":2097153', 'amount":0'), "certificate no 2 0"),
    (WHOLE.replace("[11]", "[14]").replace("14,", "12,"), "certificate no 1 0"),
    (WHOLE.replace('amount":2097153', 'amount":2097154'), "certificate no 4 11"),
    (WHOLE.replace('amount":2097153', 'amount":18446744073709551615'), "certificate no 4 11"),
    (WHOLE.replace('amount":2097153', 'amount":2097152'), "certificate no 5 0"),
    (WHOLE.replace('weight":2097153', 'weight":2097152'), "certificate no 5 0"),
    ('{"paths":[{"amount":2097152,"sink":14,"sites":[11]},{"amount":1,"sink":13,"sites":[11,12]}],'
     '"weight":2097153}', "certificate yes"),
    ('{"paths":[{"amount":2097153,"sink":14,"sites":[11]},{"amount":0,"sink":14,"sites":[11]}],'
     '"weight":2097153}', "certificate no 2 1"),
]
UNSEEN = {'{"paths":[],"weight":-0}'}  # python3 reads -0 as the integer 0

RETURNED = "returned i32 0"
# Start files of two/f, which takes one i32 and has one memory of one page.
STARTS = [
    (b"arg 32", RETURNED), (b"arg 032\n", RETURNED), (b"", "start: arguments 0"), (b"\n", "start: line 1"),
    (b"arg 32\n\n", "start: line 2"), (b"arg 32\r\n", "start: line 1"), (b"arg  32\n", "start: line 1"),
    (b" arg 32\n", "start: line 1"), (b"arg 32 \n", "start: line 1"), (b"arg\t32\n", "start: line 1"),
    (b"arg +32\n", "start: line 1"), (b"arg 4294967296\n", "start: line 1"),
    (b"arg 4294967295\n", "trapped out of bounds memory access"), (b"arg 1\narg 2\n", "start: line 2"),
    (b"Arg 1\n", "start: line 1"),
    (b"arg 0\nmemory 0 0 04000000\nmemory 0 0 08\nmemory 0 8 0b\n", "returned i32 11"),
    (b"memory 0 0 Ab\narg 64\n", "returned i32 171"), (b"memory 0 0 \narg 0\n", "start: line 1"),
    (b"memory 0 0 a\narg 0\n", "start: line 1"), (b"memory 0 0 ag\narg 0\n", "start: line 1"),
    (b"memory 0 0\narg 0\n", "start: line 1"), (b"memory 0 65535 ab\narg 64\n", RETURNED),
    (b"memory 0 65535 abcd\narg 64\n", "start: line 1"), (b"memory 1 0 ab\narg 64\n", "start: line 1")]
# Traces of two/f with the worked start file, by spec: the first directive is a Jump's fetch.
TRACES = [
    (b"", "pending"), (b"fetch", "none"), (b"fetch\n", "none"), (b"fetch 0", "stuck 1"),
    (b"fetch 1", "stuck 1"), (b"fetch 2", "trace: line 1"), (b"fetch ", "trace: line 1"),
    (b"exec 000", "stuck 1"), (b"exec 4294967295", "stuck 1"), (b"exec 4294967296", "trace: line 1"),
    (b"exec", "trace: line 1"), (b"retire", "stuck 1"), (b"retire 0", "trace: line 1"),
    (b"fetch\r\n", "trace: line 1"), (b"fetch\n\nfetch\n", "trace: line 2")]
# Count files of two.wasm.
COUNTS = [
    (b"", "counts: line 1"), (b"commands 17", "functions 1"), (b"commands 0017\nsite 08 01\n", "functions 1"),
    (b"commands 17\n\n", "counts: line 2"), (b"command 17\n", "counts: line 1"),
    (b"commands 18446744073709551615\n", "counts: commands 18446744073709551615"),
    (b"commands 18446744073709551616\n", "counts: line 1"), (b"commands 17\nsite 8 0\n", "counts: line 2"),
    (b"commands 17\nsite 8 4294967296\n", "counts: line 2"),
    (b"commands 17\nsite 4294967296 1\n", "counts: line 2"),
    (b"commands 17\nsite 4294967295 1\n", "counts: site 4294967295"),
    (b"commands 16\nsite 8 x\n", "counts: line 2"), (b"commands 16\nsite 7 1\n", "counts: commands 16"),
    (b"commands 17\nsite 7 1\n", "counts: site 7"), (b"commands 17\nsite 9 1\nsite 8 1\n", "counts: site 8"),
    (b"commands 17\nsite 8 1\nsite 8 1\n", "counts: site 8"),
    (b"commands 17\nsite 8 4294967294\nsite 9 1\n", "functions 1"),
    (b"commands 17\nsite 8 4294967295\nsite 9 1\n", "counts: total 4294967296"),
    (b"commands 17\nsite 8 1 \n", "counts: line 2")]
# Interface files of two.wasm, by part library.
INTERFACES = [
    (b"", "functions 1"), (b"function t t two/f", "functions 1"), (b"function s s two/f\n", "functions 1"),
    (b"\n", "interface: line 1"), (b"function t t\n", "interface: line 1"),
    (b"function  t two/f\n", "interface: line 1"), (b"function x t two/f\n", "interface: line 1"),
    (b"function -t t two/f\n", "interface: line 1"), (b"Function t t two/f\n", "interface: line 1"),
    (b"function t t \n", "interface: function 0"), (b"function t t two/f \n", "interface: function 0"),
    (b"function - t two/f\n", "interface: function 0"), (b"function t t \xff\x00\n", "interface: function 0"),
    (b"function t t two/f\nfunction s s two/f\n", "interface: line 2")]
# Contents of a section of labels in two.wasm, in place of its own; what lower says first.
LABELS = [
    ("01 00", "commands 17"), ("02 00", "commands 17"), ("01 80 80 80 80 00", "commands 17"),
    ("02 81 00 00 80 00 00", "commands 17"), ("", "labels: two malformed"),
    ("01 80 80 80 80 80 00", "labels: two malformed"), ("00 00", "labels: two malformed"),
    ("03 00", "labels: two malformed"), ("01 01 03 00 00", "labels: two malformed"),
    ("01 01 04 00", "labels: two malformed"), ("02 01 05 00", "labels: two malformed"),
    ("02 01 01 00 00", "labels: two malformed"), ("02 02 01 00", "labels: two malformed"),
    ("01 01 00 00 01", "labels: two out of range"), ("01 01 00 01 00", "labels: two out of range"),
    ("01 01 01 02", "labels: two out of range"), ("01 01 02 01", "labels: two out of range"),
    ("02 01 03 00 01", "labels: two out of range"), ("02 01 04 02", "labels: two out of range"),
    ("01 02 01 00 01 00", "labels: two twice"), ("02 02 04 01 01 01", "labels: two both"),
    ("02 02 01 01 04 01", "labels: two both"), ("02 03 01 00 01 00 02 09", "labels: two twice"),
    ("01 03 01 00 01 00 05", "labels: two malformed")]
