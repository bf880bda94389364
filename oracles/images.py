#!/usr/bin/env python3
"""Prints the images of the modules that tests lower, and of four that they harden, by the commands that the
table of lowering gives them, written here by hand as spell.py says, which spells them.

usage: python3 oracles/images.py"""

import spell

IMAGES = {}


def image(name, head, text):
    IMAGES[name] = spell.image(head, text)


F = [1, 3] + list(b"m/f")

# v0 is the memory's size, v1 the parameter, v2 the result.
image("LOWERED_LOADS_IMAGE", [0, 1, 1, 0x80, 2, 0, 0, 1, 1, 0x7F, 0, 1, 0x7F, 7, 10] + F + [0], """
7 jump 8
8 set v3 move v1
9 set v4 outside v3 v0 4
10 test v4 3 11
11 load v5 v3
12 set v6 outside v5 v0 4
13 test v6 3 14
14 load v7 v5
15 out 0 v7
16 ret
""")

# The same, of which the first load is protected.
image("LOADS_IMAGE", [0, 1, 1, 0x80, 2, 0, 0, 1, 1, 0x7F, 0, 1, 0x7F, 7, 10] + F + [0], """
7 jump 8
8 set v3 move v1
9 set v4 outside v3 v0 4
10 test v4 3 11
11 load v5 v3 protected
12 set v6 outside v5 v0 4
13 test v6 3 14
14 load v7 v5
15 out 0 v7
16 ret
""")

# v0 is the parameter, v1 the result; the export is inc/inc.
image("ADD_ONE_IMAGE", [0, 0, 1, 1, 0x7F, 0, 1, 0x7F, 5, 6, 1, 7] + list(b"inc/inc") + [0], """
7 jump 8
8 set v2 move v0
9 set v3 move 1
10 set v4 add v2 v3
11 out 0 v4
12 ret
""")

# v0 is the global, v1 the memory's size, v2 and v3 the parameters, v4 the result, v5 the other local.
ROW = [1, 0, 0, 0, 2, 0, 0, 0, 3, 0, 0, 0, 0, 0, 0, 0]
HEAD = [1, 0x7F, 0] + list(spell.leb(66560)) + [1, 2, 0x80, 2, 0, 1, 64] + ROW
FUNCTION = [1, 2, 0x7F, 0, 0x7F, 0, 1, 0x7F, 18, 30, 1, 5] + list(b"m/sum") + [0]
image("SUM_IMAGE", HEAD + FUNCTION, """
7 set v5 move 0
8 jump 9
9 jump 10
10 set v6 move v3
11 set v7 eqz v6
12 test v7 13 14
13 jump 34
14 jump 15
15 set v8 move v2 inside
16 set v9 outside v8 v1 4 inside
17 test v9 3 18
18 load v10 v8 inside
19 set v11 move v5 inside
20 set v12 add v10 v11 inside
21 set v5 move v12 inside
22 set v13 move v2 inside
23 set v14 move 4 inside
24 set v15 add v13 v14 inside
25 set v2 move v15 inside
26 set v16 move v3 inside
27 set v17 move 4294967295 inside
28 set v18 add v16 v17 inside
29 set v3 move v18 inside
30 test v18 31 32
31 jump 14
32 jump 33
33 jump 34
34 set v19 move v5
35 out 0 v19
36 ret
""")

# v0 is the memory's size, v1 the parameter, v2 the result.
image("GROW_AND_STORE_IMAGE", [0, 1, 1, 2, 0, 0, 1, 1, 0x7F, 0, 1, 0x7F, 9, 16] + F + [0], """
7 jump 8
8 set v3 move v1
9 set v4 sub 2 v0
10 set v5 gt_u v3 v4
11 test v5 15 12
12 set v6 move v0
13 set v0 add v0 v3
14 jump 16
15 set v6 move 4294967295
16 set v7 move 65536
17 set v8 move v1
18 set v9 outside v7 v0 4
19 test v9 3 20
20 store v7 v8
21 out 0 v6
22 ret
""")

# v0 is the memory's size, v1 the parameter, v2 the result. No module is lowered to this one: its parameter
# isn't moved.
image("GROWTH_IMAGE", [0, 1, 1, 2, 0, 0, 1, 1, 0x7F, 0, 1, 0x7F, 5, 9] + F + [0], """
7 set v3 sub 2 v0
8 set v4 gt_u v1 v3
9 test v4 13 10
10 set v5 move v0
11 set v0 add v0 v1
12 jump 14
13 set v5 move 4294967295
14 out 0 v5
15 ret
""")

# Function 1 has the result v0; function 2 the parameter v2 and the result v3.
image("INDIRECT_IMAGE", [0, 0, 3, 0, 0, 0, 2, 0, 1, 0x7F, 2, 4, 1, 0x7F, 0, 1, 0x7F, 7, 13] + F + [2], """
7 jump 8
8 ret
9 jump 10
10 set v1 move 9
11 out 0 v1
12 ret
13 jump 14
14 set v4 move v2
15 set v5 eq v4 0
16 test v5 6 17
17 set v6 eq v4 1
18 test v6 5 19
19 set v7 eq v4 2
20 test v7 21 4
21 call 1
22 set v8 move v0
23 jump 24
24 out 0 v8
25 ret
""")

# v0 is the parameter, v1 and v2 the results; v3 and v4 are the outer block's, v6 and v7 the inner one's.
image("NESTED_IMAGE", [0, 0, 1, 1, 0x7F, 0, 2, 0x7F, 0x7F, 17, 30] + F + [0], """
7 jump 8
8 jump 9
9 set v5 move 5
10 jump 11
11 set v8 move 7
12 set v9 move 8
13 set v10 move 9
14 set v11 move v0
15 set v12 eq v11 0
16 test v12 22 17
17 set v13 eq v11 1
18 test v13 25 19
19 out 0 v9
20 out 1 v10
21 ret
22 set v6 move v9
23 set v7 move v10
24 jump 28
25 set v3 move v9
26 set v4 move v10
27 jump 32
28 set v14 add v6 v7
29 set v3 move v5
30 set v4 move v14
31 jump 32
32 set v15 move 1
33 set v16 add v4 v15
34 out 0 v3
35 out 1 v16
36 ret
""")

# v0 to v2 are the parameters, v3 and v4 the results; v7 and v8 are the loop's parameters, v9 and v10 its
# results.
image("SWAPPING_IMAGE", [0, 0, 1, 3, 0x7F, 0, 0x7F, 0, 0x7F, 0, 2, 0x7F, 0x7F, 16, 24] + F + [0], """
7 jump 8
8 set v5 move v0
9 set v6 move v1
10 set v7 move v5
11 set v8 move v6
12 jump 13
13 set v1 move v8 inside
14 set v0 move v7 inside
15 set v11 move v1 inside
16 set v12 move v0 inside
17 set v13 move v2 inside
18 set v14 move 4294967295 inside
19 set v15 add v13 v14 inside
20 set v2 move v15 inside
21 test v15 22 25
22 set v7 move v11 inside
23 set v8 move v12 inside
24 jump 12
25 set v9 move v11 inside
26 set v10 move v12 inside
27 jump 28
28 out 0 v9
29 out 1 v10
30 ret
""")

# v0 is the parameter, v1 the result; v3 is the loop's parameter, v4 its result.
image("LOOP_IMAGE", [0, 0, 1, 1, 0x7F, 0, 1, 0x7F, 8, 15] + F + [0], """
7 jump 8
8 set v2 move v0
9 set v3 move v2
10 jump 11
11 set v5 move 4294967295 inside
12 set v6 add v3 v5 inside
13 set v0 move v6 inside
14 set v7 move v0 inside
15 test v7 16 18
16 set v3 move v6 inside
17 jump 10
18 set v4 move v6 inside
19 jump 20
20 out 0 v4
21 ret
""")

# What is hardened: memories of one page without a maximum, v0 being the memory's size. First with the
# parameters v1 and v2 and the result v3.
PAGE = [0, 1, 1, 0x80, 2, 0, 0]
image("SUM_OF_LOADS_IMAGE", PAGE + [1, 2, 0x7F, 0, 0x7F, 0, 1, 0x7F, 12, 15] + F + [0], """
7 jump 8
8 set v4 move v1
9 set v5 outside v4 v0 4
10 test v5 3 11
11 load v6 v4
12 set v7 move v2
13 set v8 outside v7 v0 4
14 test v8 3 15
15 load v9 v7
16 set v10 add v6 v9 protected
17 set v11 outside v10 v0 4
18 test v11 3 19
19 load v12 v10
20 out 0 v12
21 ret
""")

# v1 is the parameter, v2 the result, v3 the other local.
image("SHARED_ADDRESS_IMAGE", PAGE + [1, 1, 0x7F, 0, 1, 0x7F, 12, 17] + F + [0], """
7 set v3 move 0
8 jump 9
9 set v4 move v1
10 set v5 outside v4 v0 4
11 test v5 3 12
12 load v6 v4 protected
13 set v3 move v6
14 set v7 outside v6 v0 4
15 test v7 3 16
16 load v8 v6
17 set v9 move v3
18 set v10 outside v9 v0 8
19 test v10 3 20
20 load v11 v9 4
21 set v12 add v8 v11
22 out 0 v12
23 ret
""")

# v1 is the parameter, v2 the other local.
image("LOOP_READS_IMAGE", PAGE + [1, 1, 0x7F, 0, 0, 8, 15] + F + [0], """
7 set v2 move 0
8 jump 9
9 set v3 move v1
10 set v4 outside v3 v0 4
11 test v4 3 12
12 load v5 v3 protected
13 set v2 move v5
14 jump 15
15 set v6 move v2 inside
16 set v7 outside v6 v0 4 inside
17 test v7 3 18
18 load v8 v6 inside
19 jump 20
20 jump 21
21 ret
""")

# v1 is the parameter, v2 the result, v3 the other local.
image("LOOP_WRITES_IMAGE", PAGE + [1, 1, 0x7F, 0, 1, 0x7F, 9, 15] + F + [0], """
7 set v3 move 0
8 jump 9
9 jump 10
10 set v4 move v1 inside
11 set v5 outside v4 v0 4 inside
12 test v5 3 13
13 load v6 v4 inside
14 set v3 move v6 inside
15 jump 16
16 set v7 move v3 protected
17 set v8 outside v7 v0 4
18 test v8 3 19
19 load v9 v7
20 out 0 v9
21 ret
""")

if __name__ == "__main__":
    for name, whole in IMAGES.items():
        print(name, len(whole))
        print(*(f"    {row}" for row in spell.rows(whole)), sep="\n")
