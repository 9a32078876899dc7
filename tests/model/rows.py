#!/usr/bin/env python3
"""The ledger of ledger.py answers the worked examples of docs/LEDGER.md. The last line is
'N passed, M failed', and the status 1 where any failed."""
import sys

from ledger import replay

I = lambda n: "01610000000000000001" + f"{n:08x}"
J = "0161000000000000000200000001"
B = "0162000000000000000100000001"
T = "0000000100000000000151800175"
U = "000705017500000001"
ONE = "002101" + I(1) + T + "00000001"
TWO = "002101" + I(2) + T + "00000002"
THREE = "002101" + I(3) + T + "00000001"
FOUR = [
    "001381" + I(1) + "00000001",
    "001381" + I(2) + "00000003",
    "001782" + I(3) + "0000000300000003",
]

EXAMPLES = {
    "one reserve": ([[ONE]], [["001381" + I(1) + "00000001"]]),
    "repeats over two connections": (
        [[ONE] * 3, [ONE, U]],
        [[FOUR[0]] * 3, [FOUR[0], "00138b017500000001000000000000000100000003"]],
    ),
    "other content under a used number": (
        [[ONE, "002101" + I(1) + T + "00000002", U]],
        [[FOUR[0], "000f8a" + I(1), "00138b017500000001000000000000000100000003"]],
    ),
    "three reserves at the cap": ([[ONE, TWO, THREE]], [FOUR]),
    "release, then an old number again": (
        [
            [
                ONE,
                TWO,
                THREE,
                "001d03" + I(4) + T,
                THREE,
                "002101" + I(5) + "00000002" + T[8:] + "00000001",
            ]
        ],
        [FOUR + ["001384" + I(4) + "00000003", FOUR[2], "001381" + I(5) + "00000001"]],
    ),
    "reserve twice, settle once": (
        [
            [
                ONE,
                "002101" + I(2) + T + "00000001",
                "002102" + I(3) + T + "00000001",
                U,
                "002102" + I(4) + T + "00000001",
            ]
        ],
        [
            [
                FOUR[0],
                "001381" + I(2) + "00000002",
                "001383" + I(3) + "00000001",
                "00138b017500000001000000010000000000000003",
                "000f87" + I(4),
            ]
        ],
    ),
    "retire settles what was reserved": (
        [
            [
                ONE,
                TWO,
                "000f07" + J,
                U,
                ONE,
                "002102" + I(3) + T + "00000001",
                "000f07" + J,
                "002101" + "0161000000000000000200000002" + T + "00000001",
                "000f07" + I(9),
            ]
        ],
        [
            FOUR[:2]
            + [
                "000f8f" + J,
                "00138b017500000001000000030000000000000003",
                "000f90" + I(1),
                "000f90" + I(3),
                "000f8f" + J,
                "0017820161000000000000000200000002" + "0000000300000003",
                "000f90" + I(9),
            ]
        ],
    ),
    "retire reaches one host": (
        [[ONE, "002101" + B + T + "00000001", "000f07" + J, "000f07" + B, U]],
        [
            [
                FOUR[0],
                "001381" + B + "00000002",
                "000f8f" + J,
                "000f8a" + B,
                "00138b017500000001000000010000000100000003",
            ]
        ],
    ),
    "limits over later days": (
        [
            [
                ONE,
                TWO,
                THREE,
                "001904" + I(4) + "00000001000000020175",
                "001904" + I(5) + "00000001000000030175",
                "001904" + I(6) + "00000000000000020175",
            ]
        ],
        [
            FOUR
            + [
                "001786" + I(4) + "0000000100000003",
                "000f85" + I(5),
                "001786" + I(6) + "0000000100000003",
            ]
        ],
    ),
}

failed = 0
for name, (asked, wanted) in EXAMPLES.items():
    came = replay([bytes.fromhex("".join(c)) for c in asked], 0, 3)
    good = came == ("".join("".join(c) + "\n" for c in wanted), "", 0)
    print(f"{'ok ' if good else 'NOT'} {name}{'' if good else f': {came}'}")
    failed += not good
print(f"{len(EXAMPLES) - failed} passed, {failed} failed")
sys.exit(1 if failed else 0)
