"""Fault dictionaries that were published with two tests, typed in from their tables, and the tests as sheets for one
word of one bit. A 1 is a faulty response."""

from __future__ import annotations

# The test T_H, and the published responses E1 to E4 of a cell with each named fault. The response E0 belongs to a compare
# after a write of X, which these arrays do not have. Where the direction is left open it is up.
T_H_SHEET = b"""(test th
(up (w 1))
(up (w 0) (c 0 hit) (w 1))
(columns (c 0 none))
(up (w 0))
(up (w 1) (c 1 hit) (w 0))
(columns (c 1 none))
)
"""

T_H_DICTIONARY: dict[str, str] = {
    "SMF": "0101",
    "SMMF": "1010",
    "CM1F": "1001",
    "CM0F": "0110",
    "PM1F": "1100",
    "PM0F": "0011",
    "EMM1F": "0010",
    "EMM0F": "1000",
    "IM1F": "0100",
    "IM0F": "0001",
}

# The test March-17N, and the published responses of a stuck-at cell to its twelve reads. Where the direction is left
# open it is up.
MARCH_17N_SHEET = b"""(test march17n
(up (w 0))
(up (r 0) (w 1) (r 1))
(up (r 1))
(up (r 1) (w 0) (r 0))
(up (r 0))
(down (r 0) (w 1) (r 1))
(up (r 1))
(down (r 1) (w 0) (r 0))
(up (r 0))
)
"""

MARCH_17N_DICTIONARY: dict[str, str] = {
    "sa0": "011100011100",
    "sa1": "100011100011",
}
