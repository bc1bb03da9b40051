"""What the number of a refusal means."""
from __future__ import annotations

from typing import Dict

# The one table, in the words of docs/RULES.md, 'Numbers a call can return': the audit compares it with that table.
SENTENCES: Dict[int, str] = {
    1: "the channel's own table has no such format: DPCH above 16, DPDCH above 6, DPCCH above 3, HS-PDSCH above 1; of a compressed frame, no such kind of the format",
    2: "the slot number is above 14",
    3: "a lent run has the wrong length",
    4: "a digit is not allowed",
    5: "mapping: a TPC command is not 0 or 1; reading: a TPC digit is DTX or unlike the first",
    6: "a TFCI field of the downlink is mixed: it has both bits and DTX",
    7: "the pilot differs from the table",
    8: "Np is not 18, 36, 72 or 144",
    9: "a PICH or P-CCPCH frame, or the second stream of a DPCH slot or of an HS-PDSCH subframe, that no fields give; in a compressed frame a missing slot that is not silent",
    10: "AICH values that no indicators give",
    11: "a number is outside its range",
    12: "both gains are zero",
    20: "a job file is over-long",
    21: "the mark of a job file is wrong",
    22: "the version of a job file is not known",
    23: "the kind of a record is not known",
    24: "a job file ends early, in its header or in a record",
    25: "bytes stand behind the last record",
    26: "an indicator other than 0 of a signature that is not available",
    27: "a gap leaves too few or too many slots of a compressed frame, or runs past slot 14",
    28: "the buffer of a bank has fewer than 8 or more than 65536 bytes, or its bytes are no bank",
    29: "a bank has no slot with the number",
    30: "a bank already has a slot with the number",
    31: "a bank has no room",
    32: "a count of frames stands at 4294967295",
}


class Refused(ValueError):
    """A call was refused: `number` says why, `place` where, and `sentence` is what the number means.

    The place is counted from 0; what it counts is said with each call's rule (docs/INTERFACE.md).
    """

    def __init__(self, number: int, place: int, detail: str = "") -> None:
        super().__init__(number, place, detail)
        self.number = number
        self.place = place
        self.sentence = SENTENCES.get(number, "a number that this package does not know")
        self.detail = detail

    def __str__(self) -> str:
        return f"refused {self.number} {self.place}: {self.sentence}" + (f" ({self.detail})" if self.detail else "")
