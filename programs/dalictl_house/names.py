"""The names that a text has for what stands in a table of a house (docs/LANGUAGE.md)."""

from __future__ import annotations

import re
import unicodedata

UMLAUTS = str.maketrans({"ä": "ae", "ö": "oe", "ü": "ue", "ß": "ss", "æ": "ae", "ø": "oe", "å": "aa"})
NUMBERS = "SINT INT DINT USINT UINT UDINT".split()
# No name of a text may be one of these, in any letter case.
RESERVED = {
    *"LD LDN ST STN S R AND ANDN OR ORN XOR XORN NOT ADD SUB MUL DIV MOD GT GE EQ NE LE LT".split(),
    *"JMP JMPC JMPCN CAL CALC CALCN RET RETC RETCN MIN MAX LIMIT ABS BOOL TIME R_TRIG CTU TON".split(),
    *(f"{one}_TO_{other}" for one in NUMBERS for other in NUMBERS if one != other),
    *NUMBERS,
    *"GEAR_LEVEL GEAR_DO GEAR_SET GEAR_PAIR GEAR_ASK GEAR_READ DEV_DO DEV_SCHEME DEV_ASK".split(),
    *"PROGRAM END_PROGRAM FUNCTION END_FUNCTION VAR VAR_INPUT VAR_EXTERNAL END_VAR TYPE END_TYPE TRUE FALSE".split(),
    *"CONFIGURATION END_CONFIGURATION RESOURCE END_RESOURCE ON VAR_GLOBAL AT TASK SINGLE INTERVAL".split(),
    *"PRIORITY WITH".split(),
}


def identifier(room: str, name: str) -> str:
    """A name of a text for something in a room; empty where none can be made of it.

    `Küche` and `Tür links` make `kueche_tuer_links`.
    """
    words = unicodedata.normalize("NFC", f"{room} {name}").lower().translate(UMLAUTS)
    plain = unicodedata.normalize("NFKD", words).encode("ascii", "ignore").decode("ascii")
    made = re.sub(r"[^a-z0-9]+", "_", plain).strip("_")
    return f"_{made}" if made[:1].isdigit() else made


def is_reserved(made: str) -> bool:
    return made.upper() in RESERVED
