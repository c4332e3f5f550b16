"""Compare names as people read them."""
from __future__ import annotations

import itertools
import unicodedata

MOST_MARKS = 3  # accents and other marks on a letter
NO_NAME = f"give a name of 1 to 64 characters, with one that can be seen, and at most {MOST_MARKS} marks on a letter"

# Cyrillic, Greek and rare Latin letters that look like a common Latin letter, small or capital; and invisible characters.
LOOK_ALIKE = str.maketrans("авесԁԍһіјкӏмнорԛѕтѵԝухαβεζηικμνορτυχıɑɡ", "abecdghijklmhopqstvwyxabezhikmnoptyxiag",
                           "\u034f\u115f\u1160\u2800\u3164" + "".join(map(chr, range(0xfe00, 0xfe10))))


def is_name(name: str) -> bool:
    """Return whether a new name can be seen, and has few marks on each letter."""
    marks = itertools.groupby(unicodedata.normalize("NFD", name), lambda sign: unicodedata.category(sign).startswith("M"))
    return bool(fold_look_alikes(name)) and all(not is_mark or len([*run]) <= MOST_MARKS for is_mark, run in marks)


def fold_look_alikes(name: str) -> str:
    """Return a form of a name that is the same for all names that look alike: without case, spaces, widths and styles of letters."""
    plain = unicodedata.normalize("NFKC", unicodedata.normalize("NFKC", name).casefold())
    return unicodedata.normalize("NFC", "".join(plain.split()).translate(LOOK_ALIKE))
