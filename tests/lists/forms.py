"""The forms of lines, as docs/SCRIPT.md has them: a line's words are read into a command, or it is bad."""
import re

LONGEST = 65_536
NUMBER = re.compile(rb"(0|[1-9][0-9]{0,17})")
BYTE = re.compile(rb"[0-9a-f]{2}")
ITEMS = re.compile(rb"-|([0-9a-f]{2})+")

# By first word the operands, and the roles that the form is for: r of windows that are read, u of sole
# writers, s of one writer of several, i of small windows. An operand w is the number of a window, n
# another number, b a byte, x items. Forms without roles make a window of what they bring.
FORMS = {
    "slice": ("x", ""),
    "small": ("x", ""),
    "vec": ("x", ""),
    "raw": ("x", ""),
    "buf": ("xn", ""),
    "mbuf": ("xn", ""),
    "static": ("", ""),
    "new": ("", ""),
    "cap": ("n", ""),
    "zero": ("n", ""),
    "mslice": ("x", ""),
    "clone": ("w", "ri"),
    "sub": ("wnn", "ri"),
    "off": ("wn", "rs"),
    "to": ("wn", "rs"),
    "uniq": ("w", "r"),
    "mut": ("w", "r"),
    "take": ("w", "rus"),
    "takebox": ("w", "r"),
    "takebuf": ("w", "ru"),
    "takeraw": ("w", "r"),
    "takestatic": ("w", "r"),
    "meta": ("w", "rus"),
    "room": ("w", "us"),
    "res": ("wn", "us"),
    "rec": ("wn", "us"),
    "push": ("wb", "us"),
    "ext": ("wx", "us"),
    "share": ("w", "u"),
    "unique": ("w", "s"),
    "join": ("ww", "s"),
    "freeze": ("w", "us"),
    "adv": ("wn", "rusi"),
    "trunc": ("wn", "rus"),
    "len": ("w", "rusi"),
    "show": ("w", "rusi"),
    "drop": ("w", "rusi"),
}

def is_had(word):
    """Whether the program has a line of this first word."""
    return word in FORMS


def is_for(word, role):
    """Whether the program has the form for windows of this role."""
    return role in FORMS[word][1]


def operand(sort, word):
    """What a word is as an operand of this sort, or None."""
    if sort in "wn":
        return int(word) if NUMBER.fullmatch(word) else None
    if sort == "b":
        return bytes.fromhex(word.decode()) if BYTE.fullmatch(word) else None
    if not ITEMS.fullmatch(word):
        return None
    return b"" if word == b"-" else bytes.fromhex(word.decode())


def command(line):
    """The first word of a line, and its operands; None of a bad line."""
    words = line.split(b" ")
    first = words[0].decode("latin-1")
    if len(line) > LONGEST or not is_had(first) or len(words) != 1 + len(FORMS[first][0]):
        return None
    operands = [operand(*it) for it in zip(FORMS[first][0], words[1:])]
    return None if None in operands else (first, operands)


def text(items):
    """Items as replies have them."""
    return items.hex() or "-"
