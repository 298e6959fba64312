"""What a crate's contracts say, as a checksum: its specs, and of its source all but the bodies of
functions, imports and the attributes that name lemmas. Comments and layout don't count."""
import glob
import hashlib
import re

TOKEN = re.compile(
    r"""//[^\n]*|/\*.*?\*/|b?"(?:\\.|[^"\\])*"|b?'(?:\\[^']+|[^'\\\n])'|\w+|\s+|.""", re.DOTALL
)
# The words before the braces of a clause; other braces behind a function's name begin its body.
CLAUSES = {"requires", "ensures", "ghost"}


def tokens(text):
    """The words and signs of a source file."""
    found = [it for it in TOKEN.findall(text) if not it.isspace()]
    return [it for it in found if not it.startswith(("//", "/*"))]


def closing(words, at, opens, closes):
    """The place behind the bracket that closes the one at this place."""
    depth = 0
    for number in range(at, len(words)):
        depth += (words[number] == opens) - (words[number] == closes)
        if depth == 0:
            return number + 1
    return len(words)


def body_of(words, at):
    """Where the body of the function whose `fn` stands at this place begins and ends."""
    is_clause, depth = False, 0
    while at < len(words):
        word = words[at]
        depth += (word in "([") - (word in ")]")
        is_clause = is_clause or word in CLAUSES
        if word == ";" and depth == 0:
            return at, at
        if word == "{":
            end = closing(words, at, "{", "}")
            if not is_clause and depth == 0:
                return at, end
            is_clause, at = False, end
            continue
        at += 1
    return at, at


def imported(words):
    """The names that a `ghost use` item brings, each by its whole path."""
    path, _, names = "".join(words).partition("{")
    if not names:
        path, _, names = path.rpartition(".")
    return {(path.rstrip("."), name) for name in names.rstrip("}").split(",") if name}


def stated(text):
    """The words of a source file that a contract may be made of, and where those come from that
    clauses name."""
    words, found, names, at = tokens(text), [], set(), 0
    while at < len(words):
        word, after = words[at], words[at + 1 : at + 3]
        if word == "use" and (not found or found[-1] in ("pub", ")", ";", "}", "]", "ghost")):
            end = words.index(";", at)
            if found and found[-1] == "ghost":
                found.pop()
                names |= imported(words[at + 1 : end])
            elif found and found[-1] == "pub":
                found.pop()
            at = end + 1
        elif word == "#" and after[:1] == ["["] and after[1:] in (["tactic"], ["inline"]):
            at = closing(words, at + 1, "[", "]")
        elif word == "fn" and re.match(r"\w", after[0]):
            start, end = body_of(words, at)
            found, at = found + words[at:start] + [";"], max(end, start + 1)
        else:
            found.append(word)
            at += 1
    named = {*found}
    used = [(path, name) for path, name in names if {*re.findall(r"\w+", name)} <= named]
    return found, sorted(used)


def sum_of(folder):
    """The checksum of a crate's contracts; in what order its files come doesn't count."""
    parts = []
    for path in glob.glob(f"{folder}/src/**/*.rt", recursive=True):
        with open(path, encoding="utf-8") as source:
            parts.append(repr(stated(source.read())))
    for path in glob.glob(f"{folder}/specs/**/*.antt", recursive=True):
        with open(path, encoding="utf-8") as source:
            parts.append(repr(re.sub(r"(?m)(^|\s)--.*$", "", source.read()).split()))
    return hashlib.sha256("".join(sorted(parts)).encode()).hexdigest()[:16]
