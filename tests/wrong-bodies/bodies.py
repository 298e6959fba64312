"""The wrong bodies: a file CRATE/NAME.edit each, whose lines README.md describes."""
import glob
import os

HERE = os.path.dirname(os.path.abspath(__file__))
TOP = os.path.dirname(os.path.dirname(HERE))
CRATES = os.path.join(TOP, "crates")


class Body:
    """A wrong body: what it turns in its crate's source, and which functions are checked then."""

    def __init__(self, path):
        self.crate = os.path.basename(os.path.dirname(path))
        self.word = os.path.basename(path).removesuffix(".edit")
        self.name = f"{self.crate}/{self.word}"
        self.says, self.checks, self.pairs = "", [], []
        self.by = "clause"
        file = old = None
        with open(path, encoding="utf-8") as lines:
            for line in lines.read().splitlines():
                word, _, text = line.partition(": ")
                if word == "file":
                    file = text
                elif word == "check":
                    self.checks.append(text)
                elif word == "by":
                    self.by = text
                elif word == "old":
                    old = text
                elif word == "new":
                    self.pairs.append((file, old, text))
                elif not file and not self.checks:
                    self.says = line

    def lack(self):
        """What its file has to have and lacks, if anything."""
        if not self.says or not self.checks or not self.pairs:
            return "it lacks a line: what it does, check, or a pair of old and new"
        return None

    def turned(self, folder):
        """By path the source files that are changed; or why the body doesn't fit them."""
        texts = {}
        for file, old, new in self.pairs:
            if file not in texts and not os.path.isfile(os.path.join(folder, file)):
                return {}, f"there is no {file}"
            if file not in texts:
                with open(os.path.join(folder, file), encoding="utf-8") as source:
                    texts[file] = source.read()
            if texts[file].count(old) != 1:
                return {}, f"an old text stands {texts[file].count(old)} times in {file}"
            texts[file] = texts[file].replace(old, new)
        return texts, None


def all_bodies():
    """All of them, by name."""
    found = [Body(path) for path in glob.glob(os.path.join(HERE, "*", "*.edit"))]
    return {body.name: body for body in sorted(found, key=lambda body: body.name)}


def listed():
    """The names that the gate always tries (`gate`); several crates may have one of a name."""
    with open(os.path.join(HERE, "gate"), encoding="utf-8") as lines:
        rows = [line.partition("#")[0].strip() for line in lines]
    return [row for row in rows if row]


def groups():
    """The lines of `sums` in two: those of crates all of whose bodies were tried, and those that are
    older than this file, each group with its comment."""
    with open(os.path.join(HERE, "sums"), encoding="utf-8") as lines:
        tried, _, older = lines.read().partition("# Older")
    return tried.splitlines(), f"# Older{older}".splitlines() if older else []


def sums_of(lines):
    """By crate its checksum, of the lines of a group."""
    return dict(line.split() for line in lines if line.strip() and line[0] != "#")


def noted():
    """By crate the checksum of the contracts over which its bodies needn't be tried (`sums`)."""
    tried, older = groups()
    return {**sums_of(older), **sums_of(tried)}


def note(sums):
    """Writes these checksums among those of crates all of whose bodies were tried."""
    if not sums:
        return
    tried, older = groups()
    whole = sorted({**sums_of(tried), **sums}.items())
    rest = [line for line in older if line.split(" ")[0] not in sums]
    with open(os.path.join(HERE, "sums"), "w", encoding="utf-8") as lines:
        lines.write("# By crate: the contracts over which all its wrong bodies were refused.\n")
        lines.writelines(f"{crate} {checksum}\n" for crate, checksum in whole)
        lines.writelines(f"{line}\n" for line in rest)
