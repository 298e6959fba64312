"""A place of its own in which a crate is checked with a wrong body in it, over proved libraries. Of
the toolchain it takes what `rt doc` and `rattle check --help` describe: `rt ci`, which gives in a
moment what it keeps of the same files, and the words of `rattle check`."""
import contextlib
import os
import shutil
import signal
import subprocess
import tempfile
import threading

from bodies import CRATES, TOP

# The seconds in which `rt ci` says nothing, before it counts as proving what it hasn't kept. It
# takes up to ten for the largest crate that it has.
SILENCE = 120
# The seconds that one check may take.
PATIENCE = 1800


class Stopped(Exception):
    """Why no wrong body can be tried."""


def kit():
    """The folder of the toolchain."""
    ran = subprocess.run(["rt", "doc"], capture_output=True, text=True, check=False)
    page = ran.stdout.strip()
    if ran.returncode or not os.path.isfile(page):
        raise Stopped("`rt doc` doesn't name the toolchain's first page, by which it is found")
    return os.path.dirname(page)


def crate_lines():
    """By crate its line of crates.txt."""
    with open(os.path.join(TOP, "crates.txt"), encoding="utf-8") as lines:
        rows = [line.partition("#")[0].strip() for line in lines]
    return {row.split()[0].rstrip(":"): row for row in rows if row}


def below(uses, crate):
    """The repository's crates that this one stands on, lowest first."""
    found = []
    for name in uses[crate]:
        if name in uses:
            found += [it for it in [*below(uses, name), name] if it not in found]
    return found


def watch_over(ran):
    """Ends a command that says nothing for long, with all that it started."""

    def end():
        with contextlib.suppress(ProcessLookupError):
            os.killpg(ran.pid, signal.SIGTERM)

    watch = threading.Timer(SILENCE, end)
    watch.daemon = True
    watch.start()
    return watch


def answer(words, room):
    """The status of a check, none where it took too long, and what it says."""
    how = {"stdout": subprocess.PIPE, "stderr": subprocess.STDOUT, "errors": "replace"}
    try:
        ran = subprocess.run(words, cwd=room, timeout=PATIENCE, check=False, **how)
    except subprocess.TimeoutExpired:
        return None, f"it took more than {PATIENCE} seconds"
    return ran.returncode, ran.stdout


class Workspace:
    """A copy of the crates below those that are tried, as `rt ci` has proved them."""

    def __init__(self, crates):
        self.kit, self.lines = kit(), crate_lines()
        self.uses = {name: row.partition(":")[2].split() for name, row in self.lines.items()}
        self.place = tempfile.mkdtemp(prefix="wrong-bodies-")
        self.libraries = []
        for crate in crates & {*self.uses}:
            more = [it for it in below(self.uses, crate) if it not in self.libraries]
            self.libraries += more

    def __enter__(self):
        return self

    def __exit__(self, *_):
        shutil.rmtree(self.place, ignore_errors=True)

    def copy(self, crate, to):
        """Copies what a check of a crate reads."""
        for part in ("src", "specs", "proofs"):
            if os.path.isdir(f"{CRATES}/{crate}/{part}"):
                shutil.copytree(f"{CRATES}/{crate}/{part}", f"{to}/{part}")

    def build(self):
        """Has `rt ci` give the libraries. Where it has to prove one it is stopped."""
        if not self.libraries:
            return
        for crate in self.libraries:
            self.copy(crate, f"{self.place}/crates/{crate}")
        with open(f"{self.place}/crates.txt", "w", encoding="utf-8") as lines:
            lines.writelines(f"{self.lines[it]}\n" for it in self.libraries)
        shutil.copy(f"{TOP}/HANDLES", self.place)
        os.mkdir(f"{self.place}/.git")
        said = self.answer_of_gate()
        if f"{len(self.libraries)} passed, 0 failed" not in said:
            raise Stopped("`rt ci` doesn't give the libraries below: run it first\n" + said[-2000:])

    def answer_of_gate(self):
        """What `rt ci` says in the workspace."""
        how = {"stdout": subprocess.PIPE, "stderr": subprocess.STDOUT, "text": True}
        said = []
        words = {"cwd": self.place, "start_new_session": True, **how}
        with subprocess.Popen(["rt", "ci"], **words) as ran:
            watch = watch_over(ran)
            for line in iter(ran.stdout.readline, ""):
                said.append(line)
                watch.cancel()
                watch = watch_over(ran)
            watch.cancel()
        return "".join(said)

    def words(self, crate):
        """The words of `rattle check` for a crate over the libraries."""
        rlibs = f"{self.kit}/rlibs"
        found = [f"{self.kit}/bin/rattle", "check", "--crate-name", crate]
        is_program = os.path.isfile(f"{CRATES}/{crate}/src/main.rt")
        found += ["src/main.rt" if is_program else "src/lib.rt"]
        for name in ["std", *[it for it in self.uses[crate] if it not in self.uses]]:
            found += ["--extern", f"{name}={rlibs}/{name}.rlib"]
        found += ["-L", f"dependency={rlibs}"]
        for name in below(self.uses, crate):
            place = f"{self.place}/crates/{name}/out/rlib"
            if name in self.uses[crate]:
                found += ["--extern", f"{name}={place}/{name}.rlib"]
            found += ["-L", f"dependency={place}"]
        found += ["--antt-project", f"{self.kit}/rattle/logic/antt-project.json"]
        return found + ["--logic-built", f"{self.kit}/logic_built", "--jobs", "1"]

    def check(self, body, texts):
        """What a check says of the functions of a body whose source files have these texts."""
        with tempfile.TemporaryDirectory(prefix="body-", dir=self.place) as room:
            self.copy(body.crate, room)
            for file, text in texts.items():
                with open(f"{room}/{file}", "w", encoding="utf-8") as source:
                    source.write(text)
            words = self.words(body.crate)
            for function in body.checks:
                words += ["--only", function]
            status, said = answer(words, room)
            # Killed, most likely for memory.
            return answer(words, room) if status and status < 0 else (status, said)
