"""Checks theorems over edited definitions. A theorem must refuse an edit that changes what its statement means.

The theorem's code and proof are unchanged, and so are the proofs of the crates between. The crate with the definition
and the crates that depend on it are passed to rattle as sources, the others as the libraries that ./prove keeps. So the
functions of the edited crate need no proof, and only the lemmas that the theorem's proof uses are checked.
"""
import os
import re
import shutil
import subprocess
import tempfile
from concurrent.futures import Future, ThreadPoolExecutor
from typing import Iterator, List, NamedTuple, Optional, Sequence, Tuple

from qss_tools.fault import Fault

from .crates import Crates, Kit, needed
from .edits import REFUSED, SPECS, THROUGH, UNKNOWN, Mutant, applied, mutants_of, text_of

UNREAD, UNAPPLIED = "does not read", "not applied"
PARTS = ("src", "specs", "proofs")
# A declaration that is not admitted: its file, and what is wrong.
WRONG = re.compile(r"^(?:note: )?(?:\S*/)?((?:specs|proofs)/\S+?\.antt):(\d+):\d+: (?!warning)(.*)", re.MULTILINE)
# The line on the theorem.
TOLD = r"^fn %s: (proved|not proved|no proof|could not tell)"
CHECKED = r"^checked %s, \d+ of \d+"


class Edit(NamedTuple):
    """An edit of a definition, and its crate."""

    crate: str
    mutant: Mutant

    @property
    def top(self) -> str:
        """The crate of the theorem."""
        return self.mutant.theorem.partition("::")[0]


class Verdict(NamedTuple):
    """What a check says of an edit, and the first place that is not admitted."""

    said: str
    place: str = ""


def edits_of(root: str, crate: str) -> List[Edit]:
    """The edits of a crate's definitions, each with a theorem."""
    found = mutants_of(root, crate, SPECS)
    for it in found:
        if "::" not in it.theorem:
            raise Fault(f"crates/{crate}/{SPECS}/{it.name}.edit has no line 'theorem: CRATE::FUNCTION'")
    return [Edit(crate, it) for it in found]


def edited(root: str, edit: Edit) -> Optional[str]:
    """The text of the edited file, or None if the edit cannot be applied."""
    text = text_of(root, edit.crate, edit.mutant.file)
    changed = applied(text, edit.mutant)
    return None if changed == text else changed


class Checks:
    """Checks of theorems over definitions of a checkout, and over the libraries that are built in another or the same
    checkout.
    """

    def __init__(self, root: str, built: str, folder: str) -> None:
        self.root, self.folder = root, folder
        self.crates = Crates(built, Kit())

    def sources(self, edit: Edit) -> List[str]:
        """The crates below the theorem's that are passed as sources: the edited one, and those that depend on it."""
        below = self.crates.below
        return [it for it in below if it in needed(below, edit.top) - {edit.top} and edit.crate in needed(below, it)]

    def words(self, edit: Edit, room: str) -> List[str]:
        """The words by which rattle checks the theorem of an edit in this folder."""
        kit, below, sources = self.crates.kit.folder, self.crates.below, self.sources(edit)
        every = needed(below, edit.top) - {edit.top}
        named = {it for crate in [edit.top, *sources] for it in below[crate]} - set(sources)
        words = [f"{kit}/bin/rattle", "check", "--crate-name", edit.top, "src/lib.rt"]
        for it in sorted({"core", "std"} | named - every):
            words += ["--extern", f"{it}={kit}/rlibs/{it}.rlib"]
        for it in sorted(named & every):
            words += ["--extern", f"{it}={self.crates.built(it)}"]
        for it in [f"{kit}/rlibs", *(self.crates.place(it) for it in sorted(every - set(sources)))]:
            words += ["-L", f"dependency={it}"]
        for it in sources:
            names = ",".join(dict.fromkeys(["core", "std", *below[it]]))
            words += ["--lib", f"{it}:{names}={self.place(edit, it, room)}/src/lib.rt"]
        words += ["--antt-project", f"{kit}/rattle/logic/antt-project.json", "--logic-built", f"{kit}/logic_built"]
        words += ["--links", f"{edit.top}=", "--jobs", "1", "--short-goals", "--incremental", f"{room}/kept"]
        return [*words, "--only", edit.mutant.theorem]

    def place(self, edit: Edit, crate: str, room: str) -> str:
        """The folder of a crate: a copy of the edited one, else the crate itself."""
        return f"{room}/{crate}" if crate == edit.crate else f"{self.root}/crates/{crate}"

    def check(self, edit: Edit, room: str) -> str:
        """What rattle says of the theorem of an edit in this folder."""
        where = self.place(edit, edit.top, room)
        done = subprocess.run(
            self.words(edit, room), cwd=where, capture_output=True, text=True, errors="replace", check=False
        )
        return done.stdout + done.stderr

    def made(self, edit: Edit, name: str, kept: str = "") -> str:
        """A folder with a copy of the edit's crate, and with the modules that an earlier check kept."""
        room = f"{self.folder}/{name}"
        for part in PARTS:
            if os.path.isdir(f"{self.root}/crates/{edit.crate}/{part}"):
                shutil.copytree(f"{self.root}/crates/{edit.crate}/{part}", f"{room}/{edit.crate}/{part}")
        if kept:
            shutil.copytree(f"{kept}/kept", f"{room}/kept")
        else:
            os.makedirs(f"{room}/kept")
        return room

    def before(self, edit: Edit) -> str:
        """Checks the theorem of an edit as it is. The folder of this check, or nothing if the theorem is not proved."""
        room = self.made(edit, f"{edit.crate}-{edit.mutant.theorem.replace('::', '-')}")
        said = self.check(edit, room)
        if verdict_of(said, edit).said == THROUGH:
            return room
        if not re.search(TOLD % edit.mutant.theorem, said, re.MULTILINE):
            raise Fault(f"rattle ends without a verdict on {edit.mutant.theorem}; its last lines:", last_lines(said))
        return ""

    def tried_after(self, edit: Edit, before: "Future[str]") -> Verdict:
        """The verdict of an edit, after the check of its theorem as it is."""
        return self.tried(edit, before.result())

    def tried(self, edit: Edit, kept: str) -> Verdict:
        """The verdict of an edit."""
        text = edited(self.root, edit)
        if text is None:
            return Verdict(UNAPPLIED)
        if not kept:
            return Verdict(UNKNOWN)
        room = self.made(edit, f"{edit.crate}-{edit.mutant.name}", kept)
        try:
            with open(f"{room}/{edit.crate}/{edit.mutant.file}", "w", encoding="utf-8") as file:
                file.write(text)
            said = self.check(edit, room)
        finally:
            shutil.rmtree(room)
        return verdict_of(said, edit)


def last_lines(said: str) -> List[str]:
    """The last lines of what rattle printed."""
    return said.rstrip("\n").split("\n")[-12:]


def verdict_of(said: str, edit: Edit) -> Verdict:
    """The verdict on the theorem of an edit, with the first place that is not admitted."""
    wrong = WRONG.findall(said)
    place = f"{wrong[0][0]}:{wrong[0][1]}" if wrong else ""
    if any(file == edit.mutant.file for file, _, _ in wrong):
        return Verdict(UNREAD, place)
    told = re.search(TOLD % edit.mutant.theorem, said, re.MULTILINE)
    if told:
        return Verdict({"proved": THROUGH, "could not tell": UNKNOWN}.get(told[1], REFUSED), place)
    # (a run that is all proved does not list its functions)
    is_proved = re.search(CHECKED % edit.mutant.theorem, said, re.MULTILINE) and "only=1 proved=1" in said
    return Verdict(THROUGH if is_proved else UNKNOWN, place)


def verdicts(
    root: str, built: str, edits: Sequence[Edit], is_list: bool, at_once: int
) -> Iterator[Tuple[Edit, Verdict]]:
    """The edits with their verdicts, so many checked at once. A list has the stated verdicts, and tries none."""
    if is_list:
        for it in edits:
            yield it, Verdict(it.mutant.stated if edited(root, it) else UNAPPLIED)
        return
    with tempfile.TemporaryDirectory(prefix="try-mutants-") as folder, ThreadPoolExecutor(at_once) as pool:
        checks = Checks(root, built, folder)
        firsts = {(it.crate, it.mutant.theorem): it for it in edits}
        kept = {name: pool.submit(checks.before, it) for name, it in firsts.items()}
        tried = [pool.submit(checks.tried_after, it, kept[it.crate, it.mutant.theorem]) for it in edits]
        for it, one in zip(edits, tried):
            yield it, one.result()


def row(edit: Edit, verdict: Verdict) -> str:
    """A line of the table of verdicts."""
    note = f" (stated: {edit.mutant.stated})" if verdict.said != edit.mutant.stated else ""
    place = f" at `{verdict.place}`" if verdict.place else ""
    return f"| {edit.crate} | `{edit.mutant.theorem}` | {edit.mutant.name} | {verdict.said}{place}{note} |"
