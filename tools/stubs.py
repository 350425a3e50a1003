"""Tries edits of function bodies between stubs, for tools/edits.

In a copy of the crate each function is a stub: its body is `unreachable!()`, and its proof is one hole over its statement. What an edited body calls
then counts by its contract alone, and isn't proved again. The edited body goes into a copy of its function, next to the stub of that function, with
copies of its proof files. One check loads the libraries once, and tries many edits. A method of a trait can have no other name, and is edited in its
own place.

Two things are trusted. Rattle takes a declaration with a hole by its signature: a stub gives its callers its statement and nothing else. And a proof
doesn't depend on the name of its function. `tools/edits --control` shows that for each function that has an edit.

An edit is refused only by the line on its own body. Either `search` did not prove a goal of it, or it rests on an answer of its own that antt finds
to be of another type. All else leaves the edit open: an error of names, a call of what isn't proved, a hole, a proof, and any error outside the
proofs of the edited bodies."""
import contextlib
import json
import os
import re
import shutil
import subprocess
import tempfile

# The most edited bodies that one check has: each takes memory until the check ends.
BODIES = 16
STUB = "unreachable!()"
HOLE = """use Rattle.{module}.Statement as stated

pub {name}_spec : {{M : Type 1}} → stated.statement M
{name}_spec = ?
"""
PROOF_FILES = ("Invariants.antt", "Answers.antt", "Proof.antt")


def lines_of(file):
    with open(file, encoding="utf-8") as it:
        return it.read().split("\n")


def write(file, text):
    os.makedirs(os.path.dirname(file), exist_ok=True)
    with open(file, "w", encoding="utf-8") as it:
        it.write(text)


def last_of(path):
    return path.split("::")[-1]


def file_of(path):
    return path.replace("::", "/")


def module_of(file):
    """Returns the module of a source file, or None for the root and for files of specs/ and proofs/."""
    found = re.fullmatch(r"src/(.+?)(/mod)?\.rt", file)
    return found[1].replace("/", "::") if found and found[1] not in ("lib", "main") else None


class Body:
    """A function with a body, by rows of its file: the first attribute or comment above it, its head, and the braces that open and end its body."""

    HEAD = re.compile(r"( *)(?:[a-z]+(?:\([a-z ]+\))? |\"C\" )*fn (\w+)")
    BLOCK = re.compile(r"(?:pub(?:\([a-z ]+\))? )?(?:unsafe )?(impl|trait|mod|macro_rules)\b[ !]*(\w*)")

    def __init__(self, lines, head, opens, end):
        self.head, self.opens, self.end = head, opens, end
        self.indent, self.name = self.HEAD.match(lines[head]).groups()
        self.top = head
        while self.top and lines[self.top - 1].lstrip().startswith(("#[", "//")):
            self.top -= 1
        self.is_of_cycle = any(it.lstrip().startswith("#[cycle(") for it in lines[self.top : head])
        block = self.block_head(lines) if self.indent else ""
        self.trait = block.split()[-1] if block.startswith("trait ") else None
        # (A method of a trait can have no copy under another name, and an attribute of several lines isn't read.)
        is_whole = not lines[self.top - 1].rstrip().endswith("]")
        self.can_be_copied = is_whole and (not block or block.startswith("impl") and len(self.indent) == 4 and " for " not in block)

    def block_head(self, lines):
        """Returns the head of the block around the function: all of it for an impl, and the word and the name for another block."""
        first = next((row for row in range(self.head, -1, -1) if self.BLOCK.match(lines[row])), self.head)
        found = self.BLOCK.match(lines[first])
        if not found or found[1] != "impl":
            return f"{found[1]} {found[2]}" if found else "no block"
        last = next(row for row in range(first, self.head + 1) if row == self.head or lines[row].endswith("{"))
        return "impl " + " ".join(lines[first : last + 1])

    @classmethod
    def all_in(cls, lines):
        row = 0
        while row < len(lines):
            body = cls.at(lines, row)
            if body:
                yield body
            row = body.end + 1 if body else row + 1

    @classmethod
    def at(cls, lines, head):
        """Returns the function whose head is in that row, if it has a body of lines of its own. It ends with the first closing brace that is indented
        like the head."""
        found = cls.HEAD.match(lines[head])
        if not found:
            return None
        indent = found[1]
        end = next((row for row in range(head + 1, len(lines)) if lines[row] == indent + "}"), head)
        is_open = lambda row: lines[row].endswith("{") and (row == head or lines[row] == indent + "{" or lines[row].startswith(indent + ")"))
        # (A clause may have a line that ends with a semicolon. It goes on in the next one, which is indented deeper than the head.)
        ends = lambda row: lines[row].endswith(";") and not lines[row + 1].startswith(indent + " ")
        is_none = lambda row: ends(row) or lines[row].endswith("{}") or row == head and lines[row].endswith("}")
        opens = next((row for row in range(head, end) if is_none(row) or is_open(row)), None)
        return None if opens is None or is_none(opens) else cls(lines, head, opens, end)

    def stub(self, lines):
        if self.is_of_cycle or self.end == self.opens + 1:
            return lines[self.top : self.end + 1]
        return [*lines[self.top : self.opens + 1], f"{self.indent}    {STUB}", f"{self.indent}}}"]


class Trial:
    """An edit of one body, in a copy of its function or in the function itself. `asked` is the path of the function that the check judges."""

    def __init__(self, edit, function, body, lines):
        self.edit, self.function, self.asked = edit, function, function
        self.path, self.row = edit.pieces[0].path, body.head
        self.is_copy = body.can_be_copied and can_be_renamed(edit.crate, function)
        self.right_text = self.text = "\n".join(lines[body.top : body.end + 1])
        self.called = {*re.findall(r"\b(\w+)(?:::<[^(]*>)?\(", "\n".join(lines[body.opens + 1 : body.end]))}

    def apply(self):
        """Puts the edit into the text, and returns whether it fits."""
        for it in self.edit.pieces:
            if self.text.count(it.old) != 1:
                return False
            self.text = self.text.replace(it.old, it.new)
        return True

    def rename(self, number):
        """Gives a copy a name that no function of the crate has."""
        self.asked = f"{self.function}_wrong{number}" if self.is_copy else self.function

    def renamed_text(self):
        return re.sub(rf"\bfn {last_of(self.function)}\b", f"fn {last_of(self.asked)}", self.text, count=1)


def can_be_renamed(crate, function):
    """Returns whether the function has no proof files except those in which its name is known."""
    folder = f"{crate.folder}/proofs/{file_of(function)}"
    return not os.path.exists(f"{folder}.antt") and (not os.path.isdir(folder) or {*os.listdir(folder)} <= {*PROOF_FILES[:2]})


def names_of(crate, said_file):
    """Returns the paths of the crate's functions, without the crate's name, from its rlib. If it has no rlib, they come from the lines
    `fn NAME: proved` of the file. What rattle makes itself (with a +) and constants are left out."""
    found = []
    with contextlib.suppress(OSError, ValueError, TypeError, IndexError):
        with open(f"{crate.rlib}/toolchain/mir.json", encoding="utf-8") as it:
            found = [name for name, *_ in json.load(it)]
    if not found and said_file:
        with open(said_file, encoding="utf-8", errors="replace") as it:
            found = re.findall(r"(?m)^fn (\S+): proved", it.read())
    own = [it.partition("::")[2] for it in found if it.startswith(f"{crate.name}::")]
    return [it for it in dict.fromkeys(own) if "+" not in it and not last_of(it).isupper()]


def function_of(edit, body, names):
    """Returns the path of the function of an edit, or None if the text leaves it open. (A method is in the module of its type, whatever file has it.)"""
    piece = edit.pieces[0]
    module = f"{module_of(piece.path) or ''}::".removeprefix("::")
    near = [it for it in names if it.startswith(module) and last_of(it) == piece.function]
    exact = [it for it in near if it == (f"{module}{body.trait}::{body.name}" if body.trait else piece.name)]
    typed = [it for it in near if piece.type and re.search(rf"(^|::)\w*{piece.type}\w*::", it)]
    far = [it for it in names if piece.type and f"::{it}".endswith("::" + piece.name.removeprefix(module))]
    return next((it[0] for it in (exact, near, typed, far) if len(it) == 1), None)


def trial_of(edit, names):
    """Returns the trial of an edit, or None if the edit isn't within one body whose function is known."""
    body = edit.pieces[0].body
    if not edit.stands_alone() or len({it.path for it in edit.pieces}) != 1 or body.is_of_cycle:
        return None
    function = function_of(edit, body, names)
    trial = function and Trial(edit, function, body, lines_of(f"{edit.crate.folder}/{edit.pieces[0].path}"))
    return trial if trial and trial.apply() else None


def trials_of(edits, names):
    """Returns the trials of those edits of one crate that can have one. There are none if no edited body calls a function of its crate."""
    trials = [it for it in (trial_of(it, names) for it in edits) if it]
    own = {last_of(it) for it in names}
    return trials if any(it.called & own for it in trials) else []


def controls_of(edits, names):
    """Returns a trial with nothing edited for each function that has an edit."""
    trials = {it.function: it for it in (trial_of(it, names) for it in edits) if it}
    for it in trials.values():
        it.text = it.right_text
    return [*trials.values()]


def in_parts(trials):
    """Returns the trials of one crate in parts, each for one check. A function that is edited in its own place is only once in a part."""
    most = -(-len(trials) // max(1, -(-len(trials) // BODIES)))
    parts = []
    for trial in trials:
        fits = (it for it in parts if len(it) < most and (trial.is_copy or all(other.function != trial.function for other in it)))
        part = next(fits, None)
        if part is None:
            parts.append([trial])
        else:
            part.append(trial)
    return parts


def write_bodies(room, trials):
    """Turns each body in the room's sources into a stub, except those that are edited in their own places, and adds the copies. Returns the names
    of members of cycles, which have no stub."""
    of_cycles = set()
    for at, _, files in os.walk(f"{room}/src"):
        for file in (f"{at}/{it}" for it in files if it.endswith(".rt")):
            here = [it for it in trials if it.path == os.path.relpath(file, room)]
            lines, made, last = lines_of(file), [], 0
            for body in Body.all_in(lines):
                of_body = [it for it in here if it.row == body.head]
                in_place = [it.text for it in of_body if not it.is_copy]
                made += [*lines[last : body.top], *(in_place or body.stub(lines))]
                made += [it for trial in of_body if trial.is_copy for it in ("", trial.renamed_text())]
                last = body.end + 1
                of_cycles |= {body.name} if body.is_of_cycle else set()
            write(file, "\n".join([*made, *lines[last:]]))
    return of_cycles


def write_proofs(crate, room, trials, stubs):
    """Replaces each stub's proof by a hole, and gives each copy the proof files of its function under its own name."""
    for trial in (it for it in trials if it.is_copy):
        own = f"{room}/proofs/{file_of(trial.function)}"
        named = rf"(?<=\.){re.escape(trial.function.replace('::', '.'))}(?![\w-])"
        for name in os.listdir(own) if os.path.isdir(own) else []:
            text = re.sub(named, trial.asked.replace("::", "."), "\n".join(lines_of(f"{own}/{name}")))
            write(f"{room}/proofs/{file_of(trial.asked)}/{name}", text)
    for stub in stubs:
        folder = f"{room}/proofs/{file_of(stub)}"
        for name in PROOF_FILES:
            with contextlib.suppress(FileNotFoundError):
                os.remove(f"{folder}/{name}")
        module = f"{crate.name}.proofs.{stub.replace('::', '.')}"
        write(f"{folder}/Proof.antt", HOLE.format(module=module, name=last_of(stub)))


def check(rt, crate, trials, names):
    """Returns the status and the lines of one check of some bodies between stubs."""
    for number, trial in enumerate(trials):
        trial.rename(number)
    with tempfile.TemporaryDirectory(prefix="edit-") as room:
        for part in rt.rtlib.PARTS:
            if os.path.isdir(f"{crate.folder}/{part}"):
                shutil.copytree(f"{crate.folder}/{part}", f"{room}/{part}")
        of_cycles = write_bodies(room, trials)
        in_place = {it.function for it in trials if not it.is_copy}
        write_proofs(crate, room, trials, [it for it in names if it not in in_place and last_of(it) not in of_cycles])
        words = [rt.rtlib.RATTLE, "check", *crate.words(["--jobs", "1"], keeps=False), "--allow-holes"]
        words += [it for trial in trials for it in ("--only", trial.asked)]
        how = {"cwd": room, "stdin": subprocess.DEVNULL, "stdout": subprocess.PIPE, "stderr": subprocess.STDOUT, "errors": "replace"}
        ran = subprocess.run([*rt.rtlib.guarded(), *words], **how)
    return ran.returncode, ran.stdout.rstrip("\n").split("\n")


# antt's messages about an answer of another type than its goal, and about one with an unknown name.
OTHER_TYPE = re.compile(
    r"the two types (?:first differ|differ|are) |expected type `|does not follow from what it read|is a declared record, built with"
    r"|no occurrence of the path's|computed as a goal is, one side reads "
)
UNKNOWN_NAME = re.compile(r"is not in scope|has no |is no name|can be named|nearest:|depends? on|expected the end|cannot continue|operand is missing")


def is_of_lost_name(error):
    return bool(UNKNOWN_NAME.search(error)) and not OTHER_TYPE.search(error)


class Said:
    """What one check says of some bodies between stubs."""

    NOT_PROVED = re.compile(r"not proved|no proof")
    ONLY_ITS_CALL = re.compile(r"(?:not proved|no proof)[;:] it (?:calls|passes)")
    ERROR = re.compile(r"(?:\./)?(\S+?):\d+:\d+: error: ")

    def __init__(self, rt, crate, trials, names):
        status, self.lines = check(rt, crate, trials, names)
        self.crate = crate.name
        refused = [it[1] for it in map(self.ERROR.match, self.lines) if it]
        ended = status in (0, 1) and re.match(r"only=\d+ holes=\d+", self.lines[-1])
        self.is_over = bool(ended) and not any(it.startswith("src/") for it in refused)
        # (An error elsewhere can be the reason why a body isn't proved.)
        own = tuple(f"proofs/{file_of(it.asked)}/" for it in trials)
        self.is_clean = self.is_over and all(it.startswith(own) for it in refused) and not rt.rtlib.STALE.search("\n".join(self.lines))

    def line_on(self, trial):
        head = f"fn {self.crate}::{trial.asked}: "
        found = [it[len(head) :] for it in self.lines if it.startswith(head)]
        return found[0] if len(found) == 1 else ""

    def proves(self, trial):
        return self.is_clean and bool(re.match(r"no holes|depends on a hole", self.line_on(trial)))

    def refuses(self, trial):
        line = self.line_on(trial)
        if not self.is_clean or not self.NOT_PROVED.match(line):
            return False
        return "`search` did not prove `" in line or any(self.is_of_another_type(trial, it) for it in self.answers_refused(trial, line))

    def hides(self, trial, trials):
        """Returns whether the line on a body says only that it calls a function that isn't proved, since another trial edits that in its own place."""
        line = self.line_on(trial)
        in_place = [f"`{self.crate}::{it.function}`" for it in trials if not it.is_copy and it is not trial]
        return bool(self.ONLY_ITS_CALL.match(line)) and any(it in line for it in in_place)

    def answers_refused(self, trial, line):
        """Returns those of the trial's own answers that it rests on and that antt refuses."""
        rests_on = re.search(r"it stands on (.*?), which antt refuses", line)
        own = f"Rattle.{self.crate}.proofs.{trial.asked.replace('::', '.')}.Answers."
        return [it[len(own) :] for it in re.findall(r"`([^`]+)`", rests_on[1] if rests_on else "") if it.startswith(own)]

    def is_of_another_type(self, trial, answer):
        place = rf"(?:\./)?proofs/{re.escape(file_of(trial.asked))}/Answers\.antt:\d+:\d+: error: `{re.escape(answer)}`: (.*)"
        errors = [it[1] for it in (re.match(place, line) for line in self.lines) if it]
        return any(map(OTHER_TYPE.search, errors)) and not any(map(UNKNOWN_NAME.search, errors))


def refused(rt, trials, names):
    """Returns the edits that checks between stubs refuse. If a check ends without a verdict, as after an edit that doesn't compile, its halves are
    checked."""
    said = Said(rt, trials[0].edit.crate, trials, names)
    if not said.is_over and len(trials) > 1:
        half = len(trials) // 2
        return refused(rt, trials[:half], names) | refused(rt, trials[half:], names)
    found = {it.edit for it in trials if said.refuses(it)}
    # (A caller of a function that is edited in its own place is tried again, next to the stub of that function.)
    hidden = [it for it in trials if said.hides(it, trials)]
    again = hidden if len(hidden) < len(trials) else []
    for it in trials:
        if it.edit not in found and it not in again:
            print(f"    {it.edit.label}: left open between stubs: {(said.line_on(it) or said.lines[-1])[:160]}", flush=True)
    return found | (refused(rt, again, names) if again else set())


def control(rt, trials, names):
    """Returns for each function of some controls whether its right body is proved between stubs, and the line to print."""
    said, crate = Said(rt, trials[0].edit.crate, trials, names), trials[0].edit.crate.name
    given = []
    for it in trials:
        well = said.proves(it)
        end = "proved between stubs, as it must be" if well else f"NOT PROVED between stubs, with nothing edited: {said.line_on(it)[:200]}"
        given.append((well, f"{crate}/{it.function}: {end}"))
    return given
