"""Runs a reader in a process of its own, and compares what it says with the answer of a vector."""
import itertools
import re
import signal
import subprocess
import tempfile

# A reader has 10 seconds of a processor and 4 GB, and a minute if the machine is busy. It prints at most 16 MB.
LIMITS = ["prlimit", "--cpu=10", "--core=0", f"--as={4 << 30}", f"--fsize={16 << 20}"]
SECONDS = 60
KINDS = ("alike", "refuses", "answers", "otherwise", "crashes", "endless")


class Said:
    """What a reader says of a vector: lines as those of an answer, and its own message if it refuses. `end` says how a process ended, if it
    didn't end well."""

    def __init__(self, lines=(), message="", end=""):
        self.lines, self.message, self.end = list(lines), message, end


class Ran:
    """A process that has ended: what it printed, and how it ended."""

    def __init__(self, words):
        self.end, self.text, self.message = "", "", ""
        with tempfile.TemporaryFile() as out:
            try:
                ran = subprocess.run([*LIMITS, *words], stdin=subprocess.DEVNULL, stdout=out, stderr=subprocess.PIPE, timeout=SECONDS, check=False)
            except subprocess.TimeoutExpired:
                self.end = "endless"
                return
            out.seek(0)
            self.text, said = out.read().decode("latin-1"), ran.stderr.decode("latin-1").strip()
        self.message = (said or f"status {ran.returncode}") if ran.returncode else said if "warning:" in said or "error:" in said else ""
        if -ran.returncode in (signal.SIGXCPU, signal.SIGKILL, signal.SIGXFSZ):
            self.end = "endless"
        elif ran.returncode < 0 or ran.returncode > 100 or "Stack dump:" in said:
            self.end = "crashes"


def quoted(name):
    """Returns a name with the quotes and escapes of an answer. The name is a text whose letters are bytes."""
    return '"' + re.sub(r'[^ -~]|["\\]', lambda found: f"\\x{ord(found[0]):02x}", name) + '"'


def is_error(line):
    return line.startswith("error")


def reduced(lines, left_out):
    """Returns lines without what a reader doesn't show, and errors without their kind."""
    return ["error" if is_error(line) else re.sub(left_out, "", line) for line in lines]


def is_refusal(vector):
    """Returns whether the answer has an error."""
    return any(is_error(line) for line in vector.want or (*vector.first, *vector.last))


def is_same(vector, lines, left_out):
    """Returns whether lines are the wanted answer, except for what is left out."""
    lines = reduced(lines, left_out)
    if vector.want:
        return lines == reduced(vector.want, left_out)
    first, last = reduced(vector.first, left_out), reduced(vector.last, left_out)
    return len(lines) == vector.count and lines[:len(first)] == first and lines[len(lines) - len(last):] == last


def before_error(lines):
    return list(itertools.takewhile(lambda line: not is_error(line), lines))


def begins_alike(vector, lines, left_out):
    """Returns whether the items up to an error are those of the answer, as far as both have some."""
    wanted, got = before_error(reduced(vector.want or vector.first, left_out)), before_error(reduced(lines, left_out))
    return all(one == other for one, other in zip(wanted, got))


def kind(vector, said, left_out=""):
    """Returns how a reader's answer differs: one of KINDS."""
    if said.end:
        return said.end
    if is_same(vector, said.lines, left_out):
        return "alike"
    wanted, got = is_refusal(vector), any(is_error(line) for line in said.lines)
    if wanted != got:
        return "refuses" if got else "answers"
    return "alike" if wanted and begins_alike(vector, said.lines, left_out) else "otherwise"
