"""Finds edits that take away a name that the proofs of their function cite, for tools/edits --fit.

In proof files `c.f` is the step of a call of `f`, `c.f-r` the same under `let r`, and `c.if-a-b` a test. An edit that drops the call, the variable or
the test takes the name away. Its answers are then refused for the name, and nothing is known of the contract.

If an edit changes the name of a goal or the number of exits, the prover has a goal that no answer is for. Such an edit isn't looked at, and neither
is a named one, which each gate tries. tools/lists/lost_names has the edits that something else refuses, NAME: WHAT."""
import functools
import os
import re

from stubs import lines_of

# (An answer cites a step of its argument, or of what an `elim` binds: c.STEP, w.STEP. Of an arm it may cite what the pattern binds.)
STEP = r"(?!args\b|requires\b|type_inv\b|ranges\b)[A-Za-z_][\w-]*"
BOUND = r"in[-_][\w-]*\.(?!is\b|ensures\b|was\b|result\b|new\b)[a-z]\w*\b(?!-)"
CITED = re.compile(rf"(?<![\w.])[cw]\.({BOUND}|{STEP})")
GOAL = re.compile(r"(?m)^pub [\w-]+ : goal\.([\w-]+?)(?:-clause-[\w-]+)?$")
CALL = r"\b{}!?(?:::<[^(]*?>)?\("
LET = re.compile(r"(?:\blet (?:mut )?|(?<=[;{}])\s*)([\w.*]+|\([\w, ]+\))(?:: [^=;]+)? [-+|&^*]?= ([^;{}]*);")
TEST = re.compile(r"(<=|>=|<|>|==|!=) (0x[0-9a-f_]+|[0-9_]+|[A-Z][A-Z0-9_]+)\b")
SIGNS = {"<": "lt", "<=": "le", ">": "gt", ">=": "ge", "==": "eq", "!=": "ne"}


def parts_of(text):
    """Returns the parts of a tuple, or an expression or a name alone."""
    parts = re.findall(r"(?:[^(),]|\((?:[^()]|\([^()]*\))*\))+", text[1:-1]) if re.fullmatch(r"\(.*\)", text, re.S) else []
    return [it.strip() for it in parts] if len(parts) > 1 else [text]


def last_call(text):
    """Returns the last call in an expression that isn't within the arguments of another, or None."""
    depth, found = 0, None
    for at, it in enumerate(text):
        head = re.compile(CALL.format(r"(\w+)")).match(text, at) if depth == 0 else None
        found = head[1] if head else found
        depth += (it in "([") - (it in ")]")
    return found


class Body:
    """What the names of steps are made of in a body: its words, calls, tests against constants, and which variable has the result of which call."""

    def __init__(self, text):
        text = re.sub(r"//.*", "", re.sub(r'"(?:[^"\\]|\\.)*"', '""', text))
        self.text, self.words, self.results = text, {*re.findall(r"\w+", text)} - {"in", "if", "else", "match", "loop"}, set()
        for name, value in LET.findall(text):
            self.results |= {(last_call(its), it.strip("*").split(".")[0]) for it, its in zip(parts_of(name), parts_of(value))}
        self.exits = len(re.findall(r"\breturn\b|\bbreak\b|\bcontinue\b", text))
        number = lambda it: f"-{it}" if it[0].isalpha() else str(int(it.replace("_", ""), 0))
        self.tests = {SIGNS[sign] + number(it) for sign, it in TEST.findall(text)}

    def gives(self, call, variable):
        """Returns whether the variable may have the result of the call. (A value with a block isn't read.)"""
        is_set = re.search(rf"\b{variable}\b[\w., ]*\)?(?:: [^=;]+)? [-+|&^*]?= ", self.text)
        return (call, variable) in self.results or bool(is_set) and all(it != variable for _, it in self.results)


def is_lost(name, old, new):
    """Returns whether the old body has the step or the goal of this name and the new one doesn't, as far as that is sure."""
    parts = re.split("[-.]", re.sub(r"^(?:in_ok|in_err|from_residual|if|loop)-", "", name))
    if any(it in old.words and it not in new.words for it in parts) or any(name.endswith(f"-{it}") for it in old.tests - new.tests):
        return True
    return tuple(parts[:2]) in old.results and not new.gives(*parts[:2])


def lost(names, old, new):
    """Returns the names of steps that a body loses: those of which a part is lost, and of calls of which more have names than are left."""
    named = {}
    for it in names:
        named.setdefault(it.split("-")[0], set()).add(it)
    count = lambda it, body: len(re.findall(CALL.format(it), body.text))
    fewer = {it for it, own in named.items() if count(it, new) < len(own) <= count(it, old)}
    return sorted(it for it in names if it.split("-")[0] in fewer or is_lost(it, old, new))


@functools.cache
def proof_files(crate_folder):
    """Returns the proof files of a crate's functions, by the folder of each."""
    found = {}
    for at, _, names in os.walk(f"{crate_folder}/proofs"):
        found[os.path.relpath(at, f"{crate_folder}/proofs")] = [f"{at}/{it}" for it in names if it.endswith(".antt")]
    return found


def proofs_of(crate, name):
    """Returns the text of the proof files of a function."""
    # (A method is in the module of its type, whatever file has it.)
    found, path = proof_files(crate.folder), name.replace("::", "/")
    near = [it for it in found if it.split("/")[-2:] == path.split("/")[-2:]]
    files = found.get(path) or (found[near[0]] if len(near) == 1 else [])
    return "\n".join(re.sub(r"--.*", "", line) for file in files for line in lines_of(file))


def lost_by(edit):
    """Returns the names that an edit takes from the proofs of its function."""
    body = edit.pieces[0].body
    if not edit.stands_alone() or os.path.basename(os.path.dirname(edit.file)) == "named":
        return []
    new = old = "\n".join(lines_of(f"{edit.crate.folder}/{edit.pieces[0].path}")[body.opens + 1 : body.end])
    for it in edit.pieces:
        new = new.replace(it.old.rstrip("\n"), it.new)
    old, new, proofs = Body(old), Body(new), proofs_of(edit.crate, edit.pieces[0].name)
    if old.exits != new.exits or any(is_lost(it, old, new) for it in GOAL.findall(proofs)):
        return []
    return lost({*CITED.findall(proofs)}, old, new)


def faults(edits):
    """Prints which of the edits lose names and aren't listed, and which are listed and lose none, and returns how many these are."""
    with open("tools/lists/lost_names", encoding="utf-8") as it:
        listed = {line.partition(": ")[0] for line in it if not line.startswith("#")}
    found = {it.label: lost_by(it) for it in edits}
    wrong = [it for it, names in found.items() if bool(names) != (it in listed)]
    for it in wrong:
        print(f"{it}: LOSES NAMES that proofs cite: {' '.join(found[it])}" if found[it] else f"{it}: loses no name, and is in tools/lists/lost_names")
    return len(wrong)
