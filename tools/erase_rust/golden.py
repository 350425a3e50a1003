"""Tries the tool on small inputs. Each file of `golden` has a case: files of Rattle, each below a line `//// FILE`. Below a line
`//// result` it has the files of Rust that they become, or the message with which the tool stops."""
import glob
import os
import re
import tempfile

from . import contracts
from .lexer import Stop
from .project import Project, write_files

CONFIG = "crate base\ncrate case as shown\ncrate more when extra\nmodule case guarded when extra\n"
MARK = re.compile(r"^//// (\S+)\n", re.M)


def files_of(text):
    """Returns the files of a text, as a dictionary from their names."""
    parts = MARK.split(text)
    return dict(zip(parts[1::2], parts[2::2]))


def result(files):
    """Returns what the tool makes of files: files of Rust below lines with their names, or a message."""
    with tempfile.TemporaryDirectory() as top:
        files = {"base/lib.rt": "", "more/lib.rt": "", "crates.conf": CONFIG, **files}
        contracts.DEFINED.clear()
        contracts.find_definitions(files.pop("DEFINITIONS.md", ""), "https://example.org/page")
        write_files(top, {"crates/" + name.replace("/", "/src/", 1) if re.match(r"(?!rust/)\w+/", name) else name: text for name, text in files.items()})
        try:
            made = Project(top, os.path.join(top, "crates.conf")).files()
        except Stop as error:
            return "%s\n" % error
        wanted = {name: text for name, text in made.items() if name != "mod.rs" and text.count("\n") > 2}
        return "".join("//// %s\n%s" % pair for pair in sorted(wanted.items()))


def run(writes):
    """Tries all cases, or writes their results; returns the status."""
    failed, paths = 0, sorted(glob.glob(os.path.join(os.path.dirname(os.path.abspath(__file__)), "golden", "*.txt")))
    for path in paths:
        with open(path, encoding="utf-8") as file:
            given, _, wanted = file.read().partition("//// result\n")
        found = result(files_of(given))
        if writes:
            with open(path, "w", encoding="utf-8") as file:
                file.write(given + "//// result\n" + found)
        elif found != wanted:
            failed += 1
            print("erase: %s has another result:\n%s" % (os.path.basename(path), found))
    print("%d passed, %d failed" % (len(paths) - failed, failed))
    return 1 if failed else 0
