"""Writes the manual page of the C library, man/goblin_mach.3.scd, from the comments of its header and from man/goblin_mach.3.in, for
tools/manual."""
import os
import re
import textwrap

TOP = os.path.dirname(os.path.dirname(os.path.abspath(__file__)))
PAGE = "man/goblin_mach.3.scd"
# A comment, or the head of a call: what it returns, its name, its parameters.
PART = re.compile(r"/\*(?P<comment>.*?)\*/|^(?:static inline )?(?P<type>(?:const )?\w+ \*?)(?P<name>gm_\w+)\((?P<parameters>[^;{]*?)\)[;\s{]", re.S | re.M)
CODES = re.compile(r"/\* (malformed bytes;.*?) \*/\nenum { GM_OK, (.*?) };", re.S)


def read(path):
    with open(os.path.join(TOP, path), encoding="utf-8") as file:
        return file.read()


def marked(text):
    """Returns a text of the header for scdoc: names of the library are bold, and those of fields and parameters are underlined."""
    text = text.replace("\\", "\\\\").replace("*", "\\*")
    text = re.sub(r"`(\w+)`", r"_\1_", text).replace("`", "")
    return re.sub(r"\b((?:GM|gm)_\w*\w)\b", r"*\1*", text)


def wrapped(text, indent=""):
    return textwrap.fill(text, 118, initial_indent=indent, subsequent_indent=indent, break_long_words=False, break_on_hyphens=False)


def first_sentence(comment):
    text = re.sub(r"^-+ ", "", " ".join(comment.split()))
    sentence = re.split(r"\. (?=[A-Z`*])", text, maxsplit=1)[0].rstrip(".")
    return sentence[0].upper() + sentence[1:] + "."


def head(part):
    """Returns the head of a call, with its parameters by their names."""
    names = [re.search(r"(\w+)$", it.strip())[1] for it in part["parameters"].split(",") if it.strip() != "void"]
    return "*%s%s*(%s)" % (part["type"].replace("*", "\\*"), part["name"], ", ".join("_%s_" % it for it in names))


def calls(header):
    """Returns each call, with the first sentence of the comment before it. Calls with one comment are one entry."""
    entries, comment = [], None
    for part in PART.finditer(header):
        if part["name"]:
            if comment is not None:
                entries.append((comment, []))
                comment = None
            entries[-1][1].append(head(part))
        elif header[part.start() - 1] == "\n":
            comment = part["comment"]
    return "\n\n".join("++\n".join(heads) + "\n" + wrapped(marked(first_sentence(comment)), "\t") for comment, heads in entries)


def codes(header):
    """Returns each code of an error with its meaning."""
    meanings, names = CODES.search(header).groups()
    pairs = zip(names.split(", "), " ".join(meanings.split()).split("; "), strict=True)
    return "\n\n".join("*%s*\n\t%s." % (name, marked(meaning[0].upper() + meaning[1:])) for name, meaning in pairs)


def paragraphs(comment):
    return "\n\n".join(wrapped(marked(" ".join(it.split()))) for it in re.split(r"\n\s*\n", comment.strip()))


def page():
    """Returns the page."""
    header = read("c/include/goblin_mach.h")
    memory = re.search(r"/\* (Memory for a call\..*?) \*/", header, re.S)[1]
    parts = {"ABOUT": paragraphs(PART.search(header)["comment"]), "CALLS": calls(header), "MEMORY": paragraphs(memory), "CODES": codes(header)}
    return re.sub(r"^@(\w+)@$", lambda it: parts[it[1]], read("man/goblin_mach.3.in"), flags=re.M)
