"""Examples in the documentation of the library. They are Rust, so that they are not in the sources, but in a file of their own."""
import os
import re

LIST = os.path.join("rust", "goblin_mach", "examples", "documentation.md")
HEAD = '# let bytes = std::fs::read("tests/data/%s.macho")?;'
IMAGE = "# let image = goblin_mach::MachO::parse(&bytes, 0)?;"
END = "# Ok::<(), Box<dyn std::error::Error>>(())"


class Examples:
    """The examples that a file has, by the type and the name of each method. `left` has those whose method was not met."""

    def __init__(self, top):
        path = os.path.join(top, LIST)
        text = open(path, encoding="utf-8").read() if os.path.exists(path) else ""
        found = re.findall(r"(?m)^## `(\w+)::(\w+)`(?: of (\w+))?\n\n```rust\n((?:[^`\n].*\n|\n)+)```$", text)
        self.left = {(owner, name): self._whole(owner, file or "b", code) for owner, name, file, code in found}

    @staticmethod
    def _whole(owner, file, code):
        """Returns the lines of an example, with those that open its file and that the documentation doesn't show."""
        hidden = [] if "let bytes" in code else [HEAD % file] + [IMAGE] * (owner == "MachO")
        return ["```", *hidden, *code.splitlines(), END, "```"]

    def insert(self, stream):
        """Writes the examples of a file's methods below their documentation."""
        for _, body, trait, owner in list(stream.impls()):
            for i in [i for i in stream.each("fn") if body < i < stream.close(body) and not trait]:
                lines = self.left.get((owner, stream.text(stream.next(i))))
                start, head = stream.item_start(i)
                if lines is None or stream.text(head) != "pub":
                    continue
                docs = [k for k in range(start, head) if stream.tokens[k].kind == "doc" and not stream.tokens[k].gone]
                at = stream.next(docs[-1])
                stream.tokens[at].before += "".join("///%s\n" % (" " + line if line else "") for line in [""] + lines)
                del self.left[owner, stream.text(stream.next(i))]
