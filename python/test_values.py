"""Tests of what a caller needs first, by values of the repository's images: items as JSON, the fields of load commands, segments and
sections by their names, what isn't Mach-O, and the command `goblin-mach`."""

import contextlib
import io
import itertools
import json
import os
import random
import re
import struct
import unittest

import goblin_mach
import test_goblin_mach as made
from goblin_mach import LoadCommand, Refused, __main__
from goblin_mach._fields import MOST, fields_of
from goblin_mach._item import Item
from records import FIELDS
from records import fields_of as read_again

TOP = os.path.dirname(made.HERE)
BYTES_OF = {"text": "I", "uuid": "16s"}


def sample(program, name):
    return os.path.join(TOP, "crates", program, "data", name)


SIGNED = sample("machsign", "signed.macho")
CHAINS = sample("machfixups", "chains.macho")
OBJECTS = sample("machsyms", "objects.macho")
LIBRARY = sample("machresolve", "l.macho")
SAMPLES = sorted(os.path.join(folder, name) for folder, _, names in os.walk(os.path.join(TOP, "crates")) for name in names if name.endswith(".macho"))
COMMANDS = os.path.join(TOP, "crates/machinfo/rows/commands.image")


def image_of(path):
    return goblin_mach.open(path)[0]


def until_refused(items):
    try:
        yield from items
    except Refused:
        pass


def version(number):
    return f"{number >> 16}.{number >> 8 & 255}.{number & 255}"


def source_version(number):
    return ".".join(str(number >> shift & mask) for shift, mask in ((40, 0xFFFFFF), (30, 1023), (20, 1023), (10, 1023), (0, 1023)))


class Json(unittest.TestCase):
    """Each item of each list of each sample is JSON, and its fields are back."""

    LISTS = ("commands", "segments", "sections", "libraries", "fixups", "imports", "opcode_imports", "exports", "weak_binds", "rebases", "layout_faults",
             "function_starts", "linker_options", "build_tools", "notes", "symbol_slots", "initializers", "signature_faults",
             "build_versions", "dyld_environment", "fileset_entries")

    def test_of_each_item(self):
        met = set()
        for path in [*SAMPLES, COMMANDS]:
            for image in goblin_mach.open(path):
                lists = [getattr(image, name)() for name in self.LISTS]
                tables = [image.symbols(), image.data_in_code(), image.indirect_symbols()]
                for item in itertools.chain(*map(until_refused, lists), *(table.in_bounds() for table in tables)):
                    back = json.loads(json.dumps(item.to_dict()))
                    self.assertEqual(json.loads(item.json()), back)
                    self.assertEqual(set(item._fields) - set(back), set())
                    met.add(type(item).__name__)
                self.assertEqual(json.loads(image.json())["arch"], image.arch)
        kinds = {name for name, item in vars(goblin_mach).items() if isinstance(item, type) and issubclass(item, Item)}
        self.assertEqual(kinds - met, {"FatEntry", "Member", "ArchiveSymbol", "Owner", "NumberedSection", "SymbolProvider", "Relocation",
                                       "SignatureFault", "Item", "Encryption", "FoundSymbol", "Function", "Initializer",
                                       "SectionString", "Answer", "UnusedFile", "Finding"})

    def test_names_and_bytes(self):
        one = goblin_mach.Image(made.with_symbols(b"_b\xff"))
        self.assertEqual(json.loads(one.symbols()[0].json())["name"], "_b\udcff")
        segment = image_of(SIGNED).segment("__TEXT").to_dict()
        self.assertEqual((segment["name"], segment["data"][:8], len(segment["data"])), ("__TEXT", "cffaedfe", 2 * 0x4000))
        fault = goblin_mach.LayoutFault("r", goblin_mach.Owner("part", 1, 2), 3, 4, None)
        self.assertEqual(fault.to_dict()["owner"], {"part": "part", "command": 1, "index": 2})
        self.assertEqual([each.to_dict()["name"] for each in goblin_mach.open(OBJECTS)[0].segments()], [None])
        nameless = goblin_mach.Section("", "__T", 0, 0, 0, 0, 0, 0, 0, memoryview(b""), None).to_dict()
        self.assertEqual((nameless["name"], nameless["segment"]), (None, "__T"))
        entry = goblin_mach.fat_entries(open_bytes(OBJECTS))[0].to_dict()
        self.assertEqual((entry["cputype"], entry["offset"], entry["error"]), (0x01000007, 0x50, None))

    def test_of_a_signature(self):
        said = json.loads(image_of(SIGNED).signature.json())
        self.assertEqual((said["identifier"], said["cdhash"], said["flags"]), ("libanswer.dylib", "e5c637506db686803b79a8344ffe86b79740bd95", 0x20002))

    def test_of_an_entry_that_is_cut_off(self):
        """Tests the words of a file that lost its end, and of one that ends in its table."""
        data = open_bytes(OBJECTS)
        entries = list(goblin_mach.fat_entries(data))
        last = len(entries) - 1
        cut = data[:entries[last].offset + entries[last].size - 1]
        words = f"entry {last} is out of the file: it ends at {len(cut) + 1:#x}, the file at {len(cut):#x}"
        image = list(goblin_mach.parse(cut))[last]
        self.assertEqual((image.error.code, str(image.error), goblin_mach.fat_entries(cut)[last].error), (goblin_mach.ErrorCode.SHORT, words, words))
        self.assertEqual([each.error for each in goblin_mach.fat_entries(data[:40])], [
            f"entry 0 is out of the file: it ends at {entries[0].offset + entries[0].size:#x}, the file at 0x28",
            "the file ends in the record of entry 1"])
        far = struct.pack(">4I2Q2I", 0xCAFEBABF, 1, 0x01000007, 3, (1 << 64) - 1, 2, 0, 0)
        self.assertEqual(goblin_mach.fat_entries(far)[0].error, "entry 0 is out of the file: it ends at 0xffffffffffffffff, the file at 0x28")

    def test_of_addresses_of_exports(self):
        """Tests that an export's address is one: the base plus its offset, but for an absolute one."""
        trie = b"\0\3a\0\x0bb\0\x0fc\0\x13" + b"\2\0\x10\0" + b"\2\2\x20\0" + b"\3\x10\x30\x40\0"
        image = goblin_mach.Image(made.image(made.segment(b"__TEXT"), made.command(0x22, struct.pack("<10I", *8 * [0], 32 + 72 + 48, len(trie))),
                                             behind=trie))
        vmaddr = image.segment("__TEXT").vmaddr
        self.assertEqual((image.base, image.to_dict()["base"]), (vmaddr, vmaddr))
        found = {each.name: each for each in image.exports()}
        self.assertEqual({name: (each.address, each.offset, each.resolver) for name, each in found.items()},
                         {"a": (vmaddr + 0x10, 0x10, None), "b": (0x20, 0x20, None), "c": (vmaddr + 0x30, 0x30, vmaddr + 0x40)})
        self.assertEqual([image.find_export(name) for name in "abc"], [found[name] for name in "abc"])
        renamed = next(each for each in image_of(LIBRARY).exports() if each.kind == "re-export")
        self.assertEqual((renamed.address, renamed.offset, renamed.resolver), (None, None, None))

    def test_of_an_image_that_is_refused(self):
        (_, bad), = goblin_mach.parse(made.fat(bytes(64))).images()
        self.assertEqual((bad.to_dict()["arch"], bad.to_dict()["error"]), ("x86_64", str(bad.error)))


def open_bytes(path):
    with open(path, "rb") as file:
        return file.read()


class Commands(unittest.TestCase):
    def test_have_the_fields_that_machinfo_prints(self):
        """Tests an image with a command of each of the 54 kinds. Its commands must be as `machinfo --json commands` prints them."""
        with open(os.path.join(TOP, "crates/machinfo/rows/commands.rows"), encoding="utf-8") as file:
            rows = json.loads(re.search(r"^json /images/0/commands '(.*)'$", file.read(), re.M).group(1))
        wanted = [row for row in rows if "cmd" in row]
        found = list(image_of(COMMANDS).commands())
        self.assertEqual(len(found), len(wanted))
        met = set()
        for command, row in zip(found, wanted):
            head = {"command_offset": command.offset, "cmdsize": command.size, "cmd": command.cmd}
            self.assertEqual(head, {name: row[name] for name in head})
            fields = command.fields
            for name in fields:
                if name in ("minos", "sdk", "current_version", "compatibility_version") or name == "version" and command.load_command.name[:7] == "VERSION":
                    fields[name] = version(fields[name])
            if command.load_command is LoadCommand.SOURCE_VERSION:
                fields["version"] = source_version(fields["version"])
            if "uuid" in fields:
                fields["uuid"] = str(fields["uuid"]).upper()
            self.assertEqual(fields, {name: value for name, value in row.items() if name not in {"number", "command", *head}}, row)
            met.add(command.cmd)
        self.assertEqual(len(met & set(FIELDS)), 54)
        self.assertEqual({LoadCommand(number).name for number in set(FIELDS) - met},
                         {"ATOM_INFO", "FUNCTION_VARIANTS", "FUNCTION_VARIANT_FIXUPS", "TARGET_TRIPLE"})
        self.assertEqual(set(FIELDS), set(map(int, LoadCommand)))

    def test_of_samples(self):
        commands = {command.load_command.name: command.fields for command in image_of(SIGNED).commands()}
        self.assertEqual(commands["ID_DYLIB"], {"name": "libanswer.dylib", "name_offset": 24, "timestamp": 0, "current_version": 0, "compatibility_version": 0})
        self.assertEqual(commands["SEGMENT_64"]["segname"], "__LINKEDIT")
        self.assertEqual(commands["BUILD_VERSION"], {"platform": 1, "minos": 0xB0000, "sdk": 0xB0000, "ntools": 1})
        self.assertEqual(commands["CODE_SIGNATURE"], {"dataoff": 0x4040, "datasize": 0x120})

    def is_as_read_again(self, number, data):
        self.assertEqual(list(fields_of(number, data).items()), list(read_again(number, data).items()))

    def test_of_all_samples_as_read_again(self):
        for path in [*SAMPLES, COMMANDS]:
            for _, image in goblin_mach.open(path).images():
                for command in until_refused(image.commands()):
                    self.is_as_read_again(command.cmd, command.data)

    def test_of_any_bytes_as_read_again(self):
        chance = random.Random(25)
        for number in FIELDS:
            for order in ("little", "big"):
                for _ in range(20):
                    body = number.to_bytes(4, order) + bytes(chance.choice((0, 0, 0, 1, 8, 24, 0x2F, 0xFF)) for _ in range(chance.randrange(120)))
                    self.is_as_read_again(number, memoryview(body))

    def test_no_command_has_more_fields(self):
        self.assertEqual(max(map(len, FIELDS.values())), MOST)

    def test_of_every_length_and_order(self):
        for number, fields in FIELDS.items():
            size = 8 + sum(struct.calcsize("<" + BYTES_OF.get(kind, kind)) for _, kind in fields)
            for order, letter in (("little", "<"), ("big", ">")):
                body = struct.pack(letter + "2I", number, size) + bytes((7, 0, 0, 0)[:: 1 if letter == "<" else -1]) * ((size - 8) // 4)
                for length in range(size + 1):
                    self.is_as_read_again(number, memoryview(body[:length]))
                counts = [len(fields_of(number, memoryview(body[:length]))) for length in range(size + 1)]
                self.assertEqual(counts, sorted(counts), order)
                self.assertEqual(counts[-1], sum(2 if kind == "text" else 1 for _, kind in fields))
                whole = fields_of(number, memoryview(body))
                self.assertEqual({whole[name] for name, kind in fields if kind == "I"} - {7}, set())
        self.assertEqual(fields_of(0x99, memoryview(bytes(64))), {})
        self.assertEqual(fields_of(0xE, memoryview(struct.pack("<3I", 0xE, 12, 12))), {"name": None, "name_offset": 12})
        self.assertEqual(fields_of(0xE, memoryview(struct.pack(">3I", 0xE, 16, 12) + b"/\xff\0x")), {"name": "/\udcff", "name_offset": 12})


class Parts(unittest.TestCase):
    def test_segments_and_sections_by_name(self):
        image = image_of(SIGNED)
        segment = image.segment("__TEXT")
        self.assertEqual((segment, image.segment(b"__TEXT"), image.segment("__DATA")), (image.segments()[0], segment, None))
        section = image.section("__TEXT", "__text")
        self.assertEqual((section.addr, section.offset, section.size, type(section.data)), (0x280, 0x280, 8, memoryview))
        self.assertEqual(bytes(section.data), open_bytes(SIGNED)[0x280:0x288])
        self.assertEqual((image.section("__TEXT", "__data"), image.section("__DATA", "__text")), (None, None))
        self.assertEqual([each.name for each in image.sections()], ["__text", "__unwind_info"])

    def test_the_first_of_several(self):
        raw = b"".join(struct.pack("<16s16s2Q8I", name, b"__A", at, 0, 0, 0, 0, 0, 0, 0, 0, 0) for name, at in ((b"s", 1), (b"t", 2), (b"s", 3)))
        image = goblin_mach.Image(made.image(made.segment(b"__A"), made.segment(b"__A", raw, 3, size=0x2000), made.segment(b"__B")))
        self.assertEqual((image.segment("__A").vmsize, image.section("__A", "s").addr, image.section("__A", "t").addr), (0x1000, 1, 2))

    def test_sections_of_all_segments_are_those_of_each(self):
        for path in SAMPLES:
            for _, image in goblin_mach.open(path).images():
                if image.error is None:
                    wanted = [section for segment in image.segments() for section in image.sections(segment).in_bounds()]
                    self.assertEqual(list(image.sections()), wanted)

    def test_what_dyld_binds(self):
        image = image_of(CHAINS)
        self.assertEqual(list(image.imports()), list(image.bindings()))
        self.assertEqual([each.name for each in itertools.islice(image.imports(), 3)], ["_o", "_p", "_q"])
        self.assertEqual([type(each).__name__ for each in itertools.islice(image.opcode_imports(), 1)], ["Import"])


class NotMachO(made.Case):
    WORDS = [
        (b"", "not Mach-O: an empty file"), (b"\x7fELF\2\1\1", "not Mach-O: an ELF file"), (b"MZ\x90", "not Mach-O: a PE or DOS program"),
        (b"\xca\xfe\xba\xbe\0\0\0\x34" + bytes(3000), "not Mach-O: a Java class"), (b"BC\xc0\xde", "not Mach-O: LLVM bitcode"),
        (b"\xde\xc0\x17\x0b", "not Mach-O: LLVM bitcode"), (b"hello", "not Mach-O: a text file"), (b"\xffhello", "bad magic 0xff68656c"),
        (b"\xffh", "malformed: the file ends in its magic"), (b"\xca\xfe\xba\xbe", "bad magic 0xcafebabe"),
    ]

    def test_is_said_when_it_is_opened(self):
        for data, words in self.WORDS:
            for call in (lambda data=data: goblin_mach.open(self.path(data)), lambda data=data: goblin_mach.parse(data)):
                with self.assertRaises(Refused) as met:
                    call()
                self.assertIn(str(met.exception), (words, "4 bytes are needed and 2 are left"))

    def test_is_not_said_of_what_is(self):
        for data in (made.image(), made.fat(made.image()), made.fat(count=30), b"!<arch>\n", b"!<thin>\n"):
            goblin_mach.parse(data).close()


class Program(made.Case):
    """The command: its lines and its JSON."""

    def printed(self, *words, status=0):
        out, errors = io.StringIO(), io.StringIO()
        with contextlib.redirect_stdout(out), contextlib.redirect_stderr(errors):
            found = __main__.main(list(words))
        self.assertIn(found, (0, 1) if status is None else (status,), (words, errors.getvalue()))
        self.assertEqual(errors.getvalue() == "" or found > 0, True)
        return out.getvalue().splitlines()

    def lines(self, *words, status=0):
        return [line.split() for line in self.printed(*words, status=status)[1:]]

    def objects(self, *words, status=0):
        return [json.loads(line) for line in self.printed(*words, "--json", status=status)]

    def test_lines(self):
        self.assertIn(["name:", "libanswer.dylib"], self.lines("info", SIGNED))
        self.assertEqual(self.lines("symbols", SIGNED)[1:], [["0x280", "1", "SECT", "external", "_answer"]])
        self.assertEqual(self.lines("exports", SIGNED)[1:], [["0x280", "address", "_answer"]])
        self.assertIn(["-", "re-export", "_renamed", "from", "M:", "_given"], self.lines("exports", LIBRARY))
        self.assertEqual(self.lines("imports", CHAINS)[1:3],
                         [["0x100004000", "-8", "-", "_o", "from", "L"], ["0x100004008", "0", "weak", "_p", "from", "program"]])
        self.assertEqual(self.lines("fixups", CHAINS)[:2], [["address", "kind", "target"], ["0x100004008", "pointer", "0x100004018"]])
        self.assertEqual(self.lines("sections", SIGNED)[1], ["0x280", "0x8", "0x280", "REGULAR", "__TEXT,__text"])
        self.assertIn(["cdhash:", "e5c637506db686803b79a8344ffe86b79740bd95"], self.lines("signature", SIGNED))
        self.assertEqual(self.lines("audit", SIGNED), [["no", "fault", "was", "found"]])
        self.assertIn(["layout", "no", "entry:", "header", "at", "0x0:", "0x0", "against", "0x0"], self.lines("audit", CHAINS, status=1))

    def test_json(self):
        for word in ("info", "symbols", "exports", "imports", "fixups", "sections", "signature", "audit"):
            for path in SAMPLES:
                images = list(goblin_mach.open(path).images())
                status = None if word == "audit" else int(any(image.error is not None for _, image in images))
                self.assertEqual([each["label"] for each in self.objects(word, path, status=status)], [label for label, _ in images])
        self.assertEqual(self.objects("exports", COMMANDS, status=1)[0]["left_out"], ["malformed: two paths lead to one node"])
        (one,) = self.objects("symbols", SIGNED)
        self.assertEqual((one["arch"], one["symbols"][0]["name"], one["left_out"]), ("arm64", "_answer", []))
        self.assertEqual(self.objects("info", LIBRARY)[0]["libraries"], ["M", "N", "W"])
        self.assertEqual([each["fault"] for each in self.objects("audit", CHAINS, status=1)[0]["faults"]][-1], "no entry: header at 0x0: 0x0 against 0x0")

    def test_what_is_refused_is_in_the_json(self):
        (bad, good) = self.objects("symbols", self.path(made.fat(bytes(64), made.with_symbols(b"_a"))), status=1)
        self.assertEqual((bad["error"], [each["name"] for each in good["symbols"]]), ("bad magic 0x0", ["_a"]))

    def test_names_that_run_on_to_one_far_end(self):
        commands = (made.command(0xC, struct.pack("<4I", 24 * (4000 - k), 0, 0, 0)) for k in range(4000))
        many = self.path(made.image(*commands, behind=100000 * b"x" + b"\0"))
        lines = [line for line in self.lines("info", many) if line[0] == "libraries:"]
        self.assertEqual((lines[-1], len(lines) < 10), (["libraries:", "(4000", "in", "all)"], True))
        self.assertLess(len(self.objects("info", many)[0]["libraries"]), 10)

    def test_help(self):
        said = made.run(["--help"]).stdout.decode()
        for word in ("info", "symbols", "exports", "imports", "fixups", "sections", "signature", "audit"):
            self.assertRegex(said, rf"\n  {word} +\w")
        self.assertEqual(made.run(["--version"]).stdout.decode(), f"goblin-mach {goblin_mach.__version__}\n")

    def test_an_audit_finds_what_was_changed(self):
        data = bytearray(open_bytes(SIGNED))
        data[0x3F0] = 1
        (one,) = self.objects("audit", self.path(data), status=1)
        self.assertEqual(one["faults"], [{"part": "signature", "fault": "page 0: 0x0..0x1000 is not what was signed"}])


if __name__ == "__main__":
    unittest.main()
