"""The code signature of an image: the code directory that counts, and the faults of the signature."""

from __future__ import annotations

import ctypes
import json
import plistlib
from typing import Any, Callable, Dict, Iterator, NamedTuple, Optional

from . import _structs as s
from ._item import Item
from ._library import lib, refused
from ._memory import Held
from .enums import ErrorCode, SignatureFlags, SignatureHash
from .errors import ERRORS

SLOTS = {
    0: "code directory", 1: "info.plist", 2: "requirements", 3: "resources", 4: "application", 5: "entitlements", 6: "disk image",
    7: "der entitlements", 8: "launch constraint self", 9: "launch constraint parent", 10: "launch constraint responsible", 11: "library constraint",
    0x1000: "alternate 1", 0x1001: "alternate 2", 0x1002: "alternate 3", 0x1003: "alternate 4", 0x1004: "alternate 5",
    0x10000: "cms", 0x10001: "identification", 0x10002: "ticket",
}
"""The names of a signature's slots (`cs_blobs.h`, CSSLOT_), as in `machsign`."""


AGREEMENTS = ("none", "same", "different", "only XML", "only DER", "unreadable XML", "unreadable DER")
"""What is said of entitlements in XML and in DER, by C's numbers (GM_ENTITLEMENTS_NONE and the following ones)."""


REQUIREMENTS = ("host", "guest", "designated", "library", "plugin")
"""The types of requirements (`SecRequirementType`), from 1 on."""


def slot_name(slot: int) -> str:
    """Returns the name of a slot, or its number."""
    return SLOTS.get(slot, f"slot 0x{slot:x}")


_WORDS: Dict[str, str] = {
    "blob": "blob {index}: {error}",
    "magic": "blob {index}: {slot}: magic 0x{found:x}",
    "directory": "code directory: {error}",
    "identifier": "identifier: {error}",
    "team": "team: {error}",
    "short": "covers 0x{found:x}, and begins at 0x{limit:x}",
    "scattered": "scattered at {found}: pages are not looked at",
    "limit": "covers 0x{found:x} of 0x{limit:x} bytes",
    "slots": "{found} code slots for {limit} pages",
    "page": "page {index}: 0x{found:x}..0x{limit:x} is not what was signed",
    "unknown": "{special}: not known",
    "unsealed": "{special}: not sealed",
    "special": "{special}: not what was signed",
    "absent": "{special}: sealed, and absent",
}


class SignatureFault(Item, NamedTuple("SignatureFault", [
    ("kind", str), ("slot", int), ("number", int), ("found", int), ("limit", int), ("error", Optional[str]),
])):
    """Something that doesn't match the signature: a fault of a `kind`, of the directory at `slot`, or of a blob. `number` is that of the blob or
    the page, or the special slot. docs/C.md says what `found` and `limit` are for each kind. `error` says why something can't be read.
    As text it has the words of `machsign`, except those of errors, and the segment and section of a page."""

    __slots__ = ()

    def __str__(self) -> str:
        words = _WORDS[self.kind].format(index=self.number, special=slot_name(self.number), slot=slot_name(self.slot), found=self.found,
                                         limit=self.limit, error=self.error)
        return words if self.slot == 0 or self.kind == "magic" else f"{slot_name(self.slot)}: {words}"


class Signature:
    """The code directory that counts in a signature: the one that the system takes. None of this says that the image matches it.
    `is_as_signed()` says that, and `faults()` lists what isn't. Who signed is not checked: no CMS is verified. Its values are copied,
    and stay when the file is closed; `is_as_signed()`, `faults()`, `requirements`, `entitlements_in_xml`, `entitlements_in_der`,
    `entitlements_agreement` and `entitlements_agree` call the library.

    `identifier`, `team`: texts; one that can't be read is None, and `errors` says why, by the name of the text.
    `flags`, `hash_type`, `version`: numbers, as in the file.
    `cdhash`: 20 bytes of the directory's hash, by its own hash type; the system knows the code by this.
    `limit`: how many bytes of the image are covered. `pages`: how many pages these are.
    `page_size`: how many bytes a page has; None if there is one page of any size.
    `entitlements`: the bytes as in the signature: a property list in XML, if Apple's tools wrote it."""

    __slots__ = ("_agreement", "_ask", "_faults", "_requirements", "_values", "cdhash", "entitlements", "errors", "flags", "hash_type", "identifier", "limit",
                 "page_size", "pages", "team", "version")

    identifier: Optional[str]
    team: Optional[str]
    flags: int
    cdhash: bytes
    entitlements: Optional[bytes]
    hash_type: int
    limit: int
    pages: int
    page_size: Optional[int]
    version: int
    errors: Dict[str, str]

    def __init__(self, held: Held, said: s.gm_signature, ask: Callable[[], bool], faults: Callable[[], Iterator[SignatureFault]],
                 agreement: Callable[[], str], requirements: Callable[[], Dict[str, str]],
                 values: Callable[[bool], Optional[Dict[str, Any]]]) -> None:
        self._ask, self._faults, self._agreement, self._requirements, self._values = ask, faults, agreement, requirements, values
        codes = {"identifier": said.identifier_code, "team": said.team_code, "entitlements": said.entitlements_code}
        self.errors = {name: ERRORS[code] for name, code in codes.items() if code}
        self.identifier = held.text(said.identifier, said.identifier_len) if said.identifier else None
        self.team = held.text(said.team, said.team_len) if said.team else None
        place = said.entitlements
        self.entitlements = bytes(held.view[place:place + said.entitlements_len]) if place else None
        self.flags, self.hash_type, self.version = said.flags, said.hash_type, said.version
        self.limit, self.pages = said.limit, said.pages
        self.page_size = 1 << said.page_size if said.page_size else None
        self.cdhash = bytes(said.cdhash)

    @property
    def signature_flags(self) -> SignatureFlags:
        """`flags` as an enum."""
        return SignatureFlags.of(self.flags)

    @property
    def hash_kind(self) -> SignatureHash:
        """`hash_type` as an enum."""
        return SignatureHash.of(self.hash_type)

    def to_dict(self) -> Dict[str, Any]:
        """Returns its values by their names, with values that `json.dumps` takes. `cdhash` and `entitlements` are in hexadecimal."""
        names = ("identifier", "team", "flags", "hash_type", "limit", "pages", "page_size", "version", "errors")
        return {**{name: getattr(self, name) for name in names}, "cdhash": self.cdhash.hex(),
                "entitlements": None if self.entitlements is None else self.entitlements.hex()}

    def json(self) -> str:
        """Returns `to_dict()` as JSON, on one line."""
        return json.dumps(self.to_dict())

    @property
    def is_ad_hoc(self) -> bool:
        """Whether it claims that nobody signed it (ad hoc)."""
        return self.flags & SignatureFlags.ADHOC != 0

    @property
    def entitlements_plist(self) -> Optional[Dict[str, Any]]:
        """The entitlements, parsed by `plistlib`, or None if there are none. Errors of `plistlib` are raised."""
        if self.entitlements is None:
            return None
        found: Dict[str, Any] = plistlib.loads(self.entitlements)
        return found

    @property
    def entitlements_in_xml(self) -> Optional[Dict[str, Any]]:
        """The entitlements in XML, or None if there are none. Values are bool, int, str, list and dict. A date is its text, and a real, whose
        number isn't read, is None. Of several values under a key it has the first. Entitlements that can't be read raise `Refused`."""
        return self._values(False)

    @property
    def entitlements_in_der(self) -> Optional[Dict[str, Any]]:
        """The same of the entitlements in DER, by which the system goes."""
        return self._values(True)

    @property
    def requirements(self) -> Dict[str, str]:
        """The texts of the requirements that it has, by their types (`REQUIREMENTS`), as `csreq` writes them. One that isn't simple is
        `not simple: ` and its bytes in hexadecimal. What can't be read raises `Refused`."""
        return self._requirements()

    @property
    def entitlements_agreement(self) -> str:
        """Whether the entitlements in XML and in DER say the same, as one of `AGREEMENTS`. Those of only one notation aren't read."""
        return self._agreement()

    @property
    def entitlements_agree(self) -> Optional[bool]:
        """Whether the entitlements in XML and in DER say the same; not so if one of them can't be read. None without both of them."""
        found = self.entitlements_agreement
        return None if found in ("none", "only XML", "only DER") else found == "same"

    def is_as_signed(self) -> bool:
        """Returns whether nothing differs from the signature: each page, and all other parts that the signature seals."""
        return self._ask()

    def faults(self) -> Iterator[SignatureFault]:
        """Returns the faults of the signature, in order."""
        return self._faults()

    def __repr__(self) -> str:
        return f"<Signature {self.identifier!r}, {self.hash_kind.name}, flags {' '.join(self.signature_flags.names) or '0'}, cdhash {self.cdhash.hex()}>"


def as_signed(held: Held, image: Any) -> bool:
    """Returns whether an image has a signature and nothing differs from it."""
    found, error = ctypes.c_uint32(), s.gm_error()
    if lib.gm_is_as_signed(held.at, held.len, image, ctypes.byref(found), None, ctypes.byref(error)):
        raise refused(error)
    return bool(found.value)


def agreement_of(held: Held, image: Any) -> str:
    """Returns whether the entitlements of an image's signature agree, as one of `AGREEMENTS`."""
    found, error = ctypes.c_uint32(), s.gm_error()
    if lib.gm_entitlements_agree(held.at, held.len, image, ctypes.byref(found), None, ctypes.byref(error)):
        raise refused(error)
    return AGREEMENTS[found.value]


def requirement_of(held: Held, image: Any, number: int) -> str:
    """Returns the text of a requirement of an image's signature, by the number of its type; an empty one if there is none."""
    room, needed, error = None, ctypes.c_uint64(), s.gm_error()
    while lib.gm_requirement_text(held.at, held.len, image, number, room, needed.value if room else 0, ctypes.byref(needed), None, ctypes.byref(error)):
        if error.code != ErrorCode.NO_SPACE:
            raise refused(error)
        room = ctypes.create_string_buffer(needed.value)
    return room.raw.decode() if room else ""


def requirements_of(held: Held, image: Any) -> Dict[str, str]:
    """Returns the texts of the requirements of an image's signature, by their types."""
    texts = {name: requirement_of(held, image, number) for number, name in enumerate(REQUIREMENTS, 1)}
    return {name: text for name, text in texts.items() if text}


def said_of(held: Held, image: Any) -> Optional[s.gm_signature]:
    """Returns the signature of an image, if it has one."""
    said, error = s.gm_signature(), s.gm_error()
    if lib.gm_code_signature(held.at, held.len, image, ctypes.byref(said), None, ctypes.byref(error)):
        raise refused(error)
    return said if said.is_signed else None
