#!/usr/bin/env python3
"""Compares the library's exports with its header, and with the Python package where it is there: names, and the types and names of
parameters and results; the fields of structs; and the numbers of statuses, kinds of answers, reasons, rules, of what is kept, and of the
interface. What header, Python package and Rust crate say of a status and of a reason has to be the same too, and so have the numbers
and names in docs/GUIDE.md.

usage: exports.py        (in the repository; nothing needs to be built)

It prints each difference. The status is 1 where there are any.
"""

from __future__ import annotations

import ast
import re
import sys
from collections.abc import Mapping
from dataclasses import dataclass
from pathlib import Path

HERE = Path(__file__).resolve().parent
SOURCES = HERE.parent / "crates" / "bt_c" / "src"
REASONS = SOURCES.parent.parent / "bt_history/src/call.rt"
RULES = REASONS.parent / "pick_rule.rt"
HEADER = HERE / "piecepick.h"
NATIVE = HERE / "python" / "piecepick" / "_native.py"
TEXTS = NATIVE.parent / "_texts.py"
RUST = HERE / "rust" / "src"
PAGE = HERE.parent / "docs" / "GUIDE.md"
PREFIX = "piecepick_"

# What a parameter of an export is in C; a slice is two, of which the second is its length. The allocator takes no room in a call.
IN_C: dict[str, list[str]] = {
    "Global": [],
    "u32": ["uint32_t"],
    "u64": ["uint64_t"],
    "usize": ["size_t"],
    "&mut u32": ["uint32_t *"],
    "&mut u64": ["uint64_t *"],
    "&mut PickerPointer": ["piecepick_picker **"],
    "&mut PickerHandle": ["piecepick_picker *"],
    "&mut JobPointer": ["piecepick_job **"],
    "&mut JobHandle": ["piecepick_job *"],
    "&mut Answer": ["piecepick_answer *"],
    "&mut Digest": ["piecepick_digest *"],
    "&Digest": ["const piecepick_digest *"],
    "&Options": ["const piecepick_options *"],
    "&[u8]": ["const uint8_t *", "size_t"],
    "&mut [u8]": ["uint8_t *", "size_t"],
}

# The two exports whose result is a number and no status; those of the others who have a result must not be ignored.
TELLS_NUMBER = {"piecepick_abi", "piecepick_version"}

# What a type in C is in ctypes, which knows no `const`, and in which the package has no type for what it doesn't look into.
IN_CTYPES = {
    "void": "None",
    "piecepick_status": "c_uint32",
    "uint32_t": "c_uint32",
    "uint64_t": "c_uint64",
    "size_t": "c_size_t",
    "uint32_t *": "POINTER(c_uint32)",
    "uint64_t *": "POINTER(c_uint64)",
    "uint8_t *": "c_void_p",
    "piecepick_picker *": "c_void_p",
    "piecepick_job *": "c_void_p",
    "piecepick_picker **": "POINTER(c_void_p)",
    "piecepick_job **": "POINTER(c_void_p)",
    "piecepick_answer *": "POINTER(Answer)",
    "piecepick_digest *": "POINTER(Digest)",
    "piecepick_options *": "POINTER(Options)",
}

# What the sources call otherwise than the header; a metainfo file for which there is no memory is told as any want of it.
RENAMED = {
    "NO_MEMORY": "MEMORY",
    "ROOM": "LENGTH",
    "MISSING": "MISSING_KEY",
    "BOTH_LENGTH_AND_FILES": "LENGTH_AND_FILES",
    "COMPLETED": "FULL",
    "HAD": "COMPLETE",
    "NOT_ASKED": "NOT_REQUESTED",
}
RENAMED_FIELDS = {"len": "length"}
MOST_METAINFO = 10

# The enums of the header, and the letters that each puts before its names.
LETTERS = {"Status": "E_", "Kind": "K_", "Reason": "R_", "PickRule": "RULE_", "Keeps": "KEEPS_"}
# The structs, and where the crate has them.
STRUCTS = {"Answer": "answer.rt", "Digest": "digest.rt", "Options": "options.rt"}
# A struct that the header's own functions take, and no export.
OWN_STRUCTS = {"depth_by_rate"}

# A set of numbers, by their names.
Numbers = dict[str, int]
# The fields of a struct, and how long each is in bytes.
Fields = list[tuple[str, int]]


@dataclass(frozen=True)
class Signature:
    """One function, its types as C spells them. The Python package doesn't name its parameters."""

    result: str
    types: list[str]
    names: list[str] | None = None
    must: bool = False

    def in_ctypes(self) -> Signature:
        """As ctypes has it."""
        return Signature(IN_CTYPES[self.result], [IN_CTYPES[kind.removeprefix("const ")] for kind in self.types])

    def __str__(self) -> str:
        names = self.names or [""] * len(self.types)
        spelled = [f"{kind} {name}".strip().replace("* ", "*") for kind, name in zip(self.types, names, strict=True)]
        return f"{'PIECEPICK_MUST ' if self.must else ''}{self.result} ({', '.join(spelled)})"


class Unread(Exception):
    """Something that this program can't read."""


def parameters(text: str) -> list[str]:
    """The parameters between two parentheses, in single spaces."""
    return [" ".join(part.split()) for part in text.split(",") if part.strip()]


def of_export(name: str, text: str, result: str) -> Signature:
    """The signature in C of an export."""
    types: list[str] = []
    names: list[str] = []
    for parameter in parameters(text):
        given, _, kind = parameter.partition(": ")
        if kind not in IN_C:
            raise Unread(f"{name}: a parameter of type {kind}")
        parts = IN_C[kind]
        types += parts
        names += [given, given + "_len"][: len(parts)]
    if result not in ("", "u32"):
        raise Unread(f"{name}: a result of type {result}")
    if name in TELLS_NUMBER:
        return Signature("uint32_t", types, names)
    return Signature("piecepick_status" if result else "void", types, names, must=bool(result))


def exports() -> dict[str, Signature]:
    """What the crate exports."""
    found: dict[str, Signature] = {}
    for path in sorted(SOURCES.rglob("*.rt")):
        text = re.sub(r"//[^\n]*", "", path.read_text())
        heads = re.findall(r'no_mangle\)?\]\s*pub extern "C" fn (\w+)\(([^)]*)\)(?:\s*->\s*(\w+))?', text)
        if len(heads) != text.count("no_mangle") or len(heads) != text.count('extern "C"'):
            raise Unread(f"{path.name}: an export of another form")
        found |= {name: of_export(name, given, result) for name, given, result in heads}
    return found


def header() -> str:
    """The header, without its comments and without its own functions."""
    text = re.sub(r"/\*.*?\*/", "", HEADER.read_text(), flags=re.DOTALL)
    return re.sub(r"^static inline .*?^\}", "", text, flags=re.DOTALL | re.MULTILINE)


def of_prototype(name: str, text: str, result: str, must: bool) -> Signature:
    """The signature of a prototype. Each parameter has a name."""
    given = [] if text.strip() == "void" else parameters(text)
    parts = [re.fullmatch(r"((?:const )?\w+ \*{0,2}) ?(\w+)", parameter) for parameter in given]
    if None in parts:
        raise Unread(f"{name}: a parameter of another form")
    return Signature(result, [part[1].strip() for part in parts if part], [part[2] for part in parts if part], must)


def prototypes() -> dict[str, Signature]:
    """What the header declares."""
    text = header()
    heads = re.findall(rf"^(PIECEPICK_MUST )?(\w+) ({PREFIX}\w+)\(([^)]*)\);", text, flags=re.MULTILINE)
    if len(heads) != len(re.findall(rf"\b{PREFIX}\w+\s*\(", text)):
        raise Unread("piecepick.h: a prototype of another form")
    return {name: of_prototype(name, given, result, bool(must)) for must, result, name, given in heads}


def snake(name: str) -> str:
    """A variant's name as C has it."""
    spelled = re.sub(r"(?<!^)(?=[A-Z])", "_", name).upper()
    return RENAMED.get(spelled, spelled)


def arms(path: Path, pattern: str) -> list[tuple[str, str]]:
    """What the arms of a match give, both sides of each."""
    found: list[tuple[str, str]] = re.findall(pattern, path.read_text())
    if not found:
        raise Unread(f"{path.name}: nothing like {pattern}")
    return found


def numbers() -> dict[str, Numbers]:
    """The numbers that the crate gives statuses, kinds, reasons and rules, and that it takes for what is kept."""
    meta = arms(SOURCES.parents[1] / "bt_meta" / "src" / "fault.rt", r"\bMetaFault::(\w+)(?:\([^)]*\))? => (\d+),")
    status = {"OK": 0} | {snake(name): int(number) for name, number in arms(SOURCES / "fault.rt", r"\bFault::(\w+) => (\d+),")}
    status |= {snake(name): 100 + int(number) for name, number in meta if int(number) <= MOST_METAINFO}
    answer = (SOURCES / "answer.rt").read_text()
    kinds = dict(arms(SOURCES / "answer.rt", r"\bReply::(\w+)(?:\([^)]*\))? => Answer::\w+\((\d+)[,)]"))
    # Two kinds have a function of their own, which says the number.
    for name in ("noted", "refused"):
        own = re.search(rf"fn {name}\([^)]*\) -> Answer.*?\.\.Answer::plain\((\d+)\)", answer, flags=re.DOTALL)
        if own is None:
            raise Unread(f"answer.rt: no number of {name}")
        kinds[name.capitalize()] = own[1]
    if len(kinds) != len(re.findall(r"\bReply::\w+(?:\([^)]*\))? => ", answer)):
        raise Unread("answer.rt: a kind of another form")
    return {
        "Status": status,
        "Kind": {"NONE": 0} | {snake(name): int(number) for name, number in kinds.items()},
        "Reason": {"NONE": 0} | {snake(name): int(number) for name, number in arms(REASONS, r"\bReason::(\w+) => (\d+),")},
        "PickRule": {snake(name): int(number) for name, number in arms(RULES, r"\bPickRule::(\w+) => (\d+),")},
        "Keeps": {snake(name): int(number) for number, name in arms(SOURCES / "options.rt", r"\b(\d+) => Some\(Keeping::(\w+)\)")},
    }


def header_numbers() -> dict[str, Numbers]:
    """Those that the header has, in its five enums."""
    bodies = re.findall(r"^(?:typedef )?enum (\w*) ?\{([^}]*)\} ?(\w*);", header(), flags=re.MULTILINE)
    found: dict[str, Numbers] = {}
    for name, body, again in bodies:
        enum = "".join(word.capitalize() for word in name.removeprefix(PREFIX).split("_")) if name else "Keeps"
        members = re.findall(r"PIECEPICK_(\w+) = (\d+)", body)
        if name != again or enum not in LETTERS or len(members) != body.count("="):
            raise Unread(f"piecepick.h: the enum {name or 'without a name'}")
        found[enum] = {member.removeprefix(LETTERS[enum]): int(number) for member, number in members}
        bare = [member for member, _ in members if not member.startswith(LETTERS[enum]) and member != "OK"]
        if bare:
            raise Unread(f"piecepick.h: {', '.join(bare)} in the enum {name}")
    return found


def in_bytes(kind: str) -> int:
    """How long a field is."""
    lengths = {"u32": 4, "uint32_t": 4, "piecepick_kind": 4, "piecepick_reason": 4, "c_uint32": 4, "[u8; 20]": 20, "uint8_t[20]": 20}
    if kind in lengths:
        return lengths[kind]
    raise Unread(f"a field of type {kind}")


def header_texts() -> dict[str, str]:
    """What the header says of each status and each reason."""
    found = arms(HEADER, r'case PIECEPICK_((?:OK|E_|R_)\w*): return "([^"]*)";')
    return {"E_OK" if name == "OK" else name: text for name, text in found}


def package_texts() -> dict[str, str]:
    """What the Python package says of them."""
    named = Package(TEXTS).named
    tables = {"E_": named["STATUS"], "R_": named["REASON"]}
    return {letter + name: text for letter, table in tables.items() for name, text in ast.literal_eval(table).items()}


def crate_texts() -> dict[str, str]:
    """What the Rust crate says of those that it has a name for."""
    errors = arms(RUST / "error.rs", r'(?m)^    (\w+) = \d+, "([^"]*)";')
    reasons = arms(RUST / "answer.rs", r'Reason::(\w+) => "([^"]*)"')
    return {f"E_{snake(name)}": text for name, text in errors} | {f"R_{snake(name)}": text for name, text in reasons}


def texts() -> list[str]:
    """A line for each status and each reason of which the languages don't say the same."""
    wanted = header_texts()
    lines = entries("_texts.py", wanted, package_texts()) if TEXTS.exists() else []
    if RUST.exists():
        said = crate_texts()
        lines += entries("the Rust crate", {name: text for name, text in wanted.items() if name in said}, said)
    return [line.replace("the library has", "piecepick.h has") for line in lines]


def page() -> list[str]:
    """A line for each status of which the page of errors has another number, or another name in Rust."""
    named = {snake(name): name for name, _ in arms(RUST / "error.rs", r"(?m)^    (\w+) = (\d+),")}
    rows = re.findall(r"(?m)^\| (\d+) \| `([A-Z_]+)` \| *`?(\w*)`? *\|", PAGE.read_text())
    there = {status: (int(number), name) for number, status, name in rows}
    wanted = {name: (number, named.get(name, "")) for name, number in header_numbers()["Status"].items() if number}
    return [line.replace("the library has", "header and crate have") for line in entries("GUIDE.md", wanted, there)]


def structs() -> dict[str, Fields]:
    """The structs of the crate."""
    found: dict[str, Fields] = {}
    for name, file in STRUCTS.items():
        text = re.sub(r"//[^\n]*", "", (SOURCES / file).read_text())
        body = re.search(rf"repr\(C\)\]\s*#\[derive[^\]]*\]\s*pub struct {name} \{{(.*?)\}}", text, flags=re.DOTALL)
        if body is None:
            raise Unread(f"{file}: no struct {name}")
        fields = re.findall(r"pub (\w+): ([^,]+),", body[1])
        found[name] = [(RENAMED_FIELDS.get(field, field), in_bytes(kind)) for field, kind in fields]
    return found


def header_structs() -> dict[str, Fields]:
    """Those of the header."""
    found: dict[str, Fields] = {}
    for name, body in re.findall(r"^typedef struct piecepick_(\w+) \{([^}]*)\} piecepick_\1;", header(), flags=re.MULTILINE):
        if name in OWN_STRUCTS:
            continue
        fields: Fields = []
        for line in filter(None, (" ".join(part.split()) for part in body.split(";"))):
            kind, _, names = line.partition(" ")
            for field in names.split(", "):
                count = re.fullmatch(r"(\w+)\[(\d+)\]", field)
                fields.append((count[1], in_bytes(f"{kind}[{count[2]}]")) if count else (field, in_bytes(kind)))
        found[name.capitalize()] = fields
    return found


def single(path: Path, pattern: str) -> str:
    """A number that this file has."""
    found = re.search(pattern, path.read_text(), flags=re.MULTILINE)
    return found[1].replace("_", "") if found else "none"


def interfaces() -> list[str]:
    """A line where the numbers of the interface, the version and the size of the options aren't what they have to be."""
    pickers = SOURCES / "exports" / "pickers.rt"
    abi = {"the library": single(pickers, r"^const ABI: u32 = (\d+);"), "piecepick.h": single(HEADER, r"^#define PIECEPICK_ABI (\d+)u$")}
    version = {
        "the library": single(pickers, r"^const VERSION: u32 = ([\d_]+);"),
        "piecepick.h": single(HEADER, r"^#define PIECEPICK_VERSION_NUMBER (\d+)u$"),
    }
    words = single(HEADER, r'^#define PIECEPICK_VERSION "([\d.]+)"$').split(".")
    version["its text"] = str(sum(int(word) * unit for word, unit in zip(words, (10000, 100, 1), strict=True)))
    size = {"the library": single(SOURCES / "options.rt", r"^pub const SIZE: u32 = (\d+);")}
    size["piecepick.h"] = str(sum(length for _, length in header_structs()["Options"]))
    # The macro begins with the size, and has a value for each field behind it.
    usual = re.search(r"^#define PIECEPICK_OPTIONS \{ sizeof\(piecepick_options\), ([^}]*) \}$", header(), flags=re.MULTILINE)
    size["PIECEPICK_OPTIONS"] = str(4 * (1 + len(usual[1].split(",")))) if usual else "none"
    if NATIVE.exists():
        abi["the Python package"] = single(NATIVE, r"^ABI = (\d+)$")
        version["the Python package"] = single(NATIVE, r"^VERSION_NUMBER = (\d+)$")
    lines = []
    for what, found in (("the interface's number", abi), ("the version", version), ("the options' size", size)):
        if len(set(found.values())) > 1 or "none" in found.values():
            lines.append(f"{what}: " + ", ".join(f"{number} in {place}" for place, number in found.items()))
    return lines


class Package:
    """What the Python package says of the library, without importing it."""

    def __init__(self, path: Path) -> None:
        self.path = path
        self.body = ast.parse(path.read_text()).body
        self.named: dict[str, ast.expr] = {}
        for node in self.body:
            match node:
                case ast.Assign(targets=[ast.Name(id=name)], value=value):
                    self.named[name] = value
                case ast.AnnAssign(target=ast.Name(id=name), value=ast.expr() as value):
                    self.named[name] = value

    def ctype(self, node: ast.expr) -> str:
        """An expression that gives a type of ctypes, its names followed to what they stand for."""
        match node:
            case ast.Name(id=name) if name in self.named:
                return self.ctype(self.named[name])
            case ast.Name(id=name):
                return name
            case ast.Constant(value=None):
                return "None"
            case ast.Call(func=ast.Name(id="POINTER"), args=[pointed]):
                return f"POINTER({self.ctype(pointed)})"
        raise Unread(f"{self.path.name}: {ast.unparse(node)}")

    def signatures(self) -> dict[str, Signature]:
        """What it calls."""
        table = self.named.get("SIGNATURES")
        if not isinstance(table, ast.Dict):
            raise Unread(f"{self.path.name}: no table SIGNATURES")
        found = {}
        for key, value in zip(table.keys, table.values, strict=True):
            match key, value:
                case ast.Constant(value=str(name)), ast.Tuple(elts=[result, ast.List(elts=types)]):
                    full = name if name.startswith(PREFIX) else PREFIX + name
                    found[full] = Signature(self.ctype(result), [self.ctype(kind) for kind in types])
                case _:
                    raise Unread(f"{self.path.name}: {ast.unparse(value)}")
        return found

    def classes(self, base: str) -> list[ast.ClassDef]:
        """Its classes on this base."""
        nodes = [node for node in self.body if isinstance(node, ast.ClassDef)]
        return [node for node in nodes if any(isinstance(it, ast.Name) and it.id == base for it in node.bases)]

    def numbers(self) -> dict[str, Numbers]:
        """The numbers of its enums."""
        found: dict[str, Numbers] = {}
        for node in self.classes("IntEnum"):
            members = [it for it in node.body if isinstance(it, ast.Assign)]
            found[node.name] = {ast.unparse(it.targets[0]): ast.literal_eval(it.value) for it in members}
        return found

    def structs(self) -> dict[str, Fields]:
        """Its structs, whose fields stand in a list, or are of one type and named in a tuple."""
        found: dict[str, Fields] = {}
        for node in self.classes("Structure"):
            for it in node.body:
                if isinstance(it, ast.Assign) and ast.unparse(it.targets[0]) == "_fields_":
                    found[node.name] = self.fields(it.value)
        return found

    def fields(self, node: ast.expr) -> Fields:
        """The fields of one."""
        match node:
            case ast.ListComp(elt=ast.Tuple(elts=[_, kind]), generators=[ast.comprehension(iter=names)]):
                return [(name, self.length(kind)) for name in ast.literal_eval(names)]
            case ast.List(elts=elements):
                pairs = [element.elts for element in elements if isinstance(element, ast.Tuple)]
                return [(ast.literal_eval(name), self.length(kind)) for name, kind in pairs]
        raise Unread(f"{self.path.name}: {ast.unparse(node)}")

    def length(self, kind: ast.expr) -> int:
        """How long a field is in bytes."""
        match kind:
            case ast.BinOp(left=ast.Name(id="c_uint8"), op=ast.Mult(), right=ast.Constant(value=int(count))):
                return count
        return in_bytes(self.ctype(kind))


def entries(what: str, wanted: Mapping[str, object], there: Mapping[str, object]) -> list[str]:
    """A line for each entry that isn't in both, or not the same in both."""
    lines = []
    for name in sorted(wanted.keys() | there.keys()):
        if wanted.get(name) != there.get(name):
            lines.append(f"{name}: the library has {wanted.get(name, 'nothing')}\n    {what} has {there.get(name, 'nothing')}")
    return lines


def flat(enums: dict[str, Numbers]) -> dict[str, int]:
    """The numbers of several enums."""
    return {f"{enum} {name}": number for enum, members in enums.items() for name, number in members.items()}


def main() -> int:
    """Compares."""
    exported = exports()
    lines = entries("piecepick.h", exported, prototypes())
    lines += entries("piecepick.h", flat(numbers()), flat(header_numbers()))
    lines += entries("piecepick.h", structs(), header_structs())
    lines += interfaces() + texts()
    if PAGE.exists() and RUST.exists():
        lines += page()
    also = ""
    if NATIVE.exists():
        package = Package(NATIVE)
        lines += entries("_native.py", {name: signature.in_ctypes() for name, signature in exported.items()}, package.signatures())
        lines += entries("_native.py", flat(numbers()), flat(package.numbers()))
        lines += entries("_native.py", structs(), package.structs())
        also = " and the Python package"
    for line in lines:
        print(line)
    if not lines:
        print(f"{len(exported)} exports, {len(STRUCTS)} structs and {len(flat(numbers()))} numbers: the same in the header{also}")
    return 1 if lines else 0


if __name__ == "__main__":
    sys.exit(main())
