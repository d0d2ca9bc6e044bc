#!/usr/bin/env python3
"""Writes what C and Rust see of crates/hirqazhom/src/lib.rt: the marked part of include/hirqazhom.h, and rust/src/ffi.rs.

    python3 tools/declare.py            # writes both
    python3 tools/declare.py --check    # only says whether both are up to date; 1 where one is not

Both also say which calls by hand, in the rest of the header and in the wrapper, do not lend by its name what each
parameter asks for: two slices of one type in each other's place are an error that no compiler sees.

The source are the `extern "C"` functions of that file, the `#[repr(C)]` structs that they name, each in the crate
that declares it, the reasons of `refusals` with their numbers, and the public constants of `refusals`, `fst` and
`c_answers`, all with their comments. What the script does not understand of them is an error, never left out.
"""
import re
import sys
from pathlib import Path

ROOT = Path(__file__).resolve().parent.parent
HEADER = ROOT / "include/hirqazhom.h"
FFI = ROOT / "rust/src/ffi.rs"
BEGIN = "/* ---- written by tools/declare.py from crates/hirqazhom/src/lib.rt: change it there ---- */\n"
END = "/* ---- end of what tools/declare.py writes ---- */\n"

# the crates whose public constants are declared
CONSTANTS = ["refusals", "fst", "c_answers"]

# a name of a crate below that would say too little, or something else, beside the others: in C, in Rust
RENAMED = {"Graph": ("graph_counts", "GraphCounts"), "Decoder": ("value", "Value"), "SilenceWeighting": ("silence_state", "SilenceState")}

# a plain type: in C, its bytes, and what its literals end in
PLAIN = {
    "u8": ("uint8_t", 1, "u"), "u32": ("uint32_t", 4, "u"), "i32": ("int32_t", 4, ""), "f32": ("float", 4, "f"),
    "u64": ("uint64_t", 8, "u"), "usize": ("size_t", 8, "u"), "bool": ("bool", 1, ""),
}

COMMENT = r"((?:^ *// [^\n]*\n)*)"
STRUCT = re.compile(COMMENT + r'^#\[repr\(C\)\]\n#\[derive\(Clone, Copy\)\]\npub struct (\w+) \{\n(.*?)^\}\n', re.M | re.S)
FIELD = re.compile(COMMENT + r"^ {4}pub (\w+): (\w+),\n", re.M)
FUNCTION = re.compile(COMMENT + r'^#\[unsafe\(no_mangle\)\]\npub extern "C" fn (\w+)\(([^)]*)\) -> (\w+)\n', re.M)
CONSTANT = re.compile(COMMENT + r"^pub const (\w+): (\w+) = ([0-9_]+);\n", re.M)
REASONS = re.compile(r"^pub enum Reason \{\n(.*?)^\}\n", re.M | re.S)
REASON = re.compile(COMMENT + r"^ {4}(\w+) = ([0-9]+),\n", re.M)


def source(crate):
    return (ROOT / "crates" / crate / "src/lib.rt").read_text()


def found(pattern, mark, text, where):
    """All matches, which must be as many as `mark` occurs."""
    matches = pattern.findall(text)
    marks = len(re.findall(mark, text, re.M))
    if len(matches) != marks:
        sys.exit(f"{where}: {marks} times {mark}, of which {len(matches)} are understood")
    return matches


def comment(text):
    return [line.strip()[3:] for line in text.splitlines()]


def structs_of(crate):
    """By name: comment and fields, each with comment, name and type."""
    structs = {}
    for above, name, body in found(STRUCT, r"^#\[repr\(C\)\]", source(crate), crate):
        fields = [(comment(c), field, type_) for c, field, type_ in found(FIELD, r"^ *pub ", body, f"{crate}, {name}")]
        structs[name] = (comment(above), fields)
    return structs


def reasons():
    """Each reason of a refusal as a constant: `BadShape = 1` is BAD_SHAPE."""
    body, = REASONS.findall(source("refusals"))
    for above, name, value in found(REASON, r"^ *\w+ = ", body, "refusals, Reason"):
        yield comment(above), re.sub(r"(?<=[a-z])(?=[A-Z])", "_", name).upper(), "u32", value


def constants():
    yield from reasons()
    for crate in CONSTANTS:
        for above, name, type_, value in found(CONSTANT, r"^pub const ", source(crate), crate):
            yield comment(above), name, type_, value


def functions():
    """Comment, name, parameters and the type of the answer."""
    for above, name, list_, answer in found(FUNCTION, r'^pub extern "C" fn', source("hirqazhom"), "hirqazhom"):
        yield comment(above), name, [parameter(p) for p in list_.split(",") if p.strip()], answer


def parameter(text):
    """Name, type, and how it is lent: as a value, or as a slice that is read or written."""
    m = re.fullmatch(r"\s*(\w+): (&\[|&mut \[)?(\w+)(\]?)\s*", text)
    if not m or bool(m[2]) != bool(m[4]):
        sys.exit(f"not understood: {text.strip()}")
    return m[1], m[3], {None: "value", "&[": "read", "&mut [": "written"}[m[2]]


def declared(name, crate):
    """The crate that has the struct which `crate` means by a name, and the struct's comment and fields."""
    own = structs_of(crate)
    if name in own:
        return crate, own[name]
    used = re.search(rf"^use (\w+)::(?:{name}|\{{[^}}]*\b{name}\b[^}}]*\}});$", source(crate), re.M)
    if not used:
        sys.exit(f"{crate}: {name} is neither a plain type nor a #[repr(C)] struct")
    return declared(name, used[1])


def structs():
    """All structs that the functions name, each after those that its fields have."""
    homes, done = {}, {}

    def put(name, crate):
        if name in PLAIN:
            return
        home, struct = declared(name, crate)
        if homes.setdefault(name, home) != home:
            sys.exit(f"{name}: a struct of {homes[name]} and one of {home}")
        for _, _, type_ in struct[1]:
            put(type_, home)
        done.setdefault(name, struct)

    for _, _, parameters, answer in functions():
        for _, type_, _ in parameters:
            put(type_, "hirqazhom")
        put(answer, "hirqazhom")
    return done


def layout(type_, all_):
    """Size, alignment and the fields' offsets, as C lays a struct out."""
    if type_ in PLAIN:
        return PLAIN[type_][1], PLAIN[type_][1], {}
    end, most, offsets = 0, 1, {}
    for _, field, field_type in all_[type_][1]:
        size, align, _ = layout(field_type, all_)
        offsets[field] = -(-end // align) * align
        end, most = offsets[field] + size, max(most, align)
    return -(-end // most) * most, most, offsets


def snake(name):
    return RENAMED[name][0] if name in RENAMED else re.sub(r"(?<=.)([A-Z])", r"_\1", name).lower()


# ---- C


def c_type(type_):
    return PLAIN[type_][0] if type_ in PLAIN else f"struct hirqazhom_{snake(type_)}"


def c_comment(lines, indent=""):
    return indent + "/* " + f"\n{indent}   ".join(lines) + " */\n" if lines else ""


def c_constant(lines, name, type_, value):
    return c_comment(lines) + f"#define HIRQAZHOM_{name} {value.replace('_', '')}{PLAIN[type_][2]}\n"


def c_struct(name, lines, fields):
    body = "".join(c_comment(above, "    ") + f"    {c_type(type_)} {field};\n" for above, field, type_ in fields)
    return c_comment(lines) + f"{c_type(name)} {{\n{body}}};\n"


def c_layout(name, all_):
    size, _, offsets = layout(name, all_)
    facts = [f"sizeof({c_type(name)}) == {size}"] + [f"offsetof({c_type(name)}, {field}) == {at}" for field, at in offsets.items()]
    return f"HIRQAZHOM_ASSERT({snake(name)}, " + "\n    && ".join(facts) + ");\n"


def c_parameter(name, type_, lent):
    const = "const " if lent == "read" else ""
    return f"{c_type(type_)} {name}" if lent == "value" else f"{const}{c_type(type_)} *{name}, size_t {name}_len"


def c_function(lines, name, parameters, answer):
    list_ = [c_parameter(*p) for p in parameters]
    one = f"{c_type(answer)} {name}({', '.join(list_)});\n"
    if len(one) > 120:
        one = f"{c_type(answer)} {name}(\n    " + ",\n    ".join(list_) + ");\n"
    return c_comment(lines) + one


def header_part(all_):
    parts = [c_constant(*c) for c in constants()]
    parts += [c_struct(name, *s) for name, s in all_.items()]
    parts += ["/* Sizes and offsets are those of the library. */\n" + "".join(c_layout(name, all_) for name in all_)]
    parts += [c_function(*f) for f in functions()]
    return BEGIN + "\n" + "\n".join(parts) + "\n" + END


def header(all_):
    before, rest = HEADER.read_text().split(BEGIN)
    return before + header_part(all_) + rest.split(END)[1]


# ---- Rust


def r_type(type_):
    return RENAMED[type_][1] if type_ in RENAMED else type_


def r_comment(lines, indent=""):
    return "".join(f"{indent}/// {line}\n" for line in lines)


def r_constant(lines, name, type_, value):
    return r_comment(lines, "    ") + f"    pub const {name}: {type_} = {value};\n"


def r_struct(name, lines, fields):
    body = "".join(r_comment(above, "    ") + f"    pub {field}: {r_type(type_)},\n" for above, field, type_ in fields)
    return r_comment(lines) + f"#[repr(C)]\n#[derive(Clone, Copy, Debug, Default, PartialEq)]\npub struct {r_type(name)} {{\n{body}}}\n"


def r_layout(name, all_):
    size, _, offsets = layout(name, all_)
    facts = [f"size_of::<{r_type(name)}>() == {size}"] + [f"offset_of!({r_type(name)}, {field}) == {at}" for field, at in offsets.items()]
    return "".join(f"    assert!({fact});\n" for fact in facts)


def r_parameter(name, type_, lent):
    pointer = {"read": "*const", "written": "*mut"}.get(lent)
    return [f"{name}: {pointer} {type_}", f"{name}_len: usize"] if pointer else [f"{name}: {r_type(type_)}"]


def r_function(lines, name, parameters, answer):
    list_ = [text for p in parameters for text in r_parameter(*p)]
    one = f"    pub fn {name}({', '.join(list_)}) -> {r_type(answer)};\n"
    if len(one) > 170:
        one = f"    pub fn {name}(\n" + "".join(f"        {p},\n" for p in list_) + f"    ) -> {r_type(answer)};\n"
    return r_comment(lines, "    ") + one


def ffi(all_):
    head = "//! What the library has for C, as Rust sees it. Written by tools/declare.py from crates/hirqazhom/src/lib.rt: change it there.\nuse std::mem::{offset_of, size_of};\n"
    parts = [head, "/// The refusals' numbers, the limits, and the places of a verdict.\npub mod constants {\n" + "\n".join(r_constant(*c) for c in constants()) + "}\n"]
    parts += [r_struct(name, *s) for name, s in all_.items()]
    parts += ["// Sizes and offsets are those of the library.\nconst _: () = {\n" + "".join(r_layout(name, all_) for name in all_) + "};\n"]
    return "\n".join(parts) + '\nextern "C" {\n' + "".join(r_function(*f) for f in functions()) + "}\n"


# ---- the calls that stand by hand, in the header's second part and in the wrapper


def arguments(text, begin):
    """What stands between the commas from `begin` up to the bracket that closes there."""
    depth, parts = 1, [""]
    for c in text[begin:]:
        depth += (c in "([") - (c in ")]")
        if depth == 0:
            break
        if c == "," and depth == 1:
            parts.append("")
        else:
            parts[-1] += c
    return [p.strip() for p in parts if p.strip()]


def last_name(expression):
    """`tokens` of d->tokens.at; a decoder's value is lent for the parameter `decoder`."""
    name = re.search(r"(\w*)(\.at|\(\))?$", expression)[1]
    return "decoder" if name == "value" else name


def c_wanted(parameters):
    """By name; a slice has two arguments, the second of any name."""
    return [name for p, _, lent in parameters for name in ([p] if lent == "value" else [p, None])]


def r_wanted(parameters):
    """By name, and how it is lent."""
    return [f"{ {'value': 'v', 'read': 'r', 'written': 'w'}[lent]} {p}" for p, _, lent in parameters]


def calls_by_hand(known):
    """File, function, what its parameters want, and what a call gives."""
    for m in re.finditer(r"\b(hirqazhom_\w+)\(", text := HEADER.read_text().split(END)[1]):
        if m[1] in known:
            yield HEADER, m[1], c_wanted(known[m[1]]), [last_name(a) for a in arguments(text, m.end())]
    for file in sorted(FFI.parent.glob("*.rs")):
        for m in re.finditer(r"call!\((hirqazhom_\w+) \[\]", text := file.read_text()):
            yield file, m[1], r_wanted(known[m[1]]), [f"{a[0]} {last_name(a)}" for a in arguments(text, m.end())]


def mistaken_calls():
    """The calls that do not lend, in each parameter's place, what has its name."""
    known = {name: parameters for _, name, parameters, _ in functions()}
    for file, name, wanted, given in calls_by_hand(known):
        if len(wanted) != len(given):
            yield f"{file.relative_to(ROOT)}: {name} gets {len(given)} arguments for {len(wanted)}"
        yield from (f"{file.relative_to(ROOT)}: {name} gets {g} for {w}" for w, g in zip(wanted, given) if w not in (None, g))


def main():
    check = sys.argv[1:] == ["--check"]
    if sys.argv[1:] and not check:
        sys.exit(__doc__)
    all_ = structs()
    wrong = list(mistaken_calls())
    for file, text in [(HEADER, header(all_)), (FFI, ffi(all_))]:
        if file.read_text() != text and check:
            wrong.append(f"{file.relative_to(ROOT)} is not what crates/hirqazhom/src/lib.rt says: run tools/declare.py")
        elif file.read_text() != text:
            file.write_text(text)
            print(f"{file.relative_to(ROOT)} is written anew")
    print("\n".join(wrong), end="\n" if wrong else "")
    sys.exit(bool(wrong))


main()
