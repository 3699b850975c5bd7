#!/usr/bin/env python3
"""Holds include/joltwagon.h and rust/joltwagon to the source: each exported function of crates/joltwagon/src has a prototype of the same
parameters and return in both and the other way round, and each number is that of docs/ROWS.md. Exit status 1 if something differs."""
import glob
import os
import re
import sys

ROOT = os.path.join(os.path.dirname(os.path.abspath(__file__)), "..")
TYPES = {"u8": "uint8_t", "u16": "uint16_t", "u32": "uint32_t", "usize": "size_t", "": "void"}
differing = []


def read(*names):
    with open(os.path.join(ROOT, *names)) as file:
        return file.read()


def c_types(parameters):
    """A slice goes as a pointer and a length."""
    for parameter in filter(None, (p.strip() for p in parameters.split(","))):
        kind = parameter.split(":")[1].strip()
        slice_of = re.fullmatch(r"&(mut )?\[(\w+)\]", kind)
        if slice_of:
            yield ("" if slice_of.group(1) else "const ") + TYPES[slice_of.group(2)] + " *"
            yield "size_t"
        else:
            yield TYPES[kind]


def exported():
    found = {}
    for path in glob.glob(os.path.join(ROOT, "crates/joltwagon/src/*.rt")):
        with open(path) as file:
            text = file.read()
        for name, parameters, back in re.findall(r'#\[unsafe\(no_mangle\)\]\npub extern "C" fn (\w+)\(([^)]*)\)(?: -> (\w+))?', text):
            found[name] = (TYPES[back], list(c_types(parameters)))
    return found


def declared(header):
    found = {}
    for back, name, parameters in re.findall(r"^(\w+) (jw_\w+)\(([^)]*)\);", header, re.M):
        kinds = [re.sub(r"\w+$", "", " ".join(p.split())).replace(" * ", " *").rstrip() for p in parameters.split(",")]
        found[name] = (back, [k if k.endswith("*") else k.strip() for k in kinds])
    return found


def bound():
    """The declarations of the Rust crate."""
    found = {}
    for name, parameters, result in re.findall(r"pub fn (jw_\w+)\(([^)]*)\)(?: -> (\w+))?;", read("rust/joltwagon/src/raw.rs")):
        kinds = []
        for parameter in parameters.split(", "):
            kind = parameter.split(": ")[1]
            pointer = re.fullmatch(r"\*(const|mut) (\w+)", kind)
            kinds.append(("const " if pointer.group(1) == "const" else "") + TYPES[pointer.group(2)] + " *" if pointer else TYPES[kind])
        found[name] = (TYPES[result], kinds)
    return found


def section(heading):
    """What stands under a heading of docs/ROWS.md, up to the next one of its level; a heading may go on after what is given of it."""
    level = heading.split(" ")[0]
    return re.search(rf"^{re.escape(heading)}\b.*?$(.*?)(?=^{level} |\Z)", read("docs/ROWS.md"), re.M | re.S).group(1)


def lines(text):
    """The lines of a table that begin with a number: what it stands for to the number."""
    return {name: int(number) for number, name in re.findall(r"^\| (\d+) \| (.*?) \|$", text, re.M)}


def numbered(title):
    return lines(section("## " + title))


def places(layout):
    return lines(section("### " + layout))


def statement_kinds():
    """Kinds stand in one line: `0 a bare label, 1 an instruction, 2 RMB` and so on."""
    [line] = re.findall(r"^\| 0 \| kind: (.*); another is 1 \|$", section("### Statements"), re.M)
    return {name: int(number) for number, name in re.findall(r"(\d+) (?:an? )?([^,]+)", line)}


def constants(header):
    return {name: int(number) for name, number in re.findall(r"\b(JW_\w+) = (\d+)", header)}


header = read("include/joltwagon.h")
source, prototypes, numbers = exported(), declared(header), constants(header)
for where, found in (("the header", prototypes), ("the Rust crate", bound())):
    for name in sorted(source.keys() | found.keys()):
        if source.get(name) != found.get(name):
            differing.append(f"{name}: {source.get(name)} in the source, {found.get(name)} in {where}")


def held(table, prefix, rename=lambda name: name):
    for name, number in table.items():
        constant = "JW_" + prefix + rename(name)
        if numbers.get(constant) != number:
            differing.append(f"{constant}: {numbers.get(constant)} in the header, {number} in docs/ROWS.md")


def shouted(name):
    """PCRelative is PC_RELATIVE."""
    return re.sub(r"(?<=[a-z])(?=[A-Z])|(?<=[A-Z])(?=[A-Z][a-z])", "_", name).upper()


STEPS = {"none": "NONE", "`,R+`": "INC", "`,R++`": "INC2", "`,-R`": "DEC", "`,--R`": "DEC2"}
held(numbered("Operations"), "")
operations = {name: int(n) for name, n in re.findall(r'\("(\w+)", (\d+)\)', read("rust/joltwagon/src/operations.rs"))}
if operations != numbered("Operations"):
    differing.append("the Rust crate's operations are not those of docs/ROWS.md")
held(numbered("Parser modes"), "MODE_", shouted)
held(numbered("Forms"), "FORM_", shouted)
held(numbered("Registers"), "")
held(numbered("Steps"), "STEP_", STEPS.get)
held(numbered("Pages"), "PAGE_", str.upper)
held(numbered("Fields"), "FIELD_", str.upper)
held({name: n for name, n in numbered("Reasons").items() if name != "refused"}, "REASON_", shouted)
held(places("Explanations"), "WHY_", lambda name: name.split(":")[0].upper())
held(statement_kinds(), "", lambda name: name.upper().replace(" ", "_"))
held({"PAGE": places("Present rows")["the page"], "RECORD_PRESENT": places("Records")["the page"]}, "")
crate = {name: int(n) for name, n in re.findall(r"pub const (\w+): u16 = (\d+);", read("rust/joltwagon/src/raw.rs"))}
for name, number in crate.items():
    if numbers.get("JW_" + name) != number:
        differing.append(f"{name}: {number} in the Rust crate, {numbers.get('JW_' + name)} in the header")
for name, number in numbered("Meaning kinds").items():
    if name != "none" and numbers.get("JW_KIND_" + name.upper()) != number:
        differing.append(f"JW_KIND_{name.upper()}: not {number}")
variants = re.findall(r"^    (\w+)(?: = (\d+))?,$", read("crates/ground/src/refusals.rt"), re.M)
if [given for _, given in variants] != ["1"] + [""] * (len(variants) - 1):
    differing.append("the refusals of the source are not numbered from 1 on")
refusals = {"JW_ACCEPTED": 0} | {"JW_" + shouted(name): number for number, (name, _) in enumerate(variants, 1)}
refusals_declared = re.findall(r"(JW_\w+) = ", re.search(r"enum jw_refusal \{.*?\};", header, re.S).group())
for name in dict.fromkeys([*refusals, *refusals_declared]):
    if numbers.get(name) != refusals.get(name):
        differing.append(f"{name}: {numbers.get(name)} in the header, {refusals.get(name)} in the source")

for line in differing:
    print(line)
print(f"header: {len(source)} functions and {len(numbers)} numbers, {len(differing)} differ")
sys.exit(1 if differing else 0)
