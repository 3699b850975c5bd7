"""The numbers of docs/ROWS.md and the facts of docs/SHEET.md, read from those pages. Nothing here knows of this project's code."""
import functools
import os
import re

ROOT = os.path.join(os.path.dirname(os.path.abspath(__file__)), "..")


def page(name):
    with open(os.path.join(ROOT, "docs", name)) as text:
        return text.read()


def numbers(title):
    """{name: number} of the table `| number | name |` under a heading of docs/ROWS.md."""
    part = page("ROWS.md").split(f"\n## {title}\n")[1].split("\n## ")[0]
    return {name.strip("`"): int(number) for number, name in re.findall(r"^\| (\d+) \| (.+?) \|$", part, re.M)}


OPERATIONS = numbers("Operations")
FORMS = {name.lower(): number for name, number in numbers("Forms").items()}
REGISTERS = numbers("Registers")
KINDS = numbers("Meaning kinds")


@functools.cache
def opcodes():
    """{(page, code): (operation, form)} of all that the sheet defines."""
    text = page("SHEET.md")
    found = {}
    for high, mode, cells in re.findall(r"^\| ([0-9A-F]0) \| ([a-z0-9 ]+) \|(.+)\|$", text, re.M):
        for low, name in enumerate(cell.strip() for cell in cells.split("|")):
            if name != "." and not name.startswith("page"):
                found[0x00, int(high, 16) + low] = (OPERATIONS[name], FORMS.get(mode.split()[0]))
    # the sixteens of several modes, and BSR: the lines below the map
    for codes, mode in re.findall(r"((?:[0-9A-F]{2} [A-Z0-9]+(?:, )?)+): (inherent|relative|immediate|transfer byte|push byte|indexed)", text.split("## Page 2")[0]):
        form = FORMS[{"transfer byte": "register", "push byte": "register"}.get(mode, mode)]
        for code, name in re.findall(r"([0-9A-F]{2}) ([A-Z0-9]+)", codes):
            found[0x00, int(code, 16)] = (OPERATIONS[name], form)
    for prefix, codes in re.findall(r"^\| (1[01]) \| (.+) \|$", text.split("## Page 2")[1].split("## Indexed")[0], re.M):
        one = int(prefix, 16)
        names, modes = codes.rsplit(": ", 1)
        forms = [FORMS[mode.split()[0]] for mode in modes.split(", ")]
        for word in names.split(", "):
            parts = word.split()
            if re.fullmatch(r"[0-9A-F]{2}", parts[0]):
                found[one, int(parts[0], 16)] = (OPERATIONS[parts[1]], forms[0])
            else:
                for code, form in zip(parts[1:], forms):
                    found[one, int(code, 16)] = (OPERATIONS[parts[0]], form)
    return found


def postbytes():
    """{postbyte: (bytes after it, kind, register, indirect, detail)} by the sheet's table; detail is a five-bit offset, an accumulator or a step."""
    table = page("SHEET.md").split("## Indexed addressing")[1].split("## Push byte")[0]
    lines = [[cell.strip().strip("`") for cell in line.strip().strip("|").split("|")] for line in table.split("\n") if line.startswith("|")][2:]
    found, kind = {}, ""
    for line in lines:
        kind = line[0] or kind
        for pattern, extra, indirect in ((line[2], line[3], 0), (line[4], line[5], 1)):
            if re.fullmatch(r"[01Rxn]{8}", pattern):
                for byte in matching(pattern):
                    found[byte] = (int(extra), *operand(kind, line[1], byte, pattern), indirect)
    return found


def matching(pattern):
    """The postbytes of a pattern: R, n and x stand for either bit."""
    return [b for b in range(256) if all(p in "Rnx" or str(b >> (7 - i) & 1) == p for i, p in enumerate(pattern))]


def operand(kind, form, byte, pattern):
    register = REGISTERS["XYUS"[byte >> 5 & 3]]
    if kind.startswith("constant offset from PC"):
        return KINDS["pc"], 0, 0
    if kind.startswith("constant offset"):
        five = (byte & 31) - (32 if byte & 16 else 0)
        return KINDS["offset"], register, five % 65536 if "n" in pattern else 0
    if kind.startswith("accumulator"):
        return KINDS["accumulator"], register, REGISTERS[form]
    if kind.startswith("auto"):
        step = {",R+": 1, ",R++": 2, ",-R": 3, ",--R": 4}[form.split("`")[1]]
        return KINDS["step"], register, step
    return KINDS["address"], 0, 0


def codes():
    """{(operation, form): (page, code)} of every name, second names included."""
    found = {row: code for code, row in opcodes().items()}
    for name, second in seconds():
        found.update({(OPERATIONS[second], form): code for (operation, form), code in list(found.items()) if operation == OPERATIONS[name]})
    return found


def seconds():
    """(name, second name) of each operation that is written in two ways."""
    sentence = re.search(r"^ASL is also written .*$", page("SHEET.md"), re.M).group(0)
    for name, second, on in re.findall(r"(\w+) (?:is )?also (?:written )?(\w+)( \(on A and B too\))?", sentence):
        yield from ((name + a, second + a) for a in ("", "A", "B")[: 3 if on else 1])


def unequal_transfer(data):
    """Whether the bytes are EXG or TFR of registers of two sizes, which the sheet does not have: the codes of registers of 8 bits have their high bit set."""
    operation, _ = opcodes().get((0, data[0]), (None, None))
    return operation in (OPERATIONS["EXG"], OPERATIONS["TFR"]) and len(data) > 1 and data[1] >> 7 != data[1] >> 3 & 1


def boxes(own):
    """The registers of the push byte's boxes, bit 7 first, where the stack pointer is S or U."""
    row = re.search(rf"^\| PSH{own}, PUL{own} \| (.*) \|$", page("SHEET.md"), re.M).group(1)
    return [REGISTERS[name] for name in row.split(" | ")]
