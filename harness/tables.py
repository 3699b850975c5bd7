"""Writes the published tables that the program `published` compares with the library, to crates/published/data, and says what it wrote:

  opcodes    the sheet's opcode map, all 3 x 256 codes:           PAGE CODE FORM OPERATION
  codes      the same the other way, every name in every form:    OPERATION FORM PAGE CODE
  postbytes  the sheet's postbyte table, all 256, as LDA at 0100: POSTBYTE LENGTH KIND REGISTER INDIRECT NUMBER
             with the bytes 12 34 after the postbyte; the number is an offset, a target, an accumulator, a step or an address
  negatives  the same with the bytes FE DC, so that offsets of one and of two bytes are negative
  pushes     the sheet's boxes of the push byte, all 4 x 256:     CODE BYTE SET
             of PSHS, PULS, PSHU and PULU, with the set of registers that the byte names
  lists      the same the other way, every set of registers:      OWN COUNT REGISTERS BYTE
             with D in place of A and B too; and none and the own pointer, which have no byte
  capstone   what Debian's capstone 4.0.2 (`cstool m6809`) says:  BYTES LENGTH OPERATION FAULT
             FAULT is - where it is right, x where it reads a transfer of unequal sizes

All numbers but lengths and counts are hexadecimal, those of docs/ROWS.md; - stands for undefined. All but the last come from docs/SHEET.md alone.
Beside each stands a damaged one (damaged.py). Needs Debian's capstone-tool.
"""
import os
import random
import re
import subprocess

import damaged
import machine
import sheet

OUT = os.path.join(sheet.ROOT, "crates", "published", "data")


def opcode_lines():
    rows = sheet.opcodes()
    for prefix in (0x00, 0x10, 0x11):
        for code in range(256):
            operation, form = rows.get((prefix, code), (None, None))
            yield f"{prefix:02X} {code:02X} " + ("- --" if operation is None else f"{form} {operation:02X}")


def code_lines():
    codes = sheet.codes()
    for operation in sheet.OPERATIONS.values():
        for form in sheet.FORMS.values():
            page, code = codes.get((operation, form), (None, None))
            yield f"{operation:02X} {form} " + ("-- --" if page is None else f"{page:02X} {code:02X}")


def postbyte_lines(first, second):
    """The postbytes with two bytes after each, as the sheet's table reads them; offsets are two's complement."""
    rows = sheet.postbytes()
    for byte in range(256):
        if byte not in rows:
            yield f"{byte:02X} - - - - ----"
            continue
        extra, kind, register, detail, indirect = rows[byte]
        number = {0: detail, 1: first - 256 * (first > 127), 2: 256 * first + second}[extra]
        if kind == sheet.KINDS["pc"]:
            number += 0x0100 + 2 + extra
        if kind == sheet.KINDS["address"]:
            indirect = 0  # the kind itself says so
        yield f"{byte:02X} {2 + extra} {kind:X} {register} {indirect} {number % 65536:04X}"


def ticked(own, byte):
    """The registers whose boxes a push byte ticks, bit 7 first."""
    return [register for i, register in enumerate(sheet.boxes(own)) if byte >> 7 - i & 1]


def push_lines():
    codes = sheet.codes()
    for name in ("PSHS", "PULS", "PSHU", "PULU"):
        _, code = codes[sheet.OPERATIONS[name], sheet.FORMS["register"]]
        for byte in range(256):
            yield f"{code:02X} {byte:02X} {sum(1 << register for register in ticked(name[-1], byte)):04X}"


def list_line(own, registers, byte):
    return f"{sheet.REGISTERS[own]} {len(registers)} {''.join(map(str, registers)):-<8} {byte}"


def list_lines():
    a, b, d = (sheet.REGISTERS[name] for name in "ABD")
    for own in "SU":
        yield list_line(own, [], "--")
        yield list_line(own, [sheet.REGISTERS[own]], "--")
        for byte in range(1, 256):
            registers = ticked(own, byte)
            yield list_line(own, registers, f"{byte:02X}")
            if a in registers and b in registers:
                yield list_line(own, [d] + [register for register in registers if register not in (a, b)], f"{byte:02X}")


def cstool(bytes_):
    out = subprocess.run(["cstool", "m6809", bytes_.hex(), "0x100"], capture_output=True, text=True).stdout
    first = out.split("\n")[0]
    found = re.match(r"\s*[0-9a-f]+  ((?:[0-9a-f]{2} )+) (\w+)", first)
    length, name = len(found.group(1).split()), found.group(2).upper()
    return (0, None) if name == "FCB" else (length, name)


def sample():
    for prefix in ("", "10", "11"):
        for code in range(256):
            yield bytes.fromhex(prefix) + bytes([code, 0x84, 0x12, 0x34])
    for postbyte in range(256):
        yield bytes([0xA6, postbyte, 0x12, 0x34])
        yield bytes([0x1F, postbyte, 0x12, 0x34])
    chance = random.Random(6809)
    for _ in range(2000):
        yield bytes(chance.randrange(256) for _ in range(5))


def capstone_lines():
    for bytes_ in sample():
        bytes_ = (bytes_ + bytes(5))[:5]
        length, name = cstool(bytes_)
        operation = "--" if name is None else f"{sheet.OPERATIONS[name]:02X}"
        fault = "x" if name and sheet.unequal_transfer(bytes_) else "-"
        yield f"{bytes_.hex().upper()} {length} {operation} {fault}"


def write(name, lines):
    lines = list(lines)
    os.makedirs(OUT, exist_ok=True)
    with open(os.path.join(OUT, name), "w") as out:
        out.writelines(line + "\n" for line in lines)
    print(f"crates/published/data/{name}: {len(lines)} lines")


if __name__ == "__main__":
    machine.need("cstool", "capstone-tool")
    write("opcodes", opcode_lines())
    write("codes", code_lines())
    write("postbytes", postbyte_lines(0x12, 0x34))
    write("negatives", postbyte_lines(0xFE, 0xDC))
    write("pushes", push_lines())
    write("lists", list_lines())
    write("capstone", capstone_lines())
    damaged.write("published")
