"""The cases of the read-back program, made from document 01's rules by hand: each is a text and what must be printed for it.

  python3 harness/readback_cases.py           runs ./readback on every case, and compares, its exit status too; exit 1 if one differs
  python3 harness/readback_cases.py --write   writes the texts and the lines that the gate compares: crates/listings, crates/readback, examples

Where an instruction ends is written down here, a blank between bytes and a bar between instructions, from the sheet's lengths: nothing here decodes.
"""
import os
import subprocess
import sys
import tempfile

ROOT = os.path.dirname(os.path.dirname(os.path.abspath(__file__)))
READBACK = os.path.join(ROOT, "readback")
LISTINGS = os.path.join(ROOT, "crates", "listings")
LONGEST = 65536


def line(kind, address, data, end="\n"):
    """A record of Intel's format."""
    body = bytes([len(data), address >> 8, address & 255, kind]) + data
    return f":{body.hex().upper()}{-sum(body) & 255:02X}{end}"


END = line(1, 0, b"")


def records(*parts, width=32):
    """The text of parts (address, instructions) in lines of that many bytes, and the end record."""
    text = ""
    for address, instructions in parts:
        data = bytes.fromhex(instructions.replace("|", " "))
        for at in range(0, len(data), width):
            text += line(0, address + at, data[at : at + width])
    return text + END


def listed(*parts, last=None):
    """What is printed for them: each part from its own address on, and the last line."""
    out, count = "", 0
    for address, instructions in parts:
        for instruction in instructions.split("|"):
            out += f"{address:04X} {instruction.strip().upper()}\n"
            address += len(instruction.split())
            count += 1
    return out + (last or f"end {count}\n")


def refused(number, *before):
    return listed(*before, last=f"refused {number}\n")


CODE = (0x0100, "A6 84 | 39")
TWO = ((0x0200, "86 05 | 8D 01 | 12"), (0x0100, "10 8E 12 34 | 39"))
# an old cartridge, as another assembler would write it: in the bits that the sheet leaves open, a PC postbyte carries the register that the instruction
# loads or stores, X 00, Y 20, U 40, S 60. All sixteen PC postbytes stand in it
OLD_CARTRIDGE = (
    # ORCC #$50, STX OLDX,PCR, STY OLDY,PCR, STU OLDU,PCR, STS OLDS,PCR
    # LDX [RACK1,PCR], LDY [RACK2,PCR], LDU [RACK3,PCR], LDS [STACK,PCR], JSR COUNT,PCR
    # LEAX NEW1,PCR, LEAY NEW2,PCR, LEAU NEW3,PCR, LEAS NEW,PCR
    # STX [KEPT1,PCR], STY [KEPT2,PCR], STU [KEPT3,PCR], STS [KEPT,PCR]
    # LDX OLDX,PCR, LDY OLDY,PCR, LDU OLDU,PCR, LDS OLDS,PCR, ANDCC #$AF, RTS
    (
        0xC000,
        "1A 50|AF 8C 6B|10 AF AC 69|EF CC 68|10 EF EC 66"
        "|AE 9C 65|10 AE BC 63|EE DC 62|10 EE FC 60|AD 8D 01 DE"
        "|30 8D 43 DA|31 AD 43 DE|33 CD 43 E2|32 ED 43 E6"
        "|AF 9D 1F CA|10 AF BD 1F C7|EF DD 1F C5|10 EF FD 1F C2"
        "|AE 8C 29|10 AE AC 27|EE CC 26|10 EE EC 24|1C AF|39",
    ),
    # COUNT DEC ,X, DEC ,Y, DEC ,U, RTS
    (0xC200, "6A 84|6A A4|6A C4|39"),
)
FILLER = "".join(line(0, 0x0100 + 255 * k, b"\x01" * 255) for k in range(125)) + line(0, 0x0100 + 255 * 125, b"\x01" * 131) + END
NOPS = [(0x0100 + 255 * k, b"\x12" * 255) for k in range(125)] + [(0x0100 + 255 * 125, b"\x12" * 131)]

# a name, a text, and what is printed for it
CASES = [
    # document 01's own; no instruction; the last line end missing
    ("example", ":03010000A6843999\n:00000001FF\n", "0100 A6 84\n0102 39\nend 2\n"),
    ("no_instruction", END, "end 0\n"),
    ("no_last_line_end", records(CODE)[:-1], listed(CODE)),
    # either case, LF or CR LF, and both mixed
    ("lower_case", records(CODE).lower(), listed(CODE)),
    ("cr_lf", records(CODE).replace("\n", "\r\n"), listed(CODE)),
    ("mixed", line(0, 0x0100, b"\xA6\x84").lower() + line(0, 0x0102, b"\x39", "\r\n") + END, listed(CODE)),
    # several runs, in the text's order; records that follow on are one run, also where an instruction crosses from one to the next
    ("several_runs", records(*TWO), listed(*TWO)),
    ("follows_on", records((0x0100, "10 AE 9F 12 34 | 16 FF F7"), width=3), listed((0x0100, "10 AE 9F 12 34 | 16 FF F7"))),
    ("same_address_twice", records(CODE, CODE), listed(CODE, CODE)),
    # a run that ends at FFFF, and one at 0000 after it, which does not follow on
    ("last_address", records((0xFFFD, "B6 C0 00")), listed((0xFFFD, "B6 C0 00"))),
    ("around_the_end", records((0xFFFF, "39"), (0x0000, "12")), listed((0xFFFF, "39"), (0x0000, "12"))),
    # each shape of an instruction
    (
        "shapes",
        records((0x8000, "0F 20|6F E9 01 00|7F C0 00|4F|5F|1A 50|34 FF|1F 8B|30 8C F0|A6 9F FF FE|20 FE|10 27 00 10|CC 12 34|10 DF 40|10 3F|11 83 00 01|3B")),
        listed((0x8000, "0F 20|6F E9 01 00|7F C0 00|4F|5F|1A 50|34 FF|1F 8B|30 8C F0|A6 9F FF FE|20 FE|10 27 00 10|CC 12 34|10 DF 40|10 3F|11 83 00 01|3B")),
    ),
    # the open bits of a PC postbyte
    ("old_cartridge", records(*OLD_CARTRIDGE, width=16), listed(*OLD_CARTRIDGE)),
    # 14: an undefined code, a second prefix, a postbyte, extended indirect with register bits, registers of two sizes; what stands before it is printed,
    # what follows is not
    ("undefined_code", records((0x0100, "12 01 12"), (0x0200, "39")), refused(14, (0x0100, "12"))),
    ("second_prefix", records((0x0100, "10 10 8E 12 34")), refused(14)),
    ("undefined_postbyte", records((0x0100, "A6 84 A6 87")), refused(14, (0x0100, "A6 84"))),
    ("extended_indirect_on_y", records((0x0100, "A6 9F 12 34 A6 BF 12 34")), refused(14, (0x0100, "A6 9F 12 34"))),
    ("unequal_registers", records((0x0200, "39"), (0x0100, "1F 18")), refused(14, (0x0200, "39"))),
    # 15: a run ends inside an instruction, though the next run begins with its byte
    ("cut_short", records((0x0100, "12 B6 C0"), (0x0200, "00 39")), refused(15, (0x0100, "12"))),
    ("cut_in_a_pc_offset", records((0x0100, "A6 AC 7F A6 BD 00")), refused(15, (0x0100, "A6 AC 7F"))),
    ("lone_prefix", records((0x0100, "39 11")), refused(15, (0x0100, "39"))),
    # 16, alone: no text, a wrong check, no end record, something after it, a blank line, a lone CR; and before 18
    ("nothing", "", refused(16)),
    ("wrong_check", ":03010000A6843998\n" + END, refused(16)),
    ("no_end_record", line(0, 0x0100, b"\x39"), refused(16)),
    ("after_the_end", records(CODE) + "\n", refused(16)),
    ("blank_line", line(0, 0x0100, b"\x39") + "\n" + END, refused(16)),
    ("lone_return", line(0, 0x0100, b"\x39", "\r") + END, refused(16)),
    ("broken_and_beyond", line(0, 0xFFFF, b"\x39\x39") + END + END, refused(16)),
    # 18, alone, though an instruction before it is refused
    ("beyond", records((0x0100, "01"), (0xFFFF, "39 39")), refused(18)),
    # 9: a text of 65,536 bytes is taken, one of 65,537 is not, whatever is wrong with it
    ("longest", FILLER, refused(14)),
    ("too_long", FILLER + "?", refused(9)),
]

# the listing with the most lines, which is not kept as a file
LARGEST = ("".join(line(0, a, d) for a, d in NOPS) + END, "".join(f"{0x0100 + k:04X} 12\n" for k in range(sum(len(d) for _, d in NOPS))) + "end 32006\n")

# the fragment of a tip counter: its rack has 96 tips, and the sensor's port is at C000
TIP_COUNTER = (
    # START LDS #$0400, LDA #96, STA TIPS, LDX #PORT
    # PICK LDA ,X, ANDA #1, BEQ PICK, DEC TIPS, BEQ EMPTY
    # DROP LDA ,X, ANDA #1, BNE DROP, BRA PICK
    # EMPTY LDA #$80, STA 1,X, STOP BRA STOP
    (0xF000, "10 CE 04 00|86 60|B7 01 00|8E C0 00|A6 84|84 01|27 FA|7A 01 00|27 08|A6 84|84 01|26 FA|20 ED|86 80|A7 01|20 FE"),
    # TICK INC TICKS, RTI
    (0xF100, "7C 01 01|3B"),
)

EXAMPLES = {"tip_counter.hex": TIP_COUNTER, "old_cartridge.hex": OLD_CARTRIDGE}


def write(path, text):
    os.makedirs(os.path.dirname(path), exist_ok=True)
    with open(path, "w", newline="") as out:
        out.write(text)


def write_all():
    for name, text, _ in CASES:
        write(os.path.join(LISTINGS, "data", name), text)
    write(os.path.join(LISTINGS, "stdout"), "".join(f"{name}:\n{lines}" for name, _, lines in CASES))
    _, text, lines = CASES[0]
    write(os.path.join(ROOT, "crates", "readback", "stdin"), text)
    write(os.path.join(ROOT, "crates", "readback", "stdout"), lines)
    for name, image in EXAMPLES.items():
        write(os.path.join(ROOT, "examples", name), records(*image, width=16))


def status(lines):
    """0 all read, 1 refused, 2 nothing could be read."""
    last = lines.rstrip("\n").split("\n")[-1]
    return {"end": 0, "refused": 1, "": 2}[last.split(" ")[0]]


def run_all():
    _, example, printed = CASES[0]
    cases = [(name, [READBACK], text, lines) for name, text, lines in CASES + [("largest", *LARGEST)]]
    cases += [(name, [READBACK, os.path.join(ROOT, "examples", name)], "", listed(*image)) for name, image in EXAMPLES.items()]
    cases += [("a dash for a file", [READBACK, "-"], example, printed)]
    differing = 0
    with tempfile.TemporaryDirectory() as elsewhere:
        link = os.path.join(elsewhere, "link")
        os.symlink(READBACK, link)
        write(os.path.join(elsewhere, "example"), example)
        cases += [("through a link", ["./link", "example"], "", printed), ("no such file", ["./link", "none"], example, "")]
        for name, words, text, lines in cases:
            done = subprocess.run(words, input=text.encode(), capture_output=True, cwd=elsewhere)
            if (done.stdout, done.returncode) != (lines.encode(), status(lines)):
                differing += 1
                print(f"{name}: printed {done.stdout[:200]!r}, expected {lines[:200]!r}, status {done.returncode} {done.stderr.decode()}")
    print(f"{len(cases)} compared, {differing} differ")
    return 1 if differing else 0


assert len(FILLER) == LONGEST and len(LARGEST[0]) == LONGEST
if sys.argv[1:] == ["--write"]:
    write_all()
elif sys.argv[1:]:
    sys.exit(__doc__)
else:
    sys.exit(run_all())
