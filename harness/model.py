"""Document 01's back end, as document 02 changed it, said a second time, in plain Python, to compare the library with: values, builds, statements, passes, text.

It is written from documents 01 and 02, docs/DECISIONS.md and docs/SHEET.md, knows nothing of the proved code, and makes no claim to speed. A refusal is an
exception that carries its number. The page of direct addresses is a number, or None where it is unknown.
"""
import sheet

NONE = 65535
ROW = 20
REGISTER, OFFSET, PCRELATIVE, INCDEC, EXTENDED, DIRECT, IMMEDIATE, INHERENT = range(8)
BARE, INSTRUCTION, RMB, FCB, FDB, FCC, ORG, SETDP = range(8)

NAMES = {number: name for name, number in sheet.OPERATIONS.items()}
OPERATIONS, FORMS, REGISTERS = sheet.OPERATIONS, sheet.FORMS, sheet.REGISTERS
ALIASES = {"LSL": "ASL", "LSLA": "ASLA", "LSLB": "ASLB", "BHS": "BCC", "BLO": "BCS", "LBHS": "LBCC", "LBLO": "LBCS"}
WIDE_IMMEDIATES = {(0, 0x83), (0, 0x8C), (0, 0x8E), (0, 0xC3), (0, 0xCC), (0, 0xCE)}
CODES = {row: code for code, row in sheet.opcodes().items()}
A, B, D, X, Y, U, S, PC, CC, DP = (REGISTERS[name] for name in ("A", "B", "D", "X", "Y", "U", "S", "PC", "CC", "DP"))
PAIRS = [OPERATIONS["EXG"], OPERATIONS["TFR"]]
PUSHES = [OPERATIONS[name] for name in ("PSHS", "PULS", "PSHU", "PULU")]


class Refused(Exception):
    def __init__(self, number):
        super().__init__(number)
        self.number = number


def merged(operation):
    name = NAMES.get(operation)
    return OPERATIONS[ALIASES.get(name, name)] if name else None


def code_of(operation, form):
    """(prefix, code) of an operation in a form, or None; the prefix is 0 where there is none."""
    return CODES.get((merged(operation), FORMS[form]))


def is_long(prefix, code):
    return prefix == 0x10 or code in (0x16, 0x17)


def number_bytes(operation, form):
    """How many bytes of number follow the code of an immediate or a branch."""
    prefix, code = code_of(operation, form)
    if form == "immediate":
        return 2 if prefix or (prefix, code) in WIDE_IMMEDIATES else 1
    return 2 if is_long(prefix, code) else 1


def smallest_size(operation):
    sizes = []
    for form in FORMS:
        code = code_of(operation, form) if operation in NAMES else None
        if code:
            size = (2 if code[0] else 1) + {"inherent": 0, "direct": 1, "indexed": 1, "extended": 2, "register": 1}.get(form, 0)
            sizes.append(size + (number_bytes(operation, form) if form in ("immediate", "relative") else 0))
    return min(sizes, default=0)


# ---- labels and expressions
class Values:
    """The nodes and the labels, and what they are worth."""

    def __init__(self, nodes, labels):
        self.nodes, self.labels = nodes, labels

    def node(self, number, here, left=32):
        """(number, whether a location or an address label was reached); 11 before 10."""
        if left == 0 or number >= len(self.nodes):
            raise Refused(11)
        kind, first, second = self.nodes[number]
        if kind == 0:
            return first, False
        if kind == 1:
            if left == 1:
                raise Refused(11)
            return self.label(first, left - 2)
        if kind == 2:
            return here, True
        if kind == 3:
            value, wide = self.node(first, here, left - 1)
            return -value % 65536, wide
        if kind in (4, 5, 6):
            (a, wide), (b, wider) = both(lambda: self.node(first, here, left - 1), lambda: self.node(second, here, left - 1))
            return {4: a + b, 5: a - b, 6: a * b}[kind] % 65536, wide or wider
        raise Refused(11)

    def label(self, number, left=32):
        state, own, node = self.labels[number] if number < min(512, len(self.labels)) else (0, 0, 0)
        if state == 1:
            return own, True
        if state == 2:
            if left == 0:
                raise Refused(11)
            return self.node(node, own, left - 1)
        raise Refused(10)

    def pair(self, number, here):
        """The unsigned and the signed evaluation, each (number, width)."""
        value, wide = self.node(number, here)
        return stored(value, wide or value > 255), stored(value, wide or 127 < value < 65408)


def stored(value, wide):
    return (value, 16) if wide else (value % 256, 8)


def both(first, second):
    """Two parts of one expression: 11 of either before 10 of either."""
    answers, worst = [], 0
    for part in (first, second):
        try:
            answers.append(part())
        except Refused as refused:
            worst = 11 if 11 in (worst, refused.number) else refused.number
            if worst == 11:
                break
    if worst:
        raise Refused(worst)
    return answers


# ---- one instruction
def on_page(page, address):
    """Whether a direct code reaches the address: the page "is known and equals its high byte"."""
    return page is not None and address >> 8 == page


def form_of(operation, mode, indirect, forced, pair, page):
    """The form that a fresh record takes, and whether Direct is on trial; 2 where the row has no such mode."""
    own = "register" if merged(operation) in PAIRS + PUSHES else None
    form, trial = None, False
    if mode == REGISTER:
        form = own or "indexed"
    elif own:
        form = None
    elif mode in (OFFSET, PCRELATIVE, INCDEC):
        form = "indexed"
    elif mode == EXTENDED and indirect:
        form = "indexed"
    elif mode == EXTENDED:
        if code_of(operation, "extended"):
            trial = not forced and pair is not None and on_page(page, pair[0][0])
            form = "direct" if trial else "extended"
        else:
            form = "relative"
    else:
        form = {DIRECT: "direct", IMMEDIATE: "immediate", INHERENT: "inherent"}[mode]
    if form is None or not code_of(operation, form):
        raise Refused(2)
    return form, trial


def check_operand(o):
    """1 and 2, which are told before any value is evaluated."""
    operation, mode, indirect, forced, step, widening, count, registers = o
    if operation not in NAMES or mode > 7 or step > 4 or max(indirect, forced, widening) > 1 or count > 8:
        raise Refused(1)
    if any(register > 9 for register in registers[:count]) or (mode == INCDEC and step == 0):
        raise Refused(1)
    form_of(operation, mode, indirect, forced, None, None)


def build(o, pair, page, here):
    """(bytes, whether the page is unknown after it) of a fresh instruction; refusals 3, 7, 6, 5, 4, 8 in this order."""
    operation, mode, indirect, forced, step, widening, count, registers = o
    registers = registers[:count]
    form, _ = form_of(operation, mode, indirect, forced, pair, page)
    if mode in (EXTENDED, DIRECT, IMMEDIATE, PCRELATIVE) and pair is None:
        raise Refused(3)
    unsigned = pair[0] if pair else None
    prefix, code = code_of(operation, form)
    head = ([prefix] if prefix else []) + [code]
    if form == "inherent":
        if pair:
            raise Refused(6)
        return head, False
    if form == "immediate":
        return head + immediate(number_bytes(operation, form), *unsigned), False
    if form == "direct":
        # one on trial was chosen because it lies on the page
        if not on_page(page, unsigned[0]):
            raise Refused(7)
        # "the 6 for a wide forced value under known page 0 only"
        if forced and unsigned[1] == 16 and page == 0:
            raise Refused(6)
        return head + [unsigned[0] % 256], False
    if form == "extended":
        return head + [unsigned[0] >> 8, unsigned[0] & 255], False
    if form == "relative":
        return branch(operation, unsigned[0], widening, here), False
    if form == "register":
        return head + [register_byte(merged(operation), registers)], loads_dp(merged(operation), registers)
    return head + index(mode, indirect, step, registers, pair, here, len(head)), False


def immediate(size, number, width):
    if size == 1 and width == 16 and number > 255:
        raise Refused(6)
    return [number % 256] if size == 1 else [number >> 8, number & 255]


def branch(operation, target, widening, here):
    prefix, code = code_of(operation, "relative")
    if number_bytes(operation, "relative") == 1:
        distance = (target - here - 2) % 65536
        if distance < 128 or distance >= 65408:
            return [code, distance & 255]
        if not widening:
            raise Refused(8)
        name = NAMES[merged(operation)]
        prefix, code = code_of(OPERATIONS["L" + name], "relative")
    head = ([prefix] if prefix else []) + [code]
    distance = (target - here - len(head) - 2) % 65536
    return head + [distance >> 8, distance & 255]


def register_byte(operation, registers):
    if operation in PAIRS:
        codes = {D: 0, X: 1, Y: 2, U: 3, S: 4, PC: 5, A: 8, B: 9, CC: 10, DP: 11}
        if len(registers) != 2 or (codes[registers[0]] >> 3) != (codes[registers[1]] >> 3):
            raise Refused(4)
        return codes[registers[0]] << 4 | codes[registers[1]]
    own = S if NAMES[operation].endswith("S") else U
    if not registers or own in registers:
        raise Refused(4)
    bits = {CC: 0x01, A: 0x02, B: 0x04, D: 0x06, DP: 0x08, X: 0x10, Y: 0x20, U: 0x40, S: 0x40, PC: 0x80}
    byte = 0
    for register in registers:
        byte |= bits[register]
    return byte


def loads_dp(operation, registers):
    if operation == OPERATIONS["TFR"]:
        return registers[1] == DP
    return operation in (OPERATIONS["EXG"], OPERATIONS["PULS"], OPERATIONS["PULU"]) and DP in registers


def index(mode, indirect, step, registers, pair, here, size):
    """The postbyte and what follows it, behind a code of so many bytes."""
    bits = {X: 0x00, Y: 0x20, U: 0x40, S: 0x60}
    plus = 0x10 if indirect else 0
    if mode == EXTENDED:
        return [0x9F, pair[0][0] >> 8, pair[0][0] & 255]
    if mode == INCDEC:
        if indirect and step in (1, 3):
            raise Refused(5)
        if len(registers) != 1 or registers[0] not in bits:
            raise Refused(4)
        return [0x80 + step - 1 + bits[registers[0]] + plus]
    if mode == REGISTER:
        if len(registers) != 2 or registers[0] not in (A, B, D) or registers[1] not in bits:
            raise Refused(4)
        return [{A: 0x86, B: 0x85, D: 0x8B}[registers[0]] + bits[registers[1]] + plus]
    if mode == PCRELATIVE:
        if registers != [PC]:
            raise Refused(4)
        near = (pair[0][0] - here - size - 2) % 65536
        if near < 128 or near >= 65408:
            return [0x8C + plus, near & 255]
        far = (near - 1) % 65536
        return [0x8D + plus, far >> 8, far & 255]
    if len(registers) != 1 or registers[0] not in (X, Y, U, S, PC):
        raise Refused(4)
    number, width = pair[1] if pair else (0, 8)
    if registers[0] == PC:
        return [0x8C + plus, number] if width == 8 else [0x8D + plus, number >> 8, number & 255]
    value = number - (256 if width == 8 and number > 127 else 65536 if width == 16 and number > 32767 else 0)
    if value == 0:
        return [0x84 + bits[registers[0]] + plus]
    if not indirect and -16 <= value <= 15:
        return [bits[registers[0]] | (value & 31)]
    return [0x88 + bits[registers[0]] + plus, number] if width == 8 else [0x89 + bits[registers[0]] + plus, number >> 8, number & 255]


# ---- statements
ORDER = [1, 2, 11, 10, 3, 12, 17, 7, 6, 5, 4, 8]


def first_of(refusals):
    """Of the refusals that a statement meets the one that comes first in 01's order."""
    met = [number for number in refusals if number]
    return min(met, key=ORDER.index) if met else 0


def asked(part):
    """(answer, 0) or (None, refusal)."""
    try:
        return part(), 0
    except Refused as refused:
        return None, refused.number


SAME = object()


class Effect:
    """What a statement does: `to` is where it moves, `page` the page after it, SAME for the one before. A refused one does neither."""

    def __init__(self, refusal=0, size=0, to=None, page=SAME, values=()):
        self.refusal, self.size, self.to, self.page, self.values = refusal, size, to, page, list(values)


def operand_in(row):
    cells = row[5:]
    return (*cells[:6], cells[6], list(cells[7:15]))


def effect(row, items, worth, here, page, ill):
    """What a statement does at an address under a page: its refusal, what it counts, where it moves, the page after it, its values (number, width)."""
    kind, _, node, first, count = row[:5]
    own = 10 if ill else 0
    if kind == BARE:
        return Effect(own)
    if kind == INSTRUCTION:
        o = operand_in(row)
        _, early = asked(lambda: check_operand(o))
        if early:
            return Effect(early, smallest_size(o[0]))
        pair, late = asked(lambda: worth.pair(node, here)) if node != NONE else (None, 0)
        if late or own:
            return Effect(first_of([late, own]), smallest_size(o[0]))
        answer, why = asked(lambda: build(o, pair, page, here))
        if why:
            return Effect(why, smallest_size(o[0]))
        return Effect(0, len(answer[0]), page=None if answer[1] else SAME, values=[(byte, 8) for byte in answer[0]])
    if kind in (RMB, ORG):
        at = here if kind == RMB else 0
        pair, why = asked(lambda: worth.pair(node, at)) if node != NONE else (None, 3)
        why = first_of([why, own])
        if why:
            return Effect(why)
        return Effect(0, pair[0][0]) if kind == RMB else Effect(to=pair[0][0])
    if kind in (FCB, FDB, FCC):
        listed = [items[k] if k < len(items) else NONE for k in range(first, first + count)]
        met, values = [own], []
        for item in listed:
            value, why = datum(kind, item, worth, here)
            met.append(why)
            values.append(value)
        return Effect(first_of(met), count * (2 if kind == FDB else 1), values=values)
    if kind == SETDP:
        # its number stands in the row itself, where others have their node
        why = first_of([1 if node > 255 else 0, own])
        return Effect(why) if why else Effect(page=node)
    return Effect(1)


def datum(kind, item, worth, here):
    if kind == FCC:
        return ((item, 8), 0) if item < 256 else (None, 1)
    if item == NONE:
        return None, 3
    pair, why = asked(lambda: worth.pair(item, here))
    if why:
        return None, why
    if kind == FCB:
        return (pair[0], 0) if pair[0][1] == 8 else (None, 6)
    return (pair[0][0], 16), 0


def counted(at, e):
    if at + e.size <= 65536:
        return e
    return Effect(e.refusal or 18)


# ---- passes
def rows(table, width):
    return [list(table[k:k + width]) for k in range(0, len(table) - width + 1, width)]


def settle(list_, items, nodes, labels):
    """(refusal, passes, addresses and states of the 512 labels, [(statement, address, effect)] of the settled pass)."""
    statements, nodes, lent = rows(list_, ROW), rows(nodes, 3), rows(labels, 3)
    if len(statements) > 1024 or len(nodes) > 1024 or any(row[0] in (FCB, FDB, FCC) and row[4] > 256 for row in statements):
        return 17, 0, None, None
    bearer = {}
    for i, row in enumerate(statements):
        bearer.setdefault(row[1], i)
    table = []
    for k in range(512):
        state, _, node = lent[k] if k < len(lent) else (0, 0, 0)
        table.append([2 if state == 2 else 1 if k in bearer else 0, 0, node])
    sizes = [0] * len(statements)
    for made in range(1, 65):
        changed, done = one_pass(statements, items, nodes, table, sizes, bearer)
        if not changed:
            refusal = next((e.refusal for _, _, e in done if e.refusal), 0)
            return refusal, made, table, done
    return 13, 64, None, None


def one_pass(statements, items, nodes, table, sizes, bearer):
    at, page, changed, starts, done = 0, 0, False, {0}, []
    worth = Values(nodes, table)
    for i, row in enumerate(statements):
        label = row[1]
        ill = label != NONE and (label > 511 or bearer[label] != i)
        if label != NONE and not ill:
            changed |= table[label][1] != at % 65536
            table[label][1] = at % 65536
        e = counted(at, effect(row, items, worth, at % 65536, page, ill))
        if e.to is not None and e.to != 0:
            if e.to in starts:
                e = Effect(12)
            elif len(starts) == 64:
                e = Effect(17)
            else:
                starts.add(e.to)
        changed |= sizes[i] != e.size
        sizes[i] = e.size
        done.append((row, at, e))
        page = page if e.page is SAME else e.page
        at = e.to if e.to is not None else at + e.size
    return changed, done


def lacks_row(row, labels):
    """Whether a statement bears a label that has no row of its own in the lent table."""
    return row[1] != NONE and row[1] >= len(labels) // 3


def laid_over(table, labels):
    """The lent table with the states and addresses found; nodes, and what is no row of 512, as they were."""
    after = list(labels)
    for k in range(min(512, len(labels) // 3)):
        after[3 * k:3 * k + 2] = table[k][:2]
    return after


def settled(list_, items, nodes, labels):
    """(refusal, passes, the lent label table then); 9 belongs to the first statement whose label has no row, and a refusal leaves the table."""
    refusal, passes, table, done = settle(list_, items, nodes, labels)
    for row, _, e in done or []:
        if e.refusal:
            break
        if lacks_row(row, labels):
            refusal = 9
            break
    return refusal, passes, list(labels) if refusal else laid_over(table, labels)


def object_of(row, at, e):
    """(kind, address, count of values): an ORG's object stands where the ORG moves to, any other where the statement stands."""
    if row[0] == ORG:
        return 0, e.to, 0
    return (0, at % 65536, 0) if row[0] == RMB else (1, at % 65536, len(e.values))


def assemble(list_, items, nodes, labels, object_rows=10**9, value_rows=10**9):
    """(refusal, passes, table, objects, values); 9 belongs to the first statement that does not fit."""
    refusal, passes, table, done = settle(list_, items, nodes, labels)
    if done is None:
        return refusal, passes, None, None, None
    objects, values = [], []
    for row, at, e in done:
        if e.refusal:
            return e.refusal, passes, None, None, None
        if row[0] not in (BARE, SETDP):
            objects.append(object_of(row, at, e))
            values += e.values
        if len(objects) > object_rows or len(values) > value_rows or lacks_row(row, labels):
            return 9, passes, None, None, None
    return 0, passes, table, objects, values


# ---- text
def line(kind, address, data):
    body = [len(data), address >> 8, address & 255, kind, *data]
    return ":" + "".join(f"{byte:02X}" for byte in body + [-sum(body) % 256]) + "\n"


def text(objects, values):
    """Intel's text of the objects; no byte lies beyond 65535."""
    out, start, data, k = [], 0, [], 0

    def close():
        if data:
            out.append(line(0, start, data))

    for kind, address, count in objects:
        if kind == 1:
            if address != start + len(data):
                close()
                start, data = address, []
            for number, width in values[k:k + count]:
                for byte in ([number >> 8, number & 255] if width == 16 else [number & 255]):
                    data.append(byte)
                    if len(data) == 32:
                        close()
                        start, data = start + 32, []
            k += count
    close()
    return "".join(out) + line(1, 0, [])
