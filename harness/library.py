"""This project's library, called through its exported functions (include/joltwagon.h; rows as in docs/ROWS.md).

The archive is the file JOLTWAGON_LIB, or else it is proved and made first (rt lib in crates/joltwagon). On x86-64.
"""
import ctypes
import os
import subprocess

import machine

ROOT = os.path.join(os.path.dirname(os.path.abspath(__file__)), "..")


def archive():
    given = os.environ.get("JOLTWAGON_LIB")
    if given:
        return given
    crate = os.path.join(ROOT, "crates", "joltwagon")
    subprocess.run(["rt", "lib"], cwd=crate, check=True)
    return os.path.join(crate, "out", "libjoltwagon.a")


def shared():
    out = os.path.join(ROOT, "target", "joltwagon.so")
    os.makedirs(os.path.dirname(out), exist_ok=True)
    subprocess.run(["cc", "-shared", "-o", out, "-Wl,--whole-archive", archive(), "-Wl,--no-whole-archive"], check=True)
    return ctypes.CDLL(out)


machine.need("cc", "gcc")
LIBRARY = shared()


def words(numbers):
    return (ctypes.c_uint16 * len(numbers))(*numbers)


def lent(*slices):
    """A slice goes as its pointer and its length."""
    return [part for s in slices for part in (s, ctypes.c_size_t(len(s)))]


def size(cells):
    return sum(cell << 16 * i for i, cell in enumerate(cells))


def text_of(objects, room=1 << 18):
    """The text of objects, each (address, values or None), a value (number, width); or a refusal's number."""
    rows, values = [], []
    for address, data in objects:
        rows += [int(data is not None), address, len(data or [])]
        values += [part for value in data or [] for part in value]
    out, answer = ctypes.create_string_buffer(room), words([0] * 4)
    refusal = LIBRARY.jw_write_text(*lent(words(rows), words(values)), out, ctypes.c_size_t(room), *lent(answer))
    return refusal & 255 or out.raw[: size(answer)]


def runs_of(text):
    """The runs of a text, each (first address, bytes); or a refusal's number."""
    most = len(text) // 2 + 1
    data, runs, answer = ctypes.create_string_buffer(most), words([0] * (2 * most)), words([0] * 8)
    refusal = LIBRARY.jw_read_text(text, ctypes.c_size_t(len(text)), data, ctypes.c_size_t(most), *lent(runs, answer))
    if refusal & 255:
        return refusal & 255
    found, at = [], 0
    for i in range(size(answer[4:])):
        length = runs[2 * i + 1] - runs[2 * i] + 1
        found.append((runs[2 * i], data.raw[at : at + length]))
        at += length
    assert at == size(answer[:4])
    return found


def decoded(data, address, page):
    """Length, operation, kind, indirect, step, registers, first, second, number; or a refusal's number. The page is 0 to 255, or 256 for unknown."""
    answer = words([0] * 9)
    refusal = LIBRARY.jw_decode(data, ctypes.c_size_t(len(data)), ctypes.c_uint16(address), ctypes.c_uint16(page), *lent(answer))
    return refusal & 255 or list(answer)


LIBRARY.jw_settle.restype = LIBRARY.jw_hex.restype = ctypes.c_uint32


def refusal_and_passes(returned):
    """What jw_settle and jw_hex return: the refusal in the low 16 bits, the passes in the high 16."""
    return returned & 0xFFFF, returned >> 16


def settle_of(statements, items, nodes, labels):
    """Refusal, passes and the label table of a list of statements."""
    table = words(labels)
    returned = LIBRARY.jw_settle(*lent(words(statements), words(items), words(nodes), table))
    return *refusal_and_passes(returned), list(table)


def hex_of(statements, items, nodes, labels, object_rows, value_rows, room):
    """Refusal, passes, the tables of labels, objects and values, and the text of a list of statements; no text beside a refusal. What is not stored is 7."""
    table, objects, values = words(labels), words([7] * (3 * object_rows)), words([7] * (2 * value_rows))
    out, answer = ctypes.create_string_buffer(b"U" * room, room), words([0] * 4)
    returned = LIBRARY.jw_hex(
        *lent(words(statements), words(items), words(nodes), table, objects, values), out, ctypes.c_size_t(room), *lent(answer)
    )
    refusal, passes = refusal_and_passes(returned)
    length = size(answer)
    assert out.raw[length:] == b"U" * (room - length) and (not refusal or length == 0)
    return refusal, passes, list(table), list(objects), list(values), None if refusal else out.raw[:length].decode()
