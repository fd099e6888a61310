"""The C interface from Python: a label written and read back by ctypes, through a shared object made of the archive.

Usage: labels.py SHARED_OBJECT RECORD TEXT. The sizes expected are document 01's P3 and P6 and its 53,964 work bytes; TEXT is the
record's symbol, which the second program gave.
"""
import ctypes
import sys

jab = ctypes.CDLL(sys.argv[1])


def record(name, kind, *members):
    """A struct of the header: all its members are of one type."""
    return type(name, (ctypes.Structure,), {"_fields_": [(member, kind) for member in members]})


Params = record("jab_params", ctypes.c_uint32,
                "kind", "horizontal", "vertical", "colours", "black", "cyan", "yellow", "wc", "wr", "mask", "turn")
SizesAnswer = record("jab_sizes_answer", ctypes.c_uint64,
                     "number", "place", "columns", "rows", "capacity", "net", "work", "gross", "checks")
WriteAnswer = record("jab_write_answer", ctypes.c_uint64, "number", "place")
ReadAnswer = record("jab_read_answer", ctypes.c_uint64, "number", "place", "length", "repairs", "unmet", "stuffing")


def call(function, answer, params, *buffers):
    """A call of the interface: the parameters, each buffer with its length, and the answer's numbers."""
    given = answer()
    arguments = [ctypes.byref(params)]
    for buffer in buffers:
        arguments += [buffer, ctypes.c_size_t(len(buffer))]
    function(*arguments, ctypes.byref(given))
    return [getattr(given, name) for name, _ in answer._fields_]


# primary, version 1, 8 colours, black 0, cyan 3, yellow 6, wc 3, wr 9, mask 0, turn 0, and the label command's four palettes
params = Params(horizontal=1, vertical=1, colours=8, cyan=3, yellow=6, wc=3, wr=9)
entries = []
for row in (8, 14):
    for first, other in ((1, 3), (16, 6)):
        for column, colour in enumerate((c for c in range(1, 8) if c != other), first):
            entries += [column, row, colour]
reserved = (ctypes.c_uint16 * len(entries))(*entries)

sizes = call(jab.jab_sizes, SizesAnswer, params, reserved)
assert sizes == [0, 0, 21, 21, 1047, 696, 53964, 1044, 348], sizes
columns, rows, work_bytes = sizes[2], sizes[3], sizes[6]

tray = open(sys.argv[2], "rb").read()
message = (ctypes.c_uint8 * len(tray)).from_buffer_copy(tray)
matrix = (ctypes.c_uint8 * (columns * rows))()
work = (ctypes.c_uint8 * work_bytes)()
assert call(jab.jab_write, WriteAnswer, params, reserved, message, matrix, work) == [0, 0]
text = "".join("".join(map(str, matrix[r * columns:(r + 1) * columns])) + "\n" for r in range(rows))
assert text == open(sys.argv[3]).read(), text

back = (ctypes.c_uint8 * 100)()
places = (ctypes.c_uint16 * sizes[8])()
assert call(jab.jab_read, ReadAnswer, params, reserved, matrix, work, back, places) == [0, 0, len(tray), 0, 0, 0]
assert bytes(back[:len(tray)]) == tray
assert not any(places)

# row 13, column 9 white: one wrong bit, whose place in the word the second program gave
matrix[12 * columns + 8] = 7
assert call(jab.jab_read, ReadAnswer, params, reserved, matrix, work, back, places) == [0, 0, len(tray), 1, 3, 0]
assert places[0] == 381 and not any(places[1:]), list(places)
print("c_interface: the same label written and read from Python")
