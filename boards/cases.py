#!/usr/bin/env python3
"""The cases that the program `vectors` runs: what is asked of which capture, and the answer that the documents fix.

`boards/cases.py` writes crates/vectors/stdin (the questions), crates/vectors/stdout (the answers, one line each), the boards of
boards/printed.py with what is printed for each, board A as the case of the program `map`, and crates/promises/specs/BoardA.antt
(board A, three neighbours and board A moved, as lists); `boards/cases.py --check` says whether these files are what these pages make.
Labels begin with the point that they settle: a refusal number, or a rule in our words.
"""
import pathlib
import re
import sys

import listed
from board import A, BASE, STRUCTURES_OF_A, bio, board, capture, core, cut, eio, fadt, ht, image, lay, le, lio, lpc, madt, msi
from board import place_of_table, rebuilt, rsdp, structure, summed, table
from printed import PRINTED, REAL

# The kinds of question that crates/vectors/src/asked.rt knows.
CHECK, RSDP, REACH, SURVEY, READ, ROUTE, TRACE, READ_BYTES, ROUTE_EACH, ROUTE_SINGLY, LOOKUP, BY_MAP, CHANGED = range(13)
# The readings that it asks: surveys and readings are the ordinary one's if not said, routes and traces the strict one's, by the C entries.
ORDINARY, STRICT = range(2)
LABEL = 64  # bytes of a label, at most
MOST_BYTES = 65536  # of a capture
TOP = 1 << 64
cases = []


def ask(kind, label, data, answer, first=0, second=0, strictness=STRICT):
    assert len(label.encode()) <= LABEL, label
    cases.append((kind, label, data, answer, first, second, strictness))


def question(kind, label, data, answer, first, second, strictness):
    """A case as the program reads it."""
    label = label.encode()
    return label.ljust(LABEL, b"\0") + le(kind, 4) + le(len(data), 4) + le(first, 8) + le(second, 8) + le(len(label), 4) + le(strictness, 4) + data


def check(label, data, answer):
    ask(CHECK, label, data, answer)


def find_rsdp(label, data, answer):
    ask(RSDP, label, data, answer)


def reach(label, data, address, answer):
    ask(REACH, label, data, answer, address)


def survey(label, data, answer, strictness=ORDINARY):
    ask(SURVEY, label, data, answer, strictness=strictness)


def both(asked, label, *question, ordinary, strict, **more):
    """One question to both readings, with the answer of each."""
    asked(label + ", ordinary", *question, ordinary, strictness=ORDINARY, **more)
    asked(label + ", strict", *question, strict, strictness=STRICT, **more)


def found(madt_place, madt_length, fadt_place, fadt_length, sci):
    return f"MADT at {madt_place} of {madt_length}, FADT at {fadt_place} of {fadt_length}, SCI {sci}"


def changed(data, at, new):
    return data[:at] + new + data[at + len(new):]


def zeros(*segments, pairs=None):
    """A capture whose segments (address, length) hold zeros."""
    return capture([(address, bytes(length)) for address, length in segments], pairs=pairs)


def refused(number, place, second=0):
    return f"refused {number} at {place}" + (f" with {second}" if second else "")


# Refusal 1: the length handed in.
check("1: no bytes", b"", refused(1, 0))
check("1: 17 bytes", bytes(17), refused(1, 0))
check("1: 18 bytes go on to the mark", bytes(18), refused(2, 0))
check("1: 65,536 bytes go on to the mark", bytes(65536), refused(2, 0))
check("1: 65,537 bytes", bytes(65537), refused(1, 0))
check("1: 65,537 bytes, all else right", zeros((BASE, 65507)), refused(1, 0))
check("1: 65,536 bytes, all right", zeros((BASE, 65506)), "sound")

# Refusals 2, 3, 4: mark, version, segment count, in this order.
check("2: first letter", changed(A, 0, b"t"), refused(2, 0))
check("2: second letter", changed(A, 1, b"C"), refused(2, 0))
check("2: third letter", changed(A, 2, b"B"), refused(2, 0))
check("2: mark and version wrong", changed(A, 0, b"XBC\3\0"), refused(2, 0))
check("3: version 0", changed(A, 3, le(0, 2)), refused(3, 0))
check("3: version 3", changed(A, 3, le(3, 2)), refused(3, 0))
check("3: version 257, its low byte 1", changed(A, 3, le(257, 2)), refused(3, 0))
check("3: version and count wrong", changed(A, 3, b"\3\0\0"), refused(3, 0))
check("4: no segment", changed(A, 5, b"\0"), refused(4, 0))
check("4: 17 segments", zeros(*[(BASE + 8 * k, 8) for k in range(17)]), refused(4, 0))
check("4: 16 segments are fine", zeros(*[(BASE + 8 * k, 8) for k in range(16)]), "sound")
check("4: 255 segments and a wrong total", changed(A, 5, b"\xff\0"), refused(4, 0))

# Refusal 5: descriptors past the end, or the total disagrees; all of it before any of 6.
check("5: 16 descriptors in 100 bytes", changed(zeros((BASE, 70)), 5, b"\x10"), refused(5, 0))
check("5: 18 bytes and one segment", zeros((BASE, 0))[:18], refused(5, 0))
check("5: one byte missing", A[:-1], refused(5, 0))
check("5: one byte more, total 538", A + b"\0", refused(5, 0))
check("5: one byte more, total 539", changed(A + b"\0", 6, le(539, 4)), refused(5, 0))
check("5: total one too small", changed(A, 6, le(537, 4)), refused(5, 0))
check("5: total 538 + 2^24", changed(A, 6, le(538 + (1 << 24), 4)), refused(5, 0))
check("5: lengths that sum right only modulo 2^32",
      capture([(BASE, b""), (1 << 40, bytes(508))], lengths=[0xFFFFFFFF, 509]), refused(5, 0))
check("5 before 6: a length made 0", changed(A, 26, le(0, 4)), refused(5, 0))
check("5 before 6: total wrong, segment empty", changed(zeros((BASE, 0)), 6, le(29, 4)), refused(5, 0))
check("5 before 6: total wrong, segments overlap", changed(zeros((BASE, 8), (BASE, 8)), 6, le(1, 4)), refused(5, 0))

# Refusal 6: the segments in turn, named by their descriptor.
check("6: second segment empty", zeros((BASE, 508), (BASE + 508, 0)), refused(6, 30))
check("6: first empty, second overlaps it", zeros((BASE, 0), (BASE - 1, 8)), refused(6, 18))
check("6: segment ends at 2^64", board(base=TOP - 508), "sound")
check("6: segment ends one past 2^64", board(base=TOP - 507), refused(6, 18))
check("6: one byte at the top", zeros((TOP - 1, 1)), "sound")
check("6: two bytes at the top", zeros((TOP - 1, 2)), refused(6, 18))
check("6: an end at 2^64 is no end at 0", zeros((TOP - 1, 1), (0, 508)), refused(6, 30))
check("6: starts one byte before the end before", zeros((BASE, 508), (BASE + 507, 8)), refused(6, 30))
check("6: falling order", zeros((BASE + 4096, 8), (BASE, 8)), refused(6, 30))
check("6: the same segment twice", zeros((BASE, 8), (BASE, 8)), refused(6, 30))
check("6: touching segments are fine", zeros((BASE, 508), (BASE + 508, 8)), "sound")
check("6: a gap is fine", zeros((BASE, 508), (BASE + 509, 8)), "sound")
check("6: third overlaps the first only", zeros((BASE, 8), (BASE + 4096, 8), (BASE + 4, 8)), refused(6, 42))
check("6: broken in the 16th", zeros(*[(BASE + 8 * k, 8) for k in range(15)], (BASE, 8)), refused(6, 198))
check("6: first segment at address 0", zeros((0, 8)), "sound")

# Version 2: four pairs (hardware ID, number of inputs) at 18, and descriptors from 26. The version alone says which header it is.
A2 = board(pairs=())
check("version 2 without pairs", A2, "sound")
check("1: version 2, 25 bytes", A2[:25], refused(1, 0))
check("1: version 2, 26 bytes go on to the descriptors", A2[:26], refused(5, 0))
check("1: 20 bytes of version 2 with a wrong mark", b"XBC\2\0" + bytes(15), refused(1, 0))
check("2: 20 bytes of version 1 with a wrong mark", b"XBC\1\0" + bytes(15), refused(2, 0))
check("3: 20 bytes of version 3", b"TBC\3\0" + bytes(15), refused(3, 0))
check("3: 20 bytes of version 258, its low byte 2", b"TBC\2\1" + bytes(15), refused(3, 0))
check("3: version 512, its high byte 2", changed(A2, 3, le(512, 2)), refused(3, 0))
check("4: version 2, no segment", changed(A2, 5, b"\0"), refused(4, 0))
check("5: version 2, total by 18", changed(A2, 6, le(538, 4)), refused(5, 0))
check("5: board A with version 2 in its header", changed(A, 3, le(2, 2)), refused(5, 0))
check("5: version 1 with the pairs still there", changed(A2, 3, le(1, 2)), refused(5, 0))
check("5: version 2, its descriptor past the end", changed(A2[:37], 6, le(37, 4)), refused(5, 0))
check("6: version 2, first segment empty", zeros((BASE, 0), pairs=()), refused(6, 26))
check("6: version 2, second segment empty", zeros((BASE, 508), (BASE + 508, 0), pairs=()), refused(6, 38))
check("6: version 2, broken in the 16th", zeros(*[(BASE + 8 * k, 8) for k in range(15)], (BASE, 8), pairs=()), refused(6, 206))

# Refusal 7: the pairs in turn, after all segments.
for label, pairs, answer in (
    ("1 input", [(0, 1)], "sound"), ("64 inputs", [(0, 64)], "sound"), ("65 inputs", [(0, 65)], refused(7, 18)),
    ("255 inputs", [(0, 255)], refused(7, 18)), ("65 inputs in the last pair", [(0, 1), (1, 1), (2, 1), (3, 65)], refused(7, 24)),
    ("an ID twice", [(0, 32), (0, 32)], refused(7, 20)), ("an ID twice, two pairs between", [(0, 32), (1, 1), (2, 2), (0, 5)], refused(7, 24)),
    ("an ID twice, and 70 inputs", [(0, 32), (0, 70)], refused(7, 20)), ("70 inputs, then the ID again", [(0, 70), (0, 5)], refused(7, 18)),
    ("80 inputs before an ID twice", [(0, 32), (1, 80), (0, 5)], refused(7, 20)),
    ("an ID again in an empty pair", [(0, 32), (0, 0)], "sound"), ("an ID after an empty pair with it", [(0, 0), (0, 32)], "sound"),
    ("an ID twice around an empty pair", [(0, 32), (0, 0), (0, 5)], refused(7, 22)),
    ("empty pairs with one ID", [(9, 0), (9, 0), (9, 0), (9, 0)], "sound"), ("an ID that no BIO can have", [(200, 64)], "sound"),
    ("ID 255 twice", [(255, 1), (255, 1)], refused(7, 20)), ("equal numbers", [(0, 32), (1, 32), (2, 32), (3, 32)], "sound"),
):
    check("7: " + label, board(pairs=pairs), answer)
check("5 before 7", changed(board(pairs=[(0, 65)]), 6, le(545, 4)), refused(5, 0))
check("6 before 7", zeros((BASE, 8), (BASE, 8), pairs=[(0, 65)]), refused(6, 38))
find_rsdp("7 before 10", capture([(BASE, image())], rsdp=0, pairs=[(0, 65)]), refused(7, 18))
find_rsdp("10: version 2", capture([(BASE, image())], rsdp=0, pairs=[(0, 64)]), refused(10, 10))
find_rsdp("version 2: RSDP", A2, "RSDP at 38")
reach("version 2: first byte", A2, BASE, "at 38, room 508")
reach("version 2: last byte of the second segment", zeros((BASE, 8), (BASE + 8, 4), pairs=()), BASE + 11, "at 61, room 1")

# A stretch is present if it lies wholly inside one segment, or runs across several that touch: if there is room for it from its first
# byte on, as far as segments touch.
PAIR = zeros((BASE, 508), (BASE + 508, 100), (BASE + 700, 10))
reach("first byte", PAIR, BASE, "at 54, room 608")
reach("within the first segment", PAIR, BASE + 472, "at 526, room 136")
reach("last byte of the first segment", PAIR, BASE + 507, "at 561, room 101")
reach("one byte before the first", PAIR, BASE - 1, "nowhere")
reach("first byte of a touching segment", PAIR, BASE + 508, "at 562, room 100")
reach("last byte before a gap", PAIR, BASE + 607, "at 661, room 1")
reach("first byte of the gap", PAIR, BASE + 608, "nowhere")
reach("in the gap", PAIR, BASE + 650, "nowhere")
reach("within the third segment", PAIR, BASE + 704, "at 666, room 6")
reach("past the last byte", PAIR, BASE + 710, "nowhere")
reach("address 0, and no segment there", PAIR, 0, "nowhere")
ONE_APART = zeros((BASE, 8), (BASE + 9, 8))
reach("a gap of one byte, from before it", ONE_APART, BASE, "at 42, room 8")
reach("a gap of one byte", ONE_APART, BASE + 8, "nowhere")
reach("a gap of one byte, from behind it", ONE_APART, BASE + 9, "at 50, room 8")
RUNS = zeros((BASE, 4), (BASE + 4, 5), (BASE + 100, 6), (BASE + 106, 7), (BASE + 113, 1))
reach("two runs: second segment of the first", RUNS, BASE + 5, "at 83, room 4")
reach("two runs: first segment of the second", RUNS, BASE + 101, "at 88, room 13")
reach("two runs: second segment of the second", RUNS, BASE + 106, "at 93, room 8")
SIXTEEN = zeros(*[(BASE + 8 * k, 8) for k in range(16)])
reach("sixteen that touch, from the first byte", SIXTEEN, BASE, "at 210, room 128")
reach("sixteen that touch, from the eighth", SIXTEEN, BASE + 60, "at 270, room 68")
reach("sixteen that touch, last byte", SIXTEEN, BASE + 127, "at 337, room 1")
reach("sixteen that touch, past the last byte", SIXTEEN, BASE + 128, "nowhere")
TOPMOST = zeros((0, 16), (TOP - 16, 16))
reach("address 0 of a segment", TOPMOST, 0, "at 42, room 16")
reach("the end of a segment", TOPMOST, 16, "nowhere")
reach("last byte of memory", TOPMOST, TOP - 1, "at 73, room 1")
reach("up to 2^64, with 16 bytes at 0", TOPMOST, TOP - 8, "at 66, room 8")
reach("a run that ends at 2^64", zeros((TOP - 24, 8), (TOP - 16, 16)), TOP - 20, "at 46, room 20")
reach("any bytes: an end at 2^64 touches nothing", zeros((TOP - 1, 1), (0, 508)), TOP - 1, "at 42, room 1")
reach("any bytes: one that touches, in another order", zeros((BASE + 8, 8), (BASE, 8)), BASE, "at 50, room 8")
reach("any bytes: 255 segments of no capture", b"\xff" * 40, BASE, "nowhere")
reach("any bytes: none at all", b"", BASE, "nowhere")

# Refusal 10: the RSDP's presence, after 1 to 6.
find_rsdp("10: board A", A, "RSDP at 30")
find_rsdp("10: 36 bytes at the segment's end", capture([(BASE, bytes(100))], BASE + 64), "RSDP at 94")
find_rsdp("10: 35 bytes to the segment's end", capture([(BASE, bytes(100))], BASE + 65), refused(10, 10))
find_rsdp("10: an ACPI 1 RSDP of 20 bytes", capture([(BASE, bytes(100))], BASE + 80), refused(10, 10))
find_rsdp("10: RSDP cut at 10", cut(image(), 10), "RSDP at 42")
find_rsdp("10: RSDP cut at 20", cut(image(), 20), "RSDP at 42")
find_rsdp("10: RSDP cut at 20 and a gap of one byte", cut(image(), 20, gap=1), refused(10, 10))
find_rsdp("10: RSDP in sixteen segments", cut(image(), *range(2, 32, 2)), "RSDP at 210")
find_rsdp("10: RSDP in sixteen, the last after a gap", cut(image(), *range(2, 32, 2), gap=1), refused(10, 10))
find_rsdp("10: RSDP in the second and third of three",
          capture([(BASE, bytes(50)), (BASE + 50, bytes(20)), (BASE + 70, bytes(30))], BASE + 60), "RSDP at 114")
find_rsdp("10: 35 bytes to the end of two that touch", capture([(BASE, bytes(20)), (BASE + 20, bytes(15))]), refused(10, 10))
find_rsdp("10: across two, up to 2^64", capture([(TOP - 36, bytes(16)), (TOP - 20, bytes(20))]), "RSDP at 42")
find_rsdp("10: after 6, touching in another order",
          capture([(BASE + 20, image()[20:]), (BASE, image()[:20])], BASE), refused(6, 30))
find_rsdp("10: RSDP address 2^64 - 16", capture([(BASE, image())], TOP - 16), refused(10, 10))
find_rsdp("10: RSDP address 2^64 - 16, with bytes at 0", capture([(0, bytes(64))], TOP - 16), refused(10, 10))
find_rsdp("10: RSDP address 0", capture([(BASE, image())], 0), refused(10, 10))
find_rsdp("10: 36 bytes that end at 2^64", capture([(TOP - 36, bytes(36))]), "RSDP at 30")
find_rsdp("10: after 6", zeros((BASE, 8), (BASE, 8)), refused(6, 30))
find_rsdp("10: after 1", b"", refused(1, 0))


# Refusals 11 to 14: the RSDP.
M, F = madt(STRUCTURES_OF_A), fadt()  # 176 and 244 bytes
OK = found(118, 176, 294, 244, 75)


def one(memory):
    return capture([(BASE, memory)])


def with_root(**fields):
    return one(lay([M, F], root=lambda xsdt: rsdp(xsdt, **fields)))


survey("board A", A, OK)
survey("11: closing blank a zero", with_root(signature=b"RSD PTR\0"), refused(11, 30))
survey("11: before 12", with_root(signature=b"rsd ptr ", revision=0), refused(11, 30))
survey("12: revision 0", with_root(revision=0), refused(12, 30))
survey("12: revision 0 and sums wrong", changed(A, 45, b"\0"), refused(12, 30))
survey("12: before 13", with_root(revision=3, length=20), refused(12, 30))
survey("13: length 65,572, its low bytes 36", with_root(length=36 + 65536), refused(13, 30))
survey("13: length 20", with_root(length=20), refused(13, 30))
survey("14: only the first 20 bytes sum wrong", changed(changed(A, 38, le(A[38] + 1, 1)), 62, le(A[62] - 1, 1)), refused(14, 30))
survey("14: only the 36 bytes sum wrong", changed(A, 63, b"\1"), refused(14, 30))

# Refusals 20 to 25: the XSDT.
survey("20: XSDT absent", one(rsdp(0x80000000) + bytes(100)), refused(20, 54))
survey("20: XSDT 35 bytes before the end", one(rsdp(BASE + 36) + bytes(35)), refused(20, 54))
survey("21: XSDT length 35", changed(A, 70, le(35, 4)), refused(21, 66))
survey("21: XSDT past the end", changed(A, 70, le(473, 4)), refused(21, 66))
survey("21: XSDT length 2^32 - 1", changed(A, 70, le(0xFFFFFFFF, 4)), refused(21, 66))
survey("22: XSDT sum, before its signature", changed(A, 66, b"Y"), refused(22, 66))
survey("23: XSDT signature", one(lay([M, F], signature=b"RSDT")), refused(23, 66))
survey("23: before 24", one(lay([M, F], signature=b"RSDT", revision=2)), refused(23, 66))
survey("24: XSDT revision 2", one(lay([M, F], revision=2)), refused(24, 66))
survey("24: XSDT revision 0", one(lay([M, F], revision=0)), refused(24, 66))
survey("25: body of 4 bytes", one(rsdp(BASE + 36) + table(b"XSDT", 1, bytes(4))), refused(25, 66))
survey("25: 33 entries", one(lay([M, F], [0, 1] + [0] * 31)), refused(25, 66))
survey("25: 32 entries are fine, and 27 then", one(lay([M, F], [0, 1] + [0] * 30)), refused(27, 118))
OTHER = table(b"SSDT", 2, b"anything")
survey("25: 32 entries, 30 name another table", one(lay([M, F, OTHER], [0, 1] + [2] * 30)), found(358, 176, 534, 244, 75))
survey("25: 5 entries", one(lay([M, F, OTHER, OTHER, OTHER])), found(142, 176, 318, 244, 75))
survey("25: no entry is fine, and 26 then", one(lay([])), refused(26, 66))

# The entries in turn, each through 20 to 22; other tables are looked at no further.
BAD = changed(OTHER, 36, b"A")
survey("20: an entry of address 0", one(lay([M, F], [0, 1, 2 ** 20])), refused(20, 118))
survey("20: an entry near 2^64", one(lay([M, F], [0, 1, TOP - 8])), refused(20, 118))
survey("21: an entry's table of length 35", one(lay([M, F, changed(OTHER, 4, le(35, 4))])), refused(21, 546))
survey("22: an entry's table", one(lay([M, F, BAD])), refused(22, 546))
survey("22: a table without a sum, as the FACS", one(lay([M, F, b"FACS" + le(64, 4) + b"\1" + bytes(55)])), refused(22, 546))
survey("22 of entry 0 before 20 of entry 1", one(lay([BAD, M, F], [0, 2 ** 20, 1, 2])), refused(22, 134))
survey("an entry that names the XSDT is fine", one(lay([M, F], [0, 1, BASE + 36])), found(126, 176, 302, 244, 75))
survey("21: an entry that names the RSDP", one(lay([M, F], [0, 1, BASE])), refused(21, 30))
survey("FADT first", one(lay([F, M])), found(362, 176, 118, 244, 75))

# Refusals 26 and 27: exactly one MADT and one FADT, after all entries.
survey("26: no MADT", one(lay([F, OTHER])), refused(26, 66))
survey("26: no FADT", one(lay([M, OTHER])), refused(26, 66))
survey("26: before 27, two MADT and no FADT", one(lay([M, M])), refused(26, 66))
survey("26: a FADT signed by its name", one(lay([M, table(b"FADT", 4, bytes(208))])), refused(26, 66))
survey("27: one MADT named twice", one(lay([M, F], [0, 1, 0])), refused(27, 118))
survey("27: the first second, a FADT", one(lay([M, F], [0, 1, 1, 0])), refused(27, 118))
survey("27: the first second, a MADT", one(lay([M, F], [0, 1, 0, 1])), refused(27, 118))
survey("27: MADT, MADT, FADT", one(lay([M, F], [0, 0, 1])), refused(27, 110))
survey("22 before 27: two MADT and a bad sum", one(lay([M, M, BAD])), refused(22, 478))
survey("27 before 28: two MADT of 40 bytes", one(lay([table(b"APIC", 1, bytes(4)), F], [0, 0, 1])), refused(27, 110))

# Refusals 28 to 30, and the SCI number.
survey("28: MADT of 43, FADT of 47", one(lay([table(b"APIC", 1, bytes(7)), fadt(size=47)])), refused(28, 118))
both(survey, "28: MADT of 44 and revision 2, FADT of 47", one(lay([madt([], revision=2), fadt(size=47)])),
     ordinary=refused(28, 162), strict=refused(28, 162))
survey("28: FADT before MADT, both short", one(lay([fadt(size=47), table(b"APIC", 1, bytes(7))])), refused(28, 165))
survey("MADT of 44, FADT of 48", one(lay([madt([]), fadt(size=48)])), found(118, 44, 162, 48, 75))
for revision in (0, 1, 2, 3, 5, 128, 255):
    taken = found(118, 44, 162, 244, 75)
    both(survey, f"29: MADT revision {revision}", one(lay([madt([], revision=revision), F])),
         ordinary=taken if 1 <= revision else refused(29, 118), strict=taken if revision == 1 else refused(29, 118))
both(survey, "29 before 30: revision 6 and flags", one(lay([madt([], revision=6, flags=1), F])), ordinary=refused(30, 118), strict=refused(29, 118))
both(survey, "29 before 30: revision 0 and flags", one(lay([madt([], revision=0, flags=1), F])), ordinary=refused(29, 118), strict=refused(29, 118))
both(survey, "29 at a MADT behind the FADT", one(lay([F, madt([], revision=0)])), ordinary=refused(29, 362), strict=refused(29, 362))
survey("30: MADT flags 1", one(lay([madt([], flags=1), F])), refused(30, 118))
survey("30: MADT flags 2^24", one(lay([madt([], flags=1 << 24), F])), refused(30, 118))
survey("FADT revision is not looked at", one(lay([M, summed(changed(F, 8, b"\xff"), 9)])), OK)
survey("SCI 65,535", one(lay([M, fadt(65535)])), found(118, 176, 294, 244, 65535))
survey("SCI 4,660", one(lay([M, fadt(4660)])), found(118, 176, 294, 244, 4660))

# Touching segments: of board A's memory the RSDP stands at 0, the XSDT at 36, the MADT at 88 with its first structure at 132, the FADT
# at 264. Each descriptor more moves all places by 12.
survey("20: XSDT cut at 14", cut(image(), 50), found(130, 176, 306, 244, 75))
survey("20: XSDT cut at 14 and a gap of one byte", cut(image(), 50, gap=1), refused(20, 66))
survey("21: XSDT cut at 44", cut(image(), 80), found(130, 176, 306, 244, 75))
survey("21: XSDT cut at 44 and a gap of one byte", cut(image(), 80, gap=1), refused(21, 78))
survey("cut between two tables", cut(image(), 88), found(130, 176, 306, 244, 75))
survey("20: a gap of one byte between two tables", cut(image(), 88, gap=1), refused(20, 114))
survey("20: MADT cut at 10", cut(image(), 98), found(130, 176, 306, 244, 75))
survey("20: MADT cut at 10 and a gap of one byte", cut(image(), 98, gap=1), refused(20, 114))
survey("21: MADT cut at its header's end", cut(image(), 124), found(130, 176, 306, 244, 75))
survey("21: MADT cut there and a gap of one byte", cut(image(), 124, gap=1), refused(21, 130))
survey("21: MADT cut at 100", cut(image(), 188), found(130, 176, 306, 244, 75))
survey("21: MADT cut at 100 and a gap of one byte", cut(image(), 188, gap=1), refused(21, 130))
survey("21: MADT cut at 100 and a gap of a page", cut(image(), 188, gap=4096), refused(21, 130))
survey("21: MADT's last byte behind a gap", cut(image(), 263, gap=1), refused(21, 130))
survey("21: MADT in three segments", cut(image(), 100, 200), found(142, 176, 318, 244, 75))
survey("21: MADT in three, the third after a gap", cut(image(), 100, 200, gap=1), refused(21, 142))
survey("21: MADT begins in the second of three", cut(image(), 80, 140), found(142, 176, 318, 244, 75))
survey("21: MADT in sixteen segments", cut(image(), *range(92, 242, 10)), found(298, 176, 474, 244, 75))
survey("21: MADT in sixteen, the last after a gap", cut(image(), *range(92, 242, 10), gap=1), refused(21, 298))
survey("21: segments of one byte", cut(image(), *range(130, 145)), found(298, 176, 474, 244, 75))
survey("21: FADT cut at 100 and a gap of one byte", cut(image(), 364, gap=1), refused(21, 306))
survey("21: a table longer than all that touch", capture([(BASE, changed(image(), 40, le(473, 4))[:300]), (BASE + 300, image()[300:])]),
       refused(21, 78))
survey("a run that ends at 2^64", cut(image(base=TOP - 508), 100, 300, base=TOP - 508), found(142, 176, 318, 244, 75))
survey("after 6", zeros((BASE, 8), (BASE, 8)), refused(6, 30))
survey("after 10", capture([(BASE, image())], 0), refused(10, 10))

# Tables that nobody here wrote.
for name, answer in [
    ("qemu111-smp4", refused(30, 5331)),
    ("edk2-qemu111-smp4-tables", refused(30, 690)),
    ("qemu111-smp256-pages", refused(30, 31159)),
    ("p3-flags-lio-lpc-tables", found(670, 191, 861, 268, 0)),
    ("p5-flags-lio-lpc14", found(16414, 190, 20510, 268, 0)),
    ("a6-vector4", found(6062, 611, 5063, 268, 0)),
    ("p14-twobridge", found(16414, 300, 20510, 268, 0)),
    ("p15-twobridge-onemsi", found(16414, 281, 20510, 268, 0)),
]:
    survey("real: " + name, (REAL / (name + ".cap")).read_bytes(), answer)


# From here on the whole reading: a list of `room` numbers is lent; what is printed after the count is the list afterwards.


def read(label, data, answer, room=512, strictness=ORDINARY):
    ask(READ, label, data, answer, room, strictness=strictness)


def read_bytes(label, data, answer, room):
    """The same by the C entry: a list of `room` bytes."""
    ask(READ_BYTES, label, data, answer, room)


def route(label, data, number, answer, strictness=STRICT):
    ask(ROUTE, label, data, answer, number, strictness=strictness)


def trace(label, data, vector, number, answer, strictness=STRICT):
    ask(TRACE, label, data, answer, vector, number, strictness=strictness)


CORES, LIO, EIO, MSI, BIO, LPC = 0, 3, 4, 5, 6, 7  # where board A's structures stand in its list
PLACES = [162, 177, 192, 207, 230, 243, 262, 279, 294]
TWO = "read 2 0 0 1 1"


def put(at, new, sci=75):
    """Board A with one structure replaced."""
    return board(STRUCTURES_OF_A[:at] + [new] + STRUCTURES_OF_A[at + 1:], sci)


def plus(*more, sci=75):
    """Board A with structures behind its last one, at 294."""
    return board(STRUCTURES_OF_A + list(more), sci)


def made(*structures, sci=26):
    """A board of our own, without bridge and LPC unless given."""
    return board(list(structures), sci)


C, L = core(0, 0), lio(2, 0, 0xFFFFFF, 0)

read("board A", A, TWO)
for label, at in (("inside a structure", [140]), ("at a structure's end", [147]), ("sixteen times", range(32, 512, 32))):
    read("board A cut " + label, cut(image(), *at), TWO)
    route("board A cut " + label + ", route", cut(image(), *at), 72, "kind 0 3 8")
read("refusals of the tables come first", with_root(revision=0), refused(12, 30))

# 31 to 33: structures in turn. (34 comes after all of them: W-201 below.)
read("31: one byte left", plus(b"\x11"), refused(31, 294))
read("31: length 1", plus(b"\0\1"), refused(31, 294))
read("31: length 0", plus(b"\0\0"), refused(31, 294))
read("31: past the end", plus(b"\x14\4\1"), refused(31, 294))
read("31: past the end by one", plus(core(5, 5)[:14]), refused(31, 294))
read("passed over: length 2", plus(b"\0\2"), TWO)
for kind in (0, 16, 24, 255):
    read(f"passed over: type {kind}, version unread", plus(le(kind, 1) + b"\x08" + bytes(6)), TWO)
for kind, length in ((17, 15), (18, 23), (19, 21), (20, 13), (21, 19), (22, 17), (23, 15)):
    for wrong in (length - 1, length + 1):
        read(f"32: type {kind}, length {wrong}", plus(le(kind, 1) + le(wrong, 1) + bytes(wrong - 2)), refused(32, 294))
    for version in (0, 2):
        read(f"33: type {kind}, version {version}", plus(structure(kind, bytes(length - 3), version)), refused(33, 294))
read("32: a known type of length 2", plus(b"\x11\2"), refused(32, 294))
read("32: EIO of 4 bytes, as the source prints it", plus(b"\x14\4\1\5"), refused(32, 294))
read("34: board A and an HT", plus(ht()), refused(34, 294))
read("in turn: an HT is no fault, a CORE of length 2 behind it is 32", made(ht(), b"\x11\2"), refused(32, 183))
read("in turn: an HT is no fault, a CORE of length 14 is 32", made(ht(), structure(17, bytes(11))), refused(32, 183))
read("in turn: 35 before a later 31", made(core(0, 0, 2), b"\0\1"), refused(35, 162))

# 35, 71 to 77, 37 and 38. (78 is of the HT: W-201 below.)
read("35: flags 2", put(1, core(1, 1, 2)), refused(35, 177))
read("35: flags 2^31 + 1", put(0, core(0, 0, 0x80000001)), refused(35, 162))
read("35: on a disabled CORE", put(2, core(2, 2, 2)), refused(35, 192))
for cascade, answer in ((1, refused(71, 230)), (2, refused(53, 230, 207)), (9, TWO), (10, refused(71, 230))):
    read(f"71: EIO cascade {cascade}", put(EIO, eio(cascade, 0)), answer)
for cascade, answer in ((1, refused(71, 207)), (9, TWO), (10, refused(71, 207))):
    read(f"71: low half's cascade {cascade}", put(LIO, lio(cascade, 0, 0xFFFFFF, 0)), answer)
    read(f"71: high half's cascade {cascade}", put(LIO, lio(0, cascade, 0, 0xFFFFFF)), answer)
read("72: EIO node 64", plus(eio(4, 64)), refused(72, 294))
read("72: EIO node 63", plus(eio(4, 63)), TWO)
read("72: BIO hardware ID 64", put(BIO, bio(64, 64)), refused(72, 262))
read("72: BIO hardware ID 256, its low byte 0", put(BIO, bio(256, 64)), refused(72, 262))
read("73: EIO node map 0", put(EIO, eio(3, 0, 0)), refused(73, 230))
read("73: EIO node map 2^63, without its own node", put(EIO, eio(3, 0, 1 << 63)), TWO)
read("74: MSI count 0", put(MSI, msi(64, 0)), refused(74, 243))
read("74: MSI count 0, start 256", put(MSI, msi(256, 0)), refused(74, 243))
read("75: MSI end 257", put(MSI, msi(65, 192)), refused(75, 243))
read("75: MSI of one slot", put(MSI, msi(255, 1)), TWO)
read("75: MSI start 2^32 - 1, count 2", put(MSI, msi(0xFFFFFFFF, 2)), refused(75, 243))
read("76: BIO base 63", put(BIO, bio(0, 63)), refused(76, 262))
read("76: BIO base 65,472", put(BIO, bio(0, 65472), 65535), TWO)
read("76: BIO base 65,473", put(BIO, bio(0, 65473)), refused(76, 262))
read("77: LPC cascade 63", put(LPC, lpc(63)), TWO)
read("77: LPC cascade 64", put(LPC, lpc(64)), refused(77, 279))
read("77: LPC cascade 275, its low byte 19", put(LPC, lpc(275)), refused(77, 279))
read("71 before 72 and 73", put(EIO, eio(1, 64, 0)), refused(71, 230))
read("72 before 73", put(EIO, eio(3, 64, 0)), refused(72, 230))
read("72 before 76", put(BIO, bio(64, 63)), refused(72, 262))
read("74 before 75: MSI count 0, start 300", put(MSI, msi(300, 0)), refused(74, 243))
read("71 before 37", put(LIO, lio(10, 2, 1, 1)), refused(71, 207))
read("71 before 38: fifth EIO", plus(*[eio(4 + k, 1 + k) for k in range(3)], eio(1, 4)), refused(71, 333))
read("77 before 38: second LPC", plus(lpc(64)), refused(77, 294))
read("33 before 71", put(EIO, structure(20, le(1, 1) + le(0, 1) + le(1, 8), 2)), refused(33, 230))
read("in turn: 77 before a later 32", made(lpc(64), b"\x11\2"), refused(77, 162))
read("37: a bit in both masks", put(LIO, lio(2, 4, 0xFF, 0x80)), refused(37, 207))
read("37 before 38", plus(lio(2, 2, 1, 1)), refused(37, 294))
read("an unused half's byte is free", put(LIO, lio(2, 255, 0xFFFFFF, 0)), TWO)
read("both halves unused", board(STRUCTURES_OF_A[:3] + [lio(255, 255, 0, 0)] + STRUCTURES_OF_A[4:]), TWO)
read("38: second LIO", plus(lio(4, 0, 1, 0)), refused(38, 294))
read("38: second LPC", plus(lpc(1)), refused(38, 294))
read("38: fifth EIO", plus(*[eio(4 + k, 1 + k) for k in range(4)]), refused(38, 333))
read("38: four EIO are fine", plus(*[eio(4 + k, 1 + k) for k in range(3)]), TWO)
read("38: fifth MSI", made(C, L, eio(3, 0), *[msi(k, 1) for k in range(5)]), refused(38, 289))
read("38: four MSI are fine", made(C, L, eio(3, 0), *[msi(k, 1) for k in range(4)]), "read 1 0 0")
FOUR = [eio(3 + k, k) for k in range(4)]
read("38: four BIO are fine", made(C, L, *FOUR, *[bio(k, 64 + 64 * k) for k in range(4)]), "read 1 0 0")
read("38: fifth BIO", made(C, L, *FOUR, *[bio(k, 64 + 64 * k) for k in range(5)]), refused(38, 320))
MANY = [core(k, k, 0 if k % 2 else 1) for k in range(257)]
read("38: 257th CORE, disabled", made(*MANY[:256], core(256, 256, 0), L, eio(3, 0)), refused(38, 162 + 15 * 256))
read("38: 35 of the 257th CORE first", made(*MANY[:256], core(256, 256, 2), L, eio(3, 0)), refused(35, 162 + 15 * 256))
read("38: 256 CORE are fine", made(*MANY[:256], L, eio(3, 0)), "read 128" + "".join(f" {k} {k}" for k in range(0, 256, 2)))

# 39 to 43.
read("39: UIDs 0, 1, 1, 0: the earliest later one", made(core(0, 0), core(1, 1), core(1, 2), core(0, 3), L, eio(3, 0)), refused(39, 192))
read("39: physical ID", put(1, core(1, 0)), refused(39, 177))
read("39: UID against physical ID is none", made(core(0, 1), core(1, 0), L, eio(3, 0)), "read 2 0 1 1 0")
read("39 after 31", made(C, C, b"\0\1"), refused(31, 192))
read("39 before 40", made(C, C), refused(39, 177))

# W-203: 39 compares enabled CORE alone. CORE stand at 162, 177, 192, 207, 222.
REST, ONE = (L, eio(3, 0)), "read 1 0 0"
for label, spare in (("UID", core(0, 5, 0)), ("physical ID", core(5, 0, 0)), ("both IDs", core(0, 0, 0))):
    both(read, f"39: {label} of a spare CORE behind", made(C, spare, *REST), ordinary=ONE, strict=ONE)
    both(read, f"39: {label} of a spare CORE before", made(spare, C, *REST), ordinary=ONE, strict=ONE)
    both(read, f"39: {label} of a spare CORE between", made(C, spare, core(0, 9), *REST), ordinary=refused(39, 192), strict=refused(39, 192))
    read(f"39: {label} of spare CORE around", made(spare, C, spare, core(9, 0), spare, *REST), refused(39, 207))
    read(f"39: {label} of a spare CORE behind the repeat", made(C, core(0, 9), spare, *REST), refused(39, 177))
read("39: board A, the spare CORE with UID 0", put(2, core(0, 2, 0)), TWO)
read("39: board A, the spare CORE with both IDs of the second", put(2, core(1, 1, 0)), TWO)
read("39: spare CORE alike, and no other", made(core(7, 7, 0), core(7, 7, 0), C, core(7, 7, 0), *REST), ONE)
read("39: an enabled CORE takes a spare one's IDs", made(core(7, 7, 0), core(7, 7), core(7, 7, 0), *REST), "read 1 7 7")
read("39: two enabled ones share a UID, spare ones stand before", made(core(0, 8, 0), core(0, 9, 0), C, core(0, 1), *REST), refused(39, 207))
read("39: UID of a spare one, physical ID of an enabled one", made(core(1, 4), core(2, 9, 0), core(2, 4), *REST), refused(39, 192))
read("39: UID of a spare one alone", made(core(1, 4), core(2, 9, 0), core(2, 5), *REST), "read 2 1 4 2 5")
read("39: spare UID against physical ID is none", made(core(5, 6, 0), core(6, 5), *REST), "read 1 6 5")
read("39: the earliest later enabled one", made(C, core(1, 1, 0), core(1, 2), core(1, 3), core(0, 4), *REST), refused(39, 207))
read("39: IDs that fall, among spare ones", made(core(3, 3), core(2, 2, 0), core(2, 2), core(1, 1), core(3, 9), *REST), refused(39, 222))
ONES = 0xFFFFFFFF
read("39: highest IDs on spare ones", made(core(ONES, ONES, 0), core(ONES, 0), core(ONES, ONES, 0), core(0, ONES), *REST),
     f"read 2 {ONES} 0 0 {ONES}")
read("39: highest UID twice", made(core(ONES, 0), core(1, ONES, 0), core(ONES, ONES), *REST), refused(39, 192))
SPARES = 100 * [core(0, 0, 0)]
FEW = "read 4 0 0 1 1 2 2 3 3"
read("39: 200 spare CORE alike, four enabled", made(*SPARES, C, core(1, 1), *SPARES, core(2, 2), core(3, 3), *REST), FEW)
read("39: 200 spare CORE alike, four enabled that fall", made(core(3, 3), *SPARES, core(2, 2), core(1, 1), *SPARES, C, *REST),
     "read 4 3 3 2 2 1 1 0 0")
read("39: 200 spare CORE, the fifth enabled one repeats", made(C, core(1, 1), *SPARES, core(2, 2), core(3, 3), *SPARES, core(9, 1), *REST),
     refused(39, 162 + 15 * 204))
read_bytes("39, for C: 200 spare CORE alike, four enabled", made(*SPARES, C, core(1, 1), *SPARES, core(2, 2), core(3, 3), *REST),
           "read 4" + "".join(2 * f" {k} 0 0 0" for k in range(4)), 32)
read_bytes("39, for C: a spare CORE between", made(C, core(0, 0, 0), core(0, 9), *REST), refused(39, 192), 32)
route("39: a board with a spare CORE routes", put(2, core(0, 0, 0)), 75, "kind 0 3 11")
trace("39: a board with a spare CORE traces", put(2, core(0, 0, 0)), 3, 11, "kind 2 0 75")
read("35: a spare CORE with the IDs of an enabled one", made(C, core(0, 0, 2), *REST), refused(35, 177))
read("38: 257 CORE, the first alone enabled", made(C, *256 * [core(0, 0, 0)], *REST), refused(38, 162 + 15 * 256))
read("38: 257 CORE, the last alone enabled", made(*256 * [core(0, 0, 0)], C, *REST), refused(38, 162 + 15 * 256))

# W-205: repeated IDs in any order, and among structures that are passed over; what the check promises stays as it is. CORE k of
# those that stand one behind the other is at 162 + 15 * k.
FALLING = [core(256 - k, 256 - k) for k in range(256)]
FELL = "read 256" + "".join(2 * f" {256 - k}" for k in range(256))
LAST = 162 + 15 * 255
both(read, "39: 256 CORE that fall", made(*FALLING, *REST), ordinary=FELL, strict=FELL)
read("39: falling, the last pair shares a UID", made(*FALLING[:255], core(2, 0), *REST), refused(39, LAST))
read("39: falling, the last pair shares a physical ID", made(*FALLING[:255], core(0, 2), *REST), refused(39, LAST))
read("39: falling, the last shares the first one's UID", made(*FALLING[:255], core(256, 0), *REST), refused(39, LAST))
read("39: falling, the last shares the first one's physical ID", made(*FALLING[:255], core(0, 256), *REST), refused(39, LAST))
read("39: falling, the last repeats two others", made(*FALLING[:255], core(256, 2), *REST), refused(39, LAST))
read("39: falling, the first pair", made(core(255, 0), *FALLING[1:], *REST), refused(39, 177))
read("39: UID of the first, physical ID of the second", made(core(1, 2), core(3, 4), core(1, 4), *REST), refused(39, 192))
read("39: physical ID of the first, UID of the second", made(core(1, 2), core(3, 4), core(3, 2), *REST), refused(39, 192))
read("39: third repeats second, fourth first", made(core(4, 4), core(3, 3), core(3, 2), core(4, 1), *REST), refused(39, 192))
read("39: third repeats a physical ID, fourth a UID", made(core(9, 9), core(8, 8), core(7, 9), core(8, 6), *REST), refused(39, 192))
read("39: above all UIDs, a physical ID repeated", made(core(1, 1), core(2, 2), core(3, 1), *REST), refused(39, 192))
read("39: above all physical IDs, a UID repeated", made(core(1, 1), core(2, 2), core(1, 3), *REST), refused(39, 192))
read("39: one out of place", made(core(1, 1), core(5, 5), core(3, 3), core(6, 6), *REST), "read 4 1 1 5 5 3 3 6 6")
read("39: one out of place is repeated", made(core(1, 1), core(5, 5), core(3, 3), core(6, 3), *REST), refused(39, 207))
read("39: UIDs rise, physical IDs fall", made(core(1, 3), core(2, 2), core(3, 1), *REST), "read 3 1 3 2 2 3 1")
read("39: UIDs fall, physical IDs rise, the last repeats", made(core(3, 1), core(2, 2), core(1, 2), *REST), refused(39, 192))
ALTERNATE = [x for k in range(128) for x in (core(128 - k, 128 - k), core(128, 128, 0))]
read("39: 128 enabled among disabled ones like the first", made(*ALTERNATE, *REST), "read 128" + "".join(2 * f" {128 - k}" for k in range(128)))
read("39: the last enabled of 128 repeats the first", made(*ALTERNATE[:254], core(0, 128), ALTERNATE[255], *REST), refused(39, 162 + 15 * 254))
read("39: 255 enabled, a disabled one between", made(*FALLING[:100], core(256, 256, 0), *FALLING[101:], *REST),
     "read 255" + "".join(2 * f" {256 - k}" for k in range(256) if k != 100))
read("38: 256 enabled CORE, a disabled one behind", made(*FALLING, core(0, 0, 0), *REST), refused(38, LAST + 15))
read("38: 256 enabled CORE, a disabled one before", made(core(0, 0, 0), *FALLING, *REST), refused(38, LAST + 15))
read("38 before 39: 257 CORE, all alike", made(*257 * [C], *REST), refused(38, LAST + 15))
PASSED = b"\xC8\2"  # a structure of two bytes, of a type that is passed over
read("39: falling among two-byte structures", made(PASSED, core(3, 3), PASSED, PASSED, core(2, 2), PASSED, C, *REST), "read 3 3 3 2 2 0 0")
read("39: repeated among two-byte structures", made(PASSED, core(3, 3), PASSED, PASSED, core(2, 2), PASSED, core(3, 1), *REST), refused(39, 200))
for kind in (16, 24):
    read(f"39: type {kind} with a CORE's bytes is passed over", made(C, bytes([kind]) + C[1:], core(1, 1), *REST), TWO)
BEHIND, BETWEEN = 15000 * PASSED, 61 * PASSED  # with 256 CORE a capture of 65,514 bytes
LONG = [BEHIND] + [x for c in FALLING for x in (c, BETWEEN)]
read("39: 256 that fall among 30,616 two-byte structures", made(*LONG, *REST), FELL)
read("39: the last of these repeats the first", made(*LONG[:-2], core(256, 0), BETWEEN, *REST), refused(39, 162 + 2 * 15000 + (15 + 2 * 61) * 255))
read_bytes("39, for C: falling among two-byte structures", made(PASSED, core(3, 3), PASSED, core(2, 2), *REST), "read 2 3 0 0 0 3 0 0 0 2 0 0 0 2 0 0 0", 16)
read_bytes("39, for C: the last of 256 repeats the first", made(*FALLING[:255], core(256, 0), *REST), refused(39, LAST), 2048)
route("39: falling, route", made(core(2, 2), core(1, 1), *REST), 26, "kind 0 2 10")
route("39: falling, the last repeats, route", made(core(2, 2), core(1, 1), core(2, 0), *REST), 26, refused(39, 192))
trace("39: falling, the last repeats, trace", made(core(2, 2), core(1, 1), core(2, 0), *REST), 2, 10, refused(39, 192))
read("38: 256 CORE, the last alone enabled", made(*255 * [core(0, 0, 0)], C, *REST), ONE)
read("40: CORE alike, none enabled", made(core(0, 0, 0), core(0, 0, 0), *REST), refused(40, 118))
read("60: room for the enabled ones alone", made(C, *SPARES, *REST), ONE, room=2)
read("60: no room for the enabled one", made(C, *SPARES, *REST), refused(60, 0), room=1)

read("40: no structure", made(), refused(40, 118))
read("40: no enabled CORE", made(core(0, 0, 0), L, eio(3, 0)), refused(40, 118))
read("40: no LIO", made(C, eio(3, 0)), refused(40, 118))
read("40: neither EIO nor HT", made(C, L), refused(40, 118))
read("41: EIO repeats a node, and not 53", plus(eio(3, 0)), refused(41, 294))
read("41 before 42", made(C, L, eio(3, 0), eio(4, 0), bio(9, 64)), refused(41, 213))
read("42: BIO without its EIO", plus(bio(9, 128)), refused(42, 294))
read("42: BIO before its EIO is fine", made(C, L, bio(0, 64), eio(3, 0)), "read 1 0 0")
read("43: LPC without a BIO", made(C, L, eio(3, 0), lpc(19)), refused(43, 213))

# 51 to 54, 60. A clash is told with the earliest structure that the named one clashes with by that rule.
read("51: bases 64 and 127", plus(eio(4, 5), bio(5, 127)), refused(51, 307, 262))
read("51: bases 64 and 128 are fine", plus(eio(4, 5), bio(5, 128)), TWO)
read("51: the same BIO twice", plus(bio(0, 64)), refused(51, 294, 262))
read("51: over two BIO, with the first", made(C, L, eio(3, 0), eio(4, 5), bio(0, 64), bio(5, 128), bio(0, 100)), refused(51, 260, 226))
read("51: with the BIO, not with the MSI of 52", made(C, L, eio(3, 0), msi(0, 8), bio(0, 64), bio(0, 64)), refused(51, 249, 232))
read("51 before 53", board(STRUCTURES_OF_A[:4] + [eio(2, 0)] + STRUCTURES_OF_A[5:] + [eio(4, 5), bio(5, 127)]), refused(51, 307, 262))
read("52: two BIO of one node", plus(bio(0, 128)), refused(52, 294, 262))
read("52: MSI 63 before the BIO", put(MSI, msi(63, 193)), refused(52, 262, 243))
read("52: BIO before the MSI", made(C, L, eio(3, 0), bio(0, 64), msi(0, 64)), refused(52, 230, 213))
read("52: an EIO that stands last is not named", made(C, L, msi(0, 64), bio(0, 64), eio(3, 0)), refused(52, 219, 200))
read("52: slots are on every EIO", made(C, L, eio(3, 0), eio(4, 5), msi(0, 256), bio(5, 64)), refused(52, 245, 226))
read("52: two equal MSI, as the source describes", plus(eio(4, 5), msi(64, 192), bio(5, 128)), refused(52, 307, 243))
read("52: the first that clashes, of three MSI and a BIO",
     made(C, L, eio(3, 0), bio(0, 64), msi(64, 64), msi(100, 8), msi(0, 8)), refused(52, 249, 230))
read("52: a BIO with the first of two MSI", made(C, L, eio(3, 0), msi(0, 8), msi(8, 8), bio(0, 64)), refused(52, 251, 213))
read("52: not with an MSI that is apart", made(C, L, eio(3, 0), msi(64, 8), msi(8, 8), bio(0, 64)), refused(52, 251, 232))
read("53: EIO cascade 2", put(EIO, eio(2, 0)), refused(53, 230, 207))
read("53: LIO after the EIO", made(C, eio(2, 0), L), refused(53, 190, 177))
read("53: high half", put(LIO, lio(2, 3, 0xFF, 0xFF00)), refused(53, 230, 207))
read("53: both halves on one vector are fine", put(LIO, lio(2, 2, 0xFFFF, 0xFF0000)), TWO)
read("53: two EIO", plus(eio(3, 5)), refused(53, 294, 230))
read("53: EIO cascades 3, 4, 4, 3", made(C, L, *[eio(cascade, node) for node, cascade in enumerate((3, 4, 4, 3))]), refused(53, 226, 213))
read("53: the LIO's halves with two EIO, the first told", made(C, eio(5, 0), eio(2, 1), lio(2, 5, 0xFF, 0xFF00)), refused(53, 203, 177))
for sci, answer in ((0, TWO), (15, TWO), (39, TWO), (40, refused(54, 294)), (45, refused(54, 294)), (48, refused(54, 294)),
                    (63, refused(54, 294)), (64, TWO), (83, TWO), (127, TWO), (128, refused(54, 294)), (65535, refused(54, 294))):
    read(f"54: SCI {sci}", board(sci=sci), answer)
read("54: SCI 3 without LPC", board(STRUCTURES_OF_A[:7], 3), refused(54, 279))
read("no BIO, no LPC, SCI 26, MSI 0 to 255", made(C, L, eio(3, 0), msi(0, 256)), "read 1 0 0")
read("the same with SCI 75", made(C, L, eio(3, 0), msi(0, 256), sci=75), refused(54, 232))
read("60: a list of 3", A, refused(60, 0), 3)
read("60: a list of 4", A, TWO, 4)
read("60: no list", A, refused(60, 0), 0)
read("60: a list of 5", A, TWO, 5)
read("60 after 54", board(sci=45), refused(54, 294), 0)

# W-212: bridges with fewer pins. In version 2 all places are 8 further on: board A's LIO is at 215, EIO 238, MSI 251, BIO 270, LPC 287,
# what is added to it at 302, and so its FADT without that.


def paired(*pairs, structures=(), sci=75, **put):
    """Board A with pairs, structures behind its last one, and others in place of its own."""
    kinds = {"msi": MSI, "bio": BIO, "lpc": LPC}
    own = list(STRUCTURES_OF_A)
    for kind, new in put.items():
        own[kinds[kind]] = new
    return board(own + list(structures), sci, pairs=pairs)


SECOND = [eio(4, 5), bio(5, 96)]
read("version 2 without pairs", A2, TWO)
survey("version 2 without pairs", A2, found(126, 176, 302, 244, 75))
both(read, "version 2, MADT revision 5", board(pairs=()).replace(madt(STRUCTURES_OF_A), madt(STRUCTURES_OF_A, revision=5)),
     ordinary=TWO, strict=refused(29, 126))
read("32 pins: slots from 32 on", paired((0, 32), msi=msi(32, 224)), TWO)
read("32 pins: slots from 31 on", paired((0, 32), msi=msi(31, 225)), refused(52, 270, 251))
read("slots from 32 on without a pair", paired(msi=msi(32, 224)), refused(52, 270, 251))
read("slots from 32 on, the pair empty", paired((0, 0), msi=msi(32, 224)), refused(52, 270, 251))
read("slots from 32 on, the pair of another ID", paired((1, 32), msi=msi(32, 224)), refused(52, 270, 251))
read("slots from 32 on, the pair behind an empty one", paired((0, 0), (9, 9), (0, 32), msi=msi(32, 224)), TWO)
read("slots from 32 on, the last pair", paired((1, 1), (2, 2), (3, 3), (0, 32), msi=msi(32, 224)), TWO)
read("32 pins: a bridge behind them", paired((0, 32), structures=SECOND), TWO)
read("33 pins: a bridge in them", paired((0, 33), structures=SECOND), refused(51, 315, 270))
read("64 pins: a bridge in them", paired((5, 32), structures=SECOND), refused(51, 315, 270))
read("one hardware ID, one count", paired((0, 32), structures=[bio(0, 96)]), refused(52, 302, 270))
read("a pair for 200", paired((200, 7)), TWO)
read("a base past its range, with 32 pins", paired((0, 32), bio=bio(0, 65473)), refused(76, 270))
read("45: 19 pins, cascade 19", paired((0, 19)), refused(45, 287))
read("45: 20 pins, cascade 19", paired((0, 20)), TWO)
read("45: 63 pins, cascade 63", paired((0, 63), lpc=lpc(63)), refused(45, 287))
read("45: 64 pins, cascade 63", paired((0, 64), lpc=lpc(63)), TWO)
read("45: 1 pin, cascade 0", paired((0, 1), lpc=lpc(0), sci=64), TWO)
read("45: another bridge is short", paired((5, 10), structures=[eio(4, 5), bio(5, 128)]), TWO)
read("45: another, earlier bridge is short", paired((5, 10), bio=bio(5, 128), structures=[eio(4, 5), bio(0, 64)]), TWO)
read("45: its own, later bridge is short", paired((0, 10), bio=bio(5, 128), structures=[eio(4, 5), bio(0, 64)]), refused(45, 287))
read("77 before 45", paired((0, 10), lpc=lpc(64)), refused(77, 287))
read("42 before 45", paired((9, 5), bio=bio(9, 64)), refused(42, 270))
read("43, and no 45, without a bridge", board(STRUCTURES_OF_A[:BIO] + [lpc(19)], 26, pairs=[(0, 5)]), refused(43, 270))
read("45 before 51", paired((0, 10), structures=[bio(0, 64)]), refused(45, 287))
read("45 before 52", paired((0, 10), msi=msi(5, 8)), refused(45, 287))
read("45 before 54", paired((0, 10), sci=45), refused(45, 287))
read("54: the SCI on the last pin", paired((0, 32), sci=95), TWO)
read("54: the SCI on a pin that is gone", paired((0, 32), sci=96), refused(54, 302))
SHORT, BEHIND = paired((0, 32)), paired((0, 32), structures=SECOND)
for number, answer in ((95, "kind 0 3 31"), (96, "kind 2 0 0"), (127, "kind 2 0 0"), (83, "kind 0 3 19"), (3, "kind 0 3 19")):
    route(f"32 pins: {number}", SHORT, number, answer)
for vector, number, answer in ((3, 31, "kind 2 0 95"), (3, 32, "kind 0 0 0"), (3, 63, "kind 0 0 0"), (3, 64, "kind 4 0 64"),
                               (3, 19, "kind 3 0 83")):
    trace(f"32 pins: {vector} {number}", SHORT, vector, number, answer)
trace("32 pins: slot 32", paired((0, 32), msi=msi(32, 224)), 3, 32, "kind 4 0 32")
for number, answer in ((95, "kind 0 3 31"), (96, "kind 0 4 0"), (159, "kind 0 4 63"), (160, "kind 2 0 0")):
    route(f"a bridge behind 32 pins: {number}", BEHIND, number, answer)
trace("a bridge behind 32 pins: its input 0", BEHIND, 4, 0, "kind 2 0 96")
route("1 pin: 64", paired((0, 1), lpc=lpc(0), sci=64), 64, "kind 0 3 0")
route("1 pin: 65", paired((0, 1), lpc=lpc(0), sci=64), 65, "kind 2 0 0")
route("as the reading: 45", paired((0, 19)), 72, refused(45, 287))
read_bytes("32 pins, for C", SHORT, "read 2 0 0 0 0 0 0 0 0 1 0 0 0 1 0 0 0", 2048)

# W-208: the LPC's bridge is the BIO whose hardware ID stands in bits 44 to 47 of the LPC's base.
BRIDGES = [bio(0, 64), bio(5, 128)]  # at 226 and 243; the LPC is at 260


def behind(own, bridges=BRIDGES, sci=26):
    """A board with EIO of node 0 and of node 5, bridges, and an LPC of its own."""
    return made(C, L, eio(3, 0), eio(4, 5), *bridges, own, sci=sci)


ON_5 = behind(lpc(19, base=0x5E0010002000))
read("the LPC behind node 5", ON_5, "read 1 0 0")
for number in range(16):
    route(f"the LPC behind node 5: {number}", ON_5, number, "kind 0 4 19")
for number, answer in ((16, "kind 0 2 0"), (83, "kind 0 3 19"), (147, "kind 0 4 19")):
    route(f"the LPC behind node 5: {number}", ON_5, number, answer)
trace("the LPC behind node 5: its pin", ON_5, 4, 19, "kind 3 0 147")
trace("the LPC behind node 5: the pin of node 0", ON_5, 3, 19, "kind 2 0 83")
for base, vector, pin, other, told in ((0xFFFF0E0010002000, 3, 83, 4, 147), (0xFFFF5E0010002000, 4, 147, 3, 83), (0x050010002000, 3, 83, 4, 147),
                                       (0x500000000000, 4, 147, 3, 83), (0x5FFFFFFFFFFF, 4, 147, 3, 83), (0x50E0010002000, 3, 83, 4, 147)):
    for order, bridges in (("rising", BRIDGES), ("falling", BRIDGES[::-1])):
        data = behind(lpc(19, base=base), bridges)
        route(f"LPC base {base:#x}, bridges {order}: 3", data, 3, f"kind 0 {vector} 19")
        trace(f"LPC base {base:#x}, bridges {order}: its pin", data, vector, 19, f"kind 3 0 {pin}")
        trace(f"LPC base {base:#x}, bridges {order}: the other", data, other, 19, f"kind 2 0 {told}")
for base in (0x4FFFFFFFFFFF, 0x600000000000, 0x3E0010002000, 0xFE0010002000, 0xFFFF1E0010002000, 0x5000000000000 | 0x450010002000):
    read(f"43: LPC base {base:#x}, bridges 0 and 5", behind(lpc(19, base=base)), refused(43, 260))
for node in range(1, 16):
    read(f"43: board A with its LPC on node {node}", put(LPC, lpc(19, node)), refused(43, 279))
for hardware, node in ((5, 0), (16, 0), (63, 15), (21, 5), (4, 5), (6, 5), (14, 15)):
    read(f"43: hardware ID {hardware}, LPC on node {node}", made(C, L, eio(3, hardware), bio(hardware, 64), lpc(19, node)), refused(43, 230))
for node in range(16):
    route(f"hardware ID {node}, LPC on node {node}", made(C, L, eio(3, node), bio(node, 64), lpc(19, node)), 7, "kind 0 3 19")
read("43, and the LPC before all bridges", made(C, L, lpc(19, 3), eio(3, 0), eio(4, 5), *BRIDGES), refused(43, 200))
read("the LPC before all bridges", made(C, L, lpc(19, 5), eio(3, 0), eio(4, 5), *BRIDGES), "read 1 0 0")
read("77 before 43", put(LPC, lpc(64, 3)), refused(77, 279))
read("40 before 43", made(C, eio(3, 0), bio(0, 64), lpc(19, 3)), refused(40, 118))
read("41 before 43", made(C, L, eio(3, 0), eio(4, 0), bio(0, 64), lpc(19, 3)), refused(41, 213))
read("42 before 43", made(C, L, eio(3, 0), bio(9, 64), lpc(19, 3)), refused(42, 213))
read("43 before 45", paired((0, 10), lpc=lpc(19, 5)), refused(43, 287))
read("43 before 51", board(STRUCTURES_OF_A[:LPC] + [lpc(19, 3), bio(0, 64)]), refused(43, 279))
read("43 before 52", board(STRUCTURES_OF_A[:MSI] + [msi(63, 193), bio(0, 64), lpc(19, 3)]), refused(43, 279))
read("43 before 53", board(STRUCTURES_OF_A[:EIO] + [eio(2, 0), msi(64, 192), bio(0, 64), lpc(19, 3)]), refused(43, 279))
read("43 before 54", put(LPC, lpc(19, 3), 45), refused(43, 279))
read("two bridges of the LPC's node are 52", behind(lpc(19, 5), [bio(5, 64), bio(5, 128)]), refused(52, 243, 226))
read("two bridges of node 5, the LPC's on 0, are 52", behind(lpc(19), [bio(5, 64), bio(0, 128), bio(5, 192)]), refused(52, 260, 226))
for sci in (0, 3, 15):
    read(f"54: SCI {sci}, the LPC behind node 5", behind(lpc(19, 5), sci=sci), "read 1 0 0")
FIFTH = [eio(4, 5), bio(5, 128)]
read("45: the LPC behind node 5, node 0 is short", paired((0, 10), structures=FIFTH, lpc=lpc(19, 5), sci=128), TWO)
read("45: the LPC behind node 5, it is short", paired((5, 19), structures=FIFTH, lpc=lpc(19, 5)), refused(45, 287))
read("45: the LPC behind node 5, it has the pin", paired((5, 20), structures=FIFTH, lpc=lpc(19, 5)), TWO)
trace("the other bridge's pin is gone", paired((0, 10), structures=FIFTH, lpc=lpc(19, 5), sci=128), 3, 19, "kind 0 0 0")
trace("the LPC's pin behind a short bridge", paired((0, 10), structures=FIFTH, lpc=lpc(19, 5), sci=128), 4, 19, "kind 3 0 147")
read_bytes("43, for C", put(LPC, lpc(19, 5)), refused(43, 279), 16)
route("43, route", put(LPC, lpc(19, 5)), 72, refused(43, 279))
trace("43, trace", put(LPC, lpc(19, 5)), 3, 8, refused(43, 279))

# Newer MADT revisions: the ordinary reading takes any of 1 or more, and then asks the same rules; the strict one takes 1 alone.


def revised(revision, structures=STRUCTURES_OF_A, flags=0, sci=75):
    """Board A with a MADT of another revision."""
    return one(lay([madt(structures, revision, flags), fadt(sci)]))


NOT_TAKEN = refused(29, 118)
for revision in (0, 1, 2, 5, 255):
    ordinary, strict = (TWO if 1 <= revision else NOT_TAKEN), (TWO if revision == 1 else NOT_TAKEN)
    both(read, f"MADT revision {revision}", revised(revision), ordinary=ordinary, strict=strict)
    read_bytes(f"C: MADT revision {revision}", revised(revision),
               "read 2 0 0 0 0 0 0 0 0 1 0 0 0 1 0 0 0" if revision == 1 else NOT_TAKEN, 16)
both(read, "revision 5, CORE with reserved flags", revised(5, [core(0, 0), core(1, 1, 2)] + STRUCTURES_OF_A[2:]),
     ordinary=refused(35, 177), strict=NOT_TAKEN)
both(read, "revision 0, CORE with reserved flags", revised(0, [core(0, 0), core(1, 1, 2)] + STRUCTURES_OF_A[2:]),
     ordinary=NOT_TAKEN, strict=NOT_TAKEN)
both(read, "revision 5, FADT of 47", one(lay([madt(STRUCTURES_OF_A, 5), fadt(size=47)])), ordinary=refused(28, 294), strict=refused(28, 294))
both(read, "revision 5, flags 1", revised(5, flags=1), ordinary=refused(30, 118), strict=NOT_TAKEN)
both(read, "revision 5, MADT's sum wrong", changed(revised(5), 126, b"\6"), ordinary=refused(22, 118), strict=refused(22, 118))
both(read, "revision 5, MADT named twice", one(lay([madt(STRUCTURES_OF_A, 5), F], [0, 1, 0])), ordinary=refused(27, 118), strict=refused(27, 118))
both(read, "revision 5, an entry that is not present", one(lay([madt(STRUCTURES_OF_A, 5), F], [0, 1, TOP - 8])),
     ordinary=refused(20, 118), strict=refused(20, 118))
both(read, "revision 5, last structure cut", revised(5, STRUCTURES_OF_A + [b"\x11"]), ordinary=refused(31, 294), strict=NOT_TAKEN)
both(read, "revision 5, board A and an HT", revised(5, STRUCTURES_OF_A + [ht()]), ordinary=refused(34, 294), strict=NOT_TAKEN)
both(read, "revision 5, type 24 passed over", revised(5, STRUCTURES_OF_A + [b"\x18\x08" + bytes(6)]), ordinary=TWO, strict=NOT_TAKEN)
both(read, "revision 5, no structure", revised(5, []), ordinary=refused(40, 118), strict=NOT_TAKEN)
both(read, "revision 5, MSI over the BIO's vectors", revised(5, [msi(63, 193) if k == MSI else s for k, s in enumerate(STRUCTURES_OF_A)]),
     ordinary=refused(52, 262, 243), strict=NOT_TAKEN)
both(read, "revision 5, SCI 45", one(lay([madt(STRUCTURES_OF_A, 5), fadt(45)])), ordinary=refused(54, 294), strict=NOT_TAKEN)
for revision, ordinary in ((1, refused(60, 0)), (5, refused(60, 0)), (0, NOT_TAKEN)):
    read(f"revision {revision}, a list of 3, ordinary", revised(revision), ordinary, 3)
    read(f"revision {revision}, a list of 3, strict", revised(revision), refused(60, 0) if revision == 1 else NOT_TAKEN, 3, STRICT)
both(route, "revision 5: 72", revised(5), 72, ordinary="kind 0 3 8", strict=NOT_TAKEN)
both(route, "revision 255: 3", revised(255), 3, ordinary="kind 0 3 19", strict=NOT_TAKEN)
both(route, "revision 5, the LPC behind node 5: 3", revised(5, [C, L, eio(3, 0), eio(4, 5), *BRIDGES, lpc(19, 5)], sci=26), 3,
     ordinary="kind 0 4 19", strict=NOT_TAKEN)
both(read, "revision 5, the LPC on node 3", revised(5, STRUCTURES_OF_A[:LPC] + [lpc(19, 3)]), ordinary=refused(43, 279), strict=NOT_TAKEN)
both(route, "revision 5: 50", revised(5), 50, ordinary="kind 2 0 0", strict=NOT_TAKEN)
both(route, "revision 0: 72", revised(0), 72, ordinary=NOT_TAKEN, strict=NOT_TAKEN)
both(route, "revision 1: 72", revised(1), 72, ordinary="kind 0 3 8", strict="kind 0 3 8")
both(trace, "revision 5: 3 19", revised(5), 3, 19, ordinary="kind 3 0 83", strict=NOT_TAKEN)
both(trace, "revision 5: 3 64", revised(5), 3, 64, ordinary="kind 4 0 64", strict=NOT_TAKEN)
both(trace, "revision 1: 2 10", revised(1), 2, 10, ordinary="kind 1 0 26", strict="kind 1 0 26")
read_bytes("C: revision 5, CORE with reserved flags", revised(5, [core(0, 0), core(1, 1, 2)] + STRUCTURES_OF_A[2:]), NOT_TAKEN, 16)
read_bytes("C: revision 5, FADT of 47", one(lay([madt(STRUCTURES_OF_A, 5), fadt(size=47)])), refused(28, 294), 16)
read_bytes("C: revision 5, no list", revised(5), NOT_TAKEN, 0)

# The list as bytes, four little-endian ones a number.
BYTES_OF_TWO = "read 2" + " 0" * 8 + " 1 0 0 0" * 2
for room in (16, 17, 18, 19, 20, 2048):
    read_bytes(f"C: a list of {room} bytes", A, BYTES_OF_TWO, room)
for room in (0, 1, 8, 15):
    read_bytes(f"C: a list of {room} bytes", A, refused(60, 0), room)
read_bytes("C: byte order", put(0, core(0x04030201, 0xFFFEFDFC)), "read 2 1 2 3 4 252 253 254 255 1 0 0 0 1 0 0 0", 16)
read_bytes("C: 256 processors", made(*[core(k, 255 - k) for k in range(256)], L, eio(3, 0)),
           "read 256" + "".join(f" {k} 0 0 0 {255 - k} 0 0 0" for k in range(256)).replace(" 165", ""), 2048)
read_bytes("C: 256 processors, one byte short", made(*[core(k, k) for k in range(256)], L, eio(3, 0)), refused(60, 0), 2047)
read_bytes("C: a refusal leaves the list", put(MSI, msi(63, 193)), refused(52, 262), 16)
read_bytes("C: 54 before 60", board(sci=45), refused(54, 294), 0)
read_bytes("C: no bytes", b"", refused(1, 0), 16)

# Routes and traces by the C entries: kind, vector or node, number.
for number, answer in ((72, "kind 0 3 8"), (26, "kind 0 2 10"), (3, "kind 0 3 19"), (45, "kind 1 0 0"), (50, "kind 2 0 0"),
                       (128, "kind 2 0 0"), (127, "kind 0 3 63"), (83, "kind 0 3 19"), (0xFFFFFFFF, "kind 2 0 0"),
                       (39, "kind 0 2 23"), (40, "kind 1 0 0"), (47, "kind 1 0 0"), (48, "kind 2 0 0"), (63, "kind 2 0 0")):
    route(f"A: {number}", A, number, answer)
for vector, number, answer in ((3, 19, "kind 3 0 83"), (3, 64, "kind 4 0 64"), (2, 24, "kind 0 0 0"), (3, 8, "kind 2 0 72"),
                               (2, 10, "kind 1 0 26"), (0xFFFFFFFF, 19, "kind 0 0 0"), (3, 0xFFFFFFFF, "kind 0 0 0"),
                               (2, 42, "kind 0 0 0")):
    trace(f"A: {vector} {number}", A, vector, number, answer)
TWO_BRIDGES = made(C, L, eio(3, 0), eio(4, 5), bio(5, 128), bio(0, 64), lpc(19))
route("the LPC's bridge stands behind the other", TWO_BRIDGES, 3, "kind 0 3 19")
trace("the LPC's pin", TWO_BRIDGES, 3, 19, "kind 3 0 83")
trace("the other bridge's input 19", TWO_BRIDGES, 4, 19, "kind 2 0 147")
route("the other bridge's number of it", TWO_BRIDGES, 147, "kind 0 4 19")
NO_LPC = board(STRUCTURES_OF_A[:LPC])
route("0 without an LPC", NO_LPC, 0, "kind 2 0 0")
trace("input 19 without an LPC", NO_LPC, 3, 19, "kind 2 0 83")
HALVES = put(LIO, lio(2, 5, 0xF, 0xF0), 72)
route("low half", HALVES, 16, "kind 0 2 0")
route("high half", HALVES, 20, "kind 0 5 4")
route("in no half", HALVES, 24, "kind 1 0 0")
trace("high half", HALVES, 5, 4, "kind 1 0 20")
trace("the high half's input at the low half's vector", HALVES, 2, 4, "kind 0 0 0")
route("high half alone", put(LIO, lio(0, 2, 0, 0xFFFFFF)), 26, "kind 0 2 10")
route("both halves unused", put(LIO, lio(255, 255, 0, 0)), 26, "kind 1 0 0")
route("both halves on one vector", put(LIO, lio(2, 2, 0xFFFF, 0xFF0000)), 32, "kind 0 2 16")
route("an unused half enters nowhere, not by the EIO's vector", put(LIO, lio(2, 3, 0xFFFFFF, 0)), 72, "kind 0 3 8")
route("EIO cascade 9", put(EIO, eio(9, 0)), 72, "kind 0 9 8")
LAST_BASE = put(BIO, bio(0, 65472), 65535)
route("the last global number", LAST_BASE, 65535, "kind 0 3 63")
route("64 is nobody's where the base is 65,472", LAST_BASE, 64, "kind 2 0 0")
trace("a slot on node 5", plus(eio(4, 5)), 4, 64, "kind 4 5 64")
trace("the same slot on node 0", plus(eio(4, 5)), 3, 64, "kind 4 0 64")
trace("below the slots of node 5", plus(eio(4, 5)), 4, 63, "kind 0 0 0")
route("the second of two EIO, with one bridge", made(C, L, eio(4, 5), eio(3, 0), bio(0, 64)), 72, "kind 0 3 8")
trace("a slot of the second MSI, with one bridge", made(C, L, eio(3, 0), msi(64, 10), msi(80, 10), bio(0, 64)), 3, 85, "kind 4 0 85")
route("refused as the reading is", put(MSI, msi(63, 193)), 72, refused(52, 262))
trace("refused as the reading is", b"", 3, 19, refused(1, 0))
for name, answer in [
    ("qemu111-smp4", refused(30, 5331)),
    ("edk2-qemu111-smp4-tables", refused(30, 690)),
    ("qemu111-smp256-pages", refused(30, 31159)),
    ("p3-flags-lio-lpc-tables", "read 4 0 0 1 1 2 2 3 3"),
    ("p5-flags-lio-lpc14", refused(32, 16590)),
    ("a6-vector4", "read 1 1 0"),
    ("p14-twobridge", refused(52, 16646, 16627)),
    ("p15-twobridge-onemsi", "read 8" + "".join(f" {k} {k}" for k in range(8))),
]:
    real = (REAL / (name + ".cap")).read_bytes()
    read("real: " + name, real, answer)
    verdict, *numbers = answer.split()
    if verdict == "read":
        answer = "read " + numbers[0] + "".join(f" {number} 0 0 0" for number in numbers[1:])
    answer = answer.split(" with")[0]  # a C result has no second place
    read_bytes("real, for C: " + name, real, answer, 2048)

SPARE = PRINTED["qemu-spare-cores"][0]
survey("real, with spare CORE", SPARE, found(670, 371, 1041, 268, 0))
both(read, "real, with spare CORE", SPARE, ordinary=FEW, strict=FEW)
route("real, with spare CORE: the SCI", SPARE, 0, "kind 0 3 19")

# W-201: HT boards. Board A with an HT in place of its EIO, and both halves of the LIO in use: HT at 230, MSI 251, BIO 270, LPC 287, what
# is added to it at 302, and so its FADT without that. In version 2 all places are 8 further on.
SPLIT = lio(2, 3, 0xFFFF, 0xFF0000)  # inputs 0 to 15 arrive at core vector 2, 16 to 23 at 3; 24 to 31 are unwired
NAMED = (16, 1, 2, 3, 4, 5, 6, 7)  # so HT vectors 0 to 31 arrive at core vector 3, the others at 2


def older_structures(*more, **put):
    """The structures of that board, others in place of its own (none for None), and structures behind its last one."""
    own = {"lio": SPLIT, "ht": ht(*NAMED), "msi": msi(64, 192), "bio": bio(0, 64), "lpc": lpc(19)} | put
    return STRUCTURES_OF_A[:LIO] + [new for new in own.values() if new] + list(more)


def older(*more, sci=75, pairs=None, **put):
    return board(older_structures(*more, **put), sci, pairs=pairs)


def naming(byte, at):
    """Its HT with another byte."""
    return ht(*NAMED[:at], byte, *NAMED[at + 1:])


OLD = older()
both(read, "HT: board A with an HT", OLD, ordinary=TWO, strict=TWO)
for number, answer in (
    (0, "kind 0 3 275"), (3, "kind 0 3 275"), (15, "kind 0 3 275"),  # LPC lines
    (16, "kind 0 2 0"), (17, "kind 2 0 0"), (20, "kind 2 0 0"), (23, "kind 2 0 0"), (24, "kind 0 2 8"), (31, "kind 0 2 15"),  # the low half
    (32, "kind 2 0 0"), (33, "kind 0 3 17"), (39, "kind 0 3 23"), (40, "kind 1 0 0"), (47, "kind 1 0 0"),  # the high half, and in none
    (48, "kind 2 0 0"), (63, "kind 2 0 0"), (64, "kind 0 3 256"), (72, "kind 0 3 264"), (83, "kind 0 3 275"), (95, "kind 0 3 287"),
    (96, "kind 0 2 288"), (127, "kind 0 2 319"), (128, "kind 2 0 0"), (264, "kind 2 0 0"), (320, "kind 2 0 0"), (65608, "kind 2 0 0"),
    (0xFFFFFFFF, "kind 2 0 0"),
):
    route(f"HT: {number}", OLD, number, answer)
for vector, number, answer in (
    # LIO inputs: 1 to 7 and 16 are named, 0 and 8 to 15 are left of the low half, 17 to 23 of the high one
    (2, 0, "kind 1 0 16"), (2, 1, "kind 0 0 0"), (2, 7, "kind 0 0 0"), (2, 8, "kind 1 0 24"), (2, 15, "kind 1 0 31"), (2, 16, "kind 0 0 0"),
    (2, 17, "kind 0 0 0"), (2, 31, "kind 0 0 0"), (3, 0, "kind 0 0 0"), (3, 1, "kind 0 0 0"), (3, 8, "kind 0 0 0"), (3, 16, "kind 0 0 0"),
    (3, 17, "kind 1 0 33"), (3, 19, "kind 1 0 35"), (3, 23, "kind 1 0 39"), (3, 24, "kind 0 0 0"), (3, 31, "kind 0 0 0"),
    # no source has a number of 32 to 255
    (2, 32, "kind 0 0 0"), (2, 64, "kind 0 0 0"), (3, 64, "kind 0 0 0"), (2, 255, "kind 0 0 0"), (3, 255, "kind 0 0 0"),
    # bridge inputs, and with them the LPC's
    (3, 256, "kind 2 0 64"), (2, 256, "kind 0 0 0"), (3, 264, "kind 2 0 72"), (2, 264, "kind 0 0 0"), (3, 275, "kind 3 0 83"),
    (2, 275, "kind 0 0 0"), (3, 287, "kind 2 0 95"), (2, 287, "kind 0 0 0"), (3, 288, "kind 0 0 0"), (2, 288, "kind 2 0 96"),
    (2, 319, "kind 2 0 127"), (3, 319, "kind 0 0 0"),
    # slots
    (2, 320, "kind 4 0 64"), (3, 320, "kind 0 0 0"), (2, 511, "kind 4 0 255"), (3, 511, "kind 0 0 0"), (2, 512, "kind 0 0 0"),
    # no such vector, no such number
    (3, 520, "kind 0 0 0"), (0, 264, "kind 0 0 0"), (16, 264, "kind 0 0 0"), (259, 264, "kind 0 0 0"), (3, 65800, "kind 0 0 0"),
    (2, 0xFFFFFFFF, "kind 0 0 0"), (0xFFFFFFFF, 264, "kind 0 0 0"), (0xFFFFFFFF, 0xFFFFFFFF, "kind 0 0 0"),
):
    trace(f"HT: {vector} {number}", OLD, vector, number, answer)

# Byte n is for HT vectors 32n to 32n + 31: groups whose LIO inputs are of the low half and the high half by turns. No bridge, all slots.
STEPS = ht(0, 16, 1, 17, 2, 18, 3, 19)
SLOTS = older(ht=STEPS, msi=msi(0, 256), bio=None, lpc=None, sci=26)
read("HT: slots 0 to 255 without a bridge", SLOTS, TWO)
for slot, vector in ((0, 2), (31, 2), (32, 3), (63, 3), (64, 2), (95, 2), (96, 3), (127, 3), (128, 2), (159, 2), (160, 3), (191, 3), (192, 2),
                     (223, 2), (224, 3), (255, 3)):
    trace(f"HT: slot {slot} of 256", SLOTS, vector, 256 + slot, f"kind 4 0 {slot}")
for vector, number in ((3, 256), (3, 287), (2, 288), (2, 319), (3, 320), (2, 511)):
    trace(f"HT: a slot of 256, by the other vector: {vector} {number}", SLOTS, vector, number, "kind 0 0 0")
for number, answer in ((95, "kind 0 2 287"), (96, "kind 0 3 288"), (126, "kind 0 3 318"), (127, "kind 0 3 319")):
    route(f"HT: groups by turns: {number}", older(ht=STEPS), number, answer)
for cascade, vector in ((0, 2), (31, 2), (32, 3), (63, 3)):
    route(f"HT: groups by turns, LPC cascade {cascade}", older(ht=STEPS, lpc=lpc(cascade)), 7, f"kind 0 {vector} {256 + cascade}")
    trace(f"HT: groups by turns, LPC cascade {cascade}, its pin", older(ht=STEPS, lpc=lpc(cascade)), vector, 256 + cascade,
          f"kind 3 0 {64 + cascade}")
trace("HT: input 19 without an LPC", older(lpc=None), 3, 275, "kind 2 0 83")
route("HT: 0 without an LPC", older(lpc=None), 0, "kind 2 0 0")

# Several bytes may name one input; what no byte names stays a source.
TWICE = older(ht=ht(16, 16, 2, 3, 4, 5, 6, 16))
read("HT: three bytes name one input", TWICE, TWO)
for number, answer in ((17, "kind 0 2 1"), (23, "kind 0 2 7"), (32, "kind 2 0 0"), (96, "kind 0 3 288"), (127, "kind 0 3 319")):
    route(f"HT: three bytes name one input: {number}", TWICE, number, answer)
for vector, number, answer in ((2, 1, "kind 1 0 17"), (3, 16, "kind 0 0 0"), (3, 288, "kind 2 0 96"), (3, 319, "kind 2 0 127"),
                               (2, 320, "kind 4 0 64"), (2, 479, "kind 4 0 223"), (3, 480, "kind 4 0 224"), (3, 511, "kind 4 0 255")):
    trace(f"HT: three bytes name one input: {vector} {number}", TWICE, vector, number, answer)
SAME = older(ht=ht(*8 * [5]))
for number, answer in ((20, "kind 0 2 4"), (21, "kind 2 0 0"), (22, "kind 0 2 6"), (95, "kind 0 2 287"), (96, "kind 0 2 288")):
    route(f"HT: all bytes name input 5: {number}", SAME, number, answer)

# Halves of the LIO.
MERGED = older(lio=lio(2, 2, 0xFFFF, 0xFF0000))
both(read, "53: both halves on one vector, with an HT", MERGED, ordinary=TWO, strict=TWO)
route("HT, both halves on one vector: 72", MERGED, 72, "kind 0 2 264")
route("HT, both halves on one vector: 33", MERGED, 33, "kind 0 2 17")
for number, answer in ((0, "kind 1 0 16"), (1, "kind 0 0 0"), (16, "kind 0 0 0"), (17, "kind 1 0 33"), (264, "kind 2 0 72"), (288, "kind 2 0 96"),
                       (320, "kind 4 0 64")):
    trace(f"HT, both halves on one vector: 2 {number}", MERGED, 2, number, answer)
HIGH = older(lio=lio(255, 9, 0, 0xFFFFFF))
route("HT, high half alone: 72", HIGH, 72, "kind 0 9 264")
trace("HT, high half alone: a slot", HIGH, 9, 320, "kind 4 0 64")
trace("HT, high half alone: the unused half's byte", HIGH, 255, 264, "kind 0 0 0")
route("HT, low half alone: 72", older(lio=L), 72, "kind 0 2 264")
BARE = made(C, lio(2, 0, 1 << 31, 0), ht(*8 * [31]), bio(0, 64), sci=64)
read("HT: the only wired input is named", BARE, ONE)
route("HT: the only wired input is named: 47", BARE, 47, "kind 2 0 0")
route("HT: the only wired input is named: 46", BARE, 46, "kind 1 0 0")
trace("HT: the only wired input is named: 2 31", BARE, 2, 31, "kind 0 0 0")
trace("HT: the only wired input is named: 2 319", BARE, 2, 319, "kind 2 0 127")

# What else is in the HT, and where it stands.
read("HT: its base and size are not looked at", older(ht=ht(*NAMED, base=TOP - 1, size=0xFFFF)), TWO)
route("HT: its base and size are not looked at, route", older(ht=ht(*NAMED, base=TOP - 1, size=0xFFFF)), 72, "kind 0 3 264")
read("HT before the LIO", made(C, ht(*NAMED), SPLIT), ONE)
route("HT before the LIO, and behind its bridge", made(bio(0, 64), ht(*NAMED), C, SPLIT), 72, "kind 0 3 264")
read("HT, and neither bridge nor slots", made(C, L, ht()), ONE)
for label, at in (("inside the HT", [205]), ("inside its bytes", [215, 217])):
    route(f"HT board cut {label}: 72", cut(image(older_structures()), *at), 72, "kind 0 3 264")
read("21: HT board cut inside the HT and a gap of one byte", cut(image(older_structures()), 205, gap=1), refused(21, 130))

# 78 and 44: a byte over 31, in the walk; a byte that names an unwired input, after 43.
WIDE = lio(2, 3, 0xFFFF, 0xFFFF0000)
for at, position in ((0, "first"), (4, "fifth"), (7, "last")):
    for byte, answer in ((0, TWO), (31, TWO), (32, refused(78, 230)), (255, refused(78, 230))):
        read(f"78: the {position} byte {byte}", older(lio=WIDE, ht=naming(byte, at)), answer)
    for byte, answer in ((23, TWO), (24, refused(44, 230)), (31, refused(44, 230))):
        read(f"44: the {position} byte {byte}, inputs 0 to 23 wired", older(ht=naming(byte, at)), answer)
for at in (1, 2, 3, 5, 6):
    read(f"78: byte {at} is 32", older(lio=WIDE, ht=naming(32, at)), refused(78, 230))
    read(f"44: byte {at} is 24", older(ht=naming(24, at)), refused(44, 230))
read("44: a group that nothing lands on", older(ht=naming(24, 7), msi=msi(64, 8)), refused(44, 230))
read("44: nothing lands on the HT at all", made(C, L, ht(0, 0, 0, 0, 0, 0, 0, 24)), refused(44, 200))
read("44: two bytes, one HT", older(ht=ht(31, 1, 2, 3, 4, 5, 6, 30)), refused(44, 230))
read("44: no LIO half is used", older(lio=lio(255, 255, 0, 0)), refused(44, 230))
read("44: HT before the LIO", made(C, ht(0, 0, 0, 24, 0, 0, 0, 0), L), refused(44, 177))
read("44: a hole in the mask", older(lio=lio(2, 3, 0xFFEF, 0xFF0000)), refused(44, 230))
read("44: the hole is in the other half's mask", older(lio=lio(2, 3, 0xFFEF, 0xFF0010)), TWO)
route("44: the hole is in the other half's mask, route", older(lio=lio(2, 3, 0xFFEF, 0xFF0010), ht=naming(4, 0)), 72, "kind 0 3 264")
read("78 before 44: one byte 32, one unwired", older(ht=ht(31, 1, 2, 3, 4, 5, 6, 32)), refused(78, 230))
read("32 before 33 and 78", plus(structure(19, b"\xff" * 17, 0)), refused(32, 294))
read("33 before 78", plus(structure(19, b"\xff" * 18, 2)), refused(33, 294))
read("in turn: 78 before a later 31", made(naming(32, 0), b"\0\1"), refused(78, 162))
read("in turn: 78 before a later 37", made(naming(32, 7), lio(2, 2, 1, 1)), refused(78, 162))
read("in turn: 37 before a later 78", made(lio(2, 2, 1, 1), naming(32, 7)), refused(37, 162))
read("in turn: 77 before a later 78", made(lpc(64), naming(32, 7)), refused(77, 162))
read("in turn: 38 before a later 78", made(L, L, naming(32, 7)), refused(38, 185))
read("78 before 34: board A and an HT with byte 32", plus(naming(32, 3)), refused(78, 294))
read("78 before 34: the second HT", older(naming(255, 0)), refused(78, 302))
read("78 before 39 and 40", made(C, C, naming(32, 0)), refused(78, 192))

# 34: after the walk, at the first structure that gives the board both kinds or a second HT. CORE is at 162, LIO at 177, the next at 200.
H, E = ht(), eio(3, 0)
for label, kinds, place in (
    ("HT, EIO", [H, E], 221), ("EIO, HT", [E, H], 213), ("HT, HT", [H, H], 221), ("HT, EIO, HT", [H, E, H], 221),
    ("EIO, HT, EIO", [E, H, eio(4, 5)], 213), ("HT, HT, EIO", [H, H, E], 221), ("HT, EIO, EIO", [H, E, eio(4, 5)], 221),
    ("EIO, EIO, HT", [E, eio(4, 5), H], 226),
    ("EIO, HT, HT", [E, H, H], 213), ("two HT that differ", [H, ht(1, 2, 3, 4, 5, 6, 7, 8)], 221), ("six HT, and no 38", 6 * [H], 221),
    ("HT, four EIO", [H, *FOUR], 221), ("four EIO, HT", [*FOUR, H], 252), ("HT, MSI, BIO, EIO", [H, msi(64, 8), bio(0, 64), E], 257),
    ("HT, type 24, EIO", [H, b"\x18\x08" + bytes(6), E], 229),
):
    read("34: " + label, made(C, L, *kinds), refused(34, place))
read("34: HT board and an EIO", older(eio(4, 0)), refused(34, 302))
read("34: HT board and its HT again", older(ht(*NAMED)), refused(34, 302))
read("34: HT and EIO alone", made(H, E), refused(34, 183))
both(read, "34 of version 2", older(E, pairs=[(0, 32)]), ordinary=refused(34, 310), strict=refused(34, 310))

# Any refusal of any structure comes first: what stands behind HT and EIO is at 234.
for number, label, later in (
    (31, "length 1", b"\0\1"), (31, "one byte left", b"\x13"), (31, "an HT past the end", H[:20]),
    (32, "a CORE of length 14", structure(17, bytes(11))), (32, "an HT of length 20", structure(19, bytes(17))),
    (33, "version 2", structure(17, bytes(12), 2)), (33, "an HT of version 0", structure(19, bytes(18), 0)), (35, "flags 2", core(1, 1, 2)),
    (71, "cascade 1", eio(1, 5)), (72, "node 64", eio(4, 64)), (73, "node map 0", eio(4, 5, 0)), (74, "count 0", msi(0, 0)),
    (75, "end 257", msi(1, 256)), (76, "base 63", bio(0, 63)), (77, "cascade 64", lpc(64)), (78, "byte 32", naming(32, 5)),
    (37, "a bit in both masks", lio(2, 2, 1, 1)), (38, "second LIO", L),
):
    read(f"{number} before 34: {label}", made(C, L, H, E, later), refused(number, 234))
read("38 before 34: HT, five EIO", made(C, L, H, *FOUR, eio(7, 4)), refused(38, 273))
read("38 before 34: five EIO, HT", made(C, L, *FOUR, eio(7, 4), H), refused(38, 252))
read("31 before 34: two HT", made(C, L, H, H, b"\0\1"), refused(31, 242))

# And 34 comes before what is asked of the board.
read("34 before 39", made(C, C, L, H, E), refused(34, 236))
read("34 before 39: two HT", made(H, C, C, H, L), refused(34, 213))
read("34 before 40: no LIO", made(C, H, E), refused(34, 198))
read("34 before 40: no enabled CORE", made(core(0, 0, 0), L, H, E), refused(34, 221))
read("34 before 41", made(C, L, H, E, E), refused(34, 221))
read("34 before 41, which is earlier in the table", made(C, L, E, E, H), refused(34, 226))
read("34 before 42", made(C, L, H, E, bio(9, 64)), refused(34, 221))
read("34 before 43", made(C, L, H, E, lpc(19)), refused(34, 221))
read("34 before 44", made(C, L, naming(31, 0), E), refused(34, 221))
read("34 before 45", older(E, pairs=[(0, 10)]), refused(34, 310))
read("34 before 51", older(bio(0, 64), E), refused(34, 319))
read("34 before 52", older(E, msi=msi(63, 193)), refused(34, 302))
read("34 before 53", made(C, L, H, eio(2, 0)), refused(34, 221))
read("34 before 54", older(E, sci=45), refused(34, 302))
read("34 before 60", plus(ht()), refused(34, 294), room=0)

# 39, 40, 42 and 43 of HT boards.
read("39: HT board", made(C, C, L, H), refused(39, 177))
read("39 before 40: HT without LIO", made(C, C, H), refused(39, 177))
read("40: HT without LIO", made(C, H), refused(40, 118))
read("40: HT alone", made(H), refused(40, 118))
read("40: HT, no CORE", made(L, H), refused(40, 118))
read("40: HT, no enabled CORE", made(core(0, 0, 0), L, H), refused(40, 118))
read("40 before 42: HT", made(C, H, bio(5, 64)), refused(40, 118))
read("40 before 43: HT", made(C, H, lpc(19)), refused(40, 118))
read("40 before 44: no LIO", made(C, naming(31, 0)), refused(40, 118))
for hardware, answer in ((0, TWO), (1, refused(42, 270)), (5, refused(42, 270)), (63, refused(42, 270)), (64, refused(72, 270)),
                         (256, refused(72, 270))):
    read(f"42: HT, hardware ID {hardware}", older(bio=bio(hardware, 64), lpc=None), answer)
read("42: HT, hardware ID 5 and the LPC of node 5", older(bio=bio(5, 64), lpc=lpc(19, 5)), refused(42, 270))
read("42: HT, the second bridge's hardware ID", older(bio(5, 128)), refused(42, 302))
read("42: HT, a bridge before it", made(C, L, bio(1, 64), H), refused(42, 200))
read("42 before 43: HT", older(bio=bio(5, 64)), refused(42, 270))
read("43: HT, LPC without a bridge", older(bio=None), refused(43, 270))
for node in (1, 5, 15):
    read(f"43: HT, LPC of node {node}", older(lpc=lpc(19, node)), refused(43, 287))

# 44 after 42 and 43, before 45; 51, 52, 54 and 60 of HT boards.
LOOSE = naming(31, 7)  # its last byte names an unwired input
read("42 before 44", older(ht=LOOSE, bio=bio(5, 64), lpc=None), refused(42, 270))
read("43 before 44: LPC of node 3", older(ht=LOOSE, lpc=lpc(19, 3)), refused(43, 287))
read("43 before 44: no bridge", older(ht=LOOSE, bio=None), refused(43, 270))
read("44 before 45", older(ht=LOOSE, pairs=[(0, 19)]), refused(44, 238))
read("44 before 51", older(bio(0, 64), ht=LOOSE), refused(44, 230))
read("44 before 52", older(ht=LOOSE, msi=msi(63, 193)), refused(44, 230))
read("44 before 54", older(ht=LOOSE, sci=45), refused(44, 230))
read("44 before 54: the SCI is the input that is named", older(ht=LOOSE, sci=47), refused(44, 230))
read("44 before 60", older(ht=LOOSE), refused(44, 230), room=0)
read("45: HT, 19 pins, cascade 19", older(pairs=[(0, 19)]), refused(45, 295))
read("45: HT, 20 pins, cascade 19", older(pairs=[(0, 20)]), TWO)
read("45 before 52: HT", older(pairs=[(0, 10)], msi=msi(5, 8)), refused(45, 295))
read("51: HT, the same BIO twice", older(bio(0, 64)), refused(51, 302, 270))
read("51: HT, bases 64 and 127", older(bio(0, 127)), refused(51, 302, 270))
read("52: HT, bases 64 and 128", older(bio(0, 128)), refused(52, 302, 270))
read("52: HT, bridges of one pin", older(bio(0, 65), lpc=lpc(0), pairs=[(0, 1)], sci=64), refused(52, 310, 278))
read("52: HT, MSI 63 before the BIO", older(msi=msi(63, 193)), refused(52, 270, 251))
read("52: HT, BIO before the MSI", made(C, L, H, bio(0, 64), msi(0, 64)), refused(52, 238, 221))
read("52: an HT that stands last is not named", made(C, L, msi(0, 64), bio(0, 64), H), refused(52, 219, 200))
read("52: HT, two equal MSI", older(msi(64, 192)), refused(52, 302, 251))
read("52: HT, two MSI share the last slot", older(msi(255, 1)), refused(52, 302, 251))
read("52: HT, a BIO with the first of two MSI", made(C, L, H, msi(0, 8), msi(8, 8), bio(0, 64)), refused(52, 259, 221))
read("52: HT, two MSI beside each other in one group", made(C, L, H, msi(64, 8), msi(72, 8)), ONE)
read("52 before 54: HT", older(msi=msi(63, 193), sci=17), refused(52, 270, 251))
for sci, answer in (
    (0, TWO), (15, TWO), (16, TWO), (17, refused(54, 302)), (23, refused(54, 302)), (24, TWO), (32, refused(54, 302)), (33, TWO),
    (40, refused(54, 302)), (47, refused(54, 302)), (48, refused(54, 302)), (64, TWO), (83, TWO), (96, TWO), (127, TWO), (128, refused(54, 302)),
    (267, refused(54, 302)), (65535, refused(54, 302)),
):
    read(f"54: HT, SCI {sci}", older(sci=sci), answer)
read("54: HT, SCI 3 without LPC", older(lpc=None, sci=3), refused(54, 287))
read("54: HT, SCI 17, and no byte names its input", older(ht=naming(16, 1), sci=17), TWO)
read("54: HT, SCI 23, named by the last byte alone", older(ht=ht(0, 0, 0, 0, 0, 0, 0, 7), sci=23), refused(54, 302))
read("54: HT, SCI 16 named", older(ht=ht(), sci=16), refused(54, 302))
read("60: HT, a list of 3", OLD, refused(60, 0), 3)
read("60: HT, a list of 4", OLD, TWO, 4)
read("60 after 54: HT, SCI 17", older(sci=17), refused(54, 302), 0)

# With pairs: pins on the HT, and slots behind them.
FEWER, APART = older(pairs=[(0, 32)], msi=msi(32, 224)), older(pairs=[(0, 32)])
both(read, "HT, 32 pins: slots from 32 on", FEWER, ordinary=TWO, strict=TWO)
read("HT, version 2 without pairs", older(pairs=()), TWO)
read("HT, 32 pins: slots from 31 on", older(pairs=[(0, 32)], msi=msi(31, 225)), refused(52, 278, 259))
read("HT, the pair of another ID: slots from 32 on", older(pairs=[(5, 32)], msi=msi(32, 224)), refused(52, 278, 259))
read("7: HT board", older(pairs=[(0, 65)]), refused(7, 18))
for number, answer in ((3, "kind 0 3 275"), (17, "kind 2 0 0"), (95, "kind 0 3 287"), (96, "kind 2 0 0"), (127, "kind 2 0 0")):
    route(f"HT, 32 pins: {number}", FEWER, number, answer)
for vector, number, answer in ((3, 275, "kind 3 0 83"), (3, 287, "kind 2 0 95"), (3, 288, "kind 0 0 0"), (2, 288, "kind 4 0 32"),
                               (2, 319, "kind 4 0 63"), (2, 511, "kind 4 0 255")):
    trace(f"HT, 32 pins, slots behind them: {vector} {number}", FEWER, vector, number, answer)
for number, answer in ((288, "kind 0 0 0"), (319, "kind 0 0 0"), (320, "kind 4 0 64")):
    trace(f"HT, 32 pins, slots from 64 on: 2 {number}", APART, 2, number, answer)
read("54: HT, the SCI on the last pin", older(pairs=[(0, 32)], sci=95), TWO)
read("54: HT, the SCI on a pin that is gone", older(pairs=[(0, 32)], sci=96), refused(54, 310))
PIN = older(pairs=[(0, 1)], lpc=lpc(0), msi=msi(1, 255), sci=64)
route("HT, 1 pin: 64", PIN, 64, "kind 0 3 256")
route("HT, 1 pin: 65", PIN, 65, "kind 2 0 0")
trace("HT, 1 pin, the LPC's", PIN, 3, 256, "kind 3 0 64")
trace("HT, 1 pin: slot 1", PIN, 3, 257, "kind 4 0 1")

# Both readings.
for revision in (0, 1, 5):
    ordinary, strict = (TWO if 1 <= revision else NOT_TAKEN), (TWO if revision == 1 else NOT_TAKEN)
    both(read, f"HT, MADT revision {revision}", revised(revision, older_structures()), ordinary=ordinary, strict=strict)
both(read, "revision 5, HT and EIO", revised(5, older_structures(E)), ordinary=refused(34, 302), strict=NOT_TAKEN)
both(read, "revision 0, HT and EIO", revised(0, older_structures(E)), ordinary=NOT_TAKEN, strict=NOT_TAKEN)
both(read, "revision 5, HT with an unwired input", revised(5, older_structures(ht=LOOSE)), ordinary=refused(44, 230), strict=NOT_TAKEN)
both(read, "revision 5, HT with byte 32", revised(5, older_structures(ht=naming(32, 0))), ordinary=refused(78, 230), strict=NOT_TAKEN)
both(read, "revision 1, HT with an unwired input", revised(1, older_structures(ht=LOOSE)), ordinary=refused(44, 230), strict=refused(44, 230))
both(route, "revision 5, HT: 72", revised(5, older_structures()), 72, ordinary="kind 0 3 264", strict=NOT_TAKEN)
both(route, "revision 5, HT: 17", revised(5, older_structures()), 17, ordinary="kind 2 0 0", strict=NOT_TAKEN)
both(route, "revision 1, HT: 96", revised(1, older_structures()), 96, ordinary="kind 0 2 288", strict="kind 0 2 288")
both(trace, "revision 5, HT: 2 320", revised(5, older_structures()), 2, 320, ordinary="kind 4 0 64", strict=NOT_TAKEN)
both(trace, "revision 5, HT: 3 275", revised(5, older_structures()), 3, 275, ordinary="kind 3 0 83", strict=NOT_TAKEN)
both(trace, "revision 0, HT: 3 264", revised(0, older_structures()), 3, 264, ordinary=NOT_TAKEN, strict=NOT_TAKEN)

# By the C entries.
read_bytes("HT, for C", OLD, BYTES_OF_TWO, 16)
read_bytes("HT, for C, one byte short", OLD, refused(60, 0), 15)
for label, data, answer in (("34", plus(ht()), refused(34, 294)), ("44", older(ht=LOOSE), refused(44, 230)),
                            ("78", older(ht=naming(32, 7)), refused(78, 230)), ("52, HT", older(msi=msi(63, 193)), refused(52, 270)),
                            ("54, HT, SCI 17", older(sci=17), refused(54, 302))):
    read_bytes(label + ", for C", data, answer, 16)
    route(label + ", route", data, 72, answer)
    trace(label + ", trace", data, 3, 264, answer)

# ACPICA's template with the type of its HT put back: the HT is at 6464 with its fourth byte at 6480, the EIO behind it at 6485.


def template(*changes):
    """The template with bytes changed, and its MADT's sum made good."""
    data = (REAL / "a6-vector4.cap").read_bytes()
    for at, byte in changes:
        data = changed(data, at, bytes([byte]))
    return changed(data, 6062, summed(data[6062:6673], 9))


read("78: ACPICA's template, a byte of its HT is 255", template((6464, 19)), refused(78, 6464))
read("34: ACPICA's template, that byte 0", template((6464, 19), (6480, 0)), refused(34, 6485))
UPSTREAM = template((6464, 19), (6480, 0), (6485, 127))
read("ACPICA's template, and its EIO passed over", UPSTREAM, "read 1 1 0")
for number, answer in ((0, "kind 0 2 275"), (16, "kind 2 0 0"), (17, "kind 0 2 1"), (40, "kind 0 4 24"), (127, "kind 0 2 319")):
    route(f"ACPICA's template as an HT board: {number}", UPSTREAM, number, answer)
trace("ACPICA's template as an HT board: a slot", UPSTREAM, 2, 320, "kind 4 0 64")

# W-213: tables may move. What is asked above of a capture that breaks none of 1 to 28 is asked again of another one of the same board.


def moved(answer, old, new):
    """An answer to a rebuilt capture. The places of a refusal move as the MADT did, that of 54 as the FADT did; 60 has none."""
    number, *places = map(int, re.findall(r"\d+", answer))
    if not answer.startswith("refused") or number == 60:
        return answer
    signature = b"FACP" if number == 54 else b"APIC"
    by = place_of_table(new, signature) - place_of_table(old, signature)
    return refused(number, *(place + by for place in places))


for kind, label, data, answer, *rest in list(cases):
    if kind in (READ, ROUTE, TRACE, READ_BYTES) and not re.match(r"refused (\d|1\d|2[0-8]) ", answer):
        new = rebuilt(data)
        if len(new) <= MOST_BYTES:  # two captures are full, and cannot grow by what a rebuilt one has more
            ask(kind, ("moved: " + label)[:LABEL], new, moved(answer, data, new), *rest)

# W-209: a list of numbers at once. Of three boards, where each global number arrives: kind, core vector and number.
UNWIRED, NO_OWNER = (1, 0, 0), (2, 0, 0)


def on_a(number):
    """Board A: the LPC lines on input 19 of the bridge, LIO inputs 0 to 23, the bridge."""
    if number < 16:
        return 0, 3, 19
    if number < 48:
        return (0, 2, number - 16) if number < 40 else UNWIRED
    return (0, 3, number - 64) if 64 <= number < 128 else NO_OWNER


def on_two_bridges(number):
    """As board A, and a bridge of node 5 with base 128 behind an EIO of cascade 4; the LPC is behind it."""
    if number < 16:
        return 0, 4, 19
    return (0, 4, number - 128) if 128 <= number < 192 else on_a(number)


def on_ht(number):
    """As board A, with an HT: the inputs that it names have no owner, and the bridge's first 32 inputs arrive where input 16 would."""
    if number < 16:
        return 0, 3, 256 + 19
    if number - 16 in NAMED:
        return NO_OWNER
    if 32 <= number < 40:
        return 0, 3, number - 16
    return (0, 3 if number < 96 else 2, 256 + number - 64) if 64 <= number < 128 else on_a(number)


def three_each(numbers, told):
    return "".join(f" {part}" for number in numbers for part in told(number))


def ask_numbers(kind, label, numbers, data, answer, first=0, strictness=STRICT):
    ask(kind, label, b"".join(le(number, 4) for number in numbers) + data, answer, first, len(numbers), strictness)


def at_once(label, data, numbers, answer, room, strictness=STRICT):
    """The answer is followed by the whole list, with a dash for each number that is as it was."""
    ask_numbers(ROUTE_EACH, label, numbers, data, answer, room, strictness)


def singly(label, data, numbers, answer):
    ask_numbers(ROUTE_SINGLY, label, numbers, data, answer)


ALL = range(320)
BOARDS = (("board A", A, on_a), ("two bridges", ON_5, on_two_bridges), ("HT", OLD, on_ht))
for name, data, told in BOARDS:
    whole = "answered" + three_each(ALL, told)
    at_once(f"at once, {name}: 0 to 319", data, ALL, whole, 960)
    singly(f"singly, {name}: 0 to 319", data, ALL, whole)
    at_once(f"at once, {name} rebuilt: 0 to 319", rebuilt(data), ALL, whole, 960)
    at_once(f"at once, {name}: 319 to 0", data, ALL[::-1], "answered" + three_each(ALL[::-1], told), 960)
    at_once(f"62: {name}, 0 to 319 and a list of 959", data, ALL, refused(62, 0) + 959 * " -", 959)
    at_once(f"at once, {name}: 0 to 319 and a list of 961", data, ALL, whole + " -", 961)
at_once("at once: no limit of 320 numbers", A, range(400), "answered" + three_each(range(400), on_a), 1200)
at_once("62: 400 numbers and a list of 1199", A, range(400), refused(62, 0) + 1199 * " -", 1199)

# Lists of 3n - 1, 3n, 3n + 1 and more; one of each kind, in every turn.
at_once("62: one number, no list", A, [72], refused(62, 0), 0)
at_once("62: one number, a list of 1", A, [72], refused(62, 0) + " -", 1)
at_once("62: one number, a list of 2", A, [72], refused(62, 0) + " - -", 2)
at_once("at once: one number, a list of 3", A, [72], "answered 0 3 8", 3)
at_once("at once: one number, a list of 4", A, [72], "answered 0 3 8 -", 4)
at_once("at once: one number, a list of 6", A, [72], "answered 0 3 8 - - -", 6)
at_once("at once: unwired, a list of 4", A, [44], "answered 1 0 0 -", 4)
at_once("at once: no owner, a list of 4", A, [60], "answered 2 0 0 -", 4)
at_once("at once: arrives, unwired, no owner", A, [75, 47, 128], "answered 0 3 11 1 0 0 2 0 0 - - -", 12)
at_once("at once: unwired, no owner, arrives", A, [40, 48, 16], "answered 1 0 0 2 0 0 0 2 0 - - -", 12)
at_once("at once: no owner, arrives, unwired", A, [63, 0, 41], "answered 2 0 0 0 3 19 1 0 0 - - -", 12)
at_once("62: three numbers, a list of 8", A, [75, 47, 128], refused(62, 0) + 8 * " -", 8)
at_once("at once, HT: a named input, one that is not, a pin of each half", OLD, [17, 24, 95, 96], "answered 2 0 0 0 2 8 0 3 287 0 2 288 -", 13)

# A number twice, the largest, and no numbers.
at_once("at once: a number twice", A, [72, 60, 72, 72], "answered 0 3 8 2 0 0 0 3 8 0 3 8", 12)
at_once("at once: 4,294,967,295", A, [ONES], "answered 2 0 0", 3)
at_once("at once: 4,294,967,295 among others", A, [72, ONES, 127], "answered 0 3 8 2 0 0 0 3 63", 9)
at_once("at once: 65,535 and 65,536 + 72", A, [65535, 65536 + 72], "answered 2 0 0 2 0 0", 6)
at_once("at once: no numbers, no list", A, [], "answered", 0)
at_once("at once: no numbers, a list of 1", A, [], "answered -", 1)
at_once("at once: no numbers, a list of 3", A, [], "answered - - -", 3)
singly("singly: 4,294,967,295 among others", A, [72, ONES, 127], "answered 0 3 8 2 0 0 0 3 63")

# 61 before 62, whatever the lists are. What comes with a refused capture is the empty map, which breaks 40.
for label, data in (("no LIO", made(C, eio(3, 0))), ("the SCI does not arrive", put(MSI, msi(64, 192), 60)), ("no capture", b"")):
    at_once(f"61: {label}", data, [72], refused(61, 0) + " - - - -", 4)
    at_once(f"61 before 62: {label}", data, [72, 75], refused(61, 0) + " - - - - -", 5)
    at_once(f"61: {label}, no numbers, no list", data, [], refused(61, 0), 0)
    at_once(f"61: {label}, no numbers, a list of 3", data, [], refused(61, 0) + " - - -", 3)
    at_once(f"61 before 62: {label}, 0 to 319, no list", data, ALL, refused(61, 0), 0)
both(at_once, "at once: revision 5", revised(5, STRUCTURES_OF_A), [72], ordinary="answered 0 3 8", strict=refused(61, 0) + " - - -", room=3)

# W-211: the owner table. Whose each global number is, on three boards; where it arrives is said above.


def whose_on_a(number):
    if number < 16:
        return "lpc"
    if number < 48:
        return f"lio {number - 16}"
    return f"bio 0 {number - 64}" if 64 <= number < 128 else "nobody"


def whose_on_ht(number):
    return "nobody" if number - 16 in NAMED else whose_on_a(number)


# Board A with 32 inputs of its bridge, and a bridge of node 5 with 16 inputs, the numbers 310 to 325, behind an EIO of cascade 4.
ACROSS = paired((0, 32), (5, 16), structures=[eio(4, 5), bio(5, 310)])


def whose_across(number):
    if 310 <= number < 326:
        return f"bio 5 {number - 310}"
    return "nobody" if 96 <= number < 128 else whose_on_a(number)


def on_across(number):
    if 310 <= number < 326:
        return 0, 4, number - 310
    return NO_OWNER if 96 <= number < 128 else on_a(number)


def lookup(label, filler, data, numbers, answer, strictness=STRICT):
    """The table of one capture's map, and the numbers looked up with it and another's map."""
    ask_numbers(LOOKUP, label, numbers, filler + data, answer, len(filler), strictness)


def by_map(label, data, numbers, answer, strictness=STRICT):
    ask_numbers(BY_MAP, label, numbers, data, answer, strictness=strictness)


def with_changed(label, data, entries, number, answer):
    """A number looked up once for each of some entries of the table, which is changed by one."""
    ask_numbers(CHANGED, label, entries, data, answer, number)


FILLED, NOT_KEPT, NOT_ITS_OWN = "filled", refused(61, 0), refused(63, 0)
UP_TO_399, EDGES = range(400), [400, 1 << 16, 1 << 31, ONES]
DISPLAYED = (("board A", A, whose_on_a, on_a), ("HT", OLD, whose_on_ht, on_ht), ("fewer pins", ACROSS, whose_across, on_across))
for name, data, whose, where in DISPLAYED:
    for span, numbers in (("0 to 399", UP_TO_399), ("400 and the edges", EDGES)):
        told = "".join(f" {whose(number)}{three_each([number], where)}" for number in numbers)
        lookup(f"lookup, {name}: {span}", data, data, numbers, FILLED + told)
        lookup(f"lookup, {name}, the table rebuilt: {span}", rebuilt(data), data, numbers, FILLED + told)
        by_map(f"by the map, {name}: {span}", data, numbers, "asked" + told)
    for number in (0, 72, 319, 320, ONES):
        with_changed(f"63: {name}, each entry changed, {number}", data, ALL, number, FILLED + 320 * f" {NOT_ITS_OWN}")
    for other, table_of, *_ in DISPLAYED:
        if other != name:
            lookup(f"63: {name} with the table of {other}", table_of, data, [0, 72, 319, 320, ONES], FILLED + 5 * f" {NOT_ITS_OWN}")

# 319 is the table's last: a bridge from 319 on is another table, one from 320 on is not.
FROM_319, FROM_320 = plus(eio(4, 5), bio(5, 319)), plus(eio(4, 5), bio(5, 320))
lookup("lookup: 319 and 320, a bridge from 310 on", ACROSS, ACROSS, [319, 320], "filled bio 5 9 0 4 9 bio 5 10 0 4 10")
lookup("lookup: 319 and 320, a bridge from 319 on", FROM_319, FROM_319, [319, 320], "filled bio 5 0 0 4 0 bio 5 1 0 4 1")
lookup("lookup: 319 and 320, a bridge from 320 on", FROM_320, FROM_320, [319, 320], "filled nobody 2 0 0 bio 5 0 0 4 0")
lookup("63: one entry, 319, differs", A, FROM_319, [72, 319, 320], FILLED + 3 * f" {NOT_ITS_OWN}")
lookup("63: one entry, 319, differs, the other way", FROM_319, A, [72, 319, 320], FILLED + 3 * f" {NOT_ITS_OWN}")
lookup("lookup: a board that differs from 320 on has the same table", A, FROM_320, [72, 319, 320, 383, 384],
       "filled bio 0 8 0 3 8 nobody 2 0 0 bio 5 0 0 4 0 bio 5 63 0 4 63 nobody 2 0 0")
lookup("lookup: from 320 on, the other way", FROM_320, A, [72, 319, 320], "filled bio 0 8 0 3 8 nobody 2 0 0 nobody 2 0 0")

# A table says whose a number is, and not where it arrives: boards may differ in that, and the answer is that of the map that is asked.
LOW_ONLY = put(LIO, lio(2, 0, 0xFFFF, 0))
lookup("lookup: the table of a board with EIO cascade 9", put(EIO, eio(9, 0)), A, [3, 72], "filled lpc 0 3 19 bio 0 8 0 3 8")
lookup("lookup: EIO cascade 9 with the table of board A", A, put(EIO, eio(9, 0)), [3, 72], "filled lpc 0 9 19 bio 0 8 0 9 8")
lookup("lookup: inputs 16 to 23 unwired, the table of board A", A, LOW_ONLY, [31, 32, 33], "filled lio 15 0 2 15 lio 16 1 0 0 lio 17 1 0 0")
lookup("lookup: board A with the table of that board", LOW_ONLY, A, [31, 32, 33], "filled lio 15 0 2 15 lio 16 0 2 16 lio 17 0 2 17")

# One difference in owners each: the LPC, an input that the HT names, the hardware ID of a bridge, its base, its inputs.
for label, filler, data in (
    ("an LPC", NO_LPC, A), ("no LPC", A, NO_LPC), ("another named input", older(ht=naming(8, 7)), OLD),
    ("the hardware ID alone", made(C, L, eio(3, 5), bio(5, 64)), made(C, L, eio(3, 0), bio(0, 64))),
    ("the hardware ID alone, the other way", made(C, L, eio(3, 0), bio(0, 64)), made(C, L, eio(3, 5), bio(5, 64))),
    ("the base by one", put(BIO, bio(0, 65)), A), ("an input fewer", paired((0, 63)), A), ("an input more", A, paired((0, 63))),
):
    lookup(f"63: {label}", filler, data, [72, 400], FILLED + 2 * f" {NOT_ITS_OWN}")
lookup("lookup: no LPC", NO_LPC, NO_LPC, [0, 15, 83], "filled nobody 2 0 0 nobody 2 0 0 bio 0 19 0 3 19")
lookup("lookup: the bridge of node 5", made(C, L, eio(3, 5), bio(5, 64)), made(C, L, eio(3, 5), bio(5, 64)), [64, 127], "filled bio 5 0 0 3 0 bio 5 63 0 3 63")
lookup("lookup: the last global number", LAST_BASE, LAST_BASE, [64, 65471, 65472, 65535, 65536],
       "filled nobody 2 0 0 nobody 2 0 0 bio 0 0 0 3 0 bio 0 63 0 3 63 nobody 2 0 0")
lookup("lookup: no numbers", A, A, [], FILLED)
with_changed("lookup: no entry changed", A, [], 72, FILLED)

# 61 before 63, whatever the table is. What comes with a refused capture is the empty map, which breaks 40; nobody owns a number in its table.
for label, data in (("no LIO", made(C, eio(3, 0))), ("the SCI does not arrive", put(MSI, msi(64, 192), 60)), ("no capture", b"")):
    lookup(f"61 before 63: {label}, the table of board A", A, data, [0, 72, 320], FILLED + 3 * f" {NOT_KEPT}")
    lookup(f"61: {label}, its own table", data, data, [0, 72, 320], NOT_KEPT + 3 * f" {NOT_KEPT}")
    lookup(f"63: {label}, its table with board A's map", data, A, [0, 72, 320], NOT_KEPT + 3 * f" {NOT_ITS_OWN}")
    lookup(f"61: {label}, no numbers", data, data, [], NOT_KEPT)
    by_map(f"61, by the map: {label}", data, [0, 72, 320], "asked" + 3 * f" {NOT_KEPT}")
    with_changed(f"61: {label}, an entry changed", data, [0, 319], 72, NOT_KEPT + 2 * f" {NOT_KEPT}")
NEWER = revised(5, STRUCTURES_OF_A)
both(lookup, "lookup: revision 5", NEWER, NEWER, [72], ordinary="filled bio 0 8 0 3 8", strict=f"{NOT_KEPT} {NOT_KEPT}")
both(lookup, "lookup: the table of revision 5", NEWER, A, [72], ordinary="filled bio 0 8 0 3 8", strict=f"{NOT_KEPT} {NOT_ITS_OWN}")
both(lookup, "lookup: revision 5, the table of board A", A, NEWER, [72], ordinary="filled bio 0 8 0 3 8", strict=f"{FILLED} {NOT_KEPT}")
both(by_map, "by the map: revision 5", NEWER, [72], ordinary="asked bio 0 8 0 3 8", strict=f"asked {NOT_KEPT}")

# Board A's neighbours among document 01's twelve examples, which are proved from the boards' bytes.
NEIGHBOURS = [("msi_from_63", "MSI start 63, count 193", put(MSI, msi(63, 193))), ("msi_to_257", "MSI start 65, count 192", put(MSI, msi(65, 192))),
              ("eio_at_2", "EIO cascade 2", put(EIO, eio(2, 0)))]


# And board A moved, for the statement that its map stays.
MOVED = ("board A moved: of version 2, with pairs of 64 inputs for hardware IDs 0 and 5, and its FADT ahead of its MADT",
         capture([(BASE, lay([fadt(), madt(STRUCTURES_OF_A)]))], pairs=[(0, 64), (5, 64)]))

ROOT = pathlib.Path(__file__).resolve().parent.parent
FILES = {
    "crates/promises/specs/BoardA.antt": listed.boards(NEIGHBOURS, MOVED).encode(),
    "crates/map/stdin": PRINTED["A"][0],
    "crates/map/stdout": PRINTED["A"][1].encode(),
    "crates/vectors/stdin": b"".join(question(*case) for case in cases),
    "crates/vectors/stdout": "".join(f"{label}: {answer}\n" for _, label, _, answer, *_ in cases).encode(),
}
for name, (data, text) in PRINTED.items():
    FILES[f"boards/{name}.cap"] = data
    FILES[f"boards/{name}.txt"] = text.encode()


def main():
    for name, data in FILES.items():
        path = ROOT / name
        if sys.argv[1:] != ["--check"]:
            path.write_bytes(data)
        elif not path.exists() or path.read_bytes() != data:
            sys.exit(f"{name} is not what boards/cases.py makes: run boards/cases.py, and look at what changed")
    print(f"{len(cases)} cases")


main()
