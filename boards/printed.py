"""Boards of our own, and what the map program must print for each: worked out by hand from the documents.

`boards/cases.py` writes them as boards/NAME.cap and boards/NAME.txt; `boards/check` runs `./map` on them.
"""
import pathlib

from board import A, BASE, STRUCTURES_OF_A, bio, board, capture, core, cut, eio, fadt, ht, image, lay, le, lengthened, lio, lpc, madt, msi
from board import rebuilt, rsdp, segments_of, table

REAL = pathlib.Path(__file__).resolve().parent / "real"

EVERY_NODE = (1 << 64) - 1

LIO, EIO, MSI, BIO, LPC = lio(2, 0, 0x00FFFFFF, 0), eio(3, 0), msi(64, 192), bio(0, 64), lpc(19)
# the LIO of an HT board: both halves in use, inputs 24 to 31 unwired
SPLIT = lio(2, 3, 0x0000FFFF, 0x00FF0000)


def refused_behind(padding):
    """A MADT of revision 2 behind a table with `padding` bytes of body; the tables begin at place 126."""
    tables = [table(b"SSDT", 1, bytes(padding)), madt(STRUCTURES_OF_A, revision=2), fadt()]
    return capture([(BASE, lay(tables))])


def apart(madt, fadt):
    """Each table in a segment of its own, far from the others: MADT, XSDT, FADT, RSDP."""
    at = [0x1000, 0x90000000, 0x4000000000, (1 << 64) - 36]
    return capture(list(zip(at, [madt, table(b"XSDT", 1, le(at[2], 8) + le(at[0], 8)), fadt, rsdp(at[1])])), rsdp=at[3])


def with_spare_cores(name, at, spare):
    """A capture of real/ whose MADT, which has a segment of its own, gets spare CORE at an offset."""
    data = (REAL / (name + ".cap")).read_bytes()
    segments = [(address, data[place:place + length]) for address, place, length in segments_of(data)]
    segments = [(address, lengthened(held, at, spare) if held.startswith(b"APIC") else held) for address, held in segments]
    return capture(segments, rsdp=int.from_bytes(data[10:18], "little"))


# document 01's example
LINES_OF_A = """\
map 1
core 0 0
core 1 1
lio 2 16777215
eio 0 3 1
bio 0 64 127
msi 64 255
lpc 0 19
sci 75 3 11
"""

PRINTED = {
    "A": (A, LINES_OF_A),
    # the same as version 2, without pairs
    "A-version-2": (board(pairs=()), LINES_OF_A.replace("map 1", "map 2")),
    # W-213: rebuilt, the same lines. The tables in another order; at the top of memory; among more tables, one of them named twice;
    "A-other-order": (capture([(BASE, lay([fadt(), madt(STRUCTURES_OF_A)]))]), LINES_OF_A),
    "A-elsewhere": (board(base=(1 << 64) - 508), LINES_OF_A),
    "A-more-tables": (capture([(BASE, lay([table(b"SSDT", 2, 9 * b"APIC"), madt(STRUCTURES_OF_A), table(b"MCFG", 1, bytes(24)), fadt()], [2, 3, 0, 1, 2]))]),
                      LINES_OF_A),
    # each in a segment of its own, the MADT first and the RSDP last; and by another tool, as version 2, with pairs that change nothing
    "A-apart": (apart(madt(STRUCTURES_OF_A), fadt()), LINES_OF_A),
    "A-rebuilt": (rebuilt(A), LINES_OF_A.replace("map 1", "map 2")),
    # bridges with 32 inputs, behind each other, and slots from 32 on; a pair that names no bridge, and an empty one
    "fewer-pins": (board(STRUCTURES_OF_A[:5] + [msi(32, 224), BIO, LPC, eio(4, 5), bio(5, 96)],
                         pairs=[(200, 7), (0, 32), (9, 0), (5, 32)]), """\
map 2
core 0 0
core 1 1
lio 2 16777215
eio 0 3 1
eio 5 4 1
bio 0 64 95
bio 5 96 127
msi 32 255
lpc 0 19
sci 75 3 11
"""),
    "refused-7-at-20": (board(pairs=[(0, 32), (0, 70)]), "refused 7 at 20\n"),
    "refused-45-at-287": (board(pairs=[(0, 19)]), "refused 45 at 287\n"),
    # its memory in as many segments as there can be, each touching the one before it
    "sixteen-segments": (cut(image(), *range(32, 512, 32)), LINES_OF_A),
    # a line for each used half, low first; the SCI is input 16 of the LIO, in the high half
    "two-halves": (board([core(0, 0), lio(9, 5, 0x0000FFFF, 0x00FF0000), EIO, MSI, BIO, LPC], 32), """\
map 1
core 0 0
lio 9 65535
lio 5 16711680
eio 0 3 1
bio 0 64 127
msi 64 255
lpc 0 19
sci 32 5 16
"""),
    # byte 14 goes with the mask at 19; the low half is unused
    "high-half": (board([core(0, 0), lio(7, 2, 0, 0xFFFFFFFF), EIO, MSI, BIO, LPC], 47), """\
map 1
core 0 0
lio 2 4294967295
eio 0 3 1
bio 0 64 127
msi 64 255
lpc 0 19
sci 47 2 31
"""),
    # both masks 0: no line, and the bytes are free
    "no-half": (board([core(0, 0), lio(255, 255, 0, 0), EIO, MSI, BIO, LPC]), """\
map 1
core 0 0
eio 0 3 1
bio 0 64 127
msi 64 255
lpc 0 19
sci 75 3 11
"""),
    # without a bridge every slot is free, and the SCI is a LIO input
    "no-bridge": (board([core(0, 0), LIO, EIO, msi(0, 256)], 26), """\
map 1
core 0 0
lio 2 16777215
eio 0 3 1
msi 0 255
sci 26 2 10
"""),
    # no LPC and no MSI: neither has a line
    "no-lpc-no-msi": (board([core(0, 0), LIO, EIO, BIO], 127), """\
map 1
core 0 0
lio 2 16777215
eio 0 3 1
bio 0 64 127
sci 127 3 63
"""),
    # kinds in the order of the document, each in table order; the LPC's bridge is the one of node 5, neither the first nor the smallest,
    # and the SCI is an LPC line: input 63 of that bridge, on the EIO of node 5
    "four-bridges": (board([
        lpc(63, 5), bio(7, 256), msi(200, 10), eio(9, 5), core(7, 70), bio(2, 128), eio(6, 7, 1 << 63), lio(2, 0, 0x80000001, 0),
        core(3, 30, 0), msi(64, 1), bio(5, 64), eio(3, 3, 3), core(4294967295, 4294967294), eio(4, 2, 4), bio(3, 65472),
        msi(255, 1), msi(100, 28),
    ], 3), """\
map 1
core 7 70
core 4294967295 4294967294
lio 2 2147483649
eio 5 9 1
eio 7 6 9223372036854775808
eio 3 3 3
eio 2 4 4
bio 7 256 319
bio 2 128 191
bio 5 64 127
bio 3 65472 65535
msi 200 209
msi 64 64
msi 255 255
msi 100 127
lpc 5 63
sci 3 9 63
"""),
    # the two-bridge server of W-208: the LPC is behind the bridge of node 5
    "lpc-behind-node-5": (board(STRUCTURES_OF_A[:7] + [eio(4, 5), bio(5, 128), lpc(19, base=0x5E0010002000)]), """\
map 1
core 0 0
core 1 1
lio 2 16777215
eio 0 3 1
eio 5 4 1
bio 0 64 127
bio 5 128 191
msi 64 255
lpc 5 19
sci 75 3 11
"""),
    # no bridge of node 3, though there are two
    "refused-43-at-309": (board(STRUCTURES_OF_A[:7] + [eio(4, 5), bio(5, 128), lpc(19, 3)]), "refused 43 at 309\n"),
    # W-201: an HT in place of the EIO. The SCI is input 11 of the bridge: HT vector 11, of the first 32, which go to LIO input 16
    "ht": (board(STRUCTURES_OF_A[:3] + [SPLIT, ht(16, 1, 2, 3, 4, 5, 6, 7), MSI, BIO, LPC]), """\
map 1
core 0 0
core 1 1
lio 2 65535
lio 3 16711680
ht 16 1 2 3 4 5 6 7
bio 0 64 127
msi 64 255
lpc 0 19
sci 75 3 267
"""),
    # the same with a bridge of 32 inputs and slots behind them; the SCI is the bridge's last input, HT vector 31
    "ht-fewer-pins": (board(STRUCTURES_OF_A[:3] + [SPLIT, ht(16, 1, 2, 3, 4, 5, 6, 7), msi(32, 224), BIO, LPC], 95, pairs=[(0, 32)]), """\
map 2
core 0 0
core 1 1
lio 2 65535
lio 3 16711680
ht 16 1 2 3 4 5 6 7
bio 0 64 95
msi 32 255
lpc 0 19
sci 95 3 287
"""),
    # bytes that name one input, the highest and the lowest; the SCI is input 17 of the LIO, which none names
    "ht-shared-inputs": (board([core(0, 0), BIO, MSI, ht(31, 31, 0, 0, 16, 9, 31, 0), lio(9, 5, 0x0000FFFF, 0xFFFF0000), LPC], 33), """\
map 1
core 0 0
lio 9 65535
lio 5 4294901760
ht 31 31 0 0 16 9 31 0
bio 0 64 127
msi 64 255
lpc 0 19
sci 33 5 17
"""),
    # all lines of the LIO are left but the one that all eight bytes name; no bridge, and each slot lands on the HT
    "ht-no-bridge": (board([core(0, 0), LIO, ht(), msi(0, 256)], 26), """\
map 1
core 0 0
lio 2 16777215
ht 0 0 0 0 0 0 0 0
msi 0 255
sci 26 2 10
"""),
    # board A and an HT; a byte that names LIO input 24, which is in neither mask; a byte of 32
    "refused-34-at-294": (board(STRUCTURES_OF_A + [ht()]), "refused 34 at 294\n"),
    "refused-44-at-230": (board(STRUCTURES_OF_A[:3] + [SPLIT, ht(16, 1, 2, 3, 4, 5, 6, 24), MSI, BIO, LPC]), "refused 44 at 230\n"),
    "refused-78-at-230": (board(STRUCTURES_OF_A[:3] + [SPLIT, ht(16, 1, 2, 3, 4, 5, 6, 32), MSI, BIO, LPC]), "refused 78 at 230\n"),
    # 20 digits
    "every-node": (board([core(0, 0), LIO, eio(3, 0, EVERY_NODE), MSI, BIO, LPC]), """\
map 1
core 0 0
lio 2 16777215
eio 0 3 18446744073709551615
bio 0 64 127
msi 64 255
lpc 0 19
sci 75 3 11
"""),
    # as many processors as there can be, with numbers as long as they can be
    "most-processors": (board([core(4294967295 - k, 1000000000 + k) for k in range(256)] + [LIO, EIO, MSI, BIO, LPC]),
                        "map 1\n" + "".join(f"core {4294967295 - k} {1000000000 + k}\n" for k in range(256)) + """\
lio 2 16777215
eio 0 3 1
bio 0 64 127
msi 64 255
lpc 0 19
sci 75 3 11
"""),
    # QEMU's tables with four processors, and behind their CORE twelve spare ones that all have the IDs of the first
    "qemu-spare-cores": (with_spare_cores("p3-flags-lio-lpc-tables", 104, 12 * core(0, 0, 0)), (REAL / "p3-flags-lio-lpc-tables.txt").read_text()),
    # refusals, with places of one digit to five
    "empty": (b"", "refused 1 at 0\n"),
    "refused-2-at-0": (b"tbc" + A[3:], "refused 2 at 0\n"),
    "refused-3-at-0": (A[:3] + le(257, 2) + A[5:], "refused 3 at 0\n"),
    # the MADT in two segments with a gap of one byte between them
    "refused-21-at-130": (cut(image(), 188, gap=1), "refused 21 at 130\n"),
    "refused-6-at-18": (capture([((1 << 64) - 4, bytes(8))]), "refused 6 at 18\n"),
    "refused-53-at-230": (board([core(0, 0), core(1, 1), core(2, 2, 0), LIO, eio(2, 0), MSI, BIO, LPC]), "refused 53 at 230 with 207\n"),
    # document 02's example
    "refused-52-at-262": (board([core(0, 0), core(1, 1), core(2, 2, 0), LIO, EIO, msi(63, 193), BIO, LPC]), "refused 52 at 262 with 243\n"),
    # the same rebuilt: the MADT is at 485 and was at 118
    "refused-52-at-629": (rebuilt(board([core(0, 0), core(1, 1), core(2, 2, 0), LIO, EIO, msi(63, 193), BIO, LPC])), "refused 52 at 629 with 610\n"),
    # a spare CORE between two enabled ones, all with one UID: the later enabled one is named, and it alone
    "refused-39-at-192": (board([core(0, 0), core(0, 5, 0), core(0, 1), LIO, EIO, MSI, BIO, LPC]), "refused 39 at 192\n"),
    # one place alone: of 41, though it has a partner
    "refused-41-at-294": (board(STRUCTURES_OF_A + [eio(4, 0)]), "refused 41 at 294\n"),
    # board A with a MADT of revision 5: the map program gives the strict reading
    "refused-29-at-118": (capture([(BASE, lay([madt(STRUCTURES_OF_A, revision=5), fadt()]))]), "refused 29 at 118\n"),
    "refused-29-at-1162": (refused_behind(1000), "refused 29 at 1162\n"),
    "refused-29-at-20162": (refused_behind(20000), "refused 29 at 20162\n"),
}
