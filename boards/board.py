"""How the captures of our cases are made: document 01's container, tables and structures, written from the document.

A board is laid out as board A is: RSDP, XSDT, MADT, FADT and what else it names, one after another in memory. Bytes that
document 01 leaves free hold the values of the Loongson standard's reference tables, or 0. Sums are made good unless a
case says otherwise.
"""

BASE = 0x90000000  # where board A's one segment lies in memory


def le(value, width):
    """A number as `width` little-endian bytes."""
    return (value % (1 << (8 * width))).to_bytes(width, "little")


def summed(data, at, upto=None):
    """The bytes with the one at `at` chosen so that they (or the first `upto` of them) sum to 0 modulo 256."""
    data = bytearray(data)
    data[at] = 0
    data[at] = -sum(data[:upto]) % 256
    return bytes(data)


# The container.


def descriptor(address, length):
    return le(address, 8) + le(length, 4)


PAIRS = 4  # of a version 2 capture: a hardware ID and a number of inputs each; those that are not given are empty


def capture(segments, rsdp=None, mark=b"TBC", version=None, pairs=None, count=None, total=None, lengths=None):
    """A capture of segments (address, bytes), of version 2 if pairs are given. What a case wants wrong, it names."""
    version = (1 if pairs is None else 2) if version is None else version
    told = b"" if pairs is None else b"".join(le(number, 1) for pair in pairs for number in pair).ljust(2 * PAIRS, b"\0")
    lengths = [len(data) for _, data in segments] if lengths is None else lengths
    body = b"".join(descriptor(address, length) for (address, _), length in zip(segments, lengths))
    body += b"".join(data for _, data in segments)
    head = mark + le(version, 2) + le(len(segments) if count is None else count, 1)
    total = 18 + len(told) + len(body) if total is None else total
    return head + le(total, 4) + le(segments[0][0] if rsdp is None else rsdp, 8) + told + body


def number_at(data, at, width):
    return int.from_bytes(data[at:at + width], "little")


def segments_of(data):
    """The segments (address, place, length) of a sound capture."""
    head = 18 if data[3] == 1 else 18 + 2 * PAIRS
    segments, place = [], head + 12 * data[5]
    for at in range(head, place, 12):
        segments.append((number_at(data, at, 8), place, number_at(data, at + 8, 4)))
        place += segments[-1][2]
    return segments


def pairs_of(data):
    """The pairs of a sound capture that are not empty."""
    return [(data[at], data[at + 1]) for at in range(18, 18 + 2 * PAIRS, 2) if data[3] == 2 and data[at + 1]]


def place_of(data, address):
    """Where a byte of memory stands in a sound capture."""
    return next(place + address - start for start, place, length in segments_of(data) if start <= address < start + length)


def cut(memory, *at, gap=0, base=BASE):
    """A capture of memory that is cut at offsets into touching segments; what is behind the last cut may lie a gap further on."""
    pieces = [memory[a:b] for a, b in zip((0, *at), (*at, len(memory)))]
    starts = [base + a + (gap if a == at[-1] else 0) for a in (0, *at)]
    return capture(list(zip(starts, pieces)))


# The tables.


def table(signature, revision, body):
    head = signature + le(36 + len(body), 4) + le(revision, 1) + b"\0" + b"LOONGS" + b"LOONGSON" + le(1, 4) + le(0, 8)
    return summed(head + body, 9)


def rsdp(xsdt, signature=b"RSD PTR ", revision=2, length=36):
    data = signature + b"\0" + b"LOONGS" + le(revision, 1) + le(0, 4) + le(length, 4) + le(xsdt, 8) + le(0, 4)
    return summed(summed(data, 8, 20), 32)


def madt(structures, revision=1, flags=0):
    return table(b"APIC", revision, le(0x1FE01400, 4) + le(flags, 4) + b"".join(structures))


def fadt(sci=75, size=244):
    return table(b"FACP", 4, (le(0, 10) + le(sci, 2) + le(0, 196))[: size - 36])


def lengthened(data, at, new):
    """A table with bytes put in at an offset; its length and its sum made good."""
    return summed(data[:4] + le(len(data) + len(new), 4) + data[8:at] + new + data[at:], 9)


# The MADT's structures.


def structure(kind, body, version=1, length=None):
    return le(kind, 1) + le(3 + len(body) if length is None else length, 1) + le(version, 1) + body


def core(uid, identity, flags=1):
    return structure(17, le(uid, 4) + le(identity, 4) + le(flags, 4))


def lio(cascade0, cascade1, mask0, mask1):
    return structure(18, le(0x1FE01400, 8) + le(0x80, 2) + le(cascade0, 1) + le(cascade1, 1) + le(mask0, 4) + le(mask1, 4))


def ht(*named, base=0, size=0):
    """An HT by the LIO inputs that its eight bytes name: input 0 by all of them if not said."""
    return structure(19, le(base, 8) + le(size, 2) + bytes(named or 8))


def eio(cascade, node, node_map=1):
    return structure(20, le(cascade, 1) + le(node, 1) + le(node_map, 8))


def msi(start, count):
    return structure(21, le(0x2FF00000, 8) + le(start, 4) + le(count, 4))


def bio(hardware, base):
    return structure(22, le(0xE0010000000, 8) + le(0x1000, 2) + le(hardware, 2) + le(base, 2))


def lpc(cascade, node=0, base=0xE0010002000):
    """An LPC behind the bridge of a node, which stands in bits 44 to 47 of its base."""
    return structure(23, le(node << 44 | base, 8) + le(0x1000, 2) + le(cascade, 2))


# Board A.

STRUCTURES_OF_A = [
    core(0, 0), core(1, 1), core(2, 2, 0),
    lio(2, 0, 0x00FFFFFF, 0), eio(3, 0), msi(64, 192), bio(0, 64), lpc(19),
]


def lay(tables, entries=None, root=rsdp, signature=b"XSDT", revision=1, base=BASE):
    """The memory of a board: RSDP, XSDT, tables. An entry is the number of a table, or an address; each table once if not said."""
    entries = range(len(tables)) if entries is None else entries
    at = base + 36 + 36 + 8 * len(entries)
    addresses = [at + sum(len(t) for t in tables[:k]) for k in range(len(tables))]
    named = [addresses[e] if e < len(tables) else e for e in entries]
    return root(base + 36) + table(signature, revision, b"".join(le(address, 8) for address in named)) + b"".join(tables)


def image(structures=None, sci=75, base=BASE):
    return lay([madt(STRUCTURES_OF_A if structures is None else structures), fadt(sci)], base=base)


def board(structures=None, sci=75, base=BASE, pairs=None):
    return capture([(base, image(structures, sci, base))], pairs=pairs)


A = board()
assert len(A) == 538


# A board whose firmware was rebuilt.


def tables_of(data):
    """The tables (place, bytes) that the XSDT of a capture names, where none of 1 to 28 is broken."""
    xsdt = place_of(data, number_at(data, place_of(data, number_at(data, 10, 8)) + 24, 8))
    places = [place_of(data, number_at(data, at, 8)) for at in range(xsdt + 36, xsdt + number_at(data, xsdt + 4, 4), 8)]
    return [(place, data[place:place + number_at(data, place + 4, 4)]) for place in places]


def place_of_table(data, signature):
    return next(place for place, held in tables_of(data) if held.startswith(signature))


def rebuilt(data, base=0x123456789A):
    """A capture of the same board, of version 2: the same MADT, another FADT with the same SCI number. The tables stand in falling order, junk
    between them, around them two more that are passed over, behind them the XSDT, and the RSDP last; above 4 GiB, in eight touching
    segments. Pairs tell the same, in falling order; where there is room, one tells the 64 inputs that bridges of hardware ID 0 have
    without it, and one tells of no bridge."""
    tables = [table(b"SSDT", 2, 9 * b"APIC"), *(held for _, held in tables_of(data)[::-1]), table(b"OEM1", 255, bytes(range(200)))]
    tables = [table(b"FACP", 6, 10 * b"\xff" + held[46:48] + 228 * b"\xff") if held.startswith(b"FACP") else held for held in tables]
    junk = core(165, 0)[:5]
    memory, addresses = b"", []
    for held in tables:
        memory += junk
        addresses.append(base + len(memory))
        memory += held
    xsdt = base + len(memory)
    memory += table(b"XSDT", 1, b"".join(le(address, 8) for address in addresses))
    root = base + len(memory)
    memory += rsdp(xsdt)
    pairs = pairs_of(data)[::-1]
    pairs += [pair for pair in ((0, 64), (200, 7)) if pair[0] not in dict(pairs)]
    at = [len(memory) * k // 8 for k in range(9)]
    return capture([(base + a, memory[a:b]) for a, b in zip(at, at[1:])], rsdp=root, pairs=pairs[:PAIRS])
