"""Board A, neighbours of it and board A moved as lists of bytes in antt, for the statements that are computed from them."""
from board import A

# What stands where in board A, by the name and the place of each part.
PARTS = [("container", "the container: header and one descriptor", 0), ("rsdp_bytes", "RSDP", 30), ("xsdt_bytes", "XSDT", 66),
         ("madt_head", "MADT: header, address and flags", 118), ("core0", "CORE 0, 0, enabled", 162),
         ("core1", "CORE 1, 1, enabled", 177), ("core2", "CORE 2, 2, disabled", 192),
         ("lio_bytes", "LIO, bytes 2 and 0, masks 0x00FFFFFF and 0", 207), ("eio_bytes", "EIO, cascade 3, node 0, map 1", 230),
         ("msi_bytes", "MSI, start 64, count 192", 243), ("bio_bytes", "BIO, hardware ID 0, base 64", 262),
         ("lpc_bytes", "LPC, cascade 19", 279), ("fadt_bytes", "FADT, SCI 75", 294)]

# And in board A moved: a container and an XSDT of its own, and then the FADT ahead of the MADT.
OWN = [("container_moved", "the container: header, pairs and one descriptor", 0, 38), ("xsdt_moved", "XSDT", 74, 126)]
MOVED = ["container_moved", "rsdp_bytes", "xsdt_moved", "fadt_bytes"] + [name for name, _, _ in PARTS[3:-1]]

HEAD = """-- Document 01, "Board A and its neighbours", byte by byte: what boards/A.cap holds, three neighbours with their sums made good, and board
-- A moved. boards/cases.py writes this file, and says whether it is what boards/A.cap holds.
use Rattle.std.specs.Prelude.{ℕ, List, [], ◌∷◌, ◌++◌, set}
"""


def spelled(data):
    return " ∷ ".join([str(byte) for byte in data] + ["[]"])


def changed(data):
    """A neighbour of board A by the bytes in which it differs."""
    assert len(data) == len(A)
    board = "board_a"
    for at in range(len(A)):
        if data[at] != A[at]:
            board = f"(set {board} {at} {data[at]})"
    return board[1:-1]


def listed(name, title, data):
    return f"-- {title}\nabbrev {name} : List ℕ\n{name} = {spelled(data)}\n"


def joined(name, parts):
    return f"unfoldable pub {name} : List ℕ\n{name} = " + " ++ ".join(parts) + "\n"


def boards(neighbours, moved):
    """The page: board A's parts, board A, the neighbours (name, title, bytes), and board A moved (title, bytes)."""
    ends = [place for _, _, place in PARTS[1:]] + [len(A)]
    held = {name: A[place:end] for (name, _, place), end in zip(PARTS, ends)}
    page = [HEAD] + [listed(name, title, held[name]) for name, title, _ in PARTS]
    page.append(joined("board_a", held))
    for name, title, data in neighbours:
        page.append(f"-- {title}\nunfoldable pub {name} : List ℕ\nunfolding board_a\n{name} = {changed(data)}\n")
    title, data = moved
    held.update({name: data[place:end] for name, _, place, end in OWN})
    assert data == b"".join(held[name] for name in MOVED)
    page += [f"-- ---- {title}"] + [listed(name, own, held[name]) for name, own, _, _ in OWN]
    page.append(joined("board_a_moved", MOVED))
    return "\n".join(page)
