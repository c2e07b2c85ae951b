#!/usr/bin/env python3
"""make_images.py DIR: writes images NAME.img with what examine_image must write of each, NAME.out, into DIR.
make_images.py --sheet: writes the bench sheet's image to standard output.

What is expected stands beside each image, by document 01 and requests 3, 5 and 6; nothing here reads an image.
The program reads 65,536 bytes at most, so the limits of entries and globals are out of its reach.
"""
import os
import struct
import sys

# Where the parts of an image stand, in the file and in memory.
HEADERS, DYNAMIC, DESCRIPTORS, PLACE, SYMBOLS, PACKED, RELA = 0x40, 0x180, 0x280, 0x2C0, 0x300, 0x380, 0x400

R, RW = 4, 6
ABS64, GLOB_DAT, RELATIVE = 257, 1025, 1027
MODE, HEAP, STACK, GLOBALS, GLOBALSSZ = 0x70000009, 0x7000000B, 0x7000000C, 0x7000000D, 0x7000000F
SHEET = bytes.fromhex("8210100701")
SHEET_GLOBALS = [(4096, 2), (4160, 8), (4288, 1)]
NINE_FF = b"\xff" * 9


def ehdr(count, kind=3, machine=183, version=1, size=56, table=HEADERS):
    return struct.pack(
        "<7s9xHHIQQQIHHHHHH", b"\x7fELF\x02\x01\x01", kind, machine, version, 0, table, 0, 0, 64, size, count, 0, 0, 0
    )


def phdr(kind, vaddr, filesz, memsz, flags=RW, offset=None, align=0):
    if offset is None:
        offset = vaddr if filesz else 0
    return struct.pack("<IIQQQQQQ", kind, flags, offset, vaddr, 0, filesz, memsz, align)


def load(vaddr, filesz, memsz, **more):
    return phdr(1, vaddr, filesz, memsz, **more)


def dynamic(bytes_, vaddr=DYNAMIC):
    return phdr(2, vaddr, bytes_, bytes_)


def rela(place, kind, symbol=0, addend=0):
    return struct.pack("<QIIQ", place, kind, symbol, addend % 2**64)


def symbol(info=0, section=1, value=0x1000):
    return struct.pack("<IBBHQQ", 0, info, 0, section, value, 0)


def image(
    descriptors=SHEET,
    relocations=(),
    symbols=(),
    packed=(),
    words=(),
    entries=None,
    extra=(),
    headers=None,
    count=None,
    length=None,
    memory=0x2000,
    **fields
):
    """An image whose one writable PT_LOAD is from 0 to `memory`, with its front as the file part.

    extra: dynamic entries after the usual ones; entries: all of them; headers: a function from the file part's
    bytes and those of the dynamic table to the program headers.
    """
    if entries is None:
        entries = [(7, RELA), (8, 24 * len(relocations)), (9, 24)]
        if descriptors is not None:
            entries += [(GLOBALS, DESCRIPTORS), (GLOBALSSZ, len(descriptors))]
        if symbols:
            entries += [(6, SYMBOLS), (11, 24)]
        if packed:
            entries += [(36, PACKED), (35, 8 * len(packed)), (37, 8)]
        entries += list(extra) + [(0, 0)]
    table = b"".join(struct.pack("<QQ", t, v) for t, v in entries)
    parts = [
        (DYNAMIC, table),
        (DESCRIPTORS, descriptors or b""),
        (SYMBOLS, b"".join(symbols)),
        (PACKED, struct.pack(f"<{len(packed)}Q", *packed)),
        (RELA, b"".join(relocations)),
    ]
    parts += [(place, struct.pack("<Q", word % 2**64)) for place, word in words]
    size = max(RELA, *(at + len(part) for at, part in parts))
    if headers is None:
        heads = [load(0, size, memory), dynamic(len(table))]
    else:
        heads = headers(size, len(table))
    parts = [(0, ehdr(len(heads) if count is None else count, **fields)), (HEADERS, b"".join(heads))] + parts
    f = bytearray(max(size, length or 0))
    for at, part in parts:
        f[at : at + len(part)] = part
    return bytes(f)


def sheet():
    words = [(PLACE, -128), (PLACE + 8, 0), (PLACE + 16, -1), (PLACE + 24, 0)]
    addends = [0x10C0, 0x10C0, 0x10C0, 0x1020]
    return image(relocations=[rela(p, RELATIVE, 0, a) for (p, _), a in zip(words, addends)], words=words)


def cases():
    """Each image's name, bytes and what is expected: a list of globals, or a refusal's number and position."""
    good = sheet()
    yield "sheet", good, SHEET_GLOBALS
    yield "no_table", image(descriptors=None), []
    yield "no_bytes_anywhere", image(entries=[(7, 2**63), (8, 0), (9, 24), (GLOBALS, 2**63), (GLOBALSSZ, 0), (0, 0)]), []
    yield "no_known_tag", image(entries=[(1, 5), (1, 6), (0, 0), (7, 7)]), []
    yield "modes", image(extra=[(MODE, 1), (HEAP, 0), (STACK, 1)]), SHEET_GLOBALS
    # Numbers of one, two and three bytes, each as short as can be, around the limit of a second number.
    yield "shortest", image(descriptors=bytes.fromhex("01 0007 07 8101 8207 808001 8001"), memory=0x100000), [
        (0, 1), (16, 8), (144, 7), (512, 1), (2320, 2), (35120, 129)]
    yield "longest", image(length=65536), SHEET_GLOBALS
    # As many as an image has room for.
    for name, count in ("many", 1025), ("most", 65536 - RELA):
        yield name + "_globals", image(entries=[(GLOBALS, RELA), (GLOBALSSZ, count), (0, 0)], memory=16 * count,
            descriptors=None, relocations=[b"\x01" * count]), [(16 * i, 1) for i in range(count)]
    for name, count in ("many", 1025), ("most", (65536 - RELA) // 24):
        places = [rela(0x10000 + 8 * i, RELATIVE) for i in range(count)]
        yield name + "_relocations", image(relocations=places, memory=0x16000), SHEET_GLOBALS
    yield "many_packed", image(packed=[0x6800] + [2**64 - 1] * 16 + [2**17 - 1], memory=0x9000), SHEET_GLOBALS
    yield "weak_undefined", image(symbols=[symbol(), symbol(0x20, 0)], relocations=[rela(PLACE, ABS64, 1)]), SHEET_GLOBALS
    yield "glob_dat", image(symbols=[symbol(), symbol(0x11)], relocations=[rela(PLACE, GLOB_DAT, 1)]), SHEET_GLOBALS
    yield "skipped", image(relocations=[rela(PLACE, 0, 9), rela(3, 0), rela(PLACE, RELATIVE)]), SHEET_GLOBALS

    # 1: the length
    yield "empty", b"", (1, 0)
    yield "short", good[:63], (1, 0)
    yield "too_long", image(length=65537), (1, 0)
    yield "too_long_and_wrong", bytes(70000), (1, 0)
    # 2: the first wrong byte
    yield "zeros", bytes(64), (2, 0)
    for i in range(7):
        yield "identification_%d" % i, good[:i] + bytes([good[i] ^ 0x80]) + good[i + 1 :], (2, i)
    yield "identification_two", good[:3] + b"XX" + good[5:], (2, 3)
    # 3: the header
    yield "type", image(kind=2), (3, 0)
    yield "machine", image(machine=62), (3, 0)
    yield "version", image(version=0), (3, 0)
    yield "header_size", image(size=64), (3, 0)
    yield "no_headers", image(count=0), (3, 0)
    yield "seventeen_headers", image(count=17), (3, 0)
    yield "table_outside", image(table=RELA - 56), (3, 0)
    yield "table_wraps", image(table=2**64 - 56), (3, 0)
    # 4: a bad PT_LOAD
    for name, bad in (
        ("no_memory", load(0x2000, 0, 0)),
        ("file_over_memory", load(0x2000, 16, 8, offset=0)),
        ("outside_file", load(0x2000, 0x400, 0x400)),
        ("outside_memory", load(0x1000000, 0, 16)),
        ("one_past_memory", load(0xFFFFF1, 0, 16)),
        ("wraps", load(2**64 - 16, 0, 32)),
        ("overlap", load(0x1FF0, 0, 0x1000)),
        ("align_3", load(0x2001, 0, 16, align=3)),
        ("align_disagrees", load(0x2008, 0, 16, offset=0, align=16)),
    ):
        yield "load_" + name, image(headers=lambda n, d: [dynamic(d), load(0, n, 0x2000), bad]), (4, 2)
        if name != "overlap":
            yield "load_first_" + name, image(headers=lambda n, d: [dynamic(d), bad, bad]), (4, 1)
    aligned = load(0x2008, 0, 16, offset=8, align=4096)
    for name, last in ("above_a_mib", load(0x100000, 0, 16)), ("to_the_end", load(0xFFFFF0, 0, 16)):
        yield "load_" + name, image(headers=lambda n, d: [load(0, n, 0x2000), last, dynamic(d)]), SHEET_GLOBALS
    yield "load_align_agrees", image(headers=lambda n, d: [load(0, n, 0x2000), aligned, dynamic(d)]), SHEET_GLOBALS
    # 5: PT_DYNAMIC
    yield "no_dynamic", image(headers=lambda n, d: [load(0, n, 0x2000)]), (5, 1)
    yield "two_dynamics", image(headers=lambda n, d: [dynamic(d), load(0, n, 0x2000), dynamic(d), dynamic(d)]), (5, 2)
    yield "dynamic_empty", image(headers=lambda n, d: [load(0, n, 0x2000), dynamic(0)]), (5, 1)
    yield "dynamic_uneven", image(headers=lambda n, d: [load(0, n, 0x2000), dynamic(d + 8)]), (5, 1)
    yield "dynamic_long", image(length=0x2000, headers=lambda n, d: [load(0, 0x2000, 0x2000), dynamic(4112)]), (5, 1)
    yield "dynamic_not_backed", image(headers=lambda n, d: [load(0, n, 0x2000), dynamic(16, 0x1000)]), (5, 1)
    yield "dynamic_without_null", image(entries=[(1, 1)] * 4, headers=lambda n, d: [dynamic(d), load(0, n, 0x2000)]), (5, 0)
    # 6: an entry; then a partner
    for name, entry in (
        ("rel", (17, 0)),
        ("jmprel", (23, 0)),
        ("relr_bytes", (35, 12)),
        ("relr_size", (37, 24)),
        ("symbol_size", (11, 16)),
        ("rela_bytes", (8, 25)),
        ("rela_size", (9, 0)),
        ("mode", (MODE, 2)),
        ("heap", (HEAP, 2)),
        ("stack", (STACK, 2)),
    ):
        yield "entry_" + name, image(entries=[(1, 0), entry, entry, (0, 0)]), (6, 1)
    yield "entry_repeated", image(entries=[(MODE, 0), (1, 0), (MODE, 0), (0, 0)]), (6, 2)
    yield "entry_lowest", image(entries=[(MODE, 0), (MODE, 0), (17, 0), (0, 0)]), (6, 1)
    yield "partner_symbols", image(entries=[(6, 0), (0, 0)]), (6, 1)
    yield "partner_rela", image(entries=[(7, 0), (9, 24), (0, 0), (8, 0)]), (6, 2)
    yield "partner_relr", image(entries=[(36, 0), (35, 0), (0, 0), (37, 8)]), (6, 2)
    yield "partner_relr_size", image(entries=[(37, 8), (1, 0), (0, 0)]), (6, 2)
    yield "entry_relr_repeated", image(entries=[(36, 0), (36, 0), (0, 0)]), (6, 1)
    yield "partner_globals", image(entries=[(1, 0), (1, 0), (GLOBALSSZ, 0), (0, 0)]), (6, 3)
    # 7: the relocation table; then the descriptor table
    yield "rela_not_backed", image(entries=[(7, 0x1000), (8, 24), (9, 24), (0, 0)]), (7, 0)
    yield "rela_wraps", image(entries=[(7, 2**64 - 24), (8, 48), (9, 24), (0, 0)]), (7, 0)
    yield "descriptors_not_backed", image(entries=[(GLOBALS, 0x3FF), (GLOBALSSZ, 2), (0, 0)]), (7, 1)
    yield "both_not_backed", image(entries=[(7, 0x1000), (8, 24), (9, 24), (GLOBALS, 0x1000), (GLOBALSSZ, 1), (0, 0)]), (7, 0)
    # 15: the packed table
    yield "packed_no_bytes", image(entries=[(36, 2**63), (35, 0), (37, 8), (0, 0)]), []
    yield "packed_not_backed", image(entries=[(36, 0x3FC), (35, 8), (37, 8), (0, 0)]), (15, 0)
    yield "packed_odd_first", image(packed=[1, PLACE]), (15, 0)
    # 600 entries and a place, so that 64,935 places more are allowed: the bits of 1,030 full bitmaps, and 45.
    skipped, at = rela(0, 0) * 600, RELA + 24 * 600
    for name, last, says in ("too_many", 46, (15, 1034)), ("most", 45, (11, 600)):
        words = [4] + [1] * 3 + [2**64 - 1] * 1030 + [2 ** (last + 1) - 1]
        yield "packed_" + name, image(relocations=[skipped, struct.pack(f"<{len(words)}Q", *words)], memory=0x8000,
            entries=[(7, RELA), (8, len(skipped)), (9, 24), (36, at), (35, 8 * len(words)), (37, 8), (0, 0)]), says
    yield "packed_before_descriptors", image(packed=[1], descriptors=b"\x00"), (15, 0)
    tables = [(36, 0x380), (35, 8), (37, 8), (GLOBALS, 0x1000), (GLOBALSSZ, 1), (0, 0)]
    yield "packed_after_seven", image(entries=tables, words=[(0x380, 1)]), (7, 1)
    # 8 and 9: one walk over the descriptors
    yield "descriptor_cut", image(descriptors=b"\x00"), (8, 0)
    yield "descriptor_cut_second", image(descriptors=SHEET + b"\x08"), (8, 3)
    yield "descriptor_cut_first", image(descriptors=b"\x01\x80"), (8, 1)
    yield "descriptor_tenth", image(descriptors=NINE_FF + b"\x02"), (8, 0)
    yield "descriptor_eleven", image(descriptors=b"\x80" * 10 + b"\x01"), (8, 0)
    yield "descriptor_largest", image(descriptors=NINE_FF + b"\x01"), (9, 0)
    yield "descriptor_largest_size", image(descriptors=b"\x01\x00" + NINE_FF + b"\x01"), (9, 1)
    yield "global_outside", image(descriptors=bytes.fromhex("01 00 ff03")), (9, 1)
    yield "global_to_the_end", image(descriptors=bytes.fromhex("01 00 fe03")), [(0, 1), (16, 511)]
    halves = lambda n, d: [load(0, n, 0x1000), load(0x1000, 0, 0x1000), dynamic(d)]
    yield "global_over_two", image(descriptors=bytes.fromhex("f10f 02"), headers=halves), (9, 1)
    yield "nine_then_eight", image(descriptors=bytes.fromhex("00 ff07 00")), (9, 0)
    # 16: in the same walk, when a descriptor has been read and before its range
    for name, descriptors, says in (
        ("first", "8100", (16, 0)),
        ("second", "01 00 8700", (16, 1)),
        ("both", "01 01 8000 8700 01", (16, 2)),
        ("three", "01 81 80 00", (16, 1)),
        ("to_ten", "01 0007 0007 81 8080808080808080 00", (16, 3)),
        ("second_to_ten", "00 87 8080808080808080 00", (16, 0)),
        ("same_globals", "01 01 0007 8700", (16, 3)),
        ("far", "01 ffffffffffffffffff00", (16, 1)),
        ("outside", "81a000 01", (16, 0)),
        ("and_cut", "01 8000", (8, 1)),
        ("and_second_cut", "8000 80", (8, 0)),
        ("and_tenth", "01 8000 ffffffffffffffffff02", (8, 1)),
        ("then_outside", "8100 81ff7f", (16, 0)),
        ("after_outside", "81ff7f 8100", (9, 0)),
        ("before_relocations", "8100", (16, 0)),
    ):
        bad = [rela(1, 1)] if name == "before_relocations" else []
        yield "padded_" + name, image(descriptors=bytes.fromhex(descriptors), relocations=bad), says
    for second in range(7):
        yield "second_%d" % second, image(descriptors=bytes([1, 0, second])), (16, 1)
    yield "second_7", image(descriptors=b"\x01\x00\x07"), [(0, 1), (16, 8)]
    yield "second_6_outside", image(descriptors=bytes.fromhex("80 80 01 06")), (16, 0)
    yield "second_6_far", image(descriptors=bytes.fromhex("80 80 80 80 80 80 80 01 06")), (16, 0)
    yield "packed_before_padded", image(packed=[1], descriptors=bytes.fromhex("8100")), (15, 0)
    # 10 and 11: one walk over the relocations
    ok = rela(PLACE, RELATIVE)
    for name, bad in (
        ("kind", rela(PLACE + 8, 1024)),
        ("relative_symbol", rela(PLACE + 8, RELATIVE, 1)),
        ("no_symbol", rela(PLACE + 8, ABS64)),
        ("symbol_outside", rela(PLACE + 8, GLOB_DAT, 2**32 - 1)),
        ("tls", rela(PLACE + 8, ABS64, 1)),
        ("ifunc", rela(PLACE + 8, ABS64, 2)),
        ("reserved_section", rela(PLACE + 8, ABS64, 3)),
        ("undefined", rela(PLACE + 8, GLOB_DAT, 4)),
        ("before_place", rela(1, 1)),
    ):
        symbols = [symbol(), symbol(0x16), symbol(0x1A), symbol(0x10, 0xFF00), symbol(0x10, 0)]
        yield "relocation_" + name, image(symbols=symbols, relocations=[ok, bad, rela(1, 1)]), (10, 1)
    yield "relocation_no_symbols", image(relocations=[rela(PLACE, ABS64, 1)]), (10, 0)
    for name, place in (
        ("uneven", PLACE + 4),
        ("repeated", PLACE),
        ("outside", 0x2000),
        ("wraps", 2**64 - 8),
    ):
        yield "place_" + name, image(relocations=[ok, rela(PLACE, 0), rela(place, RELATIVE), rela(PLACE, 1)]), (11, 2)
    yield "packed", image(packed=[PLACE, 7, 1, 0x1000, 2**64 - 1]), SHEET_GLOBALS
    kept = [rela(PLACE, RELATIVE), rela(PLACE + 8, 0)]
    for name, words, at in (
        ("uneven", [PLACE + 16, PLACE + 20], 1),
        ("repeated", [PLACE + 8, 0x1000, PLACE], 2),
        ("repeated_packed", [PLACE + 8, 3, 1, PLACE + 16], 3),
        ("outside", [0x1FF8, 1, 1, 3], 3),
        ("wraps", [2**64 - 8, 3], 0),
    ):
        yield "packed_" + name, image(relocations=kept, packed=words), (11, 2 + at)
    yield "packed_after_rela", image(relocations=kept + [rela(1, RELATIVE)], packed=[2]), (11, 2)
    flags = lambda n, d: [load(0, n, 0x1000, flags=R), load(0x1000, 0, 0x1000), dynamic(d)]
    yield "place_read_only", image(relocations=[rela(0x1000, RELATIVE), rela(0xFF8, RELATIVE)], headers=flags), (11, 1)


def expected(says):
    if isinstance(says, tuple):
        return "refused %d %d\n" % says
    return "globals %d\n" % len(says) + "".join("%d %d\n" % g for g in says)


def main():
    if len(sys.argv) != 2:
        sys.exit(__doc__)
    if sys.argv[1] == "--sheet":
        sys.stdout.buffer.write(sheet())
        return
    names = set()
    for name, data, says in cases():
        if name in names:
            sys.exit("two images are named " + name)
        names.add(name)
        with open(os.path.join(sys.argv[1], name + ".img"), "wb") as f:
            f.write(data)
        with open(os.path.join(sys.argv[1], name + ".out"), "w") as f:
            f.write(expected(says))


main()
