#!/usr/bin/env python3
"""Loads real modules and compares answer, memory and tag plane with what readelf says of them; reads their descriptor
tables and writes them again, and compares with the linker's own bytes. These must be the shortest, as encoded here.

    check.py READELF SCRATCH FOLDER PROGRAMS -- EMULATOR...

READELF is the program to call (GNU or LLVM), SCRATCH a folder for the dumps, FOLDER has the modules that
tests/modules/build wrote, and PROGRAMS has load_file and write_file, built from programs/, which EMULATOR... runs
where it is given. What to expect comes from readelf's lists of segments, dynamic entries, relocations and symbols, and
from the module's bytes; descriptors are decoded here, after the Memtag ABI, and so are packed words, to know which of them
names a place that readelf lists. Nothing of the loader's own code is used.
"""
import os
import re
import subprocess
import sys

MASK = (1 << 64) - 1
LIMIT = 1 << 24
ABS64, GLOB_DAT, RELATIVE = 257, 1025, 1027
RELRSZ, RELR, RELRENT, MOST = 35, 36, 37, 65536
MODE, HEAP, STACK, GLOBALS, GLOBALSSZ = 0x70000009, 0x7000000B, 0x7000000C, 0x7000000D, 0x7000000F
PAGE = 4096
# Multiples of the largest align of every module here.
BIASES = [0x40000000, 0, (1 << 48) - LIMIT]

checks = 0


def expect(condition, what):
    global checks
    checks += 1
    if not condition:
        sys.exit("FAILED: " + what)


class Module:
    """A module as readelf describes it."""

    def __init__(self, readelf, path):
        self.path = path
        self.name = os.path.basename(os.path.dirname(path)) + "/" + os.path.basename(path)[:-3]
        self.bytes = open(path, "rb").read()
        run = subprocess.run([readelf, "-W", "-l", "-d", "-r", "-s", path], capture_output=True, text=True)
        self.headers, self.dynamic, self.words, packed = [], [], [], []
        self.dynsym, self.symtab = {}, {}
        table, relr = None, False
        for line in run.stdout.splitlines():
            part = line.split()
            place = re.match(r"(?:[0-9a-f]{4}:\s+[0-9a-f]{16})?\s*([0-9a-f]{16})(\s|$)", line) if relr else None
            if line.startswith("Relocation section"):
                relr = "'.relr.dyn'" in line
            elif place:
                packed.append(int(place[1], 16))
            elif "Symbol table" in line:
                relr = False
                table = self.dynsym if ".dynsym" in line else self.symtab
            elif re.match(r"\s+[A-Z_]+\s+0x[0-9a-f]{6} 0x[0-9a-f]{16} ", line):
                offset, vaddr, _, filesz, memsz = (int(x, 16) for x in part[1:6])
                self.headers.append((part[0], offset, vaddr, filesz, memsz, "W" in "".join(part[6:-1]), int(part[-1], 16)))
            elif re.match(r"\s*0x[0-9a-f]{16} \(", line):
                rest = line[line.index(")") + 1:].split()
                value = int(rest[0], 0) if re.match(r"(0x[0-9a-f]+|\d+)$", rest[0]) else None
                self.dynamic.append((int(part[0], 16), value))
            elif re.match(r"[0-9a-f]{16}\s+[0-9a-f]{16} R_\S+\s+(-?[0-9a-f]+|.* [+-] [0-9a-f]+)$", line):
                info = int(part[1], 16)
                addend = int(part[-1], 16) * (-1 if part[-2] == "-" else 1)
                self.words.append((int(part[0], 16), info & 0xFFFFFFFF, info >> 32, signed(addend), part[2]))
            elif table is not None and re.match(r"\s*\d+: [0-9a-f]{16} ", line):
                name = part[7].split("@")[0] if len(part) > 7 else ""
                symbol = (int(part[1], 16), int(part[2], 0), part[3], part[4], part[6], name)
                table[int(part[0][:-1]) if table is self.dynsym else name] = symbol
        self.loads = [h for h in self.headers if h[0] == "LOAD"]
        # The relocation table of DT_RELA alone: readelf lists the PLT's after it.
        size = self.tag(8)
        self.rela = self.words[: (size or 0) // 24]
        # (index of the word, place) of DT_RELR; readelf lists the places of Android's own table too.
        self.packed = list(unpacked(self.relr())) if self.tag(RELR) is not None else []
        if self.packed:
            expect(packed == [place for _, place in self.packed], f"{self.name}: readelf lists other packed places")

    def tag(self, number):
        values = [v for t, v in self.dynamic if t == number]
        return values[0] if values else None

    def relr(self):
        """The words of the packed table."""
        at, size = self.offset(self.tag(RELR)), self.tag(RELRSZ)
        return [int.from_bytes(self.bytes[i:i + 8], "little") for i in range(at, at + size, 8)]

    def packed_at(self, test):
        """The position of the first packed place that is so."""
        return len(self.rela) + next(index for index, place in self.packed if test(place))

    def image(self, length):
        """Memory before relocation."""
        memory = bytearray(length)
        for _, offset, vaddr, filesz, *_ in self.loads:
            memory[vaddr:vaddr + filesz] = self.bytes[offset:offset + filesz]
        return memory

    def end(self):
        return max(h[2] + h[4] for h in self.loads)

    def unit(self):
        """What the bias must be a multiple of: a page of 4,096 bytes and the largest align of a PT_LOAD."""
        return max([PAGE] + [h[6] for h in self.loads])

    def offset(self, address):
        """Where the file has the byte of an address."""
        return next(h[1] + address - h[2] for h in self.loads if h[2] <= address < h[2] + h[3])

    def table(self):
        """The bytes of the descriptor table."""
        start, size = self.tag(GLOBALS), self.tag(GLOBALSSZ)
        if not size:
            return b""
        return self.bytes[self.offset(start):self.offset(start) + size]

    def globals(self):
        """(address, bytes) of each descriptor: distance and size in granules, ULEB128, as the ABI's encoder wrote them."""
        table = iter(self.table())
        found, last = [], 0
        for byte in table:
            first = uleb(byte, table)
            granules = first & 7 or uleb(next(table), table) + 1
            address = last + (first >> 3) * 16
            last = address + granules * 16
            found.append((address, granules * 16))
        return found


def unpacked(words):
    """(index, place) of each place that packed words name."""
    for index, word in enumerate(words):
        if word & 1 == 0:
            yield index, word
            run = word + 8
        else:
            yield from ((index, run + 8 * (bit - 1)) for bit in range(1, 64) if word >> bit & 1)
            run += 504


def signed(word):
    """LLVM's readelf writes some negative addends as 64-bit words."""
    return word - (1 << 64) if word >> 63 == 1 else word


def uleb(byte, rest):
    value, shift = byte & 127, 7
    while byte & 128:
        byte = next(rest)
        value |= (byte & 127) << shift
        shift += 7
    return value


def encoded(value, least=1):
    """A number in ULEB128: as short as can be, or padded to at least so many bytes."""
    out = []
    while value > 127 or len(out) < least - 1:
        out.append(value % 128 + 128)
        value //= 128
    return bytes(out + [value])


def descriptors(found):
    """The shortest descriptor of each global: its distance from the end before and its size, in granules."""
    last = 0
    for address, size in found:
        distance, granules, last = (address - last) // 16, size // 16, address + size
        yield encoded(distance * 8 + granules) if granules < 8 else encoded(distance * 8) + encoded(granules - 1)


def expected(m, bias, length, choices):
    """Memory and plane after a load."""
    plane = bytearray(length // 16)
    for (address, size), choice in zip(m.globals(), choices):
        for granule in range(address // 16, (address + size) // 16):
            plane[granule] = choice
    raw = m.image(length)
    memory = bytearray(raw)
    for place, kind, index, addend, _ in m.rela:
        if kind == RELATIVE:
            address = bias + addend
            source = (address + int.from_bytes(raw[place:place + 8], "little")) & MASK
        else:
            value, _, _, bind, section, _ = m.dynsym[index]
            weak = bind == "WEAK" and section == "UND"
            address = addend if weak else bias + value + addend
            source = None if weak else bias + value
        put_word(memory, place, address, source, bias, plane)
    for _, place in m.packed:
        address = bias + int.from_bytes(raw[place:place + 8], "little")
        put_word(memory, place, address, address, bias, plane)
    return bytes(memory), bytes(plane)


def put_word(memory, place, address, source, bias, plane):
    inside = source is not None and bias <= source < bias + 16 * len(plane)
    word = address | (plane[(source - bias) // 16] if inside else 0) << 56
    memory[place:place + 8] = word.to_bytes(8, "little")


class Loader:
    def __init__(self, command, scratch):
        self.command, self.out = command, os.path.join(scratch, "dump")

    def load(self, path, bias, length, plane, choices):
        """Answer, answer of examine, facts, memory and plane."""
        words = [path, str(bias), str(length), str(plane), bytes(choices).hex() or "-", self.out]
        run = subprocess.run(self.command + words, capture_output=True, text=True, timeout=20)
        expect(run.returncode == 0, f"{path}: the loading program ended with {run.returncode}")
        answers = [int(x) for x in run.stdout.split()]
        return (*answers, open(self.out + ".memory", "rb").read(), open(self.out + ".plane", "rb").read())

    def refusal(self, what, path, bias, length, plane, choices, number, position, examined=None):
        """Expects a refusal with nothing written. examined: what examine answers, where it takes the file."""
        answer, examine, facts, memory, tags = self.load(path, bias, length, plane, choices)
        expect(answer == position * 256 + number, f"{what}: refusal {number} at {position} expected, {answer & 255} at {answer >> 8} given")
        expect(examine == (answer if examined is None else examined), f"{what}: examine answers {examine}")
        expect((facts == 0) == (examined is None), f"{what}: facts {facts:#x}")
        expect(memory == b"\xa5" * length and tags == b"\x5a" * plane, f"{what}: memory or plane was written")


class Writer:
    def __init__(self, command):
        self.command = command

    def write(self, m, room):
        """The answer to writing a module's table again, the number of globals read, and the buffer of so many bytes."""
        words = [m.path, str(m.offset(m.tag(GLOBALS))), str(len(m.table())), str(room)]
        run = subprocess.run(self.command + words, capture_output=True, text=True, timeout=20)
        expect(run.returncode == 0, f"{m.name}: the writing program ended with {run.returncode}")
        answer, count, buffer = run.stdout.split()
        return int(answer), int(count), bytes.fromhex(buffer.strip("-"))


def check_table(m, writer):
    """The table read and written again: the linker's own bytes, which are the shortest."""
    table, count, lent = m.table(), len(m.globals()), b"\xa5"
    if not table:
        return
    expect(table == b"".join(descriptors(m.globals())), f"{m.name}: its table is not in shortest form")
    for room in (len(table), len(table) + 1, len(table) + 77, 14 * count):
        what = f"{m.name}, its table into {room} bytes"
        answer, read, buffer = writer.write(m, room)
        expect(read == count, f"{what}: {read} globals were read, {count} are there")
        expect(answer == len(table) * 256, f"{what}: answer {answer & 255} at {answer >> 8}")
        expect(buffer == table + lent * (room - len(table)), f"{what}: the bytes differ")
    for room in (len(table) - 1, 0):
        answer, _, buffer = writer.write(m, room)
        expect(answer == 6 and buffer == lent * room, f"{m.name}, its table into {room} bytes: answer {answer}")


def facts_of(m):
    """The number of hagolstan_facts, by the layout in the header: 1, mode, heap, stack, globals, words."""
    switch = lambda v: 0 if v is None else v + 1
    return (1 + (switch(m.tag(MODE)) << 2) + (switch(m.tag(HEAP)) << 4) + (switch(m.tag(STACK)) << 6)
            + (len(m.globals()) << 8) + (sum(1 for r in m.rela if r[1]) + len(m.packed) << 25))


def choose(count):
    """Tags 1 to 15; neighbours differ."""
    return [1 + 7 * i % 15 for i in range(count)]


# What the C sources say: pointer variable -> global pointed into, and bytes from its start.
POINTERS = {
    "start": ("readings", 0), "middle": ("readings", 20), "end": ("readings", 32), "text_end": ("text", 16),
    "scratch_middle": ("scratch", 17), "scratch_end": ("scratch", 48), "table_start": ("table", 0),
    "table_inside": ("table", 312), "table_end": ("table", 320), "before": ("table", -8),
    "absent": (None, 0), "absent_far": (None, 16), "ends": ("readings", 32),
}
PACKED = {
    "limits_last": ("limits", 12), "last": ("back", 0), "dense": ("limits", 0), "level_end": ("level", 4), "absent": (None, 0),
}
UNTAGGED = {"values_end": ("values", 16), "shared_at": ("shared_value", 0)}
NINE_HOUR = {"log_at": ("lines", 0), "log_end": ("lines", 128), "age_at": ("age", 0), "temperature_at": ("temperature", 0)}
LARGE = {"space_end": ("space", 2 << 20), "pointers": ("value", 0)}
MEANT = {
    "pointers": POINTERS, "pointers_norelro": POINTERS, "pointers_symbolic": POINTERS,
    "nine_hour": NINE_HOUR, "based": NINE_HOUR,
    "large": LARGE, "packed_large": LARGE, "many_globals": {},
    "far": {"far_before": ("table", -0x100000)},
    "asynchronous": {"level_at": ("level", 0)},
    "aligned": {"table_at": ("table", 0), "table_end": ("table", 256), "level_at": ("level", 0)},
    "untagged": UNTAGGED,
    "text_pic": {"value_at": ("value", 0)},
    "packed": PACKED, "packed_z": PACKED, "packed_pointers": POINTERS, "packed_untagged": UNTAGGED, "packed_clang": UNTAGGED,
    "unpacked_clang": UNTAGGED, "packed_seen": {"values_at": ("values", 0)}, "packed_far": {},
    "empty": {}, "called_symbolic": {}, "called_hidden": {}, "globals_untagged": {}, "copy_own": {}, "unseen": {},
    "pointers_stripped": {}, "unseen_clang": {},
}
# Modules of which a linker packed words, and how many of them at least.
WITH_PACKED = {"packed": 200, "packed_z": 200, "packed_pointers": 13, "packed_untagged": 1, "packed_clang": 1, "packed_seen": 1, "packed_far": 1,
               "packed_large": 2000}


def check_meaning(m, memory, bias, choices):
    """Each pointer of the C source: the address it means, with the tag of the global it is made from."""
    tags = {address: choice for (address, _), choice in zip(m.globals(), choices)}
    for pointer, (target, offset) in MEANT[m.name.split("/")[1]].items():
        place = m.symtab[pointer][0]
        word = int.from_bytes(memory[place:place + 8], "little")
        start = m.symtab[target][0] if target else None
        meant = offset if target is None else (bias + start + offset) | tags.get(start, 0) << 56
        expect(word == meant, f"{m.name}: {pointer} is {word:#x}, and {meant:#x} is meant")


def check_taken(m, loader):
    sizes = {symbol[0]: symbol[1] for symbol in m.symtab.values() if symbol[2] == "OBJECT"}
    for address, size in m.globals() if m.symtab else []:
        expect(sizes.get(address) == size, f"{m.name}: no symbol has the address and size of the descriptor {address:#x}, {size}")
    least = (m.end() + 15) // 16 * 16
    choices = choose(len(m.globals()))
    far = m.name.split("/")[1]
    for bias in BIASES:
        for length in (least, least + 4096):
            what = f"{m.name} at {bias:#x}"
            if far == "far" and bias == 0:
                loader.refusal(what, m.path, 0, length, length // 16, choices, 13, 0, len(choices) * 256)
                continue
            if far == "packed_far":
                # What is loaded there is a number below 0, which is read as 2^64 and more below.
                loader.refusal(what, m.path, bias, length, length // 16, choices, 13, m.packed_at(lambda place: True), len(choices) * 256)
                continue
            answer, examine, facts, memory, plane = loader.load(m.path, bias, length, length // 16, choices)
            expect(answer == len(choices) * 256, f"{what}: answer {answer & 255} at {answer >> 8}")
            expect(examine == answer and facts == facts_of(m), f"{what}: examine {examine}, facts {facts:#x}, expected {facts_of(m):#x}")
            wanted_memory, wanted_plane = expected(m, bias, length, choices)
            expect(plane == wanted_plane, f"{what}: the tag plane differs")
            expect(memory == wanted_memory, f"{what}: memory differs")
            check_meaning(m, memory, bias, choices)


def check_biases(m, loader):
    """Biases that are multiples of the largest align, up to the highest, and others that are multiples of less."""
    length, choices, unit = (m.end() + 15) // 16 * 16, choose(len(m.globals())), m.unit()
    taken, highest = len(choices) * 256, ((1 << 48) - length) // unit * unit
    fit = {bias for bias in (BIASES[0] // unit * unit + unit, highest) if bias <= highest}
    for bias in sorted(fit):
        what = f"{m.name} at {bias:#x}, a multiple of {unit:#x}"
        answer, _, _, *made = loader.load(m.path, bias, length, length // 16, choices)
        expect(answer == taken, f"{what}: answer {answer & 255} at {answer >> 8}")
        expect(tuple(made) == expected(m, bias, length, choices), f"{what}: memory or plane differs")
    misfit = {BIASES[0] + step for step in (PAGE // 2, PAGE, unit // 2) if step % unit} | {unit // 2, highest + unit}
    for bias in sorted(misfit):
        what = f"{m.name} at {bias:#x}, which does not fit {unit:#x}"
        loader.refusal(what, m.path, bias, length, length // 16, choices, 12, 0, taken)


def check_far_aligns(m, loader, scratch, readelf):
    """The module with a far larger align of its first PT_LOAD, whose offset and address are 0. The files stay."""
    at = 64 + 56 * first(m.headers, lambda h: h[0] == "LOAD") + 48
    for power in (40, 63):
        path = os.path.join(scratch, f"align_{power}.so")
        with open(path, "wb") as out:
            out.write(m.bytes[:at] + (1 << power).to_bytes(8, "little") + m.bytes[at + 8:])
        edited = Module(readelf, path)
        expect(edited.unit() == 1 << power, f"{edited.name}: the largest align is {edited.unit():#x}")
        check_biases(edited, loader)


def check_late_refusals(m, loader):
    """12 and 14, by what is lent with a good module."""
    found, bias = m.globals(), BIASES[0]
    length, choices = (m.end() + 15) // 16 * 16, choose(len(found))
    taken, count = len(found) * 256, len(found)
    bad = lambda i, tag: choices[:i] + [tag] + choices[i + 1:]
    abut = next(i for i in range(1, count) if found[i][0] == sum(found[i - 1]))
    for what, arguments, number, position in [
        ("memory too short", (bias, length - 16, length // 16 - 1, choices), 12, 0),
        ("memory not of granules", (bias, length + 8, length // 16, choices), 12, 0),
        ("memory too long", (bias, LIMIT + 16, LIMIT // 16 + 1, choices), 12, 0),
        ("plane too long", (bias, length, length // 16 + 1, choices), 12, 0),
        ("bias inside a page", (bias + 0x800, length, length // 16, choices), 12, 0),
        ("bias too high", (1 << 48, length, length // 16, choices), 12, 0),
        ("a choice too few", (bias, length, length // 16, choices[:-1]), 14, count),
        ("a choice too many", (bias, length, length // 16, choices + [1]), 14, count),
        ("choice 0", (bias, length, length // 16, bad(2, 0)), 14, 2),
        ("choice 16", (bias, length, length // 16, bad(count - 1, 16)), 14, count - 1),
        ("equal neighbours", (bias, length, length // 16, bad(abut, choices[abut - 1])), 14, abut),
    ]:
        loader.refusal(f"{m.name}, {what}", m.path, *arguments, number, position, taken)


def first(entries, test):
    return next(i for i, entry in enumerate(entries) if test(entry))


def check_edits(m, loader, scratch):
    """A good module with one thing spoiled: the refusals that no linker brings about, and the order of the others."""
    header = lambda kind: first(m.headers, lambda h: h[0] == kind)
    entry = lambda tag: first(m.dynamic, lambda d: d[0] == tag)
    put = lambda at, value, size: m.bytes[:at] + value.to_bytes(size, "little") + m.bytes[at + size:]
    value_of = lambda tag: m.headers[header("DYNAMIC")][1] + 16 * entry(tag) + 8
    table, rela, count = m.offset(m.tag(GLOBALS)), m.offset(m.tag(7)), len(m.globals())
    last = table + m.tag(GLOBALSSZ) - 1
    for what, data, number, position in [
        ("63 bytes", m.bytes[:63], 1, 0),
        ("another fourth byte", put(3, 0x47, 1), 2, 3),
        ("version 2", put(20, 2, 4), 3, 0),
        ("a PT_LOAD of no bytes", put(64 + 56 * header("LOAD") + 40, 0, 8), 4, header("LOAD")),
        ("a second PT_DYNAMIC", put(64 + 56 * header("GNU_STACK"), 2, 4), 5, header("GNU_STACK")),
        ("mode 2", put(value_of(MODE), 2, 8), 6, entry(MODE)),
        ("symbols of 16 bytes", put(value_of(11), 16, 8), 6, entry(11)),
        ("relocations outside", put(value_of(7), 0xF0000, 8), 7, 0),
        ("descriptors outside", put(value_of(GLOBALS), 0xF0000, 8), 7, 1),
        ("the last descriptor cut short", put(last, m.bytes[last] | 128, 1), 8, count - 1),
        ("a global behind the module", put(table + 1, 0x7F, 1), 9, 0),
        ("kind COPY", put(rela + 2 * 24 + 8, 1024, 8), 10, 2),
        ("a place twice", put(rela + 24, m.rela[0][0], 8), 11, 1),
    ]:
        path = os.path.join(scratch, "edited.so")
        with open(path, "wb") as out:
            out.write(data)
        loader.refusal(f"{m.name}, {what}", path, BIASES[0], 0x80000, 0x8000, [], number, position)


def check_packed_edits(m, loader, scratch):
    """The packed module with one thing spoiled."""
    entry = lambda tag: first(m.dynamic, lambda d: d[0] == tag)
    put = lambda at, *words, data=m.bytes: data[:at] + b"".join(w.to_bytes(8, "little") for w in words) + data[at + 8 * len(words):]
    dynamic = next(h for h in m.headers if h[0] == "DYNAMIC")[1]
    value_of = lambda tag: dynamic + 16 * entry(tag) + 8
    table, words, rela, taken = m.offset(m.tag(RELR)), m.relr(), len(m.rela), len(m.globals()) * 256
    last = table + 8 * (len(words) - 1)
    index, place = m.packed[130]
    # Room for a longer table; the entry of its bytes stands behind that of its address.
    space, full = m.symtab["space"][0], MOST // 63 + 2
    expect(entry(RELRSZ) == entry(RELR) + 1, f"{m.name}: the packed entries stand apart")
    for what, data, number, position, examined in [
        ("packed bytes 4 more", put(value_of(RELRSZ), m.tag(RELRSZ) + 4), 6, entry(RELRSZ), None),
        ("packed words of 16 bytes", put(value_of(RELRENT), 16), 6, entry(RELRENT), None),
        ("no packed entry size", put(value_of(RELRENT) - 8, 0x6FFFE003), 6, first(m.dynamic, lambda d: d[0] == 0), None),
        ("packed words outside", put(value_of(RELR), 0xF0000), 15, 0, None),
        ("a bitmap first", put(table, words[0] | 1), 15, 0, None),
        ("full bitmaps", put(m.offset(space), words[0], *[MASK] * full, data=put(value_of(RELR), space, RELRSZ, 8 * (full + 1))), 15,
         first(range(full + 1), lambda i: rela + 1 + 63 * i > MOST), None),
        ("a place at 4 modulo 8", put(last, words[-1] + 4), 11, rela + len(words) - 1, None),
        ("a packed place in read-only memory", put(last, 0x100), 11, rela + len(words) - 1, None),
        ("a RELA place packed", put(last, m.rela[1][0]), 11, rela + len(words) - 1, None),
        ("a packed place twice", put(last, place), 11, rela + len(words) - 1, None),
        ("the packed place of a RELA entry twice", put(m.offset(m.tag(7)), m.packed[0][1]), 11, rela, None),
        ("loaded bytes of 2^48", put(m.offset(place), 1 << 48), 13, rela + index, taken),
        ("loaded bytes of -8", put(m.offset(place), MASK - 7), 13, rela + index, taken),
    ]:
        path = os.path.join(scratch, "edited.so")
        with open(path, "wb") as out:
            out.write(data)
        choices = choose(len(m.globals())) if examined is not None else []
        loader.refusal(f"{m.name}, {what}", path, BIASES[0], 0x80000, 0x8000, choices, number, position, examined)


def check_long_forms(m, loader, scratch):
    """The packed module with another table of the same globals, in its own data: taken in shortest form alone. The last file
    that is refused stays."""
    entry = lambda tag: first(m.dynamic, lambda d: d[0] == tag)
    dynamic = next(h for h in m.headers if h[0] == "DYNAMIC")[1]
    space, found = m.symtab["space"], m.globals()
    path, each = os.path.join(scratch, "long_form.so"), list(descriptors(found))
    choices = choose(len(found))

    def put(table):
        """The file with this table."""
        expect(len(table) <= space[1], f"{m.name}: no room for a table of {len(table)} bytes")
        data = bytearray(m.bytes)
        for at, part in [
            (m.offset(space[0]), table),
            (dynamic + 16 * entry(GLOBALS) + 8, space[0].to_bytes(8, "little")),
            (dynamic + 16 * entry(GLOBALSSZ) + 8, len(table).to_bytes(8, "little")),
        ]:
            data[at:at + len(part)] = part
        with open(path, "wb") as out:
            out.write(data)

    put(b"".join(each))
    answer, examine, _, _, plane = loader.load(path, BIASES[0], 0x80000, 0x8000, choices)
    expect(answer == examine == len(found) * 256, f"{m.name}, its table elsewhere: answer {answer & 255} at {answer >> 8}")
    expect(plane == expected(m, BIASES[0], 0x80000, choices)[1], f"{m.name}, its table elsewhere: the tag plane differs")
    small, large = [first(found, test) for test in (lambda g: g[1] < 128, lambda g: g[1] >= 128)]
    for k in sorted({0, small, large, len(found) // 2, len(found) - 1}, reverse=True):
        distance, granules = (found[k][0] - (sum(found[k - 1]) if k else 0)) // 16, found[k][1] // 16
        number = distance * 8 + (granules if granules < 8 else 0)
        second = b"" if granules < 8 else encoded(granules - 1)
        forms = [encoded(number, length) + second for length in range(len(encoded(number)) + 1, 11)]
        forms += [encoded(distance * 8) + encoded(granules - 1, length) for length in (1, 2, 3, 10)]
        for form in forms:
            if form == each[k]:
                continue
            put(b"".join(each[:k] + [form] + each[k + 1:]))
            loader.refusal(f"{m.name}, descriptor {k} as {form.hex()}", path, BIASES[0], 0x80000, 0x8000, choices, 16, k)


# Refused modules: number, and where to find the position in readelf's lists.
REFUSED = {
    "refused_long": (1, lambda m: 0),
    "refused_class": (2, lambda m: 4),
    "refused_order": (2, lambda m: 5),
    "refused_machine": (3, lambda m: 0),
    "refused_program": (3, lambda m: 0),
    "refused_object": (3, lambda m: 0),
    "refused_large": (4, lambda m: first(m.headers, lambda h: h[0] == "LOAD" and h[2] + h[4] > LIMIT)),
    "refused_base": (4, lambda m: first(m.headers, lambda h: h[0] == "LOAD" and h[2] + h[4] > LIMIT)),
    "refused_script": (5, lambda m: len(m.headers)),
    "refused_rel": (6, lambda m: first(m.dynamic, lambda d: d[0] == 17)),
    "refused_android": (6, lambda m: first(m.dynamic, lambda d: d[0] == 0)),
    "refused_android_relr": (6, lambda m: first(m.dynamic, lambda d: d[0] == 0)),
    "refused_copy": (6, lambda m: first(m.dynamic, lambda d: d[0] == 23)),
    "refused_call": (6, lambda m: first(m.dynamic, lambda d: d[0] == 23)),
    "refused_ifunc": (6, lambda m: first(m.dynamic, lambda d: d[0] == 23)),
    "refused_many_words": (7, lambda m: 0),
    "refused_relr_many": (15, lambda m: m.packed[MOST - len(m.rela)][0]),
    "refused_many_globals": (9, lambda m: MOST),
    "refused_tls": (10, lambda m: first(m.rela, lambda r: r[4] == "R_AARCH64_TLSDESC")),
    "refused_ifunc_symbolic": (10, lambda m: first(m.rela, lambda r: r[4].startswith("R_AARCH64_IRELATIV"))),
    "refused_absolute": (10, lambda m: first(m.rela, lambda r: m.dynsym[r[2]][4] == "ABS")),
    "refused_undefined": (10, lambda m: first(m.rela, lambda r: m.dynsym[r[2]][4] == "UND")),
    "refused_place": (11, lambda m: first(m.rela, lambda r: r[0] % 8)),
    "refused_text": (11, lambda m: first(m.rela, lambda r: any(h[2] <= r[0] < h[2] + h[4] and not h[5] for h in m.loads))),
    "refused_relr_place": (11, lambda m: m.packed_at(lambda place: place % 8)),
    "refused_relr_text": (11, lambda m: m.packed_at(lambda place: any(h[2] <= place < h[2] + h[4] and not h[5] for h in m.loads))),
}


def check_nine_hour(m, loader):
    """The log's end is the counter's address, and carries the log's tag and not the counter's."""
    length, choices = (m.end() + 15) // 16 * 16, choose(len(m.globals()))
    _, _, _, memory, plane = loader.load(m.path, BIASES[0], length, length // 16, choices)
    lines, age, pointer = (m.symtab[name][0] for name in ("lines", "age", "log_end"))
    word = int.from_bytes(memory[pointer:pointer + 8], "little")
    expect(word & (1 << 56) - 1 == BIASES[0] + age, f"{m.name}: the counter does not stand behind the log")
    expect(word >> 56 == plane[lines // 16] != plane[age // 16], f"{m.name}: the log's end carries tag {word >> 56}")


def check_packed_end(m, loader):
    """A packed word has the tag of the granule that it points at: the end of data without tags may be a tagged global."""
    length, choices = (m.end() + 15) // 16 * 16, choose(len(m.globals()))
    _, _, _, memory, plane = loader.load(m.path, BIASES[0], length, length // 16, choices)
    place, end = m.symtab["limits_end"][0], m.symtab["limits"][0] + 16
    word = int.from_bytes(memory[place:place + 8], "little")
    expect(any(place == packed for _, packed in m.packed), f"{m.name}: limits_end is not packed")
    expect(word == BIASES[0] + end | plane[end // 16] << 56 and word >> 56, f"{m.name}: limits_end is {word:#x}")


def main():
    readelf, scratch, folder, programs, _, *emulator = sys.argv[1:]
    loader = Loader(emulator + [os.path.join(programs, "load_file")], scratch)
    writer = Writer(emulator + [os.path.join(programs, "write_file")])
    modules = [Module(readelf, os.path.join(at, name)) for at, _, names in sorted(os.walk(folder)) for name in sorted(names) if name.endswith(".so")]
    seen, units, tables, described = set(), set(), 0, 0
    for m in modules:
        name = m.name.split("/")[1]
        seen.add(name)
        tables += bool(m.table())
        described += len(m.globals())
        check_table(m, writer)
        if name in REFUSED:
            number, position = REFUSED[name]
            loader.refusal(m.name, m.path, BIASES[0], 0x80000, 0x8000, [], number, position(m))
        else:
            check_taken(m, loader)
            if name != "packed_far":
                check_biases(m, loader)
            units.add(m.unit())
            expect(len(m.packed) >= WITH_PACKED.get(name, 0), f"{m.name}: {len(m.packed)} packed places")
            expect(name in WITH_PACKED or not m.packed, f"{m.name}: {len(m.packed)} packed places, none was expected")
        if name == "aligned":
            expect(m.unit() == 0x20000 > m.loads[-1][6], f"{m.name}: the aligns are {[h[6] for h in m.loads]}")
        if name == "pointers":
            check_late_refusals(m, loader)
        if m.name == "4096/pointers":
            check_edits(m, loader, scratch)
        if name == "packed":
            check_packed_end(m, loader)
        if m.name == "4096/packed":
            check_packed_edits(m, loader, scratch)
            check_long_forms(m, loader, scratch)
        if name == "nine_hour":
            check_nine_hour(m, loader)
        if m.name == "4096/nine_hour":
            check_far_aligns(m, loader, scratch, readelf)
    expect(seen == set(REFUSED) | set(MEANT), f"modules missing: {sorted((set(REFUSED) | set(MEANT)) ^ seen)}")
    expect(tables > 0, "no module has a table")
    expect(units == {4096, 16384, 65536, 0x20000}, f"largest aligns: {sorted(units)}")
    print(f"{len(modules)} modules, {tables} tables of {described} descriptors, all in shortest form, written again, {checks} checks")


main()
