#!/usr/bin/env python3
"""Makes the sample images of samples/: flash regions of 983,040 bytes, always the same.

Header, records, key and rows are laid out here from document 01, independently
of the core and of the Rust."""

import argparse
import datetime
import os
import struct
import subprocess
import sys
import zlib

ROOT = os.path.dirname(os.path.dirname(os.path.abspath(__file__)))
FOLDER = os.path.join(ROOT, "samples")
BANK = 491_520
SECTOR = 4096
CAPACITY = BANK - SECTOR
REGION = 2 * BANK
DUMP = 4_194_304
AT = 0x300000
COMMIT = 0x434F4D54
UNKNOWN = -(1 << 63)
SIZES = {1: 160, 2: 352, 3: 384}
TABLES = ["routes", "stops", "trips", "stop_times", "calendar", "calendar_dates", "feed_info",
          "transfers"]
COLUMNS = [
    "route_id,route_short_name,route_type",
    "stop_id,stop_code,stop_name",
    "route_id,service_id,trip_id,trip_headsign,direction_id",
    "trip_id,stop_id,stop_sequence,arrival_time,departure_time,pickup_type,drop_off_type,"
    "stop_headsign",
    "service_id,monday,tuesday,wednesday,thursday,friday,saturday,sunday,start_date,end_date",
    "service_id,date,exception_type",
    "feed_start_date,feed_end_date",
    "from_stop_id,to_stop_id,transfer_type,min_transfer_time,from_route_id,to_route_id,"
    "from_trip_id,to_trip_id",
]
CHECKED = 1_790_000_000

# The selection that most images are for; tools/compare-images can ask for it.
IDENTITY = b"mdb-1078 Europe/Oslo"
PICKS = [(b"7", b"r7", b"", b"s1", b"Central Station"), (b"12", b"r12", b"4102", b"s2", b"Harbour")]


def key(identity, picks):
    distinct = sorted({(line, route, code, stop, b"" if code else name)
                       for line, route, code, stop, name in picks})
    out = b"" if not identity else b"\xff" + struct.pack("<H", len(identity)) + identity
    out += bytes([len(distinct)])
    for pick in distinct:
        for field in pick:
            out += bytes([len(field)]) + field
    return out


def row(values):
    def quoted(value):
        if any(c in value for c in '",\r\n'):
            return '"%s"' % value.replace('"', '""')
        return value
    return (",".join(map(quoted, values)) + "\n").encode()


def table(t, rows):
    return (COLUMNS[t] + "\n").encode() + b"".join(map(row, rows))


def rows(t, city, trips):
    """Some rows of a table."""
    if t == 0:
        return [("r7", "7", "0"), ("r12", "12", "3")]
    if t == 1:
        return [("s1", "", "Central Station"), ("s2", "4102", "Harbour"),
                ("s3", "4103", 'The "Old" Bridge, %s' % city)]
    if t == 2:
        return [("r7" if i % 2 else "r12", "wk", "t%d" % i, "%s, north" % city, str(i % 2))
                for i in range(trips)]
    if t == 3:
        return [("t%d" % i, "s1" if i % 2 else "s2", "1",
                 "%02d:%02d:00" % (5 + i // 60 % 20, i % 60),
                 "%02d:%02d:30" % (5 + i // 60 % 20, i % 60), "", "", "") for i in range(trips)]
    if t == 4:
        return [("wk", "1", "1", "1", "1", "1", "0", "0", "20260101", "20261231")]
    if t == 5:
        return [("wk", "20260501", "2"), ("wk", "20260517", "2")]
    if t == 6:
        return [("20260101", "20261231")]
    return [("s1", "s2", "2", "180", "", "", "", "")]


class Source:
    """A record; blocks are set when its tables are laid out."""

    def __init__(self, start=20260101, end=20261231, updated=CHECKED - 90_000, tables=range(7),
                 city="Oslo", trips=12, identity=b"mdb-1078", stamp=b"202601020304",
                 validator=b'\x12\x01"5f3e-61a2b3c4d5"', texts=None):
        self.start, self.end, self.updated = start, end, updated
        self.tables, self.city, self.trips = list(tables), city, trips
        self.present = sum(1 << t for t in self.tables)
        self.original = [(0, 0)] * 8
        self.blocks = [(0, 0, 0)] * 8
        self.stamp, self.identity, self.validator = stamp, identity, validator
        self.texts = texts or {}

    def lay(self, data):
        data += struct.pack("<II", self.start, self.end)
        for t in self.tables:
            text = self.texts.get(t) or table(t, rows(t, self.city, self.trips))
            self.blocks[t] = (len(data), len(text), zlib.crc32(text))
            whole = text + b"more rows of the whole feed\n" * (t + 1)
            self.original[t] = (zlib.crc32(whole), len(whole) * 100)
            data += text

    def record(self, version):
        tables = 8 if version == 3 else 7
        out = struct.pack("<IIIq", self.start, self.end, self.present, self.updated)
        for crc, size in self.original[:tables]:
            out += struct.pack("<II", crc, size)
        for block in self.blocks[:tables]:
            out += struct.pack("<III", *block)
        if version > 1:
            out += self.stamp + bytes([len(self.identity)]) + self.identity.ljust(80, b"\0")
            out += self.validator.ljust(66, b"\0")
        return out.ljust(SIZES[version], b"\0")


class Bank:
    """One bank; any field can be set to something wrong before it is made."""

    def __init__(self, generation, sources=None, version=3, words=None, **fields):
        self.sources = sources if sources is not None else [Source()]
        self.version, self.generation = version, generation
        words = key(IDENTITY, PICKS) if words is None else words
        data = bytearray(words)
        for source in self.sources:
            source.lay(data)
        self.data = data
        self.magic, self.commit = b"TTFC", COMMIT
        self.length, self.crc = len(data), zlib.crc32(data)
        self.count, self.key_length = len(self.sources), len(words)
        self.checked, self.spare, self.seal = CHECKED, 0, None
        self.past = {}
        for name, value in fields.items():
            setattr(self, name, value)

    def header(self):
        records = b""
        for i in range(3):
            size = SIZES.get(self.version, 384)
            if i in self.past:
                records += self.past[i].ljust(size, b"\0")[:size]
            elif i < len(self.sources):
                records += self.sources[i].record(self.version if self.version in SIZES else 3)
            else:
                records += bytes(size)
        out = self.magic + struct.pack(
            "<IIIIIIIq", self.version, self.generation, self.length, self.crc, self.count,
            self.key_length, self.spare, self.checked)
        seal = zlib.crc32(out + bytes(8) + records) if self.seal is None else self.seal
        return out + struct.pack("<II", seal, self.commit) + records

    def bytes(self):
        return self.header().ljust(SECTOR, b"\xff") + bytes(self.data).ljust(CAPACITY, b"\xff")


ERASED = b"\xff" * BANK


def good(generation, version=3, trips=12, **fields):
    second = Source(20260601, 20270331, city="Bergen", trips=8, identity=b"mdb-2031",
                    tables=range(8 if version >= 3 else 7))
    return Bank(generation, [Source(trips=trips), second], version, **fields)


def with_source(generation, **fields):
    """A bank whose first record has these fields, its header CRC right."""
    bank = Bank(generation)
    for name, value in fields.items():
        setattr(bank.sources[0], name, value)
    return bank


def block(generation, offset, length):
    bank = Bank(generation)
    bank.sources[0].blocks[7] = (offset, length, 0)
    return bank


def flipped(bank, place, bit=0):
    out = bytearray(bank.bytes())
    out[place] ^= 1 << bit
    return bytes(out)


def cut(generation, data):
    """A bank whose update was cut: header sector erased, some pages written."""
    return b"\xff" * SECTOR + bytes(data).ljust(CAPACITY, b"\xff")


def ticket():
    """A good header over rows of two timetables: the new one's up to a page's end, then the old one's."""
    new, before = Bank(12, [Source(trips=40)]), Bank(10, [Source(trips=40, city="Bergen")])
    length = 768
    new.data[length:] = before.data[length:new.length]
    return Bank(11, [Source(trips=24)]), new


def full():
    bank = Bank(21, [Source(trips=12)])
    text = bytearray(table(3, []))
    i = 0
    while True:
        line = row(("t%d" % i, "s1", "1", "%02d:%02d:00" % (5 + i // 60 % 20, i % 60), "", "", "", ""))
        if len(bank.data) + len(text) + len(line) > CAPACITY:
            break
        text += line
        i += 1
    spare = CAPACITY - len(bank.data) - len(text)
    text = text[:-1] + b"x" * spare + b"\n"
    bank.sources[0].blocks[3] = (len(bank.data), len(text), zlib.crc32(text))
    bank.data += text
    bank.length, bank.crc = len(bank.data), zlib.crc32(bank.data)
    assert bank.length == CAPACITY
    return bank


def crlf(text):
    """A table's text with CRLF for each LF outside quotes."""
    parts = text.split(b'"')
    return b'"'.join(part.replace(b"\n", b"\r\n") if i % 2 == 0 else part for i, part in enumerate(parts))


def depot():
    """The tables of an office's export: rows end in CRLF, but for one names line and one last row."""
    stops = rows(1, "Oslo", 0) + [("s4", "4104", "Quay\rEast"), ("s5", "4105", "Pier\r\nWest, gate 2")]
    texts = {t: crlf(table(t, rows(t, "Oslo", 12))) for t in range(7)}
    names = (COLUMNS[1] + "\n").encode()
    texts[1] = names + crlf(table(1, stops)[len(names):])
    texts[2] = texts[2][:-2] + b"\n"
    return Source(texts=texts)


def lone_cr():
    """A stop whose name has a CR without quotes, between two others."""
    first, second, third = rows(1, "Oslo", 0)
    return Source(texts={1: table(1, [first]) + row(second).replace(b"Harbour", b"Har\rbour") + row(third)})


def three_sources():
    return [Source(20260101, 20260630, updated=CHECKED - 500),
            Source(20260615, 20260815, updated=UNKNOWN, city="Bergen"),
            Source(20260101, 20261231, updated=0, city="Hamar", tables=[0, 1, 2, 3])]


def noise(length):
    return b"".join(struct.pack("<I", zlib.crc32(b"%d" % i)) for i in range(length // 4))


LONG_IDENTITY = b"identity " * 7281 + b"ending"
LONG_PICKS = [(b"line%04d" % i, b"r" * 32, b"", b"s" * 32, b"n" * 64) for i in range(16)]
OK = "passes"
REFUSAL_WORDS = {3: "mark", 4: "seal", 5: "span", 6: "source", 7: "data"}
REFUSED = {n: "refusal %d %s" % (n, word) for n, word in REFUSAL_WORDS.items()}
SECTORS = BANK // SECTOR
LAST = (1 << 32) - 1
HALF = 1 << 31


def plain():
    return [
        ("fresh", "a region never written: all bytes 255", ERASED, ERASED, REFUSED[3], REFUSED[3], None),
        ("two-good", "two good banks, two sources each, a key of an identity and two picks",
         good(7, trips=9), good(8), OK, OK, 1),
        ("one-good", "one good bank, the other never written", Bank(0), ERASED, OK, REFUSED[3], 0),
    ]


def refusals():
    """One bank refused by each number, then both."""
    bad = {
        3: [good(9, magic=b"TTFB"), good(8, version=4)],
        4: [good(9, seal=0), flipped(Bank(8), 48 + 2 * 384 + 7)],
        5: [good(9, checked=-1), good(8, count=4)],
        6: [with_source(9, start=20260229), block(8, LAST, 2)],
        7: [flipped(good(9), SECTOR + 200), flipped(Bank(8), SECTOR + Bank(8).length - 1, 7)],
    }
    why = {3: "magic wrong", 4: "header CRC wrong", 5: "checked time below 0",
           6: "start date 20260229", 7: "one bit of the data flipped"}
    both = {3: "magic wrong; version 4", 4: "header CRC wrong; a bit flipped in a record past the count",
            5: "checked time below 0; four sources", 6: "start date 20260229; block at 4294967295 of length 2",
            7: "a bit flipped in the data; the last data bit flipped"}
    one = [("refusal-%d" % n, why[n] + "; the other bank good and older",
            bad[n][0], good(8), REFUSED[n], OK, 1) for n in range(3, 8)]
    return one + [("both-%d" % n, both[n], bad[n][0], bad[n][1], REFUSED[n], REFUSED[n], None)
                  for n in range(3, 8)]


def generations():
    return [
        ("generation-0-after-last", "0 is newer than 4294967295", good(LAST), Bank(0), OK, OK, 1),
        ("generation-last-before-0", "0 is newer than 4294967295, banks swapped",
         Bank(0), good(LAST), OK, OK, 0),
        ("generation-equal", "equal generations: bank 0", good(5), Bank(5), OK, OK, 0),
        ("generation-half-above", "generations 2147483648 apart: bank 0", good(0), Bank(HALF), OK, OK, 0),
        ("generation-half-below", "generations 2147483648 apart, banks swapped: bank 0",
         good(HALF), Bank(0), OK, OK, 0),
        ("generation-of-bad", "the newer generation is in a bad bank", good(3),
         good(4, crc=0), OK, REFUSED[7], 0),
    ]


def cuts():
    return [
        ("cut-in-data", "an update cut after two pages of data", good(3),
         cut(4, Bank(4).data[:512]), OK, REFUSED[3], 0),
        ("cut-before-commit", "an update cut before its commit word", good(3),
         Bank(4, commit=LAST), OK, REFUSED[3], 0),
    ]


def versions():
    return [
        ("version-1", "a bank of version 1", good(1, version=1), ERASED, OK, REFUSED[3], 0),
        ("version-2", "a bank of version 2", good(1, version=2), ERASED, OK, REFUSED[3], 0),
        ("version-3", "a bank of version 3", good(1), ERASED, OK, REFUSED[3], 0),
        ("versions-1-and-2", "a bank of version 2 after one of version 1", good(1, version=1),
         good(2, version=2), OK, OK, 1),
    ]


def present_bit_7():
    bank = Bank(2, version=1)
    bank.sources[0].present = 255
    return bank


def long_id():
    bank = Bank(2)
    record = bytearray(bank.sources[0].record(3))
    record[192] = 200
    bank.past = {0: bytes(record)}
    return bank


def passing():
    """Unusual fields that pass."""
    return [
        ("three-sources", "three sources; days in common, one updated time unknown, one 0",
         Bank(2, three_sources()), ERASED, OK, REFUSED[3], 0),
        ("record-past-count", "garbage in the records past the count, header CRC right",
         Bank(2, past={1: noise(384), 2: noise(384)[::-1]}), ERASED, OK, REFUSED[3], 0),
        ("present-bit-7", "present bit 7 in version 1, which has no table 7", present_bit_7(), ERASED, OK,
         REFUSED[3], 0),
        ("empty-block-anywhere", "an empty table at offset 4294967295", block(2, LAST, 0), ERASED,
         OK, REFUSED[3], 0),
        ("bytes-28-31", "header bytes 28 to 31 not zero, header CRC right", good(2, spare=0xDEADBEEF),
         ERASED, OK, REFUSED[3], 0),
        ("id-length-200", "an id length over 80 in a stored record", long_id(), ERASED, OK, REFUSED[3], 0),
    ]


def contents():
    return [
        ("ticket-41", "a good header over mixed rows: the header alone would give bank 1, load refuses "
         "it; bank 0 holds the timetable last committed", *ticket(), OK, REFUSED[7], 0),
        ("full-bank", "487424 bytes of data", full(), ERASED, OK, REFUSED[3], 0),
        ("crlf-rows", "a depot's tables: rows that end in CRLF, but for one names line and one last row; CR and CRLF "
         "inside quotes", Bank(2, [depot()]), ERASED, OK, REFUSED[3], 0),
        ("lone-cr", "a stop's name with a CR outside quotes: its row is malformed", Bank(2, [lone_cr()]), ERASED, OK,
         REFUSED[3], 0),
        ("longest-key", "a key of 67795 bytes", Bank(2, words=key(LONG_IDENTITY, LONG_PICKS)), ERASED, OK,
         REFUSED[3], 0),
    ]


def images():
    """Name, what it shows, both banks, the expected answer for each, the bank that load gives."""
    return plain() + refusals() + generations() + cuts() + versions() + passing() + contents()


def region(a, b):
    out = b"".join(part if isinstance(part, bytes) else part.bytes() for part in (a, b))
    assert len(out) == REGION
    return out


def readme(listed):
    lines = [
        "# Sample images",
        "",
        "Flash regions of 983,040 bytes, for `inspect` and for comparing it with the Rust (docs/INSPECT.md).",
        "`tools/samples.py` makes them and this table; `tools/samples.py --check` says whether they are what it",
        "makes, and `tools/samples.py --ask PROGRAM` whether an inspect program prints what was put into them,",
        "line by line, with freshness and match.",
        "`tools/samples.py --dump FILE` writes a whole flash dump, with two-good in it.",
        "",
        "| image | what it shows | bank 0 | bank 1 | load |",
        "|---|---|---|---|---|",
    ]
    for name, what, _, _, a, b, load in listed:
        lines.append("| `%s.img` | %s | %s | %s | %s |" % (
            name, what, a, b, "none" if load is None else "bank %d" % load))
    picks = " ".join("--pick " + " ".join("'%s'" % f.decode() for f in pick) for pick in PICKS)
    lines += [
        "",
        "Every bank there but longest-key's holds the key of this selection, which `inspect` matches with",
        "",
        "    --identity '%s' %s" % (IDENTITY.decode(), picks),
        "",
        "The checked time of good banks is %d, so freshness can be asked for with" % CHECKED,
        "",
        "    " + " ".join(ASKED),
        "",
    ]
    return "\n".join(lines).encode()


def made():
    listed = images()
    files = {name + ".img": region(a, b) for name, _, a, b, *_ in listed}
    files["README.md"] = readme(listed)
    return files


def check(folder):
    files, bad = made(), 0
    there = set(os.listdir(folder)) if os.path.isdir(folder) else set()
    for name in sorted(there | set(files)):
        if name not in files:
            why = "isn't made here"
        elif name not in there:
            why = "is missing"
        else:
            with open(os.path.join(folder, name), "rb") as handle:
                why = None if handle.read() == files[name] else "differs"
        if why:
            print("%s %s" % (name, why))
            bad += 1
    print("%d files, %d not as made" % (len(files), bad))
    return 1 if bad else 0


DAYS = [20260601, 20260602, 20270101]
ASKED = ["--now", str(CHECKED), "--days", ",".join(map(str, DAYS))]


def selection(name):
    """The options that select what is in an image."""
    identity, picks = (LONG_IDENTITY, LONG_PICKS) if name == "longest-key" else (IDENTITY, PICKS)
    out = ["--identity", identity.decode()]
    for pick in picks:
        out += ["--pick"] + [field.decode() for field in pick]
    return out


def share(length):
    """A length's share of the capacity, in percent, rounded down."""
    hundredths = length * 10_000 // CAPACITY
    return "%d.%02d %%" % (hundredths // 100, hundredths % 100)


def time(seconds):
    """A time with its date, where datetime has one after 1970."""
    if seconds == UNKNOWN:
        return "unknown"
    if seconds < 0:
        return str(seconds)
    date = datetime.datetime(1970, 1, 1) + datetime.timedelta(seconds=seconds)
    return "%d (%s UTC)" % (seconds, date.isoformat(" "))


def day(number):
    try:
        return datetime.date(number // 10000, number // 100 % 100, number % 100).isoformat()
    except ValueError:
        return str(number)


def numbers(raw):
    """The numbers of a header's bytes."""
    version, generation, length, crc, count, key_length, _, checked = struct.unpack("<IIIIIIIq", raw[4:40])
    return "version %d, generation %d, data length %d (%s of %d), data crc %08x, sources %d, key length %d, checked %s" % (
        version, generation, length, share(length), CAPACITY, crc, count, key_length, time(checked))


def header_crc(raw):
    size = SIZES.get(struct.unpack("<I", raw[4:8])[0], SIZES[3])
    return zlib.crc32(raw[:40] + bytes(8) + raw[48:48 + 3 * size])


def state(raw, refusal):
    """What happened to a refused bank, from its bytes; and whether its header is whole."""
    magic, commit = raw[:4] == b"TTFC", struct.unpack("<I", raw[44:48])[0]
    written = [k for k in range(SECTORS) if raw[k * SECTOR:(k + 1) * SECTOR].strip(b"\xff")]
    if refusal == 4:
        return "committed, header damaged", False
    if refusal == 5:
        return "sealed, a number of the header out of its range", False
    if refusal == 6:
        return "sealed, a source's record out of its range", False
    if refusal == 7:
        return "sealed, data damaged", True
    if not written:
        return "erased", None
    if 0 not in written:
        return "header erased, bytes written up to sector %d of %d" % (written[-1], SECTORS - 1), None
    if commit == COMMIT:
        return "committed, version not known" if magic else "committed, magic damaged", False
    if not magic or struct.unpack("<I", raw[40:44])[0] != header_crc(raw):
        return "header not whole, commit word missing", False
    return "header written, commit word missing" if commit == LAST else "header written, commit word not whole", True


def refused(raw, word):
    """The line on a refused bank."""
    words, whole = state(raw, int(word.split()[1]))
    if whole is None:
        return "%s: %s" % (word, words)
    length = struct.unpack("<I", raw[12:16])[0]
    data = ", computed data crc %08x" % zlib.crc32(raw[SECTOR:SECTOR + length]) if whole else ""
    return "%s: %s; not trusted: %s%s, header crc %08x, computed header crc %08x" % (
        word, words, numbers(raw), data, struct.unpack("<I", raw[40:44])[0], header_crc(raw))


def freshness(bank):
    """Checked and updated time for DAYS at CHECKED, by Bank::fresh's rule."""
    left, used = set(DAYS), []
    for source in bank.sources:
        days = {d for d in left if source.start <= d <= source.end}
        if days:
            used.append(source.updated)
            left -= days
    known = used and all(0 <= updated <= CHECKED for updated in used)
    return bank.checked, min(used) if known else None


def lines(bank):
    """What is printed of the bank that load gives."""
    words = bytes(bank.data[:bank.key_length])
    out = ["key %d: %s" % (i, words[i:i + 32].hex(" ")) for i in range(0, len(words), 32)]
    identity, picks = (LONG_IDENTITY, LONG_PICKS) if words == key(LONG_IDENTITY, LONG_PICKS) else (IDENTITY, PICKS)
    out.append('identity: "%s"' % identity.decode())
    stored = sorted((line, route, code, stop, b"" if code else name) for line, route, code, stop, name in picks)
    out += ["pick %d: %s" % (i, ",".join('"%s"' % field.decode() for field in pick)) for i, pick in enumerate(stored)]
    for i, source in enumerate(bank.sources):
        present = [name for t, name in enumerate(TABLES) if source.present >> t & 1]
        out.append("source %d: start %s, end %s, updated %s, present %s" % (
            i, day(source.start), day(source.end), time(source.updated), " ".join(present) or "none"))
        for t in range(8 if bank.version == 3 else 7):
            (offset, length, crc), (original, size) = source.blocks[t], source.original[t]
            if length or original or size:
                out.append("source %d %s: offset %d, length %d (%s), crc %08x, original crc %08x, "
                           "original length %d" % (i, TABLES[t], offset, length, share(length), crc, original, size))
    checked, updated = freshness(bank)
    out.append("fresh: checked %s, updated %s" % (time(checked), "unknown" if updated is None else time(updated)))
    return out + ["match: yes"]


def expected(image, banks, meant, load):
    """The lines that an inspect program should print."""
    out = ["image: %s" % image, "region: %d bytes" % REGION]
    for i, (bank, word) in enumerate(zip(banks, meant)):
        raw = bank if isinstance(bank, bytes) else bank.bytes()
        out.append("bank %d: %s" % (i, numbers(raw) if word == OK else refused(raw, word)))
    if load is None:
        return out + ["load: none", "fresh: no bank", "match: no bank"]
    return out + ["load: bank %d" % load] + lines(banks[load])


def ask(folder, program):
    """Whether the program prints what was put into each image."""
    bad = 0
    listed = images()
    for name, _, a, b, first, second, load in listed:
        image = os.path.join(folder, name + ".img")
        run = subprocess.run([program, *ASKED, *selection(name), image], text=True,
                             stdout=subprocess.PIPE)
        got = run.stdout.split("\n")
        want = expected(image, (a, b), (first, second), load) + [""]
        if run.returncode == 0 and got == want:
            continue
        bad += 1
        at = next((i for i, pair in enumerate(zip(got, want)) if pair[0] != pair[1]), min(len(got), len(want)))
        print("%s: exit status %d, line %d" % (name, run.returncode, at + 1))
        print("  meant: %s" % "".join(want[at:at + 1]))
        print("  found: %s" % "".join(got[at:at + 1]))
    print("%d images, %d not found as meant" % (len(listed), bad))
    return 1 if bad else 0


def write(path, data):
    os.makedirs(os.path.dirname(os.path.abspath(path)), exist_ok=True)
    with open(path, "wb") as handle:
        handle.write(data)


def main():
    parser = argparse.ArgumentParser(
        prog="tools/samples.py", description="Makes the sample images of samples/ and their table.",
        epilog="Without an option all images are written. Exit status: 0 done, 1 a file isn't as made or "
        "a program says another thing.")
    parser.add_argument("--folder", metavar="DIR", default=FOLDER, help="default: samples/")
    what = parser.add_mutually_exclusive_group()
    what.add_argument("--check", action="store_true", help="say whether the files are what is made here")
    what.add_argument("--ask", metavar="PROGRAM",
                      help="run an inspect program on the images and compare what it prints with what was put into them")
    what.add_argument("--dump", metavar="FILE",
                      help="write a whole flash dump of 4194304 bytes, with two-good at 0x300000")
    options = parser.parse_args()
    if options.check:
        return check(options.folder)
    if options.ask:
        return ask(options.folder, options.ask)
    if options.dump:
        inside = made()["two-good.img"]
        write(options.dump, b"\xff" * AT + inside + b"\xff" * (DUMP - AT - REGION))
        return 0
    files = made()
    for name, data in files.items():
        write(os.path.join(options.folder, name), data)
    print("%d files written" % len(files))
    return 0


if __name__ == "__main__":
    sys.exit(main())
