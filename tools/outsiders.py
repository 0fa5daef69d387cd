#!/usr/bin/env python3
"""Checks the proved core against independent programs: Python's zlib,
datetime, struct and csv, and the published CRC-32 check values."""

import argparse
import csv
import datetime
import io
import os
import random
import struct
import subprocess
import sys
import tempfile
import zlib

ROOT = os.path.dirname(os.path.dirname(os.path.abspath(__file__)))
ANSWERS = os.path.join(ROOT, "rust", "target", "release", "answers")
DATES = 100_020_001
SHOWN = 5

# Catalogue of CRC algorithms, CRC-32/ISO-HDLC, and widely published values.
PUBLISHED = [
    (b"", 0x00000000),
    (b"a", 0xE8B7BE43),
    (b"abc", 0x352441C2),
    (b"message digest", 0x20159D7F),
    (b"abcdefghijklmnopqrstuvwxyz", 0x4C2750BD),
    (b"123456789", 0xCBF43926),
    (bytes(32), 0x190A55AD),
    (b"\xff" * 32, 0xFF6CAB0B),
    (bytes(range(32)), 0x91267E8A),
    (b"The quick brown fox jumps over the lazy dog", 0x414FA339),
]

# Four bytes whose CRC is 0.
CRC_ZERO = bytes.fromhex("9d0ad96d")


def hexadecimal(data):
    return data.hex() or "-"


def ask(program, requests):
    run = subprocess.run([program], input="\n".join(requests) + "\n", text=True,
                         stdout=subprocess.PIPE)
    answers = run.stdout.split("\n")[:-1]
    if run.returncode != 0 or len(answers) != len(requests):
        sys.exit("outsiders: answers stopped after %d of %d requests" % (
            len(answers), len(requests)))
    return answers


def compare(name, program, cases):
    """Prints one line; cases are (request, expected)."""
    answers = ask(program, [request for request, _ in cases])
    bad = [(request, expected, got) for (request, expected), got in zip(cases, answers)
           if str(expected) != got]
    print("%s: %d compared, %d differ" % (name, len(cases), len(bad)))
    for request, expected, got in sorted(bad, key=lambda b: (len(b[0]), b[0]))[:SHOWN]:
        print("  %s: the core has %s, Python %s" % (request[:200], got, expected))
    return bool(bad)


def published(program, _):
    return compare("published CRCs", program, [
        ("crc 0 " + hexadecimal(data), crc) for data, crc in PUBLISHED])


def crcs(program, rng):
    cases = []
    for length in list(range(301)) + [rng.randrange(6000) for _ in range(1000)] + [487_424]:
        data = rng.randbytes(length)
        start = rng.choice([0, 0xFFFFFFFF, rng.getrandbits(32)])
        cases.append(("crc 0 " + hexadecimal(data), zlib.crc32(data)))
        cases.append(("crc %d %s" % (start, hexadecimal(data)), zlib.crc32(data, start)))
        # continued from the CRC of the bytes before
        at = rng.randrange(length + 1)
        cases.append(("crc %d %s" % (zlib.crc32(data[:at]), hexadecimal(data[at:])),
                      zlib.crc32(data)))
    return compare("CRCs by zlib", program, cases)


def crc_parts(program, rng):
    """CRCs in three and more parts, empty ones among them, compared after each part."""
    def divided(data):
        ends = sorted(rng.randrange(len(data) + 1) for _ in range(rng.randrange(2, 9)))
        parts = [data[a:b] for a, b in zip([0, *ends], [*ends, len(data)])]
        if rng.randrange(2):
            parts.insert(rng.randrange(len(parts) + 1), b"")
        return parts

    def to_zero(data):
        """The four bytes after which the CRC is 0."""
        return struct.pack("<I", zlib.crc32(data) ^ int.from_bytes(CRC_ZERO, "little"))

    abc = b"abc"
    lists = [[b"", b"", b""], [b"", CRC_ZERO, b""], [CRC_ZERO, b"", abc], [b"", abc, CRC_ZERO]]
    for length in [0, 1, 2, 3, 40, *(rng.randrange(3000) for _ in range(500))]:
        data = rng.randbytes(length)
        lists.append(divided(data))
        # a CRC of 0 in the middle
        lists.append([*divided(data), to_zero(data), abc, b""])
        # as the header is summed
        lists.append([rng.randbytes(40), bytes(8), rng.randbytes(length)])
    cases = []
    for parts in lists:
        crc = 0
        for part in parts:
            start, crc = crc, zlib.crc32(part, crc)
            cases.append(("crc %d %s" % (start, hexadecimal(part)), crc))
        cases.append(("crc 0 " + hexadecimal(b"".join(parts)), crc))
    return compare("CRCs in parts by zlib", program, cases)


def dates(program, _):
    expected = bytearray((DATES + 7) // 8)
    day = datetime.date
    for ordinal in range(1, day.max.toordinal() + 1):
        d = day.fromordinal(ordinal)
        number = d.year * 10000 + d.month * 100 + d.day
        expected[number >> 3] |= 1 << (number & 7)
    with tempfile.TemporaryDirectory() as folder:
        path = os.path.join(folder, "dates")
        if subprocess.run([program, "--dates", path]).returncode != 0:
            sys.exit("outsiders: answers didn't write its dates")
        with open(path, "rb") as handle:
            got = handle.read()
    bad, first = 0, []
    if len(got) != len(expected):
        bad = 1
        first.append("  %d bytes, not %d" % (len(got), len(expected)))
    elif got != expected:
        for i, (a, b) in enumerate(zip(got, expected)):
            if a != b:
                for bit in range(8):
                    if (a ^ b) >> bit & 1:
                        bad += 1
                        if len(first) < SHOWN:
                            first.append("  %d: the core has %d, Python %d" % (
                                i * 8 + bit, a >> bit & 1, b >> bit & 1))
    print("dates by datetime: %d compared (%d dates), %d differ" % (
        DATES, day.max.toordinal(), bad))
    for text in first:
        print(text)
    return bool(bad)


def new_dates(program, rng):
    cases = []
    years = [0, 1, 4, 100, 400, 1900, 2000, 2023, 2024, 2100, 9999, 10000, 65535]
    years += [rng.randrange(1, 10000) for _ in range(100)]
    for year in years:
        for month in list(range(15)) + [255]:
            for day in list(range(34)) + [255]:
                try:
                    datetime.date(year, month, day)
                    number = year * 10000 + month * 100 + day
                except ValueError:
                    number = 0
                cases.append(("new %d %d %d" % (year, month, day), number))
    return compare("new dates by datetime", program, cases)


def large_dates(program, rng):
    """Numbers past those of the file: none is a date."""
    cases = [655_380_101, (1 << 32) - 1] + [rng.randrange(DATES, 1 << 32) for _ in range(50000)]
    # years that are in range modulo 65536
    cases += [(65536 + year) * 10000 + 101 for year in range(1, 10000, 7)]
    return compare("large numbers, no dates", program, [("date %d" % n, 0) for n in cases])


def generations(program, rng):
    corners = sorted({(1 << bit) + near & 0xFFFFFFFF
                      for bit in (0, 16, 30, 31, 32) for near in (-2, -1, 0, 1, 2)})
    pairs = [(a, b) for a in corners for b in corners]
    for _ in range(20000):
        a = rng.getrandbits(32)
        pairs.append((a, rng.getrandbits(32)))
        pairs.append((a, a + (1 << 31) + rng.randrange(-3, 4) & 0xFFFFFFFF))
    cases = [("newer %d %d" % (a, b), int(0 < (a - b) % (1 << 32) < 1 << 31)) for a, b in pairs]
    for a in corners + [rng.getrandbits(32) for _ in range(1000)]:
        cases.append(("next %d" % a, (a + 1) % (1 << 32)))
        cases.append(("rotate %d" % a, (a << 13) % (1 << 32) + (a >> 19)))
    return compare("generations and rotation by whole numbers", program, cases)


def numbers(program, rng):
    cases = []
    for length in range(25):
        for i in list(range(length + 10)) + [(1 << 64) - 1, (1 << 64) - 4, (1 << 64) - 8]:
            data = rng.randbytes(length)
            padded = data[i:] if i < length else b""
            text = hexadecimal(data)
            cases.append(("get %s %d" % (text, i), struct.unpack("<I", padded[:4].ljust(4, b"\0"))[0]))
            cases.append(("time %s %d" % (text, i), struct.unpack("<q", padded[:8].ljust(8, b"\0"))[0]))
            for kind, form, width, value in (
                    ("put", "<I", 4, rng.getrandbits(32)),
                    ("puttime", "<q", 8, rng.getrandbits(64) - (1 << 63))):
                after = bytearray(data)
                if i + width <= length:
                    struct.pack_into(form, after, i, value)
                cases.append(("%s %s %d %d" % (kind, text, i, value), hexadecimal(bytes(after))))
    return compare("numbers and times by struct", program, cases)


FIELDS = (8, 32, 16, 32, 64)


def key(identity, picks):
    """Document 01's key, or its refusal."""
    if len(picks) > 16 or any(len(f) > size for pick in picks for f, size in zip(pick, FIELDS)):
        return "refusal 2"
    if len(identity) > 65535:
        return "refusal 8"
    distinct = sorted({(line, route, code, stop, b"" if code else name)
                       for line, route, code, stop, name in picks})
    out = b"\xff" + struct.pack("<H", len(identity)) + identity if identity else b""
    out += bytes([len(distinct)])
    return hexadecimal(out + b"".join(bytes([len(f)]) + f for pick in distinct for f in pick))


def keys(program, rng):
    def text(size):
        length = rng.choice([0, 0, 0, 1, 1, 2, rng.randrange(size + 1), size, size + rng.randrange(2)])
        return bytes(rng.choice(b"aab\0\xff") for _ in range(length))

    cases = []
    for i in range(20000):
        identity = rng.randbytes(rng.choice([0, 0, 1, 20, rng.randrange(300)]))
        if i < 4:
            identity = rng.randbytes(65534 + i)
        count = rng.choice([0, 1, 2, 3, 16, 17, rng.randrange(17)]) if i % 10 == 0 else rng.randrange(4)
        picks = [tuple(map(text, FIELDS)) for _ in range(count)]
        picks += [rng.choice(picks) for _ in range(rng.randrange(3)) if picks]
        fields = [f for pick in picks for f in pick]
        cases.append(("key %s %s %s" % (
            hexadecimal(identity), hexadecimal(b"".join(fields)),
            ",".join(str(len(f)) for f in fields) or "-"), key(identity, picks)))
    return compare("keys by sorted sets", program, cases)


LONGEST_ROW = 8192


def values(rng, count):
    """Values of random bytes, with the special ones among them."""
    def one():
        length = rng.choice([0, 1, 1, 2, 3, 5, 8, rng.randrange(40), rng.randrange(400) if rng.random() < .1 else 4])
        kind = rng.choice([b'ab",\r\n ', b'abc 123', b'"', bytes(range(256)), b'a",', b"\r\n", b'"a'])
        return bytes(rng.choice(kind) for _ in range(length))
    return [one() for _ in range(count)]


def written(rows, **how):
    """The rows by Python's csv; a byte is a character of Latin-1."""
    out = io.StringIO(newline="")
    writer = csv.writer(out, **how)
    for row in rows:
        writer.writerow([v.decode("latin-1") for v in row])
    return out.getvalue().encode("latin-1")


def read(table):
    """The rows by Python's csv, up to one that it refuses, whose fault is given as a row."""
    rows = []
    try:
        for row in csv.reader(io.StringIO(table.decode("latin-1"), newline=""), strict=True):
            rows.append([v.encode("latin-1") for v in row])
    except csv.Error as fault:
        rows.append([str(fault).encode()])
    return rows


def handed(row):
    return "%s %s" % (hexadecimal(b"".join(row)), ",".join(str(len(v)) for v in row) or "-")


def columns(program):
    return [int(n) for n in ask(program, ["columns %d" % t for t in range(8)])]


def rows(program, rng):
    """Every row that the core writes is what Python's csv would write, with a
    row end of LF; and Python's csv reads it back."""
    widths = columns(program)
    cases, back = [], []
    for t in range(8):
        line = bytes.fromhex(ask(program, ["names %d" % t])[0])
        table = [values(rng, widths[t]) for _ in range(5000)]
        answers = ask(program, ["row %d %s" % (t, handed(row)) for row in table])
        stored = line + b"".join(bytes.fromhex(a) for a in answers if not a.startswith("refusal"))
        names = line.decode().rstrip("\n").split(",")
        expected = [[n.encode() for n in names]]
        for row, answer in zip(table, answers):
            # a row end of CRLF, so that CR is quoted too
            python = written([row], lineterminator="\r\n")[:-2] + b"\n"
            if len(python) > LONGEST_ROW:
                cases.append((row, "refusal 14", answer))
            else:
                cases.append((row, python.hex(), answer))
                expected.append(row)
        got = read(stored)
        back += list(zip(expected, got))
        if len(got) != len(expected) or len(names) != widths[t]:
            cases.append((table[0], "%d rows" % len(expected), "%d rows" % len(got)))
    bad = [(r, e, g) for r, e, g in cases if e != g] + [(e, e, g) for e, g in back if e != g]
    print("rows by csv: %d written as csv writes them, %d read back by csv, %d differ" % (
        len(cases), len(back), len(bad)))
    for row, expected, got in sorted(bad, key=lambda b: len(b"".join(b[0])))[:SHOWN]:
        print("  %r: the core has %s, Python %s" % (row, str(got)[:200], str(expected)[:200]))
    return bool(bad)


ROW_ENDS = [b"\n", b"\r\n"]


def plain(rng, count):
    """Values without a quote, comma, CR or LF."""
    return [bytes(rng.choice(b"abc 123:;") for _ in range(rng.choice([0, 1, 3, 8, rng.randrange(40)]))) for _ in range(count)]


def stored(row, row_end, how):
    """The row as Python's csv writes it, with this row end. It is asked for CRLF, since then every version of it quotes CR and LF."""
    return written([row], lineterminator="\r\n", quoting=how)[:-2] + row_end


def outside(raw):
    """The offsets of a row at which a byte put in is outside quotes."""
    quotes = 0
    for i, byte in enumerate(raw):
        if quotes % 2 == 0:
            yield i
        quotes += byte == ord('"')


def long_rows():
    """Rows of about 8,192 bytes, the last value with quotes and without, each with its row end; and their values."""
    for size in range(LONGEST_ROW - 2, LONGEST_ROW + 3):
        for row_end in ROW_ENDS:
            for quote in (b"", b'"'):
                value = b"x" * (size - len(b"a," + 2 * quote + row_end))
                yield b"a," + quote + value + quote + row_end, [b"a", value]


def stored_rows(program, rng):
    """Rows that Python's csv wrote, with CRLF and with LF, also with quotes that aren't needed; the same with a CR put in outside quotes; long rows."""
    rows = []
    for _ in range(20000):
        width = rng.randrange(1, 12)
        make = rng.choice([values, plain])
        row, other = make(rng, width), make(rng, width)
        how, row_end = rng.choice([csv.QUOTE_ALL, csv.QUOTE_MINIMAL]), rng.choice(ROW_ENDS)
        before, raw = stored(other, rng.choice(ROW_ENDS), how), stored(row, row_end, how)
        rows.append((before, raw, row, width))
        at = rng.choice([i for i in outside(raw) if raw[i] != ord("\n")])
        rows.append((before, raw[:at] + b"\r" + raw[at:], None, width))
    rows += [(before, raw, row if len(raw) <= LONGEST_ROW else None, 2) for raw, row in long_rows() for before in (b"", b"b,c\r\n")]
    cases = []
    for before, raw, row, width in rows:
        place, end = len(before), len(before) + len(raw)
        table = hexadecimal(before + raw + rng.choice([b"", before, b'"', b"x" * 24]))
        read = " ".join([str(end)] + [hexadecimal(v) for v in row]) if row else "refusal 14"
        cases.append(("read %s %d %d" % (table, width, place), read))
        cases.append(("read %s %d %d" % (table, width + 1, place), "refusal 14"))
    return compare("stored rows by csv", program, cases)


# RFC 4180, section 2: the examples of its rules 1 to 3 and 5 to 7, each a table of rows, with CRLF after each.
ABC, XYZ = (b"aaa,bbb,ccc\r\n", [b"aaa", b"bbb", b"ccc"]), (b"zzz,yyy,xxx\r\n", [b"zzz", b"yyy", b"xxx"])
RFC_EXAMPLES = [
    [ABC, XYZ],
    [(b"field_name,field_name,field_name\r\n", [b"field_name"] * 3), ABC, XYZ],
    [(b'"aaa","bbb","ccc"\r\n', [b"aaa", b"bbb", b"ccc"]), XYZ],
    [(b'"aaa","b\r\nbb","ccc"\r\n', [b"aaa", b"b\r\nbb", b"ccc"]), XYZ],
    [(b'"aaa","b""bb","ccc"\r\n', [b"aaa", b'b"bb', b"ccc"])],
]


def rfc_examples(program, _):
    """The RFC's own rows, at their offsets. Its rule 2, a last row without a row end, isn't document 01's: 14."""
    cases = []
    for table in RFC_EXAMPLES:
        # twice, so that bytes follow each row
        text, place = hexadecimal(b"".join(raw for raw, _ in table * 2)), 0
        for raw, row in table:
            cases.append(("read %s 3 %d" % (text, place), " ".join([str(place + len(raw))] + [hexadecimal(v) for v in row])))
            place += len(raw)
    cases.append(("read %s 3 0" % hexadecimal(b"zzz,yyy,xxx"), "refusal 14"))
    return compare("RFC 4180's examples", program, cases)


def filters(program, rng):
    cases = []
    for size in [0, 1, 2, 3, 7, 100, 16384, 65535, 65536, 65537] + [rng.randrange(1, 3000) for _ in range(200)]:
        ids = [rng.randbytes(rng.randrange(1, 41)) for _ in range(rng.randrange(1, 60))]
        ids += [rng.choice(ids) for _ in range(5)] + [b""]
        if not 1 <= size <= 65536:
            expected = "refusal 2"
        else:
            bits, answers = bytearray(size), ""
            for i in ids:
                crc = zlib.crc32(i)
                step = (crc << 13 | crc >> 19) % (1 << 32) | 1
                places = [(crc + k * step) % (1 << 32) % (8 * size) for k in range(4)]
                there = int(all(bits[p // 8] >> p % 8 & 1 for p in places))
                answers += "%d%d1" % (there, there)
                for p in places:
                    bits[p // 8] |= 1 << p % 8
            expected = "%s %s" % (answers, hexadecimal(bytes(bits)))
        cases.append(("filter %d %s" % (size, ",".join(hexadecimal(i) for i in ids)), expected))
    return compare("filters by zlib's CRC", program, cases)


PARTS = [published, crcs, crc_parts, dates, large_dates, new_dates, generations, numbers, keys, rows, stored_rows, rfc_examples, filters]


def main():
    parser = argparse.ArgumentParser(
        description="Checks the core against Python's zlib, datetime, struct and csv, and the "
        "published CRC-32 values.",
        epilog="Exit status: 0 no difference, 1 differences, 3 the program answers isn't there.")
    parser.add_argument("--answers", metavar="FILE", default=ANSWERS,
                        help="the program answers (default: rust/target/release/answers)")
    parser.add_argument("--seed", type=int, default=1, help="seed of the random inputs")
    options = parser.parse_args()
    if not os.access(options.answers, os.X_OK):
        print("outsiders: no program at %s; build it in rust/ with "
              "`cargo build --release --offline -p answers`" % options.answers, file=sys.stderr)
        return 3
    rng = random.Random(options.seed)
    bad = [part(options.answers, rng) for part in PARTS]
    print("%d parts, %d differ" % (len(bad), sum(bad)))
    return 1 if any(bad) else 0


if __name__ == "__main__":
    sys.exit(main())
