#!/usr/bin/env python3
# Python's csv module and the programs `export` and `import` understand each other: it reads what is exported as the fractions that
# were stored, and what it writes, in each of its quoting styles, is imported as them, byte by byte. Prints what does not hold; ends
# with 1 where anything does not. The programs are those in target/bin, or in the folder that is named.
import csv
import io
import random
import subprocess
import sys
from fractions import Fraction

FOLDER = sys.argv[1] if len(sys.argv) > 1 else "target/bin"
SEED = 20261116
DRAWN = 24
LARGEST = 2**32 - 1
HEADING = ["phase", "period", "duration"]
STYLES = {name: getattr(csv, name) for name in dir(csv) if name.startswith("QUOTE_")}

failed = 0


def holds(so, words):
    """Counts and prints what does not hold."""
    global failed
    if not so:
        print(f"tests/listings.py: {words}")
        failed += 1


def run(program, given):
    """What a program writes to standard output, and what it says on standard error."""
    done = subprocess.run([f"{FOLDER}/{program}"], input=given, capture_output=True, timeout=60)
    return done.stdout, done.stderr.decode()


# ---- tables


def stored(table):
    """The stored table of some trains, as the paper lays it out; a Fraction is in lowest terms."""
    times = [time for train in table for time in train]
    numbers = [number for time in times for number in (time.numerator, time.denominator)]
    head = b"STT" + (1).to_bytes(2, "big") + len(table).to_bytes(2, "big")
    return head + b"".join(number.to_bytes(4, "big") for number in numbers)


def drawn_time(draw):
    most = draw.choice([3, 100, LARGEST])
    return Fraction(draw.randint(1, most), draw.choice([1, 1, 13, draw.randint(1, most)]))


def drawn_train(draw):
    duration, period = sorted([drawn_time(draw), drawn_time(draw)])
    return [draw.choice([Fraction(0), drawn_time(draw)]), period, duration]


def tables():
    """The table of README.md, none, one at the limits of its numbers, and drawn ones."""
    draw = random.Random(SEED)
    thirteenth = Fraction(1, 13)
    yield [[0 * thirteenth, 36 * thirteenth, 12 * thirteenth], [12 * thirteenth, 72 * thirteenth, 12 * thirteenth]]
    yield []
    yield [[Fraction(LARGEST, LARGEST - 1), Fraction(LARGEST), Fraction(1, LARGEST)]] * 64
    for _ in range(DRAWN):
        yield [drawn_train(draw) for _ in range(draw.choice([1, 2, 3, 5, 20, 64]))]


# ---- texts


def written(records, **form):
    """The text that csv.writer writes."""
    out = io.StringIO(newline="")
    csv.writer(out, **form).writerows(records)
    return out.getvalue().encode()


def plain(table):
    return [HEADING] + [[str(time) for time in train] for train in table]


def spelled(draw, time):
    """A time as a number or as a string, in lowest terms or not, or with zeros before it."""
    n, m = time.numerator, time.denominator
    factor = draw.randint(1, LARGEST // max(n, m))
    whole = [n, str(n)] if m == 1 else []
    return draw.choice(whole + [f"{n}/{m}", f"{n * factor}/{m * factor}", f"000{n}/0{m}"])


def spelled_records(draw, table):
    """The records of a table, its times spelled somehow, and some phases of 0 blank."""
    records = [[spelled(draw, time) for time in train] for train in table]
    for record, train in zip(records, table):
        if train[0] == 0 and draw.random() < 0.5:
            record[0] = draw.choice(["", None])
    return [HEADING] + records


# ---- what has to hold


def read(table):
    """What is exported is what csv.writer writes, and csv.reader reads it as the fractions; it is imported as the table, also
    without its last CRLF."""
    text, said = run("export", stored(table))
    fields = list(csv.reader(io.StringIO(text.decode(), newline=""), strict=True))
    holds(said == "", f"export says {said!r} of {table}")
    holds(fields == plain(table), f"csv.reader reads {fields} of {table}")
    holds(text == written(plain(table)), f"export writes {text!r} of {table}")
    for end in (text, text[:-2]):
        holds(run("import", end) == (stored(table), ""), f"{end!r} is not imported as {table}")


def imported(draw, table):
    """What csv.writer writes is imported as the table, in each quoting style."""
    for name, style in STYLES.items():
        text = written(spelled_records(draw, table), quoting=style)
        holds(run("import", text) == (stored(table), ""), f"{name}: {text!r} is not imported as {table}")


def refused(record, text):
    """A text is refused for that record, and nothing is written."""
    got = run("import", text)
    holds(got == (b"", f"refuse 18 {record}\n"), f"{text!r} is not refused for record {record}: {got}")


def habits():
    """What spreadsheets and programs write in other countries and on other systems is no listing, and it is not guessed at."""
    records = plain([[Fraction(0), Fraction(36, 13), Fraction(12, 13)]])
    refused(1, written(records, lineterminator="\n"))
    refused(1, written(records, lineterminator="\r"))
    refused(1, written(records, delimiter=";"))
    refused(1, written(records, delimiter="\t"))
    refused(1, written(records, quotechar="'", quoting=csv.QUOTE_ALL))
    refused(1, b"\xef\xbb\xbf" + written(records))
    refused(1, written(records[1:]))
    refused(1, b"")
    refused(2, written(records[:1] + [["0", "2,5", "1"]]))
    refused(2, written(records[:1] + [["0", "2.5", "1"]]))
    refused(2, written(records[:1] + [[0, 2.5, 1]]))
    refused(2, written(records[:1] + [["0", '"3"', "1"]]))
    refused(2, written(records[:1] + [["0", "3\r\n", "1"]]))
    refused(3, written(records + [[]]))
    refused(3, written(records) + b"\x1a")


def main():
    draw = random.Random(SEED)
    for table in tables():
        read(table)
        imported(draw, table)
    habits()
    return 1 if failed else 0


sys.exit(main())
