#!/usr/bin/env python3
"""Makes the sheets of this folder, the readable dumps of the worked ones, and the texts of sheets and statements, from the tables below.

Run it anywhere: it writes beside itself. The pages (*.page) are not made here: they are what the sheets have to print.
"""
import pathlib
import struct

FOLDER = pathlib.Path(__file__).resolve().parent

SECTIONS = ["agents", "boundaries", "plants", "contracts"]
FIELDS = {
    "agents": ["kind"],
    "boundaries": ["agent", "factor", "import", "export"],
    "plants": ["agent", "inflexible", "must-run", "price", "availability"],
    "contracts": ["seller", "buyer", "kind", "price", "quantity"],
}

WORKED_HOUR = {
    "agents": [(2,), (1,), (1,), (2,)],
    "boundaries": [(0, 0, 0, 600), (3, 0, 10, 410), (1, 0, 500, 0), (2, 1000, 400, 0)],
    "plants": [(0, 0, 0, 5000, 700), (3, 0, 0, 8000, 500), (0, 1, 0, 9000, 100)],
    "contracts": [(0, 1, 1, 6000, 400), (3, 1, 3, 7000, 100), (0, 1, 3, 7000, 50), (3, 2, 2, 6500, 500)],
}

# contract 2 names agent 1, a retailer, as its seller
MARCH = dict(WORKED_HOUR, contracts=[(0, 1, 1, 6000, 400), (3, 1, 3, 7000, 100), (1, 1, 3, 7000, 50), (3, 2, 2, 6500, 500)])

# plant 2 must run 60 of its 100 kWh, though it is the dearest
MUST_RUN = dict(WORKED_HOUR, plants=[(0, 0, 0, 5000, 700), (3, 0, 0, 8000, 500), (0, 1, 60, 9000, 100)])

# agent 4 is a small generator outside central dispatch: it delivers 100 of the 1,110 kWh, takes 5, and sells 80 to retailer 2
SMALL_GENERATOR = dict(
    WORKED_HOUR,
    agents=[(2,), (1,), (1,), (2,), (3,)],
    boundaries=[(0, 0, 0, 600), (3, 0, 10, 410), (1, 0, 500, 0), (2, 1000, 400, 0), (4, 0, 5, 100)],
    contracts=[(0, 1, 1, 6000, 400), (3, 1, 3, 7000, 100), (0, 1, 3, 7000, 50), (3, 2, 2, 6500, 500), (4, 2, 1, 6400, 80)],
)

# a plant and a contract for every reason that document 02, P3, has
REASONS = dict(
    WORKED_HOUR,
    plants=[(0, 0, 0, 5000, 700), (3, 0, 0, 8000, 500), (0, 1, 60, 9000, 100), (3, 0, 0, 9500, 100), (0, 0, 0, 7000, 0)],
    contracts=[
        (0, 1, 1, 6000, 400),
        (3, 1, 3, 6900, 60),
        (0, 1, 3, 7000, 100),
        (3, 1, 3, 7000, 50),
        (0, 1, 3, 7500, 80),
        (3, 2, 2, 6500, 500),
        (0, 2, 2, 6600, 100),
    ],
)

# plant 2 is flexible and offers what plant 1 offers: the two stand in either order
TIES = dict(WORKED_HOUR, plants=[(0, 0, 0, 5000, 700), (3, 0, 0, 8000, 500), (0, 0, 0, 8000, 100)])

EMPTY_HOUR = {section: [] for section in SECTIONS}

# Statements: the price; of each agent loss share, own energy, own import, contracted, bought, sold and money; the schedule of each plant;
# the amount of each contract. Ours of the worked hour is worked out in docs/USING.md, and the hour with a tie settles alike.
WORKED_STATEMENT = {
    "price": 8000,
    "agent": [
        (0, 700, 0, 444, 0, 256, 2048000),
        (32, 532, 0, 532, 0, 0, 0),
        (28, 468, 0, 500, 0, 32, 256000),
        (0, 310, 10, 588, 288, 0, -2304000),
    ],
    "plant": [(700,), (310,), (0,)],
    "contract": [(400,), (88,), (44,), (500,)],
}

# plant 2 goes before plant 1, so agent 0 makes 100 more, which it sells, and agent 3 as much less, which it buys
OTHER_TIE = dict(
    WORKED_STATEMENT,
    agent=[
        (0, 800, 0, 444, 0, 356, 2848000),
        (32, 532, 0, 532, 0, 0, 0),
        (28, 468, 0, 500, 0, 32, 256000),
        (0, 210, 10, 588, 388, 0, -3104000),
    ],
    plant=[(700,), (210,), (100,)],
)


def row_bytes(section, row):
    """The 16 bytes of a row; all numbers are little-endian."""
    if section == "agents":
        return struct.pack("<IIII", row[0], 0, 0, 0)
    if section == "boundaries":
        return struct.pack("<HHIII", row[0], row[1], 0, row[2], row[3])
    return struct.pack("<HHIII", *row)


def trailer(sheet):
    """Four pairs: the distance back from the trailer to the section, then the count of rows."""
    counts = [len(sheet[section]) for section in SECTIONS]
    return [(16 * sum(counts[k:]), counts[k]) for k in range(4)]


def sheet_bytes(sheet):
    rows = b"".join(row_bytes(section, row) for section in SECTIONS for row in sheet[section])
    return rows + b"".join(struct.pack("<II", *pair) for pair in trailer(sheet))


def dump(sheet):
    """The sheet row by row, for people: the offset of the first byte, the bytes, and what they say."""
    lines = ["byte   bytes                                            row", ""]
    place = 0

    def line(data, said):
        nonlocal place
        lines.append(f"{place:5}  {data.hex(' ')}  {said}")
        place += len(data)

    for section in SECTIONS:
        for number, row in enumerate(sheet[section]):
            fields = ", ".join(f"{name} {value}" for name, value in zip(FIELDS[section], row))
            line(row_bytes(section, row), f"{section} {number}: {fields}")
        lines.append("")
    for half in (0, 2):
        pairs = trailer(sheet)[half : half + 2]
        said = "; ".join(f"{name} {back} back, {count} rows" for name, (back, count) in zip(SECTIONS[half:], pairs))
        line(b"".join(struct.pack("<II", *pair) for pair in pairs), f"trailer: {said}")
    lines += ["", f"{place} bytes"]
    return "\n".join(lines) + "\n"


WORDS = {"agents": "agent", "boundaries": "boundary", "plants": "plant", "contracts": "contract"}


def rows_of(sheet):
    """Each row as a list: its word, then its numbers."""
    return [[WORDS[section], *row] for section in SECTIONS for row in sheet[section]]


def text(sheet):
    return "".join(" ".join(map(str, row)) + "\n" for row in rows_of(sheet))


def workbook(sheet, title):
    """The same as a workbook exports it: a line has as many cells as the widest, lines end in CR LF, headings are comments."""
    lines = [["# " + title]]
    for section in SECTIONS:
        lines += [[], ["# " + WORDS[section], *FIELDS[section]]]
        lines += [[WORDS[section], *row] for row in sheet[section]]
    return "".join(";".join(map(str, line + [""] * (6 - len(line)))) + "\r\n" for line in lines)


def statement_text(stated):
    lines = [["price", stated["price"]]]
    lines += [[word, number, *row] for word in ("agent", "plant", "contract") for number, row in enumerate(stated[word])]
    return "".join(" ".join(map(str, line)) + "\n" for line in lines)


def changed(data, old, new):
    """The text with one place of it changed."""
    assert data.count(old) == 1, old
    return data.replace(old, new)


def papers():
    """The texts of this folder, by the names of their files."""
    typed, stated = text(WORKED_HOUR), statement_text(WORKED_STATEMENT)
    return {
        "worked-hour.text": typed,
        "worked-hour.csv": workbook(WORKED_HOUR, "the hour that document 01 works out"),
        "march.text": "# March: contract 2 names a retailer as its seller\n\n" + text(MARCH),
        # a letter in place of a 0
        "damaged.text": changed(typed, "boundary 3 0 10 410", "boundary 3 0 10 41O"),
        "worked-hour.statement": stated,
        # agent 3 is said to have bought a kWh less
        "changed.statement": changed(stated, "588 288 0", "588 287 0"),
        # plant 1 is stated twice and plant 2 never
        "damaged.statement": changed(stated, "plant 2 0", "plant 1 0"),
        "ties-other.statement": statement_text(OTHER_TIE),
    }


def main():
    (FOLDER / "worked-hour.sheet").write_bytes(sheet_bytes(WORKED_HOUR))
    (FOLDER / "worked-hour.txt").write_text(dump(WORKED_HOUR))
    (FOLDER / "must-run.sheet").write_bytes(sheet_bytes(MUST_RUN))
    (FOLDER / "must-run.txt").write_text(dump(MUST_RUN))
    (FOLDER / "small-generator.sheet").write_bytes(sheet_bytes(SMALL_GENERATOR))
    (FOLDER / "small-generator.txt").write_text(dump(SMALL_GENERATOR))
    (FOLDER / "reasons.sheet").write_bytes(sheet_bytes(REASONS))
    (FOLDER / "reasons.txt").write_text(dump(REASONS))
    (FOLDER / "march.sheet").write_bytes(sheet_bytes(MARCH))
    (FOLDER / "empty-hour.sheet").write_bytes(sheet_bytes(EMPTY_HOUR))
    (FOLDER / "ties.sheet").write_bytes(sheet_bytes(TIES))
    for name, content in papers().items():
        (FOLDER / name).write_bytes(content.encode())


if __name__ == "__main__":
    main()
