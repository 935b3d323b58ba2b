#!/usr/bin/env python3
"""Store lists, raw lists, pairings and origin lists as text: writes, shows and draws the files of the formats.

    python3 tools/cells.py list < text > store.bin     a store list (kind 1) from text
    python3 tools/cells.py raw < text > rig.raw        a raw list (kind 6) from text
    python3 tools/cells.py show < file                 any file of kinds 1 to 6 as text
    python3 tools/cells.py draw store.bin [pairing]    a store list as a drawing for Graphviz

Text of a list: one pair on each line, written a-b:points, as 0-1:10. The cells may stand either way round and
the lines in any order; the file has the lower cell first and its entries ascending. Before the first pair a
line 'n N' may give the number of cells; without it that is the highest cell and one. Blank lines and what
follows a # do not count. A pair of a cell with itself, a pair given twice, cells above 1,023, points above
1,048,575 and more than 4,096 pairs are refused: the format cannot hold them.

'raw' reads the same text as a rig's list: each line is a run, and the file has the runs in the order of the lines,
with the cells as the line has them. There a pair may be given again, either way round; the rest is refused as above.

'show' writes a store list so that 'list' reads it back, and a raw list so that 'raw' does. Of a damaged file it says
what is wrong, with the number of the refusal that the calls give it where they read such files, and shows nothing.

'draw' takes as the pairing what the program 'pairing' printed, a pairing file (kind 4) or an origin list (kind 5),
and draws its pairs thick. Of an origin list the pairs from a step are dashed, with the step and its rule beside
the points. Cells without an entry are left out. The drawing is for Graphviz: ... | dot -Tsvg > store.svg

Whatever is wrong is said on standard error, with the line or byte; then the exit status is 1 and nothing is
written.
"""

import re
import sys

MOST_CELLS = 1024
MOST_ENTRIES = 4096
LARGEST_POINTS = 1048575
HEADER_BYTES = 4
ENTRY_BYTES = {1: 5, 2: 8, 3: 2, 4: 3, 5: 5, 6: 5}
CARRIED_BYTES = 8
STORE_LIST, SHORT_LIST, SLIP, PAIRING, ORIGIN_LIST, RAW_LIST = 1, 2, 3, 4, 5, 6
KIND_NAMES = {
    STORE_LIST: "store list",
    SHORT_LIST: "short list",
    SLIP: "slip",
    PAIRING: "pairing",
    ORIGIN_LIST: "origin list",
    RAW_LIST: "raw list",
}
RULES = {1: "leaf", 2: "ring", 3: "chain"}
# The step and rule of a pair that no step put in, and the words that tell the two origins apart in a drawing.
FROM_SHORT_LIST = (0, 0)
LEGEND = "solid: from the short list, dashed: from a step"

# Numbers of more digits than these are of no form.
NUMBER = r"(\d{1,100})"
PAIR_LINE = re.compile(rf"{NUMBER}\s*-\s*{NUMBER}\s*:\s*{NUMBER}", re.ASCII)
CELLS_LINE = re.compile(rf"n\s+{NUMBER}", re.ASCII)
PRINTED_PAIR = re.compile(rf"pair {NUMBER} {NUMBER} {NUMBER}", re.ASCII)
PRINTED_NUMBER = re.compile(rf"(steps|carried|short|total) {NUMBER}", re.ASCII)
PRINTED_REFUSAL = re.compile(rf"refused {NUMBER}", re.ASCII)


class Wrong(Exception):
    """Something in the input is wrong; its text is what the user is told."""


# Text to a store list or a raw list


def parse_list(text):
    """The number of cells and the entries (a, b, points), the lower cell first, ascending, of a list in text."""
    cells, runs, numbers = parse_lines(text)
    entries = [(min(one, other), max(one, other), points) for one, other, points in runs]
    lines = {}
    for entry, number in zip(entries, numbers):
        check_new(entry, number, lines)
    return cells, sorted(entries)


def parse_raw(text):
    """The number of cells and the runs (one, other, points) of a list in text, in the order of its lines."""
    cells, runs, _ = parse_lines(text)
    return cells, runs


def parse_lines(text):
    """The number of cells, the runs (one, other, points) as the lines have them, and the lines' numbers."""
    cells, runs, numbers = None, [], []
    for number, words in significant_lines(text):
        given = CELLS_LINE.fullmatch(words)
        if given:
            cells = cells_given(int(given[1]), number, cells, runs)
        else:
            runs.append(run_of_line(words, number))
            numbers.append(number)
    cells = highest_cell(runs) + 1 if cells is None else cells
    check_fits(cells, runs, numbers)
    return cells, runs, numbers


def significant_lines(text):
    """The numbers and words of the lines that are not blank, without comments."""
    for number, line in enumerate(text.splitlines(), 1):
        words = line.split("#")[0].strip()
        if words:
            yield number, words


def cells_given(cells, line, before, runs):
    """The cells of a line 'n N', which stands once, before the pairs."""
    if before is not None or runs:
        raise Wrong(f"line {line}: 'n' stands once, before the first pair")
    if cells > MOST_CELLS:
        raise Wrong(f"line {line}: {cells} cells, but a store has at most {MOST_CELLS}")
    return cells


def run_of_line(words, line):
    """The cells, as they stand, and the points of a line a-b:points."""
    match = PAIR_LINE.fullmatch(words)
    if not match:
        raise Wrong(f"line {line}: '{words}' is not of the form a-b:points")
    one, other, points = (int(word) for word in match.groups())
    if one == other:
        raise Wrong(f"line {line}: cell {one} is paired with itself")
    if max(one, other) >= MOST_CELLS:
        raise Wrong(f"line {line}: cell {max(one, other)} is not below {MOST_CELLS}")
    if points > LARGEST_POINTS:
        raise Wrong(f"line {line}: {points} points are above {LARGEST_POINTS}")
    return one, other, points


def check_new(entry, line, lines):
    """Refuses a pair that was given before; lines has the line of each pair, and gets this one."""
    pair = entry[:2]
    if pair in lines:
        raise Wrong(f"line {line}: the pair {pair[0]}-{pair[1]} is given in line {lines[pair]} already")
    lines[pair] = line


def highest_cell(runs):
    """The highest cell of the runs, -1 where there is none."""
    return max((max(one, other) for one, other, _ in runs), default=-1)


def check_fits(cells, runs, numbers):
    """Refuses cells not below the number given, and more runs than a store list or raw list has entries."""
    for number, (one, other, _) in zip(numbers, runs):
        if max(one, other) >= cells:
            raise Wrong(f"line {number}: cell {max(one, other)} is not below n = {cells}")
    if len(runs) > MOST_ENTRIES:
        raise Wrong(f"line {numbers[MOST_ENTRIES]}: more than {MOST_ENTRIES} pairs")


def store_list(cells, entries):
    """The bytes of a store list."""
    return list_file(STORE_LIST, cells, entries)


def raw_list(cells, runs):
    """The bytes of a raw list."""
    return list_file(RAW_LIST, cells, runs)


def list_file(kind, cells, entries):
    """The bytes of a store list or a raw list: both have the same fields."""
    header = kind << 28 | cells << 17 | len(entries) << 4
    parts = [header.to_bytes(HEADER_BYTES, "big")]
    parts += [(a << 30 | b << 20 | points).to_bytes(ENTRY_BYTES[kind], "big") for a, b, points in entries]
    return b"".join(parts)


# Files: reading and checking


def read_header(data):
    """Kind, cells, count and the zero bits of a file; missing bytes are wrong."""
    if len(data) < HEADER_BYTES:
        raise Wrong(f"the file has {len(data)} bytes, but every file starts with {HEADER_BYTES} (refusals 2, 7, 9, 13)")
    header = int.from_bytes(data[:HEADER_BYTES], "big")
    return header >> 28, header >> 17 & 0x7FF, header >> 4 & 0x1FFF, header & 0xF


def first_byte(kind, place):
    """The byte of the file at which the entry at this place starts."""
    before = CARRIED_BYTES if kind == SHORT_LIST else 0
    return HEADER_BYTES + before + ENTRY_BYTES[kind] * place


def records(data, kind, count):
    """The entries or steps of a file as numbers."""
    size = ENTRY_BYTES[kind]
    starts = (first_byte(kind, place) for place in range(count))
    return [int.from_bytes(data[start : start + size], "big") for start in starts]


def read_file(data):
    """The kind, the cells, the carried points (short list only) and the entries of a file that is as it should be."""
    kind, cells, count, zero_bits = read_header(data)
    if kind not in KIND_NAMES:
        raise Wrong(f"byte 0: kind {kind} is none of 1 to 6 (refusals 2, 7, 9, 13)")
    check_header(kind, cells, count, zero_bits)
    check_length(data, kind, count)
    carried = int.from_bytes(data[HEADER_BYTES : first_byte(kind, 0)], "big") if kind == SHORT_LIST else None
    numbers = records(data, kind, count)
    entries = [FIELDS[kind](number) for number in numbers]
    CHECKS[kind](cells, numbers, entries)
    return kind, cells, carried, entries


def refusal(kind, store_list_number):
    """The words that name the refusal of a file of this kind, with the store list's own number."""
    number = {STORE_LIST: store_list_number, SLIP: 7, PAIRING: 9, RAW_LIST: 13}.get(kind)
    return f" (refusal {number})" if number else ""


def check_header(kind, cells, count, zero_bits):
    """Refuses zero bits that are set, too many cells, and too many entries of a store list or raw list."""
    name = KIND_NAMES[kind]
    if zero_bits:
        raise Wrong(f"byte 3: a zero bit of the {name}'s header is set{refusal(kind, 2)}")
    if cells > MOST_CELLS:
        raise Wrong(f"byte 0: the {name} has n = {cells}, above {MOST_CELLS}{refusal(kind, 3)}")
    if kind in (STORE_LIST, RAW_LIST) and count > MOST_ENTRIES:
        raise Wrong(f"byte 1: the {name} has m = {count}, above {MOST_ENTRIES}{refusal(kind, 3)}")


def check_length(data, kind, count):
    """Refuses a file whose length does not fit its count."""
    length = first_byte(kind, count)
    if len(data) != length:
        words = f"the {KIND_NAMES[kind]} has {len(data)} bytes, but m = {count} makes {length}"
        raise Wrong(words + refusal(kind, 4))


def check_cells(kind, cells, entries):
    """Refuses an entry whose cells are not a < b < n."""
    for place, (a, b, *_) in enumerate(entries):
        if not a < b < cells:
            where = f"byte {first_byte(kind, place)}: the {KIND_NAMES[kind]}'s entry {a}-{b}"
            raise Wrong(f"{where} is not a < b < n = {cells}{refusal(kind, 5)}")


def check_ascending(kind, keys):
    """Refuses entries that are not strictly ascending by their keys."""
    for place, (before, after) in enumerate(zip(keys, keys[1:]), 1):
        if before >= after:
            where = f"byte {first_byte(kind, place)}: the {KIND_NAMES[kind]}'s entry {place + 1}"
            raise Wrong(f"{where} is not above the one before{refusal(kind, 6)}")


def check_store_list(cells, numbers, entries):
    """Refusals 5 and 6."""
    check_cells(STORE_LIST, cells, entries)
    check_ascending(STORE_LIST, [entry[:2] for entry in entries])


def check_short_list(cells, numbers, entries):
    """What a short list is; no call reads one, so that there is no number."""
    check_cells(SHORT_LIST, cells, entries)
    check_ascending(SHORT_LIST, [entry[:2] for entry in entries])
    for place, (a, b, points) in enumerate(entries):
        if points == 0:
            raise Wrong(f"byte {first_byte(SHORT_LIST, place)}: the short list's pair {a}-{b} has no points")


def check_slip(cells, numbers, entries):
    """The rules of refusal 7; the steps' cells are not a matter of form."""
    for place, (rule, _) in enumerate(entries):
        if rule not in RULES:
            raise Wrong(f"byte {first_byte(SLIP, place)}: rule {rule} of the slip is none of 1 to 3 (refusal 7)")


def check_pairing(cells, numbers, entries):
    """Refusal 9, and of 10 the cell that stands twice."""
    for place, number in enumerate(numbers):
        if number & 0xF:
            raise Wrong(f"byte {first_byte(PAIRING, place) + 2}: a zero bit of the pairing is set (refusal 9)")
    check_cells(PAIRING, cells, entries)
    check_ascending(PAIRING, [a for a, _ in entries])
    check_once(entries)


def check_once(pairs, kind=PAIRING):
    """Refuses pairs of which two have a cell in common."""
    seen = set()
    for a, b, *_ in pairs:
        if seen & {a, b}:
            number = " (refusal 10)" if kind == PAIRING else ""
            raise Wrong(f"cell {min(seen & {a, b})} stands twice in the {KIND_NAMES[kind]}{number}")
        seen |= {a, b}


def check_origin_list(cells, numbers, entries):
    """What an origin list is; no call reads one, so that there is no number."""
    for place, (number, (a, b, step, rule)) in enumerate(zip(numbers, entries)):
        if number & 0x3F:
            raise Wrong(f"byte {first_byte(ORIGIN_LIST, place) + 4}: a zero bit of the origin list is set")
        if (step, rule) != FROM_SHORT_LIST and (step == 0 or rule not in RULES):
            where = f"byte {first_byte(ORIGIN_LIST, place)}: the origin list's pair {a}-{b}"
            raise Wrong(f"{where} has step {step} with rule {rule}")
    check_cells(ORIGIN_LIST, cells, entries)
    check_ascending(ORIGIN_LIST, [entry[0] for entry in entries])
    check_once(entries, ORIGIN_LIST)


def check_raw_list(cells, numbers, entries):
    """What refusal 13 says of the entries: either cell may come first, and a pair may stand again."""
    for place, (one, other, _) in enumerate(entries):
        where = f"byte {first_byte(RAW_LIST, place)}: the raw list's entry {one}-{other}"
        if one == other:
            raise Wrong(f"{where} has one cell twice (refusal 13)")
        if max(one, other) >= cells:
            raise Wrong(f"{where} has a cell not below n = {cells} (refusal 13)")


def fields_of_list(number):
    """The cells and the points of a store list's or raw list's entry."""
    return number >> 30, number >> 20 & 0x3FF, number & 0xFFFFF


FIELDS = {
    STORE_LIST: fields_of_list,
    SHORT_LIST: lambda number: (number >> 54, number >> 44 & 0x3FF, number & (1 << 44) - 1),
    SLIP: lambda number: (number >> 10, number & 0x3FF),
    PAIRING: lambda number: (number >> 14, number >> 4 & 0x3FF),
    ORIGIN_LIST: lambda number: (number >> 30, number >> 20 & 0x3FF, number >> 9 & 0x7FF, number >> 6 & 0x7),
    RAW_LIST: fields_of_list,
}
CHECKS = {
    STORE_LIST: check_store_list,
    SHORT_LIST: check_short_list,
    SLIP: check_slip,
    PAIRING: check_pairing,
    ORIGIN_LIST: check_origin_list,
    RAW_LIST: check_raw_list,
}


# Files to text


def show(data):
    """The text of a file of any kind."""
    kind, cells, carried, entries = read_file(data)
    lines = [f"# {KIND_NAMES[kind]}", f"n {cells}"]
    if carried is not None:
        lines.append(f"carried {carried}")
    lines += [entry_text(kind, entry) for entry in entries]
    return "\n".join(lines) + "\n"


def entry_text(kind, entry):
    """The text of an entry or step."""
    if kind == SLIP:
        return f"{RULES[entry[0]]} {entry[1]}"
    if kind == PAIRING:
        return f"{entry[0]}-{entry[1]}"
    if kind == ORIGIN_LIST:
        return f"{entry[0]}-{entry[1]} {origin_text(entry[2:])}"
    return f"{entry[0]}-{entry[1]}:{entry[2]}"


def origin_text(origin):
    """The text of a pair's step and rule."""
    step, rule = origin
    return "short" if origin == FROM_SHORT_LIST else f"step {step} {RULES[rule]}"


# Drawing


def parse_printed(text):
    """The pairs (a, b, points) and the total, if any, that the program printed."""
    pairs, total = [], None
    for number, line in enumerate(text.splitlines(), 1):
        line = line.strip()
        pair, value = PRINTED_PAIR.fullmatch(line), PRINTED_NUMBER.fullmatch(line)
        refused = PRINTED_REFUSAL.fullmatch(line)
        if refused:
            raise Wrong(f"line {number}: the program refused the list with {refused[1]}: there is no pairing to draw")
        if pair:
            pairs.append(tuple(int(word) for word in pair.groups()))
        elif value:
            total = int(value[2]) if value[1] == "total" else total
        elif line:
            raise Wrong(f"line {number}: '{line}' is no line that the program prints")
    return pairs, total


def check_printed(pairs, total, points):
    """Refuses printed pairs that are not the list's, a cell that stands twice, and a total that is not theirs."""
    check_entries(pairs, points)
    for a, b, printed in pairs:
        if points[a, b] != printed:
            raise Wrong(f"the pair {a}-{b} is printed with {printed} points, but the list has {points[a, b]}")
    check_once(pairs)
    if total is None:
        raise Wrong("the printed text has no line 'total': it is not whole")
    if total != sum(printed for _, _, printed in pairs):
        raise Wrong(f"the total printed is {total}, but the pairs have {sum(pair[2] for pair in pairs)}")


def check_entries(pairs, points):
    """Refuses a pair that is no entry of the list."""
    for a, b, *_ in pairs:
        if (a, b) not in points:
            raise Wrong(f"the pair {a}-{b} is no entry of the list (refusal 10)")


def read_pairing(data, cells, points):
    """Each pair of a pairing file, an origin list, or what the program printed, for a list with these points.

    The pairs of an origin list have their step and rule, the others have none.
    """
    if data[:1] and data[0] >> 4 in (STORE_LIST, PAIRING, ORIGIN_LIST):
        pairs = pairs_of_file(data, cells)
        check_entries(pairs, points)
        return {(a, b): tuple(origin) or None for a, b, *origin in pairs}
    pairs, total = parse_printed(text_of(data))
    check_printed(pairs, total, points)
    return {(a, b): None for a, b, _ in pairs}


def pairs_of_file(data, cells):
    """The entries of a pairing or origin list for a list of so many cells; no printed text starts as a file does."""
    kind, pairing_cells, _, pairs = read_file(data)
    if kind not in (PAIRING, ORIGIN_LIST):
        raise Wrong(f"the second file is a {KIND_NAMES[kind]}, not a pairing or an origin list (refusal 9)")
    if pairing_cells != cells:
        raise Wrong(f"the {KIND_NAMES[kind]} has n = {pairing_cells}, but the list n = {cells}{refusal(kind, 9)}")
    return pairs


def draw(list_data, pairing_data=None):
    """The drawing of a store list, with the pairs of a pairing thick, and those from a step dashed."""
    kind, cells, _, entries = read_file(list_data)
    if kind != STORE_LIST:
        article = "an" if kind == ORIGIN_LIST else "a"
        raise Wrong(f"the file is {article} {KIND_NAMES[kind]}, not a store list (refusal 2)")
    points = {(a, b): value for a, b, value in entries}
    held = read_pairing(pairing_data, cells, points) if pairing_data is not None else {}
    lines = ["graph store {", "  node [shape=circle];"]
    lines += [f'  label="{LEGEND}";'] if any(held.values()) else []
    lines += [f"  {cell} [style=filled, fillcolor=lightgrey];" for cell in sorted(sum(held, ()))]
    lines += ["  " + edge_text(a, b, value, (a, b) in held, held.get((a, b))) for a, b, value in entries]
    return "\n".join(lines + ["}"]) + "\n"


def edge_text(a, b, points, is_held, origin=None):
    """The line of an entry in the drawing, of a pair that is held with its step and rule, where they are known."""
    from_step = origin not in (None, FROM_SHORT_LIST)
    style = "dashed" if from_step else "bold"
    words = rf"{points}\n{origin_text(origin)}" if from_step else points
    thick = f", style={style}, penwidth=4" if is_held else ""
    return f'{a} -- {b} [label="{words}"{thick}];'


# The command


def text_of(data):
    """Bytes as text."""
    try:
        return data.decode("utf-8-sig")
    except UnicodeDecodeError as error:
        raise Wrong(f"byte {error.start}: this is no text") from None


def bytes_of(name):
    """The bytes of a file by its name."""
    try:
        with open(name, "rb") as file:
            return file.read()
    except OSError as error:
        raise Wrong(f"{name}: {error.strerror}") from None


def run(words, standard_input):
    """What the command with these words writes; standard_input is called where it reads that."""
    if words == ["list"]:
        return store_list(*parse_list(text_of(standard_input())))
    if words == ["raw"]:
        return raw_list(*parse_raw(text_of(standard_input())))
    if words == ["show"]:
        return show(standard_input()).encode()
    if words[:1] == ["draw"] and len(words) in (2, 3):
        return draw(*(bytes_of(name) for name in words[1:])).encode()
    if words in (["--help"], ["-h"]):
        return __doc__.encode()
    raise Wrong("use: cells.py list, raw or show, or cells.py draw LIST [PAIRING]; cells.py --help says more")


def main():
    """Runs the command; the exit status is 1 where something is wrong."""
    try:
        output = run(sys.argv[1:], sys.stdin.buffer.read)
    except Wrong as wrong:
        print(f"cells.py: {wrong}", file=sys.stderr)
        return 1
    sys.stdout.buffer.write(output)
    return 0


if __name__ == "__main__":
    sys.exit(main())
