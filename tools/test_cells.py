"""Tests of cells.py and of the samples: python3 tools/test_cells.py"""

import functools
import os
import random
import re
import subprocess
import sys
import tempfile
import unittest

HERE = os.path.dirname(os.path.abspath(__file__))
sys.path.insert(0, HERE)

import cells  # noqa: E402

SAMPLES = os.path.join(HERE, os.pardir, "samples")
FIRST_TEXT = "0-1:10\n1-2:1\n2-3:10\n"
FIRST_ENTRIES = [(0, 1, 10), (1, 2, 1), (2, 3, 10)]
FIRST_LIST = bytes.fromhex("10080030 000010000A 0040200001 008030000A")
FIRST_PAIRING = bytes.fromhex("40080020 000010 008030")
FIRST_SLIP = bytes.fromhex("30080020 0400 0402")
FIRST_SHORT = bytes.fromhex("20080030 0000000000000001 0000100000000009 0000300000000013 0040300000000009")
# 0-1 from step 1 and 2-3 from step 2, both leaf; the worked chain with a direct pair 0-3:25 that is kept.
FIRST_ORIGINS = bytes.fromhex("50080020 0000100240 0080300440")
DIRECT_TEXT = "0-1:10\n0-3:25\n0-4:1\n1-2:1\n2-3:10\n3-5:1\n"
DIRECT_PAIRING = bytes.fromhex("400C0020 000030 004020")
DIRECT_ORIGINS = bytes.fromhex("500C0020 0000300000 00402002C0")
# The first list as a rig may have run it: the ends turned, and 1-2 run twice more.
RAW_TEXT = "2-1:7\n3-2:10\n1-2:9\n1-0:10\n2-1:1\n"
RAW_RUNS = [(2, 1, 7), (3, 2, 10), (1, 2, 9), (1, 0, 10), (2, 1, 1)]
RAW_LIST = bytes.fromhex("60080050 0080100007 00C020000A 0040200009 004000000A 0080100001")
FIRST_PRINTED = "steps 2\ncarried 20\nshort 0\npair 0 1 10\npair 2 3 10\ntotal 20\n"


def header(kind, n, m, zero_bits=0):
    """A file's first four bytes."""
    return (kind << 28 | n << 17 | m << 4 | zero_bits).to_bytes(4, "big")


def from_step(a, b, step, rule):
    """An origin list's entry."""
    return (a << 30 | b << 20 | step << 9 | rule << 6).to_bytes(5, "big")


def command(words, given=b""):
    """The exit status, output and messages of the command."""
    run = subprocess.run([sys.executable, os.path.join(HERE, "cells.py"), *words], input=given, capture_output=True)
    return run.returncode, run.stdout, run.stderr.decode()


def sample(name):
    """The bytes of a sample."""
    return cells.bytes_of(os.path.join(SAMPLES, name))


def sample_list(name):
    """The cells and the entries that a sample's text gives; a rig's list is tidied."""
    text = sample(name + ".txt").decode()
    return tidied(*cells.parse_raw(text)) if name == "rig" else cells.parse_list(text)


def printed_in_readme(name):
    """What the program prints for a sample, as the samples' README has it."""
    text = sample("README.md").decode().split(f"- **{name}**")[1].split("\n- **")[0]
    return "\n".join(re.findall(r"^ {6}(\w.*)$", text, re.MULTILINE))


def tidied(n, runs):
    """The cells and the entries of the store list of a rig's runs: of each pair the points of its last run."""
    points = {frozenset(run[:2]): run[2] for run in runs}
    return n, sorted((min(pair), max(pair), value) for pair, value in points.items())


def heaviest(entries):
    """The points of a heaviest pairing, by trying all pairings of the lowest cell first."""
    near = {}
    for a, b, points in entries:
        near.setdefault(a, []).append((b, points))

    @functools.lru_cache(None)
    def best(left):
        if not left:
            return 0
        lowest, rest = left[0], left[1:]
        results = [best(rest)]
        for b, points in near.get(lowest, []):
            if b in rest:
                results.append(points + best(tuple(cell for cell in rest if cell != b)))
        return max(results)

    return sum(best(group) for group in groups(entries))


def groups(entries):
    """The cells of each connected group, ascending."""
    group = {}
    for a, b, _ in entries:
        joined = group.get(a, {a}) | group.get(b, {b})
        for cell in joined:
            group[cell] = joined
    return sorted({tuple(sorted(cells_of)) for cells_of in group.values()})


class Refusing(unittest.TestCase):
    """Helpers for what must be refused."""

    def wrong(self, pattern, call, *arguments):
        """The call must be refused with a message that has this pattern."""
        with self.assertRaisesRegex(cells.Wrong, pattern):
            call(*arguments)


class TextToList(Refusing):
    def test_first_list(self):
        self.assertEqual(cells.parse_list(FIRST_TEXT), (4, FIRST_ENTRIES))
        self.assertEqual(cells.store_list(4, FIRST_ENTRIES), FIRST_LIST)

    def test_either_cell_first_and_any_order(self):
        self.assertEqual(cells.parse_list("3-2:10\n1-0:10\n2-1:1\n"), (4, FIRST_ENTRIES))

    def test_comments_blanks_and_cells(self):
        text = "# a store\n\n n 9 # nine\n 0-1:10 # near\r\n\t1 - 2 : 1\n2-3:10"
        self.assertEqual(cells.parse_list(text), (9, FIRST_ENTRIES))

    def test_empty(self):
        self.assertEqual(cells.parse_list(""), (0, []))
        self.assertEqual(cells.parse_list("n 0"), (0, []))
        self.assertEqual(cells.parse_list("n 1024"), (1024, []))
        self.assertEqual(cells.store_list(0, []), header(1, 0, 0))

    def test_limits(self):
        self.assertEqual(cells.parse_list("0-1023:1048575"), (1024, [(0, 1023, 1048575)]))
        self.assertEqual(cells.parse_list("0-1:0"), (2, [(0, 1, 0)]))

    def test_lines_that_are_refused(self):
        for text, pattern in [
            ("0-1", "line 1: '0-1' is not of the form"),
            ("0-1:1\n\n0-2:x", "line 3: '0-2:x'"),
            ("0-1:-1", "line 1"),
            ("0-1:1.5", "line 1"),
            ("0-1:" + "9" * 5000, "line 1"),
            ("٣-1:1", "line 1"),
            ("0-0:1", "line 1: cell 0 is paired with itself"),
            ("0-1024:1", "line 1: cell 1024 is not below 1024"),
            ("1024-0:1", "line 1: cell 1024"),
            ("0-1:1048576", "line 1: 1048576 points are above 1048575"),
            ("0-1:1\n1-0:2", "line 2: the pair 0-1 is given in line 1 already"),
            ("n 3\n0-1:1\n0-3:1", "line 3: cell 3 is not below n = 3"),
            ("n 1025", "line 1: 1025 cells"),
            ("n 3\nn 3", "line 2: 'n' stands once"),
            ("0-1:1\nn 3", "line 2: 'n' stands once"),
            ("n", "line 1"),
        ]:
            with self.subTest(text[:20]):
                self.wrong(pattern, cells.parse_list, text)

    def test_number_of_pairs(self):
        pairs = [f"{a}-{b}:1" for a in range(92) for b in range(a + 1, 92)]
        self.assertEqual(len(cells.parse_list("\n".join(pairs[:4096]))[1]), 4096)
        self.wrong("line 4097: more than 4096 pairs", cells.parse_list, "\n".join(pairs[:4097]))

    def test_parts(self):
        self.assertEqual(list(cells.significant_lines("\n a # b\n#c\nd")), [(2, "a"), (4, "d")])
        self.assertEqual(cells.run_of_line("7-3:5", 1), (7, 3, 5))
        self.assertEqual(cells.parse_lines("n 4\n\n1-0:5\n"), (4, [(1, 0, 5)], [3]))
        self.assertEqual(cells.highest_cell([]), -1)
        self.assertEqual(cells.highest_cell(FIRST_ENTRIES), 3)
        self.assertEqual(cells.highest_cell([(7, 3, 5), (2, 4, 5)]), 7)
        self.assertEqual(cells.cells_given(5, 1, None, []), 5)
        lines = {}
        cells.check_new((0, 1, 5), 4, lines)
        self.assertEqual(lines, {(0, 1): 4})
        cells.check_fits(4, FIRST_ENTRIES, [1, 2, 3])


class TextToRawList(Refusing):
    def test_the_lines_order_stays(self):
        self.assertEqual(cells.parse_raw(RAW_TEXT), (4, RAW_RUNS))
        self.assertEqual(cells.raw_list(4, RAW_RUNS), RAW_LIST)

    def test_either_cell_first(self):
        self.assertEqual(cells.parse_raw("1-0:5"), (2, [(1, 0, 5)]))
        self.assertEqual(cells.parse_raw("0-1:5"), (2, [(0, 1, 5)]))
        self.assertEqual(cells.parse_raw("n 1024 # a full store\n\n1023-0:1"), (1024, [(1023, 0, 1)]))

    def test_repeats(self):
        again = "0-1:5\n1-0:6\n0-1:5\n0-1:0\n"
        self.assertEqual(cells.parse_raw(again), (2, [(0, 1, 5), (1, 0, 6), (0, 1, 5), (0, 1, 0)]))
        self.assertEqual(len(cells.parse_raw("0-1:1\n" * 4096)[1]), 4096)
        self.wrong("line 4097: more than 4096 pairs", cells.parse_raw, "0-1:1\n" * 4097)

    def test_empty(self):
        self.assertEqual(cells.raw_list(*cells.parse_raw("")), header(6, 0, 0))
        self.assertEqual(cells.raw_list(*cells.parse_raw("n 1024")), header(6, 1024, 0))

    def test_a_list_in_order_differs_in_its_kind_only(self):
        raw = cells.raw_list(*cells.parse_raw(FIRST_TEXT))
        self.assertEqual(raw, bytes([FIRST_LIST[0] + 0x50]) + FIRST_LIST[1:])

    def test_lines_that_are_refused(self):
        for text, pattern in [
            ("0-1:1\n0-1", "line 2: '0-1' is not of the form"),
            ("0-1:1\n3-3:1", "line 2: cell 3 is paired with itself"),
            ("1024-0:1", "line 1: cell 1024 is not below 1024"),
            ("n 3\n0-1:1\n3-0:1\n4-0:1", "line 3: cell 3 is not below n = 3"),
            ("n 3\n0-3:1", "line 2: cell 3 is not below n = 3"),
            ("1-0:1048576", "line 1: 1048576 points are above 1048575"),
            ("n 1025", "line 1: 1025 cells"),
            ("1-0:1\nn 3", "line 2: 'n' stands once"),
        ]:
            with self.subTest(text):
                self.wrong(pattern, cells.parse_raw, text)


class FilesToText(Refusing):
    def test_store_list(self):
        self.assertEqual(cells.show(FIRST_LIST), "# store list\nn 4\n" + FIRST_TEXT)

    def test_short_list(self):
        self.assertEqual(cells.show(FIRST_SHORT), "# short list\nn 4\ncarried 1\n0-1:9\n0-3:19\n1-3:9\n")

    def test_slip(self):
        self.assertEqual(cells.show(FIRST_SLIP), "# slip\nn 4\nleaf 0\nleaf 2\n")
        self.assertEqual(cells.entry_text(cells.SLIP, (2, 7)), "ring 7")
        self.assertEqual(cells.entry_text(cells.SLIP, (3, 1023)), "chain 1023")

    def test_pairing(self):
        self.assertEqual(cells.show(FIRST_PAIRING), "# pairing\nn 4\n0-1\n2-3\n")

    def test_origin_list(self):
        self.assertEqual(cells.show(FIRST_ORIGINS), "# origin list\nn 4\n0-1 step 1 leaf\n2-3 step 2 leaf\n")
        self.assertEqual(cells.show(DIRECT_ORIGINS), "# origin list\nn 6\n0-3 short\n1-2 step 1 chain\n")
        self.assertEqual(cells.show(header(5, 3, 1) + bytes.fromhex("0000100280")).splitlines()[2], "0-1 step 1 ring")
        self.assertEqual(cells.show(header(5, 0, 0)), "# origin list\nn 0\n")
        self.assertEqual([cells.origin_text(origin) for origin in ((0, 0), (1023, 2))], ["short", "step 1023 ring"])

    def test_raw_list(self):
        self.assertEqual(cells.show(RAW_LIST), "# raw list\nn 4\n" + RAW_TEXT)
        self.assertEqual(cells.show(header(6, 0, 0)), "# raw list\nn 0\n")

    def test_largest_fields(self):
        short = header(2, 1024, 1) + b"\xff" * 8 + (1022 << 54 | 1023 << 44 | (1 << 44) - 1).to_bytes(8, "big")
        self.assertEqual(cells.read_file(short), (2, 1024, 2**64 - 1, [(1022, 1023, 2**44 - 1)]))
        origins = header(5, 1024, 1) + bytes.fromhex("FFBFFFFEC0")
        self.assertEqual(cells.read_file(origins), (5, 1024, None, [(1022, 1023, 2047, 3)]))
        raw = header(6, 1024, 4096) + bytes.fromhex("FFFFEFFFFF") * 4096
        self.assertEqual(cells.read_file(raw), (6, 1024, None, [(1023, 1022, 1048575)] * 4096))

    def test_parts(self):
        self.assertEqual(cells.read_header(FIRST_LIST), (1, 4, 3, 0))
        self.assertEqual([cells.first_byte(kind, 2) for kind in (1, 2, 3, 4, 5, 6)], [14, 28, 8, 10, 14, 14])
        self.assertEqual(cells.records(FIRST_SLIP, cells.SLIP, 2), [0x0400, 0x0402])
        self.assertEqual(cells.refusal(cells.STORE_LIST, 5), " (refusal 5)")
        self.assertEqual(cells.refusal(cells.SHORT_LIST, 5), "")
        self.assertEqual(cells.refusal(cells.ORIGIN_LIST, 5), "")
        self.assertEqual(cells.refusal(cells.RAW_LIST, 5), " (refusal 13)")
        self.assertEqual(cells.fields_of_list(0x0080100007), (2, 1, 7))
        self.assertEqual(cells.list_file(cells.RAW_LIST, 4, RAW_RUNS), RAW_LIST)

    def test_round_trips(self):
        rng = random.Random(1)
        for _ in range(200):
            n = rng.randint(2, 1024)
            pairs = {tuple(sorted(rng.sample(range(n), 2))) for _ in range(rng.randint(0, 60))}
            entries = sorted((a, b, rng.randint(0, 1048575)) for a, b in pairs)
            data = cells.store_list(n, entries)
            self.assertEqual(cells.parse_list(cells.show(data)), (n, entries))
            self.assertEqual(cells.store_list(*cells.parse_list(cells.show(data))), data)

    def test_round_trips_of_raw_lists(self):
        rng = random.Random(3)
        for _ in range(200):
            n = rng.randint(2, 1024)
            pairs = [rng.sample(range(n), 2) for _ in range(rng.randint(1, 20))]
            drawn = [rng.choice(pairs) for _ in range(rng.randint(0, 60))]
            runs = [(*rng.sample(pair, 2), rng.randint(0, 1048575)) for pair in drawn]
            data = cells.raw_list(n, runs)
            self.assertEqual(cells.parse_raw(cells.show(data)), (n, runs))
            self.assertEqual(cells.raw_list(*cells.parse_raw(cells.show(data))), data)


class DamagedFiles(Refusing):
    def shown_wrong(self, *rows):
        """Each row's file must be refused with its pattern."""
        for data, pattern in rows:
            with self.subTest(data.hex()):
                self.wrong(pattern, cells.show, data)

    def test_no_file(self):
        self.shown_wrong(
            (b"", "0 bytes"),
            (b"\x10\x08\x00", "3 bytes"),
            (header(0, 4, 0), "byte 0: kind 0 is none of 1 to 6"),
            (header(7, 4, 0), "kind 7"),
        )

    def test_store_lists(self):
        one, other = FIRST_LIST[4:9], FIRST_LIST[9:14]
        self.shown_wrong(
            (header(1, 4, 0, 1), r"byte 3: .* \(refusal 2\)"),
            (header(1, 1025, 0), r"n = 1025.*\(refusal 3\)"),
            (header(1, 4, 4097), r"m = 4097.*\(refusal 3\)"),
            (header(1, 4, 1), r"4 bytes, but m = 1 makes 9 \(refusal 4\)"),
            (FIRST_LIST[:-1], r"18 bytes.*\(refusal 4\)"),
            (FIRST_LIST + b"\0", r"20 bytes.*\(refusal 4\)"),
            (header(1, 2, 2) + one + other, r"byte 9: .*1-2 is not a < b < n = 2 \(refusal 5\)"),
            (header(1, 4, 1) + (1 << 30 | 1 << 20).to_bytes(5, "big"), r"byte 4: .*1-1.*\(refusal 5\)"),
            (header(1, 4, 2) + other + one, r"byte 9: .*entry 2 is not above.*\(refusal 6\)"),
            (header(1, 4, 2) + one + one, r"\(refusal 6\)"),
            (header(1, 2, 3) + one + one + other, r"\(refusal 5\)"),
        )

    def test_slips(self):
        self.shown_wrong(
            (header(3, 4, 0, 8), r"byte 3: .*\(refusal 7\)"),
            (header(3, 1025, 0), r"\(refusal 7\)"),
            (FIRST_SLIP[:-1], r"7 bytes.*\(refusal 7\)"),
            (header(3, 4, 1) + b"\0\0", r"byte 4: rule 0.*\(refusal 7\)"),
            (header(3, 4, 2) + b"\4\0\x10\0", r"byte 6: rule 4.*\(refusal 7\)"),
        )

    def test_pairings(self):
        one, other = FIRST_PAIRING[4:7], FIRST_PAIRING[7:]
        self.shown_wrong(
            (header(4, 4, 0, 2), r"byte 3: .*\(refusal 9\)"),
            (header(4, 1025, 0), r"\(refusal 9\)"),
            (FIRST_PAIRING + b"\0", r"11 bytes.*\(refusal 9\)"),
            (header(4, 4, 1) + b"\0\0\x11", r"byte 6: .*zero bit.*\(refusal 9\)"),
            (header(4, 3, 2) + one + other, r"byte 7: .*2-3 is not a < b < n = 3 \(refusal 9\)"),
            (header(4, 4, 2) + other + one, r"byte 7: .*\(refusal 9\)"),
            (header(4, 4, 2) + one + (1 << 14 | 2 << 4).to_bytes(3, "big"), r"cell 1 stands twice.*\(refusal 10\)"),
        )

    def test_short_lists(self):
        self.shown_wrong(
            (header(2, 4, 0), "4 bytes, but m = 0 makes 12$"),
            (header(2, 4, 0, 1) + bytes(8), "zero bit of the short list's header is set$"),
            (header(2, 4, 1) + bytes(8) + (1 << 44).to_bytes(8, "big"), "byte 12: .*0-1 has no points$"),
            (header(2, 1, 1) + bytes(8) + (1 << 44 | 1).to_bytes(8, "big"), "byte 12: .*not a < b < n = 1$"),
            (FIRST_SHORT[:12] + FIRST_SHORT[20:28] + FIRST_SHORT[12:20] + FIRST_SHORT[28:], "byte 20: .*entry 2"),
        )

    def test_origin_lists(self):
        one, other = FIRST_ORIGINS[4:9], FIRST_ORIGINS[9:]
        self.shown_wrong(
            (header(5, 4, 0, 1), "byte 3: a zero bit of the origin list's header is set$"),
            (header(5, 1025, 0), "n = 1025, above 1024$"),
            (FIRST_ORIGINS[:-1], "13 bytes, but m = 2 makes 14$"),
            (header(5, 4, 1) + one[:4] + b"\x41", "byte 8: a zero bit of the origin list is set$"),
            (header(5, 4, 2) + one + other[:4] + b"\x60", "byte 13: a zero bit"),
            (header(5, 4, 1) + from_step(0, 1, 0, 1), "byte 4: .*0-1 has step 0 with rule 1$"),
            (header(5, 4, 1) + from_step(0, 1, 1, 0), "step 1 with rule 0$"),
            (header(5, 4, 2) + one + from_step(2, 3, 1, 4), "byte 9: .*2-3 has step 1 with rule 4$"),
            (header(5, 3, 2) + one + other, "byte 9: .*2-3 is not a < b < n = 3$"),
            (header(5, 4, 2) + other + one, "byte 9: the origin list's entry 2 is not above the one before$"),
            (header(5, 4, 2) + one + from_step(1, 2, 1, 1), "cell 1 stands twice in the origin list$"),
        )

    def test_raw_lists(self):
        one, twice, high = RAW_LIST[4:9], bytes.fromhex("0080200001"), bytes.fromhex("0100000001")
        self.shown_wrong(
            (header(6, 4, 0, 1), r"byte 3: a zero bit of the raw list's header is set \(refusal 13\)$"),
            (header(6, 1025, 0), r"n = 1025, above 1024 \(refusal 13\)$"),
            (header(6, 4, 4097) + one * 4097, r"m = 4097, above 4096 \(refusal 13\)$"),
            (RAW_LIST[:-1], r"28 bytes, but m = 5 makes 29 \(refusal 13\)$"),
            (RAW_LIST + b"\0", r"30 bytes.*\(refusal 13\)$"),
            (header(6, 4, 2) + one + twice, r"byte 9: the raw list's entry 2-2 has one cell twice \(refusal 13\)$"),
            (header(6, 4, 2) + one + high, r"byte 9: .* 4-0 has a cell not below n = 4 \(refusal 13\)$"),
            (header(6, 2, 1) + one, r"byte 4: .* 2-1 has a cell not below n = 2 \(refusal 13\)$"),
        )

    def test_any_bytes_are_shown_or_refused(self):
        rng = random.Random(2)
        files = [FIRST_LIST, FIRST_SHORT, FIRST_SLIP, FIRST_PAIRING, FIRST_ORIGINS, RAW_LIST]
        for _ in range(2000):
            data = bytearray(rng.choice(files))
            for _ in range(rng.randint(0, 3)):
                data[rng.randrange(len(data))] ^= 1 << rng.randrange(8)
            try:
                cells.show(bytes(data[: rng.choice([len(data)] * 3 + [rng.randint(0, len(data))])]))
            except cells.Wrong:
                pass


class Drawing(Refusing):
    def test_list_alone(self):
        drawing = cells.draw(FIRST_LIST)
        self.assertTrue(drawing.startswith("graph store {\n") and drawing.endswith("}\n"))
        self.assertIn('  0 -- 1 [label="10"];\n  1 -- 2 [label="1"];\n', drawing)
        self.assertNotIn("bold", drawing)

    def test_pairing_file_and_printed_text_draw_the_same(self):
        drawing = cells.draw(FIRST_LIST, FIRST_PAIRING)
        self.assertEqual(cells.draw(FIRST_LIST, FIRST_PRINTED.encode()), drawing)
        self.assertEqual(cells.draw(FIRST_LIST, FIRST_PRINTED.replace("\n", "\r\n").encode()), drawing)
        self.assertIn('0 -- 1 [label="10", style=bold, penwidth=4];', drawing)
        self.assertIn('1 -- 2 [label="1"];', drawing)
        self.assertIn("  3 [style=filled", drawing)

    def test_origins_are_told_apart(self):
        direct_list = cells.store_list(*cells.parse_list(DIRECT_TEXT))
        drawing = cells.draw(direct_list, DIRECT_ORIGINS)
        self.assertIn('0 -- 3 [label="25", style=bold, penwidth=4];', drawing)
        self.assertIn(r'1 -- 2 [label="1\nstep 1 chain", style=dashed, penwidth=4];', drawing)
        self.assertIn('0 -- 1 [label="10"];', drawing)
        self.assertIn(f'\n  label="{cells.LEGEND}";\n', drawing)
        # Without the legend, and with every pair from the short list, it is the drawing of the pairing.
        thick = cells.draw(direct_list, DIRECT_PAIRING)
        self.assertNotIn(cells.LEGEND, thick)
        short = DIRECT_ORIGINS[:12] + b"\0\0"
        self.assertEqual(cells.draw(direct_list, short).replace(f'  label="{cells.LEGEND}";\n', ""), thick)
        self.assertEqual(cells.draw(direct_list, header(5, 6, 0)), cells.draw(direct_list))

    def test_parts(self):
        self.assertEqual(cells.edge_text(1, 2, 3, False), '1 -- 2 [label="3"];')
        self.assertEqual(cells.edge_text(1, 2, 3, True), '1 -- 2 [label="3", style=bold, penwidth=4];')
        self.assertEqual(cells.edge_text(1, 2, 3, True, (0, 0)), '1 -- 2 [label="3", style=bold, penwidth=4];')
        dashed = r'1 -- 2 [label="3\nstep 4 ring", style=dashed, penwidth=4];'
        self.assertEqual(cells.edge_text(1, 2, 3, True, (4, 2)), dashed)
        self.assertEqual(cells.parse_printed(FIRST_PRINTED), ([(0, 1, 10), (2, 3, 10)], 20))
        self.assertEqual(cells.parse_printed(""), ([], None))
        points = {(a, b): value for a, b, value in FIRST_ENTRIES}
        self.assertEqual(cells.read_pairing(FIRST_PAIRING, 4, points), {(0, 1): None, (2, 3): None})
        self.assertEqual(cells.read_pairing(FIRST_ORIGINS, 4, points), {(0, 1): (1, 1), (2, 3): (2, 1)})
        self.assertEqual(cells.pairs_of_file(FIRST_PAIRING, 4), [(0, 1), (2, 3)])
        self.assertEqual(cells.pairs_of_file(FIRST_ORIGINS, 4), [(0, 1, 1, 1), (2, 3, 2, 1)])
        cells.check_entries([(0, 1)], points)
        cells.check_once([(0, 1), (2, 3)])
        cells.check_printed([(1, 2, 1)], 1, points)

    def test_not_a_store_list(self):
        self.wrong("is a slip, not a store list", cells.draw, FIRST_SLIP)
        self.wrong("is an origin list, not a store list", cells.draw, FIRST_ORIGINS)
        self.wrong(r"is a raw list, not a store list \(refusal 2\)", cells.draw, RAW_LIST)
        self.wrong("refusal 4", cells.draw, FIRST_LIST[:-1])

    def test_pairings_that_are_refused(self):
        five_cells = header(4, 5, 2) + FIRST_PAIRING[4:]
        no_entry = header(4, 4, 1) + (3 << 4).to_bytes(3, "big")
        for pairing, pattern in [
            (five_cells, "n = 5, but the list n = 4"),
            (no_entry, "0-3 is no entry of the list"),
            (FIRST_PAIRING[:-1], "refusal 9"),
            (header(5, 5, 2) + FIRST_ORIGINS[4:], "the origin list has n = 5, but the list n = 4$"),
            (header(5, 4, 1) + (3 << 20).to_bytes(5, "big"), "0-3 is no entry of the list"),
            (FIRST_ORIGINS[:-1], "13 bytes"),
            (b"refused 11\n", "line 1: the program refused the list with 11"),
            (b"steps 2\nhello\n", "line 2: 'hello' is no line"),
            (b"pair 0 3 10\ntotal 10\n", "0-3 is no entry"),
            (b"pair 0 1 11\ntotal 11\n", "printed with 11 points, but the list has 10"),
            (b"pair 0 1 10\npair 1 2 1\ntotal 11\n", "cell 1 stands twice"),
            (b"pair 0 1 10\ntotal 20\n", "total printed is 20, but the pairs have 10"),
            (b"pair 0 1 10\n", "no line 'total'"),
            (b"", "no line 'total'"),
            (b"\xff\xfe", "byte 0: this is no text"),
            (FIRST_LIST, "second file is a store list, not a pairing"),
            (FIRST_SLIP, "no line that the program prints|no text"),
        ]:
            with self.subTest(pairing):
                self.wrong(pattern, cells.draw, FIRST_LIST, pairing)


class TheCommand(Refusing):
    def test_list_and_show(self):
        self.assertEqual(command(["list"], FIRST_TEXT.encode()), (0, FIRST_LIST, ""))
        self.assertEqual(command(["list"], b"\xef\xbb\xbf" + FIRST_TEXT.encode())[:2], (0, FIRST_LIST))
        self.assertEqual(command(["show"], FIRST_LIST)[:2], (0, cells.show(FIRST_LIST).encode()))

    def test_raw_and_show(self):
        self.assertEqual(command(["raw"], RAW_TEXT.encode()), (0, RAW_LIST, ""))
        self.assertEqual(command(["show"], RAW_LIST)[:2], (0, cells.show(RAW_LIST).encode()))

    def test_draw(self):
        with tempfile.TemporaryDirectory() as folder:
            list_name, printed_name = os.path.join(folder, "first.bin"), os.path.join(folder, "printed.txt")
            for name, data in [(list_name, FIRST_LIST), (printed_name, FIRST_PRINTED.encode())]:
                with open(name, "wb") as file:
                    file.write(data)
            drawn = command(["draw", list_name, printed_name])
            self.assertEqual(drawn, (0, cells.draw(FIRST_LIST, FIRST_PAIRING).encode(), ""))
            self.assertEqual(cells.run(["draw", list_name], None), cells.draw(FIRST_LIST).encode())
            self.assertEqual(cells.bytes_of(list_name), FIRST_LIST)

    def test_wrong_input_writes_nothing(self):
        for words, given, pattern in [
            (["list"], b"0-1:1\n0-0:1\n", "^cells.py: line 2: "),
            (["list"], b"\xff", "^cells.py: byte 0: "),
            (["raw"], b"0-1:1\n1-1:1\n", "^cells.py: line 2: "),
            (["show"], FIRST_LIST[:-1], "refusal 4"),
            (["show"], RAW_LIST[:-1], "refusal 13"),
            (["draw", os.path.join(HERE, "none.bin")], b"", "No such file"),
        ]:
            with self.subTest(words):
                status, output, messages = command(words, given)
                self.assertEqual((status, output), (1, b""))
                self.assertRegex(messages, pattern)
                self.assertEqual(messages.count("\n"), 1)

    def test_words(self):
        self.assertIn(b"either way round", cells.run(["--help"], None))
        for words in ([], ["lists"], ["draw"], ["draw", "a", "b", "c"], ["show", "a"], ["raw", "a"]):
            self.wrong("^use: ", cells.run, words, None)


class Samples(Refusing):
    def rows(self):
        """The rows of the table in the samples' README, by name."""
        table = re.findall(r"^\| `(\S+)` \| (.*) \|$", sample("README.md").decode(), re.MULTILINE)
        return {name: [cell.strip().replace(",", "") for cell in row.split("|")] for name, row in table}

    def test_all_are_described(self):
        names = {name.rsplit(".", 1)[0] for name in os.listdir(SAMPLES) if name != "README.md"}
        self.assertEqual(names, set(self.rows()))

    def test_text_and_binary_agree(self):
        for name in self.rows():
            with self.subTest(name):
                entries = sample_list(name)
                if name == "damaged":
                    self.assertTrue(cells.store_list(*entries).startswith(sample(name + ".bin")))
                    self.wrong("refusal 4", cells.show, sample(name + ".bin"))
                else:
                    self.assertEqual(cells.store_list(*entries), sample(name + ".bin"))
                    self.assertEqual(cells.parse_list(cells.show(sample(name + ".bin"))), entries)

    def test_first_is_the_worked_list(self):
        self.assertEqual(sample("first.bin"), FIRST_LIST)

    def test_cells_and_pairs_in_the_table(self):
        for name, row in self.rows().items():
            n, entries = sample_list(name)
            self.assertEqual(row[:2], [str(n), str(len(entries))], name)

    def test_totals_in_the_table(self):
        for name in ("first", "triangle", "ring-of-four", "workshop", "rig", "twice"):
            _, entries = sample_list(name)
            self.assertEqual(self.rows()[name][5], str(heaviest(entries)), name)

    def test_origin_lists(self):
        """Those of the small lists are worked out by hand; the pairs of each have the total of the table."""
        self.assertEqual(cells.show(sample("first.origins")), "# origin list\nn 4\n0-1 step 1 leaf\n2-3 step 2 leaf\n")
        self.assertEqual(cells.show(sample("triangle.origins")), "# origin list\nn 3\n0-1 step 1 ring\n")
        for name in ("first", "triangle", "workshop"):
            _, entries = sample_list(name)
            points = {(a, b): value for a, b, value in entries}
            _, _, _, pairs = cells.read_file(sample(name + ".origins"))
            self.assertEqual(self.rows()[name][5], str(sum(points[a, b] for a, b, *_ in pairs)), name)
            self.assertLessEqual(max(step for _, _, step, _ in pairs), int(self.rows()[name][2]), name)

    def test_the_short_pairing_of_the_workshop_keeps_step_0(self):
        _, _, _, pairs = cells.read_file(sample("workshop.origins"))
        self.assertEqual([(a, b) for a, b, step, rule in pairs if (step, rule) == (0, 0)], [(4, 11), (17, 23)])

    def test_the_rigs_list(self):
        """Its text and its raw list agree; the last points stand, neither the first nor the most."""
        runs = cells.parse_raw(sample("rig.txt").decode())
        self.assertEqual(cells.raw_list(*runs), sample("rig.raw"))
        self.assertEqual(cells.parse_raw(cells.show(sample("rig.raw"))), runs)
        self.assertEqual([run[2] for run in runs[1] if set(run[:2]) == {0, 1}], [580, 620, 600])
        self.assertEqual(cells.read_file(sample("rig.bin"))[3][0], (0, 1, 600))
        self.wrong("line 10: the pair 0-1 is given in line 8 already", cells.parse_list, sample("rig.txt").decode())

    def test_what_is_printed(self):
        for name, pairs, total in (("rig", 4, 2750), ("twice", 12, 12)):
            printed = printed_in_readme(name)
            self.assertEqual(cells.draw(sample(name + ".bin"), printed.encode()).count("bold"), pairs)
            self.assertEqual(cells.parse_printed(printed)[1], total)

    def test_the_two_makes(self):
        """Two groups of twelve cells with all pairs; of all pairings of six pairs each, the lowest partners."""
        _, entries = sample_list("twice")
        self.assertEqual(groups(entries), [tuple(range(0, 24, 2)), tuple(range(1, 24, 2))])
        self.assertEqual(len(entries), 2 * (12 * 11 // 2))
        pairs = [(a, b) for a, b, _ in cells.parse_printed(printed_in_readme("twice"))[0]]
        self.assertEqual(pairs, [(a, a + 2) for a in range(24) if a % 4 < 2])

    def test_every_list_is_drawn(self):
        for name in self.rows():
            if name != "damaged":
                _, entries = sample_list(name)
                self.assertEqual(cells.draw(sample(name + ".bin")).count(" -- "), len(entries))


if __name__ == "__main__":
    unittest.main()
