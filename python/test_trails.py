"""Tests of the module trails, with records of all three kinds.

    PYTHONPATH=PREFIX/share/trails/python python3 -m unittest test_trails
"""

from __future__ import annotations

import doctest
import os
import pickle
import re
import shutil
import subprocess
import sys
import tempfile
import unittest
from fractions import Fraction
from pathlib import Path

import trails
from trails import AnchorState, Approach, Box, Days, Fix, Head, Kind, Reading, Refused, Row

# Document 01's worked trails: fixes, tolerances one after the other, positions that stay, and
# how many fixes each aging measures.
B = [(0, 0, 0), (10, 100, 0), (20, 200, 0)]
C = [(0, 0, 0), (10, 30, 40), (20, 0, 0)]
E = [(0, 0, 0), (10, 90, 0), (20, 100, 0)]
G = [(0, 0, 0), (1, 0, 0), (3, 1, 0)]
H = [(0, 0, 0), (10, 20, 0), (20, 20, 0), (30, 0, 0)]
WORKED = {
    "a": ([(5, 1, 1)], [0], [0], [0]),
    "b": (B, [0], [0, 2], [1]),
    "c": (C, [50], [0, 2], [1]),
    "d": (C, [49], [0, 1, 2], [1]),
    "e": (E, [39], [0, 1, 2], [1]),
    "f": (E, [40], [0, 2], [1]),
    "g": (G, [0], [0, 1, 2], [1]),
    "h": (H, [12], [0, 1, 3], [3]),
    "i": (H, [25, 12], [0, 3], [2, 0]),
    "j": (H, [12, 25], [0, 3], [3, 1]),
}

# The cart of examples/cart.c: behind the cold store from second 1050 to 1060.
CART = [
    (1000, 0, 0), (1010, 100, 0), (1020, 200, 3), (1050, 200, 3), (1060, 195, 120),
    (1080, 185, 360),
]
SILENT = [(t, x, y, t == 1050) for t, x, y in CART]


def in_each_kind(fixes):
    """The record of fixes in centimetres, ten times as far in millimetres, and of the kind that
    could have silences; each with the factor of its lengths."""
    return [
        (trails.write(fixes), 1),
        (trails.write([(t, 10 * x, 10 * y) for t, x, y in fixes], "mm"), 10),
        (trails.write(fixes, silences=True), 1),
    ]


class Records(unittest.TestCase):
    def test_what_is_written_is_read_in_every_kind(self):
        for kind, (record, factor) in zip(Kind, in_each_kind(CART)):
            head = trails.check(record)
            self.assertEqual(head, Head(kind, len(CART), None))
            self.assertEqual(head.unit, "mm" if factor == 10 else "cm")
            want = [Fix(t, factor * x, factor * y) for t, x, y in CART]
            self.assertEqual(trails.fixes(record), want)

    def test_the_kind_is_chosen_by_what_is_given(self):
        self.assertEqual(trails.check(trails.write(SILENT)).kind, Kind.SILENCES)
        self.assertEqual(trails.fixes(trails.write(SILENT)), [Fix(*fix) for fix in SILENT])
        self.assertEqual(trails.check(trails.write(CART)).kind, Kind.CENTIMETRES)
        self.assertEqual(trails.check(trails.write(CART, silences=True)).kind, Kind.SILENCES)
        for wrong in [dict(unit="mm"), dict(silences=False), dict(unit="m")]:
            with self.assertRaises(ValueError):
                trails.write(SILENT, **wrong)
        with self.assertRaises(ValueError):
            trails.write(CART, "mm", silences=True)

    def test_bytes_are_the_documents(self):
        record = trails.write([(5, -1, 2)])
        self.assertEqual(record.hex(), "12000000" "0100" "ffff" "0100" "05000000ffff0200")

    def test_listings(self):
        text = "trail 2 never\nfix 0 1 2 silence\nfix 9 3 4\nend\n"
        self.assertEqual(trails.listing(trails.write([(0, 1, 2, 1), (9, 3, 4)])), text)

    def test_any_bytes_are_a_record_to_look_at(self):
        record = trails.write(H)
        for lent in (bytearray(record), memoryview(record), record + b"more"):
            self.assertEqual(trails.check(lent).count, 4)
            self.assertEqual(trails.age(lent, 25).measured, 2)

    def test_files(self):
        record = trails.write(SILENT)
        with tempfile.TemporaryDirectory() as folder:
            path = Path(folder) / "gap .trail"
            path.write_bytes(record + b"more")
            trail = trails.read(path)
            self.assertEqual(trails.read(str(path)), trail)
            path.write_bytes(b"")
            with self.assertRaises(Refused):
                trails.read(path)
            with self.assertRaises(FileNotFoundError):
                trails.read(Path(folder) / "none")
        self.assertEqual(trail.record, record)
        self.assertEqual((len(trail), trail.unit, trail.mark), (6, "cm", None))
        self.assertEqual(list(trail), trails.fixes(record))
        columns = zip(trail.times, trail.xs, trail.ys)
        self.assertEqual(list(columns), CART)

    def test_stretches_end_where_a_silence_begins(self):
        trail = trails.Trail.of(trails.write(SILENT))
        self.assertEqual([len(stretch) for stretch in trail.stretches], [4, 2])
        self.assertEqual(sum(trail.stretches, []), trail.fixes)
        whole = trails.Trail.of(trails.write(CART, "mm"))
        self.assertEqual(whole.stretches, [whole.fixes])


class Agings(unittest.TestCase):
    def test_the_worked_trails_in_every_kind(self):
        for name, (fixes, tolerances, stay, counts) in WORKED.items():
            for record, factor in in_each_kind(fixes):
                with self.subTest(name=name, factor=factor):
                    original = trails.fixes(record)
                    for tolerance, count in zip(tolerances, counts):
                        record, measured = trails.age(record, factor * tolerance)
                        self.assertEqual(measured, count)
                    self.assertEqual(trails.fixes(record), [original[k] for k in stay])
                    self.assertEqual(trails.check(record).mark, factor * max(tolerances))

    def test_what_is_given_stays_and_what_is_thinned_away_is_gone(self):
        for record, factor in in_each_kind(H):
            before = bytearray(record + b"more")
            aged = trails.age(before, 25 * factor)
            self.assertEqual(before, record + b"more")
            self.assertEqual(aged.record[-4:], b"more")
            self.assertEqual(trails.Trail.of(aged.record).record + b"more", aged.record)

    def test_both_ends_of_a_silence_stay(self):
        aged, measured = trails.age_by_days(trails.write(SILENT), 90)
        kept = [fix for fix in SILENT if fix[0] in (1000, 1050, 1060, 1080)]
        self.assertEqual(trails.fixes(aged), [Fix(*fix) for fix in kept])
        self.assertEqual((measured, trails.check(aged).mark), (2, 400))

    def test_tables(self):
        rows = ((2, 10), (7, 25), (30, 100), (90, 400))
        self.assertEqual(trails.built_in().rows, rows)
        hall = trails.load([(14, 5), Row(60, 50)])
        self.assertEqual(hall.rows, ((14, 5), (60, 50)))
        for record, factor in in_each_kind(CART):
            self.assertIsNone(trails.days_apply(record, 1))
            self.assertEqual(trails.days_apply(record, 7), 25 * factor)
            self.assertIsNone(trails.days_apply(record, 13, hall))
            self.assertEqual(trails.days_apply(record, 65_535, hall), 50 * factor)
            self.assertEqual(trails.age_by_days(record, 13, hall), (record, 0))
            aged = trails.age_by_days(record, 60, hall)
            self.assertEqual(aged, trails.age(record, 50 * factor))

    def test_lists(self):
        hall = trails.load([(14, 5)])
        for record, factor in in_each_kind(CART):
            calls = [12 * factor, 60_001, Days(7), Days(14, hall), Days(1)]
            aged = record
            for tolerance in (12, 25, 5):
                aged = trails.age(aged, tolerance * factor).record
            self.assertEqual(trails.run(record + b"more", calls), (aged + b"more", 1))
        self.assertEqual(trails.run(record, []), (record, 0))

    def test_the_dearest(self):
        self.assertEqual(trails.age(trails.dearest(4_096), 1).measured, 8_382_465)


class Questions(unittest.TestCase):
    def test_places_are_exact_and_rounded(self):
        for record, factor in in_each_kind([(0, 0, 0), (10, -20, 20)]):
            x = Fraction(21 * factor, 2)
            whole = 11 if factor == 1 else 105
            self.assertEqual(trails.place(record, 5, 250), (-x, x, -whole, whole))

    def test_crossings(self):
        box = Box(150, 250, 100, 200)
        for record, factor in in_each_kind(CART):
            asked = [factor * edge for edge in box]
            self.assertEqual(trails.crosses(record, asked), Fraction(6820, 117))
            self.assertEqual(trails.crosses(record, asked, (1000, 1080)), Fraction(6820, 117))
            self.assertIsNone(trails.crosses(record, asked, (1000, 1050)))
        silent = trails.write(SILENT)
        self.assertEqual(trails.crosses(silent, box), 60)
        self.assertIsNone(trails.crosses(silent, box, (1051, 1059)))

    def test_approaches(self):
        for record, factor in in_each_kind(CART):
            found = trails.near(record, (250 * factor, 60 * factor), 60 * factor)
            self.assertEqual(found, Approach(3, Fraction(749_890, 13_714)))
            self.assertIsNone(trails.near(record, (250 * factor, 60 * factor), 52 * factor))
        self.assertIsNone(trails.near(trails.write(SILENT), (250, 60), 60))


class Anchors(unittest.TestCase):
    def test_readings_add_up_exactly(self):
        first = trails.anchor(AnchorState(), Reading(185.5, 360))
        self.assertEqual((first.state, first.x, first.y), ((185.5, 360, True), 186, 360))
        second = trails.anchor(first.state, Reading(-0.0625, 0.5, step=True))
        self.assertEqual(second, ((185.4375, 360.5, True), 185, 361))
        readings = [Reading(185.5, 360), Reading(-0.0625, 0.5, True), Reading(0.1, 0, True)]
        self.assertEqual(trails.anchor_all(AnchorState(), readings), second.state)
        self.assertEqual(trails.anchor_all(AnchorState(), []), AnchorState())


def changed(record, at, new):
    """The record with other bytes in it."""
    return record[:at] + new + record[at + len(new):]


class Refusals(unittest.TestCase):
    def refused(self, number, call, *words):
        with self.assertRaises(Refused) as caught:
            call(*words)
        self.assertEqual(caught.exception.number, number)
        self.assertEqual(caught.exception.sentence, trails.sentence(number))

    def test_each_refusal_of_a_record(self):
        h, silent = trails.write(H), trails.write(SILENT)
        fine = trails.write([(0, 0, 0), (1, 160_000, 0)], "mm")
        records = [
            (1, b""), (1, h[:9]), (2, changed(h, 4, b"\4")), (3, changed(h, 8, b"\0")),
            (4, changed(h, 0, b"\1")), (5, h[:-1]), (6, changed(h, 6, b"\1\x7d")),
            (7, changed(h, 14, b"\x81\x3e")), (7, changed(fine, 26, b"\1\x71\2\0")),
            (8, changed(h, 18, b"\0")), (9, changed(h, 34, b"\0\0\1\0")),
            (20, changed(silent, 18, b"\2")), (20, changed(silent, -1, b"\1")),
        ]
        for number, record in records:
            for call in (trails.check, trails.fixes, trails.listing, trails.Trail.of):
                self.refused(number, call, record)
            self.refused(number, trails.age, record, 5)
            self.refused(number, trails.run, record, [5])
            self.refused(number, trails.crosses, record, (0, 0, 0, 0))

    def test_each_refusal_of_a_question(self):
        for record, factor in in_each_kind(H):
            far = 16_001 * factor
            self.refused(11, trails.place, record, 5, 1_000)
            self.refused(12, trails.place, record, 31)
            self.refused(13, trails.crosses, record, (0, 1, 0, 1), (5, 4))
            self.refused(14, trails.crosses, record, (1, 0, 0, 1), (0, 30))
            self.refused(14, trails.crosses, record, (0, far, 0, 1), (0, 30))
            self.refused(16, trails.near, record, (far, 0), 5)
        self.refused(21, trails.place, trails.write(SILENT), 1055)
        self.assertEqual(trails.place(trails.write(SILENT), 1050).whole_x, 200)

    def test_tolerances_have_the_limit_of_the_unit(self):
        cm, mm, silent = (record for record, _ in in_each_kind(H))
        self.refused(10, trails.age, cm, 32_001)
        self.refused(10, trails.age, silent, 32_001)
        self.refused(10, trails.age, mm, 60_001)
        self.assertEqual(trails.age(mm, 60_000).measured, 2)

    def test_each_refusal_of_what_is_made(self):
        for unit, far in (("cm", 16_001), ("mm", 160_001)):
            self.refused(3, trails.write, [], unit)
            self.refused(3, trails.write, [(k, 0, 0) for k in range(4_097)], unit)
            self.refused(7, trails.write, [(0, far, 0)], unit)
            self.refused(8, trails.write, [(1, 0, 0), (1, 0, 0)], unit)
            self.refused(9, trails.write, [(0, 0, 0), (65_536, 0, 0)], unit)
        self.refused(20, trails.write, [(0, 0, 0, True)])
        self.refused(20, trails.write, [(0, 0, 0, 2), (1, 0, 0)])
        self.refused(3, trails.dearest, 0)
        self.refused(22, trails.load, [])
        self.refused(22, trails.load, [(k, 1) for k in range(33)])
        self.refused(23, trails.load, [(2, 9), (7, 5)])
        self.refused(23, trails.age_by_days, trails.write(H), 3, trails.Table((Row(2, 32_001),)))
        self.refused(17, trails.anchor, AnchorState(), Reading(float("nan"), 0))
        self.refused(17, trails.anchor, AnchorState(), Reading(1e39, 0))
        self.refused(18, trails.anchor, AnchorState(), Reading(1, 1, step=True))
        self.refused(19, trails.anchor, AnchorState(), Reading(16_000.0625, 0))

    def test_numbers_that_do_not_fit_are_not_cut(self):
        h = trails.write(H)
        wrong = [
            lambda: trails.age(h, 65_536), lambda: trails.age(h, -1), lambda: trails.age(h, 2.5),
            lambda: trails.age_by_days(h, 65_536), lambda: trails.run(h, [65_536]),
            lambda: trails.run(h, [Days(-1)]), lambda: trails.place(h, 1 << 32),
            lambda: trails.place(h, 1, 65_536 + 5), lambda: trails.near(h, (1 << 31, 0), 5),
            lambda: trails.near(h, (0, 0), -1), lambda: trails.crosses(h, (0, 1, 0, 1 << 31)),
            lambda: trails.write([(1 << 32, 0, 0)]), lambda: trails.write([(0, 0.5, 0)]),
            lambda: trails.write([("0", 0, 0)]), lambda: trails.load([(65_536 + 7, 1)]),
            lambda: trails.dearest(-1), lambda: trails.write([(0, 0, 0, 257), (1, 0, 0)]),
            lambda: trails.anchor(AnchorState(), Reading(10**400, 0)),
            lambda: trails.anchor_all(AnchorState(), [Reading(0, "1")]),
        ]
        for number, call in enumerate(wrong):
            with self.subTest(number=number), self.assertRaises(ValueError):
                call()

    def test_what_is_no_bytes_is_no_record(self):
        for other in (18, [1, 2, 3], "record"):
            for call in (trails.check, trails.fixes, trails.listing, lambda of: trails.age(of, 5)):
                with self.subTest(other=other), self.assertRaises(TypeError):
                    call(other)

    def test_a_refusal_has_its_sentence_and_can_be_sent(self):
        self.assertEqual(trails.sentence(0), "Not refused.")
        sentences = {trails.sentence(number) for number in range(25)}
        self.assertEqual(len(sentences), 25)
        self.assertTrue(all(re.match(r"[A-Z].*\.$", text) for text in sentences))
        one = pickle.loads(pickle.dumps(Refused(3)))
        self.assertEqual(str(one), "refused 3: The count is 0 or above 4,096.")


class Library(unittest.TestCase):
    def test_the_modules_example(self):
        failed, tried = doctest.testmod(trails)
        self.assertEqual((failed, tried > 0), (0, True))

    def imported(self, library):
        """What comes of importing the module with another library."""
        environment = dict(os.environ, TRAILS_LIBRARY=library)
        words = [sys.executable, "-c", "import trails"]
        folder = Path(trails.__file__).parent
        return subprocess.run(words, cwd=folder, env=environment, capture_output=True, text=True)

    def test_a_library_that_is_not_there_says_what_to_run(self):
        ran = self.imported("/nowhere/libtrails.so")
        self.assertNotEqual(ran.returncode, 0)
        self.assertIn("./install PREFIX", ran.stderr)

    @unittest.skipUnless(shutil.which("cc"), "cc isn't there")
    def test_a_library_of_another_version_is_turned_away(self):
        names = [f"trails_{name}" for name in trails._FUNCTIONS if name != "version"]
        source = "".join(f"void {name}(void) {{}}\n" for name in names)
        source += 'const char *trails_version(void) { return "0.10.0"; }\n'
        with tempfile.TemporaryDirectory() as folder:
            library = str(Path(folder) / "other.so")
            words = ["cc", "-shared", "-fPIC", "-x", "c", "-", "-o", library]
            subprocess.run(words, input=source, check=True, text=True)
            ran = self.imported(library)
        self.assertIn("is version 0.10.0, and this module is for 0.1", ran.stderr)

    @unittest.skipUnless(shutil.which("cc"), "cc isn't there")
    def test_structs_stand_as_the_header_has_them(self):
        structs = {
            "head": trails._Head, "answer": trails._Answer, "row": trails._Row,
            "table": trails._Table, "loaded": trails._Loaded, "applied": trails._Applied,
            "run": trails._Run, "place": trails._Place, "crossing": trails._Crossing,
            "approach": trails._Approach, "anchor_state": trails._AnchorState,
            "anchored": trails._Anchored,
        }
        source, want = '#include <stdio.h>\n#include "trails.h"\nint main(void) {\n', []
        for name, struct in structs.items():
            sizes = [f"sizeof(struct trails_{name})"]
            want.append(trails.ctypes.sizeof(struct))
            for field, *_ in struct._fields_:
                one = getattr(struct, field)
                sizes += [f"offsetof(struct trails_{name}, {field})"]
                sizes += [f"sizeof(((struct trails_{name} *)0)->{field})"]
                want += [one.offset, one.size]
            source += "".join(f'printf("%zu\\n", {size});\n' for size in sizes)
        constants = {"LONGEST": trails._LONGEST, "TEXT": trails._TEXT, "NEVER": trails._NEVER,
                     "ROWS": trails._ROWS}
        for name, number in constants.items():
            source += f'printf("%u\\n", TRAILS_{name});\n'
            want.append(number)
        self.assertEqual(self.printed(source + "return 0;\n}\n"), want)

    def printed(self, source):
        """The numbers that a C program prints."""
        prefix = Path(trails.__file__).resolve().parents[3]
        with tempfile.TemporaryDirectory() as folder:
            program = str(Path(folder) / "sizes")
            words = ["cc", "-I", str(prefix / "include"), "-x", "c", "-", "-o", program]
            subprocess.run(words, input=source, check=True, text=True)
            text = subprocess.run([program], check=True, capture_output=True, text=True).stdout
        return [int(line) for line in text.split()]


if __name__ == "__main__":
    unittest.main()
