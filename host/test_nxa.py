"""Tests of the Python module: the samples of the scope, its refusal table, every buffer size, and what is no bytes at all."""

import doctest
import struct
import unittest

import nxa


def record(n, a, *rows):
    """A record whose head says n and a, with these rows, I and F first; nothing is checked."""
    return b"NXA\1\0" + bytes([n, a]) + struct.pack(f"<{len(rows)}I", *rows)


def uniform(n, a, row):
    return record(n, a, *[row] * (2 + a * n))


def power(letter, length, letters):
    """Only the word of so many times a letter."""
    own = [2 << i for i in range(length)] + [0]
    rows = [own if each == letter else [0] * (length + 1) for each in range(letters)]
    return record(length + 1, letters, 1, 1 << length, *(row for matrix in rows for row in matrix))


X12 = record(4, 2, 1, 3, 2, 4, 1, 8, 1, 1, 8, 8)
X = record(2, 2, 1, 3, 2, 3, 1, 1)
NOTHING = record(0, 2, 0, 0)
EVERYTHING = record(1, 2, 1, 1, 1, 1)
EMPTY_WORD = record(1, 2, 1, 1, 0, 0)
ZEROS = record(1, 2, 1, 1, 1, 0)
ONES = record(1, 2, 1, 1, 0, 1)
ENDING_IN_1 = record(2, 2, 1, 2, 1, 1, 2, 2)
BEGINNING_WITH_1 = record(2, 2, 1, 2, 0, 2, 2, 2)
LENGTHS = record(3, 1, 1, 7, 2, 4, 5)
NONEMPTY = record(2, 1, 1, 2, 2, 2)


class Desk(unittest.TestCase):
    def refused(self, number, record, place, service, *arguments, **room):
        with self.assertRaises(nxa.Refused) as caught:
            service(*arguments, **room)
        told = caught.exception
        self.assertEqual((told.number, told.record, told.place), (number, record, place))
        return told


class Samples(Desk):
    def test_1_words_of_x(self):
        for machine in (X12, X):
            for word, accepted in (("", True), ("0", True), ("1", True), ("000", True), ("00", False), ("001", False)):
                letters = [int(letter) for letter in word]
                for given in (letters, tuple(letters), bytes(letters), bytearray(letters), memoryview(bytes(letters))):
                    self.assertIs(nxa.test(machine, given), accepted)

    def test_2_minimal_of_x12(self):
        self.assertEqual(nxa.minimal(X12), nxa.Minimal(X, 2))
        self.assertEqual(nxa.minimal(X12).dimension, 2)
        self.assertEqual(len(nxa.minimal(X12).record), 31)

    def test_3_x_against_all_words(self):
        self.assertEqual(nxa.compare(X, EVERYTHING), nxa.Comparison(False, b"\0\0", 2))
        self.assertEqual(nxa.compare(EVERYTHING, X12), nxa.Comparison(False, b"\0\0", 1))
        self.assertEqual(nxa.compare(X, X12), nxa.Comparison(True, None, None))

    def test_4_no_states(self):
        self.assertEqual(nxa.minimal(NOTHING), (NOTHING, 0))
        self.assertEqual(nxa.complement(NOTHING), EVERYTHING)
        self.assertEqual(nxa.minimal(EVERYTHING).dimension, 1)

    def test_5_two_paths_each_time(self):
        twice = record(2, 1, 3, 3, 1, 2)
        self.assertFalse(any(nxa.test(twice, [0] * length) for length in range(9)))
        self.assertEqual(nxa.minimal(twice), (record(0, 1, 0, 0), 0))

    def test_6_zeros_and_ones(self):
        self.assertEqual(nxa.minimal(nxa.sum(ZEROS, ONES)).dimension, 2)
        self.assertEqual(nxa.meet(ZEROS, ONES), EMPTY_WORD)
        self.assertEqual(nxa.compare(ZEROS, EMPTY_WORD), (False, b"\0", 1))

    def test_7_the_cycle_of_seven(self):
        self.assertEqual(nxa.minimal(record(7, 1, 1, 23, 2, 4, 8, 16, 32, 64, 1)), (LENGTHS, 3))

    def test_8_mirror(self):
        self.assertEqual(nxa.mirror(ENDING_IN_1), BEGINNING_WITH_1)
        self.assertEqual(nxa.mirror(BEGINNING_WITH_1), ENDING_IN_1)

    def test_9_only_31_zeros(self):
        single = power(0, 31, 1)
        self.assertEqual(nxa.minimal(single), (single, 32))
        self.assertEqual(nxa.compare(single, record(0, 1, 0, 0)), (False, bytes(31), 1))
        self.refused(11, 0, 33, nxa.complement, single)

    def test_10_limits(self):
        for n, a in ((0, 1), (32, 1), (0, 8), (32, 8)):
            self.assertIsNone(nxa.check(uniform(n, a, 0)))
            self.assertEqual(nxa.rewrite(uniform(n, a, 0)), uniform(n, a, 0))
        self.assertEqual(nxa.meet(power(0, 7, 1), power(0, 7, 1)), power(0, 7, 1))

    def test_catalogue(self):
        entries = (NOTHING, EVERYTHING, EMPTY_WORD, ENDING_IN_1, X, LENGTHS)
        self.assertEqual(tuple(nxa.catalogue(number) for number in range(6)), entries)

    def test_product(self):
        self.assertEqual(nxa.product(ZEROS, ONES), record(2, 2, 1, 3, 1, 0, 2, 2))
        self.assertEqual(nxa.product(ONES, ZEROS), record(2, 2, 1, 3, 2, 2, 1, 0))
        self.assertEqual(nxa.product(record(1, 1, 1, 1, 1), record(1, 1, 1, 1, 1)), record(2, 1, 1, 1, 2, 1))  # k + 1 cuts of k letters
        for neutral in (nxa.product(X12, EMPTY_WORD), nxa.product(EMPTY_WORD, X12)):
            self.assertEqual(neutral, X)
        for none in (nxa.product(X12, NOTHING), nxa.product(NOTHING, X12)):
            self.assertEqual(none, NOTHING)
        self.assertEqual(nxa.product(power(0, 15, 1), power(0, 16, 1)), power(0, 31, 1))

    def test_star(self):
        self.assertEqual(nxa.star(NONEMPTY), record(2, 1, 1, 3, 2, 0))  # the empty word and 0
        self.assertEqual(nxa.star(NOTHING), EMPTY_WORD)
        self.assertEqual(nxa.star(record(2, 2, 1, 2, 2, 0, 0, 0)), ZEROS)
        self.assertEqual(nxa.star(record(2, 1, 3, 3, 1, 2)), record(1, 1, 1, 1, 0))  # two paths along the empty word

    def test_longest_word(self):
        single = power(0, 31, 1)
        cycle = single[:-4] + struct.pack("<I", 1)
        self.assertEqual(nxa.compare(cycle, single), (False, bytes(nxa.WORD_MAX), 1))


class Refusals(Desk):
    """The refusal table's samples, row by row, for every service that can meet them."""

    ONE = (nxa.check, nxa.rewrite, nxa.minimal, nxa.complement, nxa.mirror, nxa.star, lambda given: nxa.test(given, []))
    TWO = (nxa.compare, nxa.sum, nxa.meet, nxa.product)

    def test_1_to_7(self):
        rows = ((1, 0, b""), (1, 6, X[:6]), (2, 2, b"NXB" + X[3:]), (3, 3, b"NXA\2" + X[4:]), (4, 5, uniform(33, 1, 0)),
                (5, 6, uniform(1, 9, 0)), (5, 6, uniform(1, 0, 0)), (6, 15, uniform(0, 1, 0) + b"\0"), (7, 7, record(1, 1, 2, 0, 0)),
                (7, 11, record(1, 1, 0, 2, 0)), (7, 15, record(1, 1, 0, 0, 2)))
        for number, place, bad in rows:
            for service in self.ONE:
                self.refused(number, 1, place, service, bad)
            for service in self.TWO:
                self.refused(number, 1, place, service, bad, b"")
                if bad:  # else a blank
                    self.refused(number, 2, place, service, X, bad)

    def test_8_unlike_letters(self):
        for service in self.TWO:
            self.refused(8, 2, 6, service, record(0, 1, 0, 0), record(0, 2, 0, 0))

    def test_10_and_11_too_large(self):
        self.refused(10, 0, 72, nxa.meet, power(0, 8, 1), power(0, 7, 1))
        self.refused(11, 0, 40, nxa.sum, power(0, 20, 2), power(1, 20, 2))
        self.refused(11, 0, 33, nxa.product, power(0, 16, 1), power(0, 16, 1))
        self.refused(11, 0, 63, nxa.product, power(0, 31, 8), power(7, 31, 8), room=0)
        cycle = power(0, 31, 1)[:-4] + struct.pack("<I", 1)
        self.refused(11, 0, 64, nxa.product, cycle, cycle)
        self.refused(11, 0, 33, nxa.star, cycle)
        self.refused(11, 0, 33, nxa.star, cycle, room=0)

    def test_13_no_entry(self):
        for number in (6, 255, 2 ** 32, nxa._SIZE_MAX):
            self.refused(13, 0, number, nxa.catalogue, number)
            self.refused(13, 0, number, nxa.catalogue, number, room=0)

    def test_14_the_empty_word(self):
        for accepting in (X12, X, EVERYTHING, EMPTY_WORD, uniform(31, 8, 2 ** 31 - 1), power(7, 0, 8)):
            self.refused(14, 1, 0, nxa.star, accepting)
            self.refused(14, 1, 0, nxa.star, accepting, room=0)
        self.refused(7, 1, 15, nxa.star, record(1, 1, 1, 1, 2))
        self.refused(7, 1, 11, nxa.star, record(1, 1, 1, 3, 1))

    def test_in_words(self):
        self.assertEqual(str(self.refused(1, 1, 0, nxa.test, b"", [255])),
                         "refused (1, record 1): the record is shorter than 7 bytes; its length: 0")
        self.assertEqual(str(self.refused(13, 0, 6, nxa.catalogue, 6)),
                         "refused (13): there is no such number in the catalogue; the number: 6")
        self.assertEqual(str(self.refused(14, 1, 0, nxa.star, X)),
                         "refused (14, record 1): the record accepts the empty word, so that it has no star; the place: 0")
        self.assertEqual(sorted(nxa._REASONS), [number for number in range(1, 15) if number != 9])
        self.assertIn("unknown", str(nxa.Refused(99, 0, 0)))


class ForeignLetters(Desk):
    """A word with a letter outside the alphabet is not accepted, wherever that letter comes."""

    def test_each_place(self):
        for letters in (1, 2, 8):
            last = letters - 1
            word = [0, last, last, 0, last]
            everything, largest = uniform(1, letters, 1), uniform(31, letters, 2 ** 31 - 1)
            for machine in (everything, largest, power(last, 0, letters), record(0, letters, 0, 0)):
                for foreign in (letters, 2 * letters, 128, 255):
                    for place in range(len(word) + 1):
                        self.assertIs(nxa.test(machine, word[:place] + [foreign] + word[place:]), False)
                    for given in ([foreign], (foreign,), bytes([foreign]), bytes([foreign]) * 1000):
                        self.assertIs(nxa.test(machine, given), False)
            for machine in (everything, largest):
                self.assertIs(nxa.test(machine, word), True)

    def test_long_words(self):
        word = bytes([0, 1, 1]) * 30000
        self.assertIs(nxa.test(EVERYTHING, word), True)
        for pasted in (word + b"\2", b"\2" + word, word + b"\2" + word):
            self.assertIs(nxa.test(EVERYTHING, pasted), False)


class Blanks(Desk):
    """A second record of 0 bytes is the machine with no states over the first one's letters."""

    def test_same_as_no_states(self):
        for letters in range(1, 9):
            nothing = record(0, letters, 0, 0)
            for first in (nothing, uniform(1, letters, 1), uniform(32, letters, 0xFFFFFFFF), power(letters - 1, 31, letters)):
                for blank in (b"", bytearray(), memoryview(b"")):
                    for service in (nxa.compare, nxa.sum, nxa.meet, nxa.product):
                        self.assertEqual(service(first, blank), service(first, nothing))

    def test_words(self):
        self.assertEqual(nxa.compare(NOTHING, b""), nxa.Comparison(True, None, None))
        self.assertEqual(nxa.compare(X, b""), nxa.Comparison(False, b"", 1))
        self.assertEqual(nxa.compare(power(7, 31, 8), b""), nxa.Comparison(False, b"\7" * 31, 1))
        self.assertEqual(nxa.sum(X12, b""), X)
        self.assertEqual(nxa.meet(X12, b""), NOTHING)
        self.assertEqual(nxa.product(X12, b""), NOTHING)

    def test_first_is_none(self):
        for service in (nxa.compare, nxa.sum, nxa.meet, nxa.product):
            self.refused(1, 1, 0, service, b"", b"")
            self.refused(1, 1, 0, service, b"", X)


class Rooms(Desk):
    """Row 12: every size of buffer up to one byte more than is needed, and the largest results."""

    def rooms(self, service, *arguments, needed):
        whole = service(*arguments)
        for room in range(needed):
            self.refused(12, 0, needed, service, *arguments, room=room)
        for room in (needed, needed + 1, 2000):
            self.assertEqual(service(*arguments, room=room), whole)

    def test_12_records(self):
        self.rooms(nxa.rewrite, X12, needed=47)
        self.rooms(nxa.minimal, X12, needed=31)
        self.rooms(nxa.sum, X, EVERYTHING, needed=39)
        self.rooms(nxa.meet, X, EVERYTHING, needed=31)
        self.rooms(nxa.sum, X12, b"", needed=31)
        self.rooms(nxa.meet, X12, b"", needed=15)
        self.rooms(nxa.complement, X, needed=39)
        self.rooms(nxa.mirror, X, needed=31)
        self.rooms(nxa.product, X, EVERYTHING, needed=39)
        self.rooms(nxa.product, X12, b"", needed=15)
        self.rooms(nxa.star, NONEMPTY, needed=23)
        self.rooms(nxa.star, ENDING_IN_1, needed=31)
        self.rooms(nxa.catalogue, 4, needed=31)

    def test_12_words(self):
        self.rooms(nxa.compare, X, EVERYTHING, needed=2)
        self.rooms(nxa.compare, power(0, 31, 1), record(0, 1, 0, 0), needed=31)
        self.rooms(nxa.compare, X, X12, needed=0)
        self.rooms(nxa.compare, EVERYTHING, NOTHING, needed=0)
        self.rooms(nxa.compare, power(0, 31, 1), b"", needed=31)
        self.rooms(nxa.compare, NOTHING, b"", needed=0)

    def test_largest(self):
        full = power(7, 31, 8)
        self.assertEqual(len(full), nxa.RECORD_MAX)
        for service in (nxa.rewrite, nxa.mirror, lambda given: nxa.sum(given, record(0, 8, 0, 0)),
                        lambda given: nxa.product(given, power(0, 0, 8)), lambda given: nxa.minimal(given).record):
            self.assertEqual(service(full), full)


class Arguments(Desk):
    """What is no bytes, no letters or no size is told before the desk is called."""

    def test_no_bytes(self):
        for wrong in (None, 5, "NXA", [78, 88, 65]):
            self.assertRaises(TypeError, nxa.check, wrong)
            self.assertRaises(TypeError, nxa.compare, X, wrong)
            self.assertRaises(TypeError, nxa.product, wrong, X)
            self.assertRaises(TypeError, nxa.star, wrong)

    def test_no_letters(self):
        for wrong in (None, 5, "00"):
            self.assertRaises(TypeError, nxa.test, X, wrong)
        for wrong in ([256], [-1]):
            self.assertRaises(ValueError, nxa.test, X, wrong)

    def test_no_size(self):
        for wrong in (-1, 2 ** 64):
            self.assertRaises(ValueError, nxa.catalogue, wrong)
        self.assertRaises(ValueError, nxa.rewrite, X, room=-1)
        self.assertRaises(TypeError, nxa.catalogue, 1.0)

    def test_inputs_are_kept(self):
        lent = bytearray(X12)
        nxa.minimal(lent)
        self.assertEqual(lent, X12)


class Marking(Desk):
    def test_sample(self):
        script = nxa.catalogue(4) + X12 + nxa.catalogue(1)
        self.assertEqual(nxa.mark(script),
                         ["0 key dim 2", "1 same dim 2", "2 differ dim 1 word 00 accepted-by answer"])
        self.assertIsNone(nxa.mark_line(script, 3))
        self.assertIsNone(nxa.mark_line(script, nxa._SIZE_MAX))

    def test_no_lines(self):
        self.assertEqual(nxa.mark(b""), [])
        for index in (0, 1, 2, 4370, nxa._SIZE_MAX):
            for room in (0, 1, 160):
                self.assertIsNone(nxa.mark_line(b"", index, room=room))

    def test_refused_lines(self):
        for length in range(1, 7):
            self.assertEqual(nxa.mark(X[:length]), [f"0 refused 1 {length}"])
        self.assertEqual(nxa.mark(X + record(0, 1, 0, 0) + record(1, 2, 2, 0, 0, 0) + EMPTY_WORD + X[:9]),
                         ["0 key dim 2", "1 refused 8 6", "2 refused 7 7", "3 differ dim 1 word 0 accepted-by key", "4 refused 6 31"])
        self.assertEqual(nxa.mark(b"NXB" + X[3:] + X), ["0 refused 2 2"])

    def test_longest(self):
        single = power(7, 31, 8)
        answers = [single[:-4] + struct.pack("<I", 1)] + [single] * 20
        self.assertEqual(nxa.mark(b"".join(answers))[20], "20 differ dim 32 word " + "7" * 63 + " accepted-by key")
        self.assertEqual(nxa.mark(NOTHING * 4369)[-1], "4368 same dim 0")
        self.assertEqual(nxa.mark(bytes(65537)), ["too long"])

    def test_12(self):
        script = X + EMPTY_WORD
        for room in range(12):
            self.refused(12, 0, 12, nxa.mark_line, script, 0, room=room)
        self.assertEqual(nxa.mark_line(script, 0, room=12), "0 key dim 2")
        self.assertIsNone(nxa.mark_line(script, 2, room=0))


def load_tests(loader, tests, pattern):
    """The examples in the module's text are tests too."""
    tests.addTests(doctest.DocTestSuite(nxa))
    return tests


if __name__ == "__main__":
    unittest.main()
