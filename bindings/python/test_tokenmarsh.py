"""The doors from Python: `python3 -m unittest` in this folder, after `make test` laid down the table of the header's layout."""
import array
import ctypes
import doctest
import os
import random
import threading
import unittest

import find
import tokenmarsh
from tokenmarsh import Alternatives, Byte, Forward, Jump, Mask, MaskedByte, NotByte, NotMaskedByte, Refusal, Refused, Reverse

# The longest jump that is compiled.
LONGEST = 65535


def word(kind, first=0, second=0):
    """A node word by its kind and fields."""
    return kind + (first << 8) + (second << 24)


def placed(node):
    """Programs with a node as the only one, then as the first, the middle and the last of three: of a program, and of each branch of three."""
    three = [[0x4100] * k + [node] + [0x4100] * (2 - k) for k in range(3)]
    outside = [[node], *three]
    inside = []
    for at in range(3):
        for nodes in three:
            branches = [[word(7, 3), *(nodes if k == at else [0x4200] * 3)] for k in range(3)]
            inside.append([0x4300, word(6, 12), *branches[0], *branches[1], *branches[2], 0x4400])
    return outside, inside


def some_tokens(dice, most, nested=False):
    """One to so many tokens of bytes that `some_bytes` has, as a text."""
    def one():
        kind = dice.randrange(12)
        if kind < 2 and not nested:
            return "(" + "|".join(some_tokens(dice, 3, True) for _ in range(dice.randint(1, 3))) + ")"
        if kind < 4 and not nested:
            return dice.choice(("[2]", "[0-2]", "[1-3]"))
        return dice.choice(("41", "42", "43", "00", "20", "?1", "4?", "~41", "~?2", "??"))
    return " ".join(one() for _ in range(dice.randint(1, most)))


def some_bytes(dice, most):
    return bytes(dice.choice(b"ABC\0 ") for _ in range(dice.randint(0, most)))


class Doors(unittest.TestCase):
    def refused(self, call, number, place=0):
        with self.assertRaises(Refused) as caught:
            call()
        self.assertEqual((caught.exception.refusal, caught.exception.place), (number, place))

    def test_refusals_have_their_places(self):
        for text, number, place in (
            (b"{ AB [0] CD }", 4, 5), (b"{ [5] AB }", 6, 2), (b"{ AB (CD [201] EF) }", 8, 9), (b"{ ~?? }", 9, 2), (b"{ ??? }", 2, 4),
            (b"{ AB [2-3] [x }", 6, 2), (b"{ AB [x }", 2, 5), (b"{ (AB|) }", 2, 5), (b"{ AB [4294967296] CD }", 3, 6), (b"", 2, 0), (b"{" * 4097, 1, 0),
        ):
            for door in (tokenmarsh.read, tokenmarsh.compile, tokenmarsh.literals):
                self.refused(lambda: door(text), number, place)

    def test_tokens_are_nested(self):
        r = tokenmarsh.read(b"{ AB ~?c [4-] ( 01 | 2? [1] ) 03 } zz")
        self.assertEqual(r.reached, 35)
        self.assertEqual(r.tokens, (Byte(0xAB), NotMaskedByte(0xC, Mask.LEFT), Jump(4, None),
                                    Alternatives(((Byte(1),), (MaskedByte(2, Mask.RIGHT), MaskedByte(0, Mask.ALL)))), Byte(3)))

    def test_a_token_is_not_its_negation(self):
        self.assertNotEqual(tokenmarsh.read(b"{ AB }").tokens, tokenmarsh.read(b"{ ~AB }").tokens)
        self.assertNotEqual(tokenmarsh.read(b"{ 2? }").tokens, tokenmarsh.read(b"{ ~2? }").tokens)
        self.assertEqual(tokenmarsh.read(b"{ ~AB }").tokens, (NotByte(0xAB),))

    def test_programs(self):
        self.assertEqual(tokenmarsh.compile(b"{ A? }").forward.words, (0xF000A001,))
        self.assertEqual(repr(tokenmarsh.compile(b"{ A? }").reverse), "Reverse([0x00F000A001])")
        self.assertEqual(tokenmarsh.compile(b"{ AB [256-65535] CD }").forward.words, (0xAB00, word(4, 256, LONGEST), 0xCD00))
        for jump in ("[65536]", "[0-65536]", "[4294967295]", "[65535-]", "[-]"):
            self.refused(lambda: tokenmarsh.compile(b"{ AB %s CD }" % jump.encode()), Refusal.NOT_SIMPLE)
        # between AB and CD, what jumps become forward and in reverse
        for jumps, ahead, back in (("[100] [200] [50] [100]", [450], [450]), ("[25000] [50000] [12000] [25000]", [25000, 62000, 25000], [37000, 50000, 25000]),
                                   ("[256]", [256], [256]), ("[65535]", [LONGEST], [LONGEST]), ("[65534] ??", [LONGEST], [LONGEST]), ("[65535] ??", [LONGEST, 1], [1, LONGEST])):
            pattern = tokenmarsh.compile(b"{ AB %s CD }" % jumps.encode())
            self.assertEqual(pattern.forward.words, (0xAB00, *(word(3, n) for n in ahead), 0xCD00), jumps)
            self.assertEqual(pattern.reverse.words, (0xCD00, *(word(3, n) for n in back), 0xAB00), jumps)
        for kind in (Forward, Reverse):
            self.refused(lambda: kind([7]), Refusal.UNSOUND)
            self.refused(lambda: kind([7] * 513), Refusal.TOO_MANY_NODES)
            self.assertEqual(kind([]).mirror().mirror(), kind([]))
            with self.assertRaises(AttributeError):
                kind([]).words = (7,)
        self.assertEqual((Forward([]).end(b""), Reverse([]).start(b"ab")), (0, 2))

    def test_a_program_has_one_direction(self):
        pattern = tokenmarsh.compile(b"{ 61 }")
        self.assertEqual(pattern.forward.words, pattern.reverse.words)
        self.assertNotEqual(pattern.forward, pattern.reverse)
        self.assertFalse(hasattr(pattern.forward, "start") or hasattr(pattern.reverse, "end"))

    WORD_DOORS = (Forward, Reverse, tokenmarsh.mirror, lambda w: tokenmarsh.forward(w, b"", 0, 0), lambda w: tokenmarsh.reverse(w, b"", 0, 0))

    def test_words_have_64_bits(self):
        # the last is 0 in 64 bits, and that word is sound
        for words in ((-1,), [0, (1 << 64) + 1], [1 << 64]):
            for door in (tokenmarsh.sound, *self.WORD_DOORS):
                with self.assertRaises(ValueError) as caught:
                    door(words)
                self.assertNotIsInstance(caught.exception, Refused)
        for words in ([0.0], ["0"], [None], "0", 0):
            for door in (tokenmarsh.sound, *self.WORD_DOORS):
                self.assertRaises(TypeError, door, words)
        # to Python a bool is a number
        self.assertEqual(Forward([False]).words, (0,))
        self.unsound([(1 << 64) - 1])

    def unsound(self, words):
        self.assertFalse(tokenmarsh.sound(words), words)
        for door in self.WORD_DOORS:
            self.refused(lambda: door(words), Refusal.UNSOUND)

    def sound(self, words):
        """No door refuses the words, nor their mirror, whose own mirror they are."""
        self.assertTrue(tokenmarsh.sound(words), words)
        for door in self.WORD_DOORS:
            door(words)
        self.assertTrue(tokenmarsh.sound(tokenmarsh.mirror(words)), words)
        self.assertEqual(tokenmarsh.mirror(tokenmarsh.mirror(words)), tuple(words))

    def test_unsound_words(self):
        # all above the fields
        for bit in range(40, 64):
            self.unsound([0x4100 + (1 << bit)])
        # the second field begins at 2^24, and not at 2^16
        self.assertTrue(tokenmarsh.sound([word(4, 1, 2)]))
        self.unsound([4 + 256 * 1 + 65536 * 2])
        self.unsound([word(4, 2, 1)])
        # values and masks are bytes
        for one in (word(0, 256), word(1, 256, 255), word(1, 0, 256), word(2, 256, 255), word(2, 0, 256)):
            self.unsound([one])
        # a branch has at most 255 words; an alternation may count more, and in its first field alone
        def branch(count):
            return [word(7, count)] + [0x4100] * count
        self.assertTrue(tokenmarsh.sound([word(6, 256), *branch(255)]))
        self.unsound([word(6, 257), *branch(256)])
        self.assertTrue(tokenmarsh.sound([word(6, 511), *branch(255), *branch(254)]))
        self.unsound([word(6, 2, 1), word(7, 1), 0x4100])
        self.unsound([word(7, 1), 0x4100])

    def test_nodes_that_cannot_have_been_meant(self):
        # each bit of a value alone outside its mask, and a jump of 0
        outside_their_masks = [word(kind, value, mask) for kind in (1, 2) for k in range(8) for value, mask in ((1 << k, 0), (1 << k, 255 - (1 << k)), (255, 255 - (1 << k)))]
        for node in (*outside_their_masks, word(3)):
            for words in sum(placed(node), []):
                self.unsound(words)
        # a branch without nodes: the only one, and the first, the middle, the last and all of three, before, between and after other items
        self.unsound([word(6, 1), word(7)])
        for full in range(8):
            branches = sum(([word(7, 1), 0x4100] if full >> k & 1 else [word(7)] for k in range(3)), [])
            for before in range(3):
                words = [*[0x4200] * before, word(6, len(branches)), *branches, *[0x4300] * (2 - before)]
                (self.sound if full == 7 else self.unsound)(words)

    def test_what_stands_next_to_these_stays_sound(self):
        self.sound([])
        # a value that is its mask, that is under it, that is 0, and nothing at all; the shortest jump; what merely has a 0
        under_their_masks = [word(kind, 1 << k, mask) for kind in (1, 2) for k in range(8) for mask in (1 << k, 255)]
        for node in (*under_their_masks, word(1), word(2), word(1, 0, 15), word(2, 0, 15), word(3, 1), word(3, 256), word(0), word(5)):
            for words in sum(placed(node), []):
                self.sound(words)
        # a range of 0 to 0 is one, and stands in no branch
        outside, inside = placed(word(4))
        for words in outside:
            self.sound(words)
        for words in inside:
            self.unsound(words)
        # they mean what they meant
        for window in (b"\0\0", b"AA", b"\xff\xff"):
            self.assertEqual([Forward([word(kind)]).end(window) for kind in (1, 2, 4)], [1, None, 0], window)

    def test_compiled_programs_and_their_mirrors_are_sound(self):
        digits = [spelt % digit for digit in range(16) for spelt in ("?%X", "%X?", "~?%X", "~%X?")]
        texts = [text for one in (*digits, "00", "~00", "FF", "~FF", "??", "[1]") for text in (one, f"({one})", f"41 {one} ({one} | ?? | {one}) [0-2] {one}")]
        texts += ["41 [2] 42", "41 [-65535] [65535] [65535] ?? 42", "(41 [200] [200] 42 | 43)", "~?0 " * 512, "(41)" * 170, f"({'~0? ' * 255})"]
        for text in texts:
            pattern = tokenmarsh.compile(b"{ %s }" % text.encode())
            self.sound(pattern.forward.words)
            self.sound(pattern.reverse.words)

    def test_fields_have_their_width(self):
        for gap in (0, 1, 2, 3, 44, 255, 256, 300, 301, LONGEST - 1, LONGEST, LONGEST + 1):
            window = b"B" + bytes(gap) + b"A"
            for one, fits in ((word(4, 1, 2), 1 <= gap <= 2), (word(4, 256, 300), 256 <= gap <= 300), (word(4, 0, LONGEST), gap <= LONGEST),
                              (word(3, 300), gap == 300), (word(3, LONGEST), gap == LONGEST)):
                program = Forward([0x4200, one, 0x4100])
                self.assertEqual((program.end(window), program.mirror().start(window)), (len(window), 0) if fits else (None, None), (hex(one), gap))

    def test_lengths_do_not_overflow(self):
        # the most that a program can ask for, in as many bytes, one fewer, and as many as 8 and 16 bits of their number say
        program, window = Forward([word(3, LONGEST)] * 512), bytes(512 * LONGEST)
        self.assertEqual((program.end(window), program.mirror().start(window)), (len(window), 0))
        for length in (len(window) - 1, len(window) & 255, len(window) & 65535):
            self.assertEqual((program.end(window[:length]), program.mirror().start(window[:length])), (None, None), length)

    def test_the_longest_match(self):
        short, long = [word(7, 1), word(3, 7)], [word(7, 2), word(3, 300), 0x4100]
        alternation = [word(6, 2 * 129 + 3), *short * 129, *long]
        for words, due in (([], 0), ([0x4100, word(1, 0xA0, 0xF0), word(2, 0, 255), word(5)], 4), ([word(3, 300)], 300), ([word(4, 256, LONGEST)], LONGEST),
                           ([*alternation, 0x4100], 302), ([word(3, LONGEST)] * 512, 512 * LONGEST)):
            self.assertTrue(tokenmarsh.sound(words))
            self.assertEqual(find.longest(words), due)

    def test_first_choice(self):
        self.assertEqual(tokenmarsh.compile(b"{ (61|61 62) 63 }").forward.end(b"abc"), 3)
        friend = tokenmarsh.compile(b"{ (61|62 61) }")
        self.assertEqual(friend.reverse.start(b"ba"), 1)
        self.assertEqual(friend.forward.mirror().start(b"ba"), 1)
        self.assertEqual(bytes(tokenmarsh.compile(b"{ 61 }").forward.tail(b"abc")), b"bc")
        # where the tail starts is not the count of words
        self.assertEqual(bytes(tokenmarsh.compile(b"{ 61 [0-2] 63 }").forward.tail(b"acde")), b"de")

    def test_a_tail_tells_no_match_from_an_empty_one(self):
        program = tokenmarsh.compile(b"{ 61 62 }").forward
        self.assertEqual([program.tail(window) for window in (b"abc", b"ab", b"a", b"xab", b"")], [b"c", b"", None, None, None])
        self.assertEqual([Forward([]).tail(window) for window in (b"ab", b"")], [b"ab", b""])

    def test_windows(self):
        for check in (tokenmarsh.forward, tokenmarsh.reverse):
            self.assertEqual(check([], b"abc", 3, 3), 3)
            # the last two are 0 and 3 in 64 bits
            for start, end in ((2, 1), (0, 4), (-1, 3), (0, -1), ((1 << 64) - 1, (1 << 64) - 1), (1 << 64, 3), (-(1 << 64), 3), (0, (1 << 64) + 3)):
                self.refused(lambda: check([], b"abc", start, end), Refusal.BAD_WINDOW)
            # 16 comes before 13, and that before 15
            for words in ([word(7, 1)], [word(1, 1)], [word(2, 1)], [word(3)], [word(6, 1), word(7)]):
                many = words + [0x4100] * 512
                self.refused(lambda: check(many, b"abc", 2, 1), Refusal.BAD_WINDOW)
                self.refused(lambda: check(words, b"abc", 0, 4), Refusal.BAD_WINDOW)
                self.refused(lambda: check(many, b"abc", 0, 3), Refusal.TOO_MANY_NODES)
                self.refused(lambda: check(words, b"abc", 0, 3), Refusal.UNSOUND)
                for kind in (Forward, Reverse, tokenmarsh.mirror):
                    self.refused(lambda: kind(many), Refusal.TOO_MANY_NODES)
            self.assertRaises(TypeError, check, [], b"abc", 0.0, 3)
            self.assertRaises(TypeError, check, [], b"abc", None, 3)

    def test_whatever_holds_bytes(self):
        program = tokenmarsh.compile(bytearray(b"{ 61 }")).forward
        self.assertEqual(program, tokenmarsh.compile(memoryview(b"x{ 61 }")[1:]).forward)
        for window in (b"abc", bytearray(b"abc"), memoryview(b"xabc")[1:], memoryview(b"a_b_c")[::2], array.array("B", b"abc")):
            self.assertEqual(program.end(window), 1)
            self.assertEqual(bytes(program.tail(window)), b"bc")
        window = bytearray(b"abc")
        program.tail(window)[0] = 0x7A
        self.assertEqual(window, b"azc")

    def test_what_holds_no_bytes(self):
        program, back, _ = tokenmarsh.compile(b"{ 61 }")
        # a number is no count of zeros, and four bytes are no item
        for thing in (3, -1, "abc", [0x61], None, array.array("I", [0x61]), memoryview(b"abcd").cast("B", (2, 2)), memoryview(b"abcd").cast("H"),
                      memoryview(b"a").cast("B", ())):
            for door in (tokenmarsh.read, tokenmarsh.compile, tokenmarsh.literals, program.end, program.tail, back.start,
                         lambda w: tokenmarsh.forward([], w, 0, 0), lambda w: tokenmarsh.reverse([], w, 0, 0)):
                self.assertRaises(TypeError, door, thing)

    def test_any_bytes_are_a_text(self):
        for text in (b"\xff\xfe", b"{ \x80 }", b"{ 41\x00 }", b"\x00" * 4096):
            for door in (tokenmarsh.read, tokenmarsh.compile, tokenmarsh.literals):
                with self.assertRaises(Refused) as caught:
                    door(text)
                self.assertEqual(caught.exception.refusal, Refusal.UNEXPECTED)
        self.assertEqual(tokenmarsh.read(b"{ 41 }\xff").reached, 6)

    def test_literals(self):
        r = tokenmarsh.literals(b"{ 01 02 ?3 04 }")
        self.assertEqual((r.rank, len(r.literals), r.literals[0]), (70, 16, b"\x01\x02\x03\x04"))
        r = tokenmarsh.literals(b"{ ?1 (AA | BB CC) }")
        self.assertEqual((r.rank, len(r.literals), r.literals[16]), (30, 32, b"\x01\xBB\xCC"))
        # more bytes than there can be literals
        due = tuple(bytes((n, 0x41)) for n in range(200))
        self.assertEqual(tokenmarsh.literals(b"{ (%s) }" % "|".join(one.hex() for one in due).encode()).literals, due)
        self.assertEqual(tokenmarsh.literals(b"{ ?? }"), ((), 0, 6))
        self.refused(lambda: tokenmarsh.literals(b"{ (41|??) }"), Refusal.NOT_PLAIN)
        self.refused(lambda: tokenmarsh.literals(b"{ (" + b"41|" * 256 + b"41) }"), Refusal.TOO_MANY_LITERALS)

    def test_every_match_holds_a_literal(self):
        dice, matches = random.Random(1), 0
        for _ in range(4000):
            text = f"{{ 41 {some_tokens(dice, 5)} {dice.choice(('41', '42', '?3'))} }}".encode()
            try:
                pattern, picked = tokenmarsh.compile(text), tokenmarsh.literals(text)
            except Refused:
                continue
            for _ in range(8):
                window = b"A" + some_bytes(dice, 10)
                end = pattern.forward.end(window)
                if end is not None and picked.literals:
                    matches += 1
                    self.assertTrue(any(one in window[:end] for one in picked.literals), (text, window[:end]))
        self.assertGreater(matches, 1000)

    def test_much_is_refused(self):
        for text in (b"{" + b"4" * (10 << 20), bytearray(10 << 20)):
            for door in (tokenmarsh.read, tokenmarsh.compile, tokenmarsh.literals):
                self.refused(lambda: door(text), Refusal.TEXT_TOO_LONG)
        for words in ([0] * 4096, [7] * 4096):
            for door in (Forward, Reverse, tokenmarsh.mirror, lambda w: tokenmarsh.forward(w, b"", 0, 0), lambda w: tokenmarsh.reverse(w, b"", 0, 0)):
                self.refused(lambda: door(words), Refusal.TOO_MANY_NODES)
            self.assertFalse(tokenmarsh.sound(words))

    def test_eight_threads_at_once(self):
        seen = [None] * 8

        def work(k):
            ends, counts = set(), set()
            for _ in range(100):
                ends.add(tokenmarsh.compile(b"{ %02X [%d] 63 }" % (k, k + 2)).forward.end(bytes([k]) + b"x" * (k + 2) + b"c"))
                counts.add(len(tokenmarsh.literals(b"{ (%s41) }" % (b"41|" * k)).literals))
                self.refused(lambda: tokenmarsh.read(b"{ %sg }" % (b"41 " * k)), Refusal.UNEXPECTED, 3 * k + 2)
            # only if nothing failed before
            seen[k] = ends, counts
        threads = [threading.Thread(target=work, args=(k,)) for k in range(8)]
        for thread in threads:
            thread.start()
        for thread in threads:
            thread.join()
        self.assertEqual(seen, [({k + 4}, {k + 1}) for k in range(8)])

    def test_examples(self):
        self.assertEqual(doctest.testmod(tokenmarsh, verbose=False).failed, 0)

    def test_fields_stand_where_the_header_has_them(self):
        here = os.path.dirname(os.path.abspath(__file__))
        try:
            with open(os.path.join(here, "..", "..", "target", "bindings", "layout.txt"), encoding="utf-8") as f:
                table = f.read().splitlines()
        except FileNotFoundError:
            self.fail("the table that bindings/c/layout.c prints is laid down by `make test`")
        ours = []
        for name in ("Read", "Compile", "Literals", "Check", "Tail", "Mirror"):
            struct, c_name = getattr(tokenmarsh, f"_{name}Result"), f"tm_{name.lower()}_result"
            ours.append(f"{c_name} {ctypes.sizeof(struct)}")
            for field, _ in struct._fields_:
                ours.append(f"{c_name} {field} {getattr(struct, field).offset} {getattr(struct, field).size}")
        self.assertEqual(ours, table)


if __name__ == "__main__":
    unittest.main()
