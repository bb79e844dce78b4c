"""Byte patterns in YARA's hexadecimal strings, read, compiled, searched and picked from by proved code.

    >>> import tokenmarsh
    >>> pattern = tokenmarsh.compile(b"{ 61 [0-2] 63 }")
    >>> pattern.forward.end(b"abcd")
    3
    >>> pattern.reverse.start(b"xabc")
    1
    >>> tokenmarsh.literals(b"{ 61 [0-2] 63 }")
    Literals(literals=(b'c',), rank=20, reached=15)

A pattern, a window and a haystack are `bytes` or anything whose items are bytes: a bytearray, a memoryview, an mmap. What is not `bytes` itself is copied by
each call, so a long haystack that is searched at many places should be `bytes`, and the places the numbers that `forward` and `reverse` take.

A call that has no answer raises `Refused`, which has the refusal's number and its place in the text, and says what was expected and what stands there. What is
no bytes at all is a TypeError, and a word that is negative or has more than 64 bits a ValueError. An answer that no library of this version gives is a RuntimeError.

What follows a pattern's closing brace and its blanks is ignored; `reached` is where it begins. Patterns of others should be taken by `strict=True`:

    >>> tokenmarsh.compile(b"{ 4D 5A } 90 00 }").reached
    10
    >>> tokenmarsh.compile(b"{ 4D 5A } 90 00 }", strict=True)
    Traceback (most recent call last):
        ...
    tokenmarsh.Leftover: refused at 10: text after the closing brace: expected nothing after the '}' at 8, found '9'

A check is anchored: `end` tells of a match that starts with the window's first byte, `start` of one that ends with its last. To search a file, look for the
literals first and check about these; find.py in bindings/python does so.

Figures are those of an older toolchain. A call was seen to take up to 73,872 bytes of stack. Python's threads have as much as `ulimit -s` says, usually 8 MiB; if `threading.stack_size` gives them
less, 256 KiB are enough.

A check tries the lengths of a range one after another, so that ranges multiply its time: `41 [0-255]` once, twice, three and four times, and then `42`, took
3 µs, 0.3 ms, 70 ms and 14.7 s at the first of 4,096 bytes 41, and `41 [0-65535]` twice some 30 s at the first of 200,000. It ends, but nothing ends
it sooner, and Ctrl-C waits for it: bound the ranges of patterns that others write, or check in a process that can be ended. `literals` takes up to some milliseconds, all else microseconds.

The work is done by libtokenmarsh.so: the file that TOKENMARSH_SO names, or the repository's own build, or the one in the lib folder that this package is
installed in, or the one that the system finds. An ImportError names the file if it is none.
"""
import ctypes
import enum
import mmap
import operator
import os
from dataclasses import dataclass
from typing import Any, Iterable, List, NamedTuple, Optional, Sequence, Tuple, Union

from . import _messages

__version__ = "0.4.0"

__all__ = ["Buffer", "Refusal", "Refused", "Leftover", "Mask", "Byte", "NotByte", "MaskedByte", "NotMaskedByte", "Jump", "Alternatives", "Token", "Read", "Forward", "Reverse",
           "Pattern", "Literals", "read", "compile", "literals", "forward", "reverse", "mirror", "sound"]

TOKEN_POOL = 4096
NODE_POOL = 512
# 256 literals of 512 bytes are the most that there can be.
LITERAL_BYTES = 256 * 512
LITERAL_COUNT = 256

# Type checkers have no name for what holds bytes before Python 3.12; others than these are taken as well.
Buffer = Union[bytes, bytearray, memoryview, mmap.mmap]


class Refusal(enum.IntEnum):
    """Why a call gives no answer: a number, and its `meaning` in the words of include/tokenmarsh.h."""

    meaning: str

    def __new__(cls, number: int, meaning: str = "") -> "Refusal":
        one = int.__new__(cls, number)
        one._value_, one.meaning = number, meaning
        return one

    TEXT_TOO_LONG = 1, "text above 4,096 bytes"
    UNEXPECTED = 2, "something needed isn't there"
    NUMBER_TOO_BIG = 3, "number above 4,294,967,295"
    JUMP_EMPTY = 4, "an empty jump"
    JUMP_RANGE_INVALID = 5, "a jump whose from is above its to"
    JUMP_AT_BOUND = 6, "a list begins with a jump, or has two or more tokens and ends with one"
    JUMP_UNBOUNDED_IN_ALTERNATION = 7, "unbounded jump in alternatives"
    JUMP_TOO_BIG_IN_ALTERNATION = 8, "jump above 200 in alternatives"
    CANNOT_NEGATE_MASK_ALL = 9, "~??, which fits no byte"
    HEX_STRING_TOO_DEEP = 10, "a ninth list level"
    TOO_MANY_TOKENS = 11, "a 513th token"
    NOT_SIMPLE = 12, "not simple"
    TOO_MANY_NODES = 13, "more than 512 nodes"
    BRANCH_TOO_LONG = 14, "a branch above 255 nodes"
    UNSOUND = 15, "unsound program"
    BAD_WINDOW = 16, "window start above its end, or end above the haystack's length"
    TOO_MANY_LITERALS = 17, "a candidate with more than 256 literals"
    NO_ROOM = 18, "a lent buffer is too short"
    NOT_PLAIN = 19, "alternatives not plain"


class Refused(ValueError):
    """A call that is refused: by `number`, which is `refusal` unless this module doesn't know it (then that is None), at `place`, the offset in the text that
    it is given at, 0 where none is meant. For 12 and 19, `token` is the offset of the first token that is the reason."""

    number: Optional[int]
    refusal: Optional[Refusal]
    place: int
    token: Optional[int]

    def __init__(self, number: int, place: int = 0, because: str = "", token: Optional[int] = None) -> None:
        # What an exception is made anew from, when it is copied or sent to another process.
        super().__init__(int(number), place, because, token)
        self.number, self.place, self.token, self._because = int(number), place, token, because
        try:
            self.refusal = Refusal(number)
        except ValueError:
            self.refusal = None

    def __str__(self) -> str:
        if self.refusal is None:
            return f"refused {self.number}: unknown to version {__version__}"
        # What was expected says more than that something is missing.
        says = [self.refusal.meaning] * (self.refusal is not Refusal.UNEXPECTED or not self._because) + [self._because] * bool(self._because)
        at = f" at {self.place}" if Refusal.UNEXPECTED <= self.refusal <= Refusal.TOO_MANY_TOKENS else ""
        return f"refused {self.number}{at}: {': '.join(says)}"


class Leftover(Refused):
    """Text after the closing brace and its blanks, which begins at `place`. Given by `strict` alone, and by no number."""

    def __init__(self, place: int, because: str) -> None:
        ValueError.__init__(self, place, because)
        self.number = self.refusal = self.token = None
        self.place, self._because = place, because

    def __str__(self) -> str:
        return f"refused at {self.place}: text after the closing brace: {self._because}"


class Mask(enum.IntEnum):
    """What a masked byte leaves open: `?X`, `X?`, `??`."""

    LEFT = 0
    RIGHT = 1
    ALL = 2


# No tuples: a byte and its negation hold the same value, and are not equal.
@dataclass(frozen=True)
class Byte:
    """`AB`"""

    value: int


@dataclass(frozen=True)
class NotByte:
    """`~AB`"""

    value: int


@dataclass(frozen=True)
class MaskedByte:
    """`?X`, `X?`, `??`: the digit as typed, 0 for `??`"""

    value: int
    mask: Mask


@dataclass(frozen=True)
class NotMaskedByte:
    """`~?X`, `~X?`"""

    value: int
    mask: Mask


@dataclass(frozen=True)
class Jump:
    """`[start-to]`; `to` is None for `[start-]`"""

    start: int
    to: Optional[int]


@dataclass(frozen=True)
class Alternatives:
    """`( .. | .. )`: the tokens of each list"""

    lists: Tuple[Tuple["Token", ...], ...]


Token = Union[Byte, NotByte, MaskedByte, NotMaskedByte, Jump, Alternatives]


class Read(NamedTuple):
    """A text as it was read: the tokens of the outer list, and the offset after the closing brace and its blanks; what follows is ignored."""

    tokens: Tuple[Token, ...]
    reached: int


class Literals(NamedTuple):
    """The literals picked from a pattern, in their order (repeats stay), how good they are for a search (0 to 80), and the offset after the closing brace and
    its blanks; what follows is ignored."""

    literals: Tuple[bytes, ...]
    rank: int
    reached: int


_u8, _u16, _u32, _u64, _size = ctypes.c_uint8, ctypes.c_uint16, ctypes.c_uint32, ctypes.c_uint64, ctypes.c_size_t


def _result(*fields: Tuple[str, Any]) -> Any:
    return type("_Result", (ctypes.Structure,), {"_fields_": list(fields)})


_ReadResult = _result(("refusal", _u32), ("place", _u64), ("reached", _u64), ("words", _u64))
_CompileResult = _result(("refusal", _u32), ("place", _u64), ("reached", _u64), ("forward", _u64), ("reverse", _u64))
_LiteralsResult = _result(("refusal", _u32), ("rank", _u32), ("place", _u64), ("reached", _u64), ("count", _u64))
_CheckResult = _result(("refusal", _u32), ("found", _u32), ("offset", _u64))
_TailResult = _result(("offset", _u64), ("length", _u64))
_MirrorResult = _result(("refusal", _u32), ("words", _u64))


def _load() -> ctypes.CDLL:
    named = os.environ.get("TOKENMARSH_SO")
    # The repository's own build, or PREFIX/lib as `make install` lays it out, three folders above this one; else where the system looks.
    above = os.path.abspath(os.path.join(os.path.dirname(__file__), "..", "..", ".."))
    near = [os.path.join(above, "target", "staticlib", "libtokenmarsh.so"), os.path.join(above, "libtokenmarsh.so.0.4")]
    # A name without a folder is a file here, and not one where the system looks.
    path = os.path.abspath(named) if named else next(filter(os.path.exists, near), "libtokenmarsh.so.0.4")
    try:
        lib = _declared(ctypes.CDLL(path))
    except (OSError, AttributeError) as error:
        why = "which TOKENMARSH_SO names" if named else "run make, or name the file by TOKENMARSH_SO"
        raise ImportError(f"no tokenmarsh library in {path}, {why}: {error}", name=__name__, path=path) from error
    # Another version's answers would be misread.
    number = lib.tm_version()
    version = f"{number >> 16}.{number >> 8 & 255}.{number & 255}"
    if version != __version__:
        raise ImportError(f"libtokenmarsh in {path} is of version {version}, and this module of {__version__}", name=__name__, path=path)
    return lib


def _declared(lib: ctypes.CDLL) -> ctypes.CDLL:
    """The library, its functions declared. An AttributeError if it lacks one, and so is another library."""
    text = [ctypes.c_char_p, _size]
    tokens, nodes = [ctypes.POINTER(_u32), _size], [ctypes.POINTER(_u64), _size]
    window = nodes + [ctypes.c_char_p, _size, _size, _size]
    for name, result, arguments in (
        ("tm_version", _u32, []),
        ("tm_read", _ReadResult, text + tokens),
        ("tm_compile", _CompileResult, text + nodes + nodes),
        ("tm_literals", _LiteralsResult, text + [ctypes.POINTER(_u8), _size, ctypes.POINTER(_u16), _size]),
        ("tm_forward", _CheckResult, window),
        ("tm_reverse", _CheckResult, window),
        ("tm_tail", _TailResult, window),
        ("tm_mirror", _MirrorResult, nodes + nodes),
        ("tm_sound", _u32, nodes),
    ):
        function = getattr(lib, name)
        function.restype, function.argtypes = result, arguments
    return lib


_lib = _load()


def _bytes(lent: Buffer) -> bytes:
    """The bytes of a buffer; of `bytes` these themselves. Not of a number, which `bytes` would take for a count of zeros, nor of wider items."""
    view = memoryview(lent)
    if view.ndim != 1 or view.itemsize != 1:
        raise TypeError("the items of a buffer are bytes")
    return lent if type(lent) is bytes else bytes(view)


def _words(words: Iterable[int]) -> Tuple["ctypes.Array[ctypes.c_uint64]", int]:
    """Node words to lend. ctypes would cut a number down to 64 bits, and what is cut may be sound."""
    lent = tuple(map(operator.index, words))
    if any(not 0 <= w < 1 << 64 for w in lent):
        raise ValueError("a word has 64 bits")
    return (_u64 * len(lent))(*lent), len(lent)


def _offset(number: int) -> int:
    """A window's bound. ctypes would cut a number that is no size_t down to one, and no haystack has an offset that is none."""
    number = operator.index(number)
    if not 0 <= number <= _size(-1).value:
        raise Refused(Refusal.BAD_WINDOW)
    return number


def _answered(result: Any, text: Optional[bytes] = None) -> Any:
    """A result that is no refusal, neither a known nor an unknown one."""
    if result.refusal:
        place = getattr(result, "place", 0)
        because, token = _messages.of(result.refusal, place, text) if text is not None else ("", None)
        raise Refused(result.refusal, place, because, token)
    return result


def _within(number: int, most: int) -> int:
    """A number that the library answers, which is so much at most. To go on with another would be to guess, and a scanner that guesses waves files through."""
    if number > most:
        raise RuntimeError(f"libtokenmarsh broke its contract: {number} where {most} is the most")
    return number


def _reached(r: Any, text: bytes, strict: bool) -> int:
    """The offset reached. A strict call refuses what follows."""
    reached = _within(r.reached, len(text))
    if strict and reached < len(text):
        raise Leftover(reached, _messages.leftover(reached, text))
    return reached


def _list(entries: Sequence[Tuple[int, ...]]) -> Tuple[Token, ...]:
    tokens: List[Token] = []
    at = 0
    while at < len(entries):
        kind, a, b, c = entries[at]
        at += 1
        if kind == 5:
            inside, at = entries[at:_within(at + b, len(entries))], at + b
            lists: List[Tuple[Token, ...]] = []
            k = 0
            while k < len(inside):
                size = _within(inside[k][2], len(inside) - k - 1)
                lists.append(_list(inside[k + 1:k + 1 + size]))
                k += 1 + size
            tokens.append(Alternatives(tuple(lists)))
        elif kind == 4:
            tokens.append(Jump(a, b if c else None))
        elif kind == 3:
            tokens.append(NotMaskedByte(a, Mask(_within(b, 2))))
        elif kind == 2:
            tokens.append(MaskedByte(a, Mask(_within(b, 2))))
        else:
            tokens.append(NotByte(a) if _within(kind, 1) else Byte(a))
    return tuple(tokens)


def read(text: Buffer, *, strict: bool = False) -> Read:
    """The tokens of a hexadecimal string, and the offset reached. Refusals 1 to 11; then, if strict, what follows the closing brace and its blanks."""
    text = _bytes(text)
    pool = (_u32 * TOKEN_POOL)()
    r = _answered(_lib.tm_read(text, len(text), pool, TOKEN_POOL), text)
    return Read(_list([tuple(pool[i:i + 4]) for i in range(0, _within(r.words, TOKEN_POOL), 4)]), _reached(r, text, strict))


class _Program:
    """Words that are sound, tested once. Its two kinds mean different things by the same words, and so can do different things."""

    def __init__(self, words: Iterable[int]) -> None:
        """Refusals 13, and 15 where `sound` is False."""
        self._words = tuple(map(operator.index, words))
        if len(self._words) > NODE_POOL:
            raise Refused(Refusal.TOO_MANY_NODES)
        if not sound(self._words):
            raise Refused(Refusal.UNSOUND)

    @property
    def words(self) -> Tuple[int, ...]:
        """Its node words, each kind + 2**8 * first + 2**24 * second: include/tokenmarsh.h says what these mean."""
        return self._words

    def __eq__(self, other: object) -> bool:
        return isinstance(other, _Program) and type(self) is type(other) and self.words == other.words

    def __hash__(self) -> int:
        return hash((type(self), self.words))

    def __repr__(self) -> str:
        return "%s([%s])" % (type(self).__name__, ", ".join(f"0x{w:010X}" for w in self.words))


class Forward(_Program):
    """A sound program that is searched forward. Its checks take a window as bytes and cannot be refused."""

    def end(self, window: Buffer) -> Optional[int]:
        """Where the first choice ends that fits the window from its start, or None."""
        return forward(self.words, window, 0, len(window))

    def tail(self, window: Buffer) -> Optional[memoryview]:
        """What `end` leaves of the window, as a part of it, or None if nothing fits."""
        # Not by tm_tail: its answer is the same for no match, for a refusal and, in an empty window, for a match.
        end = self.end(window)
        return None if end is None else memoryview(window)[end:]

    def mirror(self) -> "Reverse":
        """The mirror: what it fits is what this program fits, read from its other side."""
        return Reverse(mirror(self.words))


class Reverse(_Program):
    """A sound program that is searched in reverse: its first node is the last of what it fits. Its checks take a window as bytes and cannot be refused."""

    def start(self, window: Buffer) -> Optional[int]:
        """Where the first choice starts that fits the window up to its end, or None."""
        return reverse(self.words, window, 0, len(window))

    def mirror(self) -> Forward:
        """The mirror: what it fits is what this program fits, read from its other side."""
        return Forward(mirror(self.words))


class Pattern(NamedTuple):
    """A compiled pattern: `forward.end` and `reverse.start` fit exactly what it matches. `reached` is the offset in the text after the closing brace and its
    blanks; what follows is ignored."""

    forward: Forward
    reverse: Reverse
    reached: int


def compile(text: Buffer, *, strict: bool = False) -> Pattern:
    """The two programs of a hexadecimal string. Refusals 1 to 11, then 12, 14, 13; then, if strict, what follows the closing brace and its blanks."""
    text = _bytes(text)
    ahead, back = (_u64 * NODE_POOL)(), (_u64 * NODE_POOL)()
    r = _answered(_lib.tm_compile(text, len(text), ahead, NODE_POOL, back, NODE_POOL), text)
    return Pattern(Forward(ahead[:_within(r.forward, NODE_POOL)]), Reverse(back[:_within(r.reverse, NODE_POOL)]), _reached(r, text, strict))


def literals(text: Buffer, *, strict: bool = False) -> Literals:
    """The literals to search for (if there are any, every match holds one of them), and their rank. Refusals 1 to 11, then 19, 17; then, if strict, what
    follows the closing brace and its blanks."""
    text = _bytes(text)
    data, lengths = (_u8 * LITERAL_BYTES)(), (_u16 * LITERAL_COUNT)()
    r = _answered(_lib.tm_literals(text, len(text), data, LITERAL_BYTES, lengths, LITERAL_COUNT), text)
    out, at = [], 0
    for n in lengths[:_within(r.count, LITERAL_COUNT)]:
        out.append(bytes(data[at:_within(at + n, LITERAL_BYTES)]))
        at += n
    return Literals(tuple(out), r.rank, _reached(r, text, strict))


def _check(function: Any, words: Iterable[int], haystack: Buffer, start: int, end: int) -> Optional[int]:
    lent, n = _words(words)
    haystack = _bytes(haystack)
    r = _answered(function(lent, n, haystack, len(haystack), _offset(start), _offset(end)))
    return _within(r.offset, len(haystack)) if _within(r.found, 1) else None


def forward(words: Iterable[int], haystack: Buffer, start: int, end: int) -> Optional[int]:
    """The end of the first choice that fits the window from its start, or None. Refusals 16, 13, 15."""
    return _check(_lib.tm_forward, words, haystack, start, end)


def reverse(words: Iterable[int], haystack: Buffer, start: int, end: int) -> Optional[int]:
    """The start of the first choice that fits the window up to its end, or None. Refusals 16, 13, 15."""
    return _check(_lib.tm_reverse, words, haystack, start, end)


def mirror(words: Iterable[int]) -> Tuple[int, ...]:
    """The words of the mirror. Refusals 13, 15: `sound` says which words are."""
    lent, n = _words(words)
    pool = (_u64 * NODE_POOL)()
    r = _answered(_lib.tm_mirror(lent, n, pool, NODE_POOL))
    return tuple(pool[:_within(r.words, NODE_POOL)])


def sound(words: Iterable[int]) -> bool:
    """Whether words are a sound program: include/tokenmarsh.h says at tm_sound which are. So that some damage shows, what can't have been meant is not sound: a value with
    bits outside its mask, a jump of 0, a branch without nodes. No compiled program has any of these, nor the mirror of a sound one.

        >>> sound([]), sound(compile(b"{ A? }").forward.words)
        (True, True)
        >>> sound([1 + (0xA1 << 8) + (0xF0 << 24)]), sound([3]), sound([6 + (1 << 8), 7])
        (False, False, False)
    """
    lent, n = _words(words)
    return bool(_lib.tm_sound(lent, n) == 1)
