"""What a refusal of a text says to a person. The library gives a number and a place; what was expected there, what stands there and which token is meant
follows from the text. The Rust crate has the same in src/messages.rs, and both are held to bindings/messages.tsv.
"""
import re
from typing import Iterator, List, NamedTuple, Optional, Tuple

# As many signs of the text as a message quotes.
QUOTED = 24

_BLANKS = b" \t\r\n"
_HALVES = b"?0123456789ABCDEFabcdef"
_JUMP = re.compile(rb"\[B([0-9]*)B(?:(-)B([0-9]*)B)?\]".replace(b"B", b"[ \t\r\n]*"))
_BYTE = re.compile(rb"~?[?0-9A-Fa-f]{2}")


def of(number: int, place: int, text: bytes) -> Tuple[str, Optional[int]]:
    """What is said beside the number's meaning, or in its stead for 2, and the place of the token that is the reason where the refusal itself has none."""
    # Whatever the library says, it is looked up in the text alone.
    place = min(place, len(text))
    if number == 1:
        return f"found {len(text)}", None
    if number == 2:
        return _missed(text, place), None
    if number == 3:
        return f"found {_written(text, place, b'')}", None
    if number in (4, 5, 7, 8):
        return f"found {_jump_at(text, place)}", None
    if number == 6:
        return _at_bound(text, place), None
    if number == 10 and b"(" in text[:place]:
        return f"the '(' at {text.rindex(b'(', 0, place)} stands within seven others", None
    if number in (12, 19):
        for token in _walk(text, 1):
            why = _not_simple(text, token) if number == 12 else _not_plain(text, token)
            if why:
                return why, token.at
    return "", None


def leftover(place: int, text: bytes) -> str:
    """What is said of text after the closing brace."""
    return f"expected nothing after the '}}' at {text.rfind(b'}', 0, place)}, found {_stands(text, place)}"


def _after_blanks(text: bytes, at: int) -> int:
    """The first offset from there on that has no blank."""
    return len(text) - len(text[at:].lstrip(_BLANKS))


def _stands(text: bytes, at: int) -> str:
    """What stands at an offset."""
    if at >= len(text):
        return "the end of the text"
    return f"'{chr(text[at])}'" if 0x20 <= text[at] <= 0x7E else f"byte {text[at]:02X}"


def _missed(text: bytes, place: int) -> str:
    """Refusal 2: something needed isn't there. All before the place was read, so its signs tell what is needed."""
    if place == 0:
        return f"expected '{{' as the first sign, found {_stands(text, 0)}"
    still_open: List[int] = []
    for at, sign in enumerate(text[:place]):
        if sign == ord("("):
            still_open.append(at)
        elif sign == ord(")") and still_open:
            still_open.pop()
    last = text[:place].rstrip(_BLANKS)[-1:]
    # An empty list is missed at the `|` before it, though what is wrong stands after it.
    after_bar = bool(still_open) and text[place:place + 1] == b"|" and last not in (b"(", b"|", b"~")
    at = _after_blanks(text, place + 1) if after_bar else place
    first = after_bar or last in (b"{", b"(", b"|")
    if last == b"~":
        expected = "a byte right after '~'"
    elif after_bar:
        expected = "a byte, '~' or '(' after this '|'"
    elif first:
        expected = "a byte, '~' or '('"
    elif not still_open:
        expected = "a byte, '~', '[', '(' or '}'"
    else:
        expected = "a byte, '~', '[', '(', '|' or ')'"
    sign_there, hint = text[at:at + 1], ""
    if sign_there and sign_there in _HALVES:
        hint = " alone: a byte is two digits, each of which may be '?'"
    elif sign_there == b"[" and not first and last != b"~":
        hint = ", which begins no jump: one is [n], [n-m], [n-], [-m] or [-], with decimal n and m"
    elif sign_there == b"/":
        hint = ": comments are not taken"
    elif sign_there == b"|" and not still_open:
        hint = ": alternatives stand in '(' and ')'"
    elif sign_there == b")" and not still_open:
        hint = ": no '(' is open"
    elif sign_there in (b"}", b"") and still_open:
        hint = f": the '(' at {still_open[-1]} is open"
    return f"expected {expected}, found {_stands(text, at)}{hint}"


def _written(text: bytes, at: int, signs: bytes) -> str:
    """The digits from there on, and the signs that are named, without blanks."""
    wanted = b"0123456789" + signs
    tail = text[at:].translate(None, _BLANKS)
    all_of_it = tail[:len(tail) - len(tail.lstrip(wanted))].decode()
    return all_of_it[:QUOTED] + (".." if len(all_of_it) > QUOTED else "")


def _jump_at(text: bytes, at: int) -> str:
    """A jump as it is written, without blanks."""
    end = text.find(b"]", at)
    return _written(text if end < 0 else text[:end + 1], at, b"[-]")


class _Token(NamedTuple):
    """A token as far as a refusal depends on it: its signs, `(` for alternatives; the bounds of a jump; how many `(` are open around it."""

    at: int
    signs: bytes
    depth: int
    start: int = 0
    to: Optional[int] = None

    def is_jump(self) -> bool:
        """`[1]` and `[1-1]` are read as `??`."""
        return self.signs[:1] == b"[" and (self.start, self.to) != (1, 1)


def _walk(text: bytes, at: int) -> Iterator[_Token]:
    """The tokens from there on, up to the end of the list that begins there."""
    depth = 0
    while True:
        at = _after_blanks(text, at)
        sign, byte, jump = text[at:at + 1], _BYTE.match(text, at), _JUMP.match(text, at)
        if sign == b"(":
            yield _Token(at, b"(", depth)
            depth, at = depth + 1, at + 1
        elif byte:
            yield _Token(at, byte[0], depth)
            at = byte.end()
        elif jump and (jump[1] or jump[2]):
            start = int(jump[1] or 0)
            to = start if not jump[2] else int(jump[3]) if jump[3] else None
            yield _Token(at, b"[", depth, start, to)
            at = jump.end()
        elif sign in (b"|", b")") and depth:
            depth, at = depth - (sign == b")"), at + 1
        else:
            return


def _at_bound(text: bytes, place: int) -> str:
    """Refusal 6: which of the list's bounds is a jump."""
    direct = [token for token in _walk(text, place) if token.depth == 0]
    if direct and direct[0].is_jump():
        return f"this one begins with {_jump_at(text, place)}"
    if direct and direct[-1].is_jump():
        return f"this one ends with {_jump_at(text, direct[-1].at)} at {direct[-1].at}"
    return ""


def _not_simple(text: bytes, token: _Token) -> str:
    """Refusal 12: why this token is not simple, if it isn't."""
    jump = f"the jump {_jump_at(text, token.at)} at {token.at} is"
    if token.signs == b"[" and token.to is None:
        return f"{jump} unbounded, and 65,535 is the most"
    if token.to is not None and token.to > 65535:
        return f"{jump} above 65,535"
    if token.to is not None and token.to != token.start and token.depth:
        return f"{jump} a range, and in alternatives only [n] compiles"
    if token.signs == b"(" and token.depth:
        return f"the '(' at {token.at} opens alternatives in alternatives"
    return ""


def _not_plain(text: bytes, token: _Token) -> str:
    """Refusal 19: why this token is not plain, if it isn't."""
    found = {b"??": "??", b"(": "'('", b"[": _jump_at(text, token.at)}.get(token.signs)
    return f"expected only AB, ?X, X? and their negations in them, found {found} at {token.at}" if token.depth and found else ""
