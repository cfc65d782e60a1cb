"""Regular expressions of ECMAScript (ECMA-262, 16th edition), by an engine that is proved, in the manner of `re`.

    >>> import regress
    >>> regress.search(r"(?<year>\\d{4})-(\\d\\d)", "on 2025-06-01")["year"]
    '2025'

Patterns, flags and replacement texts are those of ECMAScript: flags are a text of its letters, as "iu", and in a replacement `$1`
stands for the text of the first group, `$<name>` for that of a named one, and `$&` for the match. Offsets are in code points, as
Python has them, and texts are `str`. A pattern is refused by the exception `error`, which has the place.

A service that takes patterns or texts of strangers sets `limit`, what a pattern may become, and `max_steps`, how long it may search:

    >>> regress.compile(r"^(\\w|\\w\\w)*!$", max_steps=1000).search("a" * 40 + "?!")
    Traceback (most recent call last):
    regress.TooManySteps: too many steps

The library is `libregress.so`: the one that the variable REGRESS_LIBRARY of the environment names, else the one beside this file,
else that of the repository, else that of the system. It is called through `ctypes.PyDLL`, so the interpreter's lock is held while a
call runs: a handle is in one call at a time, as the library asks, and other threads wait. An interpreter without that lock is
refused. To search with several processors, use several processes: a pattern pickles.
"""

import bisect
import ctypes
import ctypes.util
import functools
import itertools
import operator
import os
import re
import sys
from array import array
from types import MappingProxyType

__all__ = [
    "LIMIT", "Match", "Pattern", "TooManySteps", "compile", "error", "escape", "findall", "finditer", "fullmatch", "match", "purge", "search",
    "split", "sub", "subn",
]

# ----------------------------------------------------------------------------------------------------------------------------
# The library, as bindings/c/regress.h tells it
# ----------------------------------------------------------------------------------------------------------------------------

_UNSET = ctypes.c_size_t(-1).value
_MOST_MATCHES, _MOST_RANGES = 1 << 16, 1 << 18  # so many are asked for at once
_OUT_OF_MEMORY, _NO_ROOM, _SYNTAX, _FLAG_ERRORS, _TOO_MANY_STEPS = -1, -6, -7, (-12, -13, -14), -19
_Size, _SizeOut, _Bytes, _Code = ctypes.c_size_t, ctypes.POINTER(ctypes.c_size_t), ctypes.c_void_p, ctypes.c_int32


def _load():
    if not getattr(sys, "_is_gil_enabled", lambda: True)():
        raise ImportError("regress needs an interpreter with its lock")
    here = os.path.dirname(os.path.abspath(__file__))
    beside = [os.path.join(here, "libregress.so"), os.path.join(here, "..", "c", "out", "libregress.so")]
    of_system = ctypes.util.find_library("regress") or "libregress.so.0"
    named = os.environ.get("REGRESS_LIBRARY")
    return ctypes.PyDLL(named or next(filter(os.path.exists, beside), of_system))


_library = _load()


class _Handle(ctypes.Structure):
    """Tables, a pattern or a search of the library. What it holds is freed with the object."""

    _fields_ = [("held", ctypes.c_void_p)]

    def __del__(self, free=_library.regress_raw_free, address=ctypes.byref):
        free(address(self))


class _Failure(ctypes.Structure):
    """`struct regress_error`."""

    _fields_ = [("code", _Code), ("place", _Size), ("text", ctypes.c_char * 64)]


_HandleOut = ctypes.POINTER(_Handle)


def _call(name, *kinds, answers=_Code):
    function = getattr(_library, "regress_raw_" + name)
    function.argtypes, function.restype = kinds, answers
    return function


_source = (_Bytes, _Size, _Bytes, _Size, _Size, _HandleOut, _HandleOut, ctypes.POINTER(_Failure))
_copy = (_Bytes, _Size, _SizeOut)
_call("free", _HandleOut, answers=None)
_tables_unicode = _call("tables_unicode", _HandleOut)
_compile = _call("compile_within", *_source)
_compile_whole = _call("compile_whole_within", *_source)
_compile_units = _call("compile_units_within", *_source)
_search_new = _call("search_new", _HandleOut, _HandleOut)
_search_set_max_steps = _call("search_set_max_steps", _HandleOut, _Size)
_is_linear = _call("is_linear", _HandleOut)
_linear_steps = _call("linear_steps", _HandleOut, _Size, _SizeOut)
_group_count = _call("group_count", _HandleOut)
_group_name = _call("group_name", _HandleOut, _Size, *_copy)
_replace = _call("replace", _HandleOut, _Bytes, _Size, _Bytes, _Size, *_copy)
_replace_all = _call("replace_all", _HandleOut, _Bytes, _Size, _Bytes, _Size, *_copy)
_escape = _call("escape", _Bytes, _Size, *_copy)
_error_text = _call("error_text", _Code, *_copy)


class _Calls:
    """The calls that search one kind of text."""

    def __init__(self, kind):
        self.find = _call("find" + kind, _HandleOut, _Bytes, _Size, _Size, _Bytes, _Size)
        self.match_at = _call("match_at" + kind, _HandleOut, _Bytes, _Size, _Size, _Bytes, _Size)
        self.find_many = _call("find_many" + kind, _HandleOut, _Bytes, _Size, _SizeOut, _Bytes, _Size, _Size, _SizeOut)


_ASCII, _UTF8, _UTF16, _UCS2 = map(_Calls, ("_ascii", "_valid", "_utf16", "_ucs2"))

_as_utf8 = ctypes.pythonapi.PyUnicode_AsUTF8AndSize
_as_utf8.argtypes, _as_utf8.restype = (ctypes.py_object, ctypes.POINTER(ctypes.c_ssize_t)), ctypes.c_void_p


class error(re.error):
    """A pattern, or a text of flags, that is refused. A program that catches `re.error` catches it.

    `msg` says what is wrong, `pattern` is the text that is refused, and `pos` is the place in it, in code points; `lineno` and
    `colno` are that place by line and column. `code` is the number of the error in the library's header.
    """

    def __init__(self, msg, pattern=None, pos=None, code=None):
        super().__init__(msg, pattern, pos)
        self.code = code

    def __reduce__(self):
        return type(self), (self.msg, self.pattern, self.pos, self.code)


class TooManySteps(error):
    """A search for a match would take more steps than its pattern has in `max_steps`. `pattern` is the text of that pattern."""


def _copied(call, *words, guess=64):
    """What a call copies to a buffer, which is made longer where the first one is too short."""
    written = ctypes.c_size_t()
    buffer = ctypes.create_string_buffer(guess)
    code = call(*words, buffer, guess, written)
    if code == _NO_ROOM:
        buffer = ctypes.create_string_buffer(written.value)
        code = call(*words, buffer, written.value, written)
    _check(code)
    return ctypes.string_at(buffer, written.value).decode()


def _check(code):
    """Raises what a number tells, where it is an error."""
    if code == _OUT_OF_MEMORY:
        raise MemoryError
    if code < 0:
        raise RuntimeError(_copied(_error_text, code))


@functools.lru_cache(maxsize=1)
def _tables():
    """Unicode's tables, made once."""
    tables = _Handle()
    _check(_tables_unicode(tables))
    return tables


# ----------------------------------------------------------------------------------------------------------------------------
# Texts: what the library reads, and its offsets
# ----------------------------------------------------------------------------------------------------------------------------


class _Text:
    """A text whose offsets in the library are Python's own: one of ASCII, or of halves of pairs and no character of two units."""

    __slots__ = ("string", "calls", "kept", "address", "length")

    def __init__(self, string):
        self.string = string
        self.length = len(string)
        if string.isascii():
            self.calls, self.kept, self.address = _ASCII, None, _as_utf8(string, None)
        else:
            self._keep(_UCS2)

    def _keep(self, calls):
        self.calls = calls
        self.kept = self.string.encode("utf-16-le", "surrogatepass")
        self.length = len(self.kept) // 2
        self.address = ctypes.cast(ctypes.c_char_p(self.kept), ctypes.c_void_p).value

    def offset(self, point):
        """The library's offset of a code point."""
        return point

    def point(self, offset):
        """The code point that an offset of the library stands for."""
        return offset

    def slice(self, start, end):
        """The text between two offsets of the library."""
        return self.string[start:end]


class _Utf8(_Text):
    """A text in UTF-8, which the string itself keeps. How many characters begin before each block of it is counted once, so that
    an offset is turned into another by counting in one block."""

    __slots__ = ("counts",)

    BLOCK = 512
    # The bytes that no character begins with.
    BEHIND = bytes(range(0x80, 0xC0))

    def __init__(self, string):
        size = ctypes.c_ssize_t()
        self.string, self.calls, self.counts = string, _UTF8, None
        self.address = _as_utf8(string, size)
        self.length = size.value

    def _begun(self, start, end):
        """How many characters begin between two offsets."""
        return len(ctypes.string_at(self.address + start, end - start).translate(None, self.BEHIND))

    def _counted(self):
        if self.counts is None:
            starts = range(0, self.length, self.BLOCK)
            each = (self._begun(start, min(start + self.BLOCK, self.length)) for start in starts)
            self.counts = array("Q", itertools.accumulate(each, initial=0))
            self.counts.pop()
        return self.counts

    def offset(self, point):
        if point == 0:
            return 0
        counts = self._counted()
        block = bisect.bisect_right(counts, point) - 1
        start = block * self.BLOCK
        piece = ctypes.string_at(self.address + start, min(self.BLOCK, self.length - start))
        begins = start + len(piece) - len(piece.lstrip(self.BEHIND))
        return begins + len(self.string[counts[block]:point].encode())

    def point(self, offset):
        block = min(offset, self.length - 1) // self.BLOCK
        return self._counted()[block] + self._begun(block * self.BLOCK, offset)

    def slice(self, start, end):
        return ctypes.string_at(self.address + start, end - start).decode()


class _Utf16(_Text):
    """A text in UTF-16, for halves of pairs beside characters of two units. A half before one that fits is read as one character."""

    __slots__ = ("pairs", "starts")

    PAIR = re.compile("[\U00010000-\U0010ffff]")

    def __init__(self, string):
        self.string = string
        self._keep(_UTF16)
        self.pairs = [found.start() for found in self.PAIR.finditer(string)]
        self.starts = [point + before for before, point in enumerate(self.pairs)]

    def offset(self, point):
        return point + bisect.bisect_left(self.pairs, point)

    def point(self, offset):
        return offset - bisect.bisect_left(self.starts, offset)

    def slice(self, start, end):
        return self.kept[2 * start:2 * end].decode("utf-16-le", "surrogatepass")


# The text beyond ASCII that was read last: a tokeniser asks for one text again and again.
_recent = None


def _read(string):
    """A string as the library reads it."""
    global _recent
    if not isinstance(string, str):
        raise TypeError(f"expected a string, not {type(string).__name__}")
    if string.isascii():
        return _Text(string)
    recent = _recent
    if recent is not None and recent.string is string:
        return recent
    try:
        text = _Utf8(string)
    except UnicodeEncodeError:
        text = _Utf16(string) if _Utf16.PAIR.search(string) else _Text(string)
    _recent = text
    return text


# ----------------------------------------------------------------------------------------------------------------------------
# Patterns
# ----------------------------------------------------------------------------------------------------------------------------


def _units_of(source, flags):
    """A pattern with a half of a pair, in 16-bit units."""
    if _Utf16.PAIR.search(source) and not set("uv") & set(flags):
        raise error("a half of a pair beside a character of two units needs the flag u or v", source)
    return source.encode("utf-16-le", "surrogatepass")


def _refused(failure, source, flags, prefix):
    """The exception for a pattern of which the part up to the place is `prefix`."""
    text = failure.text.decode()
    if failure.code in _FLAG_ERRORS:
        return error(text, flags, failure.place, failure.code)
    return error(text, source, len(prefix) if failure.code == _SYNTAX else None, failure.code)


def _compiled(source, flags, limit, is_whole=False):
    """A handle of a compiled pattern, of which no program has more instructions than the limit."""
    handle, failure = _Handle(), _Failure()
    letters = flags.encode("utf-8", "replace")
    words = (letters, len(letters), min(limit, _UNSET), _tables(), handle, failure)
    try:
        encoded = source.encode()
    except UnicodeEncodeError:
        units = _units_of("(?-m:^)" + _ended(source) if is_whole else source, flags)
        code = _compile_units(units, len(units) // 2, *words)
        prefix = units[:2 * failure.place].decode("utf-16-le", "surrogatepass")
    else:
        code = (_compile_whole if is_whole else _compile)(encoded, len(encoded), *words)
        prefix = encoded[:failure.place].decode("utf-8", "ignore")
    if code == _OUT_OF_MEMORY:
        raise MemoryError
    if code < 0:
        raise _refused(failure, source, flags, prefix)
    return handle


def _search_of(pattern, max_steps):
    search = _Handle()
    if max_steps is not None:
        _check(_is_linear(pattern))  # a search knows of it that is made afterwards
    _check(_search_new(pattern, search))
    if max_steps is not None:
        _check(_search_set_max_steps(search, min(max_steps, _UNSET)))
    return search


def _index(number, name):
    """A number that is not negative."""
    number = operator.index(number)
    if number < 0:
        raise ValueError(f"{name} is not negative")
    return number


# How many instructions a program of a pattern may have, where nothing else is said: `REGRESS_DEFAULT_LIMIT`.
LIMIT = 1_000_000
# How many the ends of a text take beside a pattern, which the limit of the pattern does not count.
_ENDS = 32


class Pattern:
    """A compiled pattern. `compile` makes one; it may be copied, pickled, compared and used as a key."""

    __slots__ = (
        "pattern", "flags", "limit", "max_steps", "groups", "groupindex", "_numbers", "_compiled", "_search", "_whole", "_ending",
        "__weakref__",
    )

    def __init__(self, pattern, flags="", limit=LIMIT, max_steps=None):
        if not isinstance(pattern, str) or not isinstance(flags, str):
            raise TypeError("a pattern and its flags are strings")
        self.pattern, self.flags, self.limit, self._whole, self._ending = pattern, flags, _index(limit, "a limit"), None, None
        self.max_steps = None if max_steps is None else _index(max_steps, "a number of steps")
        self._compiled = _compiled(pattern, flags, self.limit)
        self._search = _search_of(self._compiled, self.max_steps)
        self.groups = _group_count(self._compiled)
        self._numbers = self._numbers_by_name()
        # The number of each name's first group, as a mapping that can't be written.
        self.groupindex = MappingProxyType({name: numbers[0] for name, numbers in self._numbers.items()})

    def _numbers_by_name(self):
        """The numbers of each name, of which there are several where it stands in several alternatives."""
        names = {}
        for number in range(1, self.groups + 1) if "(?<" in self.pattern else ():
            name = _copied(_group_name, self._compiled, number)
            if name:
                names.setdefault(name, []).append(number)
        return names

    @property
    def linear(self):
        """Whether the pattern is linear: a search with as many `max_steps` as `linear_steps` tells has enough of them, whatever
        the string is. A search without a bound goes no other way for it.

        A pattern is linear that has no back reference; whose repetitions have no greatest number, or 1, and a least number of 0 or 1,
        or are of one character and have numbers up to 256; in which nothing that may be empty is repeated; and whose lookarounds are
        negated, or have no groups or no quantifiers inside, or are visited at most once: inside of nothing that is repeated, in a
        pattern that begins with a `^` without `m`. Where more than a character is repeated in such a one, it holds no other lookaround
        with groups. Its program has at most 65,536 instructions. Where memory for the tables is refused it isn't known to be. To work
        it out takes less time than compiling did.
        """
        code = _is_linear(self._compiled)
        _check(code)
        return code == 1

    def linear_steps(self, length):
        """How many steps are enough for each search, but for those of `fullmatch`, in a string of so many bytes in UTF-8, or of fewer: with
        so many `max_steps`, or more, none raises `TooManySteps` there. A string has at most four bytes for each character; one with
        halves of pairs counts by its 16-bit units. The program of `fullmatch` has the ends of the text too, and takes more.

        None where the pattern isn't known to be linear, and where the table of such a string would take more than 64 MB, a bit for each
        instruction of the program at each offset, or more than 8,388,608 offsets would be kept while it is made, one for each instruction
        inside of an atomic group at each offset.

            >>> source = r"^(\\w|\\w\\w)*!$"
            >>> steps = regress.compile(source).linear_steps(4 * 42) or 1_000_000
            >>> regress.compile(source, max_steps=steps).search("a" * 40 + "?!") is None
            True
        """
        steps = ctypes.c_size_t()
        _check(_linear_steps(self._compiled, min(_index(length, "a length"), _UNSET), steps))
        return None if steps.value == _UNSET else steps.value

    def __reduce__(self):
        return compile, (self.pattern, self.flags, self.limit, self.max_steps)

    def __copy__(self):
        return self

    def __deepcopy__(self, memo):
        return self

    def __eq__(self, other):
        if not isinstance(other, Pattern):
            return NotImplemented
        return (self.pattern, self.flags, self.max_steps) == (other.pattern, other.flags, other.max_steps)

    def __hash__(self):
        return hash((self.pattern, self.flags, self.max_steps))

    def __repr__(self):
        bound = "" if self.max_steps is None else f", max_steps={self.max_steps}"
        return f"regress.compile({self.pattern!r}, {self.flags!r}{bound})"

    def _check(self, code):
        """Raises what a search tells, where it is an error."""
        if code == _TOO_MANY_STEPS:
            raise TooManySteps(_copied(_error_text, code), self.pattern, None, code)
        _check(code)

    def _one(self, call, search, string, pos, endpos):
        """The match that one call finds in a part of a string, if any."""
        pos, endpos, text, start = _window(string, pos, endpos)
        width = self.groups + 1
        ends = (ctypes.c_size_t * (2 * width))()
        code = getattr(text.calls, call)(search, text.address, text.length, start, ends, width)
        self._check(code)
        return Match(self, string, pos, endpos, text, ends[:]) if code > 0 else None

    def _all(self, text, start):
        """The ends of the ranges of one match after another. One is asked for at first, and then twice as many each time, so that few
        calls find them all: each call has to remember anew from where a pattern of many ways fails."""
        width = self.groups + 1
        at, found, count = ctypes.c_size_t(start), ctypes.c_size_t(), 1
        code = 0
        while code == 0 and at.value != _UNSET:
            ends = (ctypes.c_size_t * (2 * width * count))()
            code = text.calls.find_many(self._search, text.address, text.length, at, ends, width * count, width, found)
            told = ends[:2 * width * found.value]
            for first in range(0, len(told), 2 * width):
                yield told[first:first + 2 * width]
            count = max(count, min(2 * count, _MOST_MATCHES, _MOST_RANGES // width))
        self._check(code)

    def search(self, string, pos=0, endpos=sys.maxsize):
        """The first match from `pos` on, or None. What lies before `pos` is still seen by `^`, `\\b` and lookbehind; what lies from
        `endpos` on is not there."""
        return self._one("find", self._search, string, pos, endpos)

    def match(self, string, pos=0, endpos=sys.maxsize):
        """The match that begins at `pos`, or None."""
        return self._one("match_at", self._search, string, pos, endpos)

    def fullmatch(self, string, pos=0, endpos=sys.maxsize):
        """The match that begins at `pos` and ends at `endpos`, or where the string ends, or None. It may be another way to match than
        the one that `match` prefers."""
        return self._one("match_at", self._to_end(pos), string, pos, endpos)

    def _to_end(self, pos):
        """A search of the pattern where it has to end with the text: of the library's whole texts, or behind `pos`, where these
        never begin, of the pattern in a group before the end."""
        if pos <= 0:
            if self._whole is None:
                self._whole = _search_of(_compiled(self.pattern, self.flags, self.limit + _ENDS, is_whole=True), self.max_steps)
            return self._whole
        if self._ending is None:
            self._ending = _search_of(_compiled(_ended(self.pattern), self.flags, self.limit + _ENDS), self.max_steps)
        return self._ending

    def finditer(self, string, pos=0, endpos=sys.maxsize):
        """An iterator over the matches, one behind another, as ECMAScript's `matchAll` goes."""
        pos, endpos, text, start = _window(string, pos, endpos)
        return (Match(self, string, pos, endpos, text, ends) for ends in self._all(text, start))

    def findall(self, string, pos=0, endpos=sys.maxsize):
        """The texts of all matches; of the group where there is one, and tuples of the groups where there are more. A group that
        took no part gives an empty text."""
        found = self.finditer(string, pos, endpos)
        if self.groups == 0:
            return [each.group() for each in found]
        if self.groups == 1:
            return [each.group(1) or "" for each in found]
        return [each.groups("") for each in found]

    def split(self, string, maxsplit=0):
        """The parts of a string between its matches, at most `maxsplit` of which are split at (0: all), with the texts of the
        groups of each match between them."""
        parts, last = [], 0
        text = _read(string)
        for ends in itertools.islice(self._all(text, 0), maxsplit or None):
            parts.append(text.slice(last, ends[0]))
            parts.extend(_texts(text, ends[2:]))
            last = ends[1]
        parts.append(text.slice(last, text.length))
        return parts

    def sub(self, repl, string, count=0):
        """The string with its first `count` matches (0: all) replaced: by a template of ECMAScript, or by what a function answers
        for the match."""
        call = {0: _replace_all, 1: _replace}.get(count)
        if call is None or callable(repl) or self.max_steps is not None:  # these two calls have no bound
            return self.subn(repl, string, count)[0]
        try:
            text, template = string.encode(), repl.encode()
        except UnicodeEncodeError:  # halves of pairs
            return self.subn(repl, string, count)[0]
        room = len(text) + len(text) // 4 + 64
        return _copied(call, self._compiled, text, len(text), template, len(template), guess=room)

    def subn(self, repl, string, count=0):
        """What `sub` answers, and how many matches were replaced."""
        parts, last, replaced = [], 0, 0
        text = _read(string)
        for ends in itertools.islice(self._all(text, 0), count or None):
            found = Match(self, string, 0, len(string), text, ends)
            parts.append(text.slice(last, ends[0]))
            parts.append(repl(found) if callable(repl) else found.expand(repl))
            last = ends[1]
            replaced += 1
        parts.append(text.slice(last, text.length))
        return "".join(parts), replaced


def _window(string, pos, endpos):
    """The part of a string that is searched: where it begins and ends, the string up to there, and the library's offset of `pos` in
    it. Behind `endpos` nothing is found."""
    if not isinstance(string, str):
        raise TypeError(f"expected a string, not {type(string).__name__}")
    pos, endpos = (min(max(place, 0), len(string)) for place in (pos, endpos))
    text = _read(string if endpos == len(string) else string[:endpos])
    return pos, endpos, text, text.offset(pos) if pos <= endpos else text.length + 1


def _ended(source):
    """The text of a pattern that ends where the text does."""
    return f"(?:{source})(?-m:$)"


def _texts(text, ends, default=None):
    """The texts of ranges."""
    pairs = zip(ends[::2], ends[1::2])
    return [default if start == _UNSET else text.slice(start, end) for start, end in pairs]


class Match:
    """A match: where it lies in the string that was searched, and where its groups do."""

    __slots__ = ("re", "string", "pos", "endpos", "_text", "_ends")

    def __init__(self, pattern, string, pos, endpos, text, ends):
        self.re, self.string, self.pos, self.endpos, self._text, self._ends = pattern, string, pos, endpos, text, ends

    def __repr__(self):
        return f"<regress.Match object; span={self.span()}, match={self.group()!r}>"

    def __copy__(self):
        return self

    def __deepcopy__(self, memo):
        return self

    def _number(self, group):
        """The number of a group by its name or number. Of several groups with one name it is the one that took part."""
        if isinstance(group, str) and group in self.re._numbers:
            numbers = self.re._numbers[group]
            return next((number for number in numbers if self._ends[2 * number] != _UNSET), numbers[0])
        if not isinstance(group, str) and 0 <= group.__index__() <= self.re.groups:
            return group.__index__()
        raise IndexError("no such group")

    def _range(self, group):
        first = 2 * self._number(group)
        return self._ends[first:first + 2]

    def __getitem__(self, group):
        return _texts(self._text, self._range(group))[0]

    def group(self, *groups):
        """The text of the match, or of a group by its number or name; of several, a tuple. None stands for what took no part."""
        if len(groups) > 1:
            return tuple(self[group] for group in groups)
        return self[groups[0] if groups else 0]

    def groups(self, default=None):
        """The texts of all groups, from the first on."""
        return tuple(_texts(self._text, self._ends[2:], default))

    def groupdict(self, default=None):
        """The text of each name."""
        each = ((name, self[name]) for name in self.re._numbers)
        return {name: default if text is None else text for name, text in each}

    def span(self, group=0):
        """Where the match or a group begins and ends, in code points; (-1, -1) where it took no part."""
        start, end = self._range(group)
        return (-1, -1) if start == _UNSET else (self._text.point(start), self._text.point(end))

    def start(self, group=0):
        """Where the match or a group begins."""
        return self.span(group)[0]

    def end(self, group=0):
        """Where the match or a group ends."""
        return self.span(group)[1]

    @property
    def regs(self):
        """The spans of the match and of all groups."""
        return tuple(map(self.span, range(self.re.groups + 1)))

    def expand(self, template):
        """What a template of ECMAScript stands for at this match."""
        return _REFERENCE.sub(self._referred, template)

    def _referred(self, reference):
        """What a reference of a template stands for ("GetSubstitution")."""
        mark, rest = reference[1], ""
        if mark == "$":
            return "$"
        if mark == "&":
            return self[0]
        if mark == "`":
            return self._text.slice(0, self._ends[0])
        if mark == "'":
            return self._text.slice(self._ends[1], self._text.length)
        if mark[0] == "<":
            return self._named(mark)
        if len(mark) == 2 and not 0 < int(mark) <= self.re.groups:
            mark, rest = mark
        return (self[int(mark)] or "") + rest if 0 < int(mark) <= self.re.groups else reference[0]

    def _named(self, mark):
        """What `<name>` stands for. Where no group has a name, `$<` stands for itself, and what is behind it is read on."""
        if not self.re._numbers:
            return "$<" + self.expand(mark[1:])
        name = mark[1:-1]
        return (self[name] if name in self.re._numbers else None) or ""


_REFERENCE = re.compile(r"\$([$&`']|[0-9]{1,2}|<[^>]*>)")


# ----------------------------------------------------------------------------------------------------------------------------
# Functions, in the manner of `re`
# ----------------------------------------------------------------------------------------------------------------------------

_pattern = functools.lru_cache(maxsize=512)(Pattern)


def compile(pattern, flags="", limit=LIMIT, max_steps=None):
    """Compiles a pattern, with a text of ECMAScript's flags; `d`, `g` and `y` are taken and change nothing. The patterns that were
    compiled last are kept.

    A pattern is refused where a program of it, for texts in bytes or in units, may have more instructions than `limit`. That is told
    before anything of that size is made: a short pattern by a stranger may stand for a very large program.

    With `max_steps` each search for a match may take so many steps, or `TooManySteps` is raised: a short pattern may take very long in
    a short text. A step does the instruction of one state of the pattern's program, or drops the state; one more is counted for each
    64 bytes or units that a class passes over or that a back reference compares. Looking for the next place where a match may begin is
    not counted. What finds several matches, as `finditer` and `sub`, has the steps anew for each match that it looks for. No clock plays
    a part: the same search stops at the same step everywhere."""
    if isinstance(pattern, Pattern):
        if flags or limit != LIMIT or max_steps is not None:
            raise ValueError("a compiled pattern has its flags, its limit and its steps")
        return pattern
    return _pattern(pattern, flags, limit, max_steps)


def purge():
    """Forgets the patterns that are kept, and the text that was read last."""
    global _recent
    _recent = None
    _pattern.cache_clear()


def search(pattern, string, flags=""):
    """The first match of a pattern in a string, or None."""
    return compile(pattern, flags).search(string)


def match(pattern, string, flags=""):
    """The match that begins where the string does, or None."""
    return compile(pattern, flags).match(string)


def fullmatch(pattern, string, flags=""):
    """The match that is the whole string, or None."""
    return compile(pattern, flags).fullmatch(string)


def finditer(pattern, string, flags=""):
    """An iterator over the matches of a pattern in a string."""
    return compile(pattern, flags).finditer(string)


def findall(pattern, string, flags=""):
    """The texts of the matches of a pattern in a string, as `Pattern.findall` tells them."""
    return compile(pattern, flags).findall(string)


def split(pattern, string, maxsplit=0, flags=""):
    """The parts of a string between the matches of a pattern, as `Pattern.split` tells them."""
    return compile(pattern, flags).split(string, maxsplit)


def sub(pattern, repl, string, count=0, flags=""):
    """A string with the matches of a pattern replaced, as `Pattern.sub` does."""
    return compile(pattern, flags).sub(repl, string, count)


def subn(pattern, repl, string, count=0, flags=""):
    """The same, and how many matches were replaced."""
    return compile(pattern, flags).subn(repl, string, count)


def escape(text):
    """A pattern that matches just this text, whatever the flags but `i`."""
    encoded = text.encode()
    return _copied(_escape, encoded, len(encoded), guess=2 * len(encoded) + 64)
