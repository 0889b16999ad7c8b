"""Trails of tray carts, for notebooks: reading, writing, aging and asking them.

The work is done by the proved functions of libtrails, which include/trails.h describes. This
module lends them bytes and turns their answers into Python's types. A record is bytes; no call
changes the bytes that it is given, and one that makes a new record answers new bytes. What the
documents turn away raises Refused, and a number that doesn't fit where it goes ValueError.

Times are in seconds. All lengths are in the record's own unit, centimetres or millimetres, and
exact answers are fractions.

    >>> import trails
    >>> record = trails.write([(0, 0, 0), (10, 20, 0), (20, 20, 0), (30, 0, 0)])
    >>> trails.place(record, 5, 250).x
    Fraction(21, 2)
    >>> trails.crosses(record, trails.Box(left=5, right=10, bottom=-1, top=1))
    Fraction(5, 2)
    >>> trails.fixes(trails.age(record, 25).record)
    [Fix(t=0, x=0, y=0, silence=False), Fix(t=30, x=0, y=0, silence=False)]

Between a fix that says silence and the next one nobody knows where the cart was, so each stretch
between silences is drawn by itself:

    for stretch in trails.read("cart.trail").stretches:
        pyplot.plot([fix.x for fix in stretch], [fix.y for fix in stretch])

The library is found where './install PREFIX' put it beside this file; another is taken if the
environment's TRAILS_LIBRARY names it. An aging takes up to 792,000 bytes of stack.
"""

from __future__ import annotations

import ctypes
import operator
import os
from dataclasses import dataclass
from enum import IntEnum
from fractions import Fraction
from pathlib import Path
from typing import Any, Iterable, Iterator, List, NamedTuple, Optional, Sequence, Tuple, Union

__all__ = [
    "Aged", "AnchorState", "Anchored", "Approach", "Box", "Days", "Fix", "Head", "Kind", "Place",
    "Ran", "Reading", "Refused", "Row", "Table", "Trail", "age", "age_by_days", "anchor",
    "anchor_all", "built_in", "check", "crosses", "days_apply", "dearest", "fixes", "listing",
    "load", "near", "place", "read", "run", "sentence", "version", "write",
]

# The library's first two numbers, for which this module knows the structs and functions.
_INTERFACE = "0.1"

# As the header has them: the most bytes of a record and of a listing, the mark of a trail that
# was never thinned, and the most rows of a table.
_LONGEST = 49_162
_TEXT = 159_765
_NEVER = 65_535
_ROWS = 32

_u8, _u16, _u32, _u64 = ctypes.c_uint8, ctypes.c_uint16, ctypes.c_uint32, ctypes.c_uint64
_i32, _i64, _f32, _size = ctypes.c_int32, ctypes.c_int64, ctypes.c_float, ctypes.c_size_t


# ---- the header's structs, field for field


class _Head(ctypes.Structure):
    _fields_ = [("refusal", _u32), ("kind", _u32), ("count", _u32), ("mark", _u32)]


class _Answer(ctypes.Structure):
    _fields_ = [("refusal", _u32), ("value", _u32)]


class _Row(ctypes.Structure):
    _fields_ = [("day", _u16), ("tolerance", _u16)]


class _Table(ctypes.Structure):
    _fields_ = [("count", _u16), ("rows", _Row * _ROWS)]


class _Loaded(ctypes.Structure):
    _fields_ = [("refusal", _u32), ("table", _Table)]


class _Applied(ctypes.Structure):
    _fields_ = [("refusal", _u32), ("applies", _u32), ("tolerance", _u32)]


class _Run(ctypes.Structure):
    _fields_ = [("refusal", _u32), ("turned_away", _size)]


class _Place(ctypes.Structure):
    _fields_ = [("refusal", _u32), ("denominator", _u32), ("x", _i64), ("y", _i64),
                ("whole_x", _i32), ("whole_y", _i32)]


class _Crossing(ctypes.Structure):
    _fields_ = [("refusal", _u32), ("crosses", _u32), ("numerator", _u64), ("denominator", _u32)]


class _Approach(ctypes.Structure):
    _fields_ = [("refusal", _u32), ("approaches", _u32), ("leg", _u32), ("numerator", _u64),
                ("denominator", _u64)]


class _AnchorState(ctypes.Structure):
    _fields_ = [("x", _f32), ("y", _f32), ("seen", _u32)]


class _Anchored(ctypes.Structure):
    _fields_ = [("refusal", _u32), ("x", _i32), ("y", _i32), ("state", _AnchorState)]


# ---- the library


def _lent(element: Any) -> List[Any]:
    """A buffer's two parameters: its pointer, and the number of its elements."""
    return [ctypes.POINTER(element), _size]


# Bytes that are only read; those that are written are lent as a buffer of their own.
_RECORD = [ctypes.c_char_p, _size]
_LIST = _lent(_u64) + _lent(_u16)
_COLUMNS = _lent(_u32) + _lent(_i32) + _lent(_i32)

# Each function of the library with its answer and its parameters.
_FUNCTIONS = {
    "version": (ctypes.c_char_p, []),
    "sentence": (ctypes.c_char_p, [_u32]),
    "check": (_Head, _RECORD),
    "read_all": (_Answer, _RECORD + _COLUMNS + _lent(_u8)),
    "write": (_Answer, _COLUMNS + _lent(_u8)),
    "write_millimetres": (_Answer, _COLUMNS + _lent(_u8)),
    "write_silences": (_Answer, _COLUMNS + _lent(_u8) + _lent(_u8)),
    "dearest": (_Answer, [_size] + _lent(_u8)),
    "list": (_size, _RECORD + [ctypes.POINTER(_u8)]),
    "age": (_Answer, _lent(_u8) + [_u16]),
    "load": (_Loaded, _lent(_u16) + _lent(_u16)),
    "built_in": (_Table, []),
    "age_by_days": (_Answer, _lent(_u8) + [_u16, _Table]),
    "days_apply": (_Applied, _RECORD + [_u16, _Table]),
    "place": (_Place, _RECORD + [_u32, _u16]),
    "crosses": (_Crossing, _RECORD + [_u32, _u32, _i32, _i32, _i32, _i32]),
    "near": (_Approach, _RECORD + [_i32, _i32, _u32]),
    "run": (_Run, _lent(_u8) + _LIST),
    "anchor_absolute": (_Anchored, [_AnchorState, _f32, _f32]),
    "anchor_step": (_Anchored, [_AnchorState, _f32, _f32]),
    "anchor_all": (_AnchorState, [_AnchorState] + _lent(_u8) + _lent(_f32) + _lent(_f32)),
}


def _library() -> ctypes.CDLL:
    """The library, with the types of its functions. Raises ImportError if it isn't there."""
    prefix = Path(__file__).resolve().parent / "../../.."
    beside = os.path.normpath(prefix / "lib" / f"libtrails.so.{_INTERFACE}")
    name = os.environ.get("TRAILS_LIBRARY") or beside
    try:
        library = ctypes.CDLL(name)
    except OSError as error:
        raise ImportError(
            f"{error}; './install PREFIX' puts the library where this module looks for it, "
            "and TRAILS_LIBRARY may name another"
        ) from None
    for function, (answer, parameters) in _FUNCTIONS.items():
        if not hasattr(library, f"trails_{function}"):
            raise ImportError(f"{name} has no trails_{function}")
        getattr(library, f"trails_{function}").restype = answer
        getattr(library, f"trails_{function}").argtypes = parameters
    found = library.trails_version().decode("ascii")
    if not found.startswith(f"{_INTERFACE}."):
        raise ImportError(f"{name} is version {found}, and this module is for {_INTERFACE}")
    return library


_trails = _library()


def version() -> str:
    """The library's version."""
    return str(_trails.trails_version().decode("ascii"))


def sentence(refusal: int) -> str:
    """The sentence of a refusal's number; every number has one."""
    number = _whole("refusal", refusal, _u32)
    return str(_trails.trails_sentence(number).decode("ascii"))


class Refused(Exception):
    """What the documents turn away: a refusal's number and its sentence."""

    def __init__(self, number: int) -> None:
        self.number = number
        self.sentence = sentence(number)
        super().__init__(number)

    def __str__(self) -> str:
        return f"refused {self.number}: {self.sentence}"


def _accepted(answer: Any) -> Any:
    """The answer, if it isn't refused."""
    if answer.refusal != 0:
        raise Refused(answer.refusal)
    return answer


# ---- what is lent


def _whole(name: str, number: int, of: Any) -> int:
    """A whole number that fits the type that it goes to: ctypes would cut it without a word."""
    try:
        number = operator.index(number)
    except TypeError:
        raise ValueError(f"{name}: {number!r} isn't a whole number") from None
    if of(number).value != number:
        bits = 8 * ctypes.sizeof(of)
        signed = of(-1).value < 0
        low, high = (-(1 << bits - 1), (1 << bits - 1) - 1) if signed else (0, (1 << bits) - 1)
        raise ValueError(f"{name}: {number} isn't from {low:,} to {high:,}")
    return number


def _column(name: str, numbers: Iterable[int], of: Any) -> Tuple[Any, int]:
    """A column of whole numbers as it is lent, and how many they are."""
    fitting = [_whole(name, number, of) for number in numbers]
    return (of * len(fitting))(*fitting), len(fitting)


def _float(name: str, number: float) -> float:
    """A number that a float of 32 bits may stand for."""
    try:
        return float(_f32(number).value)
    except (TypeError, OverflowError):
        raise ValueError(f"{name}: {number!r} isn't a number that a float has") from None


def _room(of: Any, count: int) -> Tuple[Any, int]:
    """A column of zeros that is lent to be filled."""
    return (of * count)(), count


def _copy(record: bytes) -> Tuple[Any, int]:
    """A copy of a record that is lent to be changed."""
    return (_u8 * len(record)).from_buffer_copy(record), len(record)


def _record(record: bytes) -> Tuple[bytes, int]:
    """A record that is lent to be read."""
    record = bytes(memoryview(record))
    return record, len(record)


def _length(record: bytes) -> int:
    """How many bytes an accepted record has."""
    return int.from_bytes(record[:4], "little")


def _left(before: bytes, buffer: Any) -> bytes:
    """What an aging has left: the new record, and what followed the old one. The old one's rest,
    in which fixes that were thinned away may still be, goes."""
    after = bytes(buffer)
    return after[: _length(after)] + after[_length(before):]


# ---- records


class Kind(IntEnum):
    """The kinds of record."""

    CENTIMETRES = 1
    MILLIMETRES = 2
    SILENCES = 3
    """In centimetres, and each fix says whether a silence follows it."""

    @property
    def unit(self) -> str:
        """The unit of all lengths: "cm" or "mm"."""
        return "mm" if self is Kind.MILLIMETRES else "cm"


@dataclass(frozen=True)
class Head:
    """What a record's head says."""

    kind: Kind
    count: int
    mark: Optional[int]
    """The greatest tolerance applied so far, in the unit, or None if it was never thinned."""

    @property
    def unit(self) -> str:
        """The unit of all its lengths: "cm" or "mm"."""
        return self.kind.unit


class Fix(NamedTuple):
    """Where a cart was at a second, and whether a silence follows."""

    t: int
    x: int
    y: int
    silence: bool = False


def _fix(numbers: Sequence[Any]) -> Fix:
    """A fix of three numbers, or of four."""
    return Fix(*numbers)


def check(record: bytes) -> Head:
    """The head of the record that the bytes begin with. Makes checks 1 to 9 and 20."""
    head = _accepted(_trails.trails_check(*_record(record)))
    return Head(Kind(head.kind), head.count, None if head.mark == _NEVER else head.mark)


def fixes(record: bytes) -> List[Fix]:
    """All fixes of the record, in order. Makes checks 1 to 9 and 20."""
    count = check(record).count
    columns = [_room(of, count) for of in (_u32, _i32, _i32, _u8)]
    lent = [part for column in columns for part in column]
    _accepted(_trails.trails_read_all(*_record(record), *lent))
    rows = zip(*(column for column, _ in columns))
    return [Fix(t, x, y, silence != 0) for t, x, y, silence in rows]


def write(
    fixes: Iterable[Sequence[int]], unit: str = "cm", silences: Optional[bool] = None
) -> bytes:
    """The record of fixes (t, x, y) or (t, x, y, silence), marked never thinned.

    The unit is "cm" or "mm". A record is of the kind that has silences if silences is true, or
    if it isn't given and some fix says that one follows. No kind has millimetres and silences.
    Makes checks 3, 7, 8, 9 and 20.
    """
    rows = [_fix(fix) for fix in fixes]
    said = any(fix.silence for fix in rows)
    silent = said if silences is None else silences
    if unit not in ("cm", "mm"):
        raise ValueError(f"unit: {unit!r} isn't 'cm' or 'mm'")
    if said and not silent or unit == "mm" and silent:
        raise ValueError("silences: no such kind of record has them")
    t = _column("t", (fix.t for fix in rows), _u32)
    x = _column("x", (fix.x for fix in rows), _i32)
    y = _column("y", (fix.y for fix in rows), _i32)
    if silent:
        silence = _column("silence", (fix.silence for fix in rows), _u8)
        return _written(_trails.trails_write_silences, *t, *x, *y, *silence)
    writer = _trails.trails_write if unit == "cm" else _trails.trails_write_millimetres
    return _written(writer, *t, *x, *y)


def _written(writer: Any, *lent: Any) -> bytes:
    """The record that a writer puts into an output that has room for every one."""
    output, room = _room(_u8, _LONGEST)
    length = _accepted(writer(*lent, output, room)).value
    return bytes(output[:length])


def dearest(n: int) -> bytes:
    """The record of n fixes that costs most to age, for sizing a controller. Makes check 3."""
    return _written(_trails.trails_dearest, _whole("n", n, _size))


def listing(record: bytes) -> str:
    """The record as text for people: count and mark, each fix, and "end". Makes checks 1 to 9
    and 20."""
    check(record)
    output, _ = _room(_u8, _TEXT)
    length = _trails.trails_list(*_record(record), output)
    return bytes(output[:length]).decode("ascii")


@dataclass(frozen=True)
class Trail:
    """A record with its head and its fixes."""

    record: bytes
    head: Head
    fixes: List[Fix]

    @staticmethod
    def of(record: bytes) -> Trail:
        """The trail that the bytes begin with; what follows it is left out."""
        head = check(record)
        return Trail(bytes(record[: _length(record)]), head, fixes(record))

    def __len__(self) -> int:
        return len(self.fixes)

    def __iter__(self) -> Iterator[Fix]:
        return iter(self.fixes)

    @property
    def unit(self) -> str:
        """The unit of all its lengths: "cm" or "mm"."""
        return self.head.unit

    @property
    def mark(self) -> Optional[int]:
        """The greatest tolerance applied so far, or None if it was never thinned."""
        return self.head.mark

    @property
    def times(self) -> List[int]:
        """The second of each fix."""
        return [fix.t for fix in self.fixes]

    @property
    def xs(self) -> List[int]:
        """The x of each fix."""
        return [fix.x for fix in self.fixes]

    @property
    def ys(self) -> List[int]:
        """The y of each fix."""
        return [fix.y for fix in self.fixes]

    @property
    def stretches(self) -> List[List[Fix]]:
        """Its fixes between silences. No line goes from one stretch to the next."""
        ends = [k + 1 for k, fix in enumerate(self.fixes) if fix.silence]
        starts = [0] + ends
        return [self.fixes[a:b] for a, b in zip(starts, ends + [len(self.fixes)])]


def read(path: Union[str, os.PathLike[str]]) -> Trail:
    """The trail that a file begins with. Makes checks 1 to 9 and 20."""
    with open(path, "rb") as file:
        return Trail.of(file.read(_LONGEST))


# ---- aging


class Row(NamedTuple):
    """A row of a table: from this day on, this tolerance, in centimetres."""

    day: int
    tolerance: int


@dataclass(frozen=True)
class Table:
    """What agings by days take their tolerance from. load and built_in make one."""

    rows: Tuple[Row, ...]

    def _lent(self) -> _Table:
        return _loaded(self.rows)


def _loaded(rows: Sequence[Row]) -> _Table:
    days = _column("day", (row.day for row in rows), _u16)
    tolerances = _column("tolerance", (row.tolerance for row in rows), _u16)
    table: _Table = _accepted(_trails.trails_load(*days, *tolerances)).table
    return table


def _table(table: _Table) -> Table:
    rows = table.rows[: table.count]
    return Table(tuple(Row(row.day, row.tolerance) for row in rows))


def load(rows: Iterable[Sequence[int]]) -> Table:
    """A hall's own table, of rows (day, tolerance). Makes checks 22 and 23."""
    return _table(_loaded([Row(*row) for row in rows]))


def built_in() -> Table:
    """The built-in table."""
    return _table(_trails.trails_built_in())


def _given(table: Optional[Table]) -> _Table:
    """A table as it is lent, the built-in one if there is none."""
    return (built_in() if table is None else table)._lent()


class Aged(NamedTuple):
    """What an aging made: the new record, with what followed the old one, and how many fixes it
    measured."""

    record: bytes
    measured: int


def age(record: bytes, tolerance: int) -> Aged:
    """Thins a record at a tolerance in its unit. Makes checks 1 to 9, 20 and 10."""
    lent = _copy(record)
    answer = _accepted(_trails.trails_age(*lent, _whole("tolerance", tolerance, _u16)))
    return Aged(_left(record, lent[0]), answer.value)


def age_by_days(record: bytes, days: int, table: Optional[Table] = None) -> Aged:
    """Thins a record at the tolerance that a table, or else the built-in one, has for these days.
    Before its first row nothing is changed. Makes checks 1 to 9 and 20."""
    lent = _copy(record)
    number = _whole("days", days, _u16)
    answer = _accepted(_trails.trails_age_by_days(*lent, number, _given(table)))
    return Aged(_left(record, lent[0]), answer.value)


def days_apply(record: bytes, days: int, table: Optional[Table] = None) -> Optional[int]:
    """The tolerance that age_by_days would apply, in the record's unit, or None. Makes the same
    checks."""
    number = _whole("days", days, _u16)
    applied = _accepted(_trails.trails_days_apply(*_record(record), number, _given(table)))
    return applied.tolerance if applied.applies else None


class Days(NamedTuple):
    """An aging by days in a list, by a table or else the built-in one."""

    days: int
    table: Optional[Table] = None


class Ran(NamedTuple):
    """What a list of agings made: the new record, with what followed the old one, and how many of
    the list's agings were refused."""

    record: bytes
    turned_away: int


def run(record: bytes, agings: Iterable[Union[int, Days]]) -> Ran:
    """Makes all agings of a list, one after the other: tolerances, and Days. A refused one changes
    nothing, and those after it are made. Makes checks 1 to 9 and 20."""
    calls: List[int] = []
    tables: List[int] = []
    for aging in agings:
        if isinstance(aging, Days):
            days = _whole("days", aging.days, _u16)
            numbers = (_u16 * (ctypes.sizeof(_Table) // 2)).from_buffer(_given(aging.table))
            # as TRAILS_BY_TABLE has it: the lent table that comes next
            calls.append(((len(tables) // len(numbers) + 1) << 16) + days)
            tables.extend(numbers)
        else:
            calls.append(_whole("tolerance", aging, _u16))
    lent = _copy(record)
    lists = _column("call", calls, _u64) + _column("table", tables, _u16)
    done = _accepted(_trails.trails_run(*lent, *lists))
    return Ran(_left(record, lent[0]), done.turned_away)


# ---- questions


class Place(NamedTuple):
    """Where a cart was, in the record's unit: exactly, and rounded, halves away from 0."""

    x: Fraction
    y: Fraction
    whole_x: int
    whole_y: int


def place(record: bytes, second: int, thousandths: int = 0) -> Place:
    """Where the cart was at a moment. Inside a silence nobody knows, and it is refused. Makes
    checks 1 to 9, 20, 11, 12 and 21."""
    moment = _whole("second", second, _u32), _whole("thousandths", thousandths, _u16)
    found = _accepted(_trails.trails_place(*_record(record), *moment))
    x, y = (Fraction(part, found.denominator) for part in (found.x, found.y))
    return Place(x, y, found.whole_x, found.whole_y)


class Box(NamedTuple):
    """A box with its edges, in the record's unit."""

    left: int
    right: int
    bottom: int
    top: int


def crosses(
    record: bytes, box: Sequence[int], window: Optional[Sequence[int]] = None
) -> Optional[Fraction]:
    """When the cart was first in a box (left, right, bottom, top), in seconds after the first fix,
    or None if it wasn't. The window (start, end) is on the trail's own clock; without one all of
    the trail is asked. Of a silence only its two ends count. Makes checks 1 to 9, 20, 13 and 14.
    """
    if window is None:
        times = [fix.t for fix in fixes(record)]
        window = times[0], times[-1]
    start, end = (_whole("window", second, _u32) for second in window)
    edges = [_whole(name, edge, _i32) for name, edge in zip(Box._fields, Box(*box))]
    found = _accepted(_trails.trails_crosses(*_record(record), start, end, *edges))
    return Fraction(found.numerator, found.denominator) if found.crosses else None


class Approach(NamedTuple):
    """The first leg, from fix leg to the next one, on which a cart came near a point, and when it
    was closest on it, in seconds after the first fix."""

    leg: int
    after: Fraction


def near(record: bytes, point: Sequence[int], radius: int) -> Optional[Approach]:
    """Whether the cart came within a radius of a point (x, y): on which leg first, or None. Of a
    silence only its two ends count. Makes checks 1 to 9, 20 and 16."""
    x, y = (_whole("point", coordinate, _i32) for coordinate in point)
    asked = x, y, _whole("radius", radius, _u32)
    found = _accepted(_trails.trails_near(*_record(record), *asked))
    if not found.approaches:
        return None
    return Approach(found.leg, Fraction(found.numerator, found.denominator))


# ---- anchors


class AnchorState(NamedTuple):
    """What is known of an anchor's cart between two readings: the last place, in centimetres, and
    whether there is one. It begins with none."""

    x: float = 0.0
    y: float = 0.0
    seen: bool = False

    def _lent(self) -> _AnchorState:
        return _AnchorState(self.x, self.y, int(self.seen))


class Reading(NamedTuple):
    """What an anchor sends, in centimetres: a place or, if step is true, how far the cart went
    from the last one. Values stand for the nearest float of 32 bits."""

    x: float
    y: float
    step: bool = False


class Anchored(NamedTuple):
    """What an accepted reading gives: the state for the next one, and the place of a fix."""

    state: AnchorState
    x: int
    y: int


def _state(state: _AnchorState) -> AnchorState:
    return AnchorState(state.x, state.y, state.seen != 0)


def anchor(state: AnchorState, reading: Reading) -> Anchored:
    """Takes a reading. A refused one changes no state. Makes checks 17, 18 and 19."""
    take = _trails.trails_anchor_step if reading.step else _trails.trails_anchor_absolute
    place = _float("x", reading.x), _float("y", reading.y)
    read = _accepted(take(state._lent(), *place))
    return Anchored(_state(read.state), read.x, read.y)


def anchor_all(state: AnchorState, readings: Iterable[Reading]) -> AnchorState:
    """Takes readings one after the other, of which refused ones change nothing. The state after
    all."""
    rows = list(readings)
    step = _column("step", (bool(reading.step) for reading in rows), _u8)
    xs, ys = [_float("x", r.x) for r in rows], [_float("y", r.y) for r in rows]
    x, y = ((_f32 * len(rows))(*column) for column in (xs, ys))
    return _state(_trails.trails_anchor_all(state._lent(), *step, x, len(rows), y, len(rows)))
