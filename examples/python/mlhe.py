"""Morpho-local histogram equalisation (MLHE) of frames, over the proved library.

    intensity(frame)                     the plane of a frame's intensities
    recolour(frame, plane)               the frame, coloured anew from a plane of new intensities
    run_pass(plane, Pass(...))           the plane after a pass, and the numbers of retoned and kept components
    run_passes(plane, [Pass(...), ...])  the same after passes, one after the other, all checked before the first runs
    run_list(plane, data)                the same after the passes of a list, in the bytes of a file of version 1 or 2
    pass_list([Pass(...), ...])          the bytes of a list, of version 1 where all passes have four neighbours, else 2
    convert_list(data)                   the bytes of the same list in the other version
    enhance(frame, last=, area=, rule=, neighbours=)
                                         the recoloured frame, the plane and the numbers; the house setting by default
    read(data), write(frame)             a frame from the bytes of a P6 file, comments skipped, and back

A frame is a numpy array (h, w, 3) of uint8, red, green and blue; a plane is one (h, w) of uint8. Sides are 1 to 4,096,
and there are at most 1,048,576 pixels. A tone rule is Plain(low, high), Limited(k) or Affine(segments, smin, smax). A
pass and an enhancement have four neighbours, or eight, with which pixels that touch at a corner belong together.

The guarantee is of the planes that enhancements and chains of passes leave: equal four-neighbours stay equal, unequal
ones are never reversed, and every regional maximum or minimum contains a whole one of the first plane, however passes
with four and with eight neighbours are mixed. Where all of them have eight, the same holds by eight neighbours too. It
is not of a recoloured frame, whose own intensity is another plane. Match spots on the plane.

What the library turns down raises Refused, with number and reason. What cannot be said to it at all raises TypeError
(an array of another type, a number that is none) or ValueError (an array of another shape, a negative number, an
interval's end that is no byte).

Every result is a new array. No array of the caller's is handed to C, only copies of it, so arrays may be slices, views
and read-only, and nothing that is passed in changes. Threads may call at the same time; the interpreter's lock is free
meanwhile.

The library is libmlhe.so beside this file (`make` builds it), or what LIBMLHE names. x86-64 Linux.
"""

import ctypes
import operator
import os
import struct
from typing import NamedTuple, Union

import numpy
from numpy.ctypeslib import ndpointer

REASONS = {
    1: "a side is 0 or above 4,096",
    2: "there are more than 1,048,576 pixels",
    3: "the plane or the frame does not have the length of its sides",
    4: "the working memory is shorter than the plane",
    5: "the interval's lower end is above its upper end",
    6: "the least area is 0 or above 1,048,576",
    7: "low is above high, or high is above 25,500",
    8: "the clip is above 1,000",
    9: "the last level is above 7",
    10: "the P6 header is malformed, or the file ends in it",
    11: "the P6 header's third number is not 255",
    12: "the raster is short",
    13: "there are bytes after the raster",
    14: "the output is too short",
    15: "it is no pass list of version 1 or 2",
    16: "there are more than 320 passes, or the pass list's length is wrong",
    17: "there is no such tone rule, or a number that has to be 0 is set",
    18: "there are 0 segments or more than 16, smin is above smax, or smax is above 10,000",
    19: "the number of neighbours is neither 4 nor 8",
    20: "a pass with eight neighbours does not fit version 1",
}


class Refused(ValueError):
    """A call was turned down: `number`, 1 to 20, and `reason`."""

    def __init__(self, number):
        super().__init__(number)
        self.number = number
        self.reason = REASONS[number]

    def __str__(self):
        return f"refused {self.number}: {self.reason}"


class Plain(NamedTuple):
    """Histogram equalisation; a component is kept back where it has one value, or the ratio of the value ranges after
    and before is outside low to high, in hundredths. low <= high <= 25,500."""

    low: int
    high: int


class Limited(NamedTuple):
    """Contrast-limited equalisation with the clip k in thousandths, 0 to 1,000; no component is kept back."""

    k: int


class Affine(NamedTuple):
    """Piecewise affine equalisation: the cumulative histogram is approximated by joined segments, 1 to 16, whose slopes
    are held between smin and smax, in hundredths. smin <= smax <= 10,000. Where the last segment ends above the
    interval, all are scaled to fit; where it ends below the interval's upper end, or the interval is of one value, a
    component is kept back."""

    segments: int
    smin: int
    smax: int


Rule = Union[Plain, Limited, Affine]


class Pass(NamedTuple):
    """Every component of the pixels with values from a to b that has at least `area` pixels gets the rule. Components
    are connected by 4 or by 8 neighbours."""

    a: int
    b: int
    area: int
    rule: Rule
    neighbours: int = 4


class Settings(NamedTuple):
    """Of an enhancement: the last level, 0 to 7, the least area of a component from level 1 on, the rule, and the
    number of neighbours on all levels, 4 or 8."""

    last: int
    area: int
    rule: Rule
    neighbours: int = 4


HOUSE = Settings(last=7, area=20, rule=Plain(low=80, high=300), neighbours=4)


class Counts(NamedTuple):
    """How many components of sufficient area were retoned, and how many were kept back: those with at least the least
    area of their pass, in the plane as it finds them, summed over the passes."""

    retoned: int
    kept: int


class Retoned(NamedTuple):
    """What passes leave: the new plane, and the counts."""

    plane: numpy.ndarray
    counts: Counts


class Enhanced(NamedTuple):
    """What an enhancement leaves: the recoloured frame, the plane, which the guarantee is of, and the counts of all its
    levels."""

    frame: numpy.ndarray
    plane: numpy.ndarray
    counts: Counts


# What C reads is a bytes object or, for a rule, an array that was made for the call, as is what it writes: of the right
# type, contiguous and, where it is written, writable, which ctypes tests once more.
_BYTES = ctypes.c_char_p
_OUTPUT = ndpointer(numpy.uint8, flags=("C_CONTIGUOUS", "WRITEABLE"))
_QUEUE = ndpointer(numpy.uint32, flags=("C_CONTIGUOUS", "WRITEABLE"))
_NUMBERS = ndpointer(numpy.uintp, flags=("C_CONTIGUOUS", "WRITEABLE"))
_RULE = ndpointer(numpy.uint16, flags="C_CONTIGUOUS")
_SIZE = ctypes.c_size_t
_SIDES = (_SIZE, _SIZE)
_MEMORY = (_OUTPUT, _SIZE, _QUEUE, _SIZE)
_COUNTS = (_NUMBERS, _SIZE)

# The arguments of the functions, as include/mlhe.h has them.
_ARGUMENTS = {
    "mlhe_read": (_BYTES, _SIZE, _NUMBERS, _SIZE),
    "mlhe_write": (_BYTES, _SIZE, *_SIDES, _OUTPUT, _SIZE),
    "mlhe_intensity": (_BYTES, _SIZE, *_SIDES, _OUTPUT, _SIZE),
    "mlhe_pass": (_OUTPUT, _SIZE, *_MEMORY, *_SIDES, ctypes.c_uint8, ctypes.c_uint8, ctypes.c_uint32, _RULE, _SIZE,
                  *_COUNTS),
    "mlhe_run_list": (_BYTES, _SIZE, _OUTPUT, _SIZE, *_MEMORY, *_SIDES, *_COUNTS),
    "mlhe_convert_list": (_BYTES, _SIZE, _OUTPUT, _SIZE),
    "mlhe_recolour": (_BYTES, _SIZE, *_SIDES, _BYTES, _SIZE, _OUTPUT, _SIZE),
    "mlhe_enhance": (_BYTES, _SIZE, *_SIDES, ctypes.c_uint8, ctypes.c_uint32, _RULE, _SIZE, _OUTPUT, _SIZE, *_MEMORY,
                     _OUTPUT, _SIZE, *_COUNTS),
}
_GREATEST_HEADER = 17
_GREATEST_PASSES = 320
_GREATEST_LIST = 7 + 16 * _GREATEST_PASSES


def _load():
    path = os.environ.get("LIBMLHE") or os.path.join(os.path.dirname(os.path.abspath(__file__)), "libmlhe.so")
    try:
        library = ctypes.CDLL(path)
        for name, arguments in _ARGUMENTS.items():
            function = getattr(library, name)
            function.argtypes = arguments
            function.restype = ctypes.c_int64
            function.errcheck = _accepted
    except (OSError, AttributeError) as error:
        raise ImportError(f"{error}. Next: make -C examples/python, or LIBMLHE=path/to/libmlhe.so") from error
    return library


def _accepted(answer, _function, _arguments):
    """The answer of a function, or the refusal that it stands for."""
    if answer < 0:
        raise Refused(-answer)
    return answer


_library = _load()


def _lent(*memories):
    """Each memory, followed by the number of its elements."""
    for memory in memories:
        yield memory
        yield len(memory) if isinstance(memory, bytes) else memory.size


def _new(*shape, type=numpy.uint8):
    return numpy.empty(shape, type)


def _memory(n):
    """Working memory for n pixels: marks and queue."""
    return _lent(_new(n), _new(n, type=numpy.uint32))


def _counted(function, *arguments):
    """Calls a function whose last arguments are the counts that it is lent, and answers them."""
    counts = _new(len(Counts._fields), type=numpy.uintp)
    function(*arguments, *_lent(counts))
    return Counts(*map(int, counts))


def _sides(array, what, channels):
    """The height and width of a frame or a plane, which the library allows."""
    if not isinstance(array, numpy.ndarray) or array.dtype != numpy.uint8:
        given = f"an array of {array.dtype}" if isinstance(array, numpy.ndarray) else type(array).__name__
        raise TypeError(f"a {what} is a numpy array of uint8, not {given}")
    if array.ndim != 2 + len(channels) or array.shape[2:] != channels:
        raise ValueError(f"a {what} is an array (h, w{', 3' if channels else ''}), not {array.shape}")
    h, w = array.shape[:2]
    try:
        # A frame of no bytes is refused with 3, which comes after the sides.
        _library.mlhe_intensity(*_lent(b""), w, h, *_lent(_new(0)))
    except Refused as refusal:
        if refusal.number != 3:
            raise
    return h, w


def _frame_sides(frame):
    return _sides(frame, "frame", (3,))


def _plane_sides(plane):
    return _sides(plane, "plane", ())


def _copy(plane):
    """A plane of the call's own, to be changed in place."""
    return numpy.array(plane, order="C", copy=True, subok=False)


def _bytes(data):
    return data if type(data) is bytes else bytes(memoryview(data))


def _number(name, value, bits):
    """The number, or the greatest of so many bits: whatever takes such a number turns that one down too, with the same
    refusal."""
    value = operator.index(value)
    if value < 0:
        raise ValueError(f"{name} is {value}, below 0")
    return min(value, 2**bits - 1)


def _byte(name, value):
    value = operator.index(value)
    if not 0 <= value <= 255:
        raise ValueError(f"{name} is {value}, not 0 to 255")
    return value


def _rule(rule):
    """The numbers that stand for a rule: its code, first, second, segments."""
    if isinstance(rule, Plain):
        return 0, _number("low", rule.low, 16), _number("high", rule.high, 16), 0
    if isinstance(rule, Limited):
        return 1, _number("k", rule.k, 16), 0, 0
    if isinstance(rule, Affine):
        slopes = _number("smin", rule.smin, 16), _number("smax", rule.smax, 16)
        return 2, *slopes, _number("segments", rule.segments, 8)
    raise TypeError(f"a rule is a Plain, a Limited or an Affine, not {type(rule).__name__}")


def _rule_numbers(rule, neighbours):
    """The numbers that a function is lent: those of a rule, and that of the neighbours."""
    return *_rule(rule), _number("neighbours", neighbours, 8)


def _lent_rule(numbers):
    """These numbers, as a function is lent them."""
    return _lent(numpy.array(numbers, numpy.uint16))


def _pass(one):
    """The numbers of a pass: a, b, area, and those of its rule and neighbours."""
    if not isinstance(one, Pass):
        raise TypeError(f"a pass is Pass(a, b, area, rule), not {type(one).__name__}")
    numbers = _byte("a", one.a), _byte("b", one.b), _number("area", one.area, 32)
    return *numbers, _rule_numbers(one.rule, one.neighbours)


def _list_bytes(passes):
    """The bytes of the list of these passes, unchecked but for how many there are."""
    records = [struct.pack("<BBBBIHHBxxx", a, b, code, segments, area, first, second, neighbours)
               for a, b, area, (code, first, second, segments, neighbours) in map(_pass, passes)]
    if len(records) > _GREATEST_PASSES:
        raise Refused(16)
    version, length = (1, 12) if all(record[12] == 4 for record in records) else (2, 16)
    return b"MLP" + struct.pack("<HH", version, len(records)) + b"".join(record[:length] for record in records)


def intensity(frame):
    """The plane of a frame's intensities: the means of the channels, rounded to nearest, halves upward. Refusals, in
    order: 1, 2."""
    h, w = _frame_sides(frame)
    plane = _new(h, w)
    _library.mlhe_intensity(*_lent(frame.tobytes()), w, h, *_lent(plane))
    return plane


def recolour(frame, plane):
    """The frame, coloured anew from a plane of new intensities. Refusals, in order: 1, 2, and 3 for a plane of other
    sides."""
    h, w = _frame_sides(frame)
    if _plane_sides(plane) != (h, w):
        raise Refused(3)
    output = _new(h, w, 3)
    _library.mlhe_recolour(*_lent(frame.tobytes()), w, h, *_lent(plane.tobytes(), output))
    return output


def run_pass(plane, one):
    """The plane after a pass, and its counts. Refusals, in order: 1, 2, 5, 6, 7, 8, 18, 19."""
    h, w = _plane_sides(plane)
    new = _copy(plane)
    *numbers, rule = _pass(one)
    counts = _counted(_library.mlhe_pass, *_lent(new), *_memory(w * h), w, h, *numbers, *_lent_rule(rule))
    return Retoned(new, counts)


def run_passes(plane, passes):
    """The plane after these passes, one after the other, and the sums of their counts. All of them are checked before
    the first runs. Refusals, in order: 1, 2, 16 for more than 320, then for each pass 5, 6, 7, 8, 18, 19."""
    _plane_sides(plane)
    return run_list(plane, _list_bytes(passes))


def run_list(plane, data):
    """The plane after the passes of a list, in the bytes of a file of version 1, which means four neighbours, or 2, and
    the sums of their counts. Refusals, in order: 1, 2, 16, 15, 16, then for each pass 17, 5, 6, 7, 8, 18, 19."""
    h, w = _plane_sides(plane)
    new = _copy(plane)
    counts = _counted(_library.mlhe_run_list, *_lent(_bytes(data), new), *_memory(w * h), w, h)
    return Retoned(new, counts)


def pass_list(passes):
    """The bytes of the list of these passes, in a file of version 1 where all of them have four neighbours, and of
    version 2 otherwise. Refusals, in order: 16 for more than 320, then for each pass 5, 6, 7, 8, 18, 19."""
    data = _list_bytes(passes)
    run_list(numpy.zeros((1, 1), numpy.uint8), data)  # which checks all of it before the first pass runs
    return data


def convert_list(data):
    """The bytes of a list in the other version: 2 for a list of version 1, and 1 for one of version 2. It has the same
    passes, and converted twice it is the first list again. Refusals, in order: 16, 15, 16, then for each pass 17, 5, 6,
    7, 8, 18, 19; then 20 where a pass with eight neighbours is to become version 1."""
    output = _new(_GREATEST_LIST)
    length = _library.mlhe_convert_list(*_lent(_bytes(data), output))
    return output[:length].tobytes()


def enhance(frame, *, last=HOUSE.last, area=HOUSE.area, rule=HOUSE.rule, neighbours=HOUSE.neighbours):
    """Enhances a frame: intensity, the passes of the levels 0 to `last`, and recolouring. Answers the recoloured frame,
    the plane and the sums of the passes' counts. Refusals, in order: 1, 2, 9, 6, 7, 8, 18, 19."""
    h, w = _frame_sides(frame)
    plane, output = _new(h, w), _new(h, w, 3)
    numbers = _rule_numbers(rule, neighbours)
    settings = _number("last", last, 8), _number("area", area, 32), *_lent_rule(numbers)
    counts = _counted(_library.mlhe_enhance, *_lent(frame.tobytes()), w, h, *settings, *_lent(plane), *_memory(w * h),
                      *_lent(output))
    return Enhanced(output, plane, counts)


def read(data):
    """The frame in the bytes of a P6 file. Comments in its header are skipped: a number sign where whitespace may
    stand before a number opens one, up to and including the next LF or CR. Refusals, in order: 10, 1, 2, 11, 12, 13."""
    data = _bytes(data)
    numbers = _new(3, type=numpy.uintp)
    _library.mlhe_read(*_lent(data, numbers))
    w, h, start = map(int, numbers)
    return numpy.frombuffer(data, numpy.uint8, 3 * w * h, start).reshape(h, w, 3).copy()


def write(frame):
    """The bytes of a P6 file with the frame. Refusals, in order: 1, 2."""
    h, w = _frame_sides(frame)
    output = _new(3 * w * h + _GREATEST_HEADER)
    length = _library.mlhe_write(*_lent(frame.tobytes()), w, h, *_lent(output))
    return output[:length].tobytes()
