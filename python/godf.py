# SPDX-License-Identifier: MIT
"""Cross fields for triangle floors, over the shared object of godf. Needs nothing but Python 3.6 or newer.

    import godf
    field = godf.solve([(0, 0), (1, 0), (0, 1)], [(0, 1, 2)], 1.0, boundary="tangent")
    print(list(field.angles))

Points are (x, y) or (x, y, z); z is never read. Triangles are three numbers of points, counted from 0. Sizes are one number for each point,
or one for all. Lists, tuples and everything with a buffer (array.array, NumPy arrays) are taken; arrays of float64 and uint32 without a copy where
they can be written. Results that are numbers in a row are array.array, which numpy.asarray takes without a copy.

A call that is refused raises Refusal, with a number, a place and words. include/godf.h says what each option means, what is refused, and how much
memory and time a solve takes.

The shared object is looked for in the file that GODF_SHARED names, then where ./install puts it, then by the system's loader.
"""

import ctypes
import os
from array import array
from numbers import Number

from godf_words import PLACES, REASON_PLACES, REASONS, REFUSALS

VERSION = 200  # of the calls below: 10000 * major + 100 * minor + patch

_SERIES = "%d.%d" % (VERSION // 10000, VERSION // 100 % 100)
_DOUBLE, _UINT32, _SIZE, _UINT64 = ctypes.c_double, ctypes.c_uint32, ctypes.c_size_t, ctypes.c_uint64
_CODES = {_DOUBLE: "d", _UINT32: "I" if array("I").itemsize == 4 else "L"}
_FORMATS = {_DOUBLE: ("d",), _UINT32: ("I", "L")}  # of buffers, where their numbers have the size of the kind
_DEFAULT_MODE = ctypes.c_void_p(-1)  # C's FE_DFL_ENV
_MODE_BYTES = 64  # room for C's fenv_t

BOUNDARIES = {"none": 0.0, "tangent": 1.0, "weak": 2.0}


class _Options(ctypes.Structure):
    _fields_ = [(name, _DOUBLE) for name in
                ("accurate", "holomorphic", "anisotropy", "anisotropy_angle", "boundary", "boundary_weight", "adaptive")]


class _Report(ctypes.Structure):
    _fields_ = [(name, _UINT64) for name in ("number", "place", "other", "pass_number", "reason", "flagged", "cut")]


def _load():
    here = os.path.dirname(os.path.abspath(__file__))
    name = "libgodf.so." + _SERIES
    installed = os.path.join(here, "..", "..", "..", "lib", name)
    path = os.environ.get("GODF_SHARED") or (installed if os.path.exists(installed) else name)
    try:
        library = ctypes.CDLL(path)
    except OSError as error:
        raise ImportError("godf: %s; run ./install PREFIX, or set GODF_SHARED to the shared object" % error)
    reals, words, sizes = ctypes.POINTER(_DOUBLE), ctypes.POINTER(_UINT32), ctypes.POINTER(_SIZE)
    points, triangles = [reals, _SIZE], [words, _SIZE]
    calls = {
        "godf_version": (_UINT32, []),
        "godf_fine_count": (_SIZE, [_SIZE, _SIZE, _DOUBLE]),
        "godf_work_f64": (_SIZE, [_SIZE, _SIZE, _DOUBLE]),
        "godf_work_u32": (_SIZE, [_SIZE, _SIZE, _DOUBLE]),
        "godf_solve": (_UINT64, points + triangles + [reals, _SIZE] * 2 + [_UINT32, _DOUBLE, ctypes.POINTER(_Options), _SIZE]
                       + [reals, _SIZE] * 3 + [words, _SIZE, ctypes.POINTER(_Report)]),
        "godf_answer": (_UINT32, [reals, _SIZE, reals, _SIZE, _SIZE, _SIZE, sizes]),
        "godf_refine": (_UINT64, points + triangles + [reals, _SIZE] * 2 + [_DOUBLE] + [reals, _SIZE] * 2 + [words, _SIZE] * 2
                        + [ctypes.POINTER(_UINT64), _SIZE]),
        "godf_interp_angle": (_UINT32, [reals, _SIZE] + points + triangles + [_DOUBLE, _DOUBLE, reals]),
        "godf_count_singularities": (_UINT32, [reals, _SIZE] + triangles + [sizes, sizes]),
    }
    try:
        for call, (result, arguments) in calls.items():
            function = getattr(library, call)
            function.restype, function.argtypes = result, arguments
    except AttributeError as error:
        raise ImportError("godf: %s is older than godf.py: %s" % (path, error))
    if library.godf_version() != VERSION:
        raise ImportError("godf: %s has version %d, godf.py %d" % (path, library.godf_version(), VERSION))
    return library


_library = _load()


class _Mode:
    """The floating-point mode that the library needs; the caller's is put back at the end."""

    def __enter__(self):
        self._before = ctypes.create_string_buffer(_MODE_BYTES)
        _library.fegetenv(self._before)
        _library.fesetenv(_DEFAULT_MODE)

    def __exit__(self, *_):
        _library.fesetenv(self._before)


class Refusal(ValueError):
    """A call that was refused.

    number       1 to 24; godf_words.NAMES has names
    kind         what the place is: "point", "triangle", "edge", "anisotropy angle", or None
    place        the number of the point or triangle, the two points of the edge, or None
    pass_number  1 or 2 for refusals 19 to 24, otherwise 0; in pass 2 places are those of the refined floor
    reason       why the solver gave up, for refusal 24, otherwise 0
    """

    def __init__(self, report, points):
        self.number, self.pass_number, self.reason = report.number, report.pass_number, report.reason
        kind = PLACES.get(self.number)
        if kind == "reason":
            kind = REASON_PLACES.get(self.reason)
        if kind == "angle":
            kind = "anisotropy angle" if report.place == points else "point"
        self.kind = kind
        self.place = {None: None, "anisotropy angle": None, "edge": (report.place, report.other)}.get(kind, report.place)
        words = REFUSALS[self.number]
        if self.reason:
            words += ": " + REASONS[self.reason]
        if kind is not None:
            where = "the " + kind if self.place is None else "%s %s" % (kind, "%d to %d" % self.place if kind == "edge" else self.place)
            words += " (%s)" % where
        if self.pass_number == 2:
            words = "on the refined floor, " + words
        super().__init__(words)


def _view(values):
    """The buffer of an object; None if it has none."""
    try:
        return memoryview(values)
    except TypeError:
        return None


def _row(view, kind):
    """A buffer as numbers in a row, without a copy if it can be written. None if its numbers are of another kind, or it has gaps."""
    if not (view.nbytes and view.c_contiguous and view.itemsize == ctypes.sizeof(kind) and view.format in _FORMATS[kind]):
        return None
    row = kind * (view.nbytes // view.itemsize)
    return row.from_buffer_copy(view.cast("B")) if view.readonly else row.from_buffer(view.cast("B"))


def _converted(values, kind):
    """Python's numbers as numbers in a row."""
    numbers = array(_CODES[kind], values)
    return (kind * len(numbers)).from_buffer(numbers)


def _threes(values, kind, name, least):
    """Points or triangles as numbers in a row, three each. A sequence has tuples of `least` to 3 numbers, padded by 0, or the numbers themselves."""
    view, row = _view(values), None
    if view is not None:
        row = _row(view, kind) if view.ndim == 1 or view.shape[1:] == (3,) else None
        values = view.tolist() if row is None else values
    if row is None:
        flat = []
        for each in values:
            if isinstance(each, Number):
                flat.append(each)
                continue
            three = list(each)
            if not least <= len(three) <= 3:
                raise ValueError("godf: %s have %s numbers each" % (name, "three" if least == 3 else "two or three"))
            flat.extend(three + [0] * (3 - len(three)))
        row = _converted(flat, kind)
    if len(row) % 3:
        raise ValueError("godf: the numbers of %s are not whole triples" % name)
    return row


def _points(values):
    return _threes(values, _DOUBLE, "points", 2)


def _triangles(values):
    return _threes(values, _UINT32, "triangles", 3)


def _doubles(values, count=None):
    """Numbers in a row; one number stands for `count` of them."""
    if count is not None and isinstance(values, Number):
        values = [values] * count
    view = _view(values)
    row = None if view is None else _row(view, _DOUBLE)
    return _converted(values if view is None else view.tolist(), _DOUBLE) if row is None else row


def _numbers(values, count=None):
    """The first numbers of a ctypes array, as an array of Python's."""
    result = array("d")
    result.frombytes(memoryview(values).cast("B")[:8 * (len(values) if count is None else count)])
    return result


def _options(accurate=False, holomorphic=0.0, anisotropy=1.0, anisotropy_angle=0.0, boundary="none", boundary_weight=0.0, adaptive=0.0):
    if boundary not in BOUNDARIES:
        raise ValueError("godf: boundary is one of %s" % ", ".join(sorted(BOUNDARIES)))
    return _Options(1.0 if accurate else 0.0, holomorphic, anisotropy, anisotropy_angle, BOUNDARIES[boundary], boundary_weight, adaptive)


class Field:
    """The field of a solve.

    angles          at each point of the floor, in [0, pi/2): pass 2's where the floor was refined
    first_angles    pass 1's, at each point of the floor
    refined_angles  at each point of the refined floor; None if no triangle was flagged
    flagged, cut    the numbers of flagged triangles and of cut edges
    """

    def __init__(self, angles, first_angles, refined_angles, flagged, cut):
        self.angles, self.first_angles, self.refined_angles = angles, first_angles, refined_angles
        self.flagged, self.cut = flagged, cut


class Workspace:
    """Memory for solves, used again from call to call. One for each thread."""

    def __init__(self):
        self._memory = {}

    def _array(self, name, kind, length):
        """Exactly `length` places, in memory that grows where it is too short."""
        memory = self._memory.get(name)
        if memory is None or len(memory) < length:
            memory = self._memory[name] = (kind * max(1, length))()
        return (kind * length).from_buffer(memory)

    def solve(self, points, triangles, sizes, guidance=None, iterations=100, **options):
        """The field of a floor. `guidance` is None or a pair: an angle for each point, and a weight.

        Options: accurate (False), holomorphic (0), anisotropy (1), anisotropy_angle (0), boundary ("none", "tangent" or "weak"),
        boundary_weight (0), adaptive (0, the threshold in radians).
        """
        points, triangles = _points(points), _triangles(triangles)
        n, t = len(points) // 3, len(triangles) // 3
        sizes = _doubles(sizes, n)
        angles, weight = (None, 0.0) if guidance is None else guidance
        angles = (_DOUBLE * 0)() if angles is None else _doubles(angles, n)
        values = _options(**options)
        report = _Report()
        with _Mode():
            reals = _library.godf_work_f64(n, t, values.adaptive)
            fine_count = _library.godf_fine_count(n, t, values.adaptive)
            words = _library.godf_work_u32(n, t, values.adaptive)
            coarse = self._array("coarse", _DOUBLE, n if reals else 0)
            fine = self._array("fine", _DOUBLE, fine_count)
            work = self._array("work", _DOUBLE, reals)
            numbers = self._array("numbers", _UINT32, words)
            _library.godf_solve(points, len(points), triangles, len(triangles), sizes, len(sizes), angles, len(angles),
                                0 if guidance is None else 1, weight, ctypes.byref(values), iterations, coarse, len(coarse), fine, len(fine),
                                work, len(work), numbers, len(numbers), ctypes.byref(report))
            if report.number:
                raise Refusal(report, n)
            count = _SIZE()
            of_fine = _library.godf_answer(coarse, len(coarse), fine, len(fine), n, report.flagged, ctypes.byref(count))
        return Field(_numbers(fine if of_fine else coarse, count.value), _numbers(coarse, n),
                     _numbers(fine, n + report.cut) if report.flagged else None, report.flagged, report.cut)


def solve(points, triangles, sizes, guidance=None, iterations=100, **options):
    """Workspace.solve with memory of its own. For many solves keep a Workspace."""
    return Workspace().solve(points, triangles, sizes, guidance, iterations, **options)


class Refined:
    """A refined floor: points (x, y, z), triangles, sizes, cut_edges and the number of flagged triangles.

    The first points are those given. Each cut edge has one new point, its midpoint, in the order of cut_edges; its z is 0.
    """

    def __init__(self, points, triangles, sizes, cut_edges, flagged):
        self.points, self.triangles, self.sizes, self.cut_edges, self.flagged = points, triangles, sizes, cut_edges, flagged


def refine(points, triangles, sizes, angles, threshold):
    """Splits the triangles on which the field `angles` turns by more than `threshold` radians, and what is next to them."""
    points, triangles = _points(points), _triangles(triangles)
    n, t = len(points) // 3, len(triangles) // 3
    sizes, angles = _doubles(sizes, n), _doubles(angles, n)
    with _Mode():
        fits = _library.godf_work_f64(n, t, 0.0) != 0  # otherwise the call is refused before its arrays are looked at
        most, pieces = (n + 3 * t, 4 * t) if fits else (0, 0)
        new_points, new_sizes = (_DOUBLE * (3 * most))(), (_DOUBLE * most)()
        new_triangles, ends = (_UINT32 * (3 * pieces))(), (_UINT32 * (2 * pieces))()
        counts = (_UINT64 * 4)()
        number = _library.godf_refine(points, len(points), triangles, len(triangles), sizes, len(sizes), angles, len(angles), threshold,
                                      new_points, len(new_points), new_sizes, len(new_sizes), new_triangles, len(new_triangles),
                                      ends, len(ends), counts, len(counts))
    if number:
        raise Refusal(_Report(number=number, place=counts[0]), n)
    point_count, triangle_count, flagged, cut = counts
    return Refined(_tuples(new_points, 3, point_count), _tuples(new_triangles, 3, triangle_count), _numbers(new_sizes, point_count),
                   _tuples(ends, 2, cut), flagged)


def _tuples(values, width, count):
    values = values[:width * count]
    return list(zip(*(values[k::width] for k in range(width))))


def probe(angles, points, triangles, x, y):
    """The angle of the field at (x, y), in [0, pi/2). None if no triangle contains the point, len(angles) is not the number of points, an angle is not
    finite, or the interpolated direction vanishes."""
    angles, points, triangles = _doubles(angles), _points(points), _triangles(triangles)
    angle = _DOUBLE()
    with _Mode():
        answer = _library.godf_interp_angle(angles, len(angles), points, len(points), triangles, len(triangles), x, y, ctypes.byref(angle))
    if answer == 3:
        raise ValueError("godf: an angle is over 131,072 in absolute value")
    return angle.value if answer == 0 else None


def count_singularities(angles, triangles):
    """The numbers of triangles where three quads meet, and where five do."""
    angles, triangles = _doubles(angles), _triangles(triangles)
    three, five = _SIZE(), _SIZE()
    with _Mode():
        _library.godf_count_singularities(angles, len(angles), triangles, len(triangles), ctypes.byref(three), ctypes.byref(five))
    return three.value, five.value


def singularities(angles, triangles):
    """The triangles that count_singularities counts, in their order: pairs of the triangle's number and 3 or 5."""
    angles, triangles = _doubles(angles), _triangles(triangles)
    found, three, five = [], _SIZE(), _SIZE()
    with _Mode():
        for k in range(len(triangles) // 3):
            one = (_UINT32 * 3).from_buffer(triangles, 12 * k)
            _library.godf_count_singularities(angles, len(angles), one, 3, ctypes.byref(three), ctypes.byref(five))
            if three.value or five.value:
                found.append((k, 3 if three.value else 5))
    return found
