"""The library for C as Python calls it: its structs, statuses as exceptions, and arrays as it takes them. What a
program uses of it is in `webgraph_mapped`.

The library is what WEBGRAPH_LIBRARY in the environment names; or the one beside this module, or in `lib` below the
folder where both are installed, or in the repository; or that of the system.
"""

from __future__ import annotations

import ctypes
import mmap
import operator
import os
from fractions import Fraction
from pathlib import Path
from typing import NamedTuple

import numpy

# The name of the library, with the number of its interface.
LIBRARY = "libwebgraph.so.0"
# A bound of 1, in units of its last digit, the 24th.
WHOLE = 10**24
# The greatest number that a call can be told.
MOST = 2**64 - 1

FIELDS = "outdegree reference blockcount block copied intervalcount left length residual record".split()
KINDS = "cut noword range chain total copied twice".split()


class Params(ctypes.Structure):
    """The parameters of an archive, as `wg_params` in webgraph.h."""

    _fields_ = [*((name, ctypes.c_uint64) for name in "nodes arcs window chain interval".split()),
                *((name, ctypes.c_uint32)
                  for name in "zeta outdegrees references block_counts blocks residuals offsets".split())]


class Fault(ctypes.Structure):
    """The first fault of an archive, as `wg_fault` in webgraph.h; as a text, it is that of the program's line."""

    _fields_ = [*((name, ctypes.c_uint32) for name in "which field kind".split()),
                *((name, ctypes.c_uint64) for name in "page at found stored".split())]

    def __str__(self) -> str:
        page, at, found, stored = self.page, self.at, self.found, self.stored
        field, kind = FIELDS[self.field], KINDS[self.kind]
        return ("none", f"page {page} bit {at} {field} {kind}", f"tail bit {at}", f"arcs {at}",
                f"page {page} length {found} stored {stored}", f"word {page} cut", f"word {page} noword", "first word",
                f"word {page} too far", f"tail bit {at}")[self.which]


class Refused(Exception):
    """A call answered the status `status`, which is not 0; `fault` is the fault of the files, where one was found."""

    status: int = 0
    fault: Fault | None = None


class BadUse(Refused, ValueError):
    """An array has a wrong length, or a parameter is out of its limits."""


class OutOfMemory(Refused, MemoryError):
    """There was no memory."""


class BadProperties(Refused):
    """The properties have a fault."""


class BadArchive(Refused):
    """The graph or the offsets have a fault: `fault` is the first one, with its place."""


class NoPage(Refused, IndexError):
    """There is no such page."""


class BadWeights(Refused, ValueError):
    """A weight is 2^32 or more, or all are 0."""


class BadBounds(Refused, ValueError):
    """These are no lower bounds that one round proves."""


class BadPlaces(Refused):
    """The offsets fall."""


ERRORS = {2: BadUse, 3: OutOfMemory, 8: BadProperties, 9: BadArchive, 10: NoPage, 12: BadWeights, 16: BadBounds,
          18: BadPlaces}


# The calls with their arguments: W a number or a length, A an address. One that the library has not is left out.
_CALLS = {
    "wg_read_properties": "AWA", "wg_read_offsets": "AAWAWA", "wg_successors": "AAWAWWAWAA",
    "wg_successors_of": "AAWAWAWAWAWAA", "wg_read_lists": "AAWAWAWA", "wg_read_range": "AAWAWWAWAWAA",
    "wg_read_outdegrees": "AAWAWA", "wg_check_offsets": "AAWAWA", "wg_rank": "AAWAWWWAWAWA",
    "wg_verify": "AAWAWWAWAAA", "wg_write_offsets": "AAWAWA",
}


def loaded() -> ctypes.CDLL:
    here = Path(__file__).resolve().parent
    near = (os.path.normpath(here / place / LIBRARY) for place in (".", "../../../lib", "../library/out"))
    name = os.environ.get("WEBGRAPH_LIBRARY") or next(filter(os.path.isfile, near), LIBRARY)
    try:
        found = ctypes.CDLL(name)
    except OSError as error:
        raise ImportError(f"the library for C is not there: {error}") from None
    for call, words in _CALLS.items():
        if hasattr(found, call):
            getattr(found, call).argtypes = [{"A": ctypes.c_void_p, "W": ctypes.c_uint64}[word] for word in words]
            getattr(found, call).restype = ctypes.c_uint32
    return found


library = loaded()


def mapped(name: str) -> numpy.ndarray:
    """The bytes of a file, which nobody may change while they are used."""
    with open(name, "rb") as file:
        if os.fstat(file.fileno()).st_size == 0:
            return numpy.empty(0, dtype=numpy.uint8)
        return numpy.frombuffer(mmap.mmap(file.fileno(), 0, access=mmap.ACCESS_READ), dtype=numpy.uint8)


def lent(array: numpy.ndarray) -> tuple[int, int]:
    """An array as two arguments of a call."""
    return array.ctypes.data, array.size


def number(given: object) -> int:
    """A whole number as a call takes it; one that it can't be told is as bad as the greatest."""
    return operator.index(given) if 0 <= operator.index(given) <= MOST else MOST


def words(numbers: object) -> numpy.ndarray:
    """These numbers as an array of uint64, which has them in order."""
    array = numpy.asarray(numbers)
    if array.ndim != 1 or (array.size and array.dtype.kind not in "iu"):
        raise TypeError("this is no row of whole numbers")
    if array.size and array.dtype.kind == "i" and array.min() < 0:
        raise ValueError("pages and weights are numbers from 0 on")
    return numpy.ascontiguousarray(array, dtype=numpy.uint64)


def units(shares: numpy.ndarray) -> numpy.ndarray:
    """Floats from 0 to 1 as units of 10^-24, rounded down: the shape (n, 2), of the low and the high word."""
    parts, powers = numpy.frexp(shares)
    whole, c = numpy.ldexp(parts, 53).astype(numpy.uint64), 5**24
    # By 10^24 = 5^24 * 2^24: the exact product of 53 bits with 56, and then a shift.
    low32, half = numpy.uint64(2**32 - 1), numpy.uint64(32)
    wl, wh, cl, ch = whole & low32, whole >> half, numpy.uint64(c & 2**32 - 1), numpy.uint64(c >> 32)
    middle = (wl * cl >> half) + wh * cl
    middle2 = wl * ch + (middle & low32)
    low = (middle2 << half) | (wl * cl & low32)
    high = wh * ch + (middle >> half) + (middle2 >> half)
    shift = (29 - powers.astype(numpy.int64)).clip(0, 127).astype(numpy.uint64)
    right, left = shift % numpy.uint64(64), (numpy.uint64(64) - shift) % numpy.uint64(64)
    both = numpy.where(right == 0, low, (low >> right) | (high << left))
    far = shift >= 64
    return numpy.stack((numpy.where(far, high >> right, both), numpy.where(far, 0, high >> right)), axis=1)


class Bounds(NamedTuple):
    """Bounds of each page's share of 1, in units of 10^-24: two arrays of uint64 of the shape (nodes, 2).

    The bound of page x is `low[x, 0] + 2**64 * low[x, 1]`.
    """

    low: numpy.ndarray
    high: numpy.ndarray

    def floats(self) -> tuple[numpy.ndarray, numpy.ndarray]:
        """Floats, low ones no greater than the bounds and high ones no less: two arrays of the shape (nodes,)."""
        low, high = ((words[:, 1] * 2.0**64 + words[:, 0]) / float(WHOLE) for words in self)
        # Four roundings have been made, each by half a step at most, and steps are alike but for a factor of 2.
        for _ in range(5):
            low, high = numpy.nextafter(low, -1), numpy.where(high > 0, numpy.nextafter(high, 2), high)
        return low.clip(0), high


class Certified(NamedTuple):
    """Proved lower bounds, of the shape (nodes, 2) as in `Bounds`; no page's share is more than `gap` above its own."""

    low: numpy.ndarray
    gap: Fraction
