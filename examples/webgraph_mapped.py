"""Archives in process, by the library for C: successors, matrices and exact ranks as arrays of numpy.

    >>> import webgraph, webgraph_mapped
    >>> webgraph.build("web", [0, 0, 1], [1, 2, 2], nodes=3)
    Size(nodes=3, arcs=3, bits=22)
    >>> web = webgraph_mapped.Archive("web")
    >>> len(web), web.arcs, web[0].tolist(), [successors.tolist() for successors in web]
    (3, 3, [1, 2], [[1, 2], [2], []])
    >>> starts, all = web.successors([1, 0])
    >>> starts.tolist(), all.tolist()
    ([0, 1, 3], [2, 1, 2])
    >>> web.csr(threads=4).toarray().tolist()
    [[0.0, 1.0, 1.0], [0.0, 0.0, 1.0], [0.0, 0.0, 0.0]]
    >>> low, high = web.rank(rounds=200).floats()
    >>> low.round(3).tolist(), bool((high - low < 1e-9).all())
    ([0.198, 0.282, 0.521], True)
    >>> float(web.certify(low).gap) < 1e-9
    True
    >>> web[3]
    Traceback (most recent call last):
    webgraph_calls.NoPage: no page 3

The files are mapped: nobody may change or cut them while the archive is in use. What a call gives is proved, as for the
program; an archive may be used by several threads. What the library has not, `webgraph` does by the program.

The library is what WEBGRAPH_LIBRARY in the environment names; or the one beside this module, or in `lib` below the
folder where both are installed, or in the repository; or that of the system. It needs numpy, and `csr` needs scipy.
"""

from __future__ import annotations

import ctypes
import operator
import os
from collections.abc import Callable, Iterator, Sequence
from concurrent.futures import Future, ThreadPoolExecutor
from ctypes import byref
from fractions import Fraction
from pathlib import Path
from typing import TYPE_CHECKING, Union

import numpy

import webgraph
from webgraph_calls import (  # noqa: F401, for those who catch them
    ERRORS, MOST, WHOLE, BadArchive, BadBounds, BadPlaces, BadProperties, BadUse, BadWeights, Bounds, Certified, Fault,
    NoPage, OutOfMemory, Params, Refused, lent, library, mapped, number, units, words,
)

if TYPE_CHECKING:
    import scipy.sparse

# How many pages an iteration reads at a time, and about how many arcs a thread.
PAGES = 1 << 12
ARCS = 1 << 16


def write_offsets(base: Union[str, os.PathLike[str]]) -> None:
    """Writes BASE.offsets, for an archive that came without: the program validates it, and says where records begin."""
    parts = [numpy.fromstring(text, dtype=numpy.uint64, sep=" ") for text in webgraph.texts("offsets", base)]
    places, text = numpy.concatenate(parts), Path(f"{base}.properties").read_bytes()
    params, length, status, file = Params(), ctypes.c_uint64(), 17, numpy.empty(1 << 12, dtype=numpy.uint8)
    library.wg_read_properties(text, len(text), byref(params))
    while status == 17:
        file = numpy.empty(2 * len(file), dtype=numpy.uint8)
        status = library.wg_write_offsets(byref(params), *lent(places), *lent(file), byref(length))
    if status:
        raise ERRORS[status](f"{base}: status {status}")
    with open(f"{base}.offsets", "xb") as out:
        out.write(file[:length.value])


class Archive:
    """An archive, by its name without the suffix: its three files mapped, the properties and the offsets validated.

    A record is validated when it is read, with those that it copies from. Pages are numbers from 0 on, arrays of pages
    are of uint64, and bits of the graph file count from 0. Where a call is refused, the exception's `status` is that of
    the program, and the text of its `fault` that of the program's line.
    """

    def __init__(self, base: Union[str, os.PathLike[str]]):
        self.base = os.fspath(base)
        text = Path(f"{base}.properties").read_bytes()
        self.params = Params()
        self._accept(library.wg_read_properties(text, len(text), byref(self.params)))
        self._graph, self._file = mapped(f"{base}.graph"), mapped(f"{base}.offsets")
        #: where each record begins, and last where the last one ends, in bits: the shape (nodes + 1,)
        self.places, fault = numpy.empty(self.params.nodes + 1, dtype=numpy.uint64), Fault()
        self._accept(library.wg_read_offsets(byref(self.params), *lent(self._file), *lent(self.places), byref(fault)),
                     fault)
        self._whole = ctypes.addressof(self.params), *lent(self._graph)
        self._lent = *self._whole, *lent(self.places)

    def _accept(self, status: int, fault: Fault | None = None, page: object = None) -> None:
        if status == 0:
            return
        said = {2: "a wrong length, or a number out of its limits", 3: "out of memory", 8: "bad properties",
                9: fault, 10: f"no page {page}", 12: "bad weights", 16: "no bounds", 18: "the offsets fall"}[status]
        if status in (8, 9):
            ending = "properties" if status == 8 else "graph" if fault.which < 4 else "offsets"
            said = f"{self.base}.{ending}: {said}{f' of {self.arcs}' if status == 9 and fault.which == 3 else ''}"
        error = ERRORS[status](said)
        error.status, error.fault = status, fault if status == 9 else None
        raise error

    def __len__(self) -> int:
        return self.params.nodes

    @property
    def arcs(self) -> int:
        """How many arcs the properties tell, which `check` and `csr` validate."""
        return self.params.arcs

    def __getitem__(self, page: int) -> numpy.ndarray:
        """The successors of a page, ascending: the shape (outdegree,)."""
        page, room = operator.index(page), 256
        outdegree, fault = ctypes.c_uint64(), Fault()
        while True:
            out = numpy.empty(room, dtype=numpy.uint64)
            status = 10 if not 0 <= page <= MOST else library.wg_successors(
                *self._lent, page, *lent(out), byref(outdegree), byref(fault))
            if status != 17:
                self._accept(status, fault, page)
                return out[:outdegree.value].copy()
            room = outdegree.value

    def _done(self, status: int, done: ctypes.c_uint64, fault: Fault, pages: Sequence[int]) -> int:
        """How many lists a call has read, if it read all, or as many as there was room for."""
        if status not in (0, 17):
            self._accept(status, fault, pages[min(done.value, len(pages) - 1)])
        return done.value

    def _range(self, first: int, ends: numpy.ndarray, out: numpy.ndarray) -> int:
        """Reads the lists of the pages from `first` on, as many as `ends` is long, and says how many were read."""
        done, fault = ctypes.c_uint64(), Fault()
        status = library.wg_read_range(*self._lent, first, *lent(ends), *lent(out), byref(done), byref(fault))
        return self._done(status, done, fault, range(first, first + len(ends)))

    def _several(self, count: int, call: Callable[..., int]) -> tuple[numpy.ndarray, numpy.ndarray]:
        starts = numpy.zeros(count + 1, dtype=numpy.uint64)
        pieces, first, used = [], 0, 0
        room = 1024 + 5 * self.arcs * count // (4 * max(len(self), 1))
        while first < count:
            out, ends = numpy.empty(room, dtype=numpy.uint64), starts[first + 1:]
            done = call(first, ends, out)
            pieces.append(out[:int(ends[done - 1]) if done else 0])
            ends[:done] += numpy.uint64(used)
            first, used = first + done, used + len(pieces[-1])
            room = room if done else 2 * room
        return starts, pieces[0] if len(pieces) == 1 else numpy.concatenate([*pieces, words([])])

    def successors(self, pages: Sequence[int]) -> tuple[numpy.ndarray, numpy.ndarray]:
        """The successors of several pages, in any order: `starts` of the shape (len(pages) + 1,), and `all`.

        Those of pages[i] are all[starts[i]:starts[i + 1]].
        """
        pages = words(pages)

        def call(first: int, ends: numpy.ndarray, out: numpy.ndarray) -> int:
            done, fault, rest = ctypes.c_uint64(), Fault(), pages[first:]
            return self._done(library.wg_successors_of(*self._lent, *lent(rest), *lent(ends), *lent(out), byref(done),
                                                       byref(fault)), done, fault, rest)

        return self._several(len(pages), call)

    def pages(self, first: int, last: int) -> tuple[numpy.ndarray, numpy.ndarray]:
        """The successors of the pages from `first` to before `last`, as `successors` gives them."""
        if not 0 <= first <= last <= len(self):
            self._accept(10, None, first if not 0 <= first < len(self) else last)
        return self._several(last - first, lambda begin, ends, out: self._range(first + begin, ends, out))

    def __iter__(self) -> Iterator[numpy.ndarray]:
        """The successors of each page, in order; they are read some pages at a time."""
        for first in range(0, len(self), PAGES):
            starts, found = self.pages(first, min(first + PAGES, len(self)))
            bounds = starts.tolist()
            yield from (found[begin:end] for begin, end in zip(bounds, bounds[1:]))

    def _ends(self) -> bool:
        """Whether what follows the last record is fewer than 128 bits, all 0."""
        left = 8 * len(self._graph) - int(self.places[-1])
        return 0 <= left < 128 and int.from_bytes(self._graph[-16:].tobytes(), "big") & ((1 << left) - 1) == 0

    def _by_blocks(self, threads: int, starts: numpy.ndarray, *arrays: numpy.ndarray) -> bool:
        """Reads all lists once, by blocks of pages, and puts them into the first of the arrays, and 1 into others.

        A thread takes the next block, reads it into room of its own, and copies it once the blocks before are read.
        """
        blocks = 1 + min(self.arcs, 8 * len(self._graph)) // ARCS
        inner = numpy.linspace(0, int(self.places[-1]), blocks + 1, dtype=numpy.uint64)[1:-1]
        cuts = sorted({0, *numpy.searchsorted(self.places[:-1], inner).tolist(), len(self)})
        befores: list[Future[int]] = [Future() for _ in cuts]  # how many arcs the pages before each cut have
        befores[0].set_result(0)
        rooms = [numpy.empty(5 * ARCS // 4, dtype=numpy.uint64) for _ in range(threads)]

        def read(block: int) -> None:
            (page, last), room = cuts[block:block + 2], rooms.pop()
            try:
                after = None
                while page < last:
                    ends = starts[page + 1:last + 1]
                    done = self._range(page, ends, room)
                    before = befores[block].result() if after is None else after
                    count = int(ends[done - 1]) if done else 0
                    page, after = page + done, before + count
                    if after > self.arcs:
                        raise BadArchive
                    if page == last:
                        befores[block + 1].set_result(after)
                    ends[:done] += numpy.uint64(before)
                    for array, values in zip(arrays, (room[:count], 1)):
                        array[before:after] = values
                    room = room if done else numpy.empty(2 * len(room), dtype=numpy.uint64)
            except BaseException as error:
                if not befores[block + 1].done():
                    befores[block + 1].set_exception(error)
                raise
            finally:
                rooms.append(room)

        try:
            with ThreadPoolExecutor(threads) as pool:
                for _ in pool.map(read, range(len(cuts) - 1)):
                    pass
        except (BadArchive, BadPlaces):
            return False
        return befores[-1].result() == self.arcs and self._ends()

    def lists(self, threads: int = 1) -> tuple[numpy.ndarray, numpy.ndarray]:
        """The whole graph, validated: `starts` of the shape (nodes + 1,), and `all` of the shape (arcs,).

        The successors of page x are all[starts[x]:starts[x + 1]].
        """
        starts, found = numpy.zeros(len(self) + 1, dtype=numpy.uint64), numpy.empty(self.arcs, dtype=numpy.uint64)
        if threads == 1 or not self._by_blocks(threads, starts, found):
            # One pass finds the first fault.
            fault = Fault()
            self._accept(library.wg_read_lists(*self._whole, *lent(starts[1:]), *lent(found), byref(fault)), fault)
        return starts, found

    def csr(self, threads: int = 1) -> scipy.sparse.csr_matrix:
        """The square matrix of float64 that has a row for each page, and 1 in the columns of its successors."""
        from scipy.sparse import csr_matrix

        kind = numpy.int32 if max(self.arcs, len(self)) < 2**31 else numpy.int64
        starts, found = numpy.zeros(len(self) + 1, dtype=numpy.uint64), numpy.empty(self.arcs, dtype=kind)
        ones = numpy.empty(self.arcs)
        if threads == 1 or not self._by_blocks(threads, starts, found, ones):
            starts, found = self.lists()
            ones.fill(1)
        return csr_matrix((ones, found.astype(kind, copy=False), starts.astype(kind)), shape=(len(self), len(self)))

    def outdegrees(self) -> numpy.ndarray:
        """How many successors each page has, the graph validated: the shape (nodes,)."""
        found, fault = numpy.empty(len(self), dtype=numpy.uint64), Fault()
        self._accept(library.wg_read_outdegrees(*self._whole, *lent(found), byref(fault)), fault)
        return found

    def check(self) -> webgraph.Size:
        """How many pages, arcs and bits there are, if the three files are in order."""
        fault = Fault()
        self._accept(library.wg_check_offsets(*self._whole, *lent(self._file), byref(fault)), fault)
        return webgraph.Size(len(self), self.arcs, int(self.places[-1]))

    def rank(self, rounds: int = 100, damping: int = 850, weights: Sequence[int] | None = None) -> Bounds:
        """Bounds of each page's share by PageRank: its exact share is from low to high.

        The damping is in thousandths. `weights` are those of teleport, whole numbers below 2^32: the shape (nodes,).
        """
        weights = words([] if weights is None else weights)
        low, high = numpy.empty((2, len(self), 2), dtype=numpy.uint64)
        fault = Fault()
        self._accept(library.wg_rank(*self._whole, *lent(weights), number(damping), number(rounds), *lent(low),
                                     *lent(high), byref(fault)), fault)
        return Bounds(low, high)

    def verify(self, low: numpy.ndarray, damping: int = 850, weights: Sequence[int] | None = None) -> Fraction:
        """What these lower bounds leave of 1, if one round lowers none of them: `low` as that of `Bounds`."""
        weights = words([] if weights is None else weights)
        left, page, fault = (ctypes.c_uint64 * 2)(), ctypes.c_uint64(), Fault()
        low = numpy.ascontiguousarray(low, dtype=numpy.uint64)
        self._accept(library.wg_verify(*self._whole, *lent(weights), number(damping), *lent(low), byref(left),
                                       byref(page), byref(fault)), fault)
        return Fraction(left[0] + (left[1] << 64), WHOLE)

    def certify(self, shares: Sequence[float], damping: int = 850, weights: Sequence[int] | None = None) -> Certified:
        """Proved lower bounds from PageRanks in floats, of the shape (nodes,), which any program has computed.

        They are scaled to a sum of 1, and lowered in proportion, four times as much each time, until one round lowers
        none of them: some passes over the graph, at most 26.
        """
        shares = numpy.asarray(shares, dtype=float)
        if shares.shape != (len(self),) or not (shares.min(initial=0) >= 0 and (shares.sum() > 0 or not len(self))):
            raise ValueError(f"there are {len(self)} pages, and each has a share from 0 on")
        for part in (4.0**step for step in range(-25, 1)):
            low = units((shares / shares.sum() * (1 - part)).clip(0, 1))
            try:
                return Certified(low, self.verify(low, damping, weights))
            except BadBounds:
                if part == 1:
                    raise
        raise AssertionError
