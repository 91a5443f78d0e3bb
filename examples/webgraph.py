"""The program from Python: graphs as arrays of numpy and matrices of scipy, in and out; exact ranks; certificates.

    >>> import webgraph
    >>> webgraph.build("web", [0, 0, 1], [1, 2, 2], nodes=3)
    Size(nodes=3, arcs=3, bits=22)
    >>> web = webgraph.Archive("web")
    >>> source, target = web.arcs()
    >>> source.tolist(), target.tolist()
    ([0, 0, 1], [1, 2, 2])
    >>> first = web.rank(top=1, rounds=200)[0]
    >>> first.page, round(float(first.low), 3), first.high - first.low < 1e-9
    (2, 0.521, True)
    >>> web.transpose("back")
    Size(nodes=3, arcs=3, bits=21)
    >>> webgraph.Archive("back").csr().toarray().tolist()
    [[0.0, 0.0, 0.0], [1.0, 0.0, 0.0], [1.0, 1.0, 0.0]]

A page is a number from 0 on, and an archive is named without its suffix. Each call runs the program once. Options are
named as those of its commands: `rank(damping=500)` is `rank --damping=500`. If the program ends with another status
than 0, the call raises `Refused`.

The program is what WEBGRAPH in the environment names; or the one that this module belongs to, in the repository or
below the folder where both are installed; or `webgraph` on the PATH. Arrays need numpy, and matrices scipy; nothing
else is needed. It needs Python 3.9 or later.
"""

from __future__ import annotations

import contextlib
import itertools
import operator
import os
import re
import shlex
import subprocess
import tempfile
from collections.abc import Iterable, Iterator, Sequence
from fractions import Fraction
from pathlib import Path
from typing import TYPE_CHECKING, NamedTuple, Union

if TYPE_CHECKING:
    import numpy
    import scipy.sparse

Name = Union[str, "os.PathLike[str]"]
# What the program prints is read in pieces of so many bytes.
PIECE = 1 << 26
# How many arcs, or rows of a matrix, are made a text at a time.
LINES = 1 << 16


def _found() -> str:
    here = Path(__file__).resolve().parent
    near = (os.path.normpath(here / place) for place in ("../webgraph", "../../../bin/webgraph", "bin/webgraph"))
    return os.environ.get("WEBGRAPH") or next(filter(os.path.isfile, near), "webgraph")


PROGRAM = _found()


class Size(NamedTuple):
    """What `check` prints: how many pages and arcs there are, and how many bits the records take."""

    nodes: int
    arcs: int
    bits: int


class Ranked(NamedTuple):
    """A line of the ranking: the page's exact share of 1 is from low to high, its position from best to worst."""

    page: int
    low: Fraction
    high: Fraction
    best: int
    worst: int


class Refused(Exception):
    """The program ended with another status than 0, or a signal ended it.

    `command` is the list of its arguments, `status` its exit status, or the negative number of the signal, and `line`
    what it wrote on standard error.
    """

    def __init__(self, command: Sequence[str], status: int, line: str):
        super().__init__(command, status, line)
        self.command, self.status, self.line = command, status, line

    def __str__(self) -> str:
        return f"{shlex.join(['webgraph', *self.command])}: {self.line or f'status {self.status}'}"


# ---- Running the program


def _words(command: str, names: Iterable[object], options: dict[str, object]) -> list[str]:
    words = [command]
    for name, value in options.items():
        try:
            value = os.fspath(value) if isinstance(value, (str, os.PathLike)) else operator.index(value)
        except TypeError:
            hint = ", the damping in thousandths: 850 is 0.85" if name == "damping" else ""
            raise TypeError(f"{name}={value!r}: an option is a whole number or a text{hint}") from None
        words.append(f"--{name}={value}")
    return [*words, "--", *map(str, names)]


def texts(command: str, *names: object, **options: object) -> Iterator[bytes]:
    """What the program prints, in pieces of whole lines, each of some PIECE bytes."""
    words = _words(command, names, options)
    with subprocess.Popen([PROGRAM, *words], stdout=subprocess.PIPE, stderr=subprocess.PIPE) as program:
        rest = b""
        while text := program.stdout.read(PIECE):
            whole, end, rest = (rest + text).rpartition(b"\n")
            yield whole + end
        line = program.stderr.read().decode(errors="replace").strip()
    if program.returncode != 0:
        raise Refused(words, program.returncode, line)


def run(command: str, *names: object, **options: object) -> str:
    """All that the program prints, as one text."""
    return b"".join(texts(command, *names, **options)).decode()


def _fed(words: list[str], parts: Iterable[bytes]) -> str:
    """All that the program prints, which is given these parts of a text by its standard input.

    If a part can't be made, the program is killed before its input ends, so that it takes no prefix for the whole.
    """
    pipe, is_taken = subprocess.PIPE, True
    with subprocess.Popen([PROGRAM, *words], bufsize=0, stdin=pipe, stdout=pipe, stderr=pipe) as program:
        try:
            for part in parts:
                rest = memoryview(part)
                try:
                    while rest:
                        rest = rest[program.stdin.write(rest):]
                except BrokenPipeError:
                    # The program has ended, and its status says why.
                    is_taken = False
                    break
            printed, line = program.communicate()
        except BaseException:
            program.kill()
            program.wait()
            raise
    if program.returncode != 0 or not is_taken:
        raise Refused(words, program.returncode, line.decode(errors="replace").strip())
    return printed.decode()


def _size(printed: str) -> Size:
    return Size(*map(int, re.findall(r"=(\d+)", printed)))


def _write(out: Name, command: str, *names: object, parts: Iterable[bytes] = (), **options: object) -> Size:
    """Writes an archive into a new folder beside `out`, and moves its files from there once it is whole.

    If Python is killed, that folder may stay.
    """
    folder, name = os.path.split(os.fspath(out))
    with tempfile.TemporaryDirectory(prefix=f".{name}-", dir=folder or os.curdir) as room:
        made = os.path.join(room, name)
        words = _words(command, [*names, made], options)
        try:
            size = _size(_fed(words, parts))
        except Refused as refused:
            words = [*refused.command[:-1], os.fspath(out)]
            raise Refused(words, refused.status, refused.line.replace(made, os.fspath(out))) from None
        # Without its properties an archive is refused: no file of the old one is read with one of the new.
        with contextlib.suppress(FileNotFoundError):
            os.remove(f"{out}.properties")
        for suffix in ("graph", "offsets", "properties"):
            os.replace(f"{made}.{suffix}", f"{out}.{suffix}")
    return size


# ---- Archives from arrays, matrices and lists


def _pair(source: object, target: object) -> tuple[numpy.ndarray, numpy.ndarray]:
    import numpy

    pair = numpy.asarray(source), numpy.asarray(target)
    if pair[0].ndim != 1 or pair[0].shape != pair[1].shape:
        raise ValueError(f"sources and targets are arrays of one length, not of {pair[0].shape} and {pair[1].shape}")
    for row in pair:
        if len(row) and row.dtype.kind not in "iu":
            raise TypeError(f"pages are whole numbers, not {row.dtype}")
    source, target = (row.astype(numpy.int64, copy=False) for row in pair)
    if min(source.min(initial=0), target.min(initial=0)) < 0:
        raise ValueError("pages are numbers from 0 on")
    return source, target


def _encoded(lines: Iterable[str]) -> Iterator[bytes]:
    lines = iter(lines)
    while part := list(itertools.islice(lines, LINES)):
        yield "".join(part).encode()


def _lines(pieces: Iterable[tuple[object, object]]) -> Iterator[bytes]:
    import numpy

    for source, target in itertools.starmap(_pair, pieces):
        for start in range(0, len(source), LINES):
            pairs = numpy.stack((source[start:start + LINES], target[start:start + LINES]), axis=1)
            yield ("%d %d\n" * len(pairs) % tuple(pairs.ravel().tolist())).encode()


def build_pieces(out: Name, pieces: Iterable[tuple[object, object]], nodes: int, **options: object) -> Size:
    """Writes the archive `out` of arcs that come in pieces, each a pair of arrays of one length: sources and targets.

    The arcs ascend, by source and then by target, within a piece and from one to the next, and none comes twice; the
    program counts them as the lines of `/dev/stdin`, from 1. They go through a pipe, so that no more than a piece is
    held, and take about half a microsecond each beside what the program takes. `nodes` is the number of pages, and the
    options are those of `build`.

    An archive that is there is replaced once the new one is whole. If anything fails before, in `pieces` as well, then
    it stays as it was.
    """
    return _write(out, "build", "/dev/stdin", parts=_lines(pieces), nodes=nodes, **options)


def build(out: Name, source: object, target: object, nodes: int, **options: object) -> Size:
    """Writes the archive `out` of the arcs from source[i] to target[i], as `build_pieces` does.

    These are two arrays of one length. The arcs may come in any order, and more than once; if they do not ascend, some
    40 bytes for each are taken to sort them.
    """
    import numpy

    source, target = _pair(source, target)
    after = (source[1:] > source[:-1]) | ((source[1:] == source[:-1]) & (target[1:] > target[:-1]))
    if not after.all():
        order = numpy.lexsort((target, source))
        source, target = source[order], target[order]
        kept = numpy.append(True, (source[1:] != source[:-1]) | (target[1:] != target[:-1]))
        source, target = source[kept], target[kept]
    return build_pieces(out, [(source, target)], nodes, **options)


def _rows(matrix: scipy.sparse.csr_matrix) -> Iterator[tuple[numpy.ndarray, numpy.ndarray]]:
    import numpy

    ends = matrix.indptr
    for first in range(0, matrix.shape[0], LINES):
        last = min(first + LINES, matrix.shape[0])
        kept = matrix.data[ends[first]:ends[last]] != 0
        source = numpy.repeat(numpy.arange(first, last), numpy.diff(ends[first:last + 1]))
        yield source[kept], matrix.indices[ends[first]:ends[last]][kept]


def build_matrix(out: Name, matrix: scipy.sparse.spmatrix, **options: object) -> Size:
    """Writes the archive `out` of a square sparse matrix of scipy, as `build_pieces` does.

    Its rows are the pages, and the columns of the entries that are not 0 are their successors.
    """
    if matrix.ndim != 2 or matrix.shape[0] != matrix.shape[1]:
        raise ValueError(f"a matrix of a graph is square, and this one has the shape {matrix.shape}")
    rows = matrix.tocsr()
    if not rows.has_canonical_format:
        rows = rows.copy()
        rows.sum_duplicates()
    return build_pieces(out, _rows(rows), matrix.shape[0], **options)


def import_(out: Name, lists: Sequence[Iterable[int]], **options: object) -> Size:
    """Writes the archive `out` of the successors of each page, ascending: `lists` has as many as there are pages.

    It needs no numpy. The program counts the list of page U as line U + 2 of `/dev/stdin`. The options are those of
    `import`. What happens to an archive that is there is as with `build_pieces`.
    """
    lines = (" ".join(map(str, successors)) + "\n" for successors in lists)
    parts = _encoded(itertools.chain([f"{len(lists)}\n"], lines))
    return _write(out, "import", "/dev/stdin", parts=parts, **options)


class Archive:
    """An archive, by its name without the suffix. Each call reads it anew.

    The methods that write another archive `out` take the options of `build`. If they fail, an archive that was there
    stays as it was; `out` may be this one.
    """

    def __init__(self, base: Name):
        self.base = base

    def check(self) -> Size:
        """How many pages, arcs and bits there are, if the three files are in order."""
        return _size(run("check", self.base))

    def show(self, *pages: int) -> list[list[int]]:
        """The successors of each of these pages, ascending. All pages stand in one command line."""
        return [list(map(int, line.split()[1:])) for line in run("show", self.base, *pages).splitlines()]

    def pieces(self) -> Iterator[tuple[numpy.ndarray, numpy.ndarray]]:
        """The arcs, ascending, in pieces: each a pair of arrays of int64 of one length, the sources and the targets.

        A piece is made of some PIECE bytes of text, and so has some millions of arcs.
        """
        import numpy

        for text in texts("arcs", self.base):
            pairs = numpy.fromstring(text, dtype=numpy.int64, sep=" ")
            yield pairs[0::2], pairs[1::2]

    def arcs(self) -> tuple[numpy.ndarray, numpy.ndarray]:
        """All arcs, ascending: the sources and the targets, each an array of int64 with a number for each arc."""
        import numpy

        sources, targets = zip(*self.pieces(), 2 * (numpy.empty(0, dtype=numpy.int64),))
        return numpy.concatenate(sources), numpy.concatenate(targets)

    def csr(self) -> scipy.sparse.csr_matrix:
        """The square matrix of float64 that has a row for each page, and 1 in the columns of its successors."""
        from scipy.sparse import csr_matrix

        (source, target), nodes = self.arcs(), self.check().nodes
        return csr_matrix((source >= 0, (source, target)), shape=(nodes, nodes), dtype=float)

    def rank(self, **options: object) -> list[Ranked]:
        """The first `top` pages by PageRank. The options are those of `rank`, with the damping in thousandths."""
        lines = (line.split() for line in run("rank", self.base, **options).splitlines())
        return [Ranked(int(line[0]), *map(Fraction, line[1:3]), *map(int, line[3:])) for line in lines]

    def verify(self, certificate: Name, **options: object) -> Fraction:
        """The gap of a certificate that holds: no page's share is more than that above its value. It is a part of 1."""
        return Fraction(run("verify", self.base, certificate, **options).split("gap=")[1].strip())

    def recode(self, out: Name, **options: object) -> Size:
        """Writes the archive `out` of the same graph, with the parameters that the options name."""
        return _write(out, "recode", self.base, **options)

    def transpose(self, out: Name, **options: object) -> Size:
        """Writes the archive `out` of the graph with each arc the other way round."""
        return _write(out, "transpose", self.base, **options)

    def union(self, other: Name | Archive, out: Name, **options: object) -> Size:
        """Writes the archive `out` of the arcs of both archives."""
        return _write(out, "union", self.base, other.base if isinstance(other, Archive) else other, **options)

    def quotient(self, out: Name, class_of: Iterable[int], classes: int, **options: object) -> Size:
        """Writes the archive `out` of the graph of classes: `class_of` has for each page a number below `classes`."""
        parts = _encoded(f"{number}\n" for number in class_of)
        return _write(out, "quotient", self.base, "/dev/stdin", parts=parts, classes=classes, **options)
