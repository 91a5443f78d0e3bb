"""Compares, for archives that are named, what the module of Python gives by the library with what it gives by the
program; and of archives that the program refuses, what several threads give with what one gives. `library/test module`
calls it.

    library/test_module.py BASE...
"""

import os
import shutil
import sys
import tempfile
import threading

import numpy
import webgraph
import webgraph_mapped

# Archives so small are read in many blocks too, some of which have less room than a list takes.
webgraph_mapped.PAGES, webgraph_mapped.ARCS = 5, 20


def told(web, threads):
    """The lists of an archive, or why it has none."""
    try:
        return [array.tolist() for array in web.lists(threads)]
    except webgraph_mapped.Refused as refused:
        return type(refused), str(refused)


def look_at(base):
    try:
        web = webgraph_mapped.Archive(base)
    except webgraph_mapped.Refused:
        return
    if web.arcs < 1 << 20:
        assert told(web, 1) == told(web, 2) == told(web, 4)
        try:
            web.check()
        except webgraph_mapped.Refused:
            return
        compare(base, web)


def compare(base, web):
    other = webgraph.Archive(base)
    matrix = other.csr()
    lists = [matrix.indices[begin:end].tolist() for begin, end in zip(matrix.indptr, matrix.indptr[1:])]
    nodes = len(web)
    assert [successors.tolist() for successors in web] == lists
    assert [web[page].tolist() for page in range(0, nodes, 7)] == lists[::7]
    assert web.check() == other.check() and web.arcs == matrix.nnz
    for threads in (1, 2, 4):
        made = web.csr(threads=threads)
        assert made.shape == matrix.shape and (made != matrix).nnz == 0
    assert web.outdegrees().tolist() == list(map(len, lists))
    pages = numpy.random.default_rng(1).integers(0, nodes, 50) if nodes else []
    starts, found = web.successors(pages)
    assert [found[begin:end].tolist() for begin, end in zip(starts.tolist(), starts[1:].tolist())] == [
        lists[page] for page in pages]
    starts, found = web.pages(nodes // 3, nodes)
    assert starts[-1] == len(found) and found.tolist() == sum(lists[nodes // 3:], [])
    with tempfile.TemporaryDirectory() as room:
        copy = os.path.join(room, "copy")
        for suffix in ("properties", "graph"):
            shutil.copy(f"{base}.{suffix}", f"{copy}.{suffix}")
        webgraph_mapped.write_offsets(copy)
        with open(f"{base}.offsets", "rb") as file, open(f"{copy}.offsets", "rb") as made:
            assert file.read().rstrip(b"\0") == made.read().rstrip(b"\0")
    for page in (nodes, -1, 2**64):
        try:
            web[page]
        except webgraph_mapped.NoPage as refused:
            assert refused.status == 10
        else:
            raise AssertionError(page)
    bounds = web.rank(rounds=200)
    low, high = bounds.floats()
    for line in other.rank(rounds=200, top=max(nodes, 1)):
        told = [int(words[line.page, 0]) + (int(words[line.page, 1]) << 64) for words in bounds]
        assert told == [line.low * webgraph_mapped.WHOLE, line.high * webgraph_mapped.WHOLE]
        assert low[line.page] <= line.low and line.high <= high[line.page]
    if nodes:
        certified = web.certify((low + high) / 2)
        assert certified.gap < 1e-3 and web.verify(certified.low) == certified.gap


for name in sys.argv[1:]:
    threads = [threading.Thread(target=look_at, args=[name]) for _ in range(2)]
    failures = []
    threading.excepthook = failures.append
    for thread in threads:
        thread.start()
    for thread in threads:
        thread.join()
    if failures:
        sys.exit(f"test_module.py: {name}: {failures[0].exc_type.__name__}: {failures[0].exc_value}")
