"""The archives that `library/test` tries, and what the program says of them, line by line as test.c tells it."""

import argparse
import base64
import itertools
import json
import random
import re
import shutil
import subprocess
from pathlib import Path

HERE = Path(__file__).resolve().parent
TOP = HERE.parent
FILES = ("properties", "graph", "offsets")
OPTIONS = (
    (), ("--window=0", "--interval=0", "--zeta=1"), ("--window=70", "--chain=none", "--interval=2", "--zeta=5"),
    ("--chain=1", "--references=gamma", "--blockcounts=unary", "--blocks=delta", "--residuals=gamma"),
    ("--outdegrees=delta", "--references=delta", "--blockcounts=delta", "--residuals=delta", "--offsets=delta"),
    ("--residuals=nibble", "--window=1", "--chain=0"),
)
WHOLE = 10**24
# How many pages the range has that test.c tells.
RANGE = 4
# The arguments of `library/test`.
given = argparse.Namespace()


class Skipped(Exception):
    """Something is not there."""


def run(*words, status=0, **options):
    """What a command prints. It has to end with that status."""
    done = subprocess.run(list(map(str, words)), stdout=subprocess.PIPE, stderr=subprocess.PIPE, text=True, **options)
    if done.returncode != status:
        said = (done.stderr + done.stdout).strip()[:2000]
        raise RuntimeError(f"{' '.join(map(str, words))[:300]}: status {done.returncode}: {said}")
    return done.stdout


def asked(*words):
    """The status of the program, what it prints, and its line without the names of files."""
    done = subprocess.run([given.program, *map(str, words)], stdout=subprocess.PIPE, stderr=subprocess.PIPE, text=True)
    return done.returncode, done.stdout, done.stderr.strip().rpartition(": ")[2].split(" of ")[0]


def needed(*names):
    for name in names:
        if not shutil.which(name):
            raise Skipped(f"no {name}")


# ---- Archives


def lists_of(pages, seed):
    """The successors of each page: some are like those of pages before."""
    rolls, lists = random.Random(seed), []
    for page in range(pages):
        before = lists[page - rolls.randint(1, min(page, 9))] if page else []
        begin = rolls.randrange(pages)
        kept = [to for to in before if rolls.randrange(8)]
        run_here = range(begin, min(begin + rolls.choice((0, 0, 6)), pages))
        lists.append(sorted({*kept, *run_here, rolls.randrange(pages)})[:40] if rolls.randrange(6) else [])
    return lists


def built(room):
    for count, pages in enumerate((0, 1, 2, 7, 50, 300)):
        text = room / f"{count}.graph-txt"
        text.write_text(f"{pages}\n" + "".join(" ".join(map(str, line)) + "\n" for line in lists_of(pages, count)))
        for number, options in enumerate(OPTIONS):
            run(given.program, "import", *options, text, room / f"built-{count}-{number}")
            yield room / f"built-{count}-{number}"


def of_cases(room):
    """The archives in a file of cases: each base of which all three files are there."""
    seen = set()
    with open(given.cases, encoding="utf-8") as cases:
        for number, line in enumerate(cases):
            before = json.loads(line)["before"]
            for name in sorted(before):
                base = name.rpartition(".")[0]
                files = tuple(before.get(f"{base}.{suffix}") for suffix in FILES)
                if name.endswith(".properties") and None not in files and files not in seen:
                    seen.add(files)
                    yield lay(room / f"case-{number}-{len(seen)}", map(base64.b64decode, files))


def lay(base, files):
    for suffix, content in zip(FILES, files):
        Path(f"{base}.{suffix}").write_bytes(content)
    return base


def files_of(base):
    return [Path(f"{base}.{suffix}").read_bytes() for suffix in FILES]


def changed(room, bases):
    rolls = random.Random(1)
    for number in range(given.flipped):
        files = files_of(rolls.choice(bases))
        place = rolls.choice((0, 1, 1, 1, 2, 2))
        content = bytearray(files[place])
        for _ in range(rolls.choice((1, 1, 2, 9)) if content else 0):
            content[rolls.randrange(len(content))] ^= 1 << rolls.randrange(8)
        files[place] = bytes(content)
        yield lay(room / f"flipped-{number}", files)
    for number in range(given.wrong):
        files, other, place = files_of(rolls.choice(bases)), files_of(rolls.choice(bases)), rolls.randrange(3)
        whole = files[place]
        files[place] = rolls.choice((whole[:rolls.randrange(len(whole) + 1)], whole + b"\0" * rolls.randrange(20),
                                     whole + b"\1", other[place]))
        if number % 3 == 0:
            key = rolls.choice((b"nodes=", b"arcs=", b"windowsize=", b"maxrefcount=", b"zetak=", b"minintervallength="))
            files[0] += key + rolls.choice((b"0", b"1", b"2", b"9", b"300", b"99999999999999999999")) + b"\n"
        yield lay(room / f"wrong-{number}", files)


# ---- What the program says, as test.c tells it


def line_of(call, status, fault, numbers=()):
    return " ".join([call, str(status), *([fault] if status == 9 else []), *map(str, numbers if status == 0 else ())])


def pair(value):
    return value % 2**64, value >> 64


def unit(text):
    return int(text.replace(".", ""))


def wanted_ranks(base, nodes):
    weights, proof = f"{base}.weights", f"{base}.proof"
    Path(weights).write_text("".join(f"{page % 3}\n" for page in range(nodes)))
    for name, also in (("", ()), ("weighed", (f"--weights={weights}",))):
        status, printed, fault = asked("rank", "--rounds=3", "--damping=800", f"--top={max(nodes, 1)}",
                                       f"--certificate={proof}", *also, base)
        ranked = sorted((int(line.split()[0]), *map(unit, line.split()[1:3])) for line in printed.splitlines())
        yield line_of(name or "rank", status, fault, [word for line in ranked for word in pair(line[1])])
        yield "high" + "".join(f" {word}" for line in ranked for word in pair(line[2]))
        if status:
            continue
        status, printed, fault = asked("verify", *also, base, proof)
        dash = f"{name}-" if name else ""
        left = pair(unit(printed.split("gap=")[1].strip())) if status == 0 else ()
        yield line_of(f"{dash}verify", status, fault, left)
        if nodes:
            head, pages, first, *rest = Path(proof).read_text().splitlines()
            value = unit(first) + (9000 << 64)
            first = f"{value // WHOLE}.{value % WHOLE:024}"
            Path(proof).write_text("\n".join([head, pages, first, *rest, ""]))
            status, _, fault = asked("verify", *also, base, proof)
            page = int(fault.split()[1]) if fault.startswith("page") else 2**64 - 1
            yield f"{dash}raised {status}" + (f" {page}" if status == 16 else "")


def wanted_range(base, first):
    """The pages of a range that test.c tells are asked for one by one, up to the first that is refused."""
    lists, status, fault = [], 0, ""
    while status == 0 and len(lists) < RANGE:
        status, printed, fault = asked("spot", base, first + len(lists))
        lists += [printed.split()[1:]] if status == 0 else []
    ends = itertools.accumulate(map(len, lists))
    yield f"range {first} " + " ".join([line_of("is", status, fault), *map(str, ends)])
    yield " ".join(["listed", *itertools.chain.from_iterable(lists)])


def wanted(base, pages):
    """The lines that test.c has to tell of an archive. None is for any line."""
    status, _, fault = asked("check", base)
    yield f"properties {8 if status == 8 else 0}"
    if status == 8:
        return
    spots = [asked("spot", base, page) for page in pages]
    graph, text, first = asked("ascii", base)
    lists = [line.split() for line in text.splitlines()[1:]]
    # Of the faults of one page only those of the words of the offsets begin so.
    if spots[0][0] == 9 and spots[0][2].startswith(("word", "first", "tail")):
        yield line_of("offsets", 9, spots[0][2])
        spots = []
    else:
        yield line_of("offsets", 0, "", asked("offsets", base)[1].split()) if status == 0 else None
        yield None  # the file, which is compared with the archive's
    yield line_of("lists", graph, first, itertools.accumulate(map(len, lists)))
    yield "all" + "".join(f" {to}" for line in lists for to in line)
    yield line_of("check", status, fault)
    yield from wanted_ranks(base, len(lists))
    for page, (status, printed, fault) in zip(pages, spots):
        yield f"page {page} " + line_of("is", status, fault, printed.split()[1:])
    if spots:
        yield from wanted_range(base, pages[1])


def pages_of(base):
    found = re.findall(rb"^nodes=(\d{1,19})$", files_of(base)[0], re.MULTILINE)
    nodes = int(found[-1]) if found else 0
    return [0, *sorted({nodes // 3, max(nodes, 1) - 1, nodes})]


def difference(base):
    """A line for what differs, or None."""
    told = [line.rstrip() for line in Path(f"{base}.told").read_text().splitlines()]
    half = told[:len(told) // 2]
    if half + half != told:
        return f"{base}: told otherwise in other buffers"
    if half == ["properties 0"]:
        return None  # larger than test.c reads
    for line, want in itertools.zip_longest(half, wanted(base, pages_of(base))):
        if line is None or want is not None and line != want:
            return f"{base}: {str(line)[:150]!r}, and the program {str(want)[:150]!r}"
        if line.startswith("file"):
            made, whole = bytes.fromhex(line[5:]), files_of(base)[2]
            if made != whole[:len(made)] or any(whole[len(made):]):
                return f"{base}: another offsets file"
    return None
