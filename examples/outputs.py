"""What the scripts of this folder do alike with files: none is written over an input, and none is left half written.

    from outputs import fail, files_of, refuse_inputs, run_main, written

    def main():
        refuse_inputs(["web.out"], ["list", *files_of("web")])
        with written("web.out") as out:
            out.write("whole\n")

    run_main(main)
"""

import contextlib
import os
import secrets
import signal
import stat
import sys


def name():
    """The name of the script."""
    return os.path.basename(sys.argv[0])


def fail(text, status=1):
    """Ends the script with one line on standard error."""
    with contextlib.suppress(OSError):
        sys.stdout.flush()
    print(f"{name()}: {text}", file=sys.stderr)
    sys.exit(status)


def files_of(base):
    """The files of an archive."""
    return [f"{base}.{suffix}" for suffix in ("properties", "graph", "offsets")]


def regular(place):
    """What the system tells of a regular file, by its name or by the number of its descriptor; None of others."""
    try:
        told = os.stat(place)
    except (OSError, ValueError):
        return None
    return told if stat.S_ISREG(told.st_mode) else None


def refuse_inputs(outputs, inputs):
    """Fails if an output is also an input, by whatever name, or is the file that standard output goes to. An input may
    be 0, for standard input. What is no regular file may be both."""
    for output in outputs:
        held = regular(output)
        for place in (*inputs, 1) if held else ():
            read = regular(place)
            if read and os.path.samestat(held, read):
                place = {0: "standard input", 1: "standard output"}.get(place, place)
                fail(f"{output} is also {place}: name another output")


@contextlib.contextmanager
def written(place, mode="w", **options):
    """A file that is written beside `place`, and gets its name once it is whole. If anything fails before that, it is
    removed, and what was at `place` stays. What is no regular file, such as a pipe, is written itself. The mode is "w"
    or "wb", and the options are those of `open`."""
    if mode == "w":
        options.setdefault("encoding", "utf-8")
    beside = None
    try:
        held = regular(place)
        if held is None and os.path.exists(place):
            with open(place, mode, **options) as out:
                yield out
            return
        whole = os.path.realpath(place)
        beside = os.path.join(os.path.dirname(whole), f".{name()}-{secrets.token_hex(8)}")
        with open(beside, mode.replace("w", "x"), **options) as out:
            yield out
        if held:
            os.chmod(beside, stat.S_IMODE(held.st_mode))
        os.replace(beside, whole)
        beside = None
    except OSError as error:
        if error.filename in (None, beside):
            error.filename = place
        raise
    finally:
        if beside:
            with contextlib.suppress(OSError):
                os.unlink(beside)


def run_main(main):
    """Runs a script. What the system refuses is one line on standard error, and a signal ends the script after it has
    removed what it was writing."""
    for number in (signal.SIGHUP, signal.SIGINT, signal.SIGTERM):
        if signal.getsignal(number) != signal.SIG_IGN:
            signal.signal(number, lambda number, _: sys.exit(128 + number))
    try:
        main()
        sys.stdout.flush()
    except OSError as error:
        # What is still held for standard output can't be written, and must not be tried again.
        with contextlib.suppress(OSError):
            os.dup2(os.open(os.devnull, os.O_WRONLY), 1)
        fail(f"{error.filename or 'standard output'}: {error.strerror or error}")
