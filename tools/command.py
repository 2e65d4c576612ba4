"""What the tools have in common: what is wrong is one line on standard error, a pipe may close early, and what cannot be written is said."""
import os
import subprocess
import sys

NAME = os.path.basename(sys.argv[0])
VERSION = os.path.join(os.path.dirname(os.path.realpath(__file__)), "version")


def fail(what, status=1):
    print(f"{NAME}: {what}", file=sys.stderr)
    sys.exit(status)


def given(name):
    """The bytes of a file, or of standard input for -."""
    try:
        if name == "-":
            return sys.stdin.buffer.read()
        with open(name, "rb") as file:
            return file.read()
    except OSError as why:
        fail(f"cannot read {name}: {why.strerror}", 2)


def answer(main, about):
    """A tool's work on its words; --help prints what it is about, --version which version it is."""
    words = sys.argv[1:]
    if words in (["--help"], ["-h"]):
        print(about.strip())
    elif words == ["--version"]:
        print(subprocess.run([VERSION, NAME], stdout=subprocess.PIPE, check=True).stdout.decode().strip())
    else:
        main(words)
    sys.stdout.flush()


def run(main, about):
    """Runs a tool. Where its reader has gone it ends as if all had been read."""
    if sys.stdout is None:
        fail("cannot write to standard output: it is closed", 2)
    try:
        answer(main, about)
    except OSError as why:
        # What is left in the buffer would fail again at the end.
        os.dup2(os.open(os.devnull, os.O_WRONLY), sys.stdout.fileno())
        if why.filename:
            fail(f"cannot use {why.filename}: {why.strerror}", 2)
        if not isinstance(why, BrokenPipeError):
            fail(f"cannot write to standard output: {why.strerror}", 2)
    except KeyboardInterrupt:
        sys.exit(130)
