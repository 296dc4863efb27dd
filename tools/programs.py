"""How the wrappers beside this run a built program: input from a file or from standard input, and an exit status for scripts, which the
programs themselves cannot set. 0: good; 1: something is refused, dropped or bad; 2: a wrong call, or the program cannot be run."""
import argparse
import re
import signal
import subprocess
import sys
import tempfile
from pathlib import Path

RUN = Path(__file__).resolve().parent / "run"
GOOD, BAD, WRONG = 0, 1, 2
COUNT = re.compile(rb"recount: replies worked: \d+")  # all else that a program says on standard error is trouble
REASON = re.compile(rb"(refused|dropped) \d")  # how a line begins that gives a reason in place of an answer


def parser(name, text, files=()):
    """The words of a command: its text is what --help prints, the first line being the usage; then the files that it must be given."""
    usage, _, rest = text.partition("\n")
    made = argparse.ArgumentParser(prog=name, usage=usage, description=rest.strip(), formatter_class=argparse.RawDescriptionHelpFormatter)
    for file, shown in files:
        made.add_argument(file, metavar=shown, help=argparse.SUPPRESS)
    return made


def trouble(name, what, status):
    """Ends with a line on standard error."""
    print(f"{name}: {what}", file=sys.stderr)
    sys.exit(status)


def opened(name, path):
    """The file to read, or standard input; a file that cannot be read is a wrong call."""
    try:
        return open(path, "rb") if path else sys.stdin.buffer
    except OSError as wrong:
        trouble(name, f"{path}: {wrong.strerror}", WRONG)


def ran(name, source, out):
    """Runs a program; what it says on standard error goes on when it has ended. Gives whether it said nothing that is trouble."""
    with tempfile.TemporaryFile() as said:
        ended = subprocess.run([RUN, name], stdin=source, stdout=out, stderr=said).returncode
        said.seek(0)
        lines = said.read().splitlines()
    sys.stderr.buffer.write(b"".join(line + b"\n" for line in lines))
    sys.stderr.flush()
    if ended:
        sys.exit(WRONG)
    return all(COUNT.fullmatch(line) for line in lines)


def looked_at(name, source):
    """The same, and the lines that it prints go on to standard output: none of them may give a reason."""
    with tempfile.TemporaryFile() as out:
        good = ran(name, source, out)
        out.seek(0)
        for line in out:
            good = good and not REASON.match(line)
            sys.stdout.buffer.write(line)
    sys.stdout.flush()
    return good


def main(name, text, run):
    """A whole wrapper."""
    signal.signal(signal.SIGPIPE, signal.SIG_DFL)
    words = parser(name, text)
    words.add_argument("file", nargs="?", metavar="FILE", help=argparse.SUPPRESS)
    sys.exit(GOOD if run(name, opened(name, words.parse_args().file)) else BAD)
