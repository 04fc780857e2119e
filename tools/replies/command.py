"""The command: its words, where it writes, and its exit statuses."""
import argparse
import contextlib
import errno
import os
import shutil
import sys
import tempfile

from . import page
from .reading import Wrong, read
from .terminal import Terminal

USAGE = """Shows replies, the lines that the program writes, as a person reads them: in the terminal, or with --html as one page.
Nothing is written where a line is not one of the program's."""
STATUSES = """Exit statuses: 0; 2 for words that are not taken; 65 for a line that is not the program's; 66 where the file cannot be
read; 73 where writing fails."""


class Unreadable(Exception):
    pass


def words():
    parser = argparse.ArgumentParser(prog="show", description=USAGE, epilog=STATUSES)
    parser.add_argument("file", nargs="?", metavar="FILE", help="what the program wrote (default: standard input)")
    parser.add_argument("--html", metavar="FILE", help="write a page into this file; what stood there is replaced")
    return parser


def say(text):
    print(f"show: {text}", file=sys.stderr)


def said(path):
    """What each line says, with its number."""
    shown = "standard input" if path is None else path
    try:
        with opened(path) as file:
            for number, raw in enumerate(file, 1):
                yield number, one_of(raw, f"{shown}, line {number}")
    except OSError as error:
        raise Unreadable(f"{shown}: {error.strerror}") from error


def opened(path):
    if path is None and sys.stdin is None:
        raise OSError(errno.EBADF, "it is closed")
    return contextlib.nullcontext(sys.stdin.buffer) if path is None else open(path, "rb")


def one_of(raw, place):
    try:
        return read(raw.decode("utf-8"))
    except UnicodeDecodeError as error:
        raise Wrong(f"{place}: not UTF-8") from error
    except Wrong as wrong:
        raise Wrong(f"{place}: no line that the program writes: {wrong}") from wrong


def in_terminal(path):
    """Writes the replies on standard output, once all of them are read."""
    if sys.stdout is None:
        raise OSError(errno.EBADF, "there is no standard output")
    encoding, is_bold = sys.stdout.encoding, sys.stdout.isatty() and "NO_COLOR" not in os.environ
    view = Terminal(shutil.get_terminal_size().columns, encoding, is_bold)
    with tempfile.TemporaryFile() as aside:
        count = 0
        for number, one in said(path):
            lines = ([] if not count else [""]) + list(view.lines(number, one))
            aside.write("".join(line + "\n" for line in lines).encode(encoding))
            count += 1
        if not count:
            aside.write(b"no replies: the script had no search\n")
        aside.seek(0)
        shutil.copyfileobj(aside, sys.stdout.buffer)
        sys.stdout.buffer.flush()


def as_page(path, target):
    """Writes the page beside its file, and then in its place."""
    target = os.path.realpath(target)
    if os.path.exists(target) and not os.path.isfile(target):
        raise OSError(errno.EINVAL, f"{target} is no file that can be replaced")
    handle, aside = tempfile.mkstemp(prefix=".show-", dir=os.path.dirname(target))
    try:
        with open(handle, "w", encoding="utf-8") as file:
            count = 0
            write(file, page.begin())
            for number, one in said(path):
                write(file, page.section(number, one))
                count += 1
            write(file, page.end(count))
        os.chmod(aside, mode(target))
        os.replace(aside, target)
    except BaseException:
        os.unlink(aside)
        raise


def write(file, parts):
    for part in parts:
        file.write(part + "\n")


def mode(target):
    """What a new file would have, or what the old one has."""
    if os.path.exists(target):
        return os.stat(target).st_mode & 0o777
    mask = os.umask(0)
    os.umask(mask)
    return 0o666 & ~mask


def main(arguments=None):
    options = words().parse_args(arguments)
    try:
        if options.html is not None:
            as_page(options.file, options.html)
        else:
            in_terminal(options.file)
        return 0
    except Wrong as wrong:
        say(wrong)
        return 65
    except Unreadable as error:
        say(error)
        return 66
    except OSError as error:
        if options.html is None:
            # What is left in the buffer is not to be tried again at the end.
            os.dup2(os.open(os.devnull, os.O_WRONLY), 1)
        say(f"writing failed: {error.strerror}")
        return 73
    except KeyboardInterrupt:
        return 130
