"""The command: its words, what it says on standard error, and its exit statuses."""
import argparse
import errno
import os
import sys

from . import limits
from .documents import FORMATS
from .faults import Fault, Unreadable
from .fields import TYPES, Fields
from .names import Names
from .script import Reading, script_of

USAGE = """Writes a script of the documents of some files on standard output: a schema, a line for each document, a commit, a sync,
and a search for each request. Nothing is written where something is wrong."""
FORMS = """A CSV file has the names of its fields in the first line; an empty cell is no value, and spaces belong to what they stand
beside. A JSON field with an array, or with its name several times, has several values. A name that begins and ends with _, such
as _version_, is passed over. A field whose values are integers of 64 bits, in a CSV file without zeros in front, is a plong, or
plongs where a document has several. One whose values are dates such as 2024-02-29T09:00:00Z, perhaps with a point and 1 to 9 digits
before the Z, is a pdate, or pdates; the program keeps their milliseconds, and no digit behind. Every other is a string, or strings;
id is a string. Exit statuses: 0; 2 for words that are not taken; 65 for a fault in a file; 66 where a file cannot be read; 73
where writing fails."""


def pair(text):
    name, separator, value = text.partition("=")
    if not separator or not name or not value:
        raise argparse.ArgumentTypeError(f"{text!r} is not of the form NAME=VALUE")
    return name, value


def field_type(text):
    name, kind = pair(text)
    if kind not in TYPES or name == "id" and kind != "string":
        raise argparse.ArgumentTypeError(f"{text!r}: a type is one of {', '.join(TYPES)}, and that of id is string")
    return name, kind


def number(low, high):
    def read(text):
        if not text.isascii() or not text.isdigit() or not low <= int(text[:20]) <= high:
            raise argparse.ArgumentTypeError(f"{text!r} is no whole number from {low} to {high:,}")
        return int(text)
    return read


def session(text):
    try:
        size = len(text.encode("utf-8"))
    except UnicodeEncodeError:
        size = 0
    if not 1 <= size <= limits.SESSION_BYTES:
        raise argparse.ArgumentTypeError(f"a session's name is a text of 1 to {limits.SESSION_BYTES} bytes")
    return text


def words():
    parser = argparse.ArgumentParser(prog="script-of", description=USAGE, epilog=FORMS)
    parser.add_argument("files", nargs="+", metavar="FILE", help="a CSV file, JSON lines, or a JSON array of documents")
    parser.add_argument("--update", action="append", default=[], metavar="FILE", dest="updates",
                        help="a file of documents behind a commit of all before it; each takes the place of an earlier one with its id")
    parser.add_argument("--format", choices=("csv", "lines", "json"),
                        help="of all files; else it goes by the names: .csv, .jsonl or .ndjson, .json")
    parser.add_argument("--shards", type=number(1, limits.SHARDS), default=1, metavar="N", help="how many shards (default: 1)")
    parser.add_argument("--by", choices=("hash", "turn"), default="hash",
                        help="a document's shard: by a hash of its id (CRC-32, the default), or one shard after another")
    parser.add_argument("--type", type=field_type, action="append", default=[], metavar="FIELD=TYPE", dest="types",
                        help=f"the type of a field: {', '.join(TYPES)}")
    parser.add_argument("--id", metavar="COLUMN", help="the name, in the files, of what holds the id")
    parser.add_argument("--rename", type=pair, action="append", default=[], metavar="OLD=NEW", dest="renames",
                        help="the field NEW stands under OLD in the files")
    parser.add_argument("--split", type=pair, action="append", default=[], metavar="COLUMN=TEXT", dest="splits",
                        help="the cells of a column of CSV files hold several values, with this text between them")
    parser.add_argument("--commit-every", type=number(1, limits.DOCUMENTS), metavar="N",
                        help="a commit behind every N documents, a parent with its children being one (default: one at the end)")
    parser.add_argument("--requests", metavar="FILE", help="requests, JSON values one behind another, which become searches")
    parser.add_argument("--session", type=session, default="main", help="the session of the searches (default: main)")
    return parser


def form_of(path, options):
    form = options.format or FORMATS.get(os.path.splitext(path)[1].lower())
    if form is None:
        raise Fault(None, f"{path}: the name does not tell the format; --format csv, lines or json does")
    return form


def read(options):
    renames = dict(options.renames)
    if options.id is not None:
        renames[options.id] = "id"
    splits = dict(options.splits)
    reading = Reading(Names(renames), Fields(dict(options.types)))
    forms = [(path, form_of(path, options)) for path in [*options.files, *options.updates]]
    for number, (path, form) in enumerate(forms):
        reading.ids.update = max(number - len(options.files) + 1, 0)
        reading.file(path, form, splits)
    for name in reading.names.unmet():
        raise Fault(None, f"no file has a field {name!r}, which was to be renamed")
    for name in set(splits) - set(reading.names.originals.values()):
        raise Fault(None, f"no file has a column {name!r}, which was to be split")
    reading.fields.take_in(reading.names.originals)
    if len(reading.fields.fields) > limits.FIELDS:
        raise Fault(None, f"more than {limits.FIELDS} fields, id among them")
    return reading


def say(text):
    print(f"script-of: {text}", file=sys.stderr)


def tell(reading, script):
    documents = "1 document" if reading.count == 1 else f"{reading.count:,} documents"
    shards = "1 shard" if script.shards == 1 else f"{script.shards} shards"
    replaced = f", {reading.ids.replaced:,} of them in the place of an earlier one" if reading.ids.replaced else ""
    say(f"{documents} on {shards}: {', '.join(f'{count:,}' for count in script.on_shard)}{replaced}")
    width = max(map(len, script.types))
    for name, kind in script.types.items():
        why = reading.fields.why(name)
        say(f"  {name:{width}}  {kind}" + (f" ({why})" if why else ""))
    if reading.names.passed_over:
        say(f"  passed over: {', '.join(reading.names.passed_over)}")


def write(script):
    """Writes all that is to be written; the status."""
    try:
        if sys.stdout is None:
            raise OSError(errno.EBADF, "there is no standard output")
        script.copy_to(sys.stdout.buffer)
        sys.stdout.buffer.flush()
    except OSError as error:
        # What is left in the buffer is not to be tried again at the end.
        os.dup2(os.open(os.devnull, os.O_WRONLY), 1)
        say(f"writing failed: {error.strerror}")
        return 73
    return 0


def main(arguments=None):
    options = words().parse_args(arguments)
    try:
        reading = read(options)
        script = script_of(reading, options)
        tell(reading, script)
        return write(script)
    except Fault as fault:
        say(fault)
        return 65
    except Unreadable as error:
        say(error)
        return 66
    except OSError as error:
        say(f"no room aside for what is read: {error.strerror}")
        return 73
    except KeyboardInterrupt:
        return 130
