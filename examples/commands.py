"""The commands of the documents, and what these say that they write.

A block that begins with "```sh" has a command a line; a comment behind one that says "status 65" tells how it ends, else that is
with status 0. Words in backticks are a command where the first is `rt`, a word of the shell or a file that can be run; such a file
named alone is asked for its --help. A block that begins with "```KIND of X" has what the command X writes or, where X is a file,
lines of it in their order."""
import collections
import contextlib
import os
import re
import shutil
import signal
import subprocess
import tempfile

import documents
import guide
from documents import TOP

# No command takes longer; of what one that fails complains of, so many lines are shown.
SECONDS = 60
SAID = 4
# Commands that are not run as they stand (".." is whatever stands there), why, and what is run in place of them.
NOT_RUN = (
    ("rt ..", "proves, or compiles without proofs: more than a minute", None),
    ("(cd crates/fc_main && rt try ..", "compiles without proofs: a minute and a half", None),
    ("(cd crates/fc_reply && rt check ..", "proves: some minutes, where this machine has not kept what is below", None),
    (".ci/run", "runs the gate, and at its end this check", None),
    ("tools/wrong-bodies fc_reply", "has the prover try each: minutes", "tools/wrong-bodies"),
    ("tools/wrong-bodies --since COMMIT", "has the prover try each: minutes", "tools/wrong-bodies"),
    ("tools/book SCRIPT", "compiles without proofs: some minutes", "tools/book --help"),
    ("bench/run.py", "measures for half an hour", "bench/run.py --documents 200 --runs 1 --searches 1"),
    ("bench/run.py --inside", "measures for some minutes", "bench/run.py --inside --documents 200 --runs 1 --searches 1"),
    ("bench/kinds.py", "measures for some minutes", "bench/kinds.py --documents 1000 --runs 1 --searches 1"),
    ("bench/dates.py", "measures for some minutes", "bench/dates.py --documents 1000 --runs 1 --searches 1"),
    ("bench/unique.py", "measures for some minutes", "bench/unique.py --documents 1000 --runs 1 --searches 1"),
    ("bench/threads.py", "measures for some minutes", "bench/threads.py --documents 2000 --phases 50 --runs 1 --searches 4"),
    ("bench/cliffs.py", "measures for some minutes", "bench/cliffs.py --only faulty-requests small-commits --runs 1"),
    ("bench/lanes.py", "proves a program where this machine has not kept it, and measures: some minutes", "bench/lanes.py --help"),
    ("bench/sent.py", "makes a program without its proofs, and measures for some minutes", "bench/sent.py --help"),
    ("bench/exact.py", "makes a program without its proofs, and measures for a quarter of an hour", "bench/exact.py --help"),
    ("bench/compare.py", "measures for some minutes", "bench/compare.py --documents 1000 --runs 1 --searches 1"),
)
SHELL = ("rt", "cd", "(cd", "cat", "git", "python3", "sh", "bash")
# A command: the number of its line, its text, what is run, and the status that this is to end with.
Command = collections.namedtuple("Command", "line text run status")
# What is wrong: the number of a line, why, and perhaps two texts that are to be the same.
Wrong = collections.namedtuple("Wrong", "line why texts", defaults=[None])


def place_of(document, word):
    """The folder from which a word leads to a file that can be run: the top or the document's; None where there is none."""
    for folder in (TOP, document.folder):
        path = os.path.join(folder, word)
        is_named = re.search(r"[/.]", word) and not set(word.split("/")) & set(documents.LEFT_OUT)
        if is_named and os.path.isfile(path) and os.access(path, os.X_OK):
            return folder
    return None


def is_command(document, text):
    first, _, more = text.strip().partition(" ")
    return first in SHELL and more != "" or place_of(document, first) is not None


def not_run(text):
    """The entry of the list for a command."""
    return next((entry for entry in NOT_RUN if text == entry[0] or entry[0].endswith("..") and text.startswith(entry[0][:-2])), None)


def command(line, text, status=0):
    entry = not_run(text)
    return Command(line, text, entry[2] if entry else text, status)


def named(line, text):
    """A command of the prose; a file that is named alone is asked for its help."""
    found = command(line, text)
    is_alone = " " not in text and found.run == text
    return found._replace(run=f"{os.path.join('.', text)} --help") if is_alone else found


def commands(document):
    """The commands of a document's blocks and of its prose."""
    for block in document.blocks:
        for line, text in enumerate(block.lines, block.line + 1) if block.words and block.words[0] == "sh" else ():
            text, _, comment = re.sub(r"(^|\s+)# ", "\0", text, count=1).partition("\0")
            status = re.search(r"\bstatus (\d+)", comment)
            if text.strip():
                yield command(line, text.strip(), int(status[1]) if status else 0)
    for line, text in document.spans():
        if is_command(document, text):
            yield named(line, text.strip())


def outside(document):
    """Commands that stand in a block of another kind."""
    for block in document.blocks:
        if not block.words or block.words[0] != "sh":
            for line, text in enumerate(block.lines, block.line + (block.words is not None)):
                if text.strip() and is_command(document, text):
                    yield Wrong(line, f"a command in a block that does not begin with ```sh: {text.strip()}")


def shown(document):
    """Each block that shows what a command writes, or lines of a file: the block and the name of either."""
    for block in document.blocks:
        if "of" in (block.words or []):
            yield block, " ".join(block.words[block.words.index("of") + 1:])


class Copy:
    """A copy of the tree's files where the program stands as if it were just built. Commands run there, and no `rt`."""

    def __init__(self, folder, program):
        self.top, self.words = os.path.join(folder, "facets"), os.path.join(folder, "words")
        shutil.copytree(TOP, self.top, ignore=shutil.ignore_patterns(*documents.LEFT_OUT))
        out = os.path.join(self.top, "crates", "fc_main", "out")
        os.makedirs(out)
        shutil.copy(program, os.path.join(out, "fc_main"))
        os.mkdir(self.words)
        with open(os.path.join(self.words, "rt"), "w", encoding="utf-8") as file:
            file.write("#!/bin/sh\necho 'rt is not run here' >&2\nexit 1\n")
        os.chmod(os.path.join(self.words, "rt"), 0o755)
        self.begun, self.known = self.files(), {}

    def files(self):
        return {os.path.join(folder, name) for folder, _, files in os.walk(self.top) for name in files}

    def clear(self):
        """Removes what commands made."""
        for path in self.files() - self.begun:
            os.remove(path)

    def run(self, document, text):
        """The status of a command, None where it takes too long; what it writes, and what it complains of."""
        place = place_of(document, text.split()[0]) or TOP
        environment = {**os.environ, "PATH": self.words + os.pathsep + os.environ["PATH"], "PYTHONDONTWRITEBYTECODE": "1"}
        with subprocess.Popen(["bash", "-eo", "pipefail", "-c", text], cwd=os.path.join(self.top, os.path.relpath(place, TOP)),
                              env=environment, stdin=subprocess.DEVNULL, stdout=subprocess.PIPE, stderr=subprocess.PIPE,
                              start_new_session=True) as running:
            try:
                written = running.communicate(timeout=SECONDS)
            except subprocess.TimeoutExpired:
                os.killpg(running.pid, signal.SIGKILL)
                return None, "", ""
        return running.returncode, *(text.decode("utf-8", "replace") for text in written)

    def of(self, document, command):
        """The same of a command; what is run in place of it is run once for all documents."""
        if command.run == command.text:
            return self.run(document, command.run)
        key = place_of(document, command.run.split()[0]), command.run
        if key not in self.known:
            self.known[key] = self.run(document, command.run)
        return self.known[key]


@contextlib.contextmanager
def copied(program):
    with tempfile.TemporaryDirectory(prefix="check-documents-") as folder:
        yield Copy(folder, program)


def fault_of(command, status, output, errors):
    """What is wrong with how a command ended."""
    if status == command.status:
        return None
    ended = f"takes longer than {SECONDS} seconds" if status is None else f"ends with status {status} in place of {command.status}"
    said = (errors.strip() or output.strip()).split("\n")[-SAID:]
    instead = "" if command.text in command.run else f", run in place of `{command.text}`,"
    return "\n  ".join([f"`{command.run}`{instead} {ended}", *said])


def wrong_lines(block, name):
    """What is wrong with a block that shows lines of a file."""
    with open(os.path.join(TOP, name), encoding="utf-8") as file:
        text, at = file.read(), 0
    for line, shown_line in enumerate(block.lines, block.line + 1):
        at = text.find(shown_line.strip(), at)
        if at < 0:
            return Wrong(line, f"this does not stand in {name}, or not in this order")
    return None


def wrong_output(block, name, written):
    """What is wrong with a block that shows what a command writes."""
    if name not in written:
        return None if not_run(name) else Wrong(block.line, f"no command of this document is `{name}`")
    lines = guide.joined(block.lines) if block.words[0] == "replies" else block.lines
    wanted = "".join(line + "\n" for line in lines)
    if wanted == written[name]:
        return None
    return Wrong(block.line, f"`{name}` writes something else", (wanted, written[name]))


def wrong(document, copy):
    """Runs the commands of a document, and tells what is wrong with them and with what it says that they write."""
    yield from outside(document)
    written = {}
    for command in commands(document):
        if command.run is not None and command.run not in written:
            status, written[command.run], errors = copy.of(document, command)
            why = fault_of(command, status, written[command.run], errors)
            if why:
                yield Wrong(command.line, why)
    for block, name in shown(document):
        is_file = os.path.isfile(os.path.join(TOP, name))
        found = wrong_lines(block, name) if is_file else wrong_output(block, name, written)
        if found:
            yield found
    copy.clear()
