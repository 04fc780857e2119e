"""Calls of the two tools: as commands, and, where many are made, within this process."""
import contextlib
import io
import os
import subprocess
import sys
import tempfile
from unittest import mock

EXAMPLES = os.path.dirname(os.path.dirname(os.path.abspath(__file__)))
TOOLS = os.path.join(os.path.dirname(EXAMPLES), "tools")
sys.path.insert(0, TOOLS)


def command(tool, words, folder, **more):
    """Runs a tool; its status, and what it wrote."""
    done = subprocess.run([os.path.join(TOOLS, tool), *words], cwd=folder, stdout=subprocess.PIPE, stderr=subprocess.PIPE, **more)
    return done.returncode, done.stdout.decode("utf-8"), done.stderr.decode("utf-8")


def call(main, words, folder, text=b""):
    """Calls the main function of a tool, as the command does, with this standard input."""
    streams = [io.TextIOWrapper(io.BytesIO(one), encoding="utf-8") for one in (text, b"", b"")]
    before = os.getcwd()
    os.chdir(folder)
    try:
        with mock.patch("sys.stdin", streams[0]), contextlib.redirect_stdout(streams[1]), contextlib.redirect_stderr(streams[2]):
            status = main(words)
    except SystemExit as end:
        status = end.code
    finally:
        os.chdir(before)
    written = []
    for stream in streams[1:]:
        stream.flush()
        written.append(stream.buffer.getvalue().decode("utf-8"))
    return (status, *written)


@contextlib.contextmanager
def folder_of(files):
    """A folder with these files, each a text or bytes."""
    with tempfile.TemporaryDirectory(prefix="check-tools-") as folder:
        for name, content in files.items():
            with open(os.path.join(folder, name), "wb") as file:
                file.write(content if isinstance(content, bytes) else content.encode("utf-8"))
        yield folder
