"""What goes with this process: a command that it starts, a folder that it makes."""
import contextlib
import shutil
import signal
import subprocess
import sys
import tempfile

SIGNALS = signal.SIGINT, signal.SIGTERM, signal.SIGHUP


def end_on_signals():
    """Has an interrupt, or a call to end, leave this process as an exception does, so that what stands behind `finally` is done."""

    def end(number, _frame):
        for one in SIGNALS:
            signal.signal(one, signal.SIG_IGN)
        sys.exit(128 + number)

    for one in SIGNALS:
        signal.signal(one, end)


@contextlib.contextmanager
def started(words, **how):
    """A command without input, which is ended where it has not ended by itself."""
    child = subprocess.Popen(words, stdin=subprocess.DEVNULL, **how)
    try:
        yield child
    finally:
        if child.poll() is None:
            child.terminate()
            try:
                child.wait(20)
            except subprocess.TimeoutExpired:
                child.kill()
                child.wait()


@contextlib.contextmanager
def folder(prefix):
    """A folder among the temporary files, which is removed whatever signal comes meanwhile."""
    made = tempfile.mkdtemp(prefix=prefix)
    try:
        yield made
    finally:
        before = [signal.signal(one, signal.SIG_IGN) for one in SIGNALS]
        shutil.rmtree(made, ignore_errors=True)
        for one, how in zip(SIGNALS, before):
            signal.signal(one, how)
