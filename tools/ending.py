"""How the script's tools end: with their status, and with one line where something fails that no tool looks at."""
import importlib
import os
import signal
import sys
import traceback

WRITE_FAULT, NO_MEMORY, FAILED, STOPPED = 14, 16, 70, 130
# What each tool says when it is stopped by a key, beside that it is.
WHEN_STOPPED = {
    "build_plain": "; what is compiled so far is kept, and the next call goes on with it",
    "prove": "; the crates that are proved so far are kept, and the next call goes on with the others",
}


def say(line, more=""):
    """A line of the script on standard error, and what is told below it. Where that fails there is nobody to tell."""
    try:
        print(f"tta: {line}{more}", file=sys.stderr, flush=True)
    except OSError:
        pass


def leave(status):
    """Ends at once. What standard output did not take is not tried again."""
    try:
        sys.stderr.flush()
    except OSError:
        pass
    os._exit(status)


def stop(_number, _frame):
    raise KeyboardInterrupt


def start(name, words):
    """Runs a tool and ends with its status."""
    # Who is asked to end leaves nothing behind, as one that a key stops.
    signal.signal(signal.SIGTERM, stop)
    signal.signal(signal.SIGHUP, stop)
    # A reader that has seen enough ends it without a word.
    signal.signal(signal.SIGPIPE, signal.SIG_DFL)
    # Names of files may have bytes that are no text.
    sys.stdout.reconfigure(errors="surrogateescape")
    sys.stderr.reconfigure(errors="backslashreplace")
    try:
        status = importlib.import_module(name).main(words)
        sys.stdout.flush()
    except KeyboardInterrupt:
        say(f"stopped{WHEN_STOPPED.get(name, '')}")
        status = STOPPED
    except MemoryError:
        say("no memory")
        status = NO_MEMORY
    except OSError as error:
        # An error that names no file is one of standard output.
        if error.filename is None:
            say("write fault", f"\n  standard output: {error.strerror}")
            status = WRITE_FAULT
        else:
            say(f"{os.fsdecode(error.filename)}: {error.strerror}")
            status = FAILED
    except RecursionError:
        traceback.print_exc()
        status = FAILED
    leave(status)
