"""How a command of this repository ends: its exit status, what it says, and files that are written whole or not at all."""
import contextlib
import fcntl
import os
import sys
import tempfile
import traceback

# a listing or an answer; a refusal; wrong use; input or output that fails, or a program that cannot be built
SERVED, REFUSED, USE, FAILED = 0, 1, 2, 3
INTERRUPTED = 130


class Wrong(Exception):
    """Wrong use of a command."""


class Failed(Exception):
    """Input or output that fails."""


def whole(name, stream=None, most=-1):
    """The bytes of a file or of a stream, up to so many."""
    try:
        if stream is not None:
            return stream.read(most)
        with open(name, "rb") as f:
            return f.read(most)
    except OSError as fault:
        raise Failed("%s: %s" % (name, fault.strerror or fault))


def put(path, data):
    """Writes a file whole: what stood there before stays until all bytes are on the disk, and stays where that fails."""
    # through a link: the file that it leads to is written
    there, made = os.path.realpath(path), None
    folder = os.path.dirname(there)
    try:
        if os.path.exists(path) and not os.path.isfile(path):
            # a pipe or a device has nothing to keep
            with open(path, "wb") as f:
                f.write(data)
            return
        place, made = tempfile.mkstemp(prefix=".%s." % os.path.basename(there), dir=folder)
        with os.fdopen(place, "wb") as f:
            f.write(data)
            f.flush()
            os.fsync(f.fileno())
        try:
            mode = os.stat(there).st_mode & 0o777
        except FileNotFoundError:
            mask = os.umask(0)
            os.umask(mask)
            mode = 0o666 & ~mask
        os.chmod(made, mode)
        os.replace(made, there)
        made = None
        held = os.open(folder, os.O_RDONLY)
        try:
            os.fsync(held)
        finally:
            os.close(held)
    except OSError as fault:
        raise Failed("%s: %s" % (path, fault.strerror or fault))
    finally:
        if made is not None:
            os.unlink(made)


@contextlib.contextmanager
def alone(path, say):
    """One command at a time on a file that is read, changed and written again: the folder that it stands in is held, and a second command waits, and says so."""
    try:
        folder = os.open(os.path.dirname(os.path.realpath(path)), os.O_RDONLY)
    except OSError as fault:
        raise Failed("%s: %s" % (path, fault.strerror))
    try:
        try:
            fcntl.flock(folder, fcntl.LOCK_EX | fcntl.LOCK_NB)
        except OSError:
            say("another command is at work beside %s: waiting for it" % path)
            fcntl.flock(folder, fcntl.LOCK_EX)
        yield
    finally:
        os.close(folder)


def status_of(name, main, words):
    """Runs a command's main on its words: the exit status, what goes wrong said on standard error."""
    def say(text):
        print("%s: %s" % (name, text), file=sys.stderr, flush=True)
    try:
        status = main(words)
        sys.stdout.flush()
        return status
    except Wrong as fault:
        say(fault)
        return USE
    except Failed as fault:
        say(fault)
        return FAILED
    except KeyboardInterrupt:
        say("interrupted")
        return INTERRUPTED
    except OSError as fault:
        say("%s: %s" % ("standard output" if fault.filename is None else fault.filename, fault.strerror or fault))
        return FAILED
    except SystemExit as end:
        # with words, of the kit: what is needed is not there, or not built; with a number, of the words of a command
        if isinstance(end.code, str):
            say(end.code)
            return FAILED
        return end.code or SERVED
    except Exception:
        # a fault of this program is no refusal
        traceback.print_exc()
        return FAILED


def ended(name, main):
    """Runs a command's main on the program's words, and ends the program with its status."""
    if sys.stderr is None:
        sys.stderr = open(os.devnull, "w")
    if sys.stdout is None:
        print("%s: standard output is closed" % name, file=sys.stderr)
        os._exit(FAILED)
    # a file's name may have bytes that are no text
    sys.stdout.reconfigure(errors="backslashreplace")
    status = status_of(name, main, sys.argv[1:])
    # what is left in the buffer of an output that failed must not be tried again as the program ends
    try:
        sys.stdout.flush()
    except OSError:
        status = status or FAILED
    os._exit(status)
