"""How each program here in Python is called: it tells its version, and where nobody reads any more what it writes it ends as
other programs do."""
import argparse
import os
import pathlib
import signal
import sys

TOP = pathlib.Path(__file__).resolve().parents[1]


def release():
    """The number and the date in the file VERSION, or nothing where that isn't there."""
    try:
        number, date = (TOP / "VERSION").read_text().split()
    except (OSError, ValueError):
        return None
    return number, date


def version(name):
    """The line that --version tells."""
    told = release()
    return f"{name} (bpfmap) {told[0]}, {told[1]}" if told else f"{name} (bpfmap, which has no file VERSION)"


class Parser(argparse.ArgumentParser):
    """A parser that tells the version too, and whose help isn't lost in silence where it can't be written."""

    def __init__(self, *words, name, **form):
        super().__init__(*words, **form)
        self.add_argument("--version", action="version", version=version(name), help="tell the version")

    def _print_message(self, message, file=None):
        if message:
            (file or sys.stderr).write(message)


def tell_if_asked(name, words, usage):
    """Tells the usage or the version where these words ask for it, and whether they did."""
    told = {"--help": usage.strip(), "-h": usage.strip(), "--version": version(name)}
    asked = next((word for word in words if word in told), None)
    if asked:
        print(told[asked])
    return asked is not None


def end_by(number):
    """Ends by a signal, as if nothing had caught it."""
    signal.signal(number, signal.SIG_DFL)
    os.kill(os.getpid(), number)
    # (where whoever called has it blocked)
    os._exit(128 + number)


def run(name, main, unwritten=4):
    """Ends with the status that a program's main function answers, or with the last one where it can't be written."""
    try:
        try:
            status = main()
        finally:
            # (else it is written at the very end, when nothing can be caught)
            write(name, "", unwritten)
    except BrokenPipeError:
        end_by(signal.SIGPIPE)
    except KeyboardInterrupt:
        end_by(signal.SIGINT)
    sys.exit(status)


def write(name, text, unwritten):
    """Writes a text, all of it at once. Where that fails the program ends with this status."""
    try:
        if sys.stdout is None and text:
            raise OSError(0, "it is closed")
        if sys.stdout is not None:
            sys.stdout.write(text)
            sys.stdout.flush()
    except BrokenPipeError:
        raise
    except OSError as why:
        # (what is left in it isn't written again at the end)
        sys.stdout = None
        print(f"{name}: standard output: can't be written: {why.strerror}", file=sys.stderr)
        sys.exit(unwritten)
