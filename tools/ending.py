"""How the Python scripts end: a sentence on standard error and a status, and never a traceback."""
import os
import signal
import sys


class Trouble(Exception):
    """What a script cannot go on from, as a sentence: it ends with status 2."""


def number(word, name, least=0):
    """The number that a word is, of up to 18 digits, as tools/common.sh has it."""
    if not (word.isascii() and word.isdigit() and len(word) <= 18 and int(word) >= least):
        raise Trouble(f"{name} is a number from {least} on, of up to 18 digits, and not '{word}'")
    return int(word)


def by_signal(which):
    """Ends as a program does that a signal ends."""
    signal.signal(which, signal.SIG_DFL)
    os.kill(os.getpid(), which)


def run(me, main):
    """Runs main and ends with the status that it answers."""
    try:
        if sys.stdout is None:
            raise Trouble("standard output is closed")
        status = main()
        sys.stdout.flush()
    except KeyboardInterrupt:
        say(me, "ended by Ctrl-C")
        status = 130
    except BrokenPipeError:
        by_signal(signal.SIGPIPE)
    except Trouble as trouble:
        say(me, trouble)
        status = 2
    except OSError as error:
        say(me, f"{error.filename or 'standard output'}: {error.strerror}")
        status = 2
    # not by sys.exit, which would try to write again what could not be written
    os._exit(status)


def say(me, sentence):
    """Says a sentence on standard error; where that cannot be written, there is nobody to tell."""
    try:
        os.write(2, f"{me}: {sentence}\n".encode(errors="surrogateescape"))
    except OSError:
        pass
