"""The words and the end of a command of tools/: instead of a traceback, one line on standard error names the fault,
with status 2."""

import os
import sys
import zlib

FAULT = 2


class Fault(Exception):
    """A reason why the command cannot go on, in words for the user."""


def say(name, text):
    if sys.stderr is not None:
        print(f"{name}: {text}", file=sys.stderr)


def words_of(fault):
    if isinstance(fault, OSError) and fault.strerror:
        return f"{fault.filename or 'standard output'}: {fault.strerror}"
    if isinstance(fault, UnicodeError):
        return f"the input is no text: {fault}"
    return str(fault)


def fault_of(words, fewest, most, options, are_numbers):
    """The fault of the words, or an empty text."""
    for word in words:
        if word.startswith("-") and word != "-":
            if word not in options:
                return f"there is no option {word!r}"
        elif most == 0:
            return f"no word {word!r} is taken"
        elif are_numbers and not (word.isascii() and word.isdigit() and len(word) <= 18):
            return f"{word!r} is no number"
    count = len([word for word in words if word not in options])
    if count < fewest:
        return "a word is missing"
    return "there are too many words" if most is not None and count > most else ""


def take(text, fewest=0, most=0, options=(), are_numbers=False):
    """The command's words, at least and at most so many besides options; None is no limit. `-h` and `--help` print the text
    and end the command. Wrong words end it with a line."""
    name, words = os.path.basename(sys.argv[0]), sys.argv[1:]
    if {"-h", "--help"} & set(words):
        end(name, lambda: print(text.strip()))
    fault = fault_of(words, fewest, most, options, are_numbers)
    if fault:
        say(name, f"{fault}; --help shows the words")
        sys.exit(FAULT)
    return words


def let_go_of_output():
    """Keeps Python from writing again, at its end, the output that could not be written."""
    try:
        os.dup2(os.open(os.devnull, os.O_WRONLY), 1)
    except OSError:
        pass


def end(name, main):
    """Runs `main` and ends with the status that it returns, or with a line and a status."""
    try:
        if sys.stdout is None:
            raise Fault("standard output is closed")
        try:
            status = main()
        except SystemExit as ended:
            status = ended.code
        sys.stdout.flush()
    except KeyboardInterrupt:
        status = 130
    except (Fault, OSError, EOFError, UnicodeError, zlib.error) as fault:
        let_go_of_output()
        say(name, words_of(fault))
        status = FAULT
    sys.exit(status)
