"""Files and standard streams, for card.py: text read as lines, and what is wrong with it told in one line."""

import os


class Problem(Exception):
    """An error to be told in one line: the file's name, the line (0: none) and what is wrong."""

    def __init__(self, name, line, what):
        super().__init__(f"{name}:{line}: {what}" if line else f"{name}: {what}")


def load(name):
    """The bytes of a file, or of standard input for -."""
    try:
        with open(0 if name == "-" else name, "rb", closefd=name != "-") as file:
            return file.read()
    except (OSError, ValueError) as error:
        raise Problem(name, 0, getattr(error, "strerror", None) or str(error)) from None


def to_lines(name, data):
    """The lines of a text."""
    data = data.replace(b"\r\n", b"\n").removeprefix(b"\xef\xbb\xbf")
    try:
        return data.decode("utf-8").removesuffix("\n").split("\n")
    except UnicodeDecodeError as error:
        raise Problem(name, data.count(b"\n", 0, error.start) + 1, "this is not text (UTF-8)") from None


def put(stream, data):
    """Writes to standard output (1) or standard error (2) at once, so that no flush is left to fail."""
    rest = memoryview(data)
    while rest:
        rest = rest[os.write(stream, rest):]


def tell(words):
    """A line on standard error; where nobody can be told, nothing."""
    try:
        put(2, f"card.py: {words}\n".encode("utf-8", "backslashreplace"))
    except OSError:
        pass
