"""What the tools share: bounded input, whole output, and one line on standard error in place of a traceback."""
import sys


class Refused(Exception):
    """The text is the line for standard error, behind the tool's name."""

    status = 1


class WrongWords(Refused):
    """The command line makes no sense."""

    status = 2


class WrongLines(Refused):
    """The text is a line for each wrong line of the input, with file and line in front."""


def is_standard(name):
    return name is None or name == "-"


def shown_name(name):
    return "<stdin>" if is_standard(name) else name


def read(name, most):
    """A file's bytes, or standard input's, but no more than `most` and one: its length tells the caller that there is more."""
    if is_standard(name):
        if sys.stdin is None:
            raise Refused("standard input is closed")
        return sys.stdin.buffer.read(most + 1)
    with open(name, "rb") as file:
        return file.read(most + 1)


def write(data):
    """Bytes or text to standard output, all of it or Refused."""
    if sys.stdout is None:
        raise Refused("standard output is closed")
    try:
        # Not through sys.stdout: what it could not write it would try again at exit, with a traceback.
        with open(sys.stdout.fileno(), "wb", closefd=False) as out:
            out.write(data if isinstance(data, bytes) else data.encode())
    except OSError as e:
        raise Refused(f"standard output: {e.strerror}")


def quoted(word):
    """A word of bad input, safe to print and not too long."""
    cut = word if len(word) <= 30 else word[:27] + "..."
    return "`" + cut.encode("unicode_escape").decode() + "`"


def listed(items, last):
    """`a, b and c`, with `last` as the word before the last one."""
    return items[0] if len(items) == 1 else ", ".join(items[:-1]) + f" {last} " + items[-1]


def report(line):
    if sys.stderr is not None:
        sys.stderr.write(line + "\n")


def failure(tool, error):
    """What standard error gets in place of a traceback, and the status."""
    if isinstance(error, Refused):
        return str(error) if isinstance(error, WrongLines) else f"{tool}: {error}", error.status
    if isinstance(error, KeyboardInterrupt):
        return f"{tool}: interrupted", 130
    return ": ".join(str(p) for p in (tool, error.filename, error.strerror or error) if p), 1


def main(tool, run):
    """Runs a tool with its words and ends the process."""
    try:
        run(sys.argv[1:])
    except (Refused, OSError, KeyboardInterrupt) as e:
        line, status = failure(tool, e)
        report(line)
        sys.exit(status)
