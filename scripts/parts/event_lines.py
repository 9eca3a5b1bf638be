"""Scripts of events as they are typed: what other systems' editors put into them, and comments behind an event, are read here. The programs
themselves take lines of one form only."""
import contextlib
import os
import tempfile

BYTE_ORDER_MARKS = (b"\xff\xfe", b"\xfe\xff")    # of UTF-16


def read_lines(file):
    """The lines of a script, without byte order mark and carriage returns."""
    with open(file, "rb") as it:
        data = it.read()
    text = data.decode("utf-16" if data.startswith(BYTE_ORDER_MARKS) else "utf-8")
    lines = [line.removesuffix("\r") for line in text.removeprefix("\ufeff").split("\n")]
    return lines[:-1] if lines[-1] == "" else lines


def apart(line):
    """The event of a line, and the comment that follows it or has the line."""
    event, mark, comment = line.partition("#")
    return event.strip(" \t"), mark + comment


@contextlib.contextmanager
def plain_script(words):
    """The words of a command `drive`, in which a script that the programs do not take as it is gives place to one that they do."""
    script = next((word for word in words[1:] if os.path.isfile(word)), "") if words[:1] == ["drive"] else ""
    try:
        lines = list(plain(read_lines(script))) if script else []
    except (OSError, UnicodeDecodeError):
        lines = []
    if not lines:
        yield words
        return
    with tempfile.NamedTemporaryFile("w", encoding="utf-8", newline="\n", suffix=".txt") as it:
        it.writelines(f"{line}\n" for line in lines)
        it.flush()
        with open(script, "rb") as was, open(it.name, "rb") as now:
            is_plain = was.read().rstrip(b"\n") == now.read().rstrip(b"\n")
        yield words if is_plain else [it.name if word is script else word for word in words]


def plain(lines):
    """Each line as the programs take it: an event with no comment, a comment with no blanks in front, or nothing."""
    for line in lines:
        event, comment = apart(line)
        yield event or comment
