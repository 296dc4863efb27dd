"""A run in its text form (tools/README.md): its calls by name and fields, and the line expected of each.

Frames are not built here: what the box sends stands in hex behind the bar of the expected line, what it was asked in the call's fields."""
import re


class Step:
    """One call: its name, its words without a value, its fields, and the expected answer with the octets written behind the bar."""

    def __init__(self, number, call, expected):
        words = words_of(call)
        self.number, self.name = number, words[0]
        self.words = [word for word in words[1:] if "=" not in word]
        self.fields = dict(word.split("=", 1) for word in words[1:] if "=" in word)
        answer, _, written = expected.partition("|")
        self.answer, self.written = answer.split(), bytes.fromhex(written)


def words_of(text):
    """The words of a line; text in quotes is kept whole."""
    return re.findall(r'(?:[^\s"]|"[^"]*")+', text)


def meant(text):
    """The (number, text) of each line that is no comment."""
    lines = ((number, re.sub(r"#.*", "", line).strip()) for number, line in enumerate(text.split("\n"), 1))
    return [(number, line) for number, line in lines if line]


def steps(text):
    """The run's calls, each as often as its repeat says."""
    lines, found, start, times, at = meant(text), [], 0, 1, 0
    while at < len(lines):
        number, line = lines[at]
        if line.startswith("repeat "):
            start, times = len(found), int(line.split()[1])
        elif line == "end":
            found[start:] = found[start:] * times
        else:
            at += 1
            found.append(Step(number, line, lines[at][1].removeprefix("> ")))
        at += 1
    return found


def address(text):
    """An address, 02-00-00-00-00-07, as octets."""
    return bytes.fromhex(text.replace("-", ""))


def stamp(text):
    """A stamp, 10.400, as seconds and nanoseconds."""
    seconds, nanoseconds = text.split(".")
    return int(seconds), int(nanoseconds)
