"""What the proved program `frames` reads: crates/frames has the frames in hex (stdin) and what is printed for each (stdout)."""
from layout import OPCODES

STAMPS = ("txtimestampf", "rxtimestampf", "txtimestampb")


class Reading:
    """One line of the program: the TLV type that was asked for, the frame, what was said of it and of the TLV."""

    def __init__(self, asked, frame, line):
        self.asked, self.frame, self.line = asked, frame, line
        message, self.tlv = line.split(" | ")
        self.reason = tuple(message.split()) if message.startswith(("dropped", "refused")) else None
        self.message = None if self.reason else fields(message)


def fields(message):
    """The printed fields of a message, by name: numbers as numbers, the MEG ID as octets, a stamp as its two numbers."""
    words = message.split()
    found, at = {"opcode": OPCODES[words[0]]}, 1
    while at < len(words):
        name = words[at]
        if name in STAMPS:
            found[name] = (int(words[at + 1]), int(words[at + 2]))
        else:
            found[name] = bytes.fromhex(words[at + 1]) if name == "meg" else int(words[at + 1])
        at += 3 if name in STAMPS else 2
    return found


def lines_of(text):
    """The lines of the program's input that are answered, without blanks and comments."""
    stripped = ("".join(line.split("#")[0].split()) for line in text.split("\n"))
    return [line for line in stripped if line]


def all_readings(crate):
    """Every reading of the crate's run, in order; lines that are no octets are left out."""
    asked = lines_of((crate / "stdin").read_text())
    said = (crate / "stdout").read_text().split("\n")[:-1]
    if len(asked) != len(said):
        raise ValueError(f"{crate}: {len(asked)} frames and {len(said)} answers")
    pairs = [(bytes.fromhex(line), answer) for line, answer in zip(asked, said) if answer != "not octets"]
    return [Reading(octets[0], octets[1:], answer) for octets, answer in pairs]
