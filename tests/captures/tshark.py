"""tshark's reading of a capture as text: a line a field, with its place and size in the frame."""
import shutil
import subprocess
import xml.etree.ElementTree as tree

NAME = "tshark"
KEPT = ("frame.len", "eth.dst", "eth.src", "eth.type")  # beside all of cfm
PADDING = "cfm.ccm.maid.padding"  # the end of the MEG ID, of which tshark shows the place alone
BY_OCTETS = ("cfm.maid.", "cfm.ccm.maid.", "cfm.tlv.", "tlv")


class Field:
    """One line of the text: where a field stands, how long it is, its name, and its value as tshark shows it."""

    def __init__(self, line):
        place, size, self.name, self.shown = line.split(" ")
        self.place, self.size = int(place), int(size)

    def line(self):
        """The line that it was made from."""
        return f"{self.place} {self.size} {self.name} {self.shown}"


def version():
    """The installed tshark's first line about itself, None where there is none."""
    if not shutil.which(NAME):
        return None
    return subprocess.run([NAME, "--version"], check=True, capture_output=True, text=True).stdout.split("\n")[0]


def value_of(field):
    """A number as tshark shows it; anything else, and all inside the MEG ID and TLVs, as octets; None for what has no octets."""
    shown, octets = field.get("show"), field.get("value") or ""
    is_number = shown.isdecimal() or shown.startswith("0x")
    return shown if is_number and not name_of(field).startswith(BY_OCTETS) else octets.lower() or None


def name_of(field):
    """A field's name; a whole TLV has none in tshark's XML, only a text that begins so."""
    return field.get("name") or ("tlv" if field.get("show", "").startswith("TLV: ") else "")


def line_of(field):
    """The text line of a field of tshark's XML, None for one that is not kept."""
    name = name_of(field)
    if field.tag == "proto":
        return "0 0 malformed -" if name == "_ws.malformed" else None
    if not (name in KEPT or name == "tlv" or name.startswith("cfm.")) or field.get("hide"):
        return None
    value = value_of(field) or ("-" if name == PADDING else None)
    return f"{field.get('pos')} {field.get('size')} {name} {value}" if value else None


def lines_of(packet):
    """The text lines of a packet of tshark's XML. That it is malformed stands there twice, and is said once."""
    lines = (line_of(field) for field in packet.iter() if field.tag in ("field", "proto"))
    return list(dict.fromkeys(line for line in lines if line))


def decode(path):
    """The text of a capture file: the decoder's version, then for each frame its number and its fields."""
    command = [NAME, "-n", "-r", str(path), "-T", "pdml"]
    packets = tree.fromstring(subprocess.run(command, check=True, capture_output=True).stdout).findall("packet")
    text = [version()]
    for number, packet in enumerate(packets, 1):
        text += [f"frame {number}"] + lines_of(packet)
    return "\n".join(text) + "\n"


def frames_of(text):
    """The fields of each frame of the text."""
    found = []
    for line in text.split("\n")[1:-1]:
        if line.startswith("frame "):
            found.append([])
        else:
            found[-1].append(Field(line))
    return found
