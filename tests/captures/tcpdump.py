"""tcpdump's reading of a capture: its own text, and the values in it."""
import os
import re
import shutil
import subprocess

NAME = "tcpdump"
OPCODES = {"Continuity Check Message": 1, "Loopback Reply": 2, "Loopback Message": 3}
HEAD = re.compile(r" *\d+  (\S+) > (\S+), ethertype CFM \(0x8902\), length (\d+): CFMv(\d+) (.+), MD Level (\d+), length (\d+)$")
OFFSET = re.compile(r"\tFirst TLV offset (\d+)( \(too large.*)?")
FLAGS = re.compile(r".*, Flags \[CCM Interval (\d)(, RDI)?")
IDENTITY = re.compile(r"\t  Sequence Number 0x([0-9a-f]{8}), MA-End-Point-ID 0x([0-9a-f]{4})$")
FORMATS = re.compile(r"\t  M[DA] Name[ -]Format .*\((\d+)\)(?:, M[DA] [Nn]ame length (\d+))?")
TLV = re.compile(r"\t\S.* TLV \(0x([0-9a-f]{2})\)(?:, length (\d+))?")
DUMP = re.compile(r"\t +0x[0-9a-f]{4}:  ([0-9a-f ]+)$")


def version():
    """The installed tcpdump's first line about itself, None where there is none."""
    if not shutil.which(NAME):
        return None
    told = subprocess.run([NAME, "--version"], check=True, capture_output=True, text=True)
    return (told.stdout + told.stderr).split("\n")[0]


def decode(path):
    """The text of a capture file: the decoder's version, then what tcpdump prints."""
    as_root = ["-Z", "root"] if os.geteuid() == 0 else []  # it would become a user that need not be there
    command = [NAME, *as_root, "--number", "-n", "-e", "-t", "-vv", "-r", str(path)]
    return version() + "\n" + subprocess.run(command, check=True, capture_output=True, text=True).stdout


def opcode_of(words):
    """The opcode by the words that tcpdump has for it."""
    return OPCODES.get(words) or int(re.search(r"\((\d+)\)", words)[1])


def head_of(line):
    """The values of a frame's first line, None of any other line."""
    found = HEAD.match(line)
    if not found:
        return None
    source, destination, length, version_shown, words, level, pdu = found.groups()
    octets = [bytes.fromhex(address.replace(":", "")).hex() for address in (source, destination)]
    head = {"source": octets[0], "destination": octets[1], "length": int(length), "version": int(version_shown)}
    return head | {"opcode": opcode_of(words), "level": int(level), "PDU length": int(pdu), "dumps": [[]], "formats": [], "tlvs": []}


def take_offset(shown, line):
    """The line with the offset, and a CCM's flags behind it."""
    found, flags = OFFSET.match(line), FLAGS.match(line)
    if found:
        shown["offset"], shown["offset too large"] = int(found[1]), bool(found[2])
    if flags:
        shown["period"], shown["rdi"] = int(flags[1]), int(bool(flags[2]))


def take_ccm(shown, line):
    """The lines with a CCM's sequence and MEP ID, and with the formats of the two names in its MEG ID."""
    identity, formats = IDENTITY.match(line), FORMATS.match(line)
    if identity:
        shown["sequence"], shown["MEP ID field"] = int(identity[1], 16), int(identity[2], 16)
    if formats:
        shown["formats"].append((int(formats[1]), formats[2] and int(formats[2])))
        shown["dumps"].append([])
        shown["name too large"] = "too large" in line


def take_tlv(shown, line):
    """A TLV's first line, or a line of octets."""
    tlv, dump = TLV.match(line), DUMP.match(line)
    if tlv:
        shown["tlvs"].append((int(tlv[1], 16), int(tlv[2] or 0), []))
        shown["dumps"].append(shown["tlvs"][-1][2])
    elif dump:
        shown["dumps"][-1].append(dump[1].replace(" ", ""))


def texts_of(text):
    """The lines of each frame of the text; each begins with the frame's number."""
    found = []
    for line in text.split("\n")[1:-1]:
        if re.match(r" *\d+  ", line):
            found.append([])
        found[-1].append(line)
    return found


def values_of(lines):
    """The values in the lines of one frame."""
    shown = head_of(lines[0])
    for line in lines[1:]:
        for take in (take_offset, take_ccm, take_tlv):
            take(shown, line)
    return shown


def frames_of(text):
    """The values of each frame of the text."""
    return [values_of(lines) for lines in texts_of(text)]
