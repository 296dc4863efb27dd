"""Whether all that the decoders show is compared somewhere, or listed in not-compared.txt with the reason."""
import re
from fnmatch import fnmatchcase

import tcpdump
import tshark

LISTED = re.compile(r"(tshark|tcpdump) (.+); (.+)")
ALSO_COMPARED = {"tlv", "malformed", tshark.PADDING}  # under a name of their own: TLV, reason, end of the MEG ID


def listed(text):
    """The (decoder, pattern) of each line of the list."""
    return [LISTED.fullmatch(line).groups()[:2] for line in text.split("\n") if line and not line.startswith("#")]


def tshark_names(texts):
    """The names of all fields that tshark shows."""
    return {field.name for text in texts for fields in tshark.frames_of(text) for field in fields}


def tcpdump_lines(texts):
    """All lines of tcpdump from which no value is taken."""
    lines = {line for text in texts for frame in tcpdump.texts_of(text) for line in frame[1:]}
    taken = (tcpdump.OFFSET, tcpdump.IDENTITY, tcpdump.FORMATS, tcpdump.TLV, tcpdump.DUMP)
    return {line.strip() for line in lines if not any(pattern.match(line) for pattern in taken)}


def report(findings, name, unknown, patterns):
    """A fault for each thing that is shown and neither compared nor listed, and for each pattern that nothing needs."""
    for thing in sorted(unknown):
        if not any(fnmatchcase(thing, pattern) for pattern in patterns):
            findings.fault(f"{name} shows '{thing}', which is not compared and does not stand in not-compared.txt")
    for pattern in patterns:
        if not any(fnmatchcase(thing, pattern) for thing in unknown):
            findings.fault(f"not-compared.txt: nothing that {name} shows needs '{pattern}'")


def compare(findings, text, tshark_texts, tcpdump_texts):
    """Both decoders against the list."""
    patterns = {name: [pattern for decoder, pattern in listed(text) if decoder == name] for name in ("tshark", "tcpdump")}
    report(findings, "tshark", tshark_names(tshark_texts) - set(findings.fields) - ALSO_COMPARED, patterns["tshark"])
    report(findings, "tcpdump", tcpdump_lines(tcpdump_texts), patterns["tcpdump"])
