"""The rules paper's layout of frames: where each field stands, and the TLVs behind the fixed part."""
OAM = b"\x89\x02"
LEAST = {1: 70, 2: 4, 3: 4, 33: 0, 35: 0, 42: 12, 43: 12, 46: 32, 47: 32}  # opcode: its TLV offset
NAMES = {1: "CCM", 2: "LBR", 3: "LBM", 33: "AIS", 35: "LCK", 42: "LMR", 43: "LMM", 46: "DMR", 47: "DMM"}
OPCODES = {name: opcode for opcode, name in NAMES.items()}
MEG = 24  # where a CCM's MEG ID begins
MEG_OCTETS = 48


def is_oam(frame):
    """Whether the EtherType is 89-02."""
    return frame[12:14] == OAM


def opcode_of(frame):
    """The opcode of an OAM frame, None where it has none."""
    return frame[15] if is_oam(frame) and len(frame) >= 18 else None


def least_of(frame):
    """The TLV offset of the frame's opcode, None for an opcode that is not in the paper's table."""
    return LEAST.get(opcode_of(frame))


def version_of(frame):
    """The low five bits of an OAM frame's first octet."""
    return frame[14] & 31


def tlvs_from(octets, at):
    """The (place, octets) of each TLV from a place on, the End TLV last; none where one is cut or the End TLV is missing."""
    found = []
    while at < len(octets):
        end = at + 1 if octets[at] == 0 else at + 3 + int.from_bytes(octets[at + 1 : at + 3], "big")
        found.append((at, octets[at:end]))
        if octets[at] == 0:
            return found
        at = end
    return []
