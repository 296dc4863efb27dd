"""Capture files: the classic pcap form, little-endian, Ethernet."""
import struct

HEAD = struct.pack("<IHHiIII", 0xA1B2C3D4, 2, 4, 0, 0, 65535, 1)
START = 1_800_000_000  # the time stamp of a made file's first frame; each later frame stands one second behind the one before it


def packed(timed):
    """The octets of a capture file with these (seconds, microseconds, frame)."""
    return HEAD + b"".join(struct.pack("<IIII", seconds, micro, len(frame), len(frame)) + frame for seconds, micro, frame in timed)


def made(frames):
    """The octets of a capture file with fixed time stamps, so that making it anew gives the same octets."""
    return packed((START + i, 0, frame) for i, frame in enumerate(frames))


def timed_frames(octets):
    """The (seconds, microseconds, frame) of a capture file as `packed` writes it."""
    if octets[:24] != HEAD:
        raise ValueError("not a capture file of the classic form with Ethernet frames")
    found, at = [], 24
    while at < len(octets):
        seconds, micro, kept, whole = struct.unpack_from("<IIII", octets, at)
        if kept != whole or at + 16 + kept > len(octets):
            raise ValueError(f"the frame at octet {at} is cut short")
        found.append((seconds, micro, octets[at + 16 : at + 16 + kept]))
        at += 16 + kept
    return found


def frames(octets):
    """The frames of a capture file, without their time stamps."""
    return [frame for _, _, frame in timed_frames(octets)]
