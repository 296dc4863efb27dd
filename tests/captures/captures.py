"""The captures of this folder: what each is made of, and which decoders read it."""
from pathlib import Path

import decoders_page
import offsets_capture
import pcap
import read_capture
import sent_capture
import tcpdump
import tshark
from readings import all_readings
from run_text import steps

HERE = Path(__file__).resolve().parent
ROOT = HERE.parent.parent
BOTH = [tshark, tcpdump]
DECODERS = {"read": [tshark], "offsets": [tcpdump], "sent": [tshark], "sent-offsets": BOTH, "ovs": [tshark], "disagree": BOTH}


def page():
    """docs/DECODERS.md."""
    return (ROOT / "docs/DECODERS.md").read_text()


def readings():
    """What the box reads of every frame of crates/frames."""
    return all_readings(ROOT / "crates/frames")


def frames_made():
    """The frames of each capture that is made and not recorded."""
    read, run = readings(), steps((HERE / "sent.txt").read_text())
    return {
        "read": list(read_capture.grouped(read, read_capture.is_for_tshark)),
        "offsets": list(read_capture.grouped(read, offsets_capture.is_for_tcpdump)),
        "sent": sent_capture.sent_frames(run, larger=False),
        "sent-offsets": sent_capture.sent_frames(run, larger=True),
        "disagree": [block.frame for block in decoders_page.blocks(page())],
    }


def files_made():
    """The octets of each capture file that is made, by its name."""
    return {f"{name}.pcap": pcap.made(frames) for name, frames in frames_made().items()}


def decodings():
    """Each (capture, decoder) with the file that has the decoding."""
    return [(name, decoder, HERE / f"{name}.{decoder.NAME}.txt") for name, decoders in DECODERS.items() for decoder in decoders]
