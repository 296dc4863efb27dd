"""read.pcap: frames that the box reads and tshark reads."""
from against_tshark import compare_message, compare_shown, is_malformed, message_due, shown_tlvs, value
from findings import Findings
from layout import LEAST, least_of, tlvs_from

CODES = {1: range(1, 8), 33: (4, 6), 35: (4, 6)}  # the period codes that are no D7


def is_for_tshark(frame):
    """Whether tshark can be asked: a length that the box does not refuse, and no TLV offset above the opcode's own."""
    least = least_of(frame)
    return 14 <= len(frame) <= 1514 and (least is None or frame[17] <= least)


def grouped(readings, wanted):
    """The readings of each wanted frame, in the order of the first; a frame read for several TLV types stands once."""
    found = {}
    for reading in readings:
        if wanted(reading.frame):
            found.setdefault(reading.frame, []).append(reading)
    return found


def octets_beside(frame):
    """What the box does not print: addresses, flags, offset and reserved octets, as the frame has them."""
    reserved = {1: frame[84:88], 46: frame[42:50], 47: frame[42:50]}.get(frame[15], b"")
    head = {"length": len(frame), "destination": frame[0:6], "source": frame[6:12], "flags": frame[16], "offset": frame[17]}
    return head | {"reserved": reserved, "tlvs": tlvs_from(frame, 18 + frame[17])}


def reason_shown(shown):
    """Which drop the fields that tshark shows lead to, in the reader's order; None for a message."""
    if value(shown, "eth.type") != "0x8902":
        return "3"
    if int(value(shown, "frame.len")) < 18:
        return "1" if is_malformed(shown) else None
    opcode, offset = value(shown, "cfm.opcode"), value(shown, "cfm.first.tlv.offset")
    if int(opcode) not in LEAST:
        return "3"
    if int(offset) < LEAST[int(opcode)]:
        return "4"
    if is_malformed(shown):
        return "5"
    code = value(shown, "cfm.flags.interval") or value(shown, "cfm.flags.ais_lck_Period")
    return "7" if code and int(code) not in CODES[int(opcode)] else None


def tlv_shown(shown, asked):
    """What the box must say of the TLV that is asked for, by the TLVs that tshark shows."""
    for _, octets in shown_tlvs(shown):
        if asked == octets[0] != 0:
            return f"value {len(octets) - 3} {octets[3:].hex()}".rstrip()
    return "none"


def compare_reading(findings, where, shown, reading):
    """One reading of the box with tshark's: the reason or the message, then the TLV that was asked for."""
    findings.same(where, "reason", reason_shown(shown), reading.reason[1] if reading.reason else None)
    if reading.message:
        compare_message(findings, where, shown, reading.message | octets_beside(reading.frame))
    if not reading.tlv.startswith("dropped"):
        findings.same(where, "TLV asked for", tlv_shown(shown, reading.asked), reading.tlv)


def compare_known(findings, where, shown, readings):
    """A frame on which tshark is known to disagree: all that it shows before that place agrees, and something does differ."""
    apart = Findings()
    for reading in readings:
        compare_reading(apart, where, shown, reading)
    if not apart.faults and not findings.by:
        findings.fault(f"{where}: docs/DECODERS.md has this frame, and tshark agrees with the box on it")
    compare_shown(findings, where, shown, message_due(readings[0].message | octets_beside(readings[0].frame)))


def compare(findings, capture, groups, decoded, known):
    """Every frame of the capture; `known` has the frames on which tshark is known to disagree."""
    for number, ((frame, readings), shown) in enumerate(zip(groups.items(), decoded), 1):
        findings.frame(capture)
        where = f"{capture} frame {number}"
        if frame in known:
            compare_known(findings, where, shown, readings)
            continue
        for reading in readings:
            compare_reading(findings, where, shown, reading)
