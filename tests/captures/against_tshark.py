"""A message and its TLVs, field by field, against what tshark shows of the frame."""
from layout import MEG, MEG_OCTETS
from tshark import BY_OCTETS, PADDING


def stamp_octets(stamp):
    """A stamp's eight octets in hex: seconds, then nanoseconds."""
    return f"{stamp[0]:08x}{stamp[1]:08x}"


def head_due(message):
    """The fields that every message shows: (place, size, shown) by tshark's name."""
    return {
        "frame.len": (0, 0, str(message["length"])),
        "eth.dst": (0, 6, message["destination"].hex()),
        "eth.src": (6, 6, message["source"].hex()),
        "eth.type": (12, 2, "0x8902"),
        "cfm.md.level": (14, 1, str(message["level"])),
        "cfm.version": (14, 1, str(message["version"])),
        "cfm.opcode": (15, 1, str(message["opcode"])),
        "cfm.flags": (16, 1, f"0x{message['flags']:02x}"),
        "cfm.first.tlv.offset": (17, 1, str(message["offset"])),
    }


def ccm_due(message):
    """A CCM's own fields; its MEG ID is compared apart."""
    return {
        "cfm.flags.rdi": (16, 1, str(message["rdi"])),
        "cfm.flags.ccm.reserved": (16, 1, str(message["flags"] >> 3 & 15)),
        "cfm.flags.interval": (16, 1, str(message["period"])),
        "cfm.ccm.seq.num": (18, 4, str(message["sequence"])),
        "cfm.ccm.ma.ep.id": (22, 2, str(message["mep"])),
        "cfm.itu.txfcf": (72, 4, f"{message['txfcf']:08x}"),
        "cfm.itu.rxfcb": (76, 4, f"{message['rxfcb']:08x}"),
        "cfm.itu.txfcb": (80, 4, f"{message['txfcb']:08x}"),
        "cfm.itu.reserved": (84, 4, message["reserved"].hex()),
    }


def loopback_due(message):
    """The transaction of an LBM or LBR."""
    return {"cfm.lb.transaction.id": (18, 4, str(message["transaction"]))}


def alarm_due(message):
    """The period code of an AIS or LCK."""
    return {
        "cfm.flags.ais_lck_Reserved": (16, 1, str(message["flags"] >> 3)),
        "cfm.flags.ais_lck_Period": (16, 1, str(message["period"])),
    }


def loss_due(message):
    """The counts of an LMM or LMR."""
    return {
        "cfm.flags.reserved": (16, 1, str(message["flags"])),
        "cfm.lmm.lmr.txfcf": (18, 4, f"{message['txfcf']:08x}"),
        "cfm.lmm.lmr.rxfcf": (22, 4, f"{message['rxfcf']:08x}"),
        "cfm.lmm.lmr.txfcb": (26, 4, f"{message['txfcb']:08x}"),
    }


def delay_due(message):
    """The stamps of a DMM or DMR, and the eight reserved octets behind them."""
    return {
        "cfm.flags.reserved": (16, 1, str(message["flags"])),
        "cfm.odm.dmm.dmr.txtimestampf": (18, 8, stamp_octets(message["txtimestampf"])),
        "cfm.odm.dmm.dmr.rxtimestampf": (26, 8, stamp_octets(message["rxtimestampf"])),
        "cfm.dmm.dmr.txtimestampb": (34, 8, stamp_octets(message["txtimestampb"])),
        "cfm.dmm.dmr.rxtimestampb": (42, 8, message["reserved"].hex()),
    }


OWN = {1: ccm_due, 2: loopback_due, 3: loopback_due, 33: alarm_due, 35: alarm_due, 42: loss_due, 43: loss_due, 46: delay_due, 47: delay_due}


def compare_fields(findings, where, shown, due):
    """Every field that stands by itself: none missing, none that is not due, each at its place with its value."""
    found = {field.name: (field.place, field.size, field.shown) for field in shown if not field.name.startswith(BY_OCTETS + ("malformed",))}
    if findings.by:
        found = {name: as_due(value, due[name]) for name, value in found.items() if name in due}
    for name in due | found:
        findings.same(where, name, found.get(name), due.get(name))


def as_due(value, due):
    """A value shown as a number where its octets are due, as these octets; any other as it is."""
    place, size, shown = value
    octets = f"{int(shown):0{2 * size}x}" if shown.isdecimal() else shown
    return due if (place, size, octets) == due else value


def compare_shown(findings, where, shown, due):
    """The same of a frame that tshark gives up on: what it shows is as it is due."""
    names = {field.name for field in shown}
    compare_fields(findings, where, shown, {name: value for name, value in due.items() if name in names})


def compare_meg(findings, where, shown, meg):
    """The parts of the MEG ID that tshark shows, as far as they lie within it, against the octets at their places; and where it ends."""
    for field in shown:
        if field.name == PADDING:
            findings.same(where, "end of the MEG ID", field.place + field.size, MEG + MEG_OCTETS)
        if field.name.startswith("cfm.maid."):
            at = field.place - MEG
            within = bytes.fromhex(field.shown)[: MEG_OCTETS - at]
            findings.same(where, field.name, within.hex(), meg[at : at + len(within)].hex())


def shown_tlvs(shown):
    """The (place, octets) of each TLV that tshark shows."""
    return [(field.place, bytes.fromhex(field.shown)) for field in shown if field.name == "tlv"]


def compare_tlvs(findings, where, shown, due):
    """The TLVs, one by one, and the parts that tshark shows of each."""
    found = shown_tlvs(shown)
    findings.same(where, "number of TLVs", len(found), len(due))
    for one, other in zip(found, due):
        findings.same(where, "TLV", (one[0], one[1].hex()), (other[0], other[1].hex()))
    for field in shown:
        if field.name.startswith("cfm.tlv."):
            findings.same(where, field.name, field.shown, octets_at(due, field.place, field.size))


def octets_at(due, place, size):
    """The octets at a place in one of the TLVs, in hex."""
    for at, octets in due:
        if at <= place < at + len(octets):
            return octets[place - at : place - at + size].hex()
    return None


def message_due(message):
    """All fields that tshark must show of a message, but for MEG ID and TLVs."""
    return head_due(message) | OWN[message["opcode"]](message)


def is_malformed(shown):
    """Whether tshark gives the frame up."""
    return any(field.name == "malformed" for field in shown)


def value(shown, name):
    """A field's value by its name, None where tshark does not show it."""
    return next((field.shown for field in shown if field.name == name), None)


def compare_message(findings, where, shown, message):
    """A good message: every field, the MEG ID, the TLVs."""
    compare_fields(findings, where, shown, message_due(message))
    compare_meg(findings, where, shown, message.get("meg", b""))
    compare_tlvs(findings, where, shown, message["tlvs"])
