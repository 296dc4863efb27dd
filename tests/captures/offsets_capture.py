"""offsets.pcap: version 0 frames with a larger TLV offset, which the box and tcpdump read."""
from layout import least_of, tlvs_from, version_of


def is_for_tcpdump(frame):
    """Whether tcpdump is asked: version 0, and a TLV offset above the opcode's own."""
    least = least_of(frame)
    return 14 <= len(frame) <= 1514 and least is not None and frame[17] > least and version_of(frame) == 0


def head_of(frame):
    """What every frame here has, by its octets."""
    ways = {"source": frame[6:12], "destination": frame[0:6], "length": len(frame)}
    return ways | {"level": frame[14] >> 5, "version": version_of(frame), "opcode": frame[15], "offset": frame[17]}


def compare_head(findings, where, shown, message):
    """What tcpdump shows of every message."""
    for name in ("source", "destination"):
        findings.same(where, name, shown[name], message[name].hex())
    for name in ("length", "level", "version", "opcode", "offset"):
        findings.same(where, name, shown[name], message[name])
    findings.same(where, "PDU length", shown["PDU length"], message["length"] - 14)


def gives_up(shown):
    """Whether tcpdump stops at a name in the MEG ID that is longer than it allows, and so shows no TLVs."""
    return shown.get("name too large", False)


def reason_shown(shown):
    """D5 where the TLVs are past the frame's end or have no End TLV; None for a frame that can be read."""
    ended = any(kind == 0 for kind, _, _ in shown["tlvs"])
    return "5" if shown["offset too large"] or not ended else None


def compare_ccm(findings, where, shown, message):
    """The fields of a CCM; of the MEP ID tcpdump shows all 16 bits."""
    for name in ("period", "rdi", "sequence"):
        findings.same(where, name, shown.get(name), message[name])
    findings.same(where, "MEP ID", shown["MEP ID field"] & 0x1FFF, message["mep"])
    compare_meg(findings, where, shown, message["meg"])


def compare_meg(findings, where, shown, meg):
    """The formats, lengths and names in the MEG ID, against the octets at their places."""
    at = 0
    for (kind, length), dump in zip(shown["formats"], shown["dumps"][1:]):
        findings.same(where, "format in the MEG ID", kind, meg[at])
        if length is not None:
            findings.same(where, "length in the MEG ID", length, meg[at + 1])
        name = bytes.fromhex("".join(dump))
        start = at + 1 if length is None else at + 2
        findings.same(where, "name in the MEG ID", name.hex(), meg[start : start + len(name)].hex())
        at = start + (length or 0)


def tlv_shown(shown, asked):
    """What the box must say of the TLV that is asked for, by the TLVs that tcpdump shows."""
    for kind, length, dump in shown["tlvs"]:
        if kind == asked != 0:
            return f"value {length} {''.join(dump)}".rstrip()
    return "none"


def compare_tlvs(findings, where, shown, due):
    """The TLVs, one by one; of their places tcpdump shows none."""
    found = [f"{kind:02x}" + (f"{length:04x}{''.join(dump)}" if kind else "") for kind, length, dump in shown["tlvs"]]
    findings.same(where, "number of TLVs", len(found), len(due))
    for one, (_, other) in zip(found, due):
        findings.same(where, "TLV", one, other.hex())


def compare_reading(findings, where, shown, reading):
    """One reading of the box with tcpdump's."""
    compare_head(findings, where, shown, head_of(reading.frame) | (reading.message or {}))
    if reading.message and reading.message["opcode"] == 1:
        compare_ccm(findings, where, shown, reading.message)
    if gives_up(shown):
        return
    bad = reading.reason == ("dropped", "5")
    findings.same(where, "reason", reason_shown(shown), "5" if bad else None)
    if not bad:
        compare_tlvs(findings, where, shown, tlvs_from(reading.frame, 18 + reading.frame[17]))
        findings.same(where, "TLV asked for", tlv_shown(shown, reading.asked), reading.tlv)


def compare(findings, capture, groups, decoded):
    """Every frame of the capture."""
    for number, (readings, shown) in enumerate(zip(groups.values(), decoded), 1):
        findings.frame(capture)
        for reading in readings:
            compare_reading(findings, f"{capture} frame {number}", shown, reading)
