"""sent.pcap and sent-offsets.pcap: frames that the box sent in the run sent.txt, against its settings, requests and stamps."""
import offsets_capture
from against_tshark import compare_fields, compare_message, is_malformed, message_due as fields_due
from layout import LEAST, OPCODES, tlvs_from
from run_text import address, stamp, steps

MULTICAST = bytes.fromhex("0180c20000")
REPLIES = {"lbm": "LBR", "lmm": "LMR", "dmm": "DMR"}
USUAL_VERSION = {"lbm": 0, "lmm": 1, "dmm": 1}


class Box:
    """What of the run decides the frames: the setting in force and both service counts."""

    def __init__(self):
        self.setting, self.sent, self.received = {}, 0, 0

    def take(self, step):
        """One more call: a setting or state, or a service frame that passed."""
        if step.name in ("setting", "put-state"):
            self.setting = step.fields
            self.sent, self.received = int(step.fields.get("sent", 0)), int(step.fields.get("received", 0))
        if step.name == "frame" and "service" in step.words:
            self.sent = (self.sent + ("passive" in step.words)) % 2**32
            self.received = (self.received + ("active" in step.words)) % 2**32


def sends(step):
    """Whether the call sent a message by its expected line."""
    return step.answer[0] in ("sent", "replied")


def has_larger_offset(step):
    """Whether the call was a request with a larger TLV offset, which its reply keeps."""
    return "offset" in step.fields


def sent_frames(run, larger):
    """The frames that the run's expected lines say were written, in order: those with a larger offset, or all others."""
    return [step.written for step in run if sends(step) and has_larger_offset(step) == larger]


def head(name, level, version, length, destination, source, flags=0):
    """What every message has."""
    opcode = OPCODES[name]
    ways = {"destination": destination, "source": source, "length": length}
    return ways | {"opcode": opcode, "level": level, "version": version, "flags": flags, "offset": LEAST[opcode]}


def end_tlv(offset):
    """The End TLV alone, right behind the fixed part."""
    return [(18 + offset, b"\0")]


def rdi_due(conditions):
    """Whether a condition stands, in the line of `conditions` behind the CCM, that is no peer's RDI."""
    peers = [word.split(":")[1] for word in conditions.answer[1:] if ":" in word]
    others = [word for word in conditions.answer[1:] if ":" not in word]
    return int(bool(others) or any("L" in letters for letters in peers))


def ccm_due(box, conditions):
    """A CCM by the setting, and by what `conditions` tells right behind it."""
    setting, rdi = box.setting, rdi_due(conditions)
    level, period = int(setting["level"]), int(setting["period"])
    message = head("CCM", level, 0, 89, MULTICAST + bytes([0x30 + level]), address(setting["own"]), 128 * rdi + period)
    own = {"rdi": rdi, "period": period, "sequence": 0, "mep": int(setting["mep"]), "meg": bytes.fromhex(setting["meg"])}
    return message | own | {"txfcf": 0, "rxfcb": 0, "txfcb": 0, "reserved": bytes(4), "tlvs": end_tlv(70)}


def lmm_due(box):
    """An LMM by the setting and the sent count."""
    setting = box.setting
    message = head("LMM", int(setting["level"]), 1, 31, address(setting["losspeer"]), address(setting["own"]))
    return message | {"txfcf": box.sent, "rxfcf": 0, "txfcb": 0, "tlvs": end_tlv(12)}


def dmm_due(box, given):
    """A DMM by the setting and the caller's stamp."""
    setting = box.setting
    message = head("DMM", int(setting["level"]), 1, 51, address(setting["losspeer"]), address(setting["own"]))
    stamps = {"txtimestampf": stamp(given), "rxtimestampf": (0, 0), "txtimestampb": (0, 0)}
    return message | stamps | {"reserved": bytes(8), "tlvs": end_tlv(32)}


def reply_head(box, kind, request):
    """What every reply has: the request's level, version, flags, offset and TLVs, from us to the one who asked."""
    tlvs, offset = bytes.fromhex(request.get("tlvs", "00")), int(request.get("offset", LEAST[OPCODES[REPLIES[kind]]]))
    version, flags = int(request.get("version", USUAL_VERSION[kind])), int(request.get("flags", 0))
    length = 18 + offset + len(tlvs)
    message = head(REPLIES[kind], int(request["level"]), version, length, address(request["from"]), address(box.setting["own"]), flags)
    return message | {"offset": offset, "tlvs": [(18 + offset + at, octets) for at, octets in tlvs_from(tlvs, 0)]}


def reply_due(box, step):
    """A reply by the request in the call's fields, our counts and the caller's stamps."""
    kind, request = step.words[1], step.fields
    message = reply_head(box, kind, request)
    if kind == "lbm":
        return message | {"transaction": int(request["transaction"])}
    if kind == "lmm":
        return message | {"txfcf": int(request["txfcf"]), "rxfcf": box.received, "txfcb": box.sent}
    stamps = {"txtimestampf": stamp(request["txstampf"]), "rxtimestampf": stamp(request["receive"]), "txtimestampb": stamp(request["send"])}
    return message | stamps | {"reserved": int(request.get("reserved", "0"), 0).to_bytes(8, "big")}


def message_due(box, step, following):
    """What the message that this call sent must be."""
    if step.name == "tick":
        return ccm_due(box, following)
    if step.name == "lmm":
        return lmm_due(box)
    return dmm_due(box, step.fields["stamp"]) if step.name == "dmm" else reply_due(box, step)


def messages_due(run, larger):
    """What every message must be, with the line of its call: those with a larger offset, or all others."""
    box, found = Box(), []
    for step, following in zip(run, run[1:] + [None]):
        box.take(step)
        if sends(step) and has_larger_offset(step) == larger:
            found.append((step.number, message_due(box, step, following)))
    return found


def compare(findings, capture, text, decoded):
    """Every frame with the usual offset, field by field."""
    due = messages_due(steps(text), larger=False)
    findings.same(capture, "number of frames", len(decoded), len(due))
    for number, ((line, message), shown) in enumerate(zip(due, decoded), 1):
        findings.frame(capture)
        where = f"{capture} frame {number} (sent.txt line {line})"
        findings.same(where, "malformed", is_malformed(shown), False)
        compare_message(findings, where, shown, message)


def compare_larger(findings, capture, text, by_tshark, by_tcpdump):
    """Every frame with a larger offset: the fixed part by tshark, which reads it in its usual place, the TLVs by tcpdump."""
    due = messages_due(steps(text), larger=True)
    findings.same(capture, "number of frames", (len(by_tshark), len(by_tcpdump)), (len(due), len(due)))
    for number, ((line, message), shown, printed) in enumerate(zip(due, by_tshark, by_tcpdump), 1):
        findings.frame(capture)
        where = f"{capture} frame {number} (sent.txt line {line})"
        compare_fields(findings, where, shown, fields_due(message))
        offsets_capture.compare_head(findings, where, printed, message)
        offsets_capture.compare_tlvs(findings, where, printed, message["tlvs"])
