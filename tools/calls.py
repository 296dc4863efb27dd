"""The text form of a run (README.md beside this): its calls as the octets that `replay` reads, its expected lines as the octets it prints.

It knows the layouts of calls, frames and records, and how lines are written; `decode` takes octets apart by the same layouts. It knows no
rule of a box: what a box answers is written in the run, by hand."""
import re
from collections import namedtuple
from functools import cache

FILL, MOST_BUFFER, MOST_LENGTH = 165, 1600, 2000
LINK = "01-80-c2-00-00-3"  # and the frame's level: where a MEG's end points listen

Line = namedtuple("Line", "file number text")
Value = namedtuple("Value", "size read write")
Field = namedtuple("Field", "name value default")
Message = namedtuple("Message", "opcode offset version fixed")
Body = namedtuple("Body", "octets buffer side frame", defaults=(None, None, b""))
Kind = namedtuple("Kind", "number body layout tail", defaults=(None,))
Call = namedtuple("Call", "line name octets answer side frame written")
Mark = namedtuple("Mark", "line word value")


class Wrong(Exception):
    """What is wrong in a run; `at` adds the file and line, once."""

    placed = False

    # The same trouble, with the place where it was met
    def at(self, line):
        if self.placed:
            return self
        placed = Wrong(f"{line.file}:{line.number}: {self}")
        placed.placed = True
        return placed


# ---- values: their size in octets, None for any; `read` gives a text's octets, `write` a text that is read as these octets ----


# A whole number in the range given, decimal or 0x
def whole(text, least, most):
    try:
        value = int(text, 0)
    except ValueError:
        raise Wrong(f"'{text}' is no whole number") from None
    if not least <= value <= most:
        raise Wrong(f"{text} is not in {least}..{most}")
    return value


# Numbers of so many octets, in the order and with the sign given
def number(size, order, signed=False):
    least, most = (-(2 ** (8 * size - 1)), 2 ** (8 * size - 1) - 1) if signed else (0, 2 ** (8 * size) - 1)
    return Value(
        size,
        lambda text: whole(text, least, most).to_bytes(size, order, signed=signed),
        lambda octets: str(int.from_bytes(octets, order, signed=signed)),
    )


# Numbers as calls and records hold them
def little(size, signed=False):
    return number(size, "little", signed)


# Numbers as they stand on the wire
def big(size):
    return number(size, "big")


# Up to `slots` numbers with commas between; the slots left over are 0
def listed(slots, size):
    one = little(size)

    def read(text):
        parts = text.split(",") if text != "-" else []
        if len(parts) > slots:
            raise Wrong(f"{len(parts)} numbers where there is room for {slots}")
        return b"".join(map(one.read, parts)) + bytes(size * (slots - len(parts)))

    def write(octets):
        parts = [one.write(octets[at : at + size]) for at in range(0, len(octets), size)]
        while parts and parts[-1] == "0":
            parts.pop()
        return ",".join(parts) or "-"

    return Value(slots * size, read, write)


IDS = listed(8, 2)


# The peers of a setting, `9,12`: their count and the eight slots; `3:9,12` gives a count that is not how many are listed
def read_peers(text):
    count, colon, ids = text.rpartition(":")
    slots = IDS.read(ids)
    return little(1).read(count if colon else str(0 if ids == "-" else len(ids.split(",")))) + slots


# The same peers as text, with the count only where it is not how many are listed
def write_peers(octets):
    ids = IDS.write(octets[1:])
    return ids if read_peers(ids) == octets else f"{octets[0]}:{ids}"


# Octets in hex, any number of them, `-` for none
def hexed(text):
    if text == "-":
        return b""
    if not re.fullmatch("([0-9a-fA-F]{2})+", text):
        raise Wrong(f"'{text}' is not octets in hex")
    return bytes.fromhex(text)


# Octets as a line shows them
def shown(octets):
    return octets.hex() or "-"


# An address, `02-00-00-00-00-07`
def address(text):
    if not re.fullmatch("[0-9a-fA-F]{2}(-[0-9a-fA-F]{2}){5}", text):
        raise Wrong(f"'{text}' is no address; one is written 02-00-00-00-00-07")
    return bytes.fromhex(text.replace("-", ""))


# A MEG ID: text in quotes with zeros up to 48 octets, or 48 octets in hex
def read_meg(text):
    octets = text[1:-1].encode() if text.startswith('"') else hexed(text)
    if len(octets) > 48 or (len(octets) < 48 and not text.startswith('"')):
        raise Wrong(f"a MEG ID has 48 octets, not {len(octets)}")
    return octets.ljust(48, b"\0")


# A MEG ID as text. In hex too where a quote, a $ or a bar stands in it: they would end the text, name a `let`, end the answer
def write_meg(octets):
    text = octets.rstrip(b"\0").decode("latin-1")
    return f'"{text}"' if re.fullmatch("[ !#%-{}~]*", text) else octets.hex()


# Stamps of two such numbers, `10.400`: whole seconds, a point, whole nanoseconds
def stamp(numbers):
    part = numbers(4)

    def read(text):
        if text.count(".") != 1:
            raise Wrong(f"'{text}' is no stamp; 10 s and 400 ns are written 10.400")
        return b"".join(map(part.read, text.split(".")))

    return Value(8, read, lambda octets: f"{part.write(octets[:4])}.{part.write(octets[4:])}")


PEERS, MEG = Value(1 + IDS.size, read_peers, write_peers), Value(48, read_meg, write_meg)
HEX, ADDRESS = Value(None, hexed, shown), Value(6, address, lambda octets: octets.hex("-"))


# ---- words and fields ----


# The words of a line; text in quotes is kept whole
def words_of(text):
    if text.count('"') % 2:
        raise Wrong("a quote is not closed")
    return re.findall(r'(?:[^\s"]|"[^"]*")+', text)


# Each field's octets by its name; a field given twice has the later value
def fields(words, layout):
    readers, got = {field.name: field.value.read for field in layout}, {}
    for word in words:
        name, sign, value = word.partition("=")
        if not sign or name not in readers:
            raise Wrong(f"'{word}' is none of the fields {'=, '.join(readers)}=")
        try:
            got[name] = readers[name](value)
        except Wrong as wrong:
            raise Wrong(f"{name}=: {wrong}") from None
    for field in layout:
        if field.name not in got and field.default is None:
            raise Wrong(f"{field.name}= is missing")
        got.setdefault(field.name, field.default)
    return got


# The fields' octets one after another in the layout's order
def joined(got, layout):
    return b"".join(got[field.name] for field in layout)


# The fields' octets as words give them; or the same number of octets given in hex
def laid_out(words, layout):
    if words and "=" not in words[0]:
        octets, size = hexed("".join(words)), sum(field.value.size for field in layout)
        if len(octets) != size:
            raise Wrong(f"{size} octets are needed here, not {len(octets)}")
        return octets
    return joined(fields(words, layout), layout)


# The words before the first that is no `key=value`, and the rest: a call's own fields, and the frame behind them
def parted(words):
    for at, word in enumerate(words):
        if not re.match("[a-z-]+=", word):
            return words[:at], words[at:]
    return words, []


# ---- settings, states, sessions, records ----

SETTINGS = [
    Field("level", little(1), None), Field("mep", little(2), None), Field("own", ADDRESS, None), Field("period", little(1), None),
    Field("meg", MEG, None), Field("losspeer", ADDRESS, None), Field("peers", PEERS, None),
]
SESSION = [
    Field("kept", little(1), b"\0"), Field("reading", listed(4, 4), bytes(16)), Field("near", little(8, True), bytes(8)),
    Field("far", little(8, True), bytes(8)), Field("intervals", little(4), bytes(4)),
]
CONDITIONS = ["mismerge", "unexpected-mep", "unexpected-period", "unexpected-level", "ais", "lck"]
STATE = [
    *SETTINGS, Field("sent", little(4), bytes(4)), Field("received", little(4), bytes(4)), Field("timers", listed(8, 4), None),
    Field("rdi", listed(8, 1), bytes(8)), *(Field(name, little(4), bytes(4)) for name in CONDITIONS),
    Field("next", little(4), None), *SESSION,
]
TOTALS = SESSION[2:]
RECORDS = {"settings-record": (1, SETTINGS), "loss-line": (2, TOTALS)}


# A stored record: length of all that follows it, kind, body
def record(kind, body):
    return (len(body) + 2).to_bytes(2, "little") + kind.to_bytes(2, "little") + body


# ---- frames ----

COUNT, STAMP, NO_STAMP = big(4), stamp(big), bytes(8)
COUNTS = [Field(name, COUNT, bytes(4)) for name in ("txfcf", "rxfcf", "txfcb")]
STAMPS = [Field(name, STAMP, NO_STAMP) for name in ("txstampf", "rxstampf", "txstampb")] + [Field("reserved", big(8), bytes(8))]
TRANSACTION = [Field("transaction", COUNT, bytes(4))]
CCM = [
    Field("sequence", COUNT, bytes(4)), Field("mep", big(2), None), Field("meg", MEG, None), Field("txfcf", COUNT, bytes(4)),
    Field("rxfcb", COUNT, bytes(4)), Field("txfcb", COUNT, bytes(4)), Field("reserved", COUNT, bytes(4)),
]
MESSAGES = {
    "ccm": Message(1, 70, 0, CCM),
    "lbm": Message(3, 4, 0, TRANSACTION),
    "lbr": Message(2, 4, 0, TRANSACTION),
    "ais": Message(33, 0, 0, []),
    "lck": Message(35, 0, 0, []),
    "lmm": Message(43, 12, 1, COUNTS),
    "lmr": Message(42, 12, 1, COUNTS),
    "dmm": Message(47, 32, 1, STAMPS),
    "dmr": Message(46, 32, 1, STAMPS),
}
OAM_TYPE, TYPE = b"\x89\x02", big(2)._replace(write=lambda octets: f"0x{octets.hex()}")
TO_THE_GROUP = ("ccm", "ais", "lck")  # where no `to=` stands
WITH_PERIOD = ("ccm", "ais", "lck")


# A destination: an address, or `group`, the multicast address of the frame's level
def destination(text, level):
    return address(f"{LINK}{level}" if text == "group" else text)


# The 18 octets at the front of an OAM frame
def head(got, opcode, flags):
    pdu = bytes([32 * got["level"] + got["version"], opcode, flags, got["offset"]])
    return destination(got["to"], got["level"]) + got["from"] + OAM_TYPE + pdu


# What those 18 octets say, opcode and flags too: `head` the other way round
def head_of(octets):
    if len(octets) < 18 or octets[12:14] != OAM_TYPE:
        raise Wrong("this is no OAM frame")
    (level, version), to = divmod(octets[14], 32), ADDRESS.write(octets[:6])
    opcode, flags, offset = octets[15:18]
    to = "group" if to == f"{LINK}{level}" else to
    return {"to": to, "from": octets[6:12], "level": level, "version": version, "opcode": opcode, "flags": flags, "offset": offset}


# A number that a field of the header holds, not yet octets
def small(most):
    return Value(None, lambda text: whole(text, 0, most), str)


TO = Value(None, str, str)  # read by `destination`, once the level is known
OAM = [
    Field("level", small(7), None), Field("version", small(31), 0), Field("opcode", small(255), None), Field("flags", small(255), 0),
    Field("offset", small(255), None), Field("rest", HEX, None), Field("to", TO, None), Field("from", ADDRESS, None),
]
SERVICE = [Field("to", ADDRESS, None), Field("from", ADDRESS, None), Field("type", TYPE, b"\x08\0"), Field("data", HEX, b"")]
LENGTH = Field("length", small(1979), 0)


# The fields that stand around a message's fixed part. `extra` are octets between it and the TLVs, `cut` keeps so many octets of the frame
@cache
def around(name):
    message = MESSAGES[name]
    header = [
        Field("level", small(7), None), Field("version", small(31), message.version), Field("flags", small(255), -1),
        Field("offset", small(255), message.offset), Field("extra", HEX, b""), Field("tlvs", HEX, b"\0"), Field("cut", small(1979), 1979),
        Field("to", TO, "group" if name in TO_THE_GROUP else None), Field("from", ADDRESS, None),
    ]
    period = [Field("period", small(7), None)] if name in WITH_PERIOD else []
    rdi = [Field("rdi", small(1), 0)] if name == "ccm" else []
    return header + period + rdi


# The flags where none are given: those that the message's own fields say
def usual_flags(got):
    return 128 * got.get("rdi", 0) + got.get("period", 0)


# What stands between fixed part and TLVs where no `extra` is given: zeros up to an offset above the usual
def usual_extra(message, offset):
    return bytes(max(0, offset - message.offset))


# A message's frame from its fields. An offset above the usual puts `extra`, or zeros, before the TLVs; one below changes only its octet
def message_frame(name, words):
    message = MESSAGES[name]
    got = fields(words, around(name) + message.fixed)
    flags = got["flags"] if got["flags"] >= 0 else usual_flags(got)
    extra = got["extra"] or usual_extra(message, got["offset"])
    return (head(got, message.opcode, flags) + joined(got, message.fixed) + extra + got["tlvs"])[: got["cut"]]


# An OAM frame of any opcode: what follows the offset octet is given as it stands
def oam_frame(words):
    got = fields(words, OAM)
    return head(got, got["opcode"], got["flags"]) + got["rest"]


# A service frame: any EtherType but 89-02. `length` makes it so long with zeros
def service_frame(words):
    got = fields(words, [*SERVICE, LENGTH])
    if got["type"] == OAM_TYPE:
        raise Wrong("EtherType 89-02 is OAM and no service frame")
    return joined(got, SERVICE).ljust(got["length"], b"\0")


# The octets that words give: a frame or record by its name and fields, or hex, `-` for none
def octets_of(words):
    if not words:
        raise Wrong("octets are missing: a frame, a record, hex or -")
    name, rest = words[0], words[1:]
    if name in MESSAGES:
        return message_frame(name, rest)
    if name in RECORDS:
        kind, layout = RECORDS[name]
        return record(kind, laid_out(rest, layout))
    if name in ("oam", "service"):
        return oam_frame(rest) if name == "oam" else service_frame(rest)
    return hexed("".join(words))


# ---- the body of each call: its fields in their order, those without a name told by their place alone, then its tail ----

SIDES = ("active", "passive")


# The side that a frame comes from
def side(text):
    if text not in SIDES:
        raise Wrong("a frame comes from the active or the passive side")
    return bytes([SIDES.index(text)])


SIDE = Value(1, side, lambda octets: dict(enumerate(SIDES)).get(octets[0], octets.hex()))
ROOM = Value(2, lambda text: whole(text, 0, MOST_BUFFER).to_bytes(2, "little"), little(2).write)
BUFFER, CALL_STAMP = Field("buffer", ROOM, bytes(2)), stamp(little)
FRAME_CALL = [Field("", SIDE, None), BUFFER, Field("receive", CALL_STAMP, NO_STAMP), Field("send", CALL_STAMP, NO_STAMP)]
DMM_CALL = [BUFFER, Field("stamp", CALL_STAMP, None)]
TLV_CALL = [Field("type", little(1), None)]
READINGS = [Field("", little(4), None)] * 4


# A call without a body
def empty(words):
    if words:
        raise Wrong(f"'{words[0]}': this call has no fields")
    return Body(b"")


# How long a part of the buffer is handed over
def buffer_of(got):
    return int.from_bytes(got["buffer"], "little")


# 258: side, buffer, both stamps, the frame
def frame_body(words):
    first, (own, rest) = side(words[0] if words else ""), parted(words[1:])
    got = {"": first, **fields(own, FRAME_CALL[1:])}
    frame = octets_of(rest)
    return Body(joined(got, FRAME_CALL) + frame, buffer_of(got), words[0], frame)


# 259, 261 and 262: the buffer, and 262's stamp
def buffer_body(layout):
    def body(words):
        got = fields(words, layout)
        return Body(joined(got, layout), buffer_of(got))

    return body


# 257, 263 and 266: values without a buffer
def put_body(layout):
    return lambda words: Body(laid_out(words, layout))


# 265: the type asked for, and the frame
def tlv_body(words):
    own, rest = parted(words)
    return Body(joined(fields(own, TLV_CALL), TLV_CALL) + octets_of(rest))


# 267: four readings
def measure_body(words):
    if len(words) != 4:
        raise Wrong("four readings are needed: TxFCf, RxFCf, TxFCb and ours")
    return Body(b"".join(field.value.read(word) for field, word in zip(READINGS, words)))


# 268 and 270: any octets
def octets_body(words):
    return Body(octets_of(words))


# 269 and 271: the buffer, then the values to be written
def write_body(layout):
    def body(words):
        own = [word for word in words if word.startswith("buffer=")]
        got = fields(own, [BUFFER])
        return Body(got["buffer"] + laid_out([word for word in words if word not in own], layout), buffer_of(got))

    return body


CALLS = {
    "setting": Kind(257, put_body(SETTINGS), SETTINGS),
    "frame": Kind(258, frame_body, FRAME_CALL, "frame"),
    "tick": Kind(259, buffer_body([BUFFER]), [BUFFER]),
    "clear": Kind(260, empty, []),
    "lmm": Kind(261, buffer_body([BUFFER]), [BUFFER]),
    "dmm": Kind(262, buffer_body(DMM_CALL), DMM_CALL),
    "put-state": Kind(263, put_body(STATE), STATE),
    "show-state": Kind(264, empty, []),
    "tlv": Kind(265, tlv_body, TLV_CALL, "frame"),
    "put-session": Kind(266, put_body(SESSION), SESSION),
    "measure": Kind(267, measure_body, READINGS),
    "read-settings": Kind(268, octets_body, [], "record"),
    "write-settings": Kind(269, write_body(SETTINGS), [BUFFER, *SETTINGS]),
    "read-line": Kind(270, octets_body, [], "record"),
    "write-line": Kind(271, write_body(TOTALS), [BUFFER, *TOTALS]),
    "conditions": Kind(272, empty, []),
}

# ---- expected lines ----

N = "(?:0|-?[1-9][0-9]*)"
REFUSED, DROPPED = "refused [1-7]", "dropped [1-8]"
PEER = "[1-9][0-9]*:(?:L|R|LR|-)"
OTHERS = "( mismerge)?( mep)?( period)?( level)?( ais)?( lck)?"
ANSWERS = {
    "setting": f"set|{REFUSED}",
    "frame": f"passed|taken|replied {N}|loss {N} {N}|delay {N}( {N} {N})?|{DROPPED}|{REFUSED}",
    "tick": f"ticked|sent {N}|{REFUSED}",
    "clear": f"cleared|{REFUSED}",
    "lmm": f"sent {N}|{REFUSED}",
    "dmm": f"sent {N}|{REFUSED}",
    "put-state": "set",
    "show-state": "state [0-9a-f]{388}",
    "tlv": f"value ([0-9a-f]+|-)|none|{DROPPED}|{REFUSED}",
    "put-session": "set",
    "measure": f"loss {N} {N} session [0-9a-f]{{74}}|{REFUSED}",
    "read-settings": f"settings [0-9a-f]{{162}}|{REFUSED}",
    "write-settings": f"sent {N}|{REFUSED}",
    "read-line": f"line {N} {N} {N}|{REFUSED}",
    "write-line": f"sent {N}|{REFUSED}",
    "conditions": f"conditions( {PEER}){{1,8}}{OTHERS}|{REFUSED}",
}
SHOWN = {"state": STATE, "session": SESSION, "settings": SETTINGS}


# The answer with a state, session or setting given by its fields written as the hex that a line shows
def answer_of(name, words):
    for at, word in enumerate(words):
        if word in SHOWN:
            words = words[: at + 1] + [shown(laid_out(words[at + 1 :], SHOWN[word]))]
            break
    answer = " ".join(words)
    if not re.fullmatch(ANSWERS[name], answer):
        raise Wrong(f"'{answer}' is no line of the call {name}")
    return answer


# How many octets an answer says were written
def told_by(answer):
    told = re.fullmatch("(?:sent|replied) (.+)", answer)
    return int(told[1]) if told else 0


# The octets that a message or record has written, held to the length that the answer gives
def written_by(answer, words):
    written = octets_of(words) if words else b""
    if len(written) != told_by(answer):
        raise Wrong(f"'{answer}' does not go with the {len(written)} octets behind the bar")
    return written


# A buffer part of this length after a call that wrote these octets at its front; the octets behind them keep their fill
def buffer_after(length, written):
    if len(written) > length:
        raise Wrong(f"{len(written)} octets cannot stand in a buffer of {length}")
    return written + bytes((FILL + i) % 256 for i in range(len(written), length))


# The expected answer, and what it says was written
def expected(name, body, text):
    left, bar, right = text.partition("|")
    answer = answer_of(name, words_of(left))
    if body.buffer is None:
        if bar:
            raise Wrong(f"the call {name} hands over no buffer, and its line has no bar")
        return answer, b""
    written = written_by(answer, words_of(right))
    return f"{answer} | {shown(buffer_after(body.buffer, written))}", written


# ---- lines of a run ----


# A line without its comment, which begins at a # outside quotes
def bare(text):
    return re.match(r'(?:[^#"]|"[^"]*"|"(?![^"]*"))*', text)[0].strip()


# The text with each $name replaced by what `let` gave it
def replaced(text, names):
    def given(found):
        if found[1] not in names:
            raise Wrong(f"no `let` before this line names '{found[1]}'")
        return names[found[1]]

    return re.sub(r"\$([a-z0-9-]+)", given, text)


# The lines that say something: without comments, with the names of `let` replaced
def meant(path, text):
    names, lines = {}, []
    for at, raw in enumerate(text.split("\n"), 1):
        line = Line(str(path), at, bare(raw))
        try:
            line = line._replace(text=replaced(line.text, names))
            if re.match(r"let\b", line.text):
                name = re.fullmatch(r"let ([a-z0-9-]+)\s+(.+)", line.text)
                if not name:
                    raise Wrong("a name is given by `let NAME TEXT`, in a-z, 0-9 and -")
                names[name[1]] = name[2]
            elif line.text:
                lines.append(line)
        except Wrong as wrong:
            raise wrong.at(line) from None
    return lines


# One call with its expected line; without one it has no answer yet
def call(line, after):
    name, *words = words_of(line.text)
    if name not in CALLS:
        raise Wrong(f"no call is named '{name}'; there are {', '.join(CALLS)}")
    kind = CALLS[name]
    body = kind.body(words)
    octets = record(kind.number, body.octets)
    if len(octets) - 2 > MOST_LENGTH:
        raise Wrong(f"a call has at most {MOST_LENGTH} octets behind its length")
    if after is None:
        return Call(line, name, octets, None, body.side, body.frame, b"")
    try:
        answer, written = expected(name, body, after.text[2:])
    except Wrong as wrong:
        raise wrong.at(after) from None
    return Call(line, name, octets, answer, body.side, body.frame, written)


# A line on the time line: `at N`, `off until N`, `outgoing cut`, `outgoing whole`
def mark(line):
    found = re.fullmatch(r"(at|off until) (\d+)|(outgoing) (cut|whole)", line.text)
    if not found:
        raise Wrong("a mark is `at N`, `off until N`, `outgoing cut` or `outgoing whole`")
    return Mark(line, found[1] or found[3], int(found[2]) if found[2] else found[4])


# How often a repeat runs
def times(line):
    found = re.fullmatch(r"repeat ([1-9]\d*)", line.text)
    if not found:
        raise Wrong("a repeat is `repeat N` with N from 1")
    return int(found[1])


# The expected line at a place, if there is one
def expected_at(lines, at):
    return lines[at] if at < len(lines) and lines[at].text.startswith("> ") else None


# The steps from one line on, to the end of the file or of the repeat, and the line behind them
def steps_from(lines, at, repeat=None):
    steps = []
    while at < len(lines):
        line, after = lines[at], expected_at(lines, at + 1)
        word = line.text.split()[0]
        try:
            if word == "end":
                if repeat is None or line.text != "end":
                    raise Wrong("this `end` ends no repeat")
                return steps, at + 1
            if word == "repeat":
                inner, at = steps_from(lines, at + 1, line)
                steps += inner * times(line)
            elif word == ">":
                raise Wrong("an expected line without a call before it")
            elif word in ("at", "off", "outgoing"):
                steps.append(mark(line))
                at += 1
            else:
                steps.append(call(line, after))
                at += 2 if after else 1
        except Wrong as wrong:
            raise wrong.at(line) from None
    if repeat is not None:
        raise Wrong("this repeat has no `end`").at(repeat)
    return steps, at


# Does this call pass a tick? A refused one does not
def passes_a_tick(step):
    return isinstance(step, Call) and step.name == "tick" and not step.answer.startswith("refused")


# Each step with the ticks that have passed when it is done; `at` must name them, `off until` moves on without calls
def timed(steps):
    now, out = 0, []
    for step in steps:
        now += passes_a_tick(step)
        if isinstance(step, Mark) and step.word == "off until":
            if step.value < now:
                raise Wrong(f"{now} ticks have passed already").at(step.line)
            now = step.value
        if isinstance(step, Mark) and step.word == "at" and step.value != now:
            raise Wrong(f"{now} ticks have passed here, not {step.value}").at(step.line)
        out.append((now, step))
    return out


# A run's steps, from its file
def read_steps(path):
    with open(path, encoding="utf-8") as file:
        return steps_from(meant(path, file.read()), 0)[0]


# A run's steps in time, each call with its expected line
def read_run(path):
    steps = read_steps(path)
    for step in steps:
        if isinstance(step, Call) and step.answer is None:
            raise Wrong(f"the call {step.name} has no expected line behind it").at(step.line)
    return timed(steps)


# A run's calls
def calls_of(path):
    return [step for _, step in read_run(path) if isinstance(step, Call)]


# What goes to standard input
def octets_in(calls):
    return b"".join(call.octets for call in calls)


# What is expected on standard output
def octets_out(calls):
    return "".join(call.answer + "\n" for call in calls).encode()
