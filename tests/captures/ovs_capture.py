"""ovs.pcap: CCMs that Open vSwitch's end point sent. ovs.txt is made of them: a run in which the box takes them in."""
import re

import pcap
from against_tshark import compare_message
from run_text import steps

MEG = bytes.fromhex("04036f767302036f7673").ljust(48, b"\0")  # the switch has this MEG ID and no other
OWN, LOSS_PEER = "02-00-00-00-00-08", "02-00-00-00-00-07"
PERIOD, HOLD = 60, 210  # ticks, at period code 3
TICKS = 600  # in a second


def octets(address):
    """An address as octets."""
    return bytes.fromhex(address.replace("-", ""))


def setting_octets():
    """The box beside the switch: level 0, MEP ID 8, period code 3, peer 7, as the body of a new setting."""
    front = bytes([0]) + (8).to_bytes(2, "little") + octets(OWN) + bytes([3]) + MEG
    return front + octets(LOSS_PEER) + bytes([1]) + (7).to_bytes(2, "little") + bytes(14)


def fault_of(shown):
    """The faults in what `cfm/show` prints."""
    return (re.search(r"^\s+fault: (.*)$", shown, re.MULTILINE) or ["", ""])[1].strip()


def show_text(version, shown):
    """What the switch said of itself, under its version."""
    return version.split("\n")[0] + "\n" + "".join(f"\n{when}\n\n{text}" for when, text in shown)


def ccm(rdi):
    """The box's CCM, by the paper's table: 89 octets to the level 0 multicast address, sequence, counts and reserved octets zero."""
    head = bytes.fromhex("0180c2000030") + octets(OWN) + b"\x89\x02" + bytes([0, 1, 128 * rdi + 3, 70])
    return head + bytes(4) + (8).to_bytes(2, "big") + MEG + bytes(17)


class Run:
    """The text of the run as it grows, with the ticks since the setting and since the peer's last CCM."""

    def __init__(self):
        self.lines, self.ticks, self.silent, self.letter = list(HEAD), 0, 0, "-"

    def say(self, *lines):
        """More lines."""
        self.lines += lines

    def conditions(self):
        """The question which conditions stand: L from the hold time's last tick on, R as the last CCM had it."""
        lost = self.silent >= HOLD
        letters = ("L" if lost else "") + ("R" if self.letter == "R" else "")
        self.say("conditions", f"> conditions 7:{letters or '-'}")

    def quiet(self, count):
        """Ticks on which no CCM of ours is due."""
        if count:
            self.say(f"repeat {count}", "tick", "> ticked", "end")
            self.ticks, self.silent = self.ticks + count, self.silent + count

    def sending(self):
        """The last tick of a period of ours: a CCM, with RDI where the peer is lost after this tick's lowering."""
        self.ticks, self.silent = self.ticks + 1, self.silent + 1
        self.say("tick buffer=89", f"> sent 89 | {ccm(int(self.silent >= HOLD)).hex()}")

    def until(self, tick):
        """All ticks up to this one."""
        while self.ticks < tick:
            due = (self.ticks // PERIOD + 1) * PERIOD
            self.quiet(min(due - 1, tick) - self.ticks)
            if self.ticks == due - 1 < tick:
                self.sending()

    def take(self, frame, why):
        """A recorded CCM comes: the peer is seen, its RDI is the top bit of its flags."""
        self.silent, self.letter = 0, "R" if frame[16] & 128 else "-"
        self.say(f"# {why}", f"frame active {frame.hex()}", "> taken")
        self.conditions()


HEAD = [
    "# CCMs of Open vSwitch's end point, as tests/ovs recorded them in ovs.pcap, taken in by the box. Each comes at the tick (1/600 s)",
    "# that it was recorded at, counted from the first. The switch has level 0, MEP ID 7 and period code 3 (100 ms: 60 ticks; hold time",
    "# 210). Its RDI is off at first, on from when it misses its peer, off while the box's CCMs came, on again without them. The last",
    "# CCM is held back: the box loses its peer exactly 210 ticks after the last one but one, and says so in its own CCMs by RDI, until",
    "# the held back one comes.",
    "",
    f"setting level=0 mep=8 own={OWN} period=3 meg={MEG.hex()} losspeer={LOSS_PEER} peers=7",
    "> set",
]


def ticks_of(timed):
    """At which tick, counted from the first frame, each frame was recorded."""
    at = [seconds * 1_000_000 + micro for seconds, micro, _ in timed]
    return [(micro - at[0]) * TICKS // 1_000_000 for micro in at]


def run_text_of(capture):
    """The run, in the text form of tools/README.md."""
    timed = pcap.timed_frames(capture)
    run, ticks = Run(), ticks_of(timed)
    for number, ((_, _, frame), tick) in enumerate(zip(timed[:-1], ticks), 1):
        run.until(tick)
        run.take(frame, f"CCM {number}, sequence number {int.from_bytes(frame[18:22], 'big')}, RDI {'on' if frame[16] & 128 else 'off'}")
    silence(run)
    run.take(timed[-1][2], f"CCM {len(timed)}, which was held back: the peer is there again")
    run.until((run.ticks // PERIOD + 1) * PERIOD)
    return "\n".join(run.lines) + "\n"


def silence(run):
    """No CCM for longer than the hold time: not lost one tick before its end, lost on it."""
    end = run.ticks + HOLD
    run.until(end - 1)
    run.say(f"# {HOLD - 1} ticks without a CCM: one is left")
    run.conditions()
    run.until(end)
    run.say(f"# {HOLD} ticks without a CCM: the peer is lost; its RDI is told as it was last heard")
    run.conditions()
    run.until((run.ticks // PERIOD + 1) * PERIOD)


def ccm_due(frame, letters):
    """What tshark must show of a recorded CCM: the end point that the run is set for, its RDI as the box tells it. The switch counts its
    CCMs in the sequence number, of which the run says nothing."""
    rdi = int("R" in letters)
    ways = {"destination": bytes.fromhex("0180c2000030"), "source": frame[6:12], "length": 89, "tlvs": [(88, b"\0")]}
    head = {"opcode": 1, "level": 0, "version": 0, "flags": 128 * rdi + 3, "offset": 70, "rdi": rdi, "period": 3}
    own = {"sequence": int.from_bytes(frame[18:22], "big"), "mep": 7, "meg": MEG}
    return ways | head | own | {"txfcf": 0, "rxfcb": 0, "txfcb": 0, "reserved": bytes(4)}


def compare(findings, capture, octets_of_file, text, decoded):
    """The run is the one of this capture, and tshark reads each recorded CCM as the run says that the box does."""
    if text != run_text_of(octets_of_file):
        findings.fault("ovs.txt is not the run that ovs.pcap gives")
    run = steps(text)
    taken = [(step, after) for step, after in zip(run, run[1:]) if step.name == "frame"]
    frames = pcap.frames(octets_of_file)
    findings.same(capture, "number of frames", len(decoded), len(taken))
    for number, (frame, (step, after), shown) in enumerate(zip(frames, taken, decoded), 1):
        findings.frame(capture)
        where = f"{capture} frame {number} (ovs.txt line {step.number})"
        findings.same(where, "frame in the run", step.words[1], frame.hex())
        compare_message(findings, where, shown, ccm_due(frame, after.answer[1]))
