"""docs/DECODERS.md: its blocks, each a frame with lines that a decoder shows or lacks and that the box says."""
import re

LINE = re.compile(r"(tshark shows|tshark lacks|tcpdump shows|tcpdump lacks|box says) (.+)")


class Block:
    """One block of the page: its frame, and the (who, what) of its lines."""

    def __init__(self, text):
        first, *lines = text.strip().split("\n")
        self.frame = bytes.fromhex(first.removeprefix("frame "))
        self.lines = [LINE.fullmatch(line).groups() for line in lines]


def blocks(page):
    """The blocks of the page."""
    return [Block(text) for text in re.findall(r"^```\n(frame .*?)^```$", page, re.MULTILINE | re.DOTALL)]


def given_up(page):
    """The frames that tshark does not read to their end: it says malformed, or misses a TLV."""
    signs = {("tshark shows", "malformed"), ("tshark lacks", "tlv 03")}
    return {block.frame for block in blocks(page) if signs & set(block.lines)}


def holds(who, what, shown, printed, said):
    """Whether one line of a block is so, given what tshark shows, what tcpdump prints, and what the box says of the frame."""
    lines = {"tshark": shown, "tcpdump": printed, "box": said}[who.split()[0]]
    found = any(what in line for line in lines)
    return not found if who.endswith("lacks") else found


def compare(findings, capture, page, shown, printed, said):
    """Every line of every block. `shown` and `printed` have the two decodings' lines of each frame, `said` the box's lines by frame."""
    for number, (block, by_tshark, by_tcpdump) in enumerate(zip(blocks(page), shown, printed), 1):
        findings.frame(capture)
        for who, what in block.lines:
            so = holds(who, what, by_tshark, by_tcpdump, said.get(block.frame, []))
            findings.same(f"{capture} frame {number}", f"docs/DECODERS.md, {who}", what if so else "something else", what)
