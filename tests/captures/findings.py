"""What a comparison found: how many frames and fields were compared, and what differs."""
from collections import Counter


class Findings:
    """Counts of what was compared, by capture and by field, and one line for each thing that differs. `by` names a decoder whose version
    is not the committed one: it may show more than is due, and a number as a number or as octets."""

    def __init__(self, by=""):
        self.frames, self.fields, self.faults, self.by = Counter(), Counter(), [], by

    def frame(self, capture):
        """One more frame of this capture is looked at."""
        self.frames[capture] += 1

    def fault(self, text):
        """Something differs."""
        self.faults.append(text)

    def same(self, where, field, shown, due):
        """One field compared: what the decoder shows, and what is due by what the frame was built from."""
        self.fields[field] += 1
        if shown != due:
            self.fault(f"{self.by}{where}: {field}: the decoder shows {shown}, due is {due}")

    def line(self):
        """The one line at the end."""
        frames = ", ".join(f"{capture} {count}" for capture, count in self.frames.items())
        counts = f"{sum(self.frames.values())} frames ({frames}), {sum(self.fields.values())} fields compared"
        return f"captures: {counts}, {len(self.faults)} differ"
