"""The tests of a library's exports: each call file is played through images,
and the bytes are compared at the end, or after each call."""

from demand3.check import check
from driver.formats import ALLCALLS
from driver.suite import Outcome, Suite, first_difference, refusals_in
from images import call_files

FEW = 1000              # bytes of a file whose image is looked at after a call


def listing(lines):
    return "".join(line + "\n" for line in lines).encode()


class ImageOutcome(Outcome):
    """Also how many images were compared: after each call, at the end."""

    compared = 0, 0


class ImageSuite(Suite):
    def __init__(self, name, command):
        super().__init__(name, command, ALLCALLS)
        self.after_each_call = 0        # images compared
        self.at_the_end = 0

    def outcome(self, case):
        """One file through images: listing, bytes, end and demand 3."""
        right = case.right(ALLCALLS)
        each = len(case.data) <= FEW or case.size is not None
        length = len(right.image) or call_files.LONGEST
        played = call_files.play(self.command, case.data, length, each)
        verdict = right.verdict
        if played.lines != right.lines:
            verdict = check(case.data, played.lines, ALLCALLS.checked)
        images = (call_files.images_after(case.data) if each
                  else [right.image])
        outcome = ImageOutcome(
            [case.trouble, played.wrong,
             first_difference(right.listing, listing(played.lines)),
             call_files.difference(played, images, length),
             verdict.faults and "demand 3, " + verdict.faults[0]],
            refusals_in(played.lines), verdict)
        count = len(played.buffers)
        outcome.compared = (count, 0) if each else (0, count)
        return outcome

    def note(self, outcome):
        super().note(outcome)
        after_each_call, at_the_end = outcome.compared
        self.after_each_call += after_each_call
        self.at_the_end += at_the_end

    def totals(self):
        super().totals()
        print("%s: images compared after each call %d, at the end of a file %d"
              % (self.name, self.after_each_call, self.at_the_end))
        self.test("images were compared after each call",
                  not self.after_each_call and "none")
        self.test("images were compared at the end of long files",
                  not self.at_the_end and "none")
