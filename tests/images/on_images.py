"""Single calls on images of all sorts: the result and the bytes that each has
to leave, and what came of it.
"""

from images.acceptance import refusal_of
from images.host import Script, run
from images.results import POWER, number_of, said
from simulator.calls import answer
from simulator.image import image_of, link_of


class Trial:
    """One call on one buffer."""

    def __init__(self, name, buffer, call):
        self.name = name
        self.buffer = bytes(buffer)
        self.call = call

    def right(self):
        """The result and the buffer that are right."""
        refusal = refusal_of(self.buffer)
        if refusal:
            return refusal * POWER, self.buffer
        link = link_of(self.buffer)
        given = answer(link, self.call)
        image = image_of(link)
        return (number_of(self.call, *given),
                image + self.buffer[len(image):])

    def trouble(self, result, buffer):
        right, kept = self.right()
        if result != right:
            return "%s: %r gives %s, not %s" % (
                self.name, self.call, said(result), said(right))
        if buffer != kept:
            return "%s: %r leaves other bytes" % (self.name, self.call)
        return None


def troubles(command, trials):
    """What is wrong with each trial, or None."""
    script = Script()
    for trial in trials:
        script.buffer(trial.buffer)
        script.call(trial.call)
        script.get()
    answers, wrong = run(command, script)
    if wrong:
        return [wrong]
    return [trial.trouble(result, buffer) for trial, result, buffer
            in zip(trials, answers[::2], answers[1::2])]
