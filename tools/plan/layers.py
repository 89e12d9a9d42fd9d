"""--count and --extras: domeplan's answers in words, layers by their names."""

from check.words import plural
from dome.show_file import listed
from plan import faults, program
from plan.ends import DONE, MORE, REFUSED, Trouble, shown
from plan.report import Report, verdict
from plan.words import given, number_of, numbers_of


def refused(what, number, found):
    """A report on a question that is refused: what is wrong by itself, or
    what stands on the page."""
    if not found:
        raise program.odd("R %d" % number)
    return Report([], verdict(REFUSED, refusal=number, faults=[
        fault.as_object(None) for fault in found]),
        faults.refusal_lines(what, found), REFUSED)


def wrong_alone(pairs, form):
    """Those faults whose question is refused where all else is small."""
    answers = program.ask_all([question for _, question in pairs],
                              program.or_refused(form))
    return [fault for (fault, _), answer in zip(pairs, answers)
            if isinstance(answer, program.Refused)]


# ---- how many lists of shares fit

def asked_count(words):
    if len(words) != 2:
        raise Trouble("--count takes F and how many flows there are, and %s%s"
                      % (given(len(words)), MORE))
    return numbers_of(words)


def count_report(frame_slots, flows):
    form = program.numbers(2)
    try:
        fit, rest = program.ask(program.line("count", (frame_slots, flows)),
                                form)
    except program.Refused as refusal:
        return refused("the count", refusal.number, wrong_alone(
            [(faults.Fault(refusal.number, "F is not 1 to 16",
                           "F is %d" % frame_slots), "count %d 1"
              % frame_slots),
             (faults.Fault(refusal.number, "the flows are not 1 to 8",
                           "there are %d" % flows), "count 1 %d" % flows)],
            form))
    whole = fit + rest
    tenths = (2000 * fit + whole) // (2 * whole)
    return Report(
        ["of %s of %s, each 1 to %d: %d fit a frame of %s, %d don't; %d.%d %% "
         "fit" % (plural(whole, "list"), plural(flows, "share"), frame_slots,
                  fit, plural(frame_slots, "slot"), rest,
                  *divmod(tenths, 10))],
        verdict(DONE, F=frame_slots, flows=flows, fit=fit, do_not_fit=rest))


# ---- which layers to switch on

class Layer:
    def __init__(self, number, name, share, worth):
        self.number, self.name = number, name
        self.share, self.worth = share, worth

    def called(self):
        return self.name or str(self.number)

    def as_object(self, on):
        return {"layer": self.number, "name": self.name, "share": self.share,
                "worth": self.worth, "on": on}


class Extras:
    """Slots left, a budget of sets, and the layers: each an optional name, a
    share and a worth."""

    def __init__(self, words):
        self.words = list(words)
        self.left, self.budget = self.number(), self.number()
        self.layers = []
        while self.words:
            name = self.take_name() if self.words[0][:1].isalpha() else None
            self.layers.append(Layer(len(self.layers), name, self.number(),
                                     self.number()))

    def number(self):
        if not self.words:
            raise Trouble(
                "--extras takes the slots left, how many sets are looked at, "
                "and a share and a worth for each layer, which may have a "
                "name in front, and a number is missing" + MORE)
        return number_of(self.words.pop(0))

    def take_name(self):
        name = shown(self.words.pop(0))
        if name in [layer.name for layer in self.layers]:
            raise Trouble("the name %s stands twice" % name)
        return name

    def report(self):
        question = program.line("extras", [self.left, self.budget] + [
            number for layer in self.layers
            for number in (layer.share, layer.worth)])
        try:
            mask, worth, ceiling = program.ask(question, program.numbers(3))
        except program.Refused as refusal:
            return refused("the choice", refusal.number,
                           self.wrong(refusal.number))
        if mask >> len(self.layers):
            raise program.odd("%d %d %d" % (mask, worth, ceiling))
        on = [layer for layer in self.layers if mask >> layer.number & 1]
        return Report(self.lines(on, worth, ceiling), verdict(
            DONE, slots=self.left, budget=self.budget, worth=worth,
            ceiling=ceiling, layers=[layer.as_object(layer in on)
                                     for layer in self.layers]))

    def lines(self, on, worth, ceiling):
        width = max(map(len, ["layer", *(layer.called()
                                         for layer in self.layers)]))
        yield "%*s  share  worth" % (width, "layer")
        for layer in self.layers:
            yield "%*s  %5d  %5d  %s" % (
                width, layer.called(), layer.share, layer.worth,
                "on" if layer in on else "off")
        slots = sum(layer.share for layer in on)
        yield "switch on %s: %d of %s, worth %d" % (
            names(on), slots, plural(self.left, "slot"), worth)
        yield "no set that fits is worth more" if ceiling == worth else (
            "the best of %s; no set that fits is worth more than %d" % (
                plural(self.budget, "set"), ceiling))

    def wrong(self, number):
        """What is wrong by itself, or how many layers there are."""
        pairs = [(faults.Fault(number, "more than 64 slots are left",
                               "%d are" % self.left),
                  "extras %d 1" % self.left),
                 (faults.Fault(number, "no set is to be looked at",
                               "there are %d" % self.budget),
                  "extras 0 %d" % self.budget)]
        for layer in self.layers:
            pairs += [(faults.Fault(number, "a layer's share is not 1 to 64",
                                    "layer %s has %d" % (layer.called(),
                                                         layer.share)),
                       "extras 0 1 %d 0" % layer.share),
                      (faults.Fault(number, "a layer's worth is above 1,000",
                                    "layer %s has %d" % (layer.called(),
                                                         layer.worth)),
                       "extras 0 1 1 %d" % layer.worth)]
        return wrong_alone(pairs, program.numbers(3)) or [faults.Fault(
            number, "there are more than 12 layers",
            "there are %d" % len(self.layers))]


def names(on):
    if not on:
        return "no layer"
    return "%s %s" % ("layer" if len(on) == 1 else "layers",
                      listed([layer.called() for layer in on]))
