"""Which week and which minute are asked about, by words."""

import os

from plan import times
from plan.ends import MORE, Trouble, shown
from plan.week import Week
from plan.week_file import Entry, WeekFile
from plan.words import given, is_number, number_of, numbers_of


def taken(words):
    """The week that is asked for, before domeplan is: one word that is no
    number is a text."""
    if len(words) == 1 and not is_number(words[0]):
        if words[0] != "-" and not os.path.exists(words[0]):
            raise Trouble("'%s' is no number, and there is no file of that "
                          "name%s" % (shown(words[0]), MORE))
        text = WeekFile(words[0])
        return Week(text.entries, text)
    numbers = numbers_of(words)
    if len(numbers) % 3:
        raise Trouble("the numbers of a programme are a start, an end and a "
                      "plan for each showing, and %s%s" % (
                          given(len(numbers)), MORE))
    return Week([Entry(*numbers[place:place + 3])
                 for place in range(0, len(numbers), 3)])


def some_week(words):
    """A week has to be named where one minute of it is asked about."""
    if not words:
        raise Trouble("--at asks about a week, and none is named: give its "
                      "file, or a start, an end and a plan for each showing"
                      + MORE)


def minute_of(words):
    """The minute that --at is asked about, taken off the words: a number, or
    a day and a time in one word or two."""
    first = words.pop(0) if words else ""
    if is_number(first):
        return number_of(first)
    day, _, time = first.partition(" ")
    if not time and words:
        time = words.pop(0)
    minute = times.minute_of(day, time)
    if minute is None:
        raise Trouble("--at takes a minute of the week, or a day and a time "
                      "as mon 20:15, and '%s' is none%s" % (
                          shown(" ".join(filter(None, [day, time]))), MORE))
    return minute
