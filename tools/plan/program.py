"""Questions to domeplan, which is proved, and the forms of its answers."""

import re
import subprocess
from pathlib import Path

from plan.ends import Trouble, shown

ROOT = Path(__file__).resolve().parents[2]
PROGRAM = ROOT / "target/bin/domeplan"
NUMBERS = re.compile("[0-9]{1,20}( [0-9]{1,20})*")
REFUSAL = re.compile(r"R ([0-9]{1,3})")


class Refused(Exception):
    """A refusal that stands for the answer."""

    def __init__(self, number):
        super().__init__(number)
        self.number = number


class Unbuilt(Trouble):
    """There is no program to ask; that was said."""


def build():
    """Proves and builds domeplan where that is needed, as all commands do; it
    says itself what went wrong."""
    done = subprocess.run(["sh", str(ROOT / "tools/build"), "--for", "plan",
                           "domeplan"], check=False)
    if done.returncode:
        raise Unbuilt("domeplan is not built")


def odd(answer):
    return Trouble("domeplan answered '%s'" % shown(answer))


def lines_of(questions):
    """What domeplan writes to these lines."""
    try:
        done = subprocess.run([str(PROGRAM)], input="".join(
            line + "\n" for line in questions).encode(),
            stdout=subprocess.PIPE, check=False)
    except OSError as error:
        raise Trouble("domeplan can't be started: %s" % error.strerror
                      ) from None
    lines = done.stdout.decode("ascii", "replace").splitlines()
    if done.returncode:
        raise Trouble("domeplan broke off")
    if len(lines) > len(questions):
        raise odd(" ".join(lines[:3]))
    return lines


def read(line, form):
    """An answer as its form reads it."""
    if line.startswith("? "):
        raise Trouble("domeplan doesn't take this: " + shown(line[2:]))
    try:
        return form(line)
    except ValueError:
        raise odd(line) from None


def ask_all(questions, form):
    """The answer to each question."""
    lines = lines_of(questions)
    answers = [read(line, form) for line in lines]
    if len(lines) < len(questions):
        raise Trouble("domeplan broke off")
    return answers


def ask(question, form):
    """The answer to a question that may be refused, which is raised."""
    answer = ask_all([question], or_refused(form))[0]
    if isinstance(answer, Refused):
        raise answer
    return answer


def line(word, numbers):
    return " ".join([word, *map(str, numbers)])


# ---- forms: what an answer says, or ValueError

def or_refused(form):
    """A form, or a refusal, which stands for itself."""
    def either(text):
        refusal = REFUSAL.fullmatch(text)
        return Refused(int(refusal.group(1))) if refusal else form(text)
    return either


def numbers(count):
    def form(text):
        if not NUMBERS.fullmatch(text):
            raise ValueError(text)
        found = [int(word) for word in text.split(" ")]
        if len(found) != count:
            raise ValueError(text)
        return found
    return form


def some_bytes(text):
    if not re.fullmatch("([0-9a-f]{2})+", text):
        raise ValueError(text)
    return bytes.fromhex(text)


def threes(text):
    """Triples of numbers; none where the answer is ok."""
    if text == "ok":
        return []
    if not NUMBERS.fullmatch(text) or text.count(" ") % 3 != 2:
        raise ValueError(text)
    found = [int(word) for word in text.split(" ")]
    return list(zip(found[::3], found[1::3], found[2::3]))


def after(word, form):
    """A form of what stands behind a word."""
    def behind(text):
        first, _, rest = text.partition(" ")
        if first != word:
            raise ValueError(text)
        return form(rest)
    return behind
