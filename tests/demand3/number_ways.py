"""How the quantum number of a well-formed word stood to the expected one, and
how the request ended: counted for the summary, since each way has to come up
among the files that are played."""

GRANTED = "granted"
PLACES = {
    "expected": (GRANTED, "11", "20", "12"),
    "expected, 0 after 1,023": (GRANTED,),
    "one behind": ("24",),
    "one ahead": ("24",),
    "1,023 for 0": ("24",),
    "0 for 1,023": ("24",),
    "another flow's": ("24",),
    "counted since a reset": ("24",),
    "another": ("24",),
}
WAYS = tuple((place, end) for place, ends in PLACES.items() for end in ends)
AFTER_RESETS = ("counted since a reset", "24"),


def place_of(history, flow, quantum):
    due = history.expected(flow)
    if quantum == due:
        round_again = due == 0 and history.granted[flow] > 0
        return "expected, 0 after 1,023" if round_again else "expected"
    if (quantum, due) == (1023, 0):
        return "1,023 for 0"
    if (quantum, due) == (0, 1023):
        return "0 for 1,023"
    if history.renewed is not None and quantum == history.count[flow] % 1024:
        return "counted since a reset"
    if quantum == due - 1:
        return "one behind"
    if quantum == due + 1:
        return "one ahead"
    if any(quantum == history.expected(other)
           for other in range(history.flows)):
        return "another flow's"
    return "another"


def way(history, flow, quantum, letter, number):
    return (place_of(history, flow, quantum),
            GRANTED if letter == "G" else number)
