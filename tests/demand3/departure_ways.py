"""Where the departure of a well-formed word lay, and how the request ended:
counted for the summary, since each way has to come up among the files that are
played."""

GRANTED = "granted"
PLACES = {
    "CP": (GRANTED, "11", "12", "24"),
    "before CP": (GRANTED, "11", "12", "24"),
    "later in the head frame": (GRANTED, "11", "12", "24"),
    "in a frame between": (GRANTED, "11", "12", "24"),
    "in the newest frame": (GRANTED, "11", "20", "12", "24"),
    "the window's last slot": ("11", "20", "12", "24"),
}
WAYS = tuple((place, end) for place, ends in PLACES.items() for end in ends)


def place_of(history, departure):
    """One of the places, in the window as it is before the answer."""
    if departure == history.now % history.total:
        return "CP"
    if history.has_come(departure):
        return "before CP"
    slot = history.slot_after_now(departure)
    after_window = (history.frame() + history.window_frames
                    ) * history.frame_slots
    if slot == after_window - 1:
        return "the window's last slot"
    if slot >= after_window - history.frame_slots:
        return "in the newest frame"
    if slot // history.frame_slots == history.frame():
        return "later in the head frame"
    return "in a frame between"


def way(history, departure, letter, number):
    return (place_of(history, departure),
            GRANTED if letter == "G" else number)
