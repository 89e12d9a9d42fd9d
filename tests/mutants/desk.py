"""Mistakes in the second simulator's answers to questions, each with a
question that tells it."""

from mutants.mutant import table

MUTANTS = (
    table("tests/simulator/delay.py", [
        ("a burst rounded down", "    while burst > 0:",
         "    while burst >= share:", "delay: two links and a burst of three"),
        ("no frame for the last link", "frames_behind(share, burst) + links",
         "frames_behind(share, burst) + links - 1",
         "delay: two links and a burst of three"),
        ("three shares and one", "share + share + share)",
         "share + share + share + 1)",
         "delay: two links and a burst of three"),
        ("fifteen links", "LINKS = range(1, 15)", "LINKS = range(1, 16)",
         "no question: fifteen links"),
        ("a share above F", "range(1, slots + 1)", "range(1, slots + 2)",
         "delay: share above F"),
    ])
    + table("tests/simulator/share_counts.py", [
        ("lists that leave a slot", "sum(total <= slots for",
         "sum(total < slots for", "count: four slots, two flows"),
        ("a share of 0", "product(range(1, slots + 1)",
         "product(range(0, slots + 1)", "count: four slots, two flows"),
        ("seventeen slots", "range(1, 17)", "range(1, 18)", "count: F = 17"),
        ("all lists for the refused", "slots ** flows - fit)",
         "slots ** flows)", "count: four slots, two flows"),
    ])
    + table("tests/simulator/extras.py", [
        ("the highest mask", "cost, mask = min(fitting)",
         "cost, mask = min(fitting, key=lambda one: (one[0], -one[1]))",
         "extras: one set short of all"),
        ("one set more", "sets[:asked.budget]", "sets[:asked.budget + 1]",
         "extras: one set alone"),
        ("the ceiling of all layers", "if layer.share <= asked.slots)\n"
         "    return", "if layer.share)\n    return",
         "extras: no slots and one set"),
        ("all sets but one", "if asked.budget < len(sets):",
         "if asked.budget < len(sets) - 1:", "extras: one set short of all"),
        ("a budget of none", "asked.budget == 0 or ", "",
         "extras: a budget of 0"),
        ("a worth of 1,001", "layer.worth > MOST_WORTH",
         "layer.worth > MOST_WORTH + 1", "extras: a worth of 1,001"),
    ])
    + table("tests/simulator/programme.py", [
        ("the end is a minute of it", "range(start, end)",
         "range(start, min(end + 1, WEEK))", "programme: at the end"),
        ("the week's last minute", "end > WEEK", "end >= WEEK",
         "programme: up to 10,080"),
        ("65 entries", "MOST = 64 ", "MOST = 65 ", "programme: 65 entries"),
        ("an entry of no minute", "start >= end", "start > end",
         "programme: no minute long"),
    ])
    + table("tests/simulator/mesh.py", [
        ("first along the column", "if at % ACROSS < destination % ACROSS:",
         "if at < destination and at % ACROSS == 0 and "
         "destination // ACROSS > at // ACROSS:\n            step = ACROSS\n"
         "        elif at % ACROSS < destination % ACROSS:",
         "mesh: row first"),
        ("a link may carry F and one", "if load > slots]",
         "if load > slots + 1]", "mesh: two streams with the same ends, over"),
        ("65 streams", "MOST_STREAMS = 64", "MOST_STREAMS = 65",
         "mesh: 65 streams and F = 0"),
        ("4 before 3", "    if not 1 <= slots <= MOST_SLOTS:\n"
         "        return 3\n", "", "mesh: F = 0"),
        ("links in the order of streams", "in sorted(loads(streams).items())",
         "in loads(streams).items()",
         "mesh-over: to the west and then to the north"),
    ])
)
