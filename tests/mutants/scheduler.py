"""Mistakes in the plain Rust scheduler, each with an edge that tells it."""

from mutants.mutant import table

SOURCE = "docs/src/scheduler.rs"
# What is wrong, the line as it is and as it should not be, and the edge.
MUTANTS = table(SOURCE, [
    ("a share of 0", "(1..=slots).contains(&usize::from(share))",
     "(0..=slots).contains(&usize::from(share))", "plan: share 0"),
    ("a share may pass the frame", "(1..=slots).contains(&usize::from(share))",
     "(1..=64).contains(&usize::from(share))", "plan: share F + 1"),
    ("a flow without cells", "&& cells >= 1", "&& u32::from(cells) < 256",
     "plan: the last entry alone is wrong"),
    ("node 64 as source", "&& source < 64", "&& source <= 64",
     "plan: source 64"),
    ("node 64 as destination", "&& destination < 64",
     "&& destination <= 64", "plan: destination 64"),
    ("a stream to itself", "&& source != destination;", "&& true;",
     "plan: source is destination"),
    ("a header of another length", "&& field(2) == HEADER",
     "&& field(2) >= HEADER", "plan: offset 13"),
    ("one frame in the window", "(2..=MOST_FRAMES)", "(1..=MOST_FRAMES)",
     "plan: W = 1"),
    ("a buffer of 4,096", "(1..=4095)", "(1..=4096)", "plan: N = 4096"),
    ("257 positions", "slots * frames <= MOST_POSITIONS",
     "slots * frames <= MOST_POSITIONS + 64", "plan: T = 33 x 8"),
    ("the same ends twice", "ends(e) == ends(entry))",
     "ends(e) == ends(entry) && e.share == entry.share)",
     "plan: equal pairs, other shares and cells"),
    ("shares add to F and one", "entry.share) > self.slots",
     "entry.share) > self.slots + 1", "plan: shares 2 and 3, F = 4"),
    ("cells add to N and one", "entry.cells) > self.buffer",
     "entry.cells) > self.buffer + 1", "plan: cells 2 and 2, N = 3"),
    ("cells are tested before shares",
     "        if sum(|entry| entry.share) > self.slots {\n"
     "            return Err(refusal::PLAN_SHARES);",
     "        if sum(|entry| entry.cells) > self.buffer {\n"
     "            return Err(refusal::PLAN_CELLS);\n        }\n"
     "        if sum(|entry| entry.share) > self.slots {\n"
     "            return Err(refusal::PLAN_SHARES);", "plan: 6 and 7"),
    ("a full position is no bar", "full.map_or(0, |place| place + 1)",
     "full.map_or(0, |place| place)",
     "slip 3: holdings go on past a frame change"),
    ("the departure itself", "clear.max(self.place(departure) + 1)",
     "clear.max(self.place(departure))",
     "departure: 1 of F = 4, W = 2 after 0 ticks"),
    ("the departure is not looked at",
     "let from = if self.has_come(departure) {", "let from = if true {",
     "departure: 2 of F = 4, W = 2 after 0 ticks"),
    ("11 after 20", "if flow.left == 0 {\n            refusal::SHARE_SPENT",
     "if flow.left == 0 && self.free_from(flow.frame, first, clear) == 0 {\n"
     "            refusal::SHARE_SPENT",
     "C is the share again after a frame change"),
    ("12 for 20", "refusal::NOT_COME\n        } else {",
     "refusal::NO_POSITION\n        } else {",
     "departure: 7 of F = 4, W = 2 after 0 ticks"),
    ("what is left goes on to the next frame", "flow.left = flow.share;\n"
     "            first += self.slots;",
     "flow.left += flow.share;\n            first += self.slots;",
     "two flows share two frames"),
    ("a refused number counts", "if asked.quantum != flow.number {",
     "flow.number = flow.number & 0x3FF;\n"
     "        if asked.quantum > flow.number {",
     "number: one behind and one ahead"),
    ("numbers up to 2,047", "(flow.number + 1) & 0x3FF",
     "(flow.number + 1) & 0x7FF", "number: 1,023, and then 0"),
    ("the number before the departure",
     "        if usize::from(asked.departure) >= self.table.positions {\n"
     "            return Err(refusal::DEPARTURE);",
     "        if asked.quantum != flow.number {\n"
     "            return Err(refusal::NUMBER);\n        }\n"
     "        if usize::from(asked.departure) >= self.table.positions {\n"
     "            return Err(refusal::DEPARTURE);",
     "number: 8, 9 and 10 before 24"),
    ("a burst of 17", ".take(MOST_ASKED)", ".take(MOST_ASKED + 1)",
     "burst: 17 records"),
    ("a burst ends at a refusal",
     "Err(number) => (number, 0),\n            };",
     "Err(number) => (number, 0),\n            };\n"
     "            if record.result != 0 {\n                break;\n"
     "            }", "burst: on after a refusal"),
    ("a credit for the current slot", "if place <= self.table.slot {\n"
     "            return Err(refusal::POSITION_PAST);",
     "if place < self.table.slot {\n"
     "            return Err(refusal::POSITION_PAST);",
     "credits on a fresh link"),
    ("a credit looks at its date alone", "if flow.held.least(place) == 0 {",
     "if flow.held.blocks[place / BLOCK][place % BLOCK] == 0 {",
     "slip 1: a later cell is back already"),
    ("a lend is forgotten at the next", "self.table.holder = number as u8;",
     "", "lend: 17 at a lent and at a booked slot"),
    ("a lent slot takes no cell", "self.flows[number].held.raise(now);", "",
     "lend: sixteen flows"),
    ("the turn stays", "self.turn = if number + 1 < self.flows.len() {\n"
     "            number + 1",
     "self.turn = if number + 1 < self.flows.len() {\n            number",
     "turn: one after the other"),
    ("the turn goes on past the last",
     "number + 1\n        } else {\n            0",
     "number + 1\n        } else {\n            number",
     "turn: one after the other"),
    ("a bit for no flow", "u32::from(mask) >> self.flows.len() != 0",
     "u32::from(mask) >> self.flows.len() > 1", "lend: an empty mask"),
    ("a reset with slots booked", "if !self.table.all_free() || ", "if ",
     "reset: a later slot is booked and nothing held"),
    ("a reset with cells held",
     " || self.flows.iter().any(|flow| flow.held.some(now))", "",
     "turn: refused resets"),
    ("a reset leaves what is left", "            flow.frame = 0;\n"
     "            flow.left = flow.share;\n        }\n        self.turn = 0;",
     "            flow.frame = 0;\n        }\n        self.turn = 0;",
     "reset: C becomes the share"),
    ("a reset leaves the turn", "        self.turn = 0;\n        Ok(())",
     "        Ok(())", "turn: after a reset"),
    ("a new frame holds nothing", "row[places - slots..].fill(last);",
     "row[places - slots..].fill(last.min(0));",
     "slip 3: holdings go on past a frame change"),
    ("a frame change leaves the injection frame",
     "                flow.frame -= 1;", "",
     "C is kept by a flow that is ahead"),
    ("a frame change gives no share", "if flow.frame == 0 {\n"
     "                flow.left = flow.share;",
     "if flow.frame == 0 {\n                flow.left += 0;",
     "C is the share again after a frame change"),
])
