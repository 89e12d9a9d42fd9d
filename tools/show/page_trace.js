"use strict";
// The window after each call, kept by the lines of the trace alone (rule
// 26.10). What is listed by slot begins with the first slot of the head frame.

const APART = 64; // calls between two states that are kept
// The words of a line by their places: rules 26.4 to 26.7.
const REFUSAL = 1, VALUE = 2, KIND = 3, FLOW = 4, MASK = 4, CHANGE = 4, BURST = 4, NUMBER = 5, POSITION = 5, DEPARTURE = 6, AHEAD = 14;
const NOBODY = 16, NO_CALL = 16; // as an owner, and as a refusal
const UNTOUCHED = 255; // a burst's word past the sixteenth

// A line as a letter and numbers; of bytes that are no call these are the refusal and the kind, 0.
function told(line) {
  const [letter, ...numbers] = line.split(" ");
  return [letter, ...(letter === "X" ? [NO_CALL, 0, 0] : numbers.map(Number))];
}

// The kind of a call: rule 26.5.
function kindOf([line]) {
  return line[KIND];
}

// The calls of a trace: each has its line, and then those that belong to it.
function callsOf(lines) {
  const calls = [];
  lines.map(told).forEach((line) =>
    (line[0] === "F" || line[0] === "B" ? calls[calls.length - 1].push(line) : calls.push([line])));
  return calls;
}

function copyState(state) {
  return { ...state, owners: state.owners.slice(), holdings: state.holdings.map((held) => held.slice()), granted: state.granted.slice() };
}

// The slot of the position that a line speaks of.
function slotOf(state, line) {
  return state.slot + line[AHEAD];
}

function holdFrom(state, flow, slot, by) {
  const held = state.holdings[flow];
  for (let place = slot - state.first; place < held.length; place += 1) {
    held[place] += by;
  }
}

function grant(state, line) {
  if (line[REFUSAL] === 0) {
    state.owners[slotOf(state, line) - state.first] = line[FLOW];
    state.granted[line[FLOW]] += 1;
    holdFrom(state, line[FLOW], slotOf(state, line), 1);
  }
}

// With a frame change lines follow for the slots that are new.
function tick(state, line, lines, flight) {
  state.slot += 1;
  state.lent = null;
  if (line[CHANGE] === 0) {
    return;
  }
  state.first += flight.F;
  state.owners = state.owners.slice(flight.F).concat(new Array(flight.F).fill(null));
  lines.forEach(([, flow, , , last]) => {
    state.holdings[flow] = state.holdings[flow].slice(flight.F).concat(new Array(flight.F).fill(last));
  });
}

function lend(state, line) {
  state.lent = line[VALUE];
  holdFrom(state, line[VALUE], state.slot, 1);
}

const CHANGES = {
  G: grant, T: tick, L: lend,
  C: (state, line) => holdFrom(state, line[FLOW], slotOf(state, line), -1),
  Z: (state) => state.owners.fill(null),
  W: (state, line, words) => words.forEach((word) => grant(state, word)),
};

// Changes a state as the lines of a call say.
function apply(flight, state, [line, ...lines]) {
  if (CHANGES[line[0]]) {
    CHANGES[line[0]](state, line, lines, flight);
  }
}

// Gives the state after any call of a flight.
function player(flight) {
  const kept = [copyState(flight.start)];
  return function stateAfter(number) {
    const calls = number - flight.start.calls;
    let at = Math.min(Math.floor(calls / APART), kept.length - 1);
    const state = copyState(kept[at]);
    for (let done = at * APART; done < calls; done += 1) {
      apply(flight, state, flight.calls[done]);
      if ((done + 1) % APART === 0) {
        at += 1;
        kept[at] = copyState(state);
      }
    }
    return state;
  };
}

// The lines of the call with a number, from the flight's first on.
function callAt(flight, number) {
  return flight.calls[number - flight.start.calls - 1];
}

function lastCall(flight) {
  return flight.start.calls + flight.calls.length;
}

// The refusals of a call; a burst may have several.
function refusalsOf([line, ...lines]) {
  const answers = line[0] === "W" ? lines : "RX".includes(line[0]) ? [line] : [];
  return answers.map((answer) => answer[REFUSAL]).filter((number) => number && number !== UNTOUCHED);
}

// The nearest call after or before one that is refused with a number, or with
// any where it is 0; or 0 where there is none.
function refusalFrom(flight, number, step, sought) {
  for (let at = number + step; at > flight.start.calls && at <= lastCall(flight); at += step) {
    const given = refusalsOf(callAt(flight, at));
    if (sought ? given.includes(sought) : given.length) {
      return at;
    }
  }
  return 0;
}
