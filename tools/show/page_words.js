"use strict";
// A call and its answer in words: what is asked, and what is answered.

// How many there are of something.
function counted(count, name) {
  return `${count} ${name}${count === 1 ? "" : "s"}`;
}

// A slot by its number, position and frame.
function place(flight, slot) {
  return `slot ${slot}, position ${slot % (flight.F * flight.W)} of frame ${Math.floor(slot / flight.F)}`;
}

// The reason that holds here goes before the one that holds of all.
function refusedWith(flight, number, reason) {
  const said = reason || (flight.refusals[number] || [""])[0];
  return said ? `Refused with ${number}: ${said}.` : `Refused with ${number}.`;
}

// What to do about a refusal.
function advice(flight, number) {
  const said = flight.refusals[number];
  return said && said[1] ? `What to do: ${said[1]}.` : "";
}

// When a number is given, where the answer doesn't say it.
function ruleWords(flight, number, answered) {
  const said = flight.refusals[number];
  return said && !answered.includes(said[0]) ? `${number} is given where ${said[0]}.` : "";
}

// The reason that holds of each answer of a call, where there is one.
function reasonsOf(flight, number) {
  return flight.reasons[number] || [];
}

function requestWords(flight, [line], before, reasons) {
  const asked = `Flow ${line[FLOW]} asks for a slot: quantum ${line[NUMBER]}, departure ${line[DEPARTURE]}.`;
  if (line[REFUSAL]) {
    return [asked, refusedWith(flight, line[REFUSAL], reasons[0])];
  }
  const when = line[AHEAD] === 1 ? "with the next tick" : `in ${line[AHEAD]} ticks`;
  return [asked, `Granted ${place(flight, slotOf(before, line))}, which comes up ${when}.`];
}

function creditWords(flight, [line], before, reasons) {
  return [`Flow ${line[FLOW]} gives a cell back, dated position ${line[POSITION]}.`,
    line[REFUSAL] ? refusedWith(flight, line[REFUSAL], reasons[0]) :
      `Taken: it holds one less from ${place(flight, slotOf(before, line))} on.`];
}

// What a credit and the lend before it let a tile do, where they are a pair.
function pairWords(flight, number) {
  const pair = flight.pairs[number];
  return pair ? ` With the lend before it the tile of slot ${pair[0]} may leave ahead, in slot ${pair[1]}, if it came in an earlier one.` : "";
}

function tickWords(flight, [line], before) {
  const now = before.slot + 1, frame = now / flight.F;
  const change = line[CHANGE] ?
    ` A frame change: frame ${frame} is head now, and frame ${frame + flight.W - 1} the newest.` : "";
  return [`A tick: ${place(flight, now)} has come up.`,
    (line[VALUE] === NOBODY ? "Nobody booked it." : `It is flow ${line[VALUE]}'s.`) + change];
}

function flowsOf(mask) {
  const flows = Array.from({ length: 16 }, (_, flow) => flow).filter((flow) => (mask >> flow) & 1);
  return flows.length ? flows.join(", ") : "none";
}

function lendWords(flight, [line]) {
  return [`The current slot is to be lent; flows that wait: ${flowsOf(line[MASK])}.`,
    line[REFUSAL] ? refusedWith(flight, line[REFUSAL]) : `Lent to flow ${line[VALUE]}.`];
}

function resetWords(flight, [line]) {
  return ["The link is to be reset.",
    line[REFUSAL] ? refusedWith(flight, line[REFUSAL]) : "Reset: every flow starts again in the head frame."];
}

function wordAnswer(line) {
  if (line[REFUSAL] === UNTOUCHED) {
    return "not looked at";
  }
  return line[REFUSAL] ? `refused with ${line[REFUSAL]}` : `position ${line[VALUE]}`;
}

function burstWords(flight, [line, ...lines], before, reasons) {
  const answers = lines.map((word, place) => `flow ${word[FLOW]} ${wordAnswer(word)}` +
    (reasons[place] ? ` (${reasons[place]})` : ""));
  return [`A burst of ${counted(line[BURST], "request")}.`, answers.length ? `Answers: ${answers.join("; ")}.` : ""];
}

function noCallWords(flight, [line]) {
  return ["A record that is no call.", refusedWith(flight, line[REFUSAL])];
}

// By the call's kind (rule 26.5); bytes that are no call have 0.
const WORDS = [noCallWords, requestWords, creditWords, tickWords, lendWords, resetWords, burstWords];

// What a call asks, and its answer; `before` is the state before it, and `reasons` has why each answer refuses.
function callWords(flight, call, before, reasons) {
  return WORDS[kindOf(call)](flight, call, before, reasons);
}
