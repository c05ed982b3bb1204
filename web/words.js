// Stops in words. A stop's line is a piece of a reply and is shown as it stands; what stands here says what its words mean.
"use strict";

const POLICIES = {
  seal: { name: "sealing", page: "sealing.md", rules: "tags" },
  comp: { name: "compartments", page: "compartments.md", rules: "rules" },
  flow: { name: "control-flow integrity", page: "control-flow.md", rules: "rules" },
  heap: { name: "heap safety", page: "heap.md", rules: "rules" },
  secret: { name: "secrecy", page: "secrecy.md", rules: "rules" },
};

const FAULTS = {
  fetch: "the pc is past the end of memory",
  illegal: "the word at the pc is no instruction",
  loadalign: "a load from an address that isn't aligned to its size",
  storealign: "a store to an address that isn't aligned to its size",
  loadrange: "a load that doesn't end within memory",
  storerange: "a store that doesn't end within memory",
  jumpalign: "a jump to an address that is no multiple of 4",
  noservice: "no service has this number",
  spent: "this service has no number left to hand out",
};

const REFUSALS = {
  peek: "the machine would look at a secret value, and a check that fails tells something of it",
  args: "its service was called with arguments that it doesn't take",
  range: "its service was called with words that don't lie within memory",
  notowner: "its service was called for words that the caller doesn't own",
  wrongkey: "the key isn't the one that sealed the value",
  notlive: "the pointer is to no live block",
  lend: "it doesn't lend the tag of an argument to another policy's service",
  consent: "it doesn't let another policy's service make this word 0",
};

// What a stop's line says, and where the table is that has its row: `null` for a line that is no stop.
function reasonOf(line) {
  const [word, hart, kind, ...rest] = line.split(" ");
  if (word === "ready") return { text: `Hart ${hart} is ready for its next turn.`, page: null };
  if (word === "stop" && kind === "exit") return { text: `Hart ${hart} ended itself, with the code ${rest[0]}.`, page: null };
  if (word === "stop" && kind === "fault") return faultOf(hart, rest);
  if (word === "stop" && kind === "violation") return violationOf(hart, rest);
  return null;
}

function faultOf(hart, [fault, value]) {
  return { text: `The machine stopped hart ${hart}: ${FAULTS[fault] ?? fault} (${value}).`, page: "../docs/MACHINE.md", link: "The machine's page" };
}

function violationOf(hart, [part, why, , place]) {
  const policy = POLICIES[part] ?? { name: part, page: "README.md", rules: "" };
  const group = why.match(/^rule\((\w+)\)$/);
  const reason = group ? `its row for the group ${group[1]} doesn't allow what this instruction asks` : (REFUSALS[why] ?? why);
  const text = `The policy ${policy.name} refused the instruction at ${place} of hart ${hart}: ${reason}.`;
  if (why === "peek") return { text, page: `../docs/policies/${policy.page}#looks`, link: "Its table of looks" };
  const page = `../docs/policies/${policy.page}#${group ? policy.rules : "services"}`;
  return { text, page, link: group ? "Its table of rules" : "Its table of services" };
}

const STATUSES = {
  2: "the words of the line are no command line",
  3: "the source can't be assembled",
  7: "the start needs more tag numbers than there may be",
  11: "memory ran out",
  13: "the source or the input is too long",
};

// The names that sources use for registers beside x0 to x31.
const NAMES = ("zero ra sp gp tp t0 t1 t2 s0 s1 a0 a1 a2 a3 a4 a5 a6 a7 s2 s3 s4 s5 s6 s7 s8 s9 s10 s11 t3 t4 t5 t6").split(" ");
