// A source, assembled by the program, and the places of its lines, as the assembler tells them.
"use strict";

const text = (bytes) => new TextDecoder().decode(bytes);

// The image of a source, or the line that refuses it.
async function assemble(machine, source) {
  const reply = await machine.call("pump asm file image", new TextEncoder().encode(source));
  if (reply.status === 0) return { image: reply.image, refused: null };
  return { image: null, refused: text(reply.err).trim() || (STATUSES[reply.status] ?? `status ${reply.status}`) };
}

// An image's words: the lines of `dis`.
async function listed(machine, image) {
  const reply = await machine.call("pump dis file", image);
  return text(reply.out).split("\n").filter((line) => line !== "").map((line) => {
    const { first, second, rest } = partsOf(line);
    return { address: first, word: second, text: rest };
  });
}

// A name that the source doesn't have, to which numbers can be added.
function unusedName(source) {
  let name = "line_";
  while (source.includes(name)) name = `_${name}`;
  return name;
}

// The source with a name before each line, a last one, and behind it a table of what these names stand for. Its RAM is the largest
// that there is, so that the table has room; the words before the table lie where they lay.
function withTable(source) {
  const name = unusedName(source);
  const lines = source.split("\n");
  const named = lines.map((line, at) => `${name}${at}:\n${line.replace(/^([^#]*?)\.ram\s.*$/, "$1")}`);
  const table = [...lines, ""].map((_, at) => `.word ${name}${at}`);
  return [".ram 16777216", ...named, `${name}${lines.length}:`, ".data", ...table, ""].join("\n");
}

// The place of each line that gives words, as eight digits; `null` for the others, and for all where the assembler doesn't tell.
async function placesOf(machine, source) {
  const lines = source.split("\n");
  const { image } = await assemble(machine, withTable(source));
  if (!image) return lines.map(() => null);
  const words = await listed(machine, image);
  const table = words.slice(-(lines.length + 1)).map(({ word }) => word);
  return lines.map((_, at) => (table[at] === table[at + 1] ? null : table[at]));
}

// The line in which a place lies: the last one that begins there or before. Digits of one length stand in the order of their numbers.
function lineAt(places, address) {
  let found = -1;
  places.forEach((place, at) => {
    if (place !== null && place <= address && (found < 0 || places[found] < place)) found = at;
  });
  return found;
}

// The runs of words that the page shows: those of the image, and the heap region that the source asks for.
function windowsOf(listing, source) {
  const runs = [];
  let left = 4 * MOST_WORDS;
  for (const { address } of listing) {
    const at = parseInt(address, 16);
    const run = runs.at(-1);
    if (left-- <= 0) break;
    if (run && run[0] + 4 * run[1] === at && run[1] < MOST_WORDS) run[1]++;
    else runs.push([at, 1]);
  }
  return joined([...runs, ...heapOf(source)]);
}

function heapOf(source) {
  const asked = source.match(/^[^#\n]*\.heap\s+(\w+)\s*,\s*(\w+)/m);
  if (!asked) return [];
  const [base, bytes] = [Number(asked[1]), Number(asked[2])];
  return bytes >= 4 ? [[base, Math.min(bytes / 4, MOST_WORDS)]] : [];
}

// Runs in order, none of which begins within another.
function joined(runs) {
  const inOrder = runs.sort(([one], [other]) => one - other);
  const apart = [];
  for (const [at, count] of inOrder) {
    const end = apart.length ? apart.at(-1)[0] + 4 * apart.at(-1)[1] : 0;
    const from = Math.max(at, end);
    const more = Math.floor((at + 4 * count - from) / 4);
    if (more > 0) apart.push([from, more]);
  }
  return apart;
}
