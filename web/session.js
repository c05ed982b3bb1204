// A session of the monitor shell as the page asks for it: its lines, and the pieces of the reply to them.
"use strict";

const HARTS = [0, 1, 2, 3, 4, 5, 6, 7]; // as many as a machine may have; `? 4` is the reply for one that it hasn't
const MARK = "."; // no command: its reply is the line `? 1`, which stands behind each other line's reply
const MARKED = "? 1";
const MOST_WORDS = 1024; // of one `mem`, `tags` or `dis`
const MOST_FED = 120; // bytes of one `feed`

const hex = (number, digits) => number.toString(16).toUpperCase().padStart(digits, "0");

// The bytes of a text in which \n, \\ and \xHH stand for what they stand for in the heads of the examples.
function bytesOfText(text) {
  const pieces = text.match(/\\n|\\\\|\\x[0-9A-Fa-f]{2}|[^]/gu) ?? [];
  return Uint8Array.from(pieces.flatMap(bytesOfPiece));
}

function bytesOfPiece(piece) {
  if (piece === "\\n") return [10];
  if (piece === "\\\\") return [92];
  if (piece.length === 4 && piece.startsWith("\\x")) return [parseInt(piece.slice(2), 16)];
  return [...new TextEncoder().encode(piece)];
}

function feedLines(input) {
  const digits = [...bytesOfText(input)].map((byte) => hex(byte, 2));
  const lines = [];
  for (let at = 0; at < digits.length; at += MOST_FED) lines.push(`feed ${digits.slice(at, at + MOST_FED).join("")}`);
  return lines;
}

// The commands that show all that the page shows.
function viewLines(windows) {
  const ofHarts = HARTS.flatMap((hart) => [`pc ${hart}`, `why ${hart}`, `regs ${hart}`]);
  const ofWords = windows.flatMap(([address, count]) => ["mem", "tags", "dis"].map((name) => `${name} ${hex(address, 8)} ${count}`));
  return [...ofHarts, "blocks", "stats", ...ofWords];
}

// All lines of a session: what is fed, the commands but the last, what there is to see, the last command, and what there is then.
function linesOf(session, windows) {
  const shown = viewLines(windows);
  const before = [...feedLines(session.input), ...session.commands.slice(0, -1)];
  return { before, shown, lines: [...before, ...shown, ...session.commands.slice(-1), ...shown] };
}

function inputOf(lines) {
  return new TextEncoder().encode(lines.map((line) => `${line}\n${MARK}\n`).join(""));
}

// The reply to each line: the lines before the mark behind it.
function piecesOf(out) {
  const pieces = [[]];
  for (const line of new TextDecoder().decode(out).split("\n")) {
    if (line === MARKED) pieces.push([]);
    else pieces.at(-1).push(line);
  }
  return pieces.slice(0, -1);
}

const isRefused = (piece) => piece.length === 1 && piece[0].startsWith("? ");

// A line's first word, second word and what stands behind them.
function partsOf(line) {
  const [first, second, ...rest] = line.split(" ");
  return { first, second, rest: rest.join(" ") };
}

function hartOf(hart, [pc, why, regs]) {
  const { second, rest } = partsOf(pc[0]);
  return { hart, pc: second, tag: rest, why: why[0], regs: regs.map(partsOf) };
}

function wordsOf([mem, tags, dis]) {
  if (isRefused(mem)) return [];
  return mem.map((line, at) => {
    const { first, second } = partsOf(line);
    return { address: first, word: second, tag: partsOf(tags[at]).second, text: partsOf(dis[at]).rest };
  });
}

// What the pieces of a view show.
function viewOf(pieces) {
  const threes = (from) => pieces.slice(from, from + 3);
  const harts = HARTS.filter((hart) => !isRefused(pieces[3 * hart])).map((hart) => hartOf(hart, threes(3 * hart)));
  const words = [];
  for (let at = 3 * HARTS.length + 2; at < pieces.length; at += 3) words.push(...wordsOf(threes(at)));
  return { harts, blocks: pieces[3 * HARTS.length], stats: pieces[3 * HARTS.length + 1][0] ?? "", words };
}

// A session's reply: each command with its own, what there was before the last one, and what there is.
function readSession(session, { before, shown }, out) {
  const pieces = piecesOf(out);
  const count = session.commands.length;
  const fed = before.length - Math.max(count - 1, 0);
  const old = pieces.slice(before.length, before.length + shown.length);
  const last = pieces.slice(before.length + shown.length, before.length + shown.length + Math.min(count, 1));
  const replies = [...pieces.slice(fed, before.length), ...last];
  const now = pieces.slice(before.length + shown.length + last.length);
  return { log: session.commands.map((command, at) => ({ command, reply: replies[at] ?? [] })), old: viewOf(old), now: viewOf(now) };
}

// What the program put since the last `reset`: the bytes of the replies' lines `out HH`.
function outputOf(log) {
  const since = log.map(({ command }) => command).lastIndexOf("reset") + 1;
  const lines = log.slice(since).flatMap(({ reply }) => reply).filter((line) => line.startsWith("out "));
  return Uint8Array.from(lines.map((line) => parseInt(line.slice(4), 16)));
}
