// Plays a batch (batch.c) on boltclover.wasm, in Node: node play.mjs boltclover.wasm <BATCH >WHAT-HAPPENED 2>STACK
// Gives the same lines as play.c on a library that does the same. The stack told is the one in the module's memory; return addresses and
// most variables are kept by the engine, which tells no one how much it takes.
import { readFileSync, writeSync } from 'node:fs';

const WORDS = 2819, MOST = 65536, FILL = 0xa5, SHOWN_BYTES = 64, SHOWN_WORDS = 16, STACK = 65536;
const library = new WebAssembly.Instance(new WebAssembly.Module(readFileSync(process.argv[2]))).exports;

// ---- the caller's memory: the table at an address that is aligned by 2 and no more, bytes at any

const base = (library.__heap_base.value + 7) & ~7;
const told = base, table = base + 38, bytes = (table + 2 * WORDS + 7) & ~7, tapes = bytes + MOST + 16, end = tapes + MOST + 16;
const short = Math.ceil((end - library.memory.buffer.byteLength) / 65536);
if (short > 0) library.memory.grow(short);
const memory = new Uint8Array(library.memory.buffer), view = new DataView(library.memory.buffer);
const words = new Uint16Array(library.memory.buffer, table, WORDS);
const WRITTEN = told, UNREAD = told + 8, HANDLED = told + 16, STOP = told + 20, SIDE = told + 22;
const THROUGH = told + 24, PEER_THROUGH = told + 28, KIND = told + 32, PARTNER = told + 34, SLOT = told + 36;
const known = new Uint16Array(WORDS);
let kept = new Uint16Array(WORDS);

// ---- reading and writing

const input = readFileSync(0);
let at = 0, text = [], size = 0;

function take(count) {
    let value = 0;
    for (let i = 0; i < count; i++) value += input[at++] * 2 ** (8 * i);
    return value;
}
function takeName() {
    const count = take(1);
    at += count;
    return input.toString('latin1', at - count, at);
}
function writeAll(file, what) {
    const buffer = Buffer.from(what, 'latin1');
    for (let from = 0; from < buffer.length;) from += writeSync(file, buffer, from);
}
function flush() {
    writeAll(1, text.join(''));
    text = [], size = 0;
}
function say(line) {
    text.push(line);
    size += line.length;
    if (size > 1000000) flush();
}
const hex = (value, digits) => value.toString(16).padStart(digits, '0');

class Sum {
    a = 0;
    b = 0;
    add(value) {
        this.a = Math.imul(this.a ^ value, 16777619);
        this.b = Math.imul(this.b + value, 2654435761);
        this.b ^= this.b >>> 15;
    }
    toString() {
        return hex(this.a >>> 0, 8) + hex(this.b >>> 0, 8);
    }
}

// ---- what happened

let out = bytes, span = 0;
function fill(call, room) {
    span = 4 * Math.floor((room + 15) / 4);
    memory.fill(FILL, bytes, bytes + span);
    out = bytes + call % 4;
}
function saidBytes(written) {
    const count = written < BigInt(bytes + span - out) ? Number(written) : bytes + span - out;
    const sum = new Sum();
    let shown = '', others = 0;
    for (let i = 0; i < count; i++) {
        if (i < SHOWN_BYTES) shown += hex(memory[out + i], 2);
        sum.add(memory[out + i]);
    }
    for (let i = bytes; i < bytes + span; i++) if ((i < out || i >= out + count) && memory[i] !== FILL) others++;
    return ` written ${saidSize(written)} ${shown} ${sum} other bytes ${others}`;
}
const saidSize = (value) => (value >> 32n ? '0x' + value.toString(16).padStart(16, '0') : value.toString());
function saidWords() {
    const sum = new Sum();
    let shown = '', count = 0;
    for (let i = 0; i < WORDS; i++) {
        if (words[i] === known[i]) continue;
        if (count++ < SHOWN_WORDS) shown += ` ${i}=${words[i]}`;
        sum.add(i), sum.add(words[i]);
        known[i] = words[i];
    }
    return ` words${shown} ${count} ${sum}\n`;
}

// ---- the calls

let measured = '', deepest = 0;
memory.fill(FILL, 0, STACK);
function touched() {
    let low = 0;
    while (low < STACK && memory[low] === FILL) low++;
    return STACK - low;
}
function call(name, ...values) {
    view.setUint16(STOP, 9, true), view.setUint16(SIDE, 9, true), view.setUint32(HANDLED, 9, true);
    view.setBigUint64(WRITTEN, 77777n, true), view.setBigUint64(UNREAD, 77777n, true);
    view.setUint16(SLOT, 9, true), view.setUint16(KIND, 9, true), view.setUint16(PARTNER, 9, true), view.setUint32(THROUGH, 9, true), view.setUint32(PEER_THROUGH, 9, true);
    if (measured) deepest = Math.max(deepest, touched()), memory.fill(FILL, 0, STACK);
    const answer = library['boltclover_' + name](...values) >>> 0;
    if (measured) {
        writeAll(2, `${measured} ${touched()}\n`);
        memory.fill(FILL, 0, STACK);
        measured = '';
    }
    return answer;
}

let number = 0, requests = 0, accepted = 0, questions = 0, faults = 0, runs = 0, tables = 0, stored = 0;

function playRequest() {
    const room = take(4), length = take(2), kind = take(2);
    if (length !== [0, 18, 14, 4, 2, 2][kind]) process.exit(2);
    const fields = { 1: [2, 2, 2, 2, 4, 4], 2: [2, 2, 4, 4], 3: [2], 4: [], 5: [] }[kind].map(take);
    number++;
    fill(number, room);
    const written = kind === 4 ? [] : [out, BigInt(room), WRITTEN], side = kind < 3 ? [SIDE] : [];
    const answer = call(['', 'conflict', 'virtual_conflict', 'expand', 'reset', 'list'][kind], table, ...fields, ...written, ...side);
    requests++, accepted += answer === 0 ? 1 : 0;
    const head = [number, ['', 'conflict', 'virtual', 'expand', 'reset', 'list'][kind], ...fields].join(' ');
    say(`${head} room ${room}: ${answer} side ${kind < 3 ? view.getUint16(SIDE, true) : 0}${saidBytes(kind === 4 ? 0n : view.getBigUint64(WRITTEN, true))}${saidWords()}`);
}

function playFault() {
    const answer = call('fault', table, SLOT);
    number++, faults++;
    say(`${number} fault: ${answer} slot ${view.getUint16(SLOT, true)}${saidWords()}`);
}

function playQuestion() {
    const defect = take(2), answer = call('partner', table, defect, KIND, PARTNER, THROUGH, PEER_THROUGH);
    number++, questions++;
    const through = `${view.getUint32(THROUGH, true)} ${view.getUint32(PEER_THROUGH, true)}`;
    say(`${number} partner ${defect}: ${answer} kind ${view.getUint16(KIND, true)} ${view.getUint16(PARTNER, true)} through ${through}${saidWords()}`);
}

function playRun() {
    const length = take(4), room = take(4), allowance = take(4), tape = tapes + number % 8;
    memory.set(input.subarray(at, at + length), tape);
    at += length;
    number++;
    fill(number, room);
    const answer = call('run', table, tape, BigInt(length), out, BigInt(room), allowance, STOP, HANDLED, WRITTEN, UNREAD);
    runs++;
    const said = `stop ${view.getUint16(STOP, true)} handled ${view.getUint32(HANDLED, true)} unread ${saidSize(view.getBigUint64(UNREAD, true))}`;
    say(`${number} run ${length} room ${room} allowance ${allowance}: ${answer} ${said}${saidBytes(view.getBigUint64(WRITTEN, true))}${saidWords()}`);
}

function playAnswers() {
    const count = take(4), written = Number(view.getBigUint64(WRITTEN, true));
    let other = 0;
    for (let i = 0; i < count; i++) other += take(1) !== (i < written ? memory[out + i] : 256) ? 1 : 0;
    say(`${++number} ${other || count !== written ? 'NOT as stored' : 'as stored'}: other bytes ${other} of ${count}\n`);
    stored++;
}

function playWords() {
    for (let count = take(2); count > 0; count--) {
        const i = take(2);
        words[i] = known[i] = take(2);
    }
    tables++;
}

while (at < input.length) {
    const what = String.fromCharCode(input[at++]);
    if (what === 'M') {
        const begin = take(2);
        number++;
        say(`${number} make ${begin}: ${call('make', table, begin)}${saidWords()}`);
    } else if (what === 'R') playRequest();
    else if (what === 'S') say(`${++number} sound: ${call('sound', table)}${saidWords()}`);
    else if (what === 'F') playFault();
    else if (what === 'P') playQuestion();
    else if (what === 'T') playRun();
    else if (what === 'A') playAnswers();
    else if (what === 'K') kept = words.slice();
    else if (what === 'B') words.set(kept), known.set(kept);
    else if (what === 'W') playWords();
    else if (what === 'D') measured = takeName();
    else if (what === 'N') say(`${++number} == ${takeName()}\n`);
    else process.exit(2);
}
say(`requests ${requests} accepted ${accepted} refused ${requests - accepted} questions ${questions} faults asked for ${faults} damaged tables ${tables} runs ${runs} tapes with stored answers ${stored}\n`);
flush();
writeAll(2, `any other call ${Math.max(deepest, touched())}\n`);
