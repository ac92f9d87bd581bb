// Makes the calls of a trace on osd.wasm and compares, as replay.c does: node replay.mjs OSD.WASM TRACE PAGE. The trace's form stands in
// compare/runner/src/recorder.rs. First draws the sample page, PAGE, and prints its digest, as sample.c does.
import { readFileSync } from 'node:fs'

const ROOM = 4096 // the caller's memory starts here (docs/PORTS.md)
const GUARD = 24
const [osd, traceFile, pageFile] = process.argv.slice(2)

function fail(what) {
  console.log(what)
  process.exit(1)
}

// ---- the module

const module = new WebAssembly.Module(readFileSync(osd))
if (WebAssembly.Module.imports(module).length > 0) fail('the module imports something')
const { memory, ...library } = new WebAssembly.Instance(module).exports
const bytes = Buffer.from(memory.buffer)

// ---- the sample page

function digestOf(parts) {
  let digest = 0xffffffff
  for (const byte of Buffer.concat(parts)) {
    digest ^= byte
    for (let bit = 0; bit < 8; bit++) digest = (digest >>> 1) ^ (digest & 1 ? 0xedb88320 : 0)
  }
  return (~digest >>> 0).toString(16).padStart(8, '0')
}

function number(value) {
  const four = Buffer.alloc(4)
  four.writeUInt32LE(value)
  return four
}

function sample(page) {
  const [device, ram, font, line, stored, file] = [ROOM, ROOM + 100, ROOM + 2000, ROOM + 7000, ROOM + 8000, ROOM + 13000]
  page.copy(bytes, stored, 0, 4608)
  const parts = []
  let refused = library.osd_font_write(stored, 4608n, file, 5120n) | library.osd_font_read(file, 5120n, font, 4608n)
  refused |= library.osd_fresh(device, 32n)
  for (let at = 4608; at + 1 < page.length; at += 2) refused |= library.osd_bus(device, 32n, ram, 1024n, page[at], page[at + 1])
  refused |= library.osd_frame_start(device, 32n, 216)
  for (let drawn = 0; drawn < 216; drawn++) {
    for (let cell = 0; drawn === 108 && cell < 1024; cell++) parts.push(number(library.osd_cell(device, 32n, ram, 1024n, cell)))
    parts.push(number(library.osd_draw(device, 32n, ram, 1024n, font, 4608n, line, 384n)))
    parts.push(Buffer.from(bytes.subarray(line, line + 384)))
    parts.push(number(library.osd_pixel(device, 32n, ram, 1024n, font, 4608n, 216, 0, (drawn * 53) % 384, drawn)))
  }
  if (refused) fail('a call for the sample page was refused')
  console.log(`sample page: digest ${digestOf(parts)}`)
  bytes.fill(0, ROOM)
}

// ---- the trace

const trace = readFileSync(traceFile)
let at = 0
const byte = () => trace[at++]
const two = () => trace.readUInt16LE((at += 2) - 2)
const four = () => trace.readUInt32LE((at += 4) - 4)
const eight = () => trace.readBigUInt64LE((at += 8) - 8)
function text() {
  const end = trace.indexOf(0, at)
  const found = trace.toString('latin1', at, end)
  at = end + 1
  return found
}

// Random numbers (splitmix64), in halves of 32 bits: with a BigInt for each byte they would take most of the time.
const product = { high: 0, low: 0 }
function multiply(high, low, byHigh, byLow) {
  const a = low & 0xffff
  const b = low >>> 16
  const c = byLow & 0xffff
  const d = byLow >>> 16
  const middle = (Math.imul(b, c) >>> 0) + (Math.imul(a, c) >>> 16)
  const other = (Math.imul(a, d) >>> 0) + (middle & 0xffff)
  const carried = Math.imul(b, d) + ((middle / 65536) | 0) + ((other / 65536) | 0)
  product.high = (carried + Math.imul(high, byLow) + Math.imul(low, byHigh)) | 0
  product.low = Math.imul(low, byLow)
}

function randomBytes(state, to) {
  let high = Number(state >> 32n) | 0
  let low = Number(state & 0xffffffffn) | 0
  for (let i = 0; i < to.length; i++) {
    const sum = (low >>> 0) + 0x7f4a7c15
    high = (high + 0x9e3779b9 + (sum > 0xffffffff ? 1 : 0)) | 0
    low = sum | 0
    multiply(high ^ (high >>> 30), low ^ ((low >>> 30) | (high << 2)), 0xbf58476d, 0x1ce4e5b9)
    let z = product.high
    let y = product.low
    multiply(z ^ (z >>> 27), y ^ ((y >>> 27) | (z << 5)), 0x94d049bb, 0x133111eb)
    z = product.high
    y = product.low
    to[i] = (y ^ ((y >>> 31) | (z << 1))) & 0xff
  }
}

let seed = 0n
let calls = 0
let times = 0
const slots = []

function lend(random) {
  const slot = slots[byte()]
  slot.length = four()
  slot.before = GUARD + (++times % 8)
  bytes.fill((times * 5) % 251, slot.start, slot.end)
  const content = bytes.subarray(slot.start + slot.before, slot.start + slot.before + slot.length)
  if (random) randomBytes(eight(), content)
  else at += trace.copy(content, 0, at, at + slot.length)
  bytes.copy(slot.expected, 0, slot.start, slot.end)
}

function differs(what) {
  fail(`session ${seed} call ${calls}: ${what}`)
}

// Bytes that change by a call; or by the lender, between calls: then they are in the slot too.
function expectChanges(byLender) {
  for (let which = byte(); which !== 255; which = byte()) {
    const { start, before, expected } = slots[which]
    const first = before + two()
    const n = two()
    at += trace.copy(expected, first, at, at + n)
    if (byLender) expected.copy(bytes, start + first, first, first + n)
  }
}

function compareCall(functions, madeUp) {
  const { name, run, form } = functions[byte()]
  const words = []
  const lent = []
  for (const argument of form) {
    if (argument === 'b') words.push(byte())
    else if (argument === 'n') words.push(four())
    else {
      const slot = slots[byte()]
      lent.push([slot, argument])
      words.push(slot.length > 0 ? slot.start + slot.before : 0, BigInt(slot.length))
    }
  }
  const answer = run(...words)
  calls++
  if (!madeUp) {
    if (answer !== four()) differs(`${name} answers ${answer}`)
    expectChanges(false)
  }
  for (const [slot, argument] of lent) {
    const end = slot.before + slot.length
    if (madeUp && argument === 'w') bytes.copy(slot.expected, slot.before, slot.start + slot.before, slot.start + end)
    if (bytes.compare(slot.expected, 0, end + GUARD, slot.start, slot.start + end + GUARD) !== 0)
      differs(`${name}: another byte in a buffer, or around it`)
  }
}

function replay() {
  if (trace.toString('latin1', 0, 12) !== 'osd trace 2\n') fail('no trace')
  at = 12
  const functions = Array.from({ length: byte() }, () => ({ name: text(), form: text() }))
  if (Object.keys(library).sort().join() !== functions.map(({ name }) => name).sort().join())
    fail(`the module exports ${Object.keys(library)}`)
  for (const one of functions) one.run = library[one.name]
  let used = ROOM
  for (let n = byte(); n > 0; n--) {
    const size = GUARD + 8 + four() + GUARD
    slots.push({ start: used, end: used + size, before: GUARD, length: 0, expected: Buffer.alloc(size) })
    used += size
  }
  for (let record = byte(); record !== 0; record = byte()) {
    if (record === 1) seed = eight()
    else if (record === 2 || record === 3) lend(record === 3)
    else if (record === 4 || record === 5) compareCall(functions, record === 5)
    else if (record === 6) expectChanges(true)
    else fail('no record of a trace')
  }
  if (calls !== four() || calls === 0) fail('not all calls of the trace were made')
  if (bytes.subarray(used).some((value) => value !== 0)) fail('a call wrote to the memory behind the buffers')
  console.log(`${calls} calls, 0 differences`)
}

sample(readFileSync(pageFile))
replay()
