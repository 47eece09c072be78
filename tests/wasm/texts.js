// node texts.js MODULE: the texts of tests/cases and tests/json/table through the calls of the WebAssembly module that answer what the programs print.
"use strict"
const fs = require("fs")
const { MOST, folders, rows, least } = require("./cases.js")

const module_ = new WebAssembly.Module(fs.readFileSync(process.argv[2]))
const calls = new WebAssembly.Instance(module_, {}).exports
const CALLS = { action: "guvrendik_verdict_text_at", plan: "guvrendik_plan_verdict_text_at", json: "guvrendik_json_verdict_text_at" }

// What a caller lends stands behind the module's own memory: the answer, the texts, the buffer.
const ANSWER = (calls.__heap_base.value + 15) & ~15
const LINES = ANSWER + 16
const TEXTS = LINES + 4096
while (calls.memory.buffer.byteLength < TEXTS + 3 * MOST) calls.memory.grow(1)

// What the call answers of the texts: the lines, or the refusal. The answer is accepted and refusal in 4 bytes each, and the length in 8.
function lines(call, texts) {
    const bytes = new Uint8Array(calls.memory.buffer)
    const words = texts.flatMap((text, place) => {
        bytes.set(text, TEXTS + place * MOST)
        return [TEXTS + place * MOST, text.length]
    })
    calls[call](ANSWER, ...words, LINES, TEXTS - LINES)
    const answer = new DataView(calls.memory.buffer, ANSWER, 16)
    if (answer.getUint32(0, true) !== 1) return `refusal ${answer.getUint32(4, true)}`
    return Buffer.from(bytes.subarray(LINES, LINES + Number(answer.getBigUint64(8, true)))).toString("latin1")
}

let passed = 0
let failed = 0
function compare({ name, kind, texts, due }) {
    const got = lines(CALLS[kind], texts.map((text) => text.subarray(0, MOST)))
    if (got === due) passed++
    else {
        failed++
        console.log(`FAILED ${name}\nexpected:\n${due}answered:\n${got}`)
    }
}
const all = { folders: folders(), rows: rows() }
all.folders.forEach(compare)
all.rows.forEach(compare)
if (all.folders.length < least.folders || all.rows.length < least.rows) {
    failed++
    console.log(`FAILED ${all.folders.length} folders and ${all.rows.length} lines, and at least ${least.folders} and ${least.rows} are due`)
}
console.log(`wasm32: ${all.folders.length} folders and ${all.rows.length} lines`)
console.log(`${passed} passed, ${failed} failed`)
process.exit(failed === 0 ? 0 : 1)
