// The bench page: asks the proved module that is in the page, and shows what it answers. Nothing is judged here, nothing is kept, and nothing
// leaves the page. Tested, not proved: tests/page.
// @ts-check

/** @typedef {{ id: number, kind: number, owner: number }} Actor */
/** @typedef {{ id: number, open: number, keeper: number, path: string }} Resource */
/** @typedef {{ id: number, parent: number, grantor: number, holder: number, resource: number, rights: number, weight: number, left: number, expiry: number }} Claim */
/** @typedef {{ bytes: Uint8Array, version: number, actors: Actor[], resources: Resource[], claims: Claim[] }} Register */
/** @typedef {{ resource: number, right: number }} Use */
/** @typedef {{ bytes: Uint8Array, actor: number, flags: number, now: number, uses: Use[], governs: number[] }} Action */
/** @typedef {{ accepted: boolean, refusal: number, line: number }} Answer */
/** @typedef {{ kind: number, chain: number[], keeper: number, ended: number }} Reason */
/** @typedef {{ line: number, count: number, key: string, words: string }} Fault lines of a text to be marked, from 1; none where line is 0 */
/** @typedef {"register" | "action" | "plan" | "clock" | "json"} TextName */
/** @typedef {"action" | "json" | "plan"} Kind */
/** @typedef {{ about: string, files: Record<string, string> }} Example */

const MOST = 65536 // bytes of a text that are read, as ./run reads them
const ROOM = MOST + 64 // for a text; a clock's has lines behind it
const RIGHTS = 17
const MACHINE = 2
const LAST_MOMENT = 4294967295
/** @type {Record<TextName, string>} */
const FILES = { register: "register.txt", action: "action.txt", plan: "plan.txt", clock: "clock.txt", json: "action.json" }
const TEXTS = /** @type {TextName[]} */ (Object.keys(FILES))
/** @type {Kind[]} in the order in which ./run looks for them */
const KINDS = ["action", "plan", "json"]
/** @type {Record<Kind, TextName[]>} */
const TEXTS_OF = { action: ["register", "action"], json: ["register", "clock", "json"], plan: ["register", "plan"] }
/** @type {Record<Kind, string>} */
const CALL_OF = { action: "guvrendik_verdict_text_at", json: "guvrendik_json_verdict_text_at", plan: "guvrendik_plan_verdict_text_at" }

// ---- the module

/** @type {Record<string, any>} */
let calls = {}
let sumOfModule = ""
// What is lent to the module stands in its memory behind its own: one place each for the answer, a register, what is small, what is written, three texts.
// Structs are read and written as include/guvrendik.h lays them out, with 8 bytes to a size_t.
const place = { answer: 0, register: 0, small: 0, written: 0, texts: 0 }
/** @param {BufferSource} module */
async function begin(module) {
    calls = (await WebAssembly.instantiate(module, {})).instance.exports
    place.answer = (calls.__heap_base.value + 15) & ~15
    place.register = place.answer + 16384
    place.small = place.register + 16384
    place.written = place.small + 1024
    place.texts = place.written + MOST
    const short = place.texts + 3 * ROOM - calls.memory.buffer.byteLength
    if (short > 0) calls.memory.grow(Math.ceil(short / 65536))
    const sum = crypto.subtle ? new Uint8Array(await crypto.subtle.digest("SHA-256", module)) : new Uint8Array()
    sumOfModule = [...sum].map((byte) => byte.toString(16).padStart(2, "0")).join("") || "not known here"
}
/** @param {number} at @param {number} length */
const view = (at, length) => new DataView(calls.memory.buffer, at, length)
/** @param {number} at @param {Uint8Array} bytes */
const lend = (at, bytes) => new Uint8Array(calls.memory.buffer).set(bytes, at)
/** @param {number} at @param {number} length */
const copied = (at, length) => new Uint8Array(calls.memory.buffer).slice(at, at + length)
/** @param {number} at @param {number[]} list */
const lendWords = (at, list) => list.forEach((each, i) => view(at + 4 * i, 4).setUint32(0, each, true))
/** @summary A word of the answer. @param {number} offset */
const word = (offset) => view(place.answer + offset, 4).getUint32(0, true)
/** @summary A count or a line of the answer. @param {number} offset */
const long = (offset) => Number(view(place.answer + offset, 8).getBigUint64(0, true))
/** @param {number} offset @param {number} count */
const words = (offset, count) => Array.from({ length: count }, (_, i) => word(offset + 4 * i))
/** @summary What a call writes: the text, or nothing where it refuses. @param {string} call @param {...number} given */
function written(call, ...given) {
    calls[call](place.answer, ...given, place.written, MOST)
    return copied(place.written, word(0) === 1 ? long(8) : 0)
}
/** @summary A character to each byte, whatever it is. @param {Uint8Array} bytes */
function plain(bytes) {
    let text = ""
    for (const byte of bytes) text += String.fromCharCode(byte)
    return text
}
/** @param {string} call */
const wordsBy = (call) => (/** @type {number} */ number) => plain(written(call, number))
const refusalText = wordsBy("guvrendik_refusal_text_at")
const violationText = wordsBy("guvrendik_violation_text_at")
const rightName = wordsBy("guvrendik_right_name_at")
const flagName = wordsBy("guvrendik_flag_name_at")
const version = () => (calls.guvrendik_version_at(place.answer), words(0, 3).join("."))
/** @summary The lines that ./run prints. @param {Kind} kind @param {Uint8Array[]} texts */
function verdictLines(kind, texts) {
    texts.forEach((text, i) => lend(place.texts + i * ROOM, text))
    return plain(written(CALL_OF[kind], ...texts.flatMap((text, i) => [place.texts + i * ROOM, text.length])))
}
/** @summary The register at a place of the memory. @param {number} at @returns {Register} */
function registerAt(at) {
    const v = view(at, 16160)
    const u = (/** @type {number} */ offset) => v.getUint32(offset, true)
    /** @template T @param {number} start @param {number} size @param {number} most @param {(o: number) => T} one @returns {T[]} */
    const list = (start, size, most, one) => Array.from({ length: u(start + size * most) }, (_, i) => one(start + size * i))
    return {
        bytes: copied(at, 16160),
        version: u(16152),
        actors: list(0, 12, 64, (o) => ({ id: u(o), kind: u(o + 4), owner: u(o + 8) })),
        resources: list(776, 80, 64, (o) => ({ id: u(o), open: u(o + 4), keeper: u(o + 8), path: plain(copied(at + o + 16, u(o + 12))) })),
        claims: list(5904, 40, 256, (o) => ({
            id: u(o), parent: u(o + 4), grantor: u(o + 8), holder: u(o + 12), resource: u(o + 16), rights: u(o + 20), weight: u(o + 24), left: u(o + 28), expiry: u(o + 32),
        })),
    }
}
/** @param {number} at @returns {Action} */
function actionAt(at) {
    const v = view(at, 320)
    const u = (/** @type {number} */ offset) => v.getUint32(offset, true)
    return {
        bytes: copied(at, 320), actor: u(0), flags: u(4), now: u(8),
        uses: Array.from({ length: u(272) }, (_, i) => ({ resource: u(16 + 8 * i), right: u(20 + 8 * i) })),
        governs: Array.from({ length: u(312) }, (_, i) => u(280 + 4 * i)),
    }
}
/** @summary Reads a text; where the answer says how that went. @param {string} call @param {Uint8Array} text @param {number} offset @param {...bigint} more @returns {Answer} */
function read(call, text, offset, ...more) {
    lend(place.texts, text)
    calls[call](place.answer, place.texts, text.length, ...more)
    return { accepted: word(offset) === 1, refusal: word(offset + 4), line: long(offset + 8) }
}
/** @param {Uint8Array} text */
const readRegister = (text) => ({ ...read("guvrendik_read_register_at", text, 16160), register: registerAt(place.answer) })
/** @param {Uint8Array} text */
const readAction = (text) => ({ ...read("guvrendik_read_action_at", text, 320), action: actionAt(place.answer) })
/** @summary JSON has no lines. @param {Uint8Array} text @param {number} now */
const readJson = (text, now) => ({ ...read("guvrendik_read_json_at", text, 320, BigInt(now)), line: 0, action: actionAt(place.answer) })
/** @summary The first fault of a register's text. @param {Uint8Array} text */
function whyUnread(text) {
    read("guvrendik_why_unread_at", text, 0)
    return { sound: word(0) === 1, why: word(4), list: word(8), id: word(12), place: long(16), line: long(24) }
}
/** @summary A clock's text is the first line of an action's, and nothing else. @param {Uint8Array} text */
function readClock(text) {
    const rest = bytesOf("actor=1\nflags=0\nuses=0\ngoverns=0\n")
    const read = readAction(new Uint8Array([...text, ...rest]))
    return { ...read, line: Math.min(read.line, 2) }
}
/** @param {Register} register @param {Action} action */
function gate(register, action) {
    lend(place.register, register.bytes)
    lend(place.small, action.bytes)
    calls.guvrendik_gate_at(place.answer, place.register, place.small)
    const violations = Array.from({ length: long(416) }, (_, i) => ({ kind: word(8 + 8 * i), value: word(12 + 8 * i) }))
    return { decision: word(0), refusal: word(4), violations }
}
/** @param {Register} register @param {Uint8Array} text */
function judgePlan(register, text) {
    lend(place.register, register.bytes)
    lend(place.texts, text)
    calls.guvrendik_judge_plan_text_at(place.answer, place.register, place.texts, text.length)
    const list = Array.from({ length: long(536) }, (_, i) => ({ decision: word(24 + 8 * i), violations: word(28 + 8 * i) }))
    return { accepted: word(0) === 1, refusal: word(4), line: long(8), position: long(16), list }
}
/** @param {Use} use */
const lendUse = (use) => lendWords(place.small, [use.resource, use.right])
/** @param {number} offset @returns {Reason} */
const reasonAt = (offset) => ({ kind: word(offset), chain: words(offset + 8, word(offset + 4)), keeper: word(offset + 76), ended: word(offset + 80) })
/** @param {Register} register @param {number} actor @param {Use} use @param {number} moment */
function whyUse(register, actor, use, moment) {
    lend(place.register, register.bytes)
    lendUse(use)
    calls.guvrendik_why_use_at(place.answer, place.register, actor, place.small, BigInt(moment))
    return { accepted: word(0) === 1, refusal: word(4), actor: reasonAt(8), owner: word(92), owners: reasonAt(96) }
}
/** @summary Who may make a use. @param {Register} register @param {Use} use @param {number} moment */
function who(register, use, moment) {
    lend(place.register, register.bytes)
    lendUse(use)
    calls.guvrendik_who_at(place.answer, place.register, place.small, BigInt(moment))
    return words(8, long(264))
}
/** @param {Register} register @param {number} actor @param {number} moment */
function coverTable(register, actor, moment) {
    lend(place.register, register.bytes)
    calls.guvrendik_cover_table_at(place.answer, place.register, actor, BigInt(moment))
    const cells = 64 * RIGHTS
    return { accepted: word(0) === 1, refusal: word(4), owner: word(8), hops: words(12, 256), states: words(1036, 256), own: words(2060, cells), owners: words(6412, cells) }
}
/** @summary The answer of a change: the register after it. @returns {Answer & { register: Register, removed: number }} */
const changed = () => ({ accepted: word(16160) === 1, refusal: word(16164), line: 0, register: registerAt(place.answer), removed: long(16168) })
/** @param {Register} register @param {Claim} claim @param {number} moment */
function grant(register, claim, moment) {
    lend(place.register, register.bytes)
    lendWords(place.small, [claim.id, claim.parent, claim.grantor, claim.holder, claim.resource, claim.rights, claim.weight, claim.left, claim.expiry, 0])
    calls.guvrendik_grant_at(place.answer, place.register, place.small, BigInt(moment))
    return { ...changed(), granted: true }
}
/** @param {Register} register @param {string} call @param {...(number | bigint)} given */
function withdraw(register, call, ...given) {
    lend(place.register, register.bytes)
    calls[call](place.answer, place.register, ...given)
    return changed()
}
/** @summary Whose signature is missing. @param {Register} register @param {number} actor @param {Use} use @param {number} moment @param {number[]} signers */
function propose(register, actor, use, moment, signers) {
    lend(place.register, register.bytes)
    lendUse(use)
    lendWords(place.small + 8, [...Array.from({ length: 8 }, (_, i) => signers[i] ?? 0), signers.length, 0])
    calls.guvrendik_propose_at(place.answer, place.register, actor, place.small, BigInt(moment), place.small + 8)
    const [id, parent, grantor, holder, resource, rights, weight, left] = words(8, 8)
    return { kind: long(0), accepted: word(48) === 1, refusal: word(52), claim: { id, parent, grantor, holder, resource, rights, weight, left, expiry: long(40) } }
}
/** @param {Register} register */
const textOf = (register) => (lend(place.register, register.bytes), written("guvrendik_write_register_at", place.register))

// ---- bytes and characters
// A text is bytes. Each byte is shown as one character, also where a text area could not keep it: CR as its picture, 0x80 to 0x9F as blocks.

/** @param {number} byte */
function shownByte(byte) {
    if (byte === 10 || (byte >= 0x20 && byte <= 0x7e) || byte >= 0xa0) return String.fromCharCode(byte)
    if (byte === 0x7f) return "\u2421"
    return String.fromCharCode(byte < 0x20 ? 0x2400 + byte : 0x2500 + byte)
}
const SHOWN = Array.from({ length: 256 }, (_, byte) => shownByte(byte))
const BYTE_OF = new Map(SHOWN.map((character, byte) => [character, byte]))
/** @param {Uint8Array} bytes */
function shown(bytes) {
    let text = ""
    for (const byte of bytes) text += SHOWN[byte]
    return text
}
/** @summary What is typed and stands for no byte goes as UTF-8, as an editor would save it. @param {string} text */
function bytesOf(text) {
    const bytes = new Uint8Array(3 * text.length)
    let length = 0
    for (const character of text) {
        const byte = BYTE_OF.get(character)
        for (const each of byte === undefined ? new TextEncoder().encode(character) : [byte]) bytes[length++] = each
    }
    return bytes.subarray(0, length)
}
/** @param {Uint8Array} bytes @param {...number} start */
const begins = (bytes, ...start) => start.every((byte, i) => bytes[i] === byte)
/** @summary What is wrong with the file as a whole, and the bytes that mend it. @param {Uint8Array} bytes @returns {{ words: string, mend: string, mended: Uint8Array } | null} */
function fileFault(bytes) {
    const wide = begins(bytes, 0xff, 0xfe) ? "utf-16le" : begins(bytes, 0xfe, 0xff) ? "utf-16be" : ""
    if (wide) {
        const mended = bytesOf(new TextDecoder(wide).decode(bytes).replaceAll("\r", ""))
        return { words: `begins with a byte order mark and has two bytes to a letter (${wide.toUpperCase()})`, mend: "Make it plain text", mended }
    }
    if (begins(bytes, 0xef, 0xbb, 0xbf)) return { words: "begins with a byte order mark", mend: "Take the mark away", mended: bytes.slice(3) }
    let ends = 0
    for (let i = 1; i < bytes.length; i++) if (bytes[i] === 10 && bytes[i - 1] === 13) ends++
    if (ends === 0) return null
    const mended = bytes.filter((byte, i) => !(byte === 13 && bytes[i + 1] === 10))
    return { words: `has ${ends === 1 ? "a line that ends" : `${ends} lines that end`} in CR LF`, mend: "Make every line end LF", mended }
}

// ---- the form: which line is due where
// Each gives the keys in their order, and is told the value that stands there.

/** @returns {Generator<string, void, string>} */
function* registerKeys() {
    const second = (yield "register") === "2"
    for (let n = Number(yield "actors"); n > 0; n--) yield* keys("actor", "kind", "owner")
    for (let n = Number(yield "resources"); n > 0; n--) yield* keys("resource", "public", "keeper", "scope")
    const claim = ["claim", "parent", "grantor", "holder", "resource", "rights", "weight", ...(second ? ["left"] : []), "expiry"]
    for (let n = Number(yield "claims"); n > 0; n--) yield* keys(...claim)
}
/** @param {...string} list @returns {Generator<string, void, string>} */
function* keys(...list) {
    for (const key of list) yield key
}
/** @returns {Generator<string, void, string>} */
function* actionKeys() {
    yield* keys("now", "acting", "flags")
    for (let n = Number(yield "uses"); n > 0; n--) yield* keys("use", "right")
    for (let n = Number(yield "governs"); n > 0; n--) yield "govern"
}
/** @returns {Generator<string, void, string>} */
function* planKeys() {
    for (let n = Number(yield "plan"); n > 0; n--) yield* (yield "step") === "plan" ? planKeys() : actionKeys()
}
/** @type {Record<TextName, () => Generator<string, void, string>>} */
const KEYS = { register: registerKeys, action: actionKeys, plan: planKeys, clock: () => keys("now"), json: () => keys() }
const [ID, ANY_ID, MOMENT] = ["1 to 65,535", "0 to 65,535", "seconds, 0 to 4,294,967,295"]
/** @type {Record<string, string>} */
const VALUES = {
    register: "1 or 2", actors: "a count, 0 to 64", actor: ID, kind: "human or machine", owner: ANY_ID, resources: "a count, 0 to 64", resource: ID,
    public: "0 or 1", keeper: ID, scope: "a path of 0 to 64 letters, digits and signs, no blank", claims: "a count, 0 to 256", claim: ID, parent: ANY_ID,
    grantor: ID, holder: ID, rights: "a sum of rights, 1 to 131,071", weight: "0 to 1,000", left: "0 to 16", expiry: `${MOMENT}, 0 for never`, now: MOMENT,
    acting: ANY_ID, flags: "a sum of flags, 0 to 1,023", uses: "a count, 0 to 32", use: ANY_ID, right: "0 to 16", governs: "a count, 0 to 8",
    govern: ANY_ID, plan: "a count of steps, 0 to 64", step: "action or plan",
}
/** @summary The key due at a line, those before it being of the form; none at the end. @param {TextName} name @param {string[]} lines @param {number} line */
function dueAt(name, lines, line) {
    const due = KEYS[name]()
    let next = due.next("")
    for (let i = 0; i < line - 1 && !next.done; i++) next = due.next(lines[i].slice(lines[i].indexOf("=") + 1))
    return next.done ? "" : next.value
}
/** @summary The failing line: what is due, what stands there. @param {TextName} name @param {Uint8Array} bytes @param {number} refusal @param {number} line @returns {Fault} */
function lineFault(name, bytes, refusal, line) {
    const lines = shown(bytes).split("\n")
    const due = dueAt(name, lines, line)
    const key = due === "acting" ? "actor" : due
    const expected = due ? `expected ${key}= with ${VALUES[due]}` : "the text must end before it"
    const last = line === lines.length
    const stands = lines[line - 1] ?? ""
    const quoted = `"${stands.length > 60 ? `${stands.slice(0, 60)}..` : stands}"`
    const there = line > lines.length || (last && stands === "") ? "the text ends there" : `there stands ${quoted}${last ? " without a line feed" : ""}`
    const why = bytes.length === 0 ? "the text is empty; " : ""
    return { line, count: 1, key, words: `line ${line}: ${why}${expected}; ${there}. Refusal ${refusal}, ${refusalText(refusal)}.` }
}
const LISTS = ["register", "actor", "resource", "claim"]
/** @summary The record and the broken rule. @param {Uint8Array} bytes @param {{ why: number, list: number, id: number, place: number }} fault @returns {Fault} */
function recordFault(bytes, fault) {
    const lines = shown(bytes).split("\n")
    const starts = lines.flatMap((line, i) => (line.startsWith(`${LISTS[fault.list]}=`) ? [i] : []))
    const from = starts[fault.place] ?? 0
    const size = lines.slice(from + 1).findIndex((line) => /^(actor|resources|claims?)=/.test(line) || (fault.list === 2 && line.startsWith("resource=")))
    const end = size < 0 ? lines.length - 1 - from : size + 1
    const record = `${LISTS[fault.list]} ${fault.id}`
    const words = `not sound: ${record}, number ${fault.place + 1} of its list, breaks rule ${fault.why}, ${refusalText(fault.why)}. It begins at line ${from + 1}.`
    return { line: from + 1, count: end, key: LISTS[fault.list], words }
}
/** @summary Why JSON cannot be taken, as far as the browser's own reader tells. @param {Uint8Array} bytes @returns {string} */
function jsonHint(bytes) {
    const due = ["id", "actor", "capability_kind", "resources_read", "resources_write", "resources_execute", "flags"]
    try {
        const found = Object(JSON.parse(plain(bytes)))
        const missing = due.filter((key) => !(key in found))
        const strange = Object.keys(found).filter((key) => ![...due, "trust_domain", "delegation_depth"].includes(key))
        if (missing.length > 0) return `It has no ${missing.join(", ")}.`
        return strange.length > 0 ? `${strange.join(", ")} is no key of an action.` : "Numbers stand in quotes, 0 to 65,535, at most 32 of them; each flag once; no escapes."
    } catch (error) {
        return bytes.length === 0 ? "The text is empty." : `It is no JSON: ${/** @type {Error} */ (error).message}.`
    }
}

// ---- what is on the page

/** @param {string} id */
const at = (id) => /** @type {HTMLElement} */ (document.getElementById(id))
/** @summary A field or a choice. @param {string} id */
const input = (id) => /** @type {HTMLInputElement & HTMLSelectElement} */ (at(id))
/** @summary An element; attributes by name; texts and elements in it. @param {string} tag @param {Record<string, string>} attributes @param {...(string | Node)} inside */
function make(tag, attributes, ...inside) {
    const element = document.createElement(tag)
    for (const [name, value] of Object.entries(attributes)) element.setAttribute(name, value)
    element.append(...inside)
    return element
}
/** @param {string} words @param {() => void} does */
function button(words, does) {
    const made = make("button", { type: "button" }, words)
    made.addEventListener("click", does)
    return made
}
/** @type {Record<TextName, Uint8Array>} */
const texts = { register: new Uint8Array(), action: new Uint8Array(), plan: new Uint8Array(), clock: new Uint8Array(), json: new Uint8Array() }
/** @type {Map<number, string>} */
const names = new Map()
/** @type {Record<string, Example>} */
let examples = {}
const state = {
    /** @type {Kind} */ kind: "action",
    lines: "", moment: 0, moved: false, // the desk's moment, and whether it is away from the action's
    /** @type {Register | null} of a sound text */ register: null,
    /** @type {Action | null} */ action: null,
    /** @type {Register | null} what-if */ copy: null,
}
/** @param {TextName} name */
const readPart = (name) => texts[name].subarray(0, MOST)
/** @param {number} id */
const named = (id) => (names.has(id) ? `${id} (${names.get(id)})` : `${id}`)
/** @param {Register} register @param {number} id */
function actorWords(register, id) {
    const actor = register.actors.find((each) => each.id === id)
    return `${!actor ? "actor" : actor.kind === MACHINE ? "machine" : "human"} ${named(id)}`
}
/** @param {Register} register @param {number} id */
function reportWords(register, id) {
    const report = register.resources.find((each) => each.id === id)
    return report ? `report ${id}, ${report.path || "the empty path"}` : `report ${id}, which is not in the register`
}
/** @param {number} rights */
const rightsWords = (rights) => RIGHT_NAMES.filter((_, right) => (rights >> right) & 1).join(", ")
let RIGHT_NAMES = [""]
/** @summary A moment that may be one of our days has its date beside it. @param {number} moment */
const momentWords = (moment) => `${moment}${moment >= 1e9 ? ` (${new Date(1000 * moment).toISOString().slice(0, 16).replace("T", " ")} UTC)` : ""}`
/** @param {number} expiry */
const endWords = (expiry) => (expiry === 0 ? "never ends" : `ends at ${momentWords(expiry)}`)
/** @param {number} count @param {string} one */
const counted = (count, one) => `${count} ${one}${count === 1 ? "" : "s"}`

// ---- the texts, left

/** @param {TextName} name */
const area = (name) => /** @type {HTMLTextAreaElement} */ (at(`text-${name}`))
/** @param {TextName} name @param {Uint8Array} bytes */
function put(name, bytes) {
    texts[name] = bytes
    area(name).value = shown(bytes)
}
/** @summary What is wrong with a file as a whole, and the button that mends it. @param {TextName} name */
function mendShown(name) {
    const whole = fileFault(texts[name])
    return whole ? [make("p", {}, `${FILES[name]} ${whole.words}. `, button(whole.mend, () => (put(name, whole.mended), judge(), area(name).focus())))] : []
}
/** @summary Marks the lines of a fault, and says what to mend. @param {TextName} name @param {Fault | null} fault */
function mark(name, fault) {
    const bytes = texts[name]
    const note = at(`note-${name}`)
    const said = mendShown(name)
    if (bytes.length > MOST) said.push(make("p", {}, `${FILES[name]} is longer than 65,536 bytes; the rest is not read.`))
    if (fault) {
        const go = button("Go there", () => goTo(name, fault.line))
        said.push(make("p", { class: "fault", "data-line": `${fault.line}`, "data-key": fault.key }, `${FILES[name]}, ${fault.words} `, ...(fault.line ? [go] : [])))
    }
    note.replaceChildren(...said)
    area(name).setAttribute("aria-invalid", fault ? "true" : "false")
    const band = at(`band-${name}`)
    band.hidden = !fault || fault.line === 0
    band.style.setProperty("--from", `${(fault?.line ?? 1) - 1}`)
    band.style.setProperty("--count", `${fault?.count ?? 1}`)
    const gutter = at(`gutter-${name}`)
    const count = `${area(name).value.split("\n").length}`
    if (gutter.dataset.lines !== count) gutter.textContent = Array.from({ length: Number((gutter.dataset.lines = count)) }, (_, i) => i + 1).join("\n")
    if (fault && fault.line > 0 && document.activeElement !== area(name)) reveal(name, fault.line)
}
/** @param {TextName} name */
function scroll(name) {
    at(`gutter-${name}`).scrollTop = area(name).scrollTop
    at(`band-${name}`).style.setProperty("--scrolled", `${area(name).scrollTop}px`)
}
/** @param {TextName} name @param {number} line */
const reveal = (name, line) => ((area(name).scrollTop = Math.max(0, (line - 4) * 20)), scroll(name))
/** @param {TextName} name @param {number} line */
function goTo(name, line) {
    const lines = area(name).value.split("\n")
    const from = lines.slice(0, line - 1).join("\n").length + (line > 1 ? 1 : 0)
    area(name).focus()
    area(name).setSelectionRange(from, from + (lines[line - 1] ?? "").length)
    reveal(name, line)
}

// ---- the verdict, right

/** The faults of the texts that are judged; and the register and the action, where they can be had. */
function readTexts() {
    /** @type {Partial<Record<TextName, Fault>>} */
    const faults = {}
    const fault = whyUnread(readPart("register"))
    state.register = fault.sound ? readRegister(readPart("register")).register : null
    state.action = null
    if (!fault.sound) faults.register = fault.line > 0 ? lineFault("register", readPart("register"), fault.why, fault.line) : recordFault(readPart("register"), fault)
    /** @param {TextName} name @param {Answer & { action: Action }} read */
    const taken = (name, read) => {
        if (!read.accepted && read.line > 0) faults[name] = lineFault(name, readPart(name), read.refusal, read.line)
        return read.accepted ? read.action : null
    }
    if (state.kind === "action") state.action = taken("action", readAction(readPart("action")))
    if (state.kind === "json") {
        const clock = taken("clock", readClock(readPart("clock")))
        const read = readJson(readPart("json"), clock?.now ?? 0)
        if (!read.accepted) faults.json = { line: 0, count: 0, key: "", words: `refusal ${read.refusal}, ${refusalText(read.refusal)}. ${jsonHint(readPart("json"))}` }
        state.action = clock && taken("json", read)
    }
    if (state.kind === "plan") {
        const register = state.register ?? readRegister(bytesOf("register=1\nactors=0\nresources=0\nclaims=0\n")).register
        const judged = judgePlan(register, readPart("plan"))
        if (judged.line > 0) faults.plan = lineFault("plan", readPart("plan"), judged.refusal, judged.line)
    }
    return faults
}
let [drawing, desking] = [0, 0]
/** Judges the texts: the lines at once, what explains them behind, and the desk where no key follows: it takes longest. */
function judge() {
    state.kind = KINDS.find((kind) => input(`kind-${kind}`).checked) ?? "action"
    state.lines = verdictLines(state.kind, TEXTS_OF[state.kind].map(readPart))
    at("lines").textContent = state.lines
    at("answer").dataset.answer = state.lines.slice(state.lines.indexOf("=") + 1, state.lines.indexOf("\n"))
    at("answer").textContent = answerWords(state.lines)
    at("verdict").setAttribute("aria-busy", "true")
    if (drawing === 0) drawing = window.setTimeout(explain, 0)
}
/** @param {string} lines */
function answerWords(lines) {
    const value = (/** @type {string} */ key) => Number(new RegExp(`^${key}=(.*)$`, "m").exec(lines)?.[1] ?? 0)
    if (lines.startsWith("verdict=permitted")) return "Permitted."
    if (lines.startsWith("verdict=refused")) return `Refused: ${counted(value("violations"), "violation")}.`
    if (lines.startsWith("plan=judged")) return `A plan of ${counted(value("verdicts"), "action")}: ${lines.split("verdict=permitted").length - 1} permitted.`
    return `Stopped: ${value("refusal")}, ${refusalText(value("refusal"))}.`
}
function explain() {
    drawing = 0
    const before = state.register?.bytes
    const faults = readTexts()
    if (!before?.every((byte, i) => byte === state.register?.bytes[i])) forget()
    for (const name of TEXTS) {
        at(`editor-${name}`).hidden = !TEXTS_OF[state.kind].includes(name)
        mark(name, TEXTS_OF[state.kind].includes(name) ? faults[name] ?? null : null)
    }
    at("reasons").replaceChildren(...reasonsShown(faults))
    if (state.action && !state.moved) state.moment = state.action.now
    at("verdict").setAttribute("aria-busy", "false")
    at("desk").setAttribute("aria-busy", "true")
    clearTimeout(desking)
    desking = window.setTimeout(drawDesk, 100)
}
/** @param {Partial<Record<TextName, Fault>>} faults @returns {Node[]} */
function reasonsShown(faults) {
    const first = TEXTS_OF[state.kind].find((name) => faults[name])
    const fault = first && faults[first]
    if (first && fault) {
        const there = shown(readPart(first)).split("\n").slice(fault.line - 1, fault.line - 1 + fault.count).join("\n")
        return [...mendShown(first), make("p", { class: "fault" }, `To mend: ${FILES[first]}, ${fault.words}`), ...(fault.count > 1 ? [make("pre", { "aria-label": "The record" }, there)] : [])]
    }
    if (!state.register) return []
    if (state.kind === "plan") return planShown(state.register)
    return state.action ? actionShown(state.register, state.action) : []
}
/** @param {Register} register @param {Action} action @returns {Node[]} */
function actionShown(register, action) {
    const verdict = gate(register, action)
    if (verdict.refusal > 0) return [make("p", { class: "fault" }, `Refusal ${verdict.refusal}: actor ${named(action.actor)} is not in the register.`)]
    const list = verdict.violations.map(({ kind, value }) => make("li", {}, `Violation ${kind} at ${value}: ${violationText(kind)}: ${violated(register, action, kind, value)}.`))
    const head = `${actorWords(register, action.actor)} at ${momentWords(action.now)}`
    return [
        make("h3", {}, `${head[0].toUpperCase()}${head.slice(1)}`),
        ...(list.length > 0 ? [make("ul", { class: "violations" }, ...list)] : []),
        ...action.uses.map((use, position) => useShown(register, action, use, position)),
    ]
}
/** @summary What a violation is about. @param {Register} register @param {Action} action @param {number} kind @param {number} value */
function violated(register, action, kind, value) {
    if (kind === 1) return `flag ${value}, ${flagName(value)}`
    if (kind === 2) return actorWords(register, value)
    if (kind === 3) return `entry ${value}, ${actorWords(register, action.governs[value])}`
    return `use ${value}, ${RIGHT_NAMES[action.uses[value].right]} on ${reportWords(register, action.uses[value].resource)}`
}
/** @param {Register} register @param {Action} action @param {Use} use @param {number} position */
function useShown(register, action, use, position) {
    const why = whyUse(register, action.actor, use, action.now)
    const covered = [why.actor, ...(why.owner ? [why.owners] : [])].every((reason) => reason.kind === 1 || reason.kind === 2)
    const asked = { register, use, moment: action.now }
    const sides = [reasonShown(asked, action.actor, "", why.actor)]
    if (why.owner) sides.push(reasonShown(asked, why.owner, "its owner, ", why.owners))
    return make("section", { class: covered ? "use" : "use lacking" },
        make("h4", {}, `Use ${position}: ${RIGHT_NAMES[use.right]} on ${reportWords(register, use.resource)}: ${covered ? "covered" : "not covered"}`),
        make("div", { class: "sides" }, ...sides))
}
/** @typedef {{ register: Register, use: Use, moment: number }} Asked */
/** @summary The reason of an actor, and its chain up to the keeper. @param {Asked} asked @param {number} actor @param {string} prefix @param {Reason} reason */
function reasonShown({ register, use, moment }, actor, prefix, reason) {
    const right = RIGHT_NAMES[use.right]
    const chain = reason.chain.flatMap((id) => register.claims.filter((each) => each.id === id))
    const [claim, dead] = [chain[0], chain.find((each) => each.id === reason.ended)]
    const end = `${dead === claim ? "it" : `claim ${dead?.id}`} ${dead?.weight === 0 ? "has weight 0" : `ended at ${momentWords(dead?.expiry ?? 0)} and now is ${momentWords(moment)}`}`
    const said = [
        "",
        `relies on claim ${claim?.id}, ${reason.chain.length === 1 ? "a root" : `${counted(reason.chain.length - 1, "hop")} below its root`}.`,
        "may: the report is public, and everybody of the register reads it.",
        `may not: of what it holds here, claim ${claim?.id} has ${right}, but is not live, as ${end}.`,
        `may not: of what it holds here the nearest is claim ${claim?.id}, and that has ${claim ? rightsWords(claim.rights) : ""}, and not ${right}.`,
        "may not: it holds no claim on this report, or on a path around it.",
    ][reason.kind]
    const steps = chain.map((each) => claimShown(register, each, each === dead, moment))
    if (claim) steps.push(make("li", { class: "keeper" }, `Keeper ${named(reason.keeper)} of ${reportWords(register, claim.resource)}`))
    const words = `${prefix}${actorWords(register, actor)} ${said}`
    return make("div", { class: "side" }, make("p", {}, `${words[0].toUpperCase()}${words.slice(1)}`),
        ...(steps.length > 0 ? [make("ol", { class: "chain", "aria-label": `Chain of claim ${claim?.id} up to the keeper` }, ...steps)] : []),
        ...(reason.kind > 2 ? [button("Whose signature is missing?", () => askSignature({ register, use, moment }, actor))] : []))
}
/** @param {Register} register @param {Claim} claim @param {boolean} dead @param {number} moment */
function claimShown(register, claim, dead, moment) {
    const words = `Claim ${claim.id}: ${actorWords(register, claim.grantor)} to ${actorWords(register, claim.holder)}, on ${reportWords(register, claim.resource)}.`
    const facts = `${rightsWords(claim.rights)}; weight ${claim.weight}; ${endWords(claim.expiry)}${register.version === 2 ? `; ${claim.left} left` : ""}`
    const end = dead ? [make("strong", {}, claim.weight === 0 ? " Dead: weight 0." : ` Dead: it ended at ${momentWords(claim.expiry)}, and now is ${momentWords(moment)}.`)] : []
    return make("li", dead ? { class: "dead" } : {}, make("span", { class: "hand" }, words), make("span", { class: "facts" }, facts), ...end)
}
const DECISIONS = ["", "permitted", "refused", "stopped", "cancelled"]
/** @summary The actions of a plan that is of the form, each opened where it is asked for. @param {Register} register @returns {Node[]} */
function planShown(register) {
    const judged = judgePlan(register, readPart("plan"))
    const actions = plain(readPart("plan")).split(/^step=action\n/m).slice(1).map((text) => readAction(bytesOf(text.split(/^(?:step|plan)=/m)[0])).action)
    const absent = actions[judged.position]?.actor
    if (judged.refusal === 3) return [make("p", { class: "fault" }, `Refusal 3: actor ${named(absent)} of action ${judged.position} is not in the register.`)]
    return judged.list.map(({ decision, violations }, position) => {
        const count = violations > 0 ? `, ${counted(violations, "violation")}` : ""
        const box = make("details", { class: `step ${DECISIONS[decision]}` }, make("summary", {}, `Action ${position}: ${DECISIONS[decision]}${count}`))
        box.addEventListener("toggle", () => {
            if (box.childElementCount > 1) return
            const cancelled = [make("p", {}, "Not judged: an action before it has a flag set.")]
            box.append(...(DECISIONS[decision] === "cancelled" ? cancelled : actionShown(register, actions[position])))
        })
        return box
    })
}

// ---- the desk

/** @summary Fills a choice; what was chosen stays as long as the first does. @param {string} id @param {[number, string][]} options @param {number | undefined} first */
function fill(id, options, first) {
    const wanted = input(id).dataset.first === `${first}` ? input(id).value : `${first}`
    input(id).dataset.first = `${first}`
    input(id).replaceChildren(...options.map(([value, words]) => make("option", { value: `${value}` }, words)))
    input(id).value = options.some(([value]) => `${value}` === wanted) ? wanted : `${options[0]?.[0] ?? ""}`
}
/** @summary The moments at which a claim ends. @param {Register} register */
const ends = (register) => [...new Set(register.claims.map((claim) => claim.expiry))].filter((expiry) => expiry > 0).sort((a, b) => a - b)
function drawDesk() {
    at("desk").setAttribute("aria-busy", "false")
    const register = state.register
    at("desk-parts").hidden = !register
    at("desk-none").hidden = !!register
    if (!register) return
    const reports = register.resources.map((each) => /** @type {[number, string]} */ ([each.id, reportWords(register, each.id)]))
    const actors = register.actors.map((each) => /** @type {[number, string]} */ ([each.id, actorWords(register, each.id)]))
    fill("desk-report", reports, state.action?.uses[0]?.resource)
    for (const id of ["desk-actor", "table-actor"]) fill(id, actors, state.action?.actor)
    drawMoment(register)
    if (input("desk-who").hasAttribute("open")) drawWho(register)
    if (input("desk-table").hasAttribute("open")) drawTable(register)
    if (input("desk-whatif").hasAttribute("open")) prefill(register)
    drawCopy(register)
}
/** @param {Register} register */
function drawMoment(register) {
    const points = [...ends(register), state.action?.now ?? state.moment, state.moment]
    const margin = Math.max(1, Math.ceil((Math.max(...points) - Math.min(...points)) / 10))
    input("desk-slider").min = `${Math.max(0, Math.min(...points) - margin)}`
    input("desk-slider").max = `${Math.min(LAST_MOMENT, Math.max(...points) + margin)}`
    input("desk-slider").value = `${state.moment}`
    input("desk-moment").value = `${state.moment}`
    at("desk-date").textContent = momentWords(state.moment).slice(`${state.moment}`.length)
    at("desk-ticks").replaceChildren(...ends(register).map((end) => make("option", { value: `${end}` })))
}
/** @param {number} moment */
function move(moment) {
    state.moved = moment !== state.action?.now
    state.moment = moment
    drawDesk()
}
/** @param {string[]} heads */
const headRow = (heads) => make("thead", {}, make("tr", {}, ...heads.map((head, i) => make("th", { scope: "col", ...(i > 0 ? { class: "right" } : {}) }, make("span", {}, head)))))
/** @summary Who may do what to the chosen report; and when somebody falls out. @param {Register} register */
function drawWho(register) {
    const resource = Number(input("desk-report").value)
    const may = RIGHT_NAMES.map((_, right) => new Set(who(register, { resource, right }, state.moment)))
    const rows = register.actors.map(({ id }) => make("tr", {}, make("th", { scope: "row" }, actorWords(register, id)),
        ...may.map((ids) => make("td", ids.has(id) ? { class: "yes" } : {}, ids.has(id) ? "yes" : "no"))))
    const caption = make("caption", {}, `Who may, on ${reportWords(register, resource)}, at ${momentWords(state.moment)}`)
    at("who-cells").replaceChildren(caption, headRow(["Actor", ...RIGHT_NAMES]), make("tbody", {}, ...rows))
    const right = Number(input("desk-right").value)
    /** @type {number[]} */
    let before = []
    const spans = [0, ...ends(register)].flatMap((from) => {
        const now = who(register, { resource, right }, from)
        const out = before.filter((id) => !now.includes(id))
        const said = `From ${momentWords(from)}: ${now.map(named).join(", ") || "nobody"}${out.length > 0 ? `. Out: ${out.map(named).join(", ")}` : ""}.`
        const same = from > 0 && now.join() === before.join()
        before = now
        return same ? [] : [make("li", out.length > 0 ? { class: "out" } : {}, said)]
    })
    at("who-spans").replaceChildren(...spans)
}
/** Writes the action of one use that the desk asks about. */
function askWhy() {
    const lines = `now=${state.moment}\nactor=${input("desk-actor").value}\nflags=0\nuses=1\nuse=${input("desk-report").value}\nright=${input("desk-right").value}\ngoverns=0\n`
    put("action", bytesOf(lines))
    input("kind-action").checked = true
    judge()
    at("verdict").scrollIntoView()
}
const REMARKS = ["", "live", "weight 0", "ended", "its source is dead"]
/** @summary The plain table of an actor, from which a use is looked up. @param {Register} register */
function drawTable(register) {
    const actor = Number(input("table-actor").value)
    const table = coverTable(register, actor, state.moment)
    if (!table.accepted) return at("cover").replaceChildren(make("p", { class: "fault" }, `Refusal ${table.refusal}: ${refusalText(table.refusal)}.`))
    const cell = (/** @type {number} */ place) => (place === 257 ? "–" : place === 256 ? "public" : `${register.claims[place].id}`)
    const rows = (/** @type {number[]} */ cells) => register.resources.map((report, i) => make("tr", {},
        make("th", { scope: "row" }, `${report.id}, ${report.path || "the empty path"}`), ...RIGHT_NAMES.map((_, right) => make("td", {}, cell(cells[i * RIGHTS + right])))))
    const sheet = (/** @type {number} */ id, /** @type {number[]} */ cells) => make("table", { class: "cells" },
        make("caption", {}, `The claim that speaks for ${actorWords(register, id)}`), headRow(["Report", ...RIGHT_NAMES]), make("tbody", {}, ...rows(cells)))
    const claims = register.claims.map((claim, i) => make("tr", table.states[i] === 1 ? {} : { class: "dead" },
        ...[claim.id, claim.parent || "root", named(claim.grantor), named(claim.holder), claim.resource, rightsWords(claim.rights), claim.weight,
            claim.expiry ? momentWords(claim.expiry) : "never", table.hops[i], REMARKS[table.states[i]]].map((value) => make("td", {}, `${value}`))))
    const heads = ["Claim", "Parent", "Grantor", "Holder", "Report", "Rights", "Weight", "End", "Hops", "State"]
    const list = make("table", {}, make("caption", {}, `The claims, from first to last, at ${momentWords(state.moment)}`),
        make("thead", {}, make("tr", {}, ...heads.map((head) => make("th", { scope: "col" }, head)))), make("tbody", {}, ...claims))
    at("cover").replaceChildren(sheet(actor, table.own), ...(table.owner ? [sheet(table.owner, table.owners)] : []), list)
}

// ---- what if

/** @param {string} said @param {...Node} more */
const say = (said, ...more) => at("copy-said").replaceChildren(said, ...more)
/** @summary Takes a change into the copy. @param {Answer & { register: Register, removed: number, granted?: boolean }} answer @param {string} done @param {string} hint */
function enter(answer, done, hint = "") {
    if (!answer.accepted) return say(`Refused with ${answer.refusal}: ${refusalText(answer.refusal)}. ${hint}The copy is as it was.`)
    state.copy = answer.register
    say(answer.granted ? `${done}.` : `${done}: ${counted(answer.removed, "claim")} went.`)
    if (state.register) drawCopy(state.register)
}
/** @summary The copy's difference to the register, and the verdict with it. @param {Register} register */
function drawCopy(register) {
    const copy = state.copy
    at("copy-shown").hidden = !copy
    if (!copy) return
    const text = textOf(copy)
    at("copy-lines").textContent = verdictLines(state.kind, [text, ...TEXTS_OF[state.kind].slice(1).map(readPart)])
    at("copy-difference").replaceChildren(...difference(shown(textOf(register)), shown(text)).map(([sign, line]) => make(sign === "+" ? "ins" : "del", {}, `${sign} ${line}\n`)))
}
/** @summary What went and what came: the second text keeps the first's order, and adds at the end. @param {string} before @param {string} after @returns {[string, string][]} */
function difference(before, after) {
    const blocks = (/** @type {string} */ text) => text.trimEnd().split(/\n(?=claims?=)/)
    const [old, next] = [blocks(before), blocks(after)]
    const kept = (/** @type {string} */ sign, /** @type {string} */ block) => block.split("\n").map((line) => /** @type {[string, string]} */ ([sign, line]))
    let j = 0
    const parts = old.flatMap((block) => {
        if (block === next[j]) return j++, []
        return block.startsWith("claims=") ? [...kept("-", block), ...kept("+", next[j++])] : kept("-", block)
    })
    return [...parts, ...next.slice(j).flatMap((block) => kept("+", block))]
}
/** @summary The numbers of a form, by the names of its fields. @param {string} id @returns {Record<string, number>} */
const numbers = (id) => Object.fromEntries([...new FormData(/** @type {HTMLFormElement} */ (at(id)))].map(([name, value]) => [name, Number(value)]))
const working = () => state.copy ?? state.register
/** The register is another: the copy goes, and what was put into the forms. */
function forget() {
    if (state.copy) say("The register has changed: the copy is gone.")
    state.copy = null
    for (const id of Object.keys(FORMS)) /** @type {HTMLFormElement} */ (at(id)).reset()
}
/** @summary Puts what is likely into the empty fields of the forms. @param {Register} register */
function prefill(register) {
    const resource = Number(input("desk-report").value)
    const keeper = register.resources.find((each) => each.id === resource)?.keeper ?? ""
    const free = 1 + [...register.claims, null].findIndex((_, i) => !register.claims.some((claim) => claim.id === i + 1))
    const actor = input("desk-actor").value
    for (const [name, value] of Object.entries({ id: free, grantor: keeper, revoker: keeper, caller: keeper, holder: actor, actor, resource }))
        for (const each of document.querySelectorAll(`#desk-whatif input[name=${name}]`)) /** @type {HTMLInputElement} */ (each).value ||= `${value}`
}
/** @summary Asks as the verdict was given: of the register as typed, at the action's moment. @param {Asked} asked @param {number} actor */
function askSignature({ register, use, moment }, actor) {
    at("desk-whatif").setAttribute("open", "")
    const keeper = register.resources.find((each) => each.id === use.resource)?.keeper ?? ""
    Object.entries({ actor, resource: use.resource, right: use.right, signers: keeper }).forEach(([name, value]) => (input(`propose-${name}`).value = `${value}`))
    at("form-propose").scrollIntoView()
    input("propose-signers").focus()
    proposed(register, moment)
}
/** @param {Asked} asked @param {number} actor */
function ownerLacks({ register, use, moment }, actor) {
    const why = whyUse(register, actor, use, moment)
    return why.owners.kind > 2 ? ` Its owner ${named(why.owner)} may not: ask for the owner first.` : ""
}
/** @param {Register} register @param {number} moment */
function proposed(register, moment) {
    const asked = numbers("form-propose")
    const signers = (input("propose-signers").value.match(/\d+/g) ?? []).map(Number)
    const use = { resource: asked.resource, right: asked.right }
    const answer = propose(register, asked.actor, use, moment, signers)
    const when = `At ${momentWords(moment)}, in the ${register === state.copy ? "copy" : "register"}: `
    const outer = answer.refusal === 26 ? " This asks for a grant on this very report; a claim on a report whose path contains it may do too." : ""
    if (!answer.accepted) return say(`${when}refused with ${answer.refusal}: ${refusalText(answer.refusal)}.${outer}${ownerLacks({ register, use, moment }, asked.actor)}`)
    if (answer.kind === 1) return say(`${when}no grant is needed, as the use is permitted.`)
    const { claim } = answer
    const signs = `${actorWords(register, claim.grantor)} signs claim ${claim.id}, ${claim.parent ? `below claim ${claim.parent}` : "a root"}`
    const what = `${rightsWords(claim.rights)} on ${reportWords(register, claim.resource)}, weight ${claim.weight}, ${claim.parent && !claim.expiry ? "until its source ends" : endWords(claim.expiry)}`
    const sign = button("Grant it in the copy", () => enter(grant(working() ?? register, claim, moment), `Granted in the copy: claim ${claim.id}`))
    say(`${when}${signs}, to ${actorWords(register, claim.holder)}: ${what}. `, sign)
}
/** @type {Record<string, (register: Register) => void>} */
const FORMS = {
    "form-propose": (register) => proposed(register, state.moment),
    "form-grant": (register) => {
        const asked = numbers("form-grant")
        const rights = [...document.querySelectorAll("#grant-rights input:checked")].reduce((sum, each) => sum + 2 ** Number(/** @type {HTMLInputElement} */ (each).value), 0)
        enter(grant(register, /** @type {Claim} */ ({ ...asked, rights }), state.moment), `Granted in the copy: claim ${asked.id}`, rights === 0 ? "No right is ticked: tick a right. " : "")
    },
    "form-revoke": (register) => enter(withdraw(register, "guvrendik_revoke_at", ...Object.values(numbers("form-revoke"))), "Revoked in the copy"),
    "form-clear": (register) => enter(withdraw(register, "guvrendik_clear_resource_at", ...Object.values(numbers("form-clear"))), "Cleared in the copy"),
    "form-expired": (register) => enter(withdraw(register, "guvrendik_clear_expired_at", numbers("form-expired").caller, BigInt(state.moment)), `Cleared in the copy, at ${momentWords(state.moment)}`),
}

// ---- files, names, examples, paper

/** @typedef {TextName | "names"} Taken */
/** @summary Which text a file is, by its name or else its first key. @param {string} name @param {Uint8Array} bytes @returns {Taken | undefined} */
function textNameOf(name, bytes) {
    const start = plain(bytes.subarray(0, 32)).replace(/^\xef\xbb\xbf|^\xff\xfe|^\xfe\xff/, "").replaceAll("\0", "").trimStart()
    /** @type {[string, RegExp, Taken][]} */
    const marks = [[FILES.register, /^register=/, "register"], [FILES.json, /^\{/, "json"], [FILES.plan, /^plan=/, "plan"], [FILES.clock, /^now=\d+\s*$/, "clock"],
        [FILES.action, /^now=/, "action"], ["names.txt", /^\d+ /, "names"]]
    return (marks.find(([own]) => own === name.toLowerCase()) ?? marks.find(([, mark]) => mark.test(start)))?.[2]
}
/** @param {Iterable<File>} files */
async function takeFiles(files) {
    at("verdict").setAttribute("aria-busy", "true")
    const read = await Promise.all([...files].map(async (file) => /** @type {const} */ ([file.name, new Uint8Array(await file.arrayBuffer())]))).catch(() => [])
    /** @type {Map<Taken, string>} */
    const taken = new Map()
    const said = read.map(([name, bytes]) => {
        const which = textNameOf(name, bytes)
        if (!which) return `${name} was not taken: neither its name nor its first key says which text it is.`
        if (taken.has(which)) return `${name} was not taken: ${taken.get(which)} was, as the ${which}.`
        taken.set(which, name)
        if (which === "names") input("names").value = new TextDecoder().decode(bytes)
        else put(which, bytes)
        return `${name} was taken as the ${which}.`
    })
    const kind = KINDS.find((each) => taken.has(each))
    if (kind) input(`kind-${kind}`).checked = true
    if (taken.size > 0) input("example").value = ""
    at("about").textContent = said.join(" ") || "Nothing was taken: drop files, and not a folder."
    takeNames()
}
function takeNames() {
    names.clear()
    for (const line of input("names").value.split(/\r?\n/)) {
        const found = /^\s*(\d+)\s+(.*\S)\s*$/.exec(line)
        if (found) names.set(Number(found[1]), found[2])
    }
    judge()
}
/** @param {string} name */
function takeExample(name) {
    const { about, files } = examples[name]
    for (const text of TEXTS) put(text, bytesOf(files[FILES[text]] ?? ""))
    const kind = KINDS.find((each) => FILES[each] in files)
    input(`kind-${kind}`).checked = true
    at("about").textContent = about
    state.moved = false
    judge()
}
/** What goes on paper: the version, the module's sum, the moment, the verdict, the texts. */
function fillBook() {
    const now = state.action ? momentWords(state.action.now) : "as the texts say"
    const facts = [["Guvrendik", version()], ["SHA-256 of the module", sumOfModule], ["Moment", now], ["Verdict", at("answer").textContent ?? ""]]
    const why = document.querySelectorAll("#reasons > .fault, #reasons summary, #reasons li:not(.chain li), #reasons h4, #reasons .side p")
    at("book").replaceChildren(make("h1", {}, "Bench book"), make("dl", {}, ...facts.flatMap(([name, value]) => [make("dt", {}, name), make("dd", {}, value)])),
        make("pre", { class: state.lines.length > 400 ? "verdict long" : "verdict" }, state.lines), ...[...why].map((each) => make("p", {}, each.textContent ?? "")),
        make("div", { class: "columns" }, ...TEXTS_OF[state.kind].flatMap((name) => [make("h2", {}, FILES[name]), make("pre", {}, shown(readPart(name)))])))
}
async function copyLines() {
    const said = await navigator.clipboard.writeText(state.lines).then(() => "Copied.", () => "Marked: copy it with Ctrl C.")
    if (said !== "Copied.") getSelection()?.selectAllChildren(at("lines"))
    at("copied").textContent = said
}

// ---- the beginning

/** @param {string} id */
async function unpacked(id) {
    const { DecompressionStream } = /** @type {any} */ (globalThis)
    const packed = Uint8Array.from(atob(at(id).textContent ?? ""), (letter) => letter.charCodeAt(0))
    return new Response(new Blob([packed]).stream().pipeThrough(new DecompressionStream("deflate"))).arrayBuffer()
}
/** @param {string} id @param {string} event @param {(event: Event) => void} does */
const on = (id, event, does) => at(id).addEventListener(event, does)
function listen() {
    for (const name of TEXTS) {
        on(`text-${name}`, "input", () => ((texts[name] = bytesOf(area(name).value)), judge()))
        on(`text-${name}`, "scroll", () => scroll(name))
    }
    for (const kind of KINDS) on(`kind-${kind}`, "change", judge)
    for (const id of ["desk-report", "desk-right", "table-actor"]) on(id, "change", drawDesk)
    for (const id of ["desk-who", "desk-table", "desk-whatif"]) on(id, "toggle", drawDesk)
    for (const id of ["desk-slider", "desk-moment"]) on(id, "input", () => {
        if (input(id).checkValidity()) return move(Number(input(id).value))
        at("desk-date").textContent = `Not taken: a moment is ${MOMENT}. The desk stays at ${momentWords(state.moment)}.`
    })
    on("desk-now", "click", () => move(state.action?.now ?? state.moment))
    for (const [id, does] of Object.entries(FORMS)) on(id, "submit", (event) => (event.preventDefault(), [working()].forEach((register) => register && does(register))))
    on("copy-drop", "click", () => (state.copy = null, say("The copy is the register again."), drawDesk()))
    on("copy-take", "click", () => state.copy && (put("register", textOf(state.copy)), (state.copy = null), say("The copy is the register now."), judge()))
    on("names", "input", takeNames)
    on("files", "change", () => takeFiles(/** @type {FileList} */ (input("files").files)))
    on("example", "change", () => input("example").value && takeExample(input("example").value))
    on("copy", "click", copyLines)
    on("desk-why", "click", askWhy)
    for (const part of ["book", "cover"]) on(`print-${part}`, "click", () => ((document.body.dataset.print = part), window.print()))
    addEventListener("beforeprint", fillBook)
    addEventListener("afterprint", () => (document.body.dataset.print = "book"))
    addEventListener("dragover", (event) => event.preventDefault())
    addEventListener("drop", (event) => (event.preventDefault(), takeFiles(event.dataTransfer?.files ?? [])))
}
async function start() {
    const [module, packed] = await Promise.all([unpacked("module"), unpacked("examples")])
    await begin(module)
    examples = JSON.parse(new TextDecoder().decode(packed))
    RIGHT_NAMES = Array.from({ length: RIGHTS }, (_, right) => rightName(right))
    at("made-of").textContent = `Guvrendik ${version()}, module ${sumOfModule}`
    input("example").append(...Object.keys(examples).map((name) => make("option", { value: name }, name)))
    for (const id of ["desk-right", "propose-right"]) input(id).append(...RIGHT_NAMES.map((name, right) => make("option", { value: `${right}` }, name)))
    at("grant-rights").append(...RIGHT_NAMES.map((name, right) => make("label", {}, make("input", { type: "checkbox", value: `${right}` }), ` ${name}`)))
    listen()
    input("example").value = "case-r"
    takeExample("case-r")
    performance.mark("first verdict")
}
start().catch((error) => (at("answer").textContent = `This browser cannot run the page: ${error}`))
