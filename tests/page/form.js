// The form of the texts, a second time and from the rule book alone: which line of a text is the first that fails, and which key is due there.
"use strict"

const number = (least, most) => (value) => /^(0|[1-9][0-9]*)$/.test(value) && BigInt(value) >= BigInt(least) && BigInt(value) <= BigInt(most)
const oneOf = (...list) => (value) => list.includes(value)
const path = (value) => /^[\x21-\x7e]{0,64}$/.test(value)
const id = number(1, 65535)
const anyId = number(0, 65535)
const moment = number(0, 4294967295)

// A step is [key, test]; [key, most, part] is a count of such parts; a function gives the steps that follow a value.
const actor = [["actor", id], ["kind", oneOf("human", "machine")], ["owner", anyId]]
const resource = [["resource", id], ["public", oneOf("0", "1")], ["keeper", id], ["scope", path]]
const claim = (second) => [["claim", id], ["parent", anyId], ["grantor", id], ["holder", id], ["resource", id], ["rights", number(1, 131071)],
    ["weight", number(0, 1000)], ...(second ? [["left", number(0, 16)]] : []), ["expiry", moment]]
const register = [["register", oneOf("1", "2"), (value) => [["actors", 64, actor], ["resources", 64, resource], ["claims", 256, claim(value === "2")]]]]
const action = [["now", moment], ["actor", anyId], ["flags", number(0, 1023)], ["uses", 32, [["use", anyId], ["right", number(0, 16)]]], ["governs", 8, [["govern", anyId]]]]
const plan = [["plan", 64, [["step", oneOf("action", "plan"), (value) => (value === "plan" ? plan : action)]]]]
const FORMS = { "register.txt": register, "action.txt": action, "plan.txt": plan }

// { line, key } of the first failing line, the key empty where the text must end; nothing where the text is of the form.
function failing(file, text) {
    const steps = [...FORMS[file]]
    const lines = text.split("\n")
    const rest = lines.pop()
    for (let line = 1; steps.length > 0; line++) {
        const [key, test, more] = steps.shift()
        if (line > lines.length) return { line, key }
        const [, name, value] = /^([^=]*)=?([^]*)$/.exec(lines[line - 1])
        if (name !== key || !lines[line - 1].includes("=")) return { line, key }
        if (!(typeof test === "number" ? number(0, test)(value) : test(value))) return { line, key }
        if (typeof test === "number") steps.unshift(...Array.from({ length: Number(value) }, () => more).flat())
        else if (more) steps.unshift(...more(value))
        if (steps.length === 0 && (lines.length > line || rest !== "")) return { line: line + 1, key: "" }
    }
    return undefined
}
module.exports = { failing }
