// The texts of tests/cases and of tests/json/table, each with the lines that are due: `folders` and `rows` answer a list of
// { name, kind, texts, due }, the texts in the order in which the program of that kind reads them.
"use strict"
const fs = require("fs")
const path = require("path")

const MOST = 65536 // bytes of a file that the programs read
const FILES = { action: ["register.txt", "action.txt"], plan: ["register.txt", "plan.txt"], json: ["register.txt", "clock.txt", "action.json"] }

// ---- the folders, as ./run takes them

function file(folder, name) {
    const at = path.join(folder, name)
    return fs.existsSync(at) ? fs.readFileSync(at) : Buffer.alloc(0)
}
function folder(at) {
    const due = file(at, "expected").toString("latin1")
    const has = (text) => fs.existsSync(path.join(at, text))
    const kind = due.startsWith("plan=") ? "plan" : has("action.json") && !has("action.txt") ? "json" : "action"
    return { name: path.basename(at), kind, texts: FILES[kind].map((text) => file(at, text)), due }
}
const folders = () => fs.readdirSync("tests/cases", { withFileTypes: true }).filter((entry) => entry.isDirectory()).map(({ name }) => folder(path.join("tests/cases", name)))

// ---- the table, whose head says what a line means

// The bytes that a text of the table means.
function plain(text) {
    const named = { n: "\n", t: "\t", r: "\r", s: " ", "\\": "\\" }
    const one = (part) => part.replace(/\\(x[0-9A-Fa-f]{2}|.)/g, (_, mark) => (mark[0] === "x" && mark.length === 3 ? String.fromCharCode(parseInt(mark.slice(1), 16)) : named[mark]))
    const repeated = Buffer.from(text, "utf8").toString("latin1").replace(/\(([^)]*)\)\{(\d+)\}/g, (_, inside, times) => inside.repeat(times))
    return one(repeated)
}
function changed(files, change) {
    const [, name, verb, text] = /^(\S+) (\S+) ?([^]*)$/.exec(change)
    const [old, next] = verb === "put" ? /^([^]*?) =>(?: ([^]*))?$/.exec(text).slice(1) : [text, ""]
    switch (verb) {
        case "missing": files[name] = ""; break
        case "put": case "drop":
            if (files[name].split(plain(old)).length !== 2) throw new Error(`${change}: it stands there not once`)
            files[name] = files[name].split(plain(old)).join(plain(next ?? ""))
            break
        case "before": files[name] = plain(text) + files[name]; break
        case "after": files[name] += plain(text); break
        case "whole": files[name] = plain(text); break
        case "blanks": files[name] = files[name].padEnd(Number(text), " "); break
        default: throw new Error(`${verb}: an unknown verb`)
    }
}
function printedLines(printed) {
    const [first, ...rest] = printed.split(" ")
    if (first === "stopped") return `verdict=stopped\nrefusal=${rest[0]}\n`
    const each = rest.map((violation) => violation.replace(/^(\d+)@(\d+)$/, "violation=$1\nat=$2\n"))
    return `verdict=${first}\nviolations=${rest.length}\n${each.join("")}`
}
function rows() {
    const table = fs.readFileSync("tests/json/table", "utf8").split("\n")
    const page = table.filter((line) => line.startsWith("page ")).map((line) => line.slice(5)).join("")
    const numbered = table.map((line, at) => [at + 1, line]).filter(([, line]) => line !== "" && !/^(#|page )/.test(line))
    return numbered.map(([at, line]) => {
        const [changes, printed] = line.split(" | ")
        const files = { register: fs.readFileSync("examples/case-r/register.txt", "latin1"), clock: "now=1999\n", action: Buffer.from(page).toString("latin1") }
        if (changes !== "-") changes.split(" & ").forEach((change) => changed(files, change))
        const texts = [files.register, files.clock, files.action].map((text) => Buffer.from(text, "latin1"))
        return { name: `tests/json/table, line ${at}`, kind: "json", texts, due: printedLines(printed) }
    })
}
module.exports = { MOST, FILES, folder, folders, rows, least: { folders: 388, rows: 200 } } // fewer would mean that they were not read
