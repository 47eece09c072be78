// node main.js PAGE CELLS [--views]: the bench page in a real browser. CELLS is a folder with the damaged texts, and their `list`, of tests/cases/run --cells.
"use strict"
const crypto = require("crypto")
const fs = require("fs")
const http = require("http")
const path = require("path")
const { start } = require("./browser.js")
const { failing } = require("./form.js")
const { HELP, VIEWS, SEEN } = require("./views.js")
const { MOST, FILES, folder, folders, rows, least } = require("../wasm/cases.js")

const [pagePath, cellsPath, renew] = process.argv.slice(2)
const ADDRESS = `file://${path.resolve(pagePath)}`
const KEPT = path.join(__dirname, "views")
const LEAST_CELLS = 871

let passed = 0
let failed = 0
function check(name, got, due) {
    if (JSON.stringify(got) === JSON.stringify(due)) return void passed++
    failed++
    console.log(`FAILED ${name}\n  due ${JSON.stringify(due)}\n  got ${JSON.stringify(got)}`)
}
const broken = (error) => (failed++, console.log(`FAILED ${error.stack}`))
const atLeast = (name, got, due) => check(`${name}: at least ${due}, and ${got} are there`, got >= due, true)
const below = (name, got, due) => check(`${name}: below ${due}, and it is ${got}`, got < due, true)

async function opened(browser, view) {
    const page = await browser.open(ADDRESS, view)
    await page.ask(HELP)
    return page
}
const dropped = (names, texts) => `drop(${JSON.stringify(Object.fromEntries(names.map((name, i) => [name, texts[i].toString("base64")])))})`
// The lines shown, and of each marked text the line and the key that are told.
const SHOWN = `({ lines: say("lines"), faults: [...document.querySelectorAll(".note .fault")].map((each) => [each.parentElement.id, Number(each.dataset.line), each.dataset.key]) })`

// ---- the texts: what is shown is what ./run prints

async function texts(page) {
    const all = { folders: folders(), rows: rows() }
    atLeast("folders of tests/cases", all.folders.length, least.folders)
    atLeast("lines of tests/json/table", all.rows.length, least.rows)
    for (const { name, kind, texts, due } of [...all.folders, ...all.rows]) check(name, (await page.ask(`${dropped(FILES[kind], texts)}.then(() => ${SHOWN})`)).lines, due)
}
async function examples(page) {
    const there = fs.readdirSync("examples").filter((name) => fs.existsSync(path.join("examples", name, "register.txt"))).sort()
    check("the examples in the list", await page.ask(`[...id("example").options].map((each) => each.value).filter(Boolean).sort()`), there)
    for (const name of there) check(`examples/${name}`, await page.ask(`example(${JSON.stringify(name)}).then(() => say("lines"))`), folder(path.join("examples", name)).due)
}
// The two cells whose register is of the form and not sound: T-07, a left not below the parent's. The claim that breaks it is named.
const UNSOUND = { register_2_left_of_the_parent: 2, register_2_left_of_the_child: 3 }
async function cells(page) {
    const list = fs.readFileSync(path.join(cellsPath, "list"), "utf8").trimEnd().split("\n").map((line) => line.split("\t"))
    atLeast("cells of tests/cases/damages", list.length, LEAST_CELLS)
    for (const [i, [name, source, refusal]] of list.entries()) {
        const file = path.basename(source)
        const kind = file === "plan.txt" ? "plan" : "action"
        const damaged = fs.readFileSync(path.join(cellsPath, `${i}`))
        const texts = FILES[kind].map((each) => (each === file ? damaged : fs.readFileSync(path.join(path.dirname(source), each))))
        const text = damaged.subarray(0, MOST).toString("latin1")
        const claimed = UNSOUND[name]
        const due = claimed ? { line: text.split("\n").indexOf(`claim=${claimed}`) + 1, key: "claim" } : failing(file, text)
        const lines = kind === "plan" ? `plan=stopped\nrefusal=${refusal}\nline=${due?.line}\n` : `verdict=stopped\nrefusal=${refusal}\n`
        const got = await page.ask(`${dropped(FILES[kind], texts)}.then(() => ${SHOWN})`)
        check(name, got, { lines, faults: [[`note-${file.split(".")[0]}`, due?.line, due?.key]] })
    }
}

// ---- what a technician does

async function typing(page) {
    await page.ask(`example("case-r")`)
    await page.ask(`id("text-action").setSelectionRange(0, 8); id("text-action").focus()`)
    await page.send("Input.insertText", { text: "now=2000" })
    check("typed: at 2000 the machine reads no more", await page.ask(`settled().then(() => say("lines"))`), "verdict=refused\nviolations=2\nviolation=4\nat=0\nviolation=4\nat=1\n")
    check("the dead link is marked", await page.ask(`document.querySelector(".chain .dead").textContent`), "Claim 2: human 1 to machine 2, on report 10, site/a.READ; weight 600; ends at 2000 Dead: it ended at 2000, and now is 2000.")
    await page.ask(`example("full-register")`)
    const times = await page.ask(`(async () => {
        const times = []
        for (let i = 0; i < 41; i++) {
            const area = id("text-register")
            area.value = area.value.replace(/weight=\\d+/, "weight=" + (900 + i))
            const from = performance.now()
            area.dispatchEvent(new Event("input"))
            times.push(performance.now() - from)
            await explained()
        }
        return times.sort((a, b) => a - b)
    })()`)
    below("milliseconds from a key to the verdict, of the fullest register, in the middle", times[20], 5)
    console.log(`from a key to the verdict ${times[20].toFixed(1)} ms in the middle, ${times[40].toFixed(1)} at most`)
}
async function mending(page) {
    const plain = folder("examples/case-r")
    const [register, action] = plain.texts
    const wide = Buffer.concat([Buffer.from([0xff, 0xfe]), Buffer.from(register.toString("latin1").replaceAll("\n", "\r\n"), "utf16le")])
    const damages = [
        ["CR LF", Buffer.from(register.toString("latin1").replaceAll("\n", "\r\n")), "register.txt has 30 lines that end in CR LF.", "Make every line end LF"],
        ["a byte order mark", Buffer.concat([Buffer.from([0xef, 0xbb, 0xbf]), register]), "register.txt begins with a byte order mark.", "Take the mark away"],
        ["two bytes to a letter", wide, "register.txt begins with a byte order mark and has two bytes to a letter (UTF-16LE).", "Make it plain text"],
    ]
    for (const [name, damaged, words, mend] of damages) {
        await page.ask(dropped(FILES.action, [damaged, action]))
        check(`${name} stops`, await page.ask(`say("lines")`), "verdict=stopped\nrefusal=19\n")
        check(`${name} is named`, await page.ask(`id("note-register").firstChild.firstChild.textContent.trim()`), words)
        check(`${name} is named beside the verdict`, await page.ask(`id("reasons").firstChild.textContent`), `${words} ${mend}`)
        check(`${name} is mended at a click`, await page.ask(`press(${JSON.stringify(mend)}).then(() => say("lines"))`), plain.due)
    }
}
async function desk(page) {
    await page.ask(`example("case-r")`)
    const may = `Object.fromEntries([...document.querySelectorAll("#who-cells tbody tr")].map((row) => [row.firstChild.textContent, [...row.querySelectorAll("td")].flatMap((cell, right) => cell.textContent === "yes" ? [right] : [])]))`
    check("who may at 1999: the claims' rights, 1 + 2 + 16 and 1", await page.ask(may), { "human 1": [0, 1, 4], "machine 2": [0] })
    check("who may at 2000", await page.ask(`fire("desk-moment", "input", "2000").then(() => ${may})`), { "human 1": [0, 1, 4], "machine 2": [] })
    check("when the reader falls out", await page.ask(`[...id("who-spans").children].map((each) => each.textContent)`), ["From 0: 1, 2.", "From 2000: 1. Out: 2."])
    check("the expiries are ticks", await page.ask(`[...id("desk-ticks").options].map((each) => each.value)`), ["2000"])
    const proposal = "At 1999, in the register: human 1 signs claim 3, a root, to machine 2: WRITE on report 10, site/a, weight 1000, never ends. Grant it in the copy"
    check("the proposal, as examples/c/signature.expected; at the action's moment, not the desk's", await page.ask(`press("Whose signature is missing?").then(() => say("copy-said"))`), proposal)
    await page.ask(`fire("desk-now", "click")`)
    check("granted in the copy, it is permitted", await page.ask(`press("Grant it in the copy").then(() => say("copy-lines"))`), "verdict=permitted\nviolations=0\n")
    check("the difference", await page.ask(`say("copy-difference")`),
        "- claims=2\n+ claims=3\n+ claim=3\n+ parent=0\n+ grantor=1\n+ holder=2\n+ resource=10\n+ rights=2\n+ weight=1000\n+ expiry=0\n")
    check("the register stays", await page.ask(`say("lines")`), folder("examples/case-r").due)
    check("the verdict's question is of the register, not of the copy", await page.ask(`press("Whose signature is missing?").then(() => say("copy-said"))`), proposal)
    check("the form's is of the copy", await page.ask(`fire("form-propose", "submit").then(() => say("copy-said"))`), "At 1999, in the copy: no grant is needed, as the use is permitted.")
    const entered = (form, fields) => page.ask(`(async () => { const form = id(${JSON.stringify(form)}); for (const [name, value] of Object.entries(${JSON.stringify(fields)})) form.elements[name].value = value; await fire(${JSON.stringify(form)}, "submit"); return say("copy-said") })()`)
    check("a claim that stands", await entered("form-revoke", { revoker: 2, claim: 1 }), "Refused with 18: revoker is no grantor on that claim's chain, or caller is not the keeper or not human. The copy is as it was.")
    check("the keeper revokes claim 1, and what hangs from it", await entered("form-revoke", { revoker: 1, claim: 1 }), "Revoked in the copy: 2 claims went.")
    check("the keeper clears the report", await entered("form-clear", { caller: 1, resource: 10 }), "Cleared in the copy: 1 claim went.")
    check("nothing has ended", await entered("form-expired", { caller: 1 }), "Cleared in the copy, at 1999: 0 claims went.")
    check("a grant without a right", await entered("form-grant", { id: 7, parent: 0, grantor: 1, holder: 2, resource: 10, weight: 1000, left: 0, expiry: 0 }),
        "Refused with 2: field or count of the call out of range. No right is ticked: tick a right. The copy is as it was.")
    await page.ask(`document.querySelector("#grant-rights input").checked = true`)
    check("a root by its keeper", await entered("form-grant", { id: 7, parent: 0, grantor: 1, holder: 2, resource: 10, weight: 1000, left: 0, expiry: 0 }), "Granted in the copy: claim 7.")
    check("a root by another", await entered("form-grant", { id: 8, grantor: 2 }), "Refused with 6: root grant by anyone but the keeper. The copy is as it was.")
    check("taken as the register: claim 7 reads, its owner holds nothing", await page.ask(`press("Take the copy as the register").then(() => say("lines"))`),
        "verdict=refused\nviolations=2\nviolation=5\nat=0\nviolation=4\nat=1\n")
    await page.ask(`example("case-r").then(() => open_("desk-table"))`)
    check("the table: machine 2, then its owner; the claim's number by right", await page.ask(`[...document.querySelectorAll("#cover .cells tbody tr")].map((row) => [...row.querySelectorAll("td")].map((cell) => cell.textContent).slice(0, 5).join(" "))`),
        ["2 – – – –", "1 1 – – 1"])
    check("the claims: hops and state", await page.ask(`[...document.querySelectorAll("#cover table:last-child tbody tr")].map((row) => [...row.children].slice(-2).map((cell) => cell.textContent).join(" "))`), ["0 live", "1 live"])
}
// Report 11 is kept by 3 and lies inside report 10, which is kept by 1: 1 can sign nothing on 11, and a claim of 1 on 10 reaches 11.
const INNER = `register=1\nactors=3\n${[1, 2, 3].map((id) => `actor=${id}\nkind=human\nowner=0\n`).join("")}resources=2\nresource=10\npublic=0\nkeeper=1\nscope=site\nresource=11\npublic=0\nkeeper=3\nscope=site/b\nclaims=0\n`
async function outer(page) {
    await page.ask(dropped(FILES.action, [Buffer.from(INNER), Buffer.from("now=5\nactor=2\nflags=0\nuses=1\nuse=11\nright=0\ngoverns=0\n")]))
    await page.ask(`settled().then(() => press("Whose signature is missing?"))`)
    check("a signer of an outer report", await page.ask(`fire("propose-signers", "input", "1").then(() => fire("form-propose", "submit")).then(() => say("copy-said"))`),
        "At 5, in the register: refused with 26: no single grant by one of the signers would permit the use. This asks for a grant on this very report; a claim on a report whose path contains it may do too.")
    const fields = { id: 1, parent: 0, grantor: 1, holder: 2, resource: 10, weight: 1000, left: 0, expiry: 0 }
    check("whose claim on it does", await page.ask(`(async () => { const form = id("form-grant"); for (const [name, value] of Object.entries(${JSON.stringify(fields)})) form.elements[name].value = value; document.querySelector("#grant-rights input").checked = true; await fire("form-grant", "submit"); return say("copy-lines") })()`),
        "verdict=permitted\nviolations=0\n")
}
// Actor 3 holds READ and DELEGATE (1 + 16) on report 10 and signs below that claim.
async function source(page) {
    const held = INNER.replace("claims=0\n", "claims=1\nclaim=1\nparent=0\ngrantor=1\nholder=3\nresource=10\nrights=17\nweight=1000\nexpiry=9\n")
    await page.ask(dropped(FILES.action, [Buffer.from(held), Buffer.from("now=5\nactor=2\nflags=0\nuses=1\nuse=10\nright=0\ngoverns=0\n")]))
    await page.ask(`settled().then(() => press("Whose signature is missing?"))`)
    check("a proposal below a claim lasts until its source ends", await page.ask(`fire("propose-signers", "input", "3").then(() => fire("form-propose", "submit")).then(() => say("copy-said"))`),
        "At 5, in the register: human 3 signs claim 2, below claim 1, to human 2: READ on report 10, site, weight 1000, until its source ends. Grant it in the copy")
}
async function files(page) {
    const [register, action] = folder("examples/case-r").texts
    await page.ask(`example("case-r")`)
    const strange = (name) => `${name} was not taken: neither its name nor its first key says which text it is.`
    await page.ask(dropped(["notes.txt", "register.pdf"], [Buffer.from("Call the ward.\n"), Buffer.from("%PDF-1.7\n")]))
    check("files that are no texts are not taken", await page.ask(`[say("about"), say("lines"), id("text-register").value]`), [`${strange("notes.txt")} ${strange("register.pdf")}`, folder("examples/case-r").due, register.toString()])
    await page.ask(dropped(["ward-a.txt", "ward-b.txt", "today.txt"], [register, Buffer.from(INNER), action]))
    check("of two registers the first is taken, and said", await page.ask(`[say("about"), say("lines"), id("text-register").value]`),
        ["ward-a.txt was taken as the register. ward-b.txt was not taken: ward-a.txt was, as the register. today.txt was taken as the action.", folder("examples/case-r").due, register.toString()])
}
async function moments(page) {
    await page.ask(`example("case-r").then(() => type("action", "now=1999", "now=1794819600")).then(() => type("register", "expiry=2000", "expiry=1794819660"))`)
    const dated = "1794819600 (2026-11-16 09:00 UTC)"
    check("a date beside the moment, and beside an end", await page.ask(`[document.querySelector("#reasons h3").textContent, say("desk-date").trim(), id("who-spans").lastChild.textContent]`),
        [`Machine 2 at ${dated}`, "(2026-11-16 09:00 UTC)", "From 1794819660 (2026-11-16 09:01 UTC): 1. Out: 2."])
    check("on paper too", await page.ask(`dispatchEvent(new Event("beforeprint")), id("book").textContent.includes("Moment${dated}")`), true)
    for (const wrong of ["", "-1", "4294967296"]) check(`a moment "${wrong}" is not taken, and that is said`, await page.ask(`fire("desk-moment", "input", "${wrong}").then(() => say("desk-date"))`),
        `Not taken: a moment is seconds, 0 to 4,294,967,295. The desk stays at ${dated}.`)
    await page.ask(`type("register", "weight=600", "weight=1001")`)
    check("the marked line keeps its number", await page.ask(`[id("band-register").hidden, id("band-register").getBoundingClientRect().left >= id("gutter-register").getBoundingClientRect().right]`), [false, true])
}
async function naming(page) {
    await page.ask(`example("case-r").then(() => ${dropped(["names.txt"], [Buffer.from("2 Lesegerät der Dialyse\n")])})`)
    check("names are shown", await page.ask(`document.querySelector("#reasons h3").textContent`), "Machine 2 (Lesegerät der Dialyse) at 1999")
    check("and judge nothing", await page.ask(`say("lines")`), folder("examples/case-r").due)
    await page.ask(`fire("names", "input", "")`)
    const scripted = fs.readFileSync("examples/case-r/register.txt", "latin1").replace("site/a", "<script>alert(1)</script>")
    await page.ask(dropped(FILES.action, [Buffer.from(scripted), fs.readFileSync("examples/case-r/action.txt")]))
    check("a script in a path is a text", await page.ask(`[document.scripts.length, document.querySelector("#reasons h4").textContent]`), [3, "Use 0: READ on report 10, <script>alert(1)</script>: covered"])
}

// ---- the page itself

async function paper(page) {
    await page.ask(`example("case-r")`)
    const { data } = await page.send("Page.printToPDF", { paperWidth: 8.27, paperHeight: 11.69, preferCSSPageSize: true })
    check("case R and its verdict are one page of paper", Buffer.from(data, "base64").toString("latin1").match(/\/Type\s*\/Page\b/g)?.length, 1)
    await page.send("Emulation.setEmulatedMedia", { media: "print" })
    const printed = await page.ask(`dispatchEvent(new Event("beforeprint")), document.body.innerText`)
    await page.send("Emulation.setEmulatedMedia", { media: "" })
    const module_ = crypto.createHash("sha256").update(fs.readFileSync(process.env.MODULE)).digest("hex")
    const [register, action] = folder("examples/case-r").texts.map((text) => text.toString("latin1").trim())
    for (const due of [module_, "1999", folder("examples/case-r").due.trim(), register, action]) check(`on paper stands ${due.slice(0, 20)}`, printed.includes(due), true)
}
// The longest verdicts stand whole on the first sheet: 186 mm wide and 273 high are left of A4.
async function longest(browser) {
    const page = await opened(browser, { width: 703, height: 1032 })
    for (const name of ["violations_51", "plan_longest_printed"]) {
        const { kind, texts, due } = folder(path.join("tests/cases", name))
        await page.ask(dropped(FILES[kind], texts))
        await page.send("Emulation.setEmulatedMedia", { media: "print" })
        const [lines, bottom] = await page.ask(`dispatchEvent(new Event("beforeprint")), [document.querySelector("#book .verdict").textContent, document.querySelector("#book .verdict").getBoundingClientRect().bottom]`)
        await page.send("Emulation.setEmulatedMedia", { media: "" })
        check(`${name} on paper`, lines, due)
        below(`${name}: how far down the verdict goes`, bottom, 1032)
    }
    await page.close()
}
async function apart(browser) {
    let asked = 0
    const listener = http.createServer((_, answer) => (asked++, answer.end())).listen(0, "127.0.0.1")
    await new Promise((done) => listener.once("listening", done))
    const page = await opened(browser)
    const there = `http://127.0.0.1:${listener.address().port}/`
    await page.ask(`Promise.all([
        fetch("${there}", { mode: "no-cors" }).catch(() => {}),
        ...["img", "script", "iframe"].map((tag) => new Promise((done) => { const made = document.createElement(tag); made.onload = made.onerror = done; made.src = "${there}"; document.body.append(made) })),
    ])`)
    check("what is tried on purpose does not come to the listener", asked, 0)
    await new Promise((done) => http.get(there, done))
    check("which hears", asked, 1)
    listener.close()
    check("nothing is kept", await page.ask(`localStorage.length + sessionStorage.length + document.cookie.length`), 0)
    await page.close()
}
const NAMED = ["textbox", "button", "combobox", "spinbutton", "slider", "radio", "checkbox", "DisclosureTriangle"]
async function reachable(browser) {
    const page = await opened(browser)
    await page.ask(`open_("desk-whatif", "desk-table")`)
    const { nodes } = await page.send("Accessibility.getFullAXTree")
    const nameless = nodes.filter((node) => !node.ignored && NAMED.includes(node.role?.value) && !node.name?.value)
    check("every control has a name", nameless.map((node) => node.role.value), [])
    atLeast("controls", nodes.filter((node) => !node.ignored && NAMED.includes(node.role?.value)).length, 50)
    await page.ask(`document.activeElement.blur()`)
    const met = []
    for (let i = 0; i < 16; i++) {
        for (const type of ["keyDown", "keyUp"]) await page.send("Input.dispatchKeyEvent", { type, key: "Tab", code: "Tab", windowsVirtualKeyCode: 9 })
        met.push(await page.ask(`document.activeElement.id`))
    }
    check("the keyboard comes from the texts to the verdict", ["example", "kind-action", "text-register", "text-action", "lines", "copy"].filter((id) => !met.includes(id)), [])
    for (const scheme of ["light", "dark"]) {
        await page.send("Emulation.setEmulatedMedia", { features: [{ name: "prefers-color-scheme", value: scheme }] })
        for (const name of ["case-r", "stopped", "plan"]) check(`contrast of 4.5 to 1, ${scheme}, ${name}`, await page.ask(`example("${name}").then(() => ${FAINT})`), [])
    }
    await page.close()
    const narrow = await opened(browser, { width: 360, height: 700 })
    for (const name of ["case-r", "plan", "full-register"]) check(`360 wide, ${name}: nothing stands out`, await narrow.ask(`example("${name}").then(() => document.documentElement.scrollWidth)`), 360)
    await narrow.close()
}
// In the page: texts whose contrast to what is behind them is below 4.5, the bar of AA.
const FAINT = `(() => {
    const parts = (color) => color.match(/[\\d.]+/g).map(Number)
    const light = (color) => { const [r, g, b] = parts(color).map((part) => part / 255).map((part) => part <= 0.03928 ? part / 12.92 : ((part + 0.055) / 1.055) ** 2.4); return 0.2126 * r + 0.7152 * g + 0.0722 * b }
    const behind = (element) => { for (let each = element; each; each = each.parentElement) { const color = getComputedStyle(each).backgroundColor; if (parts(color)[3] !== 0) return color } return "rgb(255, 255, 255)" }
    const faint = []
    for (const element of document.querySelectorAll("body *")) {
        if (!element.checkVisibility() || ![...element.childNodes].some((node) => node.nodeType === 3 && node.textContent.trim())) continue
        const [a, b] = [light(getComputedStyle(element).color), light(behind(element))]
        const contrast = (Math.max(a, b) + 0.05) / (Math.min(a, b) + 0.05)
        if (contrast < 4.5) faint.push(element.tagName + " " + element.textContent.slice(0, 20) + " " + contrast.toFixed(2))
    }
    return faint
})()`
async function opening(browser) {
    const times = []
    for (let i = 0; i < 5; i++) {
        const page = await opened(browser)
        times.push(await page.ask(`performance.getEntriesByName("first verdict")[0].startTime`))
        await page.close()
    }
    below("milliseconds from opening to the first verdict, the best of five", Math.min(...times), 300)
    console.log(`from opening to the first verdict ${Math.min(...times).toFixed(0)} to ${Math.max(...times).toFixed(0)} ms`)
}

// ---- the views

async function views(browser) {
    const kept = fs.existsSync(KEPT) ? fs.readFileSync(KEPT, "utf8").trimEnd().split("\n") : []
    const sums = []
    for (const [name, does] of Object.entries(VIEWS)) {
        const page = await opened(browser)
        await page.ask(does)
        const seen = await page.ask(SEEN)
        sums.push(`${crypto.createHash("sha256").update(seen).digest("hex")} ${name}`)
        if (renew) {
            fs.mkdirSync("target/page", { recursive: true })
            fs.writeFileSync(`target/page/${sums.length}.txt`, seen)
            const { data } = await page.send("Page.captureScreenshot", { captureBeyondViewport: true })
            fs.writeFileSync(`target/page/${sums.length}.png`, Buffer.from(data, "base64"))
        }
        await page.close()
    }
    if (!renew) return sums.forEach((sum, i) => check(`view ${i + 1}; tests/page/run --views shows it`, sum, kept[i]))
    fs.writeFileSync(KEPT, `${sums.join("\n")}\n`)
    await picture(browser)
}

// The README's picture: case R, small.
async function picture(browser) {
    const page = await opened(browser, { width: 1200, height: 860 })
    const { data } = await page.send("Page.captureScreenshot", { clip: { x: 0, y: 0, width: 1200, height: 860, scale: 0.5 } })
    fs.writeFileSync("docs/page.png", Buffer.from(data, "base64"))
    await page.close()
}

async function main() {
    const browser = start()
    try {
        await views(browser)
        if (renew) return
        const page = await opened(browser)
        for (const part of [examples, texts, cells, typing, mending, desk, outer, source, files, moments, naming, paper]) await part(page).catch(broken)
        for (const part of [opening, longest, apart, reachable]) await part(browser).catch(broken)
        const requests = (browser.heard.get("Network.requestWillBeSent") ?? []).map(({ request }) => request.url).filter((url) => url !== ADDRESS && !url.startsWith("http://127.0.0.1:") && !url.startsWith("data:"))
        check("no request leaves a page", requests, [])
        const { processInfo } = await browser.send("SystemInfo.getProcessInfo")
        console.log(`the browser took ${Math.round(processInfo.reduce((sum, each) => sum + each.cpuTime, 0))} s of processor time`)
        check("no error is logged", (browser.heard.get("Runtime.exceptionThrown") ?? []).map(({ exceptionDetails }) => exceptionDetails.text), [])
    } finally {
        await browser.stop()
    }
}
main().catch(broken).then(() => {
    console.log(`${passed} passed, ${failed} failed`)
    process.exit(failed === 0 ? 0 : 1)
})
