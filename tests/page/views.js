// The ten views, and what is on one: the texts by role. A view is what is done on a page that was just opened.
"use strict"

// In the page: chooses an example, opens parts, and waits until all is drawn; drops files, and waits until the verdict is explained.
const HELP = `
    window.id = (name) => document.getElementById(name)
    window.quiet = (name) => new Promise((done) => {
        const look = () => id(name).getAttribute("aria-busy") === "false"
        if (look()) return done()
        const watch = new MutationObserver(() => look() && (watch.disconnect(), done()))
        watch.observe(id(name), { attributes: true })
    })
    window.explained = () => quiet("verdict")
    window.settled = () => explained().then(() => quiet("desk"))
    window.fire = async (name, event, value) => {
        if (value !== undefined) id(name).value = value
        id(name).dispatchEvent(event === "submit" ? new SubmitEvent(event, { cancelable: true }) : new Event(event))
        await settled()
    }
    window.example = (name) => fire("example", "change", name)
    window.open_ = async (...names) => { for (const name of names) id(name).open = true; await new Promise((done) => setTimeout(done, 20)) }
    window.drop = async (files) => {
        const transfer = new DataTransfer()
        for (const [name, text] of Object.entries(files)) transfer.items.add(new File([Uint8Array.from(atob(text), (letter) => letter.charCodeAt(0))], name))
        document.body.dispatchEvent(new DragEvent("drop", { dataTransfer: transfer, bubbles: true, cancelable: true }))
        await explained()
    }
    window.type = (name, from, to) => fire("text-" + name, "input", id("text-" + name).value.replace(from, to))
    window.press = async (words) => { [...document.querySelectorAll("button")].find((each) => each.textContent === words).click(); await settled() }
    window.say = (name) => id(name).textContent
    void 0`

const VIEWS = {
    "case-r": `0`,
    "refused with five uses, an owner who lacks one": `example("refused")`,
    "a claim that has ended": `type("action", "now=1999", "now=2000")`,
    "an unsound register": `example("stopped")`,
    "a line that fails": `type("register", "weight=600", "weight=1001")`,
    "a plan, its second action opened": `example("plan").then(() => { document.querySelectorAll("#reasons details")[1].open = true; return new Promise((done) => setTimeout(done, 20)) })`,
    "a JSON action": `example("json")`,
    "what if: a proposal that is granted": `press("Whose signature is missing?").then(() => press("Grant it in the copy"))`,
    "the technician's table, with names": `open_("desk-table").then(() => fire("names", "input", "1 Keeper\\n2 Reader of unit 4\\n"))`,
    "a moment at which the reader is out": `fire("desk-moment", "input", "2000")`,
}

// In the page: a line to each text that is seen, with the role of the element that has it. The version and the sum of the module are left out.
const SEEN = `(() => {
    const roles = { P: "paragraph", H1: "heading", H2: "heading", H3: "heading", H4: "heading", LI: "item", TH: "head", TD: "cell", PRE: "text", BUTTON: "button", SUMMARY: "opens",
        LABEL: "label", LEGEND: "label", CAPTION: "caption", TEXTAREA: "edited", SELECT: "chosen", INPUT: "field", INS: "came", DEL: "went" }
    const lines = []
    const walk = (element) => {
        if (element.id === "made-of" || element.ariaHidden === "true" || !element.checkVisibility()) return
        const role = element.getAttribute("role") ?? roles[element.tagName]
        const own = element.tagName === "SELECT" ? element.selectedOptions[0]?.text : ["TEXTAREA", "INPUT"].includes(element.tagName)
            ? ["checkbox", "radio"].includes(element.type) ? String(element.checked) : element.value
            : [...element.childNodes].filter((node) => node.nodeType === 3 || ["STRONG", "SPAN", "CODE"].includes(node.nodeName)).map((node) => node.textContent).join("|")
        if (role && own && own.trim()) lines.push(role + ": " + own.trim() + (element.closest(".dead") ? " (dead)" : ""))
        if (element.tagName !== "SELECT") for (const child of element.children) walk(child)
    }
    walk(document.body)
    return lines.join("\\n") + "\\n"
})()`

module.exports = { HELP, VIEWS, SEEN }
