// A headless Chromium, driven over its own protocol by a pipe. `open` answers a page with `send` for the protocol's calls, `ask` for an expression
// of the page, and `heard`, the events by name.
"use strict"
const { spawn } = require("child_process")
const fs = require("fs")
const os = require("os")
const path = require("path")

function start() {
    const profile = fs.mkdtempSync(path.join(os.tmpdir(), "guvrendik-page-"))
    const words = ["--headless=new", "--no-sandbox", "--disable-gpu", "--disable-extensions", "--disable-background-networking", "--no-first-run", "--hide-scrollbars",
        "--force-device-scale-factor=1", `--user-data-dir=${profile}`, "--remote-debugging-pipe", "about:blank"]
    const child = spawn("chromium", words, { stdio: ["ignore", "ignore", "ignore", "pipe", "pipe"] })
    const waiting = new Map()
    const heard = new Map()
    let last = 0
    let rest = ""
    child.stdio[4].setEncoding("utf8").on("data", (part) => {
        const messages = (rest + part).split("\0")
        rest = messages.pop()
        for (const message of messages.map((text) => JSON.parse(text))) {
            if (message.id === undefined) heard.set(message.method, [...(heard.get(message.method) ?? []), message.params])
            else waiting.get(message.id)(message)
        }
    })
    const ended = new Promise((resolve) => child.on("exit", resolve))
    function send(method, params = {}, sessionId = undefined) {
        return new Promise((resolve, reject) => {
            const id = ++last
            waiting.set(id, ({ result, error }) => (waiting.delete(id), error ? reject(new Error(`${method}: ${error.message}`)) : resolve(result)))
            child.stdio[3].write(JSON.stringify({ id, method, params, sessionId }) + "\0")
        })
    }
    async function open(address, view = {}) {
        const { targetId } = await send("Target.createTarget", { url: "about:blank" })
        const { sessionId } = await send("Target.attachToTarget", { targetId, flatten: true })
        const within = (method, params) => send(method, params, sessionId)
        for (const part of ["Page", "Network", "Runtime", "Log"]) await within(`${part}.enable`)
        await within("Emulation.setDeviceMetricsOverride", { width: 1400, height: 1000, deviceScaleFactor: 1, mobile: false, ...view })
        async function ask(expression) {
            const { result, exceptionDetails } = await within("Runtime.evaluate", { expression, awaitPromise: true, returnByValue: true })
            if (exceptionDetails) throw new Error(exceptionDetails.exception?.description ?? exceptionDetails.text)
            return result.value
        }
        await within("Page.navigate", { url: address })
        await ask(`new Promise((done) => { const look = () => document.getElementById("desk")?.getAttribute("aria-busy") === "false" ? done() : setTimeout(look, 2); look() })`)
        return { send: within, ask, heard, close: () => send("Target.closeTarget", { targetId }) }
    }
    async function stop() {
        await send("Browser.close").catch(() => {})
        await ended
        fs.rmSync(profile, { recursive: true, force: true, maxRetries: 5 })
    }
    return { open, send, stop, heard }
}
module.exports = { start }
