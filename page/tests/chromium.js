// Headless Chromium by its DevTools protocol, over a pipe.
const fs = require("fs");
const os = require("os");
const path = require("path");
const { spawn } = require("child_process");
const { PLAYS, untilIn } = require("./browser.js");

const CTRL = 2;
// What these keys put into a text, and their numbers: without them Enter presses no button.
const TEXTS = { Enter: "\r", Tab: undefined };
const NUMBERS = { Enter: 13, Tab: 9 };

class Chromium {
  static async start() {
    const profile = fs.mkdtempSync(path.join(os.tmpdir(), "page-"));
    const flags = ["--headless=new", "--no-sandbox", "--disable-gpu", "--remote-debugging-pipe", `--user-data-dir=${profile}`];
    const child = spawn("chromium", [...flags, "about:blank"], { stdio: ["ignore", "ignore", "ignore", "pipe", "pipe"] });
    const browser = new Chromium(child, profile);
    await new Promise((done, failed) => {
      child.once("error", failed);
      child.once("exit", (status) => failed(new Error(`chromium ends with status ${status}`)));
      browser.call("Browser.getVersion").then(done, failed);
    });
    return browser;
  }

  constructor(child, profile) {
    const [, , , to, from] = child.stdio;
    Object.assign(this, { child, profile, to, waiting: new Map(), number: 0, messages: [], rest: "" });
    to.on("error", () => {}); // it has ended, which is told by its status
    from.setEncoding("utf8");
    from.on("data", (text) => {
      const told = (this.rest + text).split("\0");
      this.rest = told.pop();
      told.forEach((it) => this.hear(JSON.parse(it)));
    });
  }

  hear(told) {
    if (told.id) {
      const { done, failed } = this.waiting.get(told.id);
      this.waiting.delete(told.id);
      return told.error ? failed(new Error(JSON.stringify(told.error))) : done(told.result);
    }
    const { method, params } = told;
    if (method == "Runtime.consoleAPICalled") this.messages.push(params.args.map((it) => it.value ?? it.description).join(" "));
    if (method == "Runtime.exceptionThrown") this.messages.push(params.exceptionDetails.exception?.description ?? params.exceptionDetails.text);
    if (method == "Log.entryAdded") this.messages.push(params.entry.text);
  }

  call(method, params = {}, sessionId = this.session) {
    return new Promise((done, failed) => {
      this.waiting.set(++this.number, { done, failed });
      this.to.write(`${JSON.stringify({ id: this.number, method, params, sessionId: sessionId ?? undefined })}\0`);
    });
  }

  // A new tab of a size, at an address, in the place of the one before; what the page kept is forgotten, or stays where that is asked.
  async open(address, width, height, { isDark = false, isTouch = false, scale = 1, ready = PLAYS, keeps = false } = {}) {
    const { targetId } = await this.call("Target.createTarget", { url: "about:blank" }, null);
    if (this.tab) await this.call("Target.closeTarget", { targetId: this.tab }, null);
    this.tab = targetId;
    this.session = (await this.call("Target.attachToTarget", { targetId, flatten: true }, null)).sessionId;
    for (const domain of ["Page", "Runtime", "Log"]) await this.call(`${domain}.enable`);
    await this.call("Emulation.setDeviceMetricsOverride", { width, height, deviceScaleFactor: scale, mobile: isTouch });
    await this.call("Emulation.setEmulatedMedia", { features: [{ name: "prefers-color-scheme", value: isDark ? "dark" : "light" }] });
    const forget = keeps ? null : await this.call("Page.addScriptToEvaluateOnNewDocument", { source: "localStorage.clear()" });
    await this.call("Page.navigate", { url: address });
    await this.until(ready);
    if (forget) await this.call("Page.removeScriptToEvaluateOnNewDocument", forget);
  }

  async evaluate(expression) {
    const { result, exceptionDetails } = await this.call("Runtime.evaluate", { expression, returnByValue: true, awaitPromise: true });
    if (exceptionDetails) throw new Error(exceptionDetails.exception?.description ?? exceptionDetails.text);
    return result.value;
  }

  until(expression, tries) {
    return untilIn(this, expression, tries);
  }

  async key(key, modifiers = 0) {
    const text = key in TEXTS ? TEXTS[key] : key.length == 1 && !(modifiers & CTRL) ? key : undefined, windowsVirtualKeyCode = NUMBERS[key];
    await this.call("Input.dispatchKeyEvent", { type: "keyDown", key, text, modifiers, windowsVirtualKeyCode });
    await this.call("Input.dispatchKeyEvent", { type: "keyUp", key, modifiers, windowsVirtualKeyCode });
  }

  async mouse(type, x, y, buttons = 1) {
    await this.call("Input.dispatchMouseEvent", { type, x, y, button: type == "mouseMoved" && !buttons ? "none" : "left", buttons, clickCount: 1 });
  }

  async click(x, y) {
    await this.mouse("mousePressed", x, y);
    await this.mouse("mouseReleased", x, y, 0);
  }

  // One finger: "touchStart" and "touchMove" at a point, "touchEnd".
  async touch(type, x, y) {
    await this.call("Input.dispatchTouchEvent", { type, touchPoints: type == "touchEnd" ? [] : [{ x, y }] });
  }

  async saveTo(folder) {
    await this.call("Browser.setDownloadBehavior", { behavior: "allow", downloadPath: folder }, null);
  }

  async shot(file) {
    const { data } = await this.call("Page.captureScreenshot", { format: "png" });
    fs.writeFileSync(file, Buffer.from(data, "base64"));
  }

  // What the console was told.
  async told() {
    return this.messages;
  }

  stop() {
    return new Promise((done) => {
      this.child.removeAllListeners("exit");
      this.child.on("exit", () => {
        fs.rmSync(this.profile, { recursive: true, force: true, maxRetries: 5 });
        done();
      });
      this.child.kill();
    });
  }
}

module.exports = { Chromium };
