// Headless Firefox by Marionette, the protocol of its own over a socket.
const fs = require("fs");
const net = require("net");
const os = require("os");
const path = require("path");
const { spawn } = require("child_process");
const { PLAYS, untilIn } = require("./browser.js");

const CTRL = 2, SHIFT = 8;
// The letters by which WebDriver names keys that are none.
const KEYS = {
  Backspace: "\ue003", Tab: "\ue004", Enter: "\ue007", Shift: "\ue008", Control: "\ue009", Escape: "\ue00c", PageUp: "\ue00e", PageDown: "\ue00f",
  End: "\ue010", Home: "\ue011", ArrowLeft: "\ue012", ArrowUp: "\ue013", ArrowRight: "\ue014", ArrowDown: "\ue015", Delete: "\ue017",
};
// The window's size in pixels: all pages have room in it.
const WINDOW = { width: 2700, height: 1600 };

const SETTINGS = {
  "marionette.port": 0, "app.update.enabled": false, "browser.shell.checkDefaultBrowser": false, "datareporting.policy.dataSubmissionEnabled": false,
  "browser.startup.page": 0, "startup.homepage_welcome_url": "", "toolkit.cosmeticAnimations.enabled": false, "remote.prefs.recommended": true,
  "browser.download.folderList": 2, "browser.download.useDownloadDir": true, "browser.download.alwaysOpenPanel": false, "browser.helperApps.neverAsk.saveToDisk": "text/plain",
};

class Firefox {
  static async start() {
    const profile = fs.mkdtempSync(path.join(os.tmpdir(), "page-"));
    fs.writeFileSync(path.join(profile, "user.js"), Object.entries(SETTINGS).map(([name, value]) => `user_pref(${JSON.stringify(name)}, ${JSON.stringify(value)});\n`).join(""));
    const child = spawn("firefox-esr", ["--headless", "--marionette", "--remote-allow-system-access", "--no-remote", "--profile", profile], { stdio: "ignore" });
    const port = await Firefox.portOf(child, profile);
    const socket = net.connect(port, "127.0.0.1"), browser = new Firefox(child, profile, socket);
    await browser.greeted;
    await browser.call("WebDriver:NewSession", { capabilities: { alwaysMatch: { acceptInsecureCerts: true } } });
    await browser.call("WebDriver:SetWindowRect", WINDOW);
    await browser.call("WebDriver:SetTimeouts", { script: 120000, pageLoad: 60000 });
    return browser;
  }

  // It writes the port on which it listens into its profile.
  static async portOf(child, profile) {
    let ended = null;
    child.once("error", (error) => { ended = error.message; });
    child.once("exit", (status) => { ended = `status ${status}`; });
    for (let k = 0; k < 1200; k++) {
      if (ended !== null) throw new Error(`firefox-esr ends: ${ended}`);
      const file = path.join(profile, "MarionetteActivePort"), port = fs.existsSync(file) ? +fs.readFileSync(file, "utf8") : 0;
      if (port) return port;
      await new Promise((done) => setTimeout(done, 50));
    }
    throw new Error("firefox-esr listens on no port");
  }

  constructor(child, profile, socket) {
    Object.assign(this, { child, profile, socket, waiting: new Map(), number: 0, rest: Buffer.alloc(0), seen: 0, messages: [] });
    this.greeted = new Promise((done) => { this.greet = done; });
    socket.on("data", (part) => this.hear(part));
  }

  // Each message is its length, a colon, and JSON.
  hear(part) {
    this.rest = Buffer.concat([this.rest, part]);
    for (;;) {
      const colon = this.rest.indexOf(58), size = colon < 0 ? NaN : +this.rest.subarray(0, colon);
      if (!(this.rest.length >= colon + 1 + size)) return;
      const told = JSON.parse(this.rest.subarray(colon + 1, colon + 1 + size));
      this.rest = this.rest.subarray(colon + 1 + size);
      if (!Array.isArray(told)) {
        this.greet();
        continue;
      }
      const [, id, error, result] = told, { done, failed } = this.waiting.get(id);
      this.waiting.delete(id);
      if (error) failed(new Error(`${error.error}: ${error.message}`));
      else done(result);
    }
  }

  call(name, params = {}) {
    return new Promise((done, failed) => {
      this.waiting.set(++this.number, { done, failed });
      const text = Buffer.from(JSON.stringify([0, this.number, name, params]));
      this.socket.write(Buffer.concat([Buffer.from(`${text.length}:`), text]));
    });
  }

  // Runs a script in the browser's own window.
  async inBrowser(script, args = []) {
    await this.call("Marionette:SetContext", { value: "chrome" });
    try {
      return (await this.call("WebDriver:ExecuteScript", { script, args })).value;
    } finally {
      await this.call("Marionette:SetContext", { value: "content" });
    }
  }

  // A page of a size at an address; what the page kept is forgotten, or stays where that is asked.
  async open(address, width, height, { isDark = false, ready = PLAYS, keeps = false } = {}) {
    await this.hearConsole();
    await this.inBrowser(`Services.prefs.setIntPref("layout.css.prefers-color-scheme.content-override", ${isDark ? 0 : 1});`);
    await this.call("WebDriver:Navigate", { url: "about:blank" });
    await this.call("WebDriver:Navigate", { url: address });
    await this.until(ready);
    await this.setSize(width, height);
    if (keeps) return;
    // The page must not write its draft once more as it goes.
    await this.evaluate("typeof writeDraft == 'function' && (clearTimeout(keepDraft.later), removeEventListener('pagehide', writeDraft), writeDraft = () => {}); localStorage.clear()");
    await this.call("WebDriver:Refresh");
    await this.until(ready);
  }

  // A window has a least width: so the page's place in it gets the size.
  async setSize(width, height) {
    await this.inBrowser("for (const side of ['width', 'height']) for (const it of [side, `min-${side}`, `max-${side}`]) gBrowser.selectedBrowser.style.setProperty(it, `${arguments[0][side]}px`);", [{ width, height }]);
    for (let k = 0; k < 100; k++) if (await this.evaluate(`innerWidth == ${width} && innerHeight == ${height}`)) return;
    throw new Error(`no page of ${width} by ${height}`);
  }

  // The expression is evaluated as a script of the page, so it sees what the page's scripts declare.
  async evaluate(expression) {
    const script = `const [expression, done] = arguments;
      (async () => window.eval(expression))().then((value) => done({ value }), (error) => done({ error: error.name + ": " + error.message + "\\n" + error.stack }));`;
    const { value } = await this.call("WebDriver:ExecuteAsyncScript", { script, args: [expression] });
    if (value.error) throw new Error(value.error);
    return value.value ?? undefined;
  }

  until(expression, tries) {
    return untilIn(this, expression, tries);
  }

  async key(key, modifiers = 0) {
    const held = [modifiers & CTRL && KEYS.Control, modifiers & SHIFT && KEYS.Shift].filter((it) => it), value = KEYS[key] ?? key;
    const actions = [...held.map((it) => ({ type: "keyDown", value: it })), { type: "keyDown", value }, { type: "keyUp", value }, ...held.reverse().map((it) => ({ type: "keyUp", value: it }))];
    await this.call("WebDriver:PerformActions", { actions: [{ type: "key", id: "keys", actions }] });
  }

  async point(pointerType, actions) {
    await this.call("WebDriver:PerformActions", { actions: [{ type: "pointer", id: pointerType, parameters: { pointerType }, actions }] });
  }

  async mouse(type, x, y) {
    const move = { type: "pointerMove", x: Math.round(x), y: Math.round(y), duration: 0 };
    const then = { mousePressed: [{ type: "pointerDown", button: 0 }], mouseReleased: [{ type: "pointerUp", button: 0 }], mouseMoved: [] }[type];
    await this.point("mouse", [move, ...then]);
  }

  async click(x, y) {
    await this.mouse("mousePressed", x, y);
    await this.mouse("mouseReleased", x, y);
  }

  async touch(type, x, y) {
    const move = { type: "pointerMove", x: Math.round(x ?? 0), y: Math.round(y ?? 0), duration: 0 };
    await this.point("touch", { touchStart: [move, { type: "pointerDown", button: 0 }], touchMove: [move], touchEnd: [{ type: "pointerUp", button: 0 }] }[type]);
  }

  async saveTo(folder) {
    await this.inBrowser("Services.prefs.setStringPref('browser.download.dir', arguments[0]);", [folder]);
  }

  async shot(file) {
    const { value } = await this.call("WebDriver:TakeScreenshot", { full: false });
    fs.writeFileSync(file, Buffer.from(value, "base64"));
  }

  // Keeps what the consoles of the pages were told so far: errors and warnings of scripts and styles, and calls of console.
  async hearConsole() {
    const told = await this.inBrowser(`
      const storage = Cc["@mozilla.org/consoleAPI-storage;1"].getService(Ci.nsIConsoleAPIStorage);
      const called = storage.getEvents().filter((it) => /^file:/.test(it.filename)).map((it) => [...it.arguments].join(" "));
      const errors = Services.console.getMessageArray().filter((it) => it instanceof Ci.nsIScriptError && /^file:/.test(it.sourceName)).map((it) => it.errorMessage);
      storage.clearEvents();
      Services.console.reset();
      return [...called, ...errors];`);
    this.messages.push(...told);
  }

  async told() {
    await this.hearConsole();
    return this.messages;
  }

  async stop() {
    await this.call("Marionette:Quit", { flags: ["eForceQuit"] }).catch(() => {});
    this.socket.destroy();
    if (this.child.exitCode === null) await new Promise((done) => {
      const late = setTimeout(() => this.child.kill("SIGKILL"), 10000);
      this.child.on("exit", () => { clearTimeout(late); done(); });
    });
    fs.rmSync(this.profile, { recursive: true, force: true, maxRetries: 5 });
  }
}

module.exports = { Firefox };
