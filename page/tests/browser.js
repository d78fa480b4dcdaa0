// What the drivers of both browsers share.

// Whether play.html plays.
const PLAYS = "window.btworld && (btworld.state.film || btworld.state.fault) ? 1 : 0";

// Waits for an expression to hold, for five seconds if nothing else is said; answers whether it does.
async function untilIn(browser, expression, tries = 200) {
  for (let k = 0; k < tries; k++) {
    if (await browser.evaluate(expression)) return true;
    await new Promise((done) => setTimeout(done, 25));
  }
  return false;
}

// Starts the browser of a name: "chromium" or "firefox".
const startBrowser = (name) => (name == "firefox" ? require("./firefox.js").Firefox : require("./chromium.js").Chromium).start();

module.exports = { PLAYS, untilIn, startBrowser };
