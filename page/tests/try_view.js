// node try_view.js BROWSER PAGE EXPECTED [SHOTS]: opens a page of `btview page` in a headless browser, and uses it as hands do: it draws by the same scripts as play.html. PAGE shows 70 frames of levels/warehouse by its script, EXPECTED holds their text.
const fs = require("fs");
const path = require("path");
const { pathToFileURL } = require("url");
const { startBrowser } = require("./browser.js");
const [name, page, expected, shots] = process.argv.slice(2);
const SHIFT = 8, address = pathToFileURL(path.resolve(page)).href, ready = "window.btview ? 1 : 0";

let wrong = 0;
function look(fact, what) {
  console.log(`${fact ? "ok" : "WRONG"}: ${what}`);
  wrong += !fact;
}
const same = (is, wanted, what) => look(JSON.stringify(is) === JSON.stringify(wanted), `${what}${JSON.stringify(is) === JSON.stringify(wanted) ? "" : `: ${JSON.stringify(is)}, not ${JSON.stringify(wanted)}`}`);

async function main(browser) {
  const value = (expression) => browser.evaluate(expression), text = (id) => value(`document.getElementById("${id}").textContent`);
  const shot = async (name) => { if (shots) await browser.shot(path.join(shots, `${name}.png`)); };
  const click = async (selector) => browser.click(...await value(`(() => { const box = document.querySelector("${selector}").getBoundingClientRect(); return [box.left + box.width / 2, box.top + box.height / 2]; })()`));
  const drawn = (id) => value(`(() => { const canvas = document.getElementById("${id}"), bytes = canvas.getContext("2d").getImageData(0, 0, canvas.width, canvas.height).data; return new Set(new Uint32Array(bytes.buffer)).size; })()`);
  await browser.open(address, 1280, 800, { ready });
  look(Buffer.from(await value("Array.from({ length: btview.frames }, (_, k) => btview.textOf(k + 1)).join('')")).equals(fs.readFileSync(expected)), "the frames unroll to btworld's text");
  look(Buffer.from(await value("Array.from({ length: btview.frames }, (_, k) => btview.textOf(btview.frames - k)).reverse().join('')")).equals(fs.readFileSync(expected)), "also from the last to the first");
  const agents = await value(`(() => { let bad = 0; for (let f = 1; f <= N; f++) { const lines = textOf(f).trimEnd().split("\\n").slice(-A); for (let a = 0; a < A; a++) { const at = f * A + a; if (lines[a] != letterOf(a) + " " + "SFR"[film.answer[at]] + " " + film.cell(f, a) + " " + (film.loaded[at] ? "*" : "-")) bad++; } } return bad; })()`);
  same(agents, 0, "and so do the agents");
  same([await text("frameName"), await text("signals")], ["frame 1", "signals on: none"], "the first frame");
  for (const id of ["map", "overview", "lanes"]) look(await drawn(id) > 4, `${id} is drawn`);
  await browser.key("ArrowRight");
  await browser.key("ArrowRight", SHIFT);
  same([await text("frameName"), await text("signals"), await text("jobsName")], ["frame 12signal a on", "signals on: a", "Jobs around frame 12"], "Right, Shift+Right");
  await browser.key("PageDown");
  await browser.key("PageUp");
  await browser.key("End");
  same([await text("frameName"), await text("signals")], ["frame 70", "signals on: a b"], "End");
  await browser.key("Home");
  await browser.key("a");
  same([await value("chosen"), await text("frameName")], [-1, "frame 12signal a on"], "a goes to the frame in which the script switches a");
  await browser.key("b");
  await browser.key("b");
  same(await text("frameName"), "frame 30signal b on", "and b to that of b, the only one");
  await browser.key("Home");
  await browser.key("A", SHIFT);
  same([await value("chosen"), await value("document.querySelectorAll('#detail .leaf').length > 10")], [0, true], "A chooses A, and its tree stands there");
  await browser.key("ArrowDown");
  await browser.key("ArrowDown");
  same(await text("frameName"), "frame 10", "Down: A's next change but one");
  await browser.key("ArrowUp");
  same(await text("frameName"), "frame 6", "Up: the one before");
  await browser.key("A", SHIFT);
  same(await value("chosen"), -1, "A chooses none");
  await click("#agents tr:nth-child(3) .letter");
  same(await value("chosen"), 2, "a click on a letter");
  await browser.key("Escape");
  await browser.key("?");
  await browser.key("Tab");
  same(await value("[document.getElementById('help').hidden, document.activeElement.id]"), [false, "helpText"], "? shows the help, Tab stays in it");
  await shot("view_help");
  await browser.key("?");
  same(await value("document.getElementById('help').hidden"), true, "? closes it");
  await browser.key("]");
  const zoomed = await value("scene.place.cell");
  await browser.key("=");
  look(zoomed > await value("scene.place.cell"), "] zooms the map, = fits it");
  await browser.key("+");
  await browser.key("-");
  await browser.key("0");
  await browser.key("1");
  same(await value("getComputedStyle(document.getElementById('jobs')).display"), "none", "1: the map alone");
  await browser.key("1");
  await browser.key(".");
  same(await value("document.getElementById('speed').value"), "10", ". is faster");
  await browser.key(" ");
  look(await browser.until("shown > 12"), "space plays");
  await browser.key(" ");
  same(await value("playing"), false, "and pauses");
  await value("show(25)");
  const [left, top, cell] = await value("(() => { const box = document.getElementById('map').getBoundingClientRect(), { left, top, cell } = scene.place; return [box.left + left, box.top + top, cell]; })()");
  await browser.click(left + (await value("film.x[25 * A + 1]") + .5) * cell, top + (await value("film.y[25 * A + 1]") + .5) * cell);
  same(await value("chosen"), 1, "a click on an agent of the map");
  await browser.mouse("mouseMoved", left + 11.5 * cell, top + 1.5 * cell, 0);
  same(await text("mapInfo"), "11,1  place 4, agent A", "the pointer's cell is told");
  await value("choose(-1)");
  await shot("view");
  await browser.open(address, 1280, 800, { ready, isDark: true });
  await value("show(25); choose(0)");
  const paper = () => value("(() => { const { data } = document.getElementById('lanes').getContext('2d').getImageData(2, 2, 1, 1); return data[0] + data[1] + data[2]; })()");
  look(await paper() < 200 && await value("getComputedStyle(document.body).backgroundColor") == "rgb(17, 22, 29)", "dark where that is wanted, the jobs too");
  await shot("view_dark");
  for (const [width, height] of [[360, 640], [390, 844], [1024, 768], [1920, 1080]]) {
    await browser.open(address, width, height, { ready, scale: width < 900 ? 2 : 1, isTouch: width < 900 });
    await value("show(25)");
    const beyond = await value("[...document.querySelectorAll('button, input, select, canvas, .panel, th, td')].filter((it) => { const box = it.getBoundingClientRect(); return box.width > 0 && (box.right > innerWidth + 1 || box.left < -1); }).map((it) => it.id || it.outerHTML.slice(0, 60))");
    same([beyond, await value("document.documentElement.scrollWidth <= innerWidth")], [[], true], `${width} by ${height}: nothing sticks out`);
    if (width == 390) await shot("view_phone");
  }
  same(await browser.told(), [], "no message on the console");
}

startBrowser(name).then(async (browser) => {
  await main(browser).catch((error) => {
    console.log(`WRONG: ${error.stack}`, browser.messages);
    wrong++;
  });
  await browser.stop();
  console.log(wrong ? `${wrong} wrong` : "all well");
  process.exit(wrong ? 1 : 0);
});
