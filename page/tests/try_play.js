// node try_play.js BROWSER PAGE TOP EXPECTED [SHOTS]: opens play.html in a headless browser, chromium or firefox, uses it as hands do, and
// says what it takes of time. EXPECTED holds the 70 frames of levels/warehouse that btworld writes. SHOTS is a folder for pictures.
const fs = require("fs");
const path = require("path");
const { pathToFileURL } = require("url");
const { startBrowser } = require("./browser.js");
const { tryWhy } = require("./why.js");
const { tryTree } = require("./tree.js");
const { tryTexts } = require("./texts.js");
const { tryLessons } = require("./lessons.js");
const { tryLooks } = require("./looks.js");
const [name, page, top, expected, shots] = process.argv.slice(2);
const CTRL = 2, SHIFT = 8;
const address = pathToFileURL(path.resolve(page)).href;
const levelOf = (name) => fs.readFileSync(path.join(top, "levels", `${name}.json`), "utf8");
const pause = (milliseconds) => new Promise((done) => setTimeout(done, milliseconds));

let wrong = 0;
function look(fact, what) {
  console.log(`${fact ? "ok" : "WRONG"}: ${what}`);
  wrong += !fact;
}
const same = (is, wanted, what) => look(JSON.stringify(is) === JSON.stringify(wanted), `${what}${JSON.stringify(is) === JSON.stringify(wanted) ? "" : `: ${JSON.stringify(is)}, not ${JSON.stringify(wanted)}`}`);

// Each frame that the film shows, and its digest, against a game that plays level and script from their start.
const compare = `(async () => {
  const { texts, film, total } = btworld.state, fresh = world.open(texts.level, texts.script).game, decoder = new TextDecoder();
  while (film.count < total) await new Promise((done) => requestAnimationFrame(done));
  let bad = film.level == texts.level ? 0 : 1;
  for (let frame = 1; frame <= film.count; frame++) {
    world.step(fresh);
    const text = decoder.decode(world.text(fresh).bytes), digest = world.digest(fresh).toString(16).padStart(16, "0");
    if (decoder.decode(film.text(frame)) != text || film.digest(frame) != digest) bad++;
    const lines = text.trimEnd().split("\\n").slice(-film.agents);
    for (let a = 0; a < film.agents; a++) {
      const at = frame * film.agents + a, said = letterOf(a) + " " + "SFR"[film.answer[at]] + " " + film.x[at] + "," + film.y[at] + " " + (film.loaded[at] ? "*" : "-");
      if (lines[a] != said) bad++;
    }
  }
  world.close(fresh);
  return bad;
})()`;

async function main(browser) {
  const value = (expression) => browser.evaluate(expression);
  const texts = () => value("btworld.state.texts");
  const shot = async (name) => { if (shots) await browser.shot(path.join(shots, `${name}.png`)); };
  const type = (which, text) => value(`(() => { const { area } = editors.${which}; area.value = ${JSON.stringify(text)}; area.dispatchEvent(new Event("input")); return btworld.state.fault; })()`);
  const middle = (id) => value(`(() => { const box = document.getElementById("${id}").getBoundingClientRect(); return [box.left + box.width / 2, box.top + box.height / 2]; })()`);
  const cellMiddle = (x, y) => value(`(() => { const box = document.getElementById("map").getBoundingClientRect(), { left, top, cell } = scene.place; return [box.left + left + (${x} + .5) * cell, box.top + top + (${y} + .5) * cell]; })()`);
  const load = (name, script = "", frames = 100) => value(`btworld.setPlaying(false), btworld.load(${JSON.stringify({ name, level: levelOf(name), script, frames })})`);

  console.log("-- the first look");
  await browser.open(address, 1280, 800);
  console.log("milliseconds until the first frame is drawn:", await value("Math.round(btworld.startedAt)"));
  same(await value("[btworld.state.isPlaying, btworld.state.chosen, outline.nodes.length > 20]"), [true, 0, true], "it plays at once, and A's tree stands there");
  look(await browser.until("btworld.state.film.count >= 70 && btworld.state.wanted > 2"), "and gets on");
  await browser.key(" ");
  same(await value("btworld.state.isPlaying"), false, "space pauses");
  await value("btworld.setTotal(70)");
  const written = await value("btworld.framesText().then((parts) => new Blob(parts).text())");
  look(Buffer.from(written).equals(fs.readFileSync(expected)), `the frames that are saved are the native program's ${written.length} bytes`);
  const drawn = await value("Array.from({ length: 70 }, (_, k) => new TextDecoder().decode(btworld.state.film.text(k + 1))).join('')");
  look(Buffer.from(drawn).equals(fs.readFileSync(expected)), "and so are those that are shown");
  const back = await value("Array.from({ length: 70 }, (_, k) => new TextDecoder().decode(btworld.state.film.text(70 - k))).reverse().join('')");
  look(back == drawn, "also from the last to the first");
  same(await value(compare), 0, "frames, digests and agents as of a game with the script");

  console.log("-- keys");
  await browser.key("Home");
  await browser.key("Escape");
  same(await value("[btworld.state.wanted, btworld.state.chosen]"), [0, -1], "Home, Esc");
  await browser.key("ArrowRight");
  await browser.key("ArrowRight", SHIFT);
  same(await value("btworld.state.wanted"), 11, "Right, Shift+Right");
  await browser.key("A", SHIFT);
  same(await value("btworld.state.chosen"), 0, "Shift+A chooses A");
  await browser.key("ArrowDown");
  same(await value("document.getElementById('frameName').textContent"), "frame 14", "Down: A's next change");
  await browser.key("Escape");
  same(await value("btworld.state.chosen"), -1, "Esc chooses none");
  await browser.key("?");
  let isWithin = true;
  for (let k = 0; k < 12; k++) {
    await browser.key("Tab");
    isWithin &&= await value("document.getElementById('help').contains(document.activeElement) && document.activeElement.id != 'helpText'");
  }
  same([await value("document.getElementById('help').hidden"), isWithin], [false, true], "? shows the help, Tab stays in it");
  const pages = await value("[...document.querySelectorAll('#helpHead [data-help]')].map((tab) => { tab.click(); return document.getElementById(tab.dataset.help).textContent.length > 500 && document.querySelectorAll('#helpText > .page:not([hidden])').length == 1; })");
  same(pages, [true, true, true, true], "its four pages");
  await shot("help");
  await browser.key("Escape");
  await value("window.scrolled = document.getElementById('levelCode').scrollTop");
  await browser.key("2");
  same(await value("[document.activeElement == editors.level.area, document.getElementById('levelCode').scrollTop == scrolled, editors.level.area.selectionStart]"), [true, true, 0], "2 goes to the level's text, and scrolls it nowhere");
  await browser.key("Escape");
  await browser.key("1");
  await browser.key(".");
  same(await value("document.getElementById('pace').textContent"), "10 a second", ". is faster");
  await browser.key(",");

  console.log("-- the end of a run");
  await load("warehouse", "", 40);
  await value("setSpeed(5); btworld.show(30); btworld.setPlaying(true)");
  look(await browser.until("!btworld.state.isPlaying"), "play stops");
  same(await value("[btworld.state.wanted, btworld.state.total]"), [40, 40], "at the last frame");
  await value("setSpeed(2)");
  await browser.key(" ");
  look(await browser.until("btworld.state.isPlaying && btworld.state.wanted < 40"), "and begins anew there");
  await browser.click(...await middle("endless"));
  await value("btworld.show(35); btworld.setPlaying(true)");
  look(await browser.until("btworld.state.wanted > 60"), "\u221e plays on past it");
  await browser.click(...await middle("endless"));
  await value("btworld.setPlaying(false); setSpeed(1)");
  await load("warehouse", "12 on a\n30 on b\n99 off a\n", 70);
  await browser.until("btworld.state.film.count == 70");

  console.log("-- the editor");
  const level = levelOf("warehouse"), explains = await value("world.calls.btworld_explain !== undefined");
  await value("btworld.show(25)");
  same(await type("level", level.slice(0, 200)), "level: json", "broken text");
  look(/^level: json(line \d+, column \d+: .+)?$/.test(await value("document.getElementById('levelFault').textContent")), await value("document.getElementById('levelFault').textContent"));
  same(await value("[btworld.state.film.count, document.getElementById('frameName').textContent]"), [70, "frame 25"], "the last good game stays");
  same(await type("level", level.replace('["move", "7"]', '["move", "9"]')), "level: tree visitor names a place that is not on the map", "a place that isn't there");
  const line = level.split("\n").findIndex((it) => it.includes('["move", "7"]'));
  if (explains) same(await value("[editors.level.line, editors.level.isWrong, document.querySelectorAll('#levelCode .line.wrong').length]"), [line, true, 1], `its line ${line + 1} is marked`);
  await value("setPage('level')");
  await shot("fault");
  same(await type("level", level.replace('["move", "7"]', '["move", "8"]')), "", "mended");
  same(await value(compare), 0, "and played");
  same(await type("script", "12 on a\n3 on b\n"), "script: order at line 2", "a fault of the script");
  const [marked, said] = await value("[editors.script.line, document.getElementById('scriptFault').textContent]");
  look(explains ? marked == 1 && said.startsWith("script: order at line 2line 2: ") : marked === null && said == "script: order at line 2", `stands at the script: ${said}`);
  same(await type("script", "12 on a\n30 on b\n"), "", "mended");
  for (let k = 0; k < 6 && (await texts()).level != level; k++) await browser.key("z", CTRL);
  same((await texts()).level == level && (await texts()).script, "12 on a\n30 on b\n99 off a\n", "Ctrl+Z goes back to the first texts");
  same(await value(compare), 0, "and these play");

  console.log("-- paint");
  await value("setPage('level'); btworld.show(25)");
  await browser.click(...await middle("paint"));
  same(await value("[btworld.state.isPainting, btworld.state.wanted]"), [true, 0], "painting shows the start");
  same(await value("[document.getElementById('note').textContent.startsWith('painting'), [...document.querySelectorAll('button')].filter((it) => it.getAttribute('aria-label') == 'undo' || it.textContent.toLowerCase() == 'undo').length]"), [true, 1], "and says so; undo stands once");
  const drag = async (from, to) => {
    await browser.mouse("mousePressed", ...await cellMiddle(...from));
    await browser.mouse("mouseMoved", ...await cellMiddle(...to));
    await browser.mouse("mouseReleased", ...await cellMiddle(...to), 0);
    await pause(40);
  };
  await browser.key("#");
  await drag([9, 1], [9, 3]);
  same((await texts()).level, level.replace("0#..4D#", "0##.4D#").replace(".a..5.#", ".a#.5.#").replace("...#..6.#", "...##.6.#"), "a wall of three cells by a drag of two events");
  same(await value("[btworld.state.fault, btworld.state.good.map[1]]"), ["", "#..*.*.0##.4D#"], "and it plays");
  await browser.key("z", CTRL);
  same((await texts()).level, level, "one undo takes all three");
  await browser.key("y", CTRL);
  await browser.key("z", CTRL);
  await browser.key("E", SHIFT);
  await browser.click(...await cellMiddle(9, 3));
  await pause(40);
  const withE = await texts();
  look(withE.level.includes('"sleeper", "walker"]') && withE.level.includes('"walker": ["seq*", ["move", "0"], ["move", "1"]]'), "agent E comes with a tree");
  same(await value("[btworld.state.fault, btworld.state.film.agents]"), ["", 5], "and it plays");
  await value("btworld.state.cell = null");
  await shot("paint");
  await browser.key("Backspace");
  await browser.click(...await cellMiddle(6, 5));
  await pause(40);
  same(await value("[btworld.state.fault, btworld.state.film.agents, btworld.state.good.agents.join()]"), ["", 4, "picker,visitor,sleeper,walker"], "B is erased: the others move down");
  await browser.key("*");
  await browser.key("ArrowRight");
  await browser.key("ArrowDown");
  await browser.key("Enter");
  same(await value("btworld.state.good.map[1]"), "#*.*.*.0#..4C#", "an item by arrow keys and Enter");
  same(await value(compare), 0, "frames as of a game of that text");
  await browser.key("1");
  await browser.click(...await cellMiddle(1, 4));
  await pause(40);
  same(await value("[btworld.state.fault, btworld.state.good.map[3], btworld.state.good.map[4]]"), ["", "#.A.*...#D.6.#", "#1##########b#"], "a place is moved");
  await browser.key("Escape");
  same(await value("[btworld.state.isPainting, btworld.state.wanted]"), [false, 25], "Esc plays again, at the frame from before");
  same(await value("document.getElementById('note').textContent"), "", "and no longer says that it paints");
  same(await value(compare), 0, "frames as of a game of that text");

  console.log("-- signals");
  await load("door", "", 40);
  await value("setPage('agents'); btworld.show(5)");
  await browser.key("a");
  same(await texts().then((it) => it.script), "6 on a\n", "a, in frame 5");
  await browser.key("a");
  same(await texts().then((it) => it.script), "", "and once more: as nothing was done");
  await browser.key("a");
  await value("btworld.show(9)");
  await browser.click(...await value("(() => { const box = document.querySelector('#signals button').getBoundingClientRect(); return [box.left + 20, box.top + 20]; })()"));
  same(await texts().then((it) => it.script), "6 on a\n10 off a\n", "a click in frame 9");
  same(await value(compare), 0, "the script says what was done");
  await load("fire_drill", "8 on a\n22 off a\n24 on b\n40 off b\n", 120);
  let bad = 0;
  for (let k = 0; k < 60; k++) {
    await value(`btworld.show(${(k * 37) % 119})`);
    await browser.key("ab"[k % 7 == 0 ? 1 : 0]);
    bad += await value(compare);
  }
  same(bad, 0, "60 switches at all sorts of frames, all frames compared after each");
  const script = (await texts()).script;
  look(script.split("\n").length > 20 && script.split("\n").slice(0, -1).every((it, at, all) => at == 0 || parseInt(all[at - 1]) <= parseInt(it)), `${script.split("\n").length - 1} lines, in order`);
  await load("warehouse", "", 60);
  await value("btworld.show(0); setSpeed(4); btworld.setPlaying(true)");
  for (let k = 0; k < 8; k++) {
    await pause(60);
    await browser.key("ab"[k % 2]);
  }
  await value("btworld.setPlaying(false)");
  same(await value(compare), 0, `while it plays: ${JSON.stringify((await texts()).script)}`);
  await value("setSpeed(1)");

  console.log("-- files and links");
  await load("warehouse", "12 on a\n30 on b\n", 70);
  await value("btworld.show(33)");
  const hash = await value("btworld.spellLink()"), linked = await texts();
  await browser.open(address + hash, 1280, 800);
  look(await browser.until("btworld.state.film && btworld.state.wanted == 33"), `a link of ${hash.length} characters opens at its frame`);
  same([(await texts()).level == linked.level, (await texts()).script, await value("btworld.state.total")], [true, linked.script, 70], "with its level, script and number of frames");
  same(await value(compare), 0, "and plays");
  await browser.open(`${address}#play=AAAA`, 1280, 800);
  same([await value("document.getElementById('note').textContent"), (await texts()).name], ["this link can't be read", "warehouse"], "a broken link opens the first sample");
  await value(`btworld.setPlaying(false), openFiles([new File([${JSON.stringify(levelOf("fire_drill"))}], "mine.json"), new File(["8 on a\\n"], "mine.script")])`);
  same([(await texts()).name, (await texts()).script, await value("btworld.state.fault")], ["mine", "8 on a\n", ""], "two files are opened");
  await value(`openFiles([new File(["9 on b\\n"], "other.script")])`);
  same([(await texts()).name, (await texts()).script], ["mine", "9 on b\n"], "a script alone");
  await value(`openFiles([new File(["{"], "bad.json")])`);
  same([(await texts()).name, await value("btworld.state.fault"), await value("btworld.state.good.agents.length")], ["bad", "level: json", 3], "a bad file says its fault");
  const folder = fs.mkdtempSync(path.join(require("os").tmpdir(), "saved-"));
  await browser.saveTo(folder);
  await value("btworld.load(samples[0])");
  await value("btworld.setTotal(70); document.getElementById('saveMenu').open = true; document.getElementById('saveFrames').click()");
  const saved = path.join(folder, "warehouse.frames.txt");
  for (let k = 0; k < 100 && !fs.existsSync(saved); k++) await pause(50);
  await pause(100);
  look(fs.readFileSync(saved).equals(fs.readFileSync(expected)), "the file of frames that is saved is the native program's");
  fs.rmSync(folder, { recursive: true });
  await browser.click(...await middle("link"));
  look(await browser.until("location.hash.startsWith('#play=')"), "Link puts a link in the address");

  console.log("-- times");
  console.log("microseconds of a step, with its text and agents, and alone:", JSON.stringify(await value(`(() => {
    const { level, script } = samples[0], timed = (what) => { const { game } = world.open(level, script), since = performance.now(); for (let k = 0; k < 10000; k++) what(game); world.close(game); return +((performance.now() - since) / 10).toFixed(1); };
    const whole = (game) => { world.step(game); world.text(game); for (let a = 0; a < 4; a++) world.agent(game, a); };
    timed(whole);
    return [timed(whole), timed((game) => world.step(game))];
  })()`)));
  await value(`window.gaps = []; (function watch(last) { requestAnimationFrame((now) => { if (last) gaps.push(now - last); watch(now); }); })()`);
  await load("parade", "", 100);
  const long = (name) => value(`(async () => {
    const since = performance.now();
    gaps.length = 0;
    btworld.setTotal(9999);
    while (btworld.state.film.count < 9999) await new Promise((done) => requestAnimationFrame(done));
    return { ${name}: Math.round(performance.now() - since), "longest gap": Math.round(Math.max(...gaps)), megabytes: world.calls.memory.buffer.byteLength / 1048576 };
  })()`);
  console.log("milliseconds:", JSON.stringify(await long("parade")));
  const seek = () => value(`(() => { const took = []; for (let k = 0; k < 200; k++) { const since = performance.now(); btworld.show((k * 7919) % 9999); took.push(performance.now() - since); } took.sort((a, b) => a - b); return { middle: +took[100].toFixed(1), most: +took[199].toFixed(1) }; })()`);
  console.log("a jump to any frame, milliseconds:", JSON.stringify(await seek()));
  await shot("parade");
  await load("warehouse", "", 100);
  console.log("milliseconds:", JSON.stringify(await long("warehouse")));
  console.log("a switch at frame 9,900 and at 5, and an edit seen from 9,900, milliseconds:", JSON.stringify(await value(`(async () => {
    const timed = async (call) => { gaps.length = 0; const since = performance.now(); call(); const first = performance.now() - since; while (btworld.state.film.count < 9999) await new Promise((done) => requestAnimationFrame(done)); return [Math.round(first), Math.round(performance.now() - since), Math.round(Math.max(0, ...gaps))]; };
    btworld.show(9900);
    const late = await timed(() => btworld.flip("a"));
    btworld.show(5);
    const early = await timed(() => btworld.flip("a"));
    btworld.show(9900);
    const edit = await timed(() => btworld.change({ level: btworld.state.texts.level.replace("#..*.*.0#", "#..*...0#") }, "t"));
    return { late, early, edit };
  })()`)), "(the call, until all is played, longest gap)");
  same(await value("btworld.state.fault"), "", "no fault");
  same(await value(compare), 0, "9,999 frames as of a game with that script");

  console.log("-- texts edited at random");
  await load("warehouse", "12 on a\n30 on b\n", 20);
  const edits = await value(`(async () => {
    const first = btworld.state.texts.level, signs = [..."#.*aA0\\"[],{}: 19xB"], told = {};
    let seed = 7, bad = 0;
    const random = (below) => (seed = (seed * 1103515245 + 12345) % 2147483648, Math.floor(seed / 65536) % below);
    for (let k = 0; k < 400; k++) {
      const at = random(first.length), level = first.slice(0, at) + signs[random(signs.length)] + first.slice(at + random(2));
      btworld.change({ level }, "edit " + k);
      const { fault, film, texts } = btworld.state, kind = fault.replace(/tree \\S+|\\d+/g, "..");
      told[kind] = (told[kind] || 0) + 1;
      if (fault != world.fault(texts.level, texts.script)) bad++;
      if (!fault && film.level != level) bad++;
    }
    return [bad, told];
  })()`);
  same(edits[0], 0, `400 edits: ${JSON.stringify(edits[1])}`);

  console.log("-- a module that breaks");
  await load("warehouse", "12 on a\n", 70);
  await value("world.calls.btworld_text = () => { world.is_within = true; throw new Error('unreachable'); }; world.is_within = false; btworld.show(30)");
  look(await browser.until("btworld.state.film && !btworld.state.fault && btworld.state.wanted == 30"), "a new one plays the same frame");
  same(await value(compare), 0, "as before");
  await value(`(() => { const play = Film.prototype.play; window.mend = () => { Film.prototype.play = play; }; Film.prototype.play = () => { throw new Error("unreachable"); }; })()`);
  await type("script", "13 on a\n");
  await pause(300);
  same(await value("[btworld.state.fault, btworld.state.film]"), ["page: unreachable", null], "texts that break it twice are left, and it is said");
  await value("mend()");
  await type("script", "14 on a\n");
  same(await value("[btworld.state.fault, btworld.state.film.count > 0]"), ["", true], "the next edit plays");
  same(await value(compare), 0, "as ever");

  console.log("-- a level of 128 by 128 cells");
  const big = Array.from({ length: 128 }, (_, y) => Array.from({ length: 128 }, (_, x) => (y % 2 && x != (y % 4 == 1 ? 0 : 127) ? "#" : y == 0 && x > 1 && x < 28 ? String.fromCharCode(63 + x) : y == 126 && x == 127 ? "0" : (x * 7 + y) % 11 == 0 && y > 0 ? "*" : y == 126 && x == 0 ? "1" : ".")).join(""));
  await value(`btworld.load(${JSON.stringify({ name: "big", level: JSON.stringify({ map: big, agents: Array(26).fill("t"), trees: { t: ["seq*", ["move", "0"], ["move", "1"]] } }, null, 1), frames: 1000 })})`);
  look(await browser.until("btworld.state.film.count == 1000", 800), "1,000 frames");
  console.log("a jump to any frame, milliseconds:", JSON.stringify(await value(`(() => { const took = []; for (let k = 0; k < 50; k++) { const since = performance.now(); btworld.show((k * 7919) % 1000); took.push(performance.now() - since); } took.sort((a, b) => a - b); return { middle: +took[25].toFixed(1), most: +took[49].toFixed(1) }; })()`)));
  await value("btworld.show(0); btworld.setPainting(true)");
  await browser.key("#");
  await pause(300);
  await value("gaps.length = 0");
  await drag([10, 8], [90, 8]);
  look(await browser.until("btworld.state.film.count == 1000 && btworld.state.film.level == btworld.state.texts.level", 800), "a stroke of 81 cells is played");
  console.log("longest gap while painting, milliseconds:", await value("Math.round(Math.max(...gaps))"));
  await value("btworld.setPainting(false)");
  await shot("big");

  console.log("-- why");
  await browser.open(address, 1280, 800);
  await tryWhy(browser, { look, same, load, type, middle, cellMiddle, levelOf, shot });

  const tools = { look, same, load, type, middle, cellMiddle, levelOf, address, pause, shot };
  for (const [name, part] of Object.entries({ "the tree that is drawn": tryTree, "texts, faults, drafts and links": tryTexts, lessons: tryLessons, "looks at all sizes": tryLooks })) {
    console.log(`-- ${name}`);
    await browser.open(address, 1280, 800);
    await part(browser, tools);
  }

  console.log("-- sizes");
  await browser.open(address, 1280, 800);
  await value("btworld.setPlaying(false); btworld.show(40); btworld.choose(0, true)");
  await pause(200);
  await shot("play");
  await browser.open(address, 1280, 800, { isDark: true });
  await value("btworld.setPlaying(false); btworld.show(40); btworld.choose(0, true)");
  await pause(200);
  await shot("dark");
  await browser.open(address, 390, 844, { isTouch: true, scale: 2 });
  await value("btworld.setPlaying(false); btworld.show(40)");
  await pause(300);
  same(await value("document.documentElement.scrollWidth"), 390, "390 wide without a scroll sideways");
  await shot("phone");
  await value("btworld.choose(0, true)");
  await pause(300);
  same(await value("[document.documentElement.scrollWidth, document.getElementById('whyTree').getBoundingClientRect().bottom <= innerHeight]"), [390, true], "a tree of 390 wide, above the fold");
  await shot("phone_why");
  const [tapX, tapY] = await middle("whyNext");
  await browser.touch("touchStart", tapX, tapY);
  await browser.touch("touchEnd");
  look(await browser.until("btworld.state.wanted == 41"), "a tap steps");
  await value("btworld.choose(-1); btworld.show(40); scrollTo(0, 0)");
  await pause(100);
  await value("btworld.setPainting(true)");
  await pause(200);
  await shot("phone_paint");
  await browser.key("#");
  const touch = async (type, x, y) => browser.touch(type, ...await cellMiddle(x, y));
  await touch("touchStart", 9, 1);
  for (const y of [1, 2, 3]) await touch("touchMove", 9, y);
  await touch("touchEnd", 9, 3);
  await pause(100);
  same(await value("[1, 2, 3].map((y) => btworld.state.draft.map[y][9]).join('')"), "###", "a finger paints");
  const small = await value("[...document.querySelectorAll('button, input, select')].filter((it) => !it.closest('#palette')).filter((it) => { const box = it.getBoundingClientRect(); return box.width > 0 && (box.right > 391 || box.left < -1); }).map((it) => it.id || it.textContent)");
  same(small, [], "no control beyond the edge");
  const unnamed = await value("[...document.querySelectorAll('button, input, select, textarea, canvas')].filter((it) => it.closest('td') === null && !it.textContent.trim() && !it.getAttribute('aria-label') && !it.title && !it.closest('label')).map((it) => it.outerHTML)");
  same(unnamed, [], "each control has a name");
  same(await browser.told(), [], "no message on the console");
}

startBrowser(name).then(async (browser) => {
  await main(browser).catch((error) => {
    console.log(`WRONG: ${error.stack}`, browser.messages);
    wrong++;
  });
  await browser.stop();
  console.log(wrong ? `${wrong} wrong` : "all well");
  process.exit(wrong ? 1 : 0);
});
