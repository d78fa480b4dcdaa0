// For try_play.js: the editor, places and reasons of faults, names, drafts and links.
const { standIn } = require("./stand_in.js");

async function tryTexts(browser, { look, same, load, type, middle, levelOf, address, pause, shot }) {
  const value = (expression) => browser.evaluate(expression), text = (id) => value(`document.getElementById("${id}").textContent`);
  const level = levelOf("warehouse");
  await load("warehouse", "", 40);
  same(await value("[...document.querySelectorAll('#levelCode .line')].map((it) => it.textContent.replace('\\u200b', '')).join('\\n') == btworld.state.texts.level"), true, "the coloured letters are the text's");
  same(await value("['.kind.order', '.kind.act', '.kind.ask', '.kind.around', '.key', '.text', '.count', '.bracket'].every((it) => document.querySelector('#levelCode ' + it))"), true, "nodes, keys, texts, numbers and brackets have colours");
  const samePlace = `(() => { const { area, lines } = editors.level, box = area.getBoundingClientRect(), other = lines.getBoundingClientRect(); return [box.left == other.left, box.top == other.top, Math.abs(box.height - other.height) < 1, getComputedStyle(area).fontFamily == getComputedStyle(lines).fontFamily, area.scrollHeight <= Math.ceil(box.height) + 1]; })()`;
  same(await value(samePlace), [true, true, true, true, true], "and lie where the letters are");
  await value("document.getElementById('wrap').click()");
  same([await value(samePlace), await value("document.getElementById('levelCode').scrollWidth > document.getElementById('levelCode').clientWidth || innerWidth > 1500")], [[true, true, true, true, true], true], "without wrap too, and long lines scroll");
  await value("document.getElementById('wrap').click()");
  await browser.key("2");
  const at = level.indexOf("[\"seq*\",") + 8;
  await value(`editors.level.area.setSelectionRange(${at}, ${at})`);
  await browser.key("Enter");
  same(await value(`btworld.state.texts.level.slice(${at}, ${at} + 5)`), "\n    ", "a new line is indented as the one before");
  await value(`editors.level.area.setSelectionRange(1, 1)`);
  await browser.key("Enter");
  same(await value("btworld.state.texts.level.slice(0, 4)"), "{\n  ", "and further behind a bracket");
  await value(`editors.level.area.setSelectionRange(0, 0)`);
  look(await browser.until("document.querySelectorAll('#levelCode .pair').length == 2"), "a bracket and its other one are marked");
  await browser.key("Escape");

  same(await type("level", level.replace('["item"], ["not"', '["item"] ["not"')), "level: json", "a comma is missing");
  const explains = await value("world.calls.btworld_explain !== undefined"), marked = "[editors.level.line, editors.level.column, document.querySelectorAll('#levelCode .here').length]";
  same([await text("levelFault"), await value(marked)], explains ? ["level: jsonline 17, column 26: invalid JSON", [16, 25, 1]] : ["level: json", [null, null, 0]], "its place and why, as far as the module tells");
  // A module that explains, of level and script.
  await standIn(browser, "btworld_explain", "return '19:8 /trees/picker/1/2/1/1/2/0\\nno node of this name, as the module says'");
  same(await type("level", level.replace('"take"', '"tkae"')), "level: shape", "a node that isn't there");
  same([await text("levelFault"), await value(marked)], ["level: shapeline 19, column 8: no node of this name, as the module says", [18, 7, 1]], "its place and why, as the module explains it");
  await shot("fault_shape");
  await standIn(browser, "btworld_explain");
  await type("level", level);
  await standIn(browser, "btworld_explain", "return '2\\nframe 3 after frame 12'");
  await type("script", "12 on a\n3 on b\n");
  same([await text("scriptFault"), await value("[editors.script.line, editors.script.column]")], ["script: order at line 2line 2: frame 3 after frame 12", [1, null]], "of a script too");
  await standIn(browser, "btworld_explain");
  await type("script", "");
  same(await type("level", level), "", "mended");
  same(await value("document.querySelectorAll('#levelCode .wrong, #levelCode .here').length"), 0, "nothing is marked");
  same(await type("level", level.replace('#.#####.a..5.#', '#.####!.a..5.#')), "level: map character at 6,2", "a character of the map");
  if (explains) same(await value("[editors.level.line, document.querySelector('#levelCode .wrong') !== null]"), [4, true], "its line");
  await type("level", level);

  await load("warehouse", "12 on a\n30 on b\n", 70);
  await browser.until("btworld.state.film.count == 70");
  await value("btworld.show(27); btworld.choose(0, true); btworld.chooseNode(4); setText('script')");
  const hash = await value("btworld.spellLink()");
  await browser.open(address + hash, 1280, 800);
  look(await browser.until("btworld.state.node == 4"), `a link of ${hash.length} characters holds the node`);
  same(await value("[shownFrame(), btworld.state.chosen, btworld.state.text, document.getElementById('scriptPage').hidden]"), [27, 0, "script", false], "frame, agent and text");
  await value(`btworld.setPlaying(false); editors.script.area.value = "13 on a\\n"; editors.script.area.dispatchEvent(new Event("input"))`);
  look(await browser.until(`location.hash.startsWith('#play=') && location.hash != ${JSON.stringify(hash)}`), "the address follows an edit");
  const later = await value("location.hash");
  await browser.open(address + later, 1280, 800);
  same(await value("btworld.state.texts.script"), "13 on a\n", "and a reload has it");
  const old = await value(`(async () => { const packed = new Uint8Array(await piped(JSON.stringify({ name: "old", level: btworld.state.texts.level, script: "", frame: 5, frames: 30 }), new CompressionStream("deflate-raw")).arrayBuffer()); return "#play=" + btoa(String.fromCharCode(...packed)).replace(/\\+/g, "-").replace(/\\//g, "_").replace(/=+$/, ""); })()`);
  await browser.open(address + old, 1280, 800);
  look(await browser.until("btworld.state.film && shownFrame() == 5 && btworld.state.texts.name == 'old'"), "a link of before opens still");
  const faulty = await value(`(async () => { const packed = new Uint8Array(await piped(JSON.stringify({ name: "faulty", level: '{"map":["A0"],\\n"agents":["t"],\\n"trees":{"t":["mvoe","0"]}}', script: "", frame: 5, frames: 30 }), new CompressionStream("deflate-raw")).arrayBuffer()); return "#play=" + btoa(String.fromCharCode(...packed)).replace(/\\+/g, "-").replace(/\\//g, "_").replace(/=+$/, ""); })()`);
  await browser.open(address + faulty, 390, 844, { isTouch: true, scale: 2 });
  same(await value("[btworld.state.fault, getComputedStyle(document.getElementById('textPanel')).display != 'none', document.getElementById('levelPage').hidden, document.getElementById('run').offsetHeight < 200]"), ["level: shape", true, false, true], "a link to a faulty level shows its text and the fault, on a phone too");
  await shot("faulty_link");

  await browser.open(address, 1280, 800);
  await value("btworld.setPlaying(false)");
  await type("level", level.replace('["take"]', '["wait", 2]'));
  await value("btworld.show(12); writeDraft()");
  await browser.open(address, 1280, 800, { keeps: true });
  same(await value("[btworld.state.texts.level.includes('[\"wait\", 2]'), btworld.state.texts.name, document.getElementById('sample').value, document.getElementById('revert').hidden]"), [true, "warehouse", "yours/warehouse", false], "a reload keeps the draft");
  await browser.click(...await middle("revert"));
  same(await value("[btworld.state.texts.level == samples[0].level, document.getElementById('sample').value]"), [true, "levels/warehouse"], "Original brings the first text back");
  await value("openSample('yours/warehouse')");
  same(await value("btworld.state.texts.level.includes('[\"wait\", 2]')"), true, "and the draft is still to be had");
  await value("(() => { const it = document.getElementById('name'); it.value = 'mine'; it.onchange({ target: it }); writeDraft(); })()");
  same(await value("[document.title, document.getElementById('sample').value]"), ["mine - btworld", "yours/mine"], "it can be named");
  await browser.open(address, 1280, 800, { keeps: true });
  same(await value("btworld.state.texts.name"), "mine", "and is there again by its name");
  await browser.open(address + later, 1280, 800, { keeps: true });
  same(await value("[btworld.state.texts.name, btworld.state.texts.script, drafts().filter((it) => it.name == 'warehouse' && it.level.includes('[\"wait\", 2]')).length]"), ["warehouse, linked", "13 on a\n", 1], "a link takes no draft's place");
  await value("document.getElementById('saveMenu').open = true");
  look(await value("[...document.querySelectorAll('#saveMenu button')].every((it) => it.scrollWidth <= it.clientWidth && it.getBoundingClientRect().right <= innerWidth)"), "the File menu holds its texts");
}

module.exports = { tryTexts };
