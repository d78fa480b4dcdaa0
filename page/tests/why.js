// For try_play.js: why the chosen agent did so, by clicks and keys, and against games that play from their start.
const { standIn, standInWays, putBack } = require("./stand_in.js");
const SHIFT = 8;

// What the why panel shows in each frame, forwards and backwards, against a game that plays level and script from their start.
const compareWhy = `(() => {
  const { texts, film } = btworld.state, fresh = world.open(texts.level, texts.script).game, all = [], ways = new Set();
  const letters = () => [...document.querySelectorAll("#whyTree .said")].map((it) => it.textContent).join("");
  const level = JSON.parse(texts.level), listed = (node) => [node, ...node.filter(Array.isArray).flatMap(listed)];
  const trees = level.agents.map((name) => listed(level.trees[name]));
  const waysShown = () => [...document.querySelectorAll("#whyTree .way")].map((it) => it.textContent);
  const numbers = () => [...document.querySelectorAll("#whyTree .number")].map((it) => it.textContent);
  const agents = Array.from({ length: film.agents }, (_, a) => a);
  for (let frame = 1; frame <= film.count; frame++) {
    const asked = agents.map((a) => {
      const signals = film.signals.of(frame), answers = world.nodes(fresh, signals, a);
      const way = ([kind, place], n) => (kind == "move" && answers[n] != 3 ? world.way(fresh, signals, a, +place) : null);
      // A module that tells no intents has none that is in vain.
      const intent = world.intent(fresh, signals, a), isVain = (n) => intent !== null && intent.deed != "stay" && !intent.isGranted && intent.node == n;
      const said = (it) => (it ? it.direction + (it.steps ? ", " + it.steps + " step" + (it.steps > 1 ? "s" : "") : "") : "");
      const ways = trees[a].map(way).map((it, n) => [said(it), isVain(n) ? "in vain" : ""].filter((it) => it).join(", "));
      return { answers, before: world.numbers(fresh, a), ways };
    });
    world.step(fresh);
    all.push(asked.map(({ answers, before, ways }, a) => {
      const after = world.numbers(fresh, a), root = "SFR"[world.agent(fresh, a).answer];
      return { root, letters: [...answers].map((it) => "SFR\u00b7"[it]).join(""), numbers: after.map((it, n) => (it != before[n] ? before[n] + " to " + it : it ? "" + it : "")), ways };
    }));
  }
  world.close(fresh);
  let bad = 0;
  const order = [...all.keys()];
  for (const a of agents) {
    btworld.choose(a);
    for (const at of [...order, ...order.reverse()]) {
      const it = all[at][a];
      btworld.show(at + 1);
      if (letters() != it.letters || letters()[0] != it.root || numbers().join() != it.numbers.join() || waysShown().join(";") != it.ways.join(";")) bad++;
      for (const way of waysShown()) ways.add(way);
    }
  }
  btworld.choose(-1);
  return { bad, hasChanged: all.flat().some((it) => it.numbers.join().includes(" to ")), ways: [...ways].filter((it) => it).sort().join(";") };
})()`;

async function tryWhy(browser, { look, same, load, type, middle, cellMiddle, levelOf, shot }) {
  const value = (expression) => browser.evaluate(expression);
  const shown = (id) => value(`document.getElementById("${id}").getBoundingClientRect().height > 0`);
  const letters = () => value(`[...document.querySelectorAll("#whyTree .said")].map((it) => it.textContent).join("")`);
  const heading = () => value(`[document.getElementById("frameName").firstChild.textContent, document.querySelector("#whyName i").textContent, document.querySelector("#whyName span").textContent]`);
  await load("warehouse", "12 on a\n30 on b\n", 70);
  await browser.until("btworld.state.film.count == 70");
  same(await shown("why"), false, "no agent is chosen, and no tree is shown");
  await value("btworld.show(27)");
  await browser.click(...await value("(() => { const box = cells[1].row.cells[3].getBoundingClientRect(); return [box.left + 5, box.top + 5]; })()"));
  same(await heading(), ["frame 27", "B", "guard"], "a click on B's row shows its tree");
  await browser.click(...await value("(() => { const { film } = btworld.state, at = 27 * film.agents; return [film.x[at], film.y[at]]; })()").then((cell) => cellMiddle(...cell)));
  same(await heading(), ["frame 27", "A", "picker"], "a click on A in the map its own");
  await browser.key("Escape");
  same(await shown("why"), false, "Esc closes it");
  await value("setPage('level')");
  await browser.key("C", SHIFT);
  same(await heading(), ["frame 27", "C", "visitor"], "Shift+C opens it from the level's text too");
  same(await value("[...document.querySelectorAll('#whyTree .leaf, #whyTree .inner')].map((it) => it.textContent)"), ["fallback", "tries 3", "move 5", "move 7"], "the nodes as they are written");
  const at27 = await letters();
  look(/^[SFR][SFR\u00b7]{3}$/.test(at27), `a letter or a dot for each: ${at27}`);
  await browser.key("Home");
  same([await letters(), await heading()], ["\u00b7\u00b7\u00b7\u00b7", ["start", "C", "visitor"]], "dots at the start");
  await browser.key("ArrowRight");
  const at1 = await letters();
  same(at1[0], await value("'SFR'[btworld.state.film.answer[btworld.state.film.agents + 2]]"), "a frame on: the root's letter is C's answer");
  await value("btworld.show(27)");
  same(await letters(), at27, "a jump shows the same again");
  await browser.until("document.getElementById('whySaid').textContent.startsWith('C, frame 27')");
  const said = await value("document.getElementById('whySaid').textContent");
  look(/^C, frame 27: fallback (Success|Failure|Running)\b/.test(said), `it is said: ${said}`);
  same(await value("[...document.querySelectorAll('#whyTree .node')].every((it) => it.getAttribute('aria-label').split(', ')[1] == { S: 'Success', F: 'Failure', R: 'Running', '\u00b7': 'not ticked' }[it.querySelector('.said').textContent])"), true, "each letter has its word");
  await browser.click(...await middle("whyBack"));
  await browser.key("ArrowLeft");
  await browser.click(...await middle("whyNext"));
  same(await heading(), ["frame 26", "C", "visitor"], "its buttons and the arrow keys step");
  await value("document.getElementById('whyClose').focus({ focusVisible: true })");
  await browser.key("Enter");
  same(await value("[btworld.state.chosen, document.activeElement == cells[2].letter]"), [-1, true], "Enter on Close closes it, and the focus is on C's row");
  const without = await value(compareWhy), tellsWays = await value("world.calls.btworld_way !== undefined");
  same([without.bad, without.hasChanged], [0, true], "each agent's letters and numbers in each frame, forwards and backwards");
  if (!tellsWays) same(without.ways, "", "a module that tells no ways: nothing is said of them");
  await standInWays(browser);
  const told = await value(compareWhy);
  same(told.bad, 0, "a module that tells ways: beside each move that was ticked stands the way that it got");
  look(["here", "no way", "north, 1 step", "west, 2 steps"].every((it) => told.ways.split(";").includes(it)), `ways of all kinds: ${told.ways}`);
  await value("btworld.choose(2, true); btworld.show(27)");
  await new Promise((done) => setTimeout(done, 400)); // until the tree has found its place
  await shot("ways");
  await putBack(browser, "btworld_way");
  await value("btworld.choose(2, true); btworld.show(27)");
  // A module that writes what `btworld why` writes.
  if (await value("world.calls.btworld_why === undefined")) same(await shown("copyWhy"), false, "a module that doesn't tell why: nothing to copy");
  await standIn(browser, "btworld_why", "return 'frame ' + given[1] + ' of ' + given[2] + '\\n'");
  await value("navigator.clipboard.writeText = (text) => { window.copied = text; return Promise.resolve(); }; btworld.show(28); btworld.show(27)");
  await browser.click(...await middle("copyWhy"));
  same(await value("copied"), `frame ${await value("btworld.state.film.signals.of(27)")} of 2\n`, "copies what the module writes of this agent with this frame's signals");
  await putBack(browser, "btworld_why");
  await value("btworld.show(28); btworld.show(27)");
  await value("btworld.show(20); btworld.choose(3)");
  const closed = await letters();
  await value("btworld.show(15)");
  await browser.key("b");
  await value("btworld.show(20)");
  look(closed[1] == "F" && (await letters())[1] == "S", "a signal that is switched before changes what its node answers");
  await type("level", levelOf("warehouse").replace('["seq", ["signal", "b"],', '["seq", ["wait", 30], ["signal", "b"],'));
  same(await value("[...document.querySelectorAll('#whyTree b')].map((it) => it.textContent).join()"), "seq,wait,signal,fallback,at,move", "an edit changes the tree that stands there");
  same([await letters(), await value("document.querySelectorAll('#whyTree .number')[1].textContent")], ["RR\u00b7\u00b7\u00b7\u00b7", "19 to 20"], "and what it answers and counts");
  await value("btworld.setTotal(40)");
  await browser.until("btworld.state.film.count >= 40");
  await value("setSpeed(4); btworld.show(28); btworld.setPlaying(true)");
  look(await browser.until("btworld.state.wanted > 34"), "it plays on");
  await value("btworld.setPlaying(false); setSpeed(1)");
  const [playedTo, playedLetters] = [await value("btworld.state.wanted"), await letters()];
  await value("btworld.show(3)");
  await value(`btworld.show(${playedTo})`);
  same(await letters(), playedLetters, "and stands at what that frame shows");
  for (const { name, script } of await value("samples.filter((it) => it.name != 'warehouse').map(({ name, script }) => ({ name, script }))")) {
    await load(name, script, 40);
    await browser.until("btworld.state.film.count == 40");
    same(await value(compareWhy).then((it) => it.bad), 0, `${name}: letters and numbers of all agents`);
  }
}

module.exports = { tryWhy };
