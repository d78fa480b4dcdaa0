// For try_play.js: the first visit, and the lessons as a learner goes through them.

// Does what a hint says: clicks the nodes that it names, presses what it quotes, and puts in what it says to choose or to make.
async function follow(browser, hint) {
  const value = (expression) => browser.evaluate(expression);
  for (const [said, node, button, choice, number] of hint.matchAll(/[Cc]lick (?:the root, |the node |its )?`([^`]+)`|\u201c([^\u201d]+)\u201d|choose (\w) beside its name|make its number (\d+)/g)) {
    const isDone = node ? await value(`(() => { const it = outline.nodes.find((it) => it.name == ${JSON.stringify(node)} || it.kind == ${JSON.stringify(node)}); if (it) it.box.click(); return btworld.state.node == it?.n; })()`)
      : button ? await value(`(() => { const it = [...document.querySelectorAll("#edits .row button, .kinds button")].find((it) => it.textContent == ${JSON.stringify(button)} && !it.disabled && it.getClientRects().length > 0); if (it) it.click(); return it !== undefined; })()`)
      : await value(`(() => { const it = document.querySelector("#node .words :is(select, input)"); it.value = ${JSON.stringify(choice ?? number)}; it.onchange({ target: it }); return it.value == ${JSON.stringify(choice ?? number)}; })()`);
    if (!isDone) throw new Error(`the hint says ${JSON.stringify(said)}, and that can't be done: ${hint}`);
  }
  await browser.until("btworld.state.film.count == btworld.state.total");
}

async function tryLessons(browser, { look, same, address, pause, shot }) {
  const value = (expression) => browser.evaluate(expression);
  const press = async (id) => browser.click(...await value(`(() => { const box = document.getElementById("${id}").getBoundingClientRect(); return [box.left + box.width / 2, box.top + box.height / 2]; })()`));
  const goals = () => value("[...document.querySelectorAll('#goals li')].map((it) => it.className)");
  same(await value("[document.getElementById('welcome').hidden, document.getElementById('tagline').textContent]"), [false, "a grid world whose agents follow behaviour trees"], "the first visit is told what this is");
  await press("begin");
  same(await value("[btworld.state.texts.name, document.getElementById('lesson').hidden, document.getElementById('welcome').hidden, btworld.state.chosen]"), ["lesson 1 sequence", false, true, 0], "the first lesson opens");
  await browser.until("btworld.state.film.count == btworld.state.total");
  await pause(100);
  look((await goals()).includes("no") && !(await goals()).includes("won"), "its goal isn't reached, and it says why");
  await value("setHint(true)");
  same(await value("document.getElementById('hint').hidden"), false, "a hint");
  await follow(browser, await value("LESSONS[0].hint"));
  look(await browser.until("document.getElementById('lesson').classList.contains('reached')"), "lesson 1 is reached as its hint says, by the palette");
  await shot("lesson_reached");
  await press("nextLesson");
  same(await value("btworld.state.texts.name"), "lesson 2 fallback", "on to the next one");
  const all = await value("LESSONS.map((it) => it.name)");
  for (const [k, name] of all.entries()) {
    await value(`openLesson(LESSONS[${k}]); btworld.setPlaying(false)`);
    await browser.until("btworld.state.film.count == btworld.state.total");
    await pause(50);
    if (await value(`LESSONS[${k}].yours == "trees"`)) {
      await follow(browser, await value(`LESSONS[${k}].hint`));
      look(await browser.until("document.getElementById('lesson').classList.contains('reached')"), `${name}: reached by what its hint says, word by word`);
      await value(`openLesson(LESSONS[${k}]); btworld.setPlaying(false)`);
      await browser.until("btworld.state.film.count == btworld.state.total");
      await pause(50);
    }
    const before = await value("document.getElementById('lesson').classList.contains('reached')");
    await value("solveLesson(); btworld.setPlaying(false)");
    look(await browser.until("document.getElementById('lesson').classList.contains('reached')") && !before, `${name}: not reached at first, reached by its solution`);
  }
  same(await value("document.querySelectorAll('#lessonDots .done').length"), all.length, "all of them are kept as reached");
  await value("openLesson(LESSONS[9]); setSpeed(2); btworld.setPlaying(true)");
  await browser.key("a");
  await browser.until("btworld.state.film.cell(shownFrame(), 0) == '6,1'", 400);
  await browser.key("a");
  await browser.key("b");
  look(await browser.until("document.getElementById('lesson').classList.contains('reached')"), `doors by keys while it plays: ${JSON.stringify(await value("btworld.state.texts.script"))}`);
  await value("btworld.setPlaying(false); setSpeed(1)");
  await value("openLesson(LESSONS[2]); btworld.setPlaying(false); btworld.change({ level: btworld.state.texts.level.replace('#0..A...1#', '#0.A....1#').replace('\"seq\"', '\"seq*\"') }, 't')");
  await browser.until("btworld.state.film.count == btworld.state.total");
  await pause(100);
  look((await goals()).includes("no") && !(await goals()).includes("won"), "another map is no solution");
  await browser.open(address, 1280, 800, { keeps: true });
  look(await browser.until(`document.querySelectorAll('#lessonDots .done').length == ${all.length}`), "also after a reload");
}

module.exports = { tryLessons };
