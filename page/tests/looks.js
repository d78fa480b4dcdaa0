// For try_play.js: the page at many sizes, light and dark: nothing sticks out, panels have room, letters stand out from their ground.
const SIZES = [[360, 640], [390, 844], [600, 900], [844, 390], [901, 700], [1024, 768], [1280, 800], [1559, 900], [1560, 900], [1920, 1080], [2560, 1300]];

// Letters with less than 4.5 to 1 against what lies below them; large or bold ones, and what is off, want 3.
const pale = `(() => {
  const pen = Object.assign(document.createElement("canvas"), { width: 1, height: 1 }).getContext("2d", { willReadFrequently: true });
  const mixed = (colours) => { pen.clearRect(0, 0, 1, 1); for (const it of colours) { pen.fillStyle = it; pen.fillRect(0, 0, 1, 1); } return [...pen.getImageData(0, 0, 1, 1).data].slice(0, 3); };
  const light = (rgb) => { const [r, g, b] = rgb.map((it) => it / 255).map((it) => (it <= .03928 ? it / 12.92 : ((it + .055) / 1.055) ** 2.4)); return .2126 * r + .7152 * g + .0722 * b; };
  const found = {}, walker = document.createTreeWalker(document.body, NodeFilter.SHOW_TEXT);
  for (let text = walker.nextNode(); text; text = walker.nextNode()) {
    const it = text.parentElement, style = getComputedStyle(it), box = it.getBoundingClientRect();
    if (!text.data.trim() || box.width == 0 || style.visibility == "hidden" || it.closest("script, noscript, select, textarea, :disabled, .heard")) continue;
    const grounds = [];
    for (let at = it; at; at = at.parentElement) grounds.unshift(getComputedStyle(at).backgroundColor);
    const below = mixed(["#fff", ...grounds]), above = mixed(["#fff", ...grounds, style.color]), [one, other] = [light(below), light(above)].sort((a, b) => b - a), is = (one + .05) / (other + .05);
    const isLarge = parseFloat(style.fontSize) >= 18.6 && style.fontWeight >= 600;
    if (is < (isLarge ? 3 : 4.5)) found[(it.id || it.className || it.tagName) + " " + text.data.trim().slice(0, 12)] = +is.toFixed(2);
  }
  return found;
})()`;

async function tryLooks(browser, { look, same, address, pause, shot }) {
  const value = (expression) => browser.evaluate(expression);
  for (const [width, height] of SIZES) {
    await browser.open(address, width, height, { isTouch: width < 900, isDark: width % 4 == 0 });
    await value("btworld.setPlaying(false); closeWelcome(); btworld.show(27)");
    await browser.until("shownFrame() == 27");
    const wrong = [];
    for (const state of ["1", "btworld.choose(0, true); btworld.chooseNode(4)", "document.querySelector('#edits button').click()", "document.getElementById('treeMenu').open = true", "document.getElementById('treeMenu').open = false; openLesson(LESSONS[7]); btworld.setPlaying(false)", "openSample('levels/parade'); btworld.setPlaying(false)", "btworld.setPainting(true)", "btworld.setPainting(false); setHelp(true)", "setHelpPage('nodes')", "setHelpPage('rules')", "setHelpPage('keyTable')"]) {
      await value(state);
      await pause(60);
      const beyond = await value("[...document.querySelectorAll('button, input, select, h1, h2, .panel')].filter((it) => !it.closest('#palette, #whyTree, #agentsBox, .code')).filter((it) => { const box = it.getBoundingClientRect(); return box.width > 0 && it.checkVisibility() && (box.right > innerWidth + 1 || box.left < -1); }).map((it) => it.id || it.textContent)");
      if (beyond.length > 0 || await value("document.documentElement.scrollWidth > innerWidth")) wrong.push([state, beyond]);
      if (await value("document.getElementById('help').hidden && (document.getElementById('mapBox').offsetHeight < 120 || scene.place.cell < 3)")) wrong.push([state, "map"]);
    }
    same(wrong, [], `${width} by ${height}: nothing sticks out, and the map has room`);
  }
  for (const isDark of [false, true]) {
    await browser.open(address, 1920, 1080, { isDark });
    await value("btworld.setPlaying(false); btworld.show(27); btworld.choose(0, true); btworld.chooseNode(4); document.querySelector('#edits button').click(); toggleStop({ agent: 0, node: 4, name: outline.nodes[4].name, answer: 1 })");
    await browser.until("shownFrame() == 27");
    same(await value(pale), {}, `${isDark ? "dark" : "light"}: letters stand out from their ground`);
    await value("openLesson(LESSONS[0]); solveLesson(); btworld.setPlaying(false); btworld.show(12)");
    await pause(200);
    await value("setHelp(true)");
    same(await value(pale), {}, "in a lesson and in the help");
    await value("setHelp(false); btworld.change({ level: '{' }, 'x')");
    same(await value(pale), {}, "and with a fault");
  }
  await browser.open(address, 390, 844, { isTouch: true, scale: 2 });
  await value("btworld.setPlaying(false); closeWelcome(); btworld.show(40); btworld.choose(-1)");
  await browser.until("shownFrame() == 40");
  await pause(100);
  const [x, y] = await value("(() => { const box = document.getElementById('map').getBoundingClientRect(), { film } = btworld.state, { left, top, cell } = scene.place, at = 40 * film.agents + 1; return [box.left + left + (film.x[at] + .5) * cell, box.top + top + (film.y[at] + .5) * cell]; })()");
  await value("setPane('signals')");
  await browser.touch("touchStart", x, y);
  await browser.touch("touchEnd");
  look(await browser.until("btworld.state.chosen == 1"), "a tap on an agent chooses it");
  same(await value("(() => { const box = document.querySelector('.node').getBoundingClientRect(); return [btworld.state.pane, box.top > 0 && box.bottom < innerHeight && box.height > 10]; })()"), ["tree", true], "and its tree stands in sight");
  await shot("phone_tap");
}

module.exports = { tryLooks, pale };
