// Samples and files.

// The levels, the lessons and the drafts; of the texts that stand there the own name, where they are none of these.
function buildSamples() {
  const { name } = state.texts, isOwn = isDraft(state.texts), own = drafts().map((it) => it.name);
  const groups = { levels: [...samples.map((it) => it.name), BLANK.name], lessons: LESSONS.map((it) => LESSON + it.name), yours: isOwn && !own.includes(name) ? [name, ...own] : own };
  const key = JSON.stringify(groups);
  if (buildSamples.key != key) {
    $("sample").textContent = "";
    for (const [label, names] of Object.entries(groups)) {
      if (names.length == 0) continue;
      const group = $("sample").appendChild(Object.assign(document.createElement("optgroup"), { label }));
      for (const it of names) group.append(new Option(label == "yours" && originalOf(it) ? `${it}, changed` : it, `${label}/${it}`));
    }
    buildSamples.key = key;
  }
  $("sample").value = `${isOwn ? "yours" : lessonOf(name) ? "lessons" : "levels"}/${name}`;
  $("revert").hidden = !isOwn || !originalOf(name);
  if (document.activeElement != $("name")) $("name").value = name;
  document.title = `${name} - btworld`;
}

function openSample(value) {
  const [label, name] = [value.slice(0, value.indexOf("/")), value.slice(value.indexOf("/") + 1)];
  note("");
  if (label == "yours") return openDraft(drafts().find((it) => it.name == name));
  if (lessonOf(name)) return openLesson(lessonOf(name));
  load(originalOf(name), 0);
}

// An empty room under a name that no draft has, ready to be painted.
function newLevel() {
  const names = new Set(drafts().map((it) => it.name));
  let name = BLANK.name;
  for (let k = 2; names.has(name); k++) name = `${BLANK.name} ${k}`;
  load({ ...BLANK, name }, 0);
  setPainting(true);
}

// Another level, from its start or from a frame, with an agent that is chosen.
function load({ name, level, script = "", about = "", frames = 100, frame = 0 }, chosen = -1) {
  if (state.texts.name) writeDraft();
  setPainting(false);
  Object.assign(state.view, { zoom: 1, x: 0, y: 0 });
  state.total = Math.max(1, Math.min(MOST_FRAMES, Math.round(frames) || 1));
  state.wanted = Math.max(0, Math.min(state.total, Math.round(frame) || 0));
  state.chosen = chosen;
  state.node = -1;
  state.later = null;
  Object.assign(outline, { agent: -1, zoom: 0 });
  state.stops = [];
  showStops();
  change({ name, level, script, about }, `load ${steps.past.length}`);
  seeChosen();
  checkLesson();
  if (state.fault) setPage(state.fault.startsWith("script:") ? "script" : "level");
  else if (state.pane == "text") setPane("tree");
}

// Files that were picked or dropped: a level, a script, or both.
async function openFiles(files) {
  const read = await Promise.all([...files].map(async (file) => ({ name: file.name, text: await file.text() })));
  const isScript = ({ name, text }) => /\.script$/.test(name) || (!/\.json$/.test(name) && !text.trimStart().startsWith("{"));
  const level = read.find((it) => !isScript(it)), script = read.find(isScript);
  if (level) load({ name: level.name.replace(/\.json$/, ""), level: level.text, script: script ? script.text : "" });
  else if (script) change({ script: script.text }, `load ${steps.past.length}`);
}

function save(name, parts) {
  const link = document.createElement("a");
  link.href = URL.createObjectURL(new Blob(parts, { type: "text/plain" }));
  link.download = name;
  link.click();
  setTimeout(() => URL.revokeObjectURL(link.href), 10000);
}

// The texts of all frames, played once more from level and script, in slices.
async function framesText() {
  const { texts, total, fault } = state, made = [], calls = world;
  if (fault) throw new Error(fault);
  const { game } = calls.open(texts.level, texts.script);
  try {
    while (made.length < total) {
      const until = performance.now() + SLICE;
      while (made.length < total && performance.now() < until) {
        const status = calls.step(game), text = calls.text(game);
        if (status || text.status) throw new Error(`status ${status || text.status}`);
        made.push(text.bytes);
      }
      await new Promise((done) => setTimeout(done));
    }
  } finally {
    calls.close(game);
  }
  return made;
}

function note(text, lasts = 6000) {
  $("note").textContent = text;
  clearTimeout(note.later);
  note.later = setTimeout(() => { $("note").textContent = ""; }, lasts);
}
