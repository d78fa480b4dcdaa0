// The texts of level and script, what was done to them, and their faults.

const steps = { past: [], future: [], kind: "", at: 0 };

// Other texts. Changes of one kind that follow soon are one step of undo.
function change(texts, kind) {
  const next = { ...state.texts, ...texts };
  if (Object.keys(next).every((name) => next[name] == state.texts[name])) return;
  const now = performance.now();
  const isSame = kind == steps.kind && (kind.startsWith("stroke") || now - steps.at < 900);
  if (state.texts.name && !isSame) steps.past.push(state.texts);
  if (steps.past.length > 300) steps.past.shift();
  Object.assign(steps, { future: [], kind, at: now });
  setTexts(next);
}

function unchange(from, to) {
  if (from.length == 0) return;
  to.push(state.texts);
  steps.kind = "";
  setTexts(from.pop());
}
const undo = () => unchange(steps.past, steps.future);
const redo = () => unchange(steps.future, steps.past);

function setTexts(texts) {
  state.texts = texts;
  state.draft = readDraft(texts.level);
  editors.level.put(texts.level);
  editors.script.put(texts.script);
  $("undo").disabled = steps.past.length == 0;
  $("redo").disabled = steps.future.length == 0;
  $("scriptLines").textContent = texts.script.trim() ? ` ${texts.script.trim().split("\n").length}` : "";
  $("clear").disabled = texts.script == "";
  buildSamples();
  showLesson();
  keepDraft();
  keepAddress();
  cancelAnimationFrame(setTexts.later);
  // A stroke changes the text at each cell: it is judged once for each picture.
  if (state.stroke > 0) setTexts.later = requestAnimationFrame(judge);
  else judge();
}

// Asks for the texts' first fault. Texts without one are played, else what was played last stays.
function judge() {
  guarded(() => {
    const { level, script } = state.texts;
    state.fault = world.fault(level, script);
    if (!state.fault && !state.draft) state.fault = "page: this level can't be drawn";
    if (!state.fault) adopt(level, script);
  });
  showFault();
  if (state.isPainting) buildPalette();
  refresh();
}

function adopt(level, script) {
  const signals = new Signals(world, script);
  if (state.film && state.film.level == level) {
    state.film.setSignals(signals);
  } else {
    if (state.film) state.film.close();
    state.film = null;
    state.film = new Film(world, level, state.draft.map, state.draft.agents.length, signals);
    state.good = state.draft;
    if (state.chosen >= state.film.agents) state.chosen = state.node = -1;
    keepStops();
    layAgents();
  }
  buildSignals();
  playAhead();
  checkLesson();
}

// The fault, with the line in which it stands, and why it is one, as the module explains it.
function showFault() {
  const { fault, texts } = state, isOfScript = fault.startsWith("script:");
  let place = null;
  if (/^(level|script):/.test(fault)) guarded(() => { place = world.explain(texts.level, texts.script); });
  const say = (id, said) => {
    $(id).textContent = said;
    if (said && place) put($(id), "small", `line ${place.line + 1}${isOfScript ? "" : `, column ${place.column + 1}`}: ${place.reason}`);
  };
  say("levelFault", isOfScript ? "" : fault);
  say("scriptFault", isOfScript ? fault : "");
  $("levelFine").hidden = fault != "";
  say("mapFault", fault);
  if (fault && state.good) put($("mapFault"), "small", "the last good level plays");
  $("levelTab").classList.toggle("wrong", fault != "" && !isOfScript);
  $("scriptTab").classList.toggle("wrong", isOfScript);
  editors.level.mark(isOfScript || !place ? null : place.line, true, place ? place.column : null);
  if (isOfScript) editors.script.mark(place ? place.line : null, true, null);
  else if (editors.script.isWrong) editors.script.mark(null, false);
}
