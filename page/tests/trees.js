// node trees.js PAGE TOP: changes trees at random as the palette does, and looks that the text stays a level but for what the module
// refuses; that each lesson is not reached at first and is by its solution; and that faults are explained.
const { readPage, Looks, randomFrom } = require("./core.js");
const core = readPage(process.argv[2]), { Btworld, Film, Signals, code, samples, readDraft, treeOf, labelOf, FORMS, spelt, LESSONS } = core;
const looks = new Looks(), look = (fact, what) => looks.look(fact, what), random = randomFrom(3);

// What the tree of a text is, as JSON reads it.
const treeIn = (level, name) => JSON.parse(level).trees[name];

function changeTrees(world, explains) {
  const kinds = Object.keys(FORMS);
  let fine = 0, refused = 0;
  for (const { name: sample, level: first } of samples) {
    let level = first;
    for (let k = 0; k < 150; k++) {
      const draft = readDraft(level), names = Object.keys(draft.trees), name = names[random(names.length)], nodes = treeOf(draft, name), node = nodes[random(nodes.length)];
      const kind = kinds[random(kinds.length)], by = () => spelt(kind, draft, "A", FORMS[kind].children == "none" ? [] : [spelt("wait", draft, "A")]);
      const { parent } = node, at = parent ? parent.children.indexOf(node) : 0;
      const changes = [
        () => core.asKind(level, node, kind, draft, "A"),
        () => FORMS[kind].children != "none" && core.wrapped(level, node, kind, draft, "A"),
        () => FORMS[node.name].children == "many" && core.withChild(level, node, random(node.children.length + 1), by()),
        () => parent && core.withoutNode(level, node),
        () => parent && core.swapped(level, node, random(2) ? 1 : -1),
      ];
      const next = changes[random(changes.length)]();
      if (!next) continue;
      const fault = world.fault(next, "");
      look(readDraft(next) !== null, `${sample}: no JSON any more: ${next}`);
      look(fault == "" || /^level: (shape|tree .*(no child|threshold|too deep|too many nodes|not on the map))$/.test(fault), `${sample}: ${kind}: ${fault}`);
      if (explains) look((world.explain(next, "") !== null) == (fault != ""), `${sample}: ${fault} is explained otherwise`);
      if (fault == "") {
        fine++;
        const now = treeOf(readDraft(next), name), labels = now.map((it) => labelOf(next, it)).join();
        const wanted = [];
        (function list([kind, ...rest]) { wanted.push([kind, ...rest.filter((it) => !Array.isArray(it))].join(" ")); rest.filter(Array.isArray).forEach(list); })(treeIn(next, name));
        look(labels == wanted.join(), `${sample}: nodes in preorder`);
        level = next.length < 6000 ? next : first;
      } else refused++;
    }
    // A node that is put in and taken out leaves the text as it was.
    const draft = readDraft(first);
    for (const name of Object.keys(draft.trees)) for (const node of treeOf(draft, name)) {
      if (FORMS[node.name].children != "many") continue;
      for (let at = 1; at <= node.children.length; at++) {
        const there = core.withChild(first, node, at, '["take"]'), put = treeOf(readDraft(there), name)[node.number].children[at];
        look(core.withoutNode(there, put) == first, `${sample}: in and out again`);
      }
    }
  }
  look(fine > 300 && refused > 5, `${fine} changes, ${refused} refused`);
}

function learn(world) {
  for (const lesson of LESSONS) for (const isSolved of [false, true]) {
    const isTree = lesson.yours == "trees", level = core.levelOf(lesson, isSolved && isTree ? lesson.solved : {}), script = isSolved && !isTree ? lesson.solved : lesson.script;
    look(world.fault(level, script) == "", `${lesson.name}: ${world.fault(level, script)}`);
    const draft = readDraft(level), film = new Film(world, level, draft.map, draft.agents.length, new Signals(world, script));
    film.play(lesson.frames, 1e9);
    look(film.count == lesson.frames && lesson.goal.by <= lesson.frames && lesson.said.length == lesson.goal.moments.length, `${lesson.name}: frames`);
    look(core.reached(lesson.goal, film, draft).isReached == isSolved, `${lesson.name}: ${isSolved ? "its solution reaches nothing" : "reached at first"}`);
    look(core.isOwnWork(lesson, { script }, draft), `${lesson.name}: own work`);
    film.close();
  }
}

// A text that is broken at random: a place in it, and a reason, just where there is a fault.
function breakTexts(world) {
  let broken = 0, shapes = 0;
  for (const { level: first } of samples) for (let k = 0; k < 300; k++) {
    const at = random(first.length), level = first.slice(0, at) + '{}[]",:x1 \n'[random(11)].repeat(random(2)) + first.slice(at + random(3));
    const fault = world.fault(level, ""), place = world.explain(level, "");
    look((fault != "") == (place !== null), `${fault}, ${JSON.stringify(place)}: ${level}`);
    if (place) look(place.line >= 0 && place.column >= 0 && place.line < level.split("\n").length + 1 && place.reason != "", `a place: ${JSON.stringify(place)}`);
    broken += fault == "level: json";
    shapes += fault == "level: shape";
  }
  look(broken > 500 && shapes > 50, `${broken} broken, ${shapes} of another shape`);
}

(async () => {
  const world = await Btworld.load(code);
  changeTrees(world, world.calls.btworld_explain !== undefined);
  learn(world);
  if (world.calls.btworld_explain) breakTexts(world);
  else console.log("the module explains no faults");
  // Made to differ: a goal that comes too late is not reached.
  const lesson = LESSONS[0], level = core.levelOf(lesson, lesson.solved), draft = readDraft(level), film = new Film(world, level, draft.map, 1, new Signals(world, lesson.script));
  film.play(24, 1e9);
  look(!core.reached({ ...lesson.goal, by: 13 }, film, draft).isReached && !core.reached({ ...lesson.goal, never: [{ A: { moves: true } }] }, film, draft).isReached, "a goal too late, or what must not be seen");
  looks.end("trees, lessons and places of faults");
})().catch((error) => { console.log(`WRONG: ${error.stack}`); process.exitCode = 1; });
