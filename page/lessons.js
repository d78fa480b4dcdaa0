// Ten small levels, one idea each. Of a lesson the learner changes only what YOURS names, its trees or its script; the goal is looked up
// in the frames (goals.js). TASK, IDEA and HINT are texts in which `code` stands between backquotes.

const LESSONS = [
  {
    name: "1 sequence", idea: "In every frame A's tree is **ticked**, from its root on: each node that is reached does or asks something, and answers Success, Failure or Running. A **sequence** `seq` (\u2192) ticks its children in order, drawn from top to bottom, and stops at the first that doesn't succeed. So put a question before an action: no yes, no walk.",
    task: "Let A wait until signal `a` is on (from frame 8), and only then walk to place 0.",
    hint: "Click the node `move 0` in the tree, press \u201cwrap in\u201d below it, then \u201cseq\u201d. Click `move 0` again, press \u201cadd before\u201d, then \u201csignal\u201d.",
    yours: "trees", script: "8 on a\n", frames: 24, goal: { by: 24, moments: [{ A: { on: "0" } }], never: [{ signals: { a: false }, A: { moves: true } }] },
    said: ["A stands on 0"], forbidden: "A walks while signal a is off",
    map: ["##########", "#A......0#", "##########"], agents: ["walker"], trees: { walker: '["move", "0"]' },
    solved: { walker: '["seq", ["signal", "a"], ["move", "0"]]' },
  },
  {
    name: "2 fallback", idea: "A **fallback** `fallback` (?) ticks its children in order until one doesn't fail: a list of plans, the best one first. `move` fails where there is no way.",
    task: "The door opens in frame 14. Let A wait on place 1 until then, and go to 0 afterwards.",
    hint: "Click `move 0`, press \u201cwrap in\u201d, then \u201cfallback\u201d. Press \u201cadd child\u201d, then \u201cmove\u201d, and choose 1 beside its name.",
    yours: "trees", script: "14 on a\n", frames: 30, goal: { by: 30, moments: [{ A: { on: "1" }, signals: { a: false } }, { A: { on: "0" } }] },
    said: ["A stands on 1, the door is shut", "A stands on 0"],
    map: ["###########", "#...1#....#", "#A...a...0#", "###########"], agents: ["walker"], trees: { walker: '["move", "0"]' },
    solved: { walker: '["fallback", ["move", "0"], ["move", "1"]]' },
  },
  {
    name: "3 memory", idea: "A plain `seq` begins with its first child in each frame. So as soon as A has left place 0, it is sent back there. A sequence **with memory** `seq*` (\u2192*) goes on with the child that was Running.",
    task: "Play, and look at the tree while A trembles at 0. Let it patrol: to 0, then to 1, then to 0 again.",
    hint: "Click the root, `seq`, press \u201creplace by\u201d, then \u201cseq*\u201d.",
    yours: "trees", script: "", frames: 40, goal: { by: 40, moments: [{ A: { on: "0" } }, { A: { on: "1" } }, { A: { on: "0" } }] },
    said: ["A stands on 0", "then on 1", "and on 0 again"],
    map: ["##########", "#0..A...1#", "##########"], agents: ["guard"], trees: { guard: '["seq", ["move", "0"], ["move", "1"]]' },
    solved: { guard: '["seq*", ["move", "0"], ["move", "1"]]' },
  },
  {
    name: "4 look on the way", idea: "An agent walks to places only (the digits), never to an item. So it walks to a place, and **looks** at each cell on the way. A fallback of a question and an action acts until the answer is yes.",
    task: "A walks past the item, and `take` fails at 1. Let it stop on the item, take it, and carry it to 0.",
    hint: "Click `move 1`, press \u201cwrap in\u201d, then \u201cfallback\u201d. Click `move 1` again, press \u201cadd before\u201d, then \u201citem\u201d.",
    yours: "trees", script: "", frames: 40, goal: { by: 40, moments: [{ A: { carries: true } }, { A: { on: "0", carries: true } }] },
    said: ["A carries an item", "and stands on 0 with it"],
    map: ["##########", "#0.A..*.1#", "##########"], agents: ["finder"], trees: { finder: '["seq*",\n      ["move", "1"],\n      ["take"],\n      ["move", "0"]]' },
    solved: { finder: '["seq*", ["fallback", ["item"], ["move", "1"]], ["take"], ["move", "0"]]' },
  },
  {
    name: "5 not", idea: "A node that acts answers Running, and whether that worked shows in the next frame. So `drop` is Running, and then Failure, with nothing left to drop. A node around one other is a **decorator**: `not` (\u00ac) swaps Success and Failure.",
    task: "A puts the item down on 0, but then `drop` fails, and the sequence starts over. Let A go on to 2.",
    hint: "Click `drop`, press \u201cwrap in\u201d, then \u201cnot\u201d.",
    yours: "trees", script: "", frames: 40, goal: { by: 40, moments: [{ lies: "0", A: { carries: false } }, { A: { on: "2", carries: false } }] },
    said: ["the item lies on 0", "A stands on 2"],
    map: ["##########", "#0.A.*..1#", "#.########", "#.......2#", "##########"], agents: ["porter"], trees: { porter: '["seq*",\n      ["fallback", ["item"], ["move", "1"]],\n      ["take"],\n      ["move", "0"],\n      ["drop"],\n      ["move", "2"]]' },
    solved: { porter: '["seq*", ["fallback", ["item"], ["move", "1"]], ["take"], ["move", "0"], ["not", ["drop"]], ["move", "2"]]' },
  },
  {
    name: "6 interrupt", idea: "A plain fallback begins with its first child in each frame. So that child is an **interrupt**: as long as it doesn't fail, the others aren't ticked, and keep the numbers that they remember.",
    task: "From frame 10 to 25 the alarm `a` is on. Let A stand on 2 meanwhile, and go on with its round afterwards.",
    hint: "Click `seq*`, press \u201cwrap in\u201d, then \u201cfallback\u201d. Click `seq*` again, press \u201cadd before\u201d, then \u201cseq\u201d. Click its `wait`, press \u201creplace by\u201d, then \u201csignal\u201d. Press \u201cadd after\u201d, then \u201cmove\u201d, and choose 2 beside its name.",
    yours: "trees", script: "10 on a\n26 off a\n", frames: 60, goal: { by: 60, moments: [{ signals: { a: true }, A: { on: "2" } }, { signals: { a: false }, A: { on: "0" } }, { A: { on: "1" } }] },
    said: ["A stands on 2 while a is on", "on 0 afterwards", "and on 1"],
    map: ["###########", "#0.A.....1#", "####.######", "#...2.....#", "###########"], agents: ["guard"], trees: { guard: '["seq*", ["move", "0"], ["move", "1"]]' },
    solved: { guard: '["fallback", ["seq", ["signal", "a"], ["move", "2"]], ["seq*", ["move", "0"], ["move", "1"]]]' },
  },
  {
    name: "7 patience", idea: "Running is not Failure: a walk that somebody blocks goes on for ever. `ticks N` around a node **gives up**: once that was Running in N frames in a row, it fails. A `fallback*` (with memory) then stays with the next plan, where a plain one would begin with the first again.",
    task: "B sleeps in the passage to 0. Let A give up after some frames, and go to 1.",
    hint: "Click `move 0`, press \u201cwrap in\u201d, then \u201cticks\u201d, and make its number 8. Click the root, `fallback`, press \u201creplace by\u201d, then \u201cfallback*\u201d.",
    yours: "trees", script: "", frames: 40, goal: { by: 40, moments: [{ A: { on: "1" } }] }, said: ["A stands on 1"],
    map: ["##########", "#.A...B.0#", "#.########", "#......1.#", "##########"], agents: ["walker", "sleeper"], trees: { walker: '["fallback", ["move", "0"], ["move", "1"]]', sleeper: '["wait", 1000]' },
    solved: { walker: '["fallback*", ["ticks", 8, ["move", "0"]], ["move", "1"]]' },
  },
  {
    name: "8 parallel", idea: "A **parallel** `par M` (\u21c9) ticks all of its children in each frame, and succeeds if at least M of them do. So it can count votes.",
    task: "Let A walk only while at least two of the signals `a`, `b` and `c` are on: that is so from frame 14.",
    hint: "Click `signal a`, press \u201cwrap in\u201d, then \u201cpar\u201d. Press \u201cadd child\u201d, then \u201csignal\u201d, and choose b beside its name. Click `par`, press \u201cadd child\u201d, then \u201csignal\u201d, and choose c beside its name. Click `par`, and make its number 2.",
    yours: "trees", script: "4 on a\n8 off a\n10 on b\n14 on c\n", frames: 30, goal: { by: 30, moments: [{ A: { on: "0" } }], never: [{ signals: { a: true, b: false, c: false }, A: { moves: true } }, { signals: { a: false, b: true, c: false }, A: { moves: true } }, { signals: { a: false, b: false }, A: { moves: true } }] },
    said: ["A stands on 0"], forbidden: "A walks with fewer than two signals on",
    map: ["##########", "#A......0#", "##########"], agents: ["voter"], trees: { voter: '["seq",\n      ["signal", "a"],\n      ["move", "0"]]' },
    solved: { voter: '["seq", ["par", 2, ["signal", "a"], ["signal", "b"], ["signal", "c"]], ["move", "0"]]' },
  },
  {
    name: "9 giving", idea: "`give` hands an item to an agent that stands **one step away** with empty hands. It is Running then; in the next frame A's own hands are empty, and it fails. So a `not` around it goes on.",
    task: "A puts its item down at the counter. Let it give the item to B instead.",
    hint: "Click `drop`, press \u201creplace by\u201d, then \u201cgive\u201d: it says B already.",
    yours: "trees", script: "", frames: 40, goal: { by: 40, moments: [{ B: { carries: true } }] }, said: ["B carries an item"],
    map: ["#########", "#.A.*..1#", "#.#######", "#....0B.#", "#########"], agents: ["porter", "clerk"], trees: { porter: '["seq*",\n      ["fallback", ["item"], ["move", "1"]],\n      ["take"],\n      ["move", "0"],\n      ["not", ["drop"]]]', clerk: '["wait", 1000]' },
    solved: { porter: '["seq*", ["fallback", ["item"], ["move", "1"]], ["take"], ["move", "0"], ["not", ["give", "B"]]]' },
  },
  {
    name: "10 doors", idea: "Doors are opened and shut by **signals**, and you switch them while it plays: by their buttons under the map, or by the keys `a` and `b`. Each switch becomes a line of the script. A's tree says \u201cas far as the doors allow\u201d.",
    task: "Bring A through both doors to 0. They must never be open at the same time.",
    hint: "Play, and press `a`. Once A stands on 1, press `a` again, and then `b`. If you were too late, \u201cAgain\u201d begins anew.",
    yours: "script", script: "", frames: 80, goal: { by: 80, moments: [{ A: { on: "0" } }], never: [{ signals: { a: true, b: true } }] },
    said: ["A stands on 0"], forbidden: "both doors are open",
    map: ["############", "#2A.a.1.b.0#", "############"], agents: ["thief"], trees: { thief: '["fallback", ["move", "0"], ["move", "1"], ["move", "2"]]' },
    solved: "3 on a\n10 off a\n12 on b\n",
  },
];

// The level's text of a lesson, with its own trees or with others.
function levelOf({ map, agents, trees }, others = {}) {
  const rows = map.map((row) => `    ${JSON.stringify(row)}`).join(",\n");
  const all = Object.entries({ ...trees, ...others }).map(([name, tree]) => `    ${JSON.stringify(name)}: ${tree}`).join(",\n");
  return `{\n  "map": [\n${rows}\n  ],\n  "agents": ${JSON.stringify(agents).replace(/,/g, ", ")},\n  "trees": {\n${all}\n  }\n}\n`;
}

// Whether texts differ from a lesson's only in what is the learner's.
function isOwnWork(lesson, { script }, draft) {
  const same = (one, other) => JSON.stringify(one) == JSON.stringify(other);
  if (!draft || !same(draft.map, lesson.map) || !same(draft.agents, lesson.agents)) return false;
  if (lesson.yours == "trees") return script == lesson.script;
  return same(draft.trees, JSON.parse(levelOf(lesson)).trees);
}
