// The frames of a run, played ahead and kept so that any of them is shown at once. All of them come from the module's calls.

// As many as `btworld play` takes, and as a script can name.
const MOST_FRAMES = 9999;
// A fork is kept of each frame whose number this divides; the frames between are stepped anew.
const KEEP = 16;

// Which signals are on in which frame. The game says so itself: a level of 26 doors and nobody plays the same script, and shows each
// open door as "/".
const DOORS = '{"map":["abcdefghijklmnopqrstuvwxyz"],"agents":[],"trees":{}}';
class Signals {
  constructor(world, script) {
    const { status, game } = world.open(DOORS, script);
    if (status) throw new Error(`status ${status}`);
    this.world = world;
    this.game = game;
    this.masks = [0];
  }

  // The signals of a frame as bits, a's the lowest.
  of(frame) {
    while (this.masks.length <= frame) this.masks.push(this.next());
    return this.masks[frame];
  }

  isOn(frame, letter) {
    return (this.of(frame) >> (letter.charCodeAt(0) - 97) & 1) == 1;
  }

  next() {
    const stepped = this.world.step(this.game), { status, bytes } = this.world.text(this.game);
    if (stepped || status) throw new Error(`status ${stepped || status}`);
    const row = bytes.indexOf(10) + 1;
    let mask = 0;
    for (let k = 0; k < 26; k++) if (bytes[row + k] == 47) mask |= 1 << k;
    return mask;
  }

  close() {
    this.world.close(this.game);
  }
}

class Film extends Frames {
  // LEVEL is a level's text in which there is no fault, MAP its rows. The film closes its signals.
  constructor(world, level, map, agents, signals) {
    const { status, game } = world.open(level, "");
    if (status) throw new Error(`status ${status}`);
    super(agents, signals);
    Object.assign(this, { world, level, head: game });
    this.kept = [world.fork(game)];
    this.cursor = null;
    this.told = new Map(); // of an agent that was asked of: what its nodes answered, by frame
    this.setStarts(map);
  }

  // Plays on up to a frame, for some milliseconds at most. Answers whether it got further.
  play(frame, milliseconds) {
    const until = performance.now() + milliseconds, last = Math.min(frame, MOST_FRAMES), from = this.count;
    while (this.count < last) {
      this.step();
      if (this.count % 8 == 0 && performance.now() >= until) break;
    }
    return this.count > from;
  }

  step() {
    const frame = this.count + 1;
    const status = this.world.stepWith(this.head, this.signals.of(frame));
    if (status) throw new Error(`status ${status}`);
    this.count = frame;
    this.version++;
    for (let a = 0; a < this.agents; a++) this.note(frame, a, this.world.agent(this.head, a));
    if (frame % KEEP == 0) this.kept[frame / KEEP] = this.world.fork(this.head);
  }

  // A game that stands at a frame that was played, to be asked and not to be changed; it holds until the next call.
  at(frame) {
    const { world } = this;
    if (!this.cursor || this.cursor.frame > frame || frame - this.cursor.frame > KEEP) {
      this.dropCursor();
      const place = Math.floor(frame / KEEP);
      this.cursor = { game: world.fork(this.kept[place]), frame: place * KEEP };
    }
    this.forward(this.cursor, frame);
    return this.cursor.game;
  }

  forward(it, frame) {
    while (it.frame < frame) {
      const status = this.world.stepWith(it.game, this.signals.of(it.frame + 1));
      if (status) throw new Error(`status ${status}`);
      it.frame++;
    }
  }

  dropCursor() {
    if (this.cursor) this.world.close(this.cursor.game);
    this.cursor = null;
  }

  // The text of a frame from 1 on, as btworld writes it.
  text(frame) {
    const { status, bytes } = this.world.text(this.at(frame));
    if (status) throw new Error(`status ${status}`);
    return bytes;
  }

  // What each node of an agent's tree answered in a frame from 1 on. The game that is asked stands at the frame before.
  answers(frame, agent) {
    if (!this.told.has(agent)) this.told.set(agent, []);
    const told = this.told.get(agent);
    return (told[frame] ??= this.world.nodes(this.at(frame - 1), this.signals.of(frame), agent));
  }

  // Whether a node answers in a frame otherwise than in the frame before; in frame 1, whether it is ticked.
  hasTurned(frame, agent, node) {
    const before = frame > 1 ? this.answers(frame - 1, agent)[node] : NOT_TICKED;
    return this.answers(frame, agent)[node] != before;
  }

  // The way to a place that a `move` of an agent got in a frame from 1 on, or null where the module doesn't tell.
  way(frame, agent, place) {
    return this.world.way(this.at(frame - 1), this.signals.of(frame), agent, place);
  }

  // What an agent wanted in a frame from 1 on and whether that came about, or null where the module doesn't tell.
  intent(frame, agent) {
    return this.world.intent(this.at(frame - 1), this.signals.of(frame), agent);
  }

  // What `btworld why` writes of a frame from 1 on, or null where the module doesn't tell.
  why(frame, agent) {
    return this.world.why(this.at(frame - 1), this.signals.of(frame), agent);
  }

  // Whether what an agent wanted came to nothing, as far as the module tells.
  isBlocked(frame, agent) {
    const intent = frame > 0 ? this.intent(frame, agent) : null;
    return intent !== null && intent.deed != "stay" && !intent.isGranted;
  }

  // To whom an agent's item went that it has no longer, or -1 where it gave it to nobody. Of a module that doesn't tell, what `btview page`
  // sees in the frames.
  giftOf(frame, agent) {
    const intent = this.intent(frame, agent);
    if (intent) return intent.deed == "give" && intent.isGranted ? intent.agent : -1;
    return super.giftOf(frame, agent);
  }

  digest(frame) {
    return this.world.digest(this.at(frame)).toString(16).padStart(16, "0");
  }

  // Other signals: the frames before the first one in which they differ stay.
  setSignals(signals) {
    let same = 0;
    while (same < this.count && signals.of(same + 1) == this.signals.of(same + 1)) same++;
    this.signals.close();
    this.signals = signals;
    if (same < this.count) this.cut(same);
  }

  // Forgets the frames behind one.
  cut(frame) {
    const { world } = this, place = Math.floor(frame / KEEP);
    for (const game of this.kept.splice(place + 1)) world.close(game);
    world.close(this.head);
    this.dropCursor();
    const head = { game: world.fork(this.kept[place]), frame: place * KEEP };
    this.forward(head, frame);
    this.head = head.game;
    this.count = frame;
    this.version++;
    for (const told of this.told.values()) told.length = Math.min(told.length, frame + 1);
  }

  close() {
    this.dropCursor();
    for (const game of [this.head, ...this.kept]) this.world.close(game);
    this.signals.close();
  }
}
