// The calls of include/btworld.h, of a WebAssembly module that was compiled from the proved sources. It holds no rule of the game:
// it copies bytes in and out. A handle lies in the module's memory, and is 16 bytes, zeros where it is closed.

// As many nodes as a tree may have.
const MOST_NODES = 255;
// What `nodes` answers of a node that was not ticked.
const NOT_TICKED = 3;
// The first step of a way, in the order of btworld_direction; the last two have no step.
const DIRECTIONS = ["north", "east", "south", "west", "here", "no way"];
// What an agent may want, in the order of btworld_deed.
const DEEDS = ["stay", "move", "take", "drop", "give"];
const NOBODY = 255;

// The bytes of a module as it stands in a page: packed, and as letters.
async function unpacked(letters) {
  const packed = await fetch(`data:application/gzip;base64,${letters}`);
  return new Response(packed.body.pipeThrough(new DecompressionStream("gzip"))).arrayBuffer();
}

class Btworld {
  static async load(bytes) {
    const { instance } = await WebAssembly.instantiate(bytes, {});
    return new Btworld(instance.exports);
  }

  // A call that traps, as for want of stack, leaves its game half stepped: no other call is let in after it.
  constructor(calls) {
    this.calls = { memory: calls.memory };
    this.isWithin = false;
    for (const [name, call] of Object.entries(calls)) {
      if (typeof call != "function") continue;
      this.calls[name] = (...words) => {
        if (this.isWithin) throw new Error("a call before this one trapped: load the module anew");
        this.isWithin = true;
        const answer = call(...words);
        this.isWithin = false;
        return answer;
      };
    }
    this.number = this.take(8);
    this.count = this.take(8);
    this.state = this.take(16);
    this.memory = this.take(2 * MOST_NODES);
    this.room = 0;
    this.at = null;
  }

  take(size) {
    const at = this.calls.page_take(BigInt(size));
    if (!at) throw new Error("no memory");
    return at;
  }

  // A view is made anew each time: a call may grow the memory.
  bytes(at, size) {
    return new Uint8Array(this.calls.memory.buffer, Number(at), size);
  }

  word(at) {
    return new DataView(this.calls.memory.buffer).getUint32(Number(at), true);
  }

  // Calls with texts, each as a pointer and a length.
  with(texts, call) {
    const given = [];
    try {
      for (const text of texts) {
        const bytes = typeof text == "string" ? new TextEncoder().encode(text) : text;
        const at = this.take(bytes.length);
        given.push(at, BigInt(bytes.length));
        this.bytes(at, bytes.length).set(bytes);
      }
      return call(...given);
    } finally {
      for (let k = 0; k < given.length; k += 2) this.calls.page_give(given[k]);
    }
  }

  // The bytes that a call writes to a buffer, which grows as the call asks: status 5 is SHORT.
  written(call) {
    for (;;) {
      if (!this.at) this.at = this.take(this.room);
      const status = call(this.at, BigInt(this.room), this.number) >>> 0;
      const size = this.word(this.number);
      if (status != 5) return { status, bytes: status == 0 || status == 51 ? this.bytes(this.at, size).slice() : null };
      this.calls.page_give(this.at);
      this.at = null;
      this.room = size;
    }
  }

  // The line that btworld writes of the first fault of a level and a script: "" where there is none.
  fault(level, script) {
    const told = this.with([level, script], (...given) => this.written((...room) => this.calls.btworld_fault_text(...given, ...room)));
    return told.bytes ? new TextDecoder().decode(told.bytes) : `status ${told.status}`;
  }

  // Where the first fault of a level and a script stands, line and column from 0, and why it is one, as `btworld explain` says it:
  // "LINE:COLUMN POINTER" of a level, columns counted in bytes, or "LINE" of a script, and the reason in the next line. Null where the
  // module has no such call, or there is no fault.
  explain(level, script) {
    if (!this.calls.btworld_explain) return null;
    const { bytes } = this.with([level, script], (...given) => this.written((...room) => this.calls.btworld_explain(...given, ...room)));
    const said = bytes && /^(\d+)(?::(\d+))?(?: \/[^\n]*)?\n([^]*)$/.exec(new TextDecoder().decode(bytes));
    if (!said) return null;
    const line = said[1] - 1, row = new TextEncoder().encode((said[2] ? level : script).split("\n")[line] ?? "");
    return { line, column: new TextDecoder().decode(row.subarray(0, (said[2] ?? 1) - 1)).length, reason: said[3] };
  }

  // A handle that holds no game.
  closed() {
    const game = this.take(16);
    this.bytes(game, 16).fill(0);
    return game;
  }

  // A game of a level and a script before its first frame, or the status that refuses them.
  open(level, script) {
    const game = this.closed();
    const status = this.with([level, script], (...given) => this.calls.btworld_open_script(game, ...given)) >>> 0;
    if (status == 0) return { status, game };
    this.calls.page_give(game);
    return { status, game: null };
  }

  step(game) {
    return this.calls.btworld_step_script(game) >>> 0;
  }

  // The next frame with exactly the signals whose bits are set: bit 0 is a.
  stepWith(game, signals) {
    return this.calls.btworld_step(game, signals) >>> 0;
  }

  // The same game once more; both go on by themselves.
  fork(game) {
    const copy = this.closed();
    const status = this.calls.btworld_fork(game, copy) >>> 0;
    if (status == 0) return copy;
    this.calls.page_give(copy);
    throw new Error(`status ${status}`);
  }

  // An agent after the frame: its cell, whether it carries, and its answer, 0 success, 1 failure, 2 running. Null where there is none.
  agent(game, number) {
    if (this.calls.btworld_agent(game, number, this.state) >>> 0) return null;
    const at = new DataView(this.calls.memory.buffer, Number(this.state), 16);
    return { x: at.getUint32(0, true), y: at.getUint32(4, true), loaded: at.getUint8(8), answer: at.getUint8(9) };
  }

  // A cell after the frame, or before the first one: whether an item lies on it, also under an agent.
  cell(game, x, y) {
    const status = this.calls.btworld_cell(game, x, y, this.state) >>> 0;
    if (status) throw new Error(`status ${status}`);
    return { hasItem: this.bytes(this.state, 3)[1] == 1 };
  }

  // What each node of an agent's tree answers in the next frame, if exactly these signals are on in it, in preorder: 0 success, 1 failure,
  // 2 running, 3 not ticked. The game stays as it is.
  nodes(game, signals, agent) {
    const { status, bytes } = this.written((...room) => this.calls.btworld_nodes(game, signals, agent, ...room));
    if (status) throw new Error(`status ${status}`);
    return bytes;
  }

  // The way from an agent to a place, 0 to 9, that a `move` gets in the next frame, if exactly these signals are on in it: its first step, and
  // how many there are. Null where the module has no such call.
  way(game, signals, agent, place) {
    if (!this.calls.btworld_way) return null;
    const status = this.calls.btworld_way(game, signals, agent, place, this.state) >>> 0, at = new DataView(this.calls.memory.buffer, Number(this.state), 8);
    if (status) throw new Error(`status ${status}`);
    return { steps: at.getUint32(0, true), direction: DIRECTIONS[at.getUint32(4, true)] };
  }

  // What an agent wants to do in the next frame, if exactly these signals are on in it, and whether the frame does it: the deed, the number of
  // the node that wants it, and to whom it gives; both -1 where there is none. Null where the module has no such call.
  intent(game, signals, agent) {
    if (!this.calls.btworld_intent) return null;
    const status = this.calls.btworld_intent(game, signals, agent, this.state) >>> 0, at = new DataView(this.calls.memory.buffer, Number(this.state), 16);
    if (status) throw new Error(`status ${status}`);
    return { node: at.getInt32(0, true), deed: DEEDS[at.getUint8(12)], agent: at.getUint8(14) == NOBODY ? -1 : at.getUint8(14), isGranted: at.getUint8(15) == 1 };
  }

  // What `btworld why` writes of an agent, if exactly these signals are on in the next frame. Null where the module has no such call.
  why(game, signals, agent) {
    if (!this.calls.btworld_why) return null;
    const { status, bytes } = this.written((...room) => this.calls.btworld_why(game, signals, agent, ...room));
    if (status) throw new Error(`status ${status}`);
    return new TextDecoder().decode(bytes);
  }

  // The number that an agent remembers for each node of its tree, in preorder, after the frame.
  numbers(game, agent) {
    const status = this.calls.btworld_memory(game, agent, this.memory, BigInt(MOST_NODES), this.number) >>> 0;
    if (status) throw new Error(`status ${status}`);
    const at = new DataView(this.calls.memory.buffer, Number(this.memory));
    return Array.from({ length: this.word(this.number) }, (_, n) => at.getUint16(2 * n, true));
  }

  text(game) {
    return this.written((...room) => this.calls.btworld_text(game, ...room));
  }

  digest(game) {
    const status = this.calls.btworld_digest(game, this.count) >>> 0;
    if (status) throw new Error(`status ${status}`);
    return new DataView(this.calls.memory.buffer).getBigUint64(Number(this.count), true);
  }

  close(game) {
    this.calls.btworld_close(game);
    this.calls.page_give(game);
  }

  // The text of each frame: where a call is refused there are fewer.
  play(level, script, frames) {
    const { status, game } = this.open(level, script);
    const texts = [];
    if (status) return { status, texts };
    try {
      for (let k = 0; k < frames; k++) {
        const stepped = this.step(game);
        if (stepped) return { status: stepped, texts };
        const { status, bytes } = this.text(game);
        if (status) return { status, texts };
        texts.push(bytes);
      }
      return { status: 0, texts };
    } finally {
      this.close(game);
    }
  }

  // The frames that a log of btworld shows.
  replay(level, script, log) {
    return this.with([level, script, log], (...given) =>
      this.written((at, room, size) => this.calls.btworld_replay(...given, at, room, size, this.count)));
  }

  // The log of a complete run that begins with the events of a log that was broken off.
  complete(level, script, log) {
    return this.with([level, script, log], (...given) => this.written((...room) => this.calls.btworld_complete(...given, ...room)));
  }
}
