// Reads from a page what these tests call: the scripts that need no document, and the module.
const fs = require("fs");
const vm = require("vm");
const zlib = require("zlib");

const held = (page, id) => new RegExp(`id="${id}">([^]*?)</script>`).exec(page)[1];

function readPage(file) {
  const page = fs.readFileSync(file, "utf8");
  const names = ["Btworld", "Film", "Signals", "readDraft", "painted", "resized", "partsOf", "nodesOf", "treeOf", "labelOf", "FORMS", "spelt", "withChild", "withoutNode", "withWord", "wrapped", "asKind", "swapped", "withTree", "withTreeOf", "renamedTree", "freeName", "LESSONS", "levelOf", "reached", "isOwnWork"];
  const core = vm.runInThisContext(`${held(page, "core")}\n({ ${names.join(", ")} })`, { filename: "play.html" });
  return { ...core, code: zlib.gunzipSync(Buffer.from(held(page, "module"), "base64")), samples: JSON.parse(held(page, "samples")) };
}

// Counts what is looked at, and says what is wrong.
class Looks {
  constructor() {
    this.all = this.wrong = 0;
  }

  look(fact, what) {
    this.all++;
    if (!fact) console.log(`WRONG: ${what}`);
    this.wrong += !fact;
  }

  end(what) {
    console.log(`${what}: ${this.all} looks, ${this.wrong} wrong`);
    process.exitCode = this.wrong ? 1 : 0;
  }
}

// Numbers below a bound, the same in each run.
function randomFrom(seed) {
  let state = seed;
  return (below) => (state = (state * 1103515245 + 12345) % 2147483648, Math.floor(state / 65536) % below);
}

module.exports = { readPage, Looks, randomFrom };
