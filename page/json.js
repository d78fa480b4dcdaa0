// JSON as text: where its values stand, and pieces of it replaced.

// The parts of a JSON text that JSON.parse takes: of each value its kind, where it begins and ends, and what is in it.
function partsOf(text) {
  let at = 0;
  const blank = () => { while (" \t\n\r".includes(text[at]) && at < text.length) at++; };
  const string = () => {
    const from = at++;
    while (text[at] != '"') at += text[at] == "\\" ? 2 : 1;
    at++;
    return { kind: "string", from, to: at, value: JSON.parse(text.slice(from, at)) };
  };
  const list = (kind, close, part) => {
    const it = { kind, from: at++, items: [] };
    blank();
    while (text[at] != close) {
      it.items.push(part());
      blank();
      if (text[at] == ",") at++;
      blank();
    }
    it.to = ++at;
    return it;
  };
  const entry = () => {
    const key = string();
    blank();
    at++;
    return { key, value: value() };
  };
  const value = () => {
    blank();
    if (text[at] == '"') return string();
    if (text[at] == "[") return list("array", "]", value);
    if (text[at] == "{") return list("object", "}", entry);
    const from = at;
    while (at < text.length && !" \t\n\r,]}".includes(text[at])) at++;
    return { kind: "other", from, to: at };
  };
  return value();
}

// The text with pieces of it replaced, each { from, to, by }.
function replaced(text, pieces) {
  for (const { from, to, by } of pieces.sort((one, other) => other.from - one.from)) text = text.slice(0, from) + by + text.slice(to);
  return text;
}

// In which line and column a place of a text lies, both from 0.
function lineOf(text, at) {
  const before = text.slice(0, at).split("\n");
  return { line: before.length - 1, column: before[before.length - 1].length };
}
