#!/usr/bin/env python3
"""Plays a level by the rules of docs/BEHAVIOUR.md, written down once more: slow, simple, and with nothing of the crates in it.

    scripts/runs/plain_player.py play LEVEL --frames N [--script FILE]      the text of the frames
    scripts/runs/plain_player.py check LEVEL                                its width, height, number of agents and of trees
    scripts/runs/plain_player.py digest LEVEL --frames N [--script FILE]    the digests of level and script, then of the state after each frame
    scripts/runs/plain_player.py state LEVEL --frame F [--script FILE]      the state after a frame
    scripts/runs/plain_player.py why LEVEL --frame F --agent A [--script FILE]
                                                                    what each node of an agent's tree answered in a frame

A fault of the level, the script or the agent is its line on standard error, with status 2. Expected texts of cases come from here, and
scripts/runs/compare_with_plain.py compares the program with it."""
import json
import re
import sys
from collections import Counter

S, F, R = "SFR"
LISTS = ("seq", "fallback", "seq*", "fallback*", "par")
# The wants of a `move`, in the order in which they are looked for: north, east, south, west.
SIDES = ((0, -1), (1, 0), (0, 1), (-1, 0))
SIDE_WORDS = ("north", "east", "south", "west")


class Fault(Exception):
    """The line of the first fault."""


# ---- level files


class NoJson(Exception):
    pass


class NoNumber:
    """A JSON number that doesn't fit 64 bits without a sign."""


def read_number(text):
    if text in ("NaN", "Infinity", "-Infinity") or float(text) in (float("inf"), float("-inf")):
        raise NoJson
    return int(text) if text.isdigit() and int(text) < 2**64 else NoNumber()


def nesting(text):
    """Returns how deep lists and objects stand in each other, outside of texts."""
    depth = most = 0
    for it in re.findall(r'"(?:[^"\\]|\\.)*"|[\[\]{}]', text, re.S):
        depth += (it in "[{") - (it in "]}")
        most = max(most, depth)
    return most


def read_json(data):
    try:
        text = data.decode("utf-8")
        if nesting(text) > 127:
            raise NoJson
        value = json.loads(text, parse_int=read_number, parse_float=read_number, parse_constant=read_number)
        # Half of a pair of escapes is no text.
        json.dumps(value, ensure_ascii=False, default=lambda _: 0).encode("utf-8")
        return value
    except (NoJson, ValueError, RecursionError):
        raise Fault("level: json") from None


class Node:
    def __init__(self, value, count):
        """`count` has how many nodes come before this one in preorder."""
        shape(isinstance(value, list) and value and isinstance(value[0], str))
        self.kind, rest = value[0], value[1:]
        self.at = count[0]
        count[0] += 1
        self.number, self.name = 0, ""
        if self.kind in ("par", "tries", "ticks", "wait", "near"):
            shape(rest and type(rest[0]) is int)
            self.number, rest = rest[0], rest[1:]
        elif self.kind in ("move", "at", "signal", "give"):
            letters = {"signal": "[a-z]", "give": "[A-Z]"}.get(self.kind, "[0-9]")
            shape(rest and isinstance(rest[0], str) and re.fullmatch(letters, rest[0]))
            self.name, rest = rest[0], rest[1:]
        if self.kind in ("not", "tries", "ticks"):
            shape(len(rest) == 1)
        elif self.kind not in LISTS:
            shape(self.kind in KINDS and not rest)
        self.children = [Node(it, count) for it in rest]

    def nodes(self):
        return [self] + [it for child in self.children for it in child.nodes()]

    def depth(self):
        return 1 + max([it.depth() for it in self.children], default=0)

    def limit(self):
        """Returns the first limit that the whole tree breaks, or None."""
        nodes = self.nodes()
        most = {"tries": 1000, "ticks": 1000, "wait": 1000, "near": 16}
        broken = (
            ("too many nodes", len(nodes) > 255),
            ("too deep", self.depth() > 32),
            ("no child", any(it.kind in LISTS and not it.children for it in nodes)),
            ("threshold", any(it.kind == "par" and not 1 <= it.number <= len(it.children) for it in nodes)),
            ("count", any(it.kind in most and not 1 <= it.number <= most[it.kind] for it in nodes)),
        )
        return next((name for name, is_broken in broken if is_broken), None)

    def names(self, kinds):
        return {it.name for it in self.nodes() if it.kind in kinds}


def shape(is_right):
    if not is_right:
        raise Fault("level: shape")


class Level:
    def __init__(self, data):
        value = read_json(data)
        shape(isinstance(value, dict) and set(value) == {"map", "agents", "trees"})
        self.rows, self.names = value["map"], value["agents"]
        for it in (self.rows, self.names):
            shape(isinstance(it, list) and all(isinstance(text, str) for text in it))
        shape(isinstance(value["trees"], dict))
        self.trees = {name: Node(node, [0]) for name, node in sorted(value["trees"].items())}
        self.look_at_map()
        self.look_at_trees()

    def look_at_map(self):
        self.height = len(self.rows)
        self.width = len(self.rows[0]) if self.rows else 0
        if not 1 <= self.height <= 128 or not 1 <= self.width <= 128 or any(len(row) != self.width for row in self.rows):
            raise Fault("level: map size")
        for y, row in enumerate(self.rows):
            for x, it in enumerate(row):
                if not re.fullmatch(r"[#.*a-z0-9A-Z]", it):
                    raise Fault(f"level: map character at {x},{y}")
        self.cells = {(x, y): it for y, row in enumerate(self.rows) for x, it in enumerate(row)}
        letters = sorted(it for it in self.cells.values() if "A" <= it <= "Z")
        digits = [it for it in self.cells.values() if "0" <= it <= "9"]
        if letters != [chr(65 + k) for k in range(len(letters))] or len(set(digits)) < len(digits):
            raise Fault("level: letters")
        self.letters = letters
        self.places = {it: cell for cell, it in self.cells.items() if it in digits}
        self.agents = [next(cell for cell, it in self.cells.items() if it == letter) for letter in letters]

    def look_at_trees(self):
        if len(self.names) != len(self.letters):
            raise Fault("level: agent count")
        for name, tree in self.trees.items():
            if tree.limit():
                raise Fault(f"level: tree {name}: {tree.limit()}")
        for letter, name in zip(self.letters, self.names):
            if name not in self.trees:
                raise Fault(f"level: agent {letter} has no tree")
        for kinds, there, what in ((("move", "at"), self.places, "a place"), (("give",), self.letters, "an agent")):
            for name, tree in self.trees.items():
                if not tree.names(kinds) <= set(there):
                    raise Fault(f"level: tree {name} names {what} that is not on the map")


# ---- scripts


def read_script(data):
    """Returns the changes: frame, letter, whether it is on."""
    lines = data.split(b"\n")
    if not lines[-1]:
        lines.pop()
    changes = []
    for number, line in enumerate(lines, 1):
        found = re.fullmatch(rb"([1-9][0-9]{0,3}) (on|off) ([a-z])", line)
        if not found:
            raise Fault(f"script: line {number}")
        frame = int(found[1])
        if changes and frame < changes[-1][0]:
            raise Fault(f"script: order at line {number}")
        changes.append((frame, found[3].decode(), found[2] == b"on"))
    return changes


def signals_of(changes, frame):
    """Returns the letters that are on in a frame."""
    on = set()
    for at, letter, is_on in changes:
        if at <= frame:
            (on.add if is_on else on.discard)(letter)
    return on


# ---- games


class Game:
    """A level and a script, played up to a frame."""

    def __init__(self, level, script):
        self.level, self.script, self.frame = level, script, 0
        self.at = list(level.agents)
        self.carries = [False] * len(self.at)
        self.items = {cell for cell, it in level.cells.items() if it == "*"}
        self.trees = [level.trees[name] for name in level.names]
        self.memories = [[0] * len(tree.nodes()) for tree in self.trees]
        self.answers = ["-"] * len(self.at)
        # Of each agent in this frame: what the nodes answered, the ways that they got, and the memory before.
        self.told, self.ways, self.before = [], [], []
        # What each agent wanted: the node's number, the deed, and its side or to whom; whether that was done; and where all stood before.
        self.wants, self.granted, self.was_at = [], [], []
        # How many path questions were asked, and what was met: for those who compare.
        self.questions, self.met = 0, Counter()

    @property
    def on(self):
        return signals_of(self.script, self.frame)

    def is_open(self, cell):
        ground = self.level.cells.get(cell, "#")
        return ground != "#" and (not "a" <= ground <= "z" or ground in self.on)

    def step(self):
        """Ticks all agents against the world of the frame before, with the signals of this one, and then does what they want."""
        self.frame += 1
        self.told, self.ways = [{} for _ in self.at], [{} for _ in self.at]
        self.before = [list(memory) for memory in self.memories]
        self.wants, self.was_at = [], list(self.at)
        for agent, tree in enumerate(self.trees):
            of_agent = []
            self.answers[agent] = self.tick(tree, agent, of_agent)
            self.wants.append(of_agent[0] if of_agent else (None, "stay"))
        self.granted = [self.do(agent, *want) for agent, (_, *want) in enumerate(self.wants)]

    def do(self, agent, what, to=None):
        """Does what an agent wants, if that can be done, and returns whether it was."""
        here, before = self.at[agent], (self.at[agent], self.carries[agent])
        if what == "move":
            cell = here[0] + to[0], here[1] + to[1]
            if self.is_open(cell) and cell not in self.at:
                self.at[agent] = cell
        elif what == "take" and not self.carries[agent] and here in self.items:
            self.items.remove(here)
            self.carries[agent] = True
        elif what == "drop" and self.carries[agent] and here not in self.items:
            self.items.add(here)
            self.carries[agent] = False
        elif what == "give" and self.carries[agent] and not self.carries[to] and self.apart(agent, to) == 1:
            self.carries[agent], self.carries[to] = False, True
        is_done = before != (self.at[agent], self.carries[agent])
        self.met[f"does {what}"] += is_done
        return is_done

    def apart(self, agent, other):
        return sum(abs(a - b) for a, b in zip(self.at[agent], self.at[other]))

    def way(self, here, place):
        """Returns the side to step to and how many steps it is, None where the place is here, or F where there is no way."""
        if here == place:
            return None
        steps, now = {place: 0}, [place]
        while now:
            now = [(x + dx, y + dy) for x, y in now for dx, dy in SIDES]
            now = [cell for cell in dict.fromkeys(now) if self.is_open(cell) and cell not in steps]
            steps.update({cell: max(steps.values()) + 1 for cell in now})
        beside = [(side, steps[cell] + 1) for side in SIDES for cell in [(here[0] + side[0], here[1] + side[1])] if cell in steps]
        return min(beside, key=lambda it: it[1]) if beside else F

    def tick(self, node, agent, wants):
        answer = self.told[agent][node.at] = self.ticked(node, agent, wants)
        self.met[f"{node.kind} {answer}"] += 1
        return answer

    def ticked(self, node, agent, wants):
        memory, kind, here = self.memories[agent], node.kind, self.at[agent]
        down = lambda child: self.tick(child, agent, wants)
        if kind in ("seq", "fallback"):
            for child in node.children:
                answer = down(child)
                if answer != (S if kind == "seq" else F):
                    return answer
            return S if kind == "seq" else F
        if kind == "par":
            answers = [down(child) for child in node.children]
            if answers.count(S) >= node.number:
                return S
            return F if answers.count(F) >= len(answers) - node.number + 1 else R
        if kind in ("seq*", "fallback*"):
            goes_on = S if kind == "seq*" else F
            for child in node.children[memory[node.at] :]:
                answer = down(child)
                if answer == R:
                    return R
                if answer != goes_on:
                    memory[node.at] = 0
                    return answer
                memory[node.at] += 1
            memory[node.at] = 0
            return goes_on
        if kind == "not":
            return {S: F, F: S, R: R}[down(node.children[0])]
        if kind == "tries":
            if memory[node.at] == node.number:
                return F
            answer = down(node.children[0])
            memory[node.at] += answer == F
            return answer
        if kind == "ticks":
            if memory[node.at] == node.number:
                memory[node.at] = 0
                return F
            answer = down(node.children[0])
            memory[node.at] = memory[node.at] + 1 if answer == R else 0
            return answer
        if kind == "wait":
            is_over = memory[node.at] == node.number
            memory[node.at] = 0 if is_over else memory[node.at] + 1
            return S if is_over else R
        if kind == "move":
            self.questions += 1
            way = self.ways[agent][node.at] = self.way(here, self.level.places[node.name])
            if way in (None, F):
                return F if way == F else S
            wants.append((node.at, "move", way[0]))
            return R
        if kind == "take":
            if self.carries[agent]:
                return S
            return self.want(here in self.items, wants, node.at, "take")
        if kind == "drop":
            return self.want(self.carries[agent] and here not in self.items, wants, node.at, "drop")
        if kind == "give":
            to = self.level.letters.index(node.name)
            return self.want(self.carries[agent] and not self.carries[to] and self.apart(agent, to) == 1, wants, node.at, "give", to)
        others = [other for other in range(len(self.at)) if other != agent]
        is_so = {
            "at": lambda: here == self.level.places[node.name],
            "carrying": lambda: self.carries[agent],
            "item": lambda: here in self.items,
            "signal": lambda: node.name in self.on,
            "near": lambda: any(self.apart(agent, other) <= node.number for other in others),
        }
        return S if is_so[kind]() else F

    @staticmethod
    def want(is_so, wants, *want):
        if is_so:
            wants.append(want)
        return R if is_so else F

    # ---- what is written of it

    def glyph(self, cell):
        ground = self.level.cells[cell]
        if ground == "#":
            return "#"
        if cell in self.at:
            return self.level.letters[self.at.index(cell)]
        if cell in self.items:
            return "*"
        if "a" <= ground <= "z":
            return "/" if ground in self.on else ground
        return ground if "0" <= ground <= "9" else "."

    def lines(self):
        """Returns the line of each agent."""
        for letter, answer, (x, y), carries in zip(self.level.letters, self.answers, self.at, self.carries):
            yield f"{letter} {answer} {x},{y} {'*' if carries else '-'}"

    def text(self):
        rows = ["".join(self.glyph((x, y)) for x in range(self.level.width)) for y in range(self.level.height)]
        return "".join(f"{line}\n" for line in [f"frame {self.frame}", *rows, *self.lines()])

    def node_lines(self, agent, node, depth=0):
        """Returns the line of a node of an agent's tree, and of those below it."""
        before, now = self.before[agent][node.at], self.memories[agent][node.at]
        line = f"{self.told[agent].get(node.at, '.')} {node.at} {'  ' * depth}{node.kind}"
        if node.name or node.number:
            line += f" {node.name or node.number}"
        if node.at in self.ways[agent]:
            way = self.ways[agent][node.at]
            line += f": {SIDE_WORDS[SIDES.index(way[0])]}, {way[1]}" if isinstance(way, tuple) else ": no way" if way == F else ": here"
        if before != now:
            line += f": {before} to {now}"
        return [line, *(it for child in node.children for it in self.node_lines(agent, child, depth + 1))]

    def why(self, letter):
        if letter not in self.level.letters:
            raise Fault("why: no agent")
        agent = self.level.letters.index(letter)
        return "".join(f"{line}\n" for line in [f"frame {self.frame}", list(self.lines())[agent], *self.node_lines(agent, self.trees[agent])])

    def item_cells(self):
        return sorted(self.items, key=lambda cell: (cell[1], cell[0]))

    def digest(self):
        """The frame, the signals of the next frame as far as they were handed in, agents, memories and items."""
        data = low(4, self.frame) + [int(chr(97 + k) in self.on) for k in range(26)]
        for (x, y), carries in zip(self.at, self.carries):
            data += low(4, x) + low(4, y) + [int(carries)]
        for memory in self.memories:
            data += [byte for number in memory for byte in low(2, number)]
        return hashed(data + [byte for x, y in self.item_cells() for byte in low(4, y * self.level.width + x)])

    def state(self):
        on = "".join(f" {letter}" for letter in sorted(self.on))
        told = [f"btworld state 1 level {level_digest(self.level):016x} frame {self.frame}", f"shown{on}", f"next{on}"]
        for line, memory in zip(self.lines(), self.memories):
            told.append(" ".join([line, *map(str, memory)]))
        return "".join(f"{line}\n" for line in [*told, *(f"item {x},{y}" for x, y in self.item_cells())])


# ---- digests: FNV-1a of 64 bits


def hashed(data):
    value = 14695981039346656037
    for byte in data:
        value = (value ^ byte) * 1099511628211 % 2**64
    return value


def low(count, number):
    """The lowest byte first."""
    return [number // 256**k % 256 for k in range(count)]


KINDS = ["seq", "fallback", "seq*", "fallback*", "par", "not", "tries", "ticks", "wait"]
KINDS += ["move", "take", "drop", "at", "carrying", "item", "signal", "near", "give"]


# The answers that each kind can give.
ANSWERS = {it: S + F + R for it in KINDS}
ANSWERS.update(dict.fromkeys(["at", "carrying", "item", "signal", "near"], S + F))
ANSWERS.update({"wait": S + R, "drop": F + R, "give": F + R})


def level_digest(level):
    """Width, height, ground, agents with empty hands, items, and the tree of each agent in preorder."""
    data = low(2, level.width) + low(2, level.height)
    for _, it in sorted(level.cells.items(), key=lambda entry: (entry[0][1], entry[0][0])):
        if it == "#":
            data += [0, 0]
        elif "a" <= it <= "z":
            data += [2, ord(it) - 97]
        else:
            data += [3, int(it)] if "0" <= it <= "9" else [1, 0]
    data += low(2, len(level.agents))
    for x, y in level.agents:
        data += low(4, x) + low(4, y) + [0]
    for number, it in enumerate("".join(level.rows)):
        data += low(4, number) if it == "*" else []
    for name in level.names:
        for node in level.trees[name].nodes():
            named = ord(node.name) - ord({"signal": "a", "give": "A"}.get(node.kind, "0")) if node.name else node.number
            data += [KINDS.index(node.kind), *low(2, named), len(node.children)]
    return hashed(data)


def script_digest(changes):
    return hashed([byte for frame, letter, is_on in changes for byte in [*low(4, frame), ord(letter) - 97, int(is_on)]])


# ---- the words


def played(level, script, frames):
    """Yields the game after each frame."""
    game = Game(level, script)
    for _ in range(frames):
        game.step()
        yield game


def frames_text(level, script, frames):
    return "".join(game.text() for game in played(level, script, frames))


def digests_text(level, script, frames):
    head = f"btworld digest 1 level {level_digest(level):016x} script {script_digest(script):016x}\n"
    return head + "".join(f"{game.frame} {game.digest():016x}\n" for game in played(level, script, frames))


def state_text(level, script, frame):
    return [Game(level, script), *played(level, script, frame)][-1].state()


def why_text(level, script, frame, letter):
    return [*played(level, script, frame)][-1].why(letter)


def read(path):
    with open(path, "rb") as it:
        return it.read()


def main(words):
    options = dict(zip(words[2::2], words[3::2]))
    if len(words) < 2 or words[0] not in ("play", "check", "digest", "state", "why") or len(words) % 2:
        sys.exit(__doc__)
    frames = int(options.get("--frames", options.get("--frame", 0)))
    try:
        level = Level(read(words[1]))
        script = read_script(read(options["--script"]) if "--script" in options else b"")
        if words[0] == "check":
            text = f"ok {level.width} {level.height} {len(level.agents)} {len(level.trees)}\n"
        elif words[0] == "why":
            text = why_text(level, script, frames, options["--agent"])
        else:
            text = {"play": frames_text, "digest": digests_text, "state": state_text}[words[0]](level, script, frames)
    except Fault as fault:
        print(fault, file=sys.stderr)
        return 2
    sys.stdout.write(text)
    return 0


if __name__ == "__main__":
    sys.exit(main(sys.argv[1:]))
