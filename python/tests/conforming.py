"""The rules that gymnasium.utils.env_checker.check_env and pettingzoo.test.parallel_api_test check, written down by hand from their
documentation and from knowledge of their sources. Where these packages are installed, the tests call the real checks too."""
import inspect

try:
    import numpy
except ImportError:
    numpy = None

ARRAY = numpy.ndarray if numpy else memoryview
TRUTH = (bool, numpy.bool_) if numpy else (bool,)
NUMBER = (int, float, numpy.integer, numpy.floating) if numpy else (int, float)
WHOLE = (int, numpy.integer) if numpy else (int,)


class Rules:
    """Looks, and keeps the words of what isn't so."""

    def __init__(self):
        self.seen, self.broken = [], []

    def __call__(self, fact, words):
        if words not in self.seen:
            self.seen.append(words)
        if not fact and words not in self.broken:
            self.broken.append(words)


def same(one, other):
    if isinstance(one, dict):
        return isinstance(other, dict) and one.keys() == other.keys() and all(same(one[it], other[it]) for it in one)
    if isinstance(one, ARRAY):
        return isinstance(other, ARRAY) and one.shape == other.shape and one.tolist() == other.tolist()
    return type(one) is type(other) and one == other


def plain(seen):
    return {key: plain(it) for key, it in seen.items()} if isinstance(seen, dict) else seen.tolist()


def dice_state(dice):
    return str(dice.bit_generator.state if hasattr(dice, "bit_generator") else dice.getstate())


def parts(space):
    return [it for part in space.spaces.values() for it in parts(part)] if hasattr(space, "spaces") else [space]


def look_at_space(rule, space, what):
    for it in parts(space):
        names = ("shape", "dtype", "sample", "contains", "seed")
        rule(all(hasattr(it, name) for name in names), f"the {what} space has {', '.join(names)}")
        rule(it.contains(it.sample()), f"what the {what} space samples is in it")
        if hasattr(it, "low") and numpy:
            rule(it.low.shape == it.shape and it.high.shape == it.shape, f"bounds have the {what} space's shape")
            rule((it.low <= it.high).all() and (it.low < it.high).any(), f"bounds of the {what} space are in order, and not all equal")
            rule(all(numpy.isfinite(bound.astype(float)).all() for bound in (it.low, it.high)), f"bounds of the {what} space are finite")
            rule(len(it.shape) in (1, 3), f"a box of the {what} space has 1 or 3 dimensions")
            if len(it.shape) == 3:
                is_picture = it.dtype == numpy.uint8 and (it.low == 0).all() and (it.high == 255).all()
                rule(is_picture, "a box of 3 dimensions is of bytes from 0 to 255")
    space.seed(7)
    first = space.sample()
    space.seed(7)
    rule(same(first, space.sample()), f"a seed makes the {what} space sample the same")


def gymnasium_rules(make, base=None):
    """Each rule of check_env; those of its warnings too. `make` takes a render_mode."""
    rule, env = Rules(), make(render_mode=None)
    if base:
        rule(isinstance(env, base), "it is a gymnasium.Env")
    rule(env.unwrapped is env, "unwrapped is the environment itself")
    rule(not callable(getattr(env, "seed", None)), "there is no method seed, which is of old versions")
    look_at_space(rule, env.action_space, "action")
    look_at_space(rule, env.observation_space, "observation")
    words = inspect.signature(env.reset).parameters
    rule("seed" in words and words["seed"].default is None, "reset takes seed, None by default")
    rule("options" in words and words["options"].default is None, "reset takes options, None by default")
    answer = env.reset(seed=123)
    rule(isinstance(answer, tuple) and len(answer) == 2, "reset answers a pair")
    seen, info = answer
    rule(seen in env.observation_space, "what reset shows is in the observation space")
    rule(isinstance(info, dict), "reset answers a dictionary of information")
    rule(env.unwrapped._np_random is not None, "a seed makes the generator")
    drawn = dice_state(env.unwrapped._np_random)
    rule(same(env.reset(seed=123)[0], seen), "reset with one seed shows the same")
    rule(dice_state(env.unwrapped._np_random) == drawn, "reset with one seed makes the same generator")
    env.reset(seed=456)
    rule(dice_state(env.unwrapped._np_random) != drawn, "reset with another seed makes another generator")
    env.reset(options={})
    env.reset(seed=123)
    rule(env.reset() is not None, "reset without a seed goes on with the generator")
    env.action_space.seed(1)
    action = env.action_space.sample()
    rule(env.action_space.contains(action), "a sample is an action")
    env.reset(seed=5)
    answer = env.step(action)
    rule(isinstance(answer, tuple) and len(answer) == 5, "step answers five values")
    env.reset(seed=5)
    again = env.step(action)
    rule(all(same(it, other) for it, other in zip(answer, again)), "one seed and one action come to the same")
    ended = False
    for turn in range(400):
        seen, reward, terminated, truncated, info = env.step(env.action_space.sample())
        rule(seen in env.observation_space, "what step shows is in the observation space")
        for it in [seen] if not isinstance(seen, dict) else seen.values():
            rule(isinstance(it, ARRAY), "what is observed is an array")
        is_number = isinstance(reward, NUMBER) and not isinstance(reward, bool)
        rule(is_number and reward == reward and abs(reward) != float("inf"), "a reward is a finite number")
        rule(isinstance(terminated, TRUTH), "terminated is a truth")
        rule(isinstance(truncated, TRUTH), "truncated is a truth")
        rule(isinstance(info, dict), "step answers a dictionary of information")
        if terminated or truncated:
            ended = True
            env.reset()
    rule(ended, "an episode ends")
    seen = env.reset(seed=9)[0]
    kept = plain(seen)
    env.step(env.action_space.sample())
    rule(plain(seen) == kept, "an observation stays as it was when it goes on")
    modes = env.metadata.get("render_modes")
    rule(isinstance(modes, (list, tuple)) and all(isinstance(it, str) for it in modes), "metadata names the render modes")
    rule(isinstance(env.metadata.get("render_fps"), WHOLE) and env.metadata["render_fps"] > 0, "metadata has the frames a second")
    rule(env.render_mode is None or env.render_mode in modes, "render_mode is one of them")
    for mode in modes or []:
        shown = make(render_mode=mode)
        rule(shown.render_mode == mode, "render_mode is what was asked for")
        shown.reset(seed=1)
        for _ in range(2):
            picture = shown.render()
            if mode == "rgb_array":
                is_so = isinstance(picture, ARRAY) and len(picture.shape) == 3 and picture.shape[2] == 3
                is_so = is_so and (picture.dtype == numpy.uint8 if numpy else picture.format == "B")
                rule(is_so, "rgb_array answers an array of bytes, [y, x, 3]")
            if mode == "ansi":
                rule(isinstance(picture, str) and picture != "", "ansi answers a text")
            shown.step(shown.action_space.sample())
        shown.close()
        shown.close()
    env.close()
    return rule


def pettingzoo_rules(make, base=None, cycles=300):
    """Each rule of parallel_api_test, and of its seed and render tests. `make` takes a render_mode."""
    rule, env = Rules(), make(render_mode=None)
    if base:
        rule(isinstance(env, base), "it is a pettingzoo.ParallelEnv")
    rule(hasattr(env, "possible_agents"), "possible_agents are told")
    rule(env.unwrapped is env, "unwrapped is the environment itself")
    rule(isinstance(env.metadata.get("name"), str), "metadata has a name")
    modes = env.metadata.get("render_modes")
    rule(isinstance(modes, (list, tuple)), "metadata names the render modes")
    env.reset(seed=0, options={"options": 1})
    for who in env.possible_agents:
        rule(env.observation_space(who) is env.observation_space(who), "observation_space answers the same object each time")
        rule(env.action_space(who) is env.action_space(who), "action_space answers the same object each time")
        look_at_space(rule, env.observation_space(who), "observation")
        look_at_space(rule, env.action_space(who), "action")
    runs = []
    for _ in range(2):
        seen, infos = env.reset(seed=4)
        rule(isinstance(seen, dict) and isinstance(infos, dict), "reset answers two dictionaries")
        rule(set(env.agents) == set(env.possible_agents) == set(seen) == set(infos), "reset shows each player something")
        rule(env.num_agents == len(env.agents) and env.max_num_agents == len(env.possible_agents), "num_agents and max_num_agents count")
        live, finished, told = set(env.agents), set(), [seen]
        for who in env.possible_agents:
            env.action_space(who).seed(ord(who))
        for _ in range(cycles):
            answer = env.step({who: env.action_space(who).sample() for who in env.agents})
            is_so = isinstance(answer, tuple) and len(answer) == 5 and all(isinstance(it, dict) for it in answer)
            rule(is_so, "step answers five dictionaries")
            rule(all(set(it) == live for it in answer), "step answers for each live player, and for no other")
            seen, rewards, terminated, truncated, infos = answer
            rule(all(seen[it] in env.observation_space(it) for it in seen), "what step shows is in the observation space")
            rule(all(isinstance(it, NUMBER) for it in rewards.values()), "rewards are numbers")
            rule(all(isinstance(it, TRUTH) for it in [*terminated.values(), *truncated.values()]), "terminated and truncated are truths")
            rule(all(isinstance(it, dict) for it in infos.values()), "information is a dictionary for each")
            rule(set(env.agents) <= set(env.possible_agents), "agents are possible ones")
            rule(not set(env.agents) & finished, "who has finished doesn't come back")
            told.append(answer[:4])
            gone = {it for it in live if terminated[it] or truncated[it]}
            live, finished = live - gone, finished | gone
            rule(set(env.agents) == live, "agents are those that live")
            if not live:
                rule(finished == set(env.possible_agents), "all have finished when none is left")
                break
        rule(not live, "an episode ends")
        runs.append(told)
    alike = [same(*it) if isinstance(it[0], dict) else all(map(same, *it)) for it in zip(*runs)]
    rule(len(runs[0]) == len(runs[1]) and all(alike), "one seed and the same actions come to the same")
    for mode in modes or []:
        shown = make(render_mode=mode)
        shown.reset(seed=1)
        picture = shown.render()
        rule(isinstance(picture, str if mode == "ansi" else ARRAY), "render answers what its mode says")
        rule(not isinstance(picture, ARRAY) or picture.shape[2:] == (3,), "rgb_array answers an array [y, x, 3]")
        shown.close()
    state = env.state()
    rule(state is not None, "state shows the whole")
    env.close()
    return rule
