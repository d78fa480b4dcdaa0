#!/usr/bin/env python3
"""Counts what a hold of the board's lock costs. Nothing is timed, so it is the same whatever else the machine does.

    scripts/speed/holds.py PROGRAM LEVEL [FRAMES] [SCRIPT]

FRAMES (12) frames are played with one worker under valgrind's lackey, which writes each instruction and each access to memory.
The board's lock is the word that is exchanged for each event and held longest; a hold goes from the exchange that takes it to the
exchange or store that gives it back. Of the holds behind the first third the means are printed: instructions, cache lines of 64
bytes outside the own stack (and those written), bytes moved, and for each event of the log the instructions in holds. Holds that
change nothing (a look in vain) count too. Behind that stand the holds by their number of instructions, most frequent first.

Own stacks lie where valgrind maps them: STACKS=5000000-7000000 (hexadecimal) unless the variable says otherwise."""
import collections, os, subprocess, sys, tempfile

program, level = sys.argv[1:3]
frames = sys.argv[3] if len(sys.argv) > 3 else '12'
script = sys.argv[4:5]
low, high = (int(x, 16) // 64 for x in os.environ.get('STACKS', '5000000-7000000').split('-'))


def trace(count, log):
    # The number's length is the same in both runs: the stack begins behind the words, and so the lock's address.
    words = ['valgrind', '--tool=lackey', '--trace-mem=yes', '--log-fd=9', program, 'play', level, '--frames', str(count).zfill(4), '--workers', '1', '--log', log]
    if script:
        words += ['--script', *script]
    read, write = os.pipe()
    child = subprocess.Popen(['bash', '-c', f'exec "$@" 9>&{write} >/dev/null', 'holds', *words], pass_fds=(write,), stderr=subprocess.DEVNULL)
    os.close(write)
    with os.fdopen(read, 'rb') as lines:
        yield from lines
    if child.wait():
        sys.exit(f'holds: {program} ended with {child.returncode}')


with tempfile.TemporaryDirectory() as room:
    log = os.path.join(room, 'log')
    # Every word of the first frames that is exchanged, its exchanges, and the instructions from each to its next access.
    exchanged, begun, between, number = collections.Counter(), {}, collections.Counter(), 0
    for line in trace(2, log):
        if line[:2] == b'I ':
            number += 1
        elif line[:2] != b' L':
            at = line[3:].split(b',')[0]
            if at in begun:
                between[at] += number - begun.pop(at)
            elif line[:2] == b' M' and at[:2] == b'1f':
                exchanged[at] += 1
                begun[at] = number
    least = sum(1 for _ in open(log)) - 1
    lock = max((at for at in exchanged if exchanged[at] >= least), key=lambda at: between[at])
    holds, held, outside, inside = [], False, 0, 0
    for line in trace(frames, log):
        kind = line[:2]
        if kind == b'I ':
            if held:
                inside += 1
            else:
                outside += 1
        elif kind in (b' L', b' S', b' M'):
            at, _, size = line[3:].partition(b',')
            if at == lock and kind != b' L':
                if not held and kind == b' M':
                    held, inside, seen, written, moved = True, 0, set(), set(), 0
                elif held:
                    held = False
                    holds.append((inside, len(seen), len(written), moved, outside))
                    outside = 0
            elif held:
                first, count = int(at, 16), int(size)
                moved += count
                for place in range(first // 64, (first + count - 1) // 64 + 1):
                    if not low <= place < high:
                        seen.add(place)
                        if kind != b' L':
                            written.add(place)
    events = sum(1 for _ in open(log)) - 1

late = holds[len(holds) // 3:]
mean = [sum(column) / len(late) for column in zip(*late)]
print(f'{os.path.basename(level)}: {len(holds)} holds for {events} events of {frames} frames; of a hold: {mean[0]:.0f} instructions, {mean[1]:.1f} lines ({mean[2]:.1f} written), '
      f'{mean[3]:.0f} bytes moved; of an event: {sum(h[0] for h in late) * len(holds) / len(late) / events:.0f} instructions in holds')
for instructions, times in collections.Counter(h[0] for h in late).most_common(8):
    same = [h for h in late if h[0] == instructions]
    print(f'  {times:5} holds of {instructions} instructions, {sum(h[1] for h in same) / times:.1f} lines, {sum(h[3] for h in same) / times:.0f} bytes')
