#!/usr/bin/env python3
"""Plays the levels of gen.py by btworld and by the plain programs side by side, and compares frames and speed.

    bench/bench.py [BTWORLD] [--workers 1,2,4] [--rounds 5] [--levels a,b] [--seconds 0.3] [--pools WORDS] [--json FILE]

BTWORLD is the proved program where it isn't given: that of dist/ if it is of these sources, else what ./prove built; `-` measures the plain programs alone. What isn't there
yet is made: the levels, and the programs by build.sh. README.md says how to read the figures: by the clock and by processor time,
a `~` where they differ by more than a tenth between rounds. The status is 1 where a program prints other frames than serial."""
import argparse
import hashlib
import json
import os
import shlex
import shutil
import statistics
import subprocess
import sys
import threading
import time

HERE = os.path.dirname(os.path.abspath(__file__))
BUILT = os.path.join(HERE, 'out')
LEVELS = os.path.join(BUILT, 'levels')
TOP = os.path.dirname(HERE)
TIMEOUT = 120
PARALLEL = ['parallel', 'tbb', 'fiber']
# Those with one thread.
SINGLE = ['serial', 'library']


# More than this part of a figure's median between its least and its most is marked.
STEADY = 0.1


def loop():
    """Counts for 20 ms of processor time; how many times as long that took by the clock, and the turns in a microsecond of processor time.

    On a machine with nothing else to do the first is 1, and the second is the same each time."""
    clock, used, turns = time.perf_counter(), time.process_time(), 0
    while time.process_time() - used < 0.02:
        for _ in range(1000):
            turns += 1
    used = time.process_time() - used
    return (time.perf_counter() - clock) / used, turns / used / 1e6


def proved():
    of_dist = subprocess.run([os.path.join(TOP, 'scripts', 'programs', 'in_dist.sh'), 'btworld'], stdout=subprocess.PIPE, stderr=subprocess.DEVNULL)
    return of_dist.stdout.decode().strip() if of_dist.returncode == 0 else os.path.join(TOP, 'crates', 'btworld', 'out', 'btworld')


def spread(figures):
    return (max(figures) - min(figures)) / statistics.median(figures)


def run(cmd, out):
    t = time.perf_counter()
    p = subprocess.Popen(cmd, stdin=subprocess.DEVNULL, stdout=out, stderr=out)
    guard = threading.Timer(TIMEOUT, p.kill)
    guard.start()
    _, _, use = os.wait4(p.pid, 0)
    p.returncode = 0
    guard.cancel()
    return time.perf_counter() - t, use.ru_utime + use.ru_stime


def peak(cmd):
    # Not by wait4: a child's peak begins with what its parent has.
    r = subprocess.run(['/usr/bin/time', '-v'] + cmd, stdin=subprocess.DEVNULL, stdout=subprocess.DEVNULL, stderr=subprocess.PIPE)
    for l in r.stderr.decode('utf-8', 'replace').splitlines():
        if 'Maximum resident set size' in l:
            return int(l.split()[-1])
    return 0


def digest(cmd):
    p = subprocess.Popen(cmd, stdin=subprocess.DEVNULL, stdout=subprocess.PIPE, stderr=subprocess.DEVNULL)
    guard = threading.Timer(TIMEOUT, p.kill)
    guard.start()
    h = hashlib.sha256()
    while True:
        b = p.stdout.read(1 << 20)
        if not b:
            break
        h.update(b)
    guard.cancel()
    return p.wait(), h.hexdigest()


def main():
    ap = argparse.ArgumentParser()
    ap.add_argument('btworld', nargs='?')
    ap.add_argument('--workers', default='1,2,4')
    ap.add_argument('--rounds', type=int, default=5)
    ap.add_argument('--levels')
    ap.add_argument('--seconds', type=float, default=0.3)
    ap.add_argument('--pools', default='', help='more words for btworld, such as "--slots 8 --large 63"')
    ap.add_argument('--json')
    a = ap.parse_args()
    a.btworld = a.btworld or proved()
    if a.btworld != '-' and not shutil.which(a.btworld):
        sys.exit('bench: there is no program %s; ./prove btworld builds it' % a.btworld)
    if not os.path.exists(os.path.join(BUILT, 'serial')):
        subprocess.check_call([os.path.join(HERE, 'build.sh')])
    if not os.path.exists(os.path.join(LEVELS, 'manifest.json')):
        subprocess.check_call([sys.executable, os.path.join(HERE, 'gen.py')])
    man = json.load(open(os.path.join(LEVELS, 'manifest.json')))
    ks = [int(k) for k in a.workers.split(',')]
    progs = [('serial', [os.path.join(BUILT, 'serial')])]
    progs += [(p, [os.path.join(BUILT, p)]) for p in ['library'] + PARALLEL if os.path.exists(os.path.join(BUILT, p))]
    if a.btworld != '-':
        progs.insert(0, ('btworld', [a.btworld]))
    null = open(os.devnull, 'wb')
    results = []
    print('load at the start: %s' % open('/proc/loadavg').read().strip())
    for lv in man:
        if a.levels and lv['name'] not in a.levels.split(','):
            continue
        n = lv['frames']
        path = os.path.join(LEVELS, lv['name'])

        def cmd(p, k, frames=n):
            c = dict(progs)[p] + ['play', path + '.json', '--frames', str(frames), '--workers', str(k)]
            if lv['script']:
                c += ['--script', path + '.script']
            if p == 'btworld':
                c += shlex.split(a.pools)
            return c
        # one task per program and number of workers
        tasks = [(p, k) for p, _ in progs for k in (ks if p not in SINGLE else [1])]
        want = digest(cmd('serial', 1))
        ok, times, cpu, mem, looped = {}, dict((t, []) for t in tasks), dict((t, []) for t in tasks), {}, []
        for p, k in tasks:
            got = digest(cmd(p, k))
            ok[(p, k)] = got == want
            mem[(p, k)] = peak(cmd(p, k))
        for r in range(a.rounds):
            for t in tasks[r % len(tasks):] + tasks[:r % len(tasks)]:
                looped.append(loop())
                spent, used, m = 0.0, 0.0, 0
                while spent < a.seconds:
                    s, c = run(cmd(*t), null)
                    spent += s
                    used += c
                    m += 1
                times[t].append(spent / m)
                cpu[t].append(used / m)
        fps = dict((t, n / statistics.median(times[t])) for t in tasks)
        serial = fps[('serial', 1)]
        par = [t for t in tasks if t[0] in PARALLEL]
        top = max(par, key=lambda t: fps[t]) if par else None
        top_at = dict((k, max([t for t in par if t[1] == k], key=lambda t: fps[t])) for k in ks) if par else {}

        def ratio(t, u, of=times):
            # median over rounds of the speed of t over that of u in the same round
            return statistics.median([y / x for x, y in zip(of[t], of[u])]) if u else float('nan')
        print('\n%s: %d frames; serial %.0f frames/s, %.1f us a frame, %d KiB' % (
            lv['name'], n, serial, 1e6 / serial, mem[('serial', 1)]))
        waits, speeds = zip(*looped)
        print('  a loop beside took %.2f times its processor time (at most %.2f), and its turns a second differ by %.0f%%'
              % (statistics.median(waits), max(waits), spread(speeds) * 100))
        print('  %-9s %2s %11s %9s %9s %9s %9s %9s %11s %9s %9s %8s %8s' % (
            'program', 'K', 'frames/s', 'best', 'us/frame', 'cpu us/f', 'x serial', 'by cpu', 'x best at K', 'x best', 'peak KiB', 'spread',
            'by cpu'))
        for p, _ in progs:
            for k in sorted({1, *ks}):
                if (p, k) not in fps:
                    continue
                t = (p, k)
                r1, r2, r3 = ratio(t, ('serial', 1)), ratio(t, top_at.get(k)), ratio(t, top)
                sp, sc = spread(times[t]), spread(cpu[t])
                c = statistics.median(cpu[t]) / n * 1e6
                by_cpu = ratio(t, ('serial', 1), cpu)
                print('  %-9s %2d %11.0f %9.0f %9.1f %9.1f %9.3f %9.3f %11.3f %9.3f %9d %6.0f%%%s %6.0f%%%s%s' % (
                    p, k, fps[t], n / min(times[t]), 1e6 / fps[t], c, r1, by_cpu, r2, r3, mem[t], sp * 100, '~' if sp > STEADY else ' ',
                    sc * 100, '~' if sc > STEADY else ' ', '' if ok[t] else '  FRAMES DIFFER'))
                results.append({'level': lv['name'], 'frames': n, 'program': p, 'workers': k, 'fps': fps[t], 'best_fps': n / min(times[t]),
                                'cpu_us_per_frame': c, 'x_serial': r1, 'x_serial_by_cpu': by_cpu, 'x_best_at_k': r2, 'x_best': r3, 'peak_kib': mem[t],
                                'spread': sp, 'spread_by_cpu': sc, 'loop': statistics.median(waits), 'same_frames': ok[t]})
        sys.stdout.flush()
    print('\nload at the end: %s' % open('/proc/loadavg').read().strip())
    if a.json:
        json.dump(results, open(a.json, 'w'), indent=1)
    return 0 if all(r['same_frames'] for r in results) else 1


sys.exit(main())
