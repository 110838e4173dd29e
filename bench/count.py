#!/usr/bin/env python3
"""Instructions a step of the benchmark's rows, by callgrind: exact, and the same on every run of one library.

    count.py BENCH            our rows beside those of counts.txt; fails where one takes a tenth more
    count.py BENCH --store    our rows, to counts.txt
    count.py BENCH --tables   the tables of instructions of docs/PERFORMANCE.md, and a whole session's cost

BENCH is the benchmark's program. Run by `make bench-count`."""
import os
import re
import shutil
import subprocess
import sys
import tempfile

STORED = os.path.join(os.path.dirname(os.path.abspath(__file__)), 'counts.txt')
ROWS = {
    'many': 'session, 4,096 replies a call',
    'few': 'session, 64 replies a call',
    'one': 'session, one reply a call',
    'target': 'target',
    'loop': 'whole loop, call by call',
    'program': 'whole loop in one call',
}
# For each delay list the repetitions that are counted (without delays a whole session), and the replies of a
# whole session, as the benchmark writes them.
LISTS = {'none': (28, 912652), '255': (32, 104622088)}
CALLS = {'one': 1, 'few': 64, 'many': 4096}
RECORD = 32
ALLOWED = 1.1


def count(bench, side, row, delays):
    with tempfile.TemporaryDirectory() as folder:
        said = subprocess.run(
            ['valgrind', '--tool=callgrind', f'--callgrind-out-file={folder}/out', '--collect-atstart=no',
             '--toggle-collect=*repetition*', bench, '--only', f'{side}:{row}', '--delays', delays,
             '--repeat', str(LISTS[delays][0])],
            stdout=subprocess.PIPE, stderr=subprocess.STDOUT, text=True).stdout
    steps = re.search(r'^(\d+) steps$', said, re.M)
    collected = re.search(r'Collected : (\d+)', said)
    if not steps or not collected:
        sys.exit(f'bench-count: {side}:{row}: {said[-300:]}')
    return int(collected[1]) / int(steps[1])


def keys():
    return [(delays, row) for delays in LISTS for row in ROWS]


def store(bench):
    with open(STORED, 'w') as file:
        for delays, row in keys():
            file.write(f'{delays} {row} {count(bench, "ours", row, delays):.1f}\n')
    print('bench/counts.txt: written')


def compare(bench):
    stored = {}
    with open(STORED) as file:
        for line in file:
            delays, row, number = line.split()
            stored[delays, row] = float(number)
    worse = 0
    for delays, row in keys():
        now, before = count(bench, 'ours', row, delays), stored[delays, row]
        above = now > ALLOWED * before
        worse += above
        told = 'ABOVE ' if above else 'ok    '
        print(f'{told} {now:7.1f}, stored {before:7.1f}: {ROWS[row]}, delays {delays}', flush=True)
    if worse:
        sys.exit(f'bench-count: rows that take a tenth more than in bench/counts.txt: {worse}')


def rounded(number):
    for unit, size in (('G', 10**9), ('M', 10**6)):
        if number >= size:
            return f'{number / size:.3g} {unit}'
    return f'{number:,.0f}'


# What a driver has of a session: the record goes in and out at each call, a byte comes in for each reply and
# one goes out for each step.
def session(delays, ours):
    replies = LISTS[delays][1]
    head = f'16 KiB, delays {delays}: {replies:,} replies'
    print(f'\n| {head} | calls | instructions awake | of a call | bytes moved |')
    print('|---|---|---|---|---|')
    for row, size in CALLS.items():
        calls = -(-replies // size)
        awake, moved = replies * ours[row], calls * 2 * RECORD + 2 * replies
        print(f'| {ROWS[row][9:]} | {calls:,} | {rounded(awake)} | {awake / calls:,.0f} | {rounded(moved)} |')


def table(bench, delays):
    ours = {}
    print(f'\n| instructions a step, delays {delays} | structs, kept | plain | ours | ours/plain |')
    print('|---|---|---|---|---|')
    for row, title in ROWS.items():
        kept = '' if row == 'program' else f'{count(bench, "kept", row, delays):.1f}'
        plain, ours[row] = count(bench, 'plain', row, delays), count(bench, 'ours', row, delays)
        print(f'| {title} | {kept} | {plain:.1f} | {ours[row]:.1f} | {ours[row] / plain:.2f} |', flush=True)
    return ours


def tables(bench):
    for delays, ours in [(delays, table(bench, delays)) for delays in LISTS]:
        session(delays, ours)


def main():
    if not shutil.which('valgrind'):
        sys.exit('bench-count: not run, valgrind is missing (Debian package valgrind)')
    bench, *way = sys.argv[1:]
    ways = {'': compare, '--store': store, '--tables': tables}
    ways.get(' '.join(way), lambda _: sys.exit(__doc__))(bench)


main()
