"""Tests of scripts/why, for scripts/try_scripts: each run that is shown is flown by soter from its flight, and leaves what was asked."""
import os
import re
import tempfile
import xml.etree.ElementTree as tree

import trying
from trying import HERE, MISSIONS, PEOPLE, SOTER, read, run, want

REAL = [f'real/{name}.asked.program' for name in ('cruise', 'cruise_seen', 'docking', 'geofence', 'lane', 'pendulum', 'pendulum_modal', 'surveillance', 'thermostat', 'town')]
REFUSED = [f'check/{name}.mission' for name in ('line_too_wide', 'double_wide', 'drone_low', 'drone_early', 'pair_low')]
# programs of people/, of which regions finds none once this stands in place of that
CHANGED = [
    ('lift', 'v - 0.15', 'v - 0.01', 'v + 0.15', 'v + 0.00'),
    ('lift', 'push: fix(2)[-0.10..0.10]', 'push: fix(2)[-0.10..0.10]', 'safe [0.500..29.500', 'safe [14.000..16.000'),
    ('crossing', 'publish acc = -2.0', 'publish acc = 0.1', 'safer none', 'safer none'),
    ('crossing', 'period 5 offset 0', 'period 500 offset 0', 'period 5 offset 0;', 'period 500 offset 0;'),
    ('crossing', 'do { publish acc = -2.0; }', 'do { if robot.v > 1.00 { publish acc = -2.0; } }', 'safer none', 'safer none'),
    ('greenhouse', 'period 3 offset 0', 'period 15 offset 0', 'period 3 offset 0;', 'period 15 offset 0;'),
]


def inputs():
    """What is asked: a name, the words and the text."""
    for name in REAL:
        yield name, ['certify'], read(os.path.join(MISSIONS, name))
    for name in REFUSED:
        yield name, ['check'], read(os.path.join(MISSIONS, name))
    for name in ('certify/double_point.program', 'certify/line_point.program'):
        yield name, ['certify'], read(os.path.join(MISSIONS, name))
    for name, old, new, other, another in CHANGED:
        text = read(os.path.join(PEOPLE, name + '.asked.program'))
        want(old in text and other in text, f'{name} has no {old!r}')
        yield f'{name}, {new}, {another}', ['regions'], text.replace(old, new).replace(other, another)


def regions_of(text, module):
    """The boxes of `safe` of a module, from the canonical text."""
    canonical = run([SOTER, 'format'], re.split(r'^%', text, flags=re.M)[0])[1]
    plant, boxes = re.search(rf'^module {module} \{{.*?\n  plant (\w+);\n  safe (.*?);$', canonical, re.M | re.S).groups()
    return plant, [[tuple(int(end.replace('.', '')) for end in side.split('..')) for side in box.strip('[]').split(', ')] for box in boxes.split(' | ')]


def table_of(said):
    """The rows of the table that was written, by tick; numbers as mantissas."""
    rows = {}
    for line in said.split('\n'):
        words = line.split()
        if words and words[0].isdigit():
            rows[int(words[0])] = words[1:]
    return rows


def flown_states(trace, plant):
    start = re.search(rf'^start {plant} (.*)$', trace, re.M)[1]
    return [start] + re.findall(rf'^\d+ tick .*?\b{plant}\([^)]*\)=(\S+)', trace, re.M)


def is_inside(boxes, point):
    return any(all(lo <= number <= hi for (lo, hi), number in zip(box, point)) for box in boxes)


def compare_run(name, words, text, folder):
    """One run: its flight is flown by soter, its states are those that were written, and the last one alone is outside."""
    flight, picture = os.path.join(folder, 'flight.mission'), os.path.join(folder, 'run.svg')
    status, said, err = run([os.path.join(HERE, 'why'), *words, '--flight', flight, '--picture', picture], text)
    want(status == 0 and 'a run of' in said, f'{name}: status {status}, {said[:300]!r} {err}')
    module = re.search(r'module (\w+)', said)[1]
    plant, boxes = regions_of(text, module)
    done, trace, _ = run([SOTER, 'fly'], read(flight), SOTER_HINTS='0')
    want(done == 0, f'{name}: the flight ends with status {done}, {trace[:200]!r}')
    states = [[int(number) for number in point.split(',')] for point in flown_states(trace, plant)]
    rows = table_of(said)
    want(len(states) == max(rows) + 1, f'{name}: {len(states)} states for {max(rows)} ticks')
    for tick, row in rows.items():
        want([int(word.replace('.', '')) for word in row[:len(states[0])]] == states[tick], f'{name}: tick {tick}: {row}, and flown {states[tick]}')
    want(all(is_inside(boxes, point) for point in states[:-1]) and not is_inside(boxes, states[-1]), f'{name}: {states[-2:]}')
    root = tree.fromstring(read(picture))
    marks = [mark for mark in root.iter() if mark.get('class') == 'badpoint' and mark.get('data-point')]
    want(marks, f'{name}: the picture has no mark')
    return said


def runs_that_are_shown_are_flown():
    done = 0
    with tempfile.TemporaryDirectory() as folder:
        for name, words, text in inputs():
            compare_run(name, words, text, folder)
            done += 1
    want(done >= 20, f'only {done} runs')


def causes_are_told_apart():
    """Nothing published, the wrong way, and the end of its range."""
    crossing = read(os.path.join(PEOPLE, 'crossing.asked.program'))
    for old, new, said in (('do { publish acc = -2.0; }', 'do { if robot.v > 1.00 { publish acc = -2.0; } }', 'published nothing on acc'),
                           ('publish acc = -2.0', 'publish acc = 0.1', 'pushed the wrong way, or too weakly'),
                           ('fix(1)[-2.0..1.0]', 'fix(1)[0.0..1.0]', 'published the end of its range at each firing')):
        text = crossing.replace(old, new).replace('publish acc = -2.0; }' if 'fix' in old else '\0', 'publish acc = 0.0; }')
        status, out, err = run([SOTER, 'why'], text)
        want(status == 0 and said in out, f'{new}: status {status}, {out[-600:]!r} {err}')


def no_run_is_shown_where_there_is_none():
    """A gap that the safe node keeps, a cell that is too large; and answers of which no run can tell."""
    line = read(os.path.join(MISSIONS, 'line.mission'))
    rows = [('line_gap', 'check', read(os.path.join(MISSIONS, 'check', 'line_gap.mission')), 1, 'the state is just in no cell'),
            ('line_one_cell', 'check', read(os.path.join(MISSIONS, 'check', 'line_one_cell.mission')), 1, 'the boxes may be too coarse'),
            ('line', 'check', line, 2, ''), ('points', 'certify', read(os.path.join(MISSIONS, 'certify', 'points.program')), 2, '')]
    for name, command, text, wanted, words in rows:
        status, out, err = run([SOTER, 'why', command], text)
        want(status == wanted and words in out, f'{name}: status {status}, {out[-300:]!r} {err[-300:]!r}')
        want(wanted == 1 or err, f'{name}: nothing is said')


TESTS = (runs_that_are_shown_are_flown, causes_are_told_apart, no_run_is_shown_where_there_is_none)
