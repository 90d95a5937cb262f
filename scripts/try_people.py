"""Tests of the three robots of missions/people, of lints, of shrunken regions and of sensors that err, for scripts/try_scripts."""
import os
import re
import tempfile

import trying
from trying import HERE, MISSIONS, PEOPLE, SOTER, TOP, read, run, want

SENSORS = {'lift': ['cabin.x=0.001', 'cabin.v=0.0033'], 'crossing': ['robot.gap=0.001', 'robot.v=0.0033'], 'greenhouse': ['house.t=0.033']}
TICKS = 400


def path_of(name):
    return os.path.join(PEOPLE, name + '.mission')


def noisy(truth, mission, words):
    return run([os.path.join(HERE, 'noisy'), truth, mission, *words, '--ticks', str(TICKS), '--second'])


def sensors_that_err_are_no_alarm():
    """With room for them in the model; and without it they are."""
    for name, sigmas in SENSORS.items():
        words = sigmas + (['--contact', 'robot.v=robot.gap'] if name == 'crossing' else [])
        truth = os.path.join(PEOPLE, name + '.asked.program')
        status, out, err = noisy(truth, path_of(name + '_sensor'), words)
        want(status == 0 and f'{TICKS} ticks without' in out, f'{name}: status {status}, {out} {err}')
        if name != 'greenhouse':
            status, out, err = noisy(truth, path_of(name), sigmas)
            want(status == 1 and 'a false alarm' in out, f'{name} with exact sensors in its model: status {status}, {out} {err}')


def clamps_leave_no_room():
    """The lift whose errors stand inside of its clamps, and the crossing without a contact: an alarm, or no region at all."""
    lift = read(path_of('lift_sensor'))
    program = re.split('^%', lift, flags=re.M)[0]
    want(') + speed;' in program, 'the speed of the lift is spelled in another way')
    crossing = read(os.path.join(PEOPLE, 'crossing_sensor.asked.program')).replace('(if v > 0.00 then place else 0.000)', 'place')
    status, out, _ = run([trying.PROGRAMS['soter_regions']], crossing)
    want(status == 1 and 'safe none' in out, f'the crossing that drifts: status {status}, {out[:80]}')


def shrunken_regions_change_less():
    """What is written is accepted, and its changes of mode are those that are told, counted again from the trace."""
    with tempfile.TemporaryDirectory() as folder:
        kept = os.path.join(folder, 'calm.mission')
        status, out, err = run([os.path.join(HERE, 'shrink'), path_of('lift_sensor'), '--least-changes', '3', '--write', kept])
        want(status == 0 and 'taken: ' in out, f'status {status}, {out} {err}')
        rows = {words: (float(share), int(changes)) for share, changes, words in re.findall(r'^ *([\d.]+)% +(\d+)  (.*)$', out, re.M)}
        taken = rows[re.search('taken: (.*)', out)[1]]
        want(taken[1] <= 3 and all(share <= taken[0] for share, changes in rows.values() if changes <= 3), f'{rows}')
        status, trace, _ = run([SOTER, 'fly'], read(kept), SOTER_HINTS='0')
        modes = re.findall(r'^\d+ decide shaft (\w+)$', trace, re.M)
        changes = sum(a != b for a, b in zip(modes, modes[1:]))
        want(status == 0 and changes == taken[1], f'status {status}, {changes} changes for {taken}')
        status, out, err = run([os.path.join(HERE, 'shrink'), path_of('lift'), '[10..20, 1..2]'])
        want(status == 1 and '10 has to have 3 decimals' in err, err)
        status, out, err = run([os.path.join(HERE, 'shrink'), os.path.join(MISSIONS, 'line.mission')])
        want(status == 1 and 'has no flight' in err, err)


LINTS = [
    ('rescale(v, 3) / 10', 'rescale(v / 10, 3)', 'the floor of `v / 10` always rounds down', 'next gap'),
    ('gap - rescale(v, 3) / 10', 'gap + gap - gap - rescale(v, 3) / 10', '`gap` stands more than once in the formula of `gap`', 'next gap'),
    ('do { publish acc = -2.0; }', 'do { if robot.v > 1.00 { publish acc = -2.0; } }', '`halt` does not always publish `acc`', 'node halt'),
    ('  noise floor: fix(2)[-0.01..0.01];\n', '', '`robot` has no disturbance', 'plant robot'),
    ('node halt period 1', 'node halt period 9', '`halt` has period 9, and its module `line` decides each 5', 'node halt'),
]


def lints_name_the_line():
    """Each warning, at its line; and none of the program as it is."""
    asked = os.path.join(PEOPLE, 'crossing.asked.program')
    out = run([os.path.join(HERE, 'lint'), asked])[1]
    want(': error: ' not in out and 'asks `./soter regions < FILE` to find the region' in out, f'`safer none`: {out}')
    program = read(asked).replace('safer none', 'safer [19.000..20.000, 0.00..0.00]')
    with tempfile.TemporaryDirectory() as folder:
        path = os.path.join(folder, 'some.program')
        for old, new, said, place in [('', '', '', '')] + LINTS:
            text = program.replace(old, new, 1) if old else program
            text = text.replace(' + floor', '') if 'no disturbance' in said else text
            with open(path, 'w') as file:
                file.write(text)
            out = run([os.path.join(HERE, 'lint'), '--command', 'format', path])[1]
            found = [line for line in out.split('\n') if ': warning: ' in line]
            if not said:
                want(not found, f'{found}')
                continue
            line = 1 + text[:text.index(place)].count('\n')
            want(any(said in one and one.startswith(f'{path}:{line}:') for one in found), f'{new}: no {said!r} at line {line} in {found}')
            quiet = run([os.path.join(HERE, 'lint'), '--quiet', '--command', 'format', path])[1]
            want('warning' not in quiet, f'{quiet}')


def waiting_is_told():
    """With a program that is slow: seconds while it is at work, and that comments go; neither on standard output."""
    with tempfile.TemporaryDirectory() as folder:
        slow = os.path.join(folder, 'slow')
        with open(slow, 'w') as file:
            file.write('#!/bin/sh\ncat >/dev/null\nsleep 6\necho answer\n')
        os.chmod(slow, 0o755)
        status, out, err = run([os.path.join(TOP, 'soter_regions')], '# a comment\n', SOTER_REGIONS_PROGRAM=slow, SOTER_PROGRESS='1')
        want((status, out) == (0, 'answer\n') and 'at work for 5 s' in err and 'comments of the program are not kept' in err, f'{status} {out!r} {err!r}')


TESTS = (sensors_that_err_are_no_alarm, clamps_leave_no_room, shrunken_regions_change_less, lints_name_the_line, waiting_is_told)
