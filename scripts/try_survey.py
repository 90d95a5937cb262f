"""Tests of surveys of many flights, for scripts/try_scripts."""
import hashlib
import importlib.machinery
import importlib.util
import json
import os
import re
import tempfile

from trying import HERE, MISSIONS, SOTER, read, run, want

# how many of how many, and the ends of the exact interval at 95 %, from tables of statistics
INTERVALS = ((0, 10, 0.0, 0.3085), (1, 10, 0.0025, 0.4450), (5, 10, 0.1871, 0.8129), (10, 10, 0.6915, 1.0), (97, 100, 0.9148, 0.9938))
COUNT, FORMULA = 12, 'pos.x < 22'


def survey():
    """The script as a module."""
    path = os.path.join(HERE, 'survey')
    loader = importlib.machinery.SourceFileLoader('survey', path)
    module = importlib.util.module_from_spec(importlib.util.spec_from_loader('survey', loader))
    loader.exec_module(module)
    return module


def seeded():
    """The vehicle on a line, with disturbances from a seed."""
    return re.sub(r'"sway":.*\n', '"sway":{"pos":{"kind":"seed","seed":1,"stream":1}}}\n', read(os.path.join(MISSIONS, 'line1.mission')))


def survey_intervals_are_exact():
    for k, n, low, high in INTERVALS:
        found = survey().interval(k, n)
        want(abs(found[0] - low) < 0.00006 and abs(found[1] - high) < 0.00006, f'{k} of {n}: {found}')


def surveys_tell_what_was_flown():
    """Shares, dismissals and verdicts are those of the flights, each flown again with the seed that the script names."""
    with tempfile.TemporaryDirectory() as folder:
        asked, kept = os.path.join(folder, 'seeded.mission'), os.path.join(folder, 'failed.mission')
        text = seeded()
        with open(asked, 'w', encoding='latin-1') as file:
            file.write(text)
        status, out, err = run([os.path.join(HERE, 'survey'), asked, str(COUNT), '--formula', FORMULA, '--write', kept])
        held, dismissed, shares, first = 0, [], [], None
        for number in range(COUNT):
            seed = int.from_bytes(hashlib.sha256(f'0 {number} sway pos'.encode()).digest()[:8], 'big') % (10 ** 12 + 1)
            known = text.replace('"seed":1', f'"seed":{seed}')
            verdict, trace, _ = run([SOTER, 'watch', FORMULA], known, SOTER_HINTS='0')
            modes = ['sc', *re.findall(r'^\d+ decide nav (\w+)$', trace, re.M)]
            dismissed.append(sum(pair == ('ac', 'sc') for pair in zip(modes, modes[1:])))
            # decisions are at 0, 4, 8, 12, 16 and 20, where the flight ends
            shares.append(100 * 4 * modes[1:6].count('ac') / 20)
            held += verdict == 0
            first = known if verdict and first is None else first
        want(0 < held < COUNT, f'{held} of {COUNT} flights hold: the formula tells nothing')
        want(status == 1 and f'holds in {held} of {COUNT} flights' in out, f'status {status}, {out} {err}, not {held}')
        told = {int(count): int(flights) for count, flights in re.findall(r'^ *(\d+) +(\d+)  #', out, re.M)}
        want(told == {count: dismissed.count(count) for count in set(dismissed)}, f'{out} for {dismissed}')
        row = [float(share) for share in re.search(r'^nav +([\d.]+)% +([\d.]+)% +([\d.]+)%', out, re.M).groups()]
        mean = sum(shares) / COUNT
        want(abs(row[0] - mean) < 0.06 and row[1:] == [min(shares), max(shares)], f'{row} for {shares}')
        flight = json.loads(read(kept).split('%flight\n')[1])
        want(flight == json.loads(first.split('%flight\n')[1]), f'{flight} was kept')


def surveys_without_seeds_are_refused():
    status, _, err = run([os.path.join(HERE, 'survey'), os.path.join(MISSIONS, 'line1.mission'), '3'])
    want(status == 1 and 'has no seed' in err, err)
    status, _, err = run([os.path.join(HERE, 'survey'), os.path.join(MISSIONS, 'line.mission'), '3'])
    want(status == 1 and 'has no flight' in err, err)


TESTS = (survey_intervals_are_exact, surveys_tell_what_was_flown, surveys_without_seeds_are_refused)
