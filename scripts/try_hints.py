"""Tests of hints that name the thing, for scripts/try_scripts: natural mistakes, and what has to be said of each."""
import os
import re

import trying
from trying import MISSIONS, PEOPLE, SOTER, TOP, read, run, want

FLIGHT = ('%flight\n{"format":1,"horizon":20,"start":{"robot":[15000,0]},"inputs":[],"sway":{"robot":{"kind":"low"}},'
          '"crew":{"planner":{"kind":"script","drafts":[[10]]}}}\n')


def crossing():
    """The crossing's program, and its mission as soter_regions makes it."""
    program = read(os.path.join(PEOPLE, 'crossing.asked.program'))
    return program, run([trying.PROGRAMS['soter_regions']], program)[1]


def replaced(text, old, new):
    want(old in text, f'the text has no {old!r}')
    return text.replace(old, new, 1)


def of_programs():
    """Mistakes in programs: the text in place of another, and what is said."""
    program = replaced(crossing()[0], 'topic acc', 'topic brake: bool = false;\ntopic acc')
    house = read(os.path.join(PEOPLE, 'greenhouse.asked.program'))
    acc, gap = 'do { publish acc = -2.0; }', 'clamp(gap - rescale(v, 3) / 10, -1.000, 20.000)'
    return [
        (program, 'period 5 offset 0', 'period 0.2 offset 0', ['`0.2` stands where a whole number of ticks is wanted']),
        (program, 'rescale(v, 3) / 10', 'v / 10', ['`gap` has 3 decimals, and `v / 10` has 2 decimals', 'write `rescale(v, 3) / 10`']),
        (program, acc, acc.replace('-2.0', '-2'), ['`acc` has 1 decimal, and `-2` has no decimals', 'write `-2.0`']),
        (program, gap, gap.replace('20.000', '20'), ['`20` has no decimals', 'write `20.000`']),
        (program, acc, 'do { if brake == true { publish acc = -2.0; } }', ['write `brake`'], 'reads robot;\n  writes acc;\n  do {', 'reads robot, brake;\n  writes acc;\n  do {'),
        (house, 'if house.t < 20.00', 'if t < 20.00', ['`t` is a state of plant `house`: write `house.t`']),
        (program, acc, 'do { if v > 0.00 { publish acc = -2.0; } else { publish acc = 0.0; } }', ['write `robot.v`']),
        (program, 'rescale(v, 3) / 10', 'v * dt', ['`dt` is declared nowhere', 'no constants', 'write the number']),
        (program, acc, acc.replace('publish ', ''), ['`publish` is missing: write `publish acc = ..;`']),
        (program, 'v: fix(2);', 'v: fix(2)[0.00..2.00];', ['a state variable has no range', '`safe`', 'the grammar there: var =']),
        (program, 'fix(1)[-2.0..1.0]', 'float', ['no type `float`', 'fix(d)[lo..hi]', 'the grammar there: type =']),
        (program, 'v: fix(2);', 'v: float;', ['no type `float`', 'the grammar there: var =']),
        (house, 'sun: fix(2)[', 'sun: [', ['in front of the range stands its type', 'the grammar there: scalar =']),
        (house, 't + heat', 'sin(t) + heat', ['no function `sin`', 'the grammar there: atom =']),
        (house, 't + heat + sun', 'min(t, heat, sun)', ['`min` takes two parts: write `min(a, min(b, c))`', 'the grammar there: atom =']),
        (program, 'writes acc;\n  do', 'writes acc[0..2];\n  do', ['stand names alone', 'the grammar there: names =']),
        (program, 'topic brake: bool = false', 'topic brake: {slow, fast} = slow', ['there are no enumerations', 'the grammar there: type =']),
    ]


def slips_in_programs_are_named():
    """Asked by `certify`, since of a program alone `check` tells no more than that it is one."""
    for text, old, new, said, *more in of_programs():
        text = replaced(replaced(text, *more) if more else text, old, new)
        status, out, err = run([SOTER, 'certify'], text, SOTER_HINTS='1')
        want(status == 3, f'{new}: status {status}, {out!r}')
        for part in said:
            want(part in err, f'{new}, which answers {out!r}: no {part!r} in {err!r}')
        want('docs/' in err, f'{new}: no page in {err!r}')


def of_values():
    """Mistakes in certificates and flights of the crossing."""
    mission = crossing()[1] + FLIGHT
    return [
        ('{"format":1,"modules"', '{"format":1,"jitter":1,"modules"', ['`jitter` belongs to format 2: write `"format":2`']),
        ('"modules":{"line"', '"modules":[{"line"', ['`modules` is an object', 'write `"modules":{"line":{..}}`'], '}}\n%flight', '}}]\n%flight'),
        ('[[10]]', '[10]', ['write `[[10]]`', 'a list of lists, one a firing']),
        ('[[10]]', '[[false]]', ['truth values are 0 or 1 here: write 0']),
        ('"robot":[15000,0]', '"robot":{"gap":15000,"v":0}', ['in declared order (gap, v): write `[15000,0]`']),
        ('"crew":{', '"crew":{"halt":{"kind":"script","drafts":[[1]]},', ['`halt` is coded', 'leave it out']),
        ('{"kind":"low"}', '{"kind":"list","values":[[0.01]]}', ['the disturbance `floor`, which has 2 decimals: 0.01 is written 1']),
        ('[15000,0]', '[15.0,0]', ['the state `gap`, which has 3 decimals: 15.000 is written 15000']),
        ('"sway":{"robot"', '"sway":{"car"', ['no key `car` belongs there', 'the plants that have disturbances: `robot`'], '', ''),
    ]


def slips_in_values_are_named():
    for old, new, said, *more in of_values():
        text = replaced(crossing()[1] + FLIGHT, old, new)
        if more and more[0]:
            start = text.index('%certificate')
            text = text[:start] + text[start:].replace('}\n%flight', '}]\n%flight').replace('}}]', '}]}') if new.startswith('"modules"') else replaced(text, *more)
        status, out, err = run([SOTER, 'fly'], text, SOTER_HINTS='1')
        want(status == 3 and ('fault certificate' in out or 'fault flight' in out), f'{new}: status {status}, {out!r}')
        if new.startswith('"sway"'):
            # the key that is missing goes before the one that is none
            continue
        for part in said:
            want(part in err, f'{new}, which answers {out!r}: no {part!r} in {err!r}')


def codes_that_may_trap_are_named():
    """Both what the topic holds and what the value is; and a divisor."""
    program = crossing()[0].replace('-2.0; }', '-2.5; }')
    status, out, err = run([SOTER, 'certify'], program.replace('safer none', 'safer [0.000..20.000, 0.00..1.50]'), SOTER_HINTS='1')
    want(status == 1 and out.startswith('refused 14'), f'status {status}, {out[:90]!r}')
    want('`acc` holds -2.0..1.0, and `-2.5` is -2.5' in err, err)
    status, out, err = run([SOTER, 'check'], read(os.path.join(MISSIONS, 'check', 'divide.mission')), SOTER_HINTS='1')
    want('the divisor `' in err and 'so also 0' in err, err)


def programs_alone_are_led_to_regions():
    status, out, err = run([SOTER, 'check'], crossing()[0], SOTER_HINTS='1')
    want(status == 3 and '`./soter regions < FILE`' in err and 'which `check` does not reach' in err, err)


def silent_safe_nodes_are_named():
    """Of a safe node with an `if` and no `else`, asked of soter_regions."""
    program = replaced(crossing()[0], 'do { publish acc = -2.0; }', 'do { if robot.v > 1.00 { publish acc = -2.0; } }')
    status, out, err = run([os.path.join(TOP, 'soter_regions')], program, SOTER_HINTS='1')
    want(status == 1 and 'safe none' in out, f'status {status}, {out[:90]!r}')
    want('`halt` does not always publish `acc`' in err and 'else' in err, err)


def recovery_tells_its_causes_apart():
    """A node that only stops, a disturbance that holds, and cells that are too large."""
    line = read(os.path.join(MISSIONS, 'recover', 'line_back.mission'))
    wide = re.sub(r'"closed":\[.*?\],"reach"', '"closed":[[[-40,-3]],[[-2,2]],[[3,40]]],"reach"', line)
    strong = line.replace('noise w: int[-1..1]', 'noise w: int[-2..2]')
    for name, text, said in (('drone', read(os.path.join(MISSIONS, 'drone.mission')), 'No cells can help: let `land` steer'),
                             ('line_back', wide, 'make the closed cells smaller')):
        status, out, err = run([SOTER, 'recover'], text, SOTER_HINTS='1')
        want(status == 1 and out.startswith('refused recover'), f'{name}: status {status}, {out!r}')
        want(said in err, f'{name}: {err!r}')
    import runs
    program = strong[:strong.index('%certificate')]
    want(runs.stays_away(runs.situation_of(program, 'nav'), [-30]) == 'noise', 'a wind as strong as the safe node does not hold the vehicle')


def each_module_without_a_rank_is_explained():
    """Of three vehicles those whose safe nodes stop at 3, outside the safer region."""
    def vehicle(k, stop):
        return (f'topic c{k}: int[-1..1] = 0;\nplant p{k} {{ state x: int; input c{k}; next x = x + c{k}; }}\n'
                f'external f{k} period 1 offset 0 {{ reads p{k}; writes c{k}; }}\n'
                f'node s{k} period 1 offset 0 {{ reads p{k}; writes c{k}; do {{ publish c{k} = if p{k}.x > {stop} then -1 else if p{k}.x < -2 then 1 else 0; }} }}\n'
                f'module m{k} {{ ac f{k}; sc s{k}; period 1 offset 0; plant p{k}; safe [-4..4]; safer [-2..2]; }}\n')
    cells = '{"closed":[[[-4,-4]],[[-3,-3]],[[-2,2]],[[3,3]],[[4,4]]],"reach":[[[-2,2]]]}'
    certificate = ','.join(f'"m{k}":{cells}' for k in range(3))
    text = ''.join(vehicle(k, stop) for k, stop in enumerate((3, 2, 3))) + f'%certificate\n{{"format":1,"modules":{{{certificate}}}}}\n'
    status, out, err = run([SOTER, 'recover'], text, SOTER_HINTS='1')
    want(status == 1 and out.count('refused recover') == 2, f'status {status}, {out!r}')
    for k, named in ((0, True), (1, False), (2, True)):
        want((f'let `s{k}` steer' in err) == named, err)


FORMULAS = [
    ('brake == 1', ['the program has no `brake`', '^']),
    ('robot.w == 1.00', ['the program has no `robot.w`', '^']),
    ('robot > 1', ['`robot` is a plant: name a state variable of it, `robot.gap`, `robot.v`']),
    ('globally(robot.v <= 1.50)', ['a formula is asked at each moment', '^', 'column 1']),
    ('implies(robot.v <= 1.50, robot.gap >= 0.000, acc <= 1.0)', ['`implies` takes 2 parts', 'column 44']),
    ('and(robot.v <= 1.50)', ['`and` takes 2 to 64 parts, and here are 1', 'column 20']),
    ('and(robot.v <= 1.50 robot.gap >= 0.000)', ['a comma is missing between the parts of `and`', 'column 21']),
    ('robot.v <= 1.50 and acc <= 1.0', ['`and` stands in front of its two parts']),
    ('acc', ['a comparison is missing behind `acc`']),
    ('robot.v <= 1.5', ['`robot.v` has 2 decimals', 'write `1.50`']),
    ('mode(nav) == 1', ['there is no module `nav`; the modules: `line`']),
    ('robot.v = 1.50', ['`=` is written `==`']),
]


def formulas_are_named():
    mission = crossing()[1] + FLIGHT
    for formula, said in FORMULAS:
        status, out, err = run([SOTER, 'watch', formula], mission, SOTER_HINTS='1')
        want(status == 3 and out.startswith('fault formula'), f'{formula}: status {status}, {out!r}')
        for part in said:
            want(part in err, f'{formula}, which answers {out!r}: no {part!r} in {err!r}')


def failing_moments_are_shown():
    """The values at the moment that soter tells, and the part that fails, against a trace read by hand."""
    line1, drone = (read(os.path.join(MISSIONS, name + '.mission')) for name in ('line1', 'drone'))
    rows = [
        (drone, 'or(drone.h == 0, drone.b >= 20)', ['`drone.h == 0` fails at moment 22: `drone.h` is 6 there', '`drone.b >= 20` fails at moment 22: `drone.b` is 18 there', 'at moment 22: drone.h 6, drone.b 18']),
        (line1, 'within(3, mode(nav) == 1)', ['`mode(nav) == 1` does not hold within the last 3 ticks up to moment 15: it held last at moment 11']),
        (drone, 'not(once(drone.b < 20))', ['`once(drone.b < 20)` holds at moment']),
        (drone, 'implies(drone.h > 0, drone.b >= 20)', ['`drone.h > 0` holds at moment 22: `drone.h` is 6 there', '`drone.b >= 20` fails at moment 22: `drone.b` is 18 there']),
        (drone, 'always(or(drone.h == 0, drone.b >= 20, false))', ['`drone.h == 0` fails at moment 22', '`drone.b >= 20` fails at moment 22', '`false` never holds']),
        (drone, 'since(mode(guard) == 0, drone.b >= 26)', ['`drone.b >= 26` held last at moment 18', '`mode(guard) == 0` fails at moment 19: `mode(guard)` is 1 there']),
    ]
    for text, formula, said in rows:
        status, out, err = run([SOTER, 'watch', formula], text, SOTER_HINTS='1')
        want(status == 1 and 'refused watch' in out, f'{formula}: status {status}, {out[-80:]!r}')
        for part in said:
            want(part in err, f'{formula}: no {part!r} in {err!r}')


TALKS = [
    ('start robot(15000,-0)', ['column 19: nought is written 0', '^']),
    ('start robot(15000, 0)', ['column 19: no blank stands behind a comma']),
    ('start robot(15.000,0)', ['column 13: numbers are mantissas, without a point: one of 3 decimals is times 1000']),
    ('start robot(15000)', ['`robot` has 2 numbers: `gap`, `v`']),
    ('start Robot(15000,0)', ['`Robot` is not a plant; these are: `robot`']),
    ('start robot(15000,0) ', ['column 21: the line ends here: take the blanks out']),
    ('start robot(15000,0)\ndraft planner acc=false', ['column 19: a truth value is written 1 or 0: 0']),
    ('start robot(15000,0)\ndraft planner acc=+5', ['column 19: a number has no `+`']),
    ('start robot(15000,0)\ndraft halt acc=5', ['`halt` is coded']),
    ('start robot(15000,0)\ndraft planner acc = 5', ['behind `acc` stands `=`, without a blank']),
    ('start robot(15000,0)\nGo', ['write `go`, in small letters']),
    ('start robot(15000,0)\ngo\ntick robot(15000,0) robot(1,1)', ['column 20: the line ends here']),
    ('start robot(0,150)', ['robot starts at gap 0.000, v 1.50', 'bring the robot further inside']),
]


def lines_of_robots_are_named():
    """By the guard that is tried; the answer and the status are its own."""
    mission = crossing()[1]
    for lines, said in TALKS:
        text = mission + '%observed\n' + lines + '\n'
        direct = run([trying.PROGRAMS['soter_guard']], text)[:2]
        status, out, err = run([os.path.join(TOP, 'soter_guard')], text, SOTER_HINTS='1')
        want((status, out) == direct, f'{lines!r}: {status}, {out!r}, for {direct}')
        want(re.search('fault observed|refused start|^[0-9]+ (?:ignored|blind) ', out, re.M), f'{lines!r}: {out!r}')
        for part in said:
            want(part in err, f'{lines!r}, which answers {out[-60:]!r}: no {part!r} in {err!r}')


def fields_of_drafts_have_an_order():
    """Of a record, and of an input by fields."""
    oven = read(os.path.join(MISSIONS, 'fly', 'oven.mission'))
    import missiontext
    import talk_hints
    tables = missiontext.Program(oven[:oven.index('%certificate')])
    node = next(node for node in tables.nodes.values() if not node.coded and len(talk_hints.NAME.findall(' '.join(node.writes))) >= 1)
    topic = tables.topics[node.writes[0]]
    want(len(topic.fields) >= 2, f'{topic.name} is no record')
    lines = talk_hints.lines_about(f'draft {node.name} {topic.name}.{topic.fields[1]}=1 {topic.name}.{topic.fields[0]}=1', 7, tables)
    want('the scalars stand in this order' in lines[-1] and f'`{topic.name}.{topic.fields[0]}`' in lines[-1], f'{lines}')


TESTS = (
    slips_in_programs_are_named, slips_in_values_are_named, codes_that_may_trap_are_named, programs_alone_are_led_to_regions, silent_safe_nodes_are_named,
    recovery_tells_its_causes_apart, each_module_without_a_rank_is_explained, formulas_are_named, failing_moments_are_shown,
    lines_of_robots_are_named, fields_of_drafts_have_an_order,
)
