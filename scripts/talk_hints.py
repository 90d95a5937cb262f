"""What is wrong with a line of a robot: the column, and what is wanted there. It is tested and not proved."""
import re

from missiontext import scalar_name
from wording import caret, listing, shown

NAME = re.compile(r'[A-Za-z_][A-Za-z0-9_]*')
NUMBER = re.compile(r'0|-?[1-9][0-9]*')
HEADS = ('start', 'input', 'draft', 'go', 'tick', 'resume')


class Amiss(Exception):
    """Where a line is at fault, from 0, and what is wanted there."""

    def __init__(self, at, why):
        super().__init__(why)
        self.at = at


class Line:
    """A robot's line, read from the left."""

    def __init__(self, text, program):
        self.text, self.program, self.at = text, program, 0

    def rest(self):
        return self.text[self.at:]

    def want(self, sign, why):
        if not self.rest().startswith(sign):
            raise Amiss(self.at, why)
        self.at += len(sign)

    def blank(self, what):
        if self.rest().startswith('  ') or self.rest().startswith('\t'):
            raise Amiss(self.at, 'one blank alone stands between words')
        self.want(' ', f'behind a blank stands {what}')

    def name(self, among, what):
        """A name of the program, with a field where there is one."""
        found = NAME.match(self.text, self.at)
        begin = self.at
        if not found:
            raise Amiss(begin, f'here stands the name of {what}: {listing(among)}')
        end = found.end()
        field = re.compile(r'\.[A-Za-z_][A-Za-z0-9_]*').match(self.text, end)
        word = self.text[begin:field.end() if field else end]
        if word not in among:
            raise Amiss(begin, f'`{shown(word)[:64]}` is not {what}; {"these are" if among else "there is none"}{": " + listing(among) if among else ""}')
        self.at = begin + len(word)
        return word

    def number(self, of, truth=False):
        """One number as it is spelled in a talk."""
        piece = re.match(r'[^,) ]*', self.rest())[0]
        if NUMBER.fullmatch(piece):
            self.at += len(piece)
            return
        self.refuse_number(piece, of, truth)

    def refuse_number(self, piece, of, truth):
        if piece == '' and self.rest().startswith(' '):
            raise Amiss(self.at, 'no blank stands behind a comma, an opening parenthesis or a sign')
        if piece in ('true', 'false', 'True', 'False'):
            raise Amiss(self.at, f'a truth value is written 1 or 0: {int(piece.lower() == "true")}')
        if piece in ('-0', '+0', '00'):
            raise Amiss(self.at, 'nought is written 0')
        if re.fullmatch(r'[+-]?\d+', piece):
            raise Amiss(self.at, f'a number has no `+` and no zeros in front: {int(piece)}')
        if re.fullmatch(r'[+-]?\d*\.\d*(?:[eE].*)?', piece):
            raise Amiss(self.at, f'numbers are mantissas, without a point: one of {of[1]} decimals is times {10 ** of[1]}')
        raise Amiss(self.at, f'here stands a number of `{of[0]}`' + ('' if not piece else f', and not `{shown(piece)[:40]}`'))

    def numbers(self, of, what):
        """A number for each of these names, with commas between."""
        for place, one in enumerate(of):
            if place:
                self.want(',', f'{what} has {len(of)} numbers: {listing(name for name, _ in of)}')
            self.number(one)
        if self.rest().startswith(','):
            raise Amiss(self.at, f'{what} has {len(of)} number{"s" * (len(of) > 1)}: {listing(name for name, _ in of)}')

    def place(self, plant):
        self.want('(', f'behind `{plant.name}` stands `(`, without a blank')
        self.numbers(list(zip(plant.states, plant.scales)), f'`{plant.name}`')
        self.want(')', 'here stands `)`')

    def end(self):
        if self.rest():
            raise Amiss(self.at, 'the line ends here: ' + ('take the blanks out' if not self.rest().strip() else f'take `{shown(self.rest().strip())[:40]}` out'))


def read_line(line):
    """Goes over a whole line, by its first word."""
    program = line.program
    head = re.match(r'\S*', line.text)[0]
    if head not in HEADS:
        near = head.lower() if head.lower() in HEADS else ''
        raise Amiss(0, (f'write `{near}`, in small letters' if near else 'a line begins with start, input, draft, go, tick or resume') if head else 'the line is empty, or begins with a blank')
    line.at = len(head)
    {'go': lambda: None, 'resume': lambda: None, 'start': lambda: read_start(line, program), 'tick': lambda: read_tick(line, program),
     'input': lambda: read_input(line, program), 'draft': lambda: read_draft(line, program)}[head]()
    line.end()


def read_start(line, program):
    line.blank('the name of a plant')
    line.place(program.plants[line.name(list(program.plants), 'a plant')])


def read_tick(line, program):
    for plant in program.plants.values():
        line.blank(f'the place of each plant in declared order, here of `{plant.name}`')
        found = NAME.match(line.text, line.at)
        if found and found[0] in program.plants and found[0] != plant.name:
            raise Amiss(line.at, f'the plants stand in declared order: {listing(program.plants)}')
        line.name([plant.name], 'the next plant')
        line.place(plant)


def read_input(line, program):
    line.blank('the name of an environment topic')
    begin = line.at
    field = re.match(r'([A-Za-z_]\w*)\.', line.rest())
    outside = [topic.name for topic in program.topics.values() if topic.outside]
    if field and field[1] in outside:
        topic = program.topics[field[1]]
        raise Amiss(begin + len(field[1]), f'all fields of `{topic.name}` come at once: `input {topic.name}={",".join(topic.fields)}`, in that order')
    topic = program.topics[line.name(outside, 'an environment topic')]
    line.want('=', f'behind `{topic.name}` stands `=`, without a blank')
    line.numbers([(scalar_name(topic, name), scalar.scale) for name, scalar in zip(topic.fields, topic.scalars)], f'`{topic.name}`')


def read_draft(line, program):
    line.blank('the name of an external node')
    begin = line.at
    word = NAME.match(line.text, begin)
    if word and word[0] in program.nodes and program.nodes[word[0]].coded:
        raise Amiss(begin, f'`{word[0]}` is coded: nobody drafts for it')
    node = program.nodes[line.name([name for name, node in program.nodes.items() if not node.coded], 'an external node')]
    wanted = [(scalar_name(program.topics[topic], field), scalar) for topic in node.writes
              for field, scalar in zip(program.topics[topic].fields, program.topics[topic].scalars)]
    names, last = [name for name, _ in wanted], -1
    while line.rest():
        line.blank('what the node drafts')
        at = line.at
        place = names.index(line.name(names, f'a scalar that `{node.name}` writes'))
        if place <= last:
            raise Amiss(at, f'the scalars stand in this order, each at most once: {listing(names)}')
        last = place
        if line.rest()[:1] not in ('=', '!'):
            raise Amiss(line.at, f'behind `{names[place]}` stands `=`, without a blank')
        line.at += 1
        line.number((names[place], wanted[place][1].scale), wanted[place][1].kind == 'bool')


def lines_about(text, number, program):
    """The line with a mark under the column at fault, and what is wanted there; nothing where it is spelled well."""
    try:
        read_line(Line(text, program))
    except Amiss as why:
        return caret(text, number, why.at + 1) + [f'column {why.at + 1}: {why}']
    return []
