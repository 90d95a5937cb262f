"""The tables of docs/ that say what to do, read from the pages themselves, so that they stand in one place.

A table is found by the words of its header and, where several have the same, by the heading above it. `AND_BESIDES`
has the rows that the pages lack.
"""
import os
import re

TOP = os.path.dirname(os.path.dirname(os.path.abspath(__file__)))
FORMATS, LANGUAGE = 'docs/FORMATS.md', 'docs/LANGUAGE.md'
# What to do about what has no such cell in the pages; one that is added there goes first.
AND_BESIDES = {
    ('recover', 'recover'): 'make the closed cells smaller, up to a part of `safer` that each hold from it leads back into',
    ('watch', 'watch'): 'look in the trace at what stands just before the tick of that time, or at its end: the formula is false there for the first time',
    ('formula', 'Form'): 'write comparisons such as `pos.x <= 22` or `mode(nav) == 1`, joined by `not(..)`, `and(.., ..)`, `or(.., ..)`, `implies(.., ..)`, `always(..)`, `once(..)`, `since(.., ..)` and `within(N, ..)`',
    ('formula', 'Unknown'): 'name a topic without fields, a field `topic.field`, a state variable `plant.variable` or `mode(module)` of the program',
    ('formula', 'ScaleDiffers'): 'write the literal with as many decimals as what it is compared with has',
    ('bridge', 'Section'): 'put a line `%bridge`, alone, between the two missions',
    ('bridge', 'Unknown'): 'name a topic of the first mission that is no environment topic, and then an `environment topic` of the second',
    ('bridge', 'Type'): 'declare both with as many numbers, of the same kinds and decimals, and in the second with ranges that hold those of the first',
    ('bridge', 'Horizon'): 'let the second flight go on to the end of the first and the delay, or longer',
    ('bridge', 'TooManyEvents'): 'shorten the first flight, let nodes that write the topic fire less often, or take inputs out of the second flight',
    ('bridge', 'TooManyNumbers'): 'shorten the first flight, let nodes that write the topic fire less often, or give the topic fewer fields',
    ('start', ''): 'start the plant inside `safer`, or let `safer` grow: `accepted` speaks of runs that start there',
}


def cells_of(line):
    """The cells of a table's line, without the marks of a page."""
    cells = re.split(r'(?<!\\)\|', line.strip())[1:-1]
    return [re.sub(r'\[([^]]*)\]\([^)]*\)', r'\1', cell).replace('\\|', '|').strip() for cell in cells]


class Page:
    """The tables of one page: heading, header and rows of each, in order."""

    def __init__(self, path):
        self.path, self.tables = path, []
        heading, inside = '', False
        with open(os.path.join(TOP, path), encoding='utf-8') as file:
            for line in file:
                if line.startswith('#'):
                    heading = line.strip('# \n')
                row = line.startswith('|')
                if row and not inside:
                    self.tables.append((heading, cells_of(line), []))
                elif row and not re.match(r'^[|\s:-]+$', line):
                    self.tables[-1][2].append(cells_of(line))
                inside = row

    def rows(self, under, *header):
        """The heading and the rows of the first table below a heading with that word whose header holds these cells."""
        for heading, cells, rows in self.tables:
            if under in heading and all(cell in cells for cell in header):
                return heading, cells, rows
        return '', [], []


class Advice:
    """What the pages say of refusals and faults."""

    def __init__(self):
        self.formats, self.language = Page(FORMATS), Page(LANGUAGE)
        # family: the page, a word of the heading, the cell that names a row, the cell with what a row says
        self.places = {
            'section': (self.formats, 'The sections', 'kind', 'comes where'),
            'syntax': (self.language, 'Faults of syntax', 'kind', 'comes where'),
            'type': (self.language, 'The rules of typing', 'kind', 'broken where'),
            'certificate': (self.formats, 'Faults of a certificate', 'kind', 'comes where'),
            'flight': (self.formats, 'Faults of a flight', 'kind', 'comes where'),
            'refused': (self.formats, 'The fifteen refusals', 'no', 'comes where'),
            'replay': (self.formats, 'A trace that is read again', 'kind', 'what it says'),
            'recover': (self.formats, 'Recovery', 'line', 'what it says'),
            'start': (self.formats, 'The trace', 'kind', 'comes where'),
            'watch': (self.formats, 'A flight that is watched', 'kind', 'what to do'),
            'bridge': (self.formats, 'Two missions and a bridge', 'written', 'comes exactly where'),
            'observed': (self.formats, 'Why a line is not taken', 'kind', 'comes where'),
            'regions': (self.language, 'Choosing regions', 'line', 'what to do'),
            'formula': (self.language, 'Formulas', 'kind', 'what to do'),
        }

    def value(self, name, wanted):
        """What the pages say of a value of the certificate, in one of the cells `is` and `limit`."""
        return self.found(self.formats, 'The certificate', 'value', wanted, name)[0]

    def to_do(self, family, key):
        """What to do about a fault or a refusal, and where the pages say it."""
        page, under, name, _ = self.places[family]
        said, where = self.found(page, under, name, 'what to do', key)
        said = said or AND_BESIDES.get((family, key), '')
        if not said and family == 'flight':
            said = self.to_do('certificate', key)[0]
        return (said or self.says(family, key)).split('; more below')[0], where

    def says(self, family, key):
        """What a refusal or a fault says, or when it comes."""
        return self.found(*self.places[family], key)[0]

    def found(self, page, under, name, wanted, key):
        """The wanted cell of the row of that key, and where the table stands; empty where there is none."""
        heading, header, rows = page.rows(under, name, wanted)
        for row in rows:
            if key in [part.strip(' `') for part in row[header.index(name)].split(',')]:
                return row[header.index(wanted)], f'{page.path}, {heading}'
        return '', f'{page.path}, {heading or under}'

    def certify(self, line):
        """What the pages say of a refusal of `certify`, by the front of its line: two readings of it."""
        heading, header, rows = self.language.rows('regions', 'line', 'either')
        for row in rows:
            if line in row[0]:
                return row[1:], f'{self.language.path}, {heading}'
        return [], f'{self.language.path}, {heading}'

    def rule(self, name):
        """The rule of the grammar for a construct, on one line."""
        with open(os.path.join(TOP, LANGUAGE), encoding='utf-8') as file:
            found = re.search(rf'^({name} += .*(?:\n +[^ ].*)*)', file.read(), re.M)
        return ' '.join(found[1].split()) if found else ''

    def causes(self):
        """The usual causes of a token that does not fit: cause, example, what stands at the place."""
        return self.language.rows('syntax', 'cause', 'at the place')[2]
