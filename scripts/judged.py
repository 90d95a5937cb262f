"""A mission as `soter` has judged it, for scripts that show it: nothing is shown that it did not check."""
import os
import subprocess

import missiontext

TOP = os.path.dirname(os.path.dirname(os.path.abspath(__file__)))
SOTER = os.path.join(TOP, 'soter')


class Unjudged(Exception):
    """`soter` gives no verdict on this mission, and why."""

    def __init__(self, status, why):
        super().__init__(why)
        self.status = status


def ask(program, command, text, **environment):
    """The status and the text that the program answers. What it says on standard error goes there."""
    done = subprocess.run([program, command], input=text.encode('latin-1'), stdout=subprocess.PIPE, env={**os.environ, **environment})
    return done.returncode, done.stdout.decode('latin-1')


class Judged:
    """A mission that was accepted, or refused by a condition, a start or a replay.

    `answer` is the first line of what `soter` wrote. `program` are the declarations, read from the canonical text;
    `cells` the certificate's entries by module. `trace` is what was flown: the whole of it, of a refused replay the
    lines before the one that is refused, and nothing where nothing was flown. Of a mission with a talk behind a line
    `%observed` the mission is checked, and `talk` is what a robot and `soter_guard` said.
    """

    def __init__(self, text, command=None, program=SOTER):
        sections = missiontext.Sections(text)
        self.talk = missiontext.Talk(sections.parts['observed']) if sections.has('observed') else None
        text = text if self.talk is None else missiontext.in_front(text, 'observed')
        self.command = command or next((word for word, part in (('replay', 'trace'), ('fly', 'flight')) if sections.has(part)), 'check')
        self.status, said = ask(program, self.command, text)
        self.answer = said.split('\n')[0]
        if self.status not in (0, 1):
            raise Unjudged(self.status, self.answer)
        status, self.canonical = ask(program, 'format', sections.parts['program'])
        if status != 0:
            raise Unjudged(status, self.canonical)
        self.program = missiontext.Program(self.canonical)
        self.cells = missiontext.json_of(sections.parts['certificate'])['modules']
        self.check_talk()
        self.trace = self.talk or missiontext.Trace(self.flown(said, sections.parts.get('trace', '')))

    def check_talk(self):
        """A talk says of each plant where it was first, and names no other plant."""
        if self.talk is None:
            return
        places = [place for event in self.talk.events if event.kind == 'tick' for place in event.numbers.items()]
        places = [(name, point) for name, (_, point) in places] + list(self.talk.starts.items())
        sizes = {name: len(plant.states) for name, plant in self.program.plants.items()}
        lacks = [name for name in self.program.plants if name not in self.talk.starts]
        odd = [name for name, _ in places if name not in sizes]
        if lacks:
            raise missiontext.NotRead(f'behind %observed no line `start {lacks[0]}(..)` tells where {lacks[0]} was first')
        if odd:
            raise missiontext.NotRead(f'behind %observed stands a plant {odd[0]}, which the program has not')
        wide = [name for name, point in places if len(point) != sizes[name]]
        if wide:
            raise missiontext.NotRead(f'behind %observed {wide[0]} has another count of numbers than the {sizes[wide[0]]} that the program gives it')

    def flown(self, said, lines):
        if self.command == 'fly' and self.status == 0:
            return said
        if self.command == 'replay':
            refused = self.answer.startswith('refused replay line ')
            if self.status == 0 or refused:
                whole = lines.split('\n')
                return '\n'.join(whole[:int(self.answer.split()[3]) - 1] if refused else whole)
        return ''
