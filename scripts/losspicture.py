"""A picture of the run that scripts/why found, in the manner of scripts/picture. It is tested and not proved."""
from missiontext import Event, point_words
from views import Picture, View


class Flown:
    """The run as a trace: where plants start, and events."""

    def __init__(self, loss):
        run, node = loss.run, loss.situation.node
        self.starts, self.horizon, self.events = run.start, len(run.steps), []
        for number, step in enumerate(run.steps):
            for name, draft in step.fired.items():
                self.events.append(Event(0, number, 'fire' if loss.kind == 'closed' or name != node.name or loss.turn else 'idle', name, [(scalar, '=', value) for scalar, value in draft.items()], None))
            if step.points:
                self.events.append(Event(0, number, 'tick', '', [], {name: (list(step.noise[name]), point) for name, point in step.points.items()}))

    def last(self):
        return self.horizon


class Shown:
    """What the picture asks of a judged mission."""

    def __init__(self, loss, answer):
        self.program, self.cells, self.talk, self.status, self.command = loss.situation.meaning.declared, {}, None, 1, 'why'
        self.answer, self.trace = answer, Flown(loss)


class LossView(View):
    """The run of one module, with the state that is outside in red."""

    def __init__(self, judged, module, loss):
        super().__init__(judged, module)
        self.loss = loss
        if loss.kind == 'reach':
            self.modes = [(0, 'ac')] + ([(loss.turn, 'sc')] if loss.turn else [])

    def bad(self):
        if self.loss.run.ended != 'outside':
            return []
        point = self.path[-1]
        return [('badpoint', [(number, number) for number in point], f'outside at tick {self.last}: {point_words(self.plant, point)}')]

    def bad_time(self):
        return self.last


def picture_of(loss, answer):
    """The picture as text."""
    judged = Shown(loss, answer)
    picture = Picture(judged, near=False)
    picture.draw(LossView(judged, judged.program.modules[loss.situation.module.name], loss))
    return picture.text(loss.situation.module.name)
