"""A script while it is drawn: its lines so far, and the campaign or the two that the model plays along with them.

A line that the model refuses is left out, or it ends the script.
"""
from model.pair import Pair, pair_form_of
from model.script import form_of
from model.world import World

from .values import chance


class Draft:
    """A script of one campaign as it is drawn; `sides` has its campaign under no letter."""

    def __init__(self, rng, images):
        self.rng = rng
        self.images = images
        self.lines = []
        self.careful = chance(rng, 50)
        self.refused = False
        self.ids = []
        self.begin()

    def begin(self):
        """Nothing is written."""
        self.world = World(self.images[0])
        self.sides = {"": self.world}

    def form_of(self, line):
        """The form of a line."""
        return form_of(line)

    def judge(self, form):
        """The cause for which a form is refused."""
        return self.world.cause_of(form)

    def take(self, form, number):
        """What a form makes."""
        self.world.take(form, number)

    def write(self, line):
        """A line more, unless it is refused; whether it was written."""
        form = self.form_of(line)
        if self.refused or form is None or self.judge(form) is not None:
            return False
        self.lines.append(line)
        self.take(form, len(self.lines))
        if form.name == "device":
            letter = form.campaign or ""
            self.ids.append((letter, len(self.sides[letter].devices)))
        return True

    def write_wrong(self, line):
        """A line that may be wrong: the script goes on only where it is not. A careful draft has none."""
        if not self.careful and not self.refused and not self.write(line):
            self.lines.append(line)
            self.refused = True

    @property
    def is_over(self):
        """No line is taken any more."""
        return self.refused or next(iter(self.sides.values())).section == "ended"

    # ---- the names of things in a line

    def device_of(self, number):
        """The device of an ID, and the letter of its campaign."""
        letter, local = self.ids[number - 1]
        return self.sides[letter].devices[local - 1], letter

    def head(self, word, letter):
        """A first word with the letter of a campaign."""
        return f"{word} {letter}" if letter else word

    @property
    def time(self):
        """The time now."""
        return next(iter(self.sides.values())).time


class PairDraft(Draft):
    """A script of two campaigns."""

    def begin(self):
        self.pair = Pair(*self.images)
        self.sides = self.pair.sides

    def form_of(self, line):
        return pair_form_of(line)

    def judge(self, form):
        return self.pair.cause_of(form)

    def take(self, form, number):
        self.pair.take(form, number)
