"""Those at the desk: what each can undo, and has chosen for conflicts, and the connection by which the service is told
for whom it acts."""
import contextlib

from altctl import Refusal, Store
from maps import Fault

MOST_STEPS = 200  # that can be undone
MOST_PEOPLE = 200  # that are remembered: the service has 256 connections for one user
DENIED = 90


class Step:
    """What one batch of a person has made of some records, so that it can be undone and done again."""

    def __init__(self, text, before, after):
        self.text, self.before, self.after = text, before, after


class Person:
    """Somebody at the desk: the steps that can be undone and done again in each design, and the choices for conflicts.
    Without a name it is the user that started the desk."""

    def __init__(self, name=None, path=None):
        self.name, self.path, self.store = name, path, None
        self.steps, self.undone, self.choices = {}, {}, {}

    def hand(self, designs):
        """The connection by which this person changes something."""
        if self.name is None:
            return designs.store
        if self.store is None:
            store = Store(f"unix:{self.path}")
            try:
                store.act_for(self.name)
            except Refusal as refusal:
                store.close(quietly=True)
                if refusal.number != DENIED:
                    raise
                raise Fault(
                    "the desk cannot act for others: the rules of the service give its user no right `act`"
                ) from None
            self.store = store
        return self.store

    def hang_up(self):
        """Closes the connection. The next change makes another one."""
        if self.store is not None:
            with contextlib.suppress(OSError):
                self.store.close(quietly=True)
            self.store = None

    def done(self, alt, step):
        self.steps[alt] = [*self.steps.get(alt, []), step][-MOST_STEPS:]
        self.undone[alt] = []

    def chosen(self, alt, design):
        """The choices for those clashes that are still as they were."""
        marks = design.clashes.marks
        return {key: it.side for key, it in self.choices.get(alt, {}).items() if marks.get(key) == it.mark}

    def told(self):
        """What the next undo and the next redo of each design would be."""
        both = {"undo": self.steps, "redo": self.undone}
        return {what: {alt: its[-1].text for alt, its in of.items() if its} for what, of in both.items()}


class People:
    """Those at the desk by their names. Who was here longest ago is forgotten first, if they are too many."""

    def __init__(self, path):
        self.path, self.by_name, self.gone = path, {}, []

    def person(self, name):
        found = self.by_name.pop(name, None) or Person(name, self.path)
        while len(self.by_name) >= MOST_PEOPLE:
            self.gone.append(self.by_name.pop(next(iter(self.by_name))))
        self.by_name[name] = found
        return found

    def hang_up(self, all_of_them=False):
        """Closes the connections of those who were forgotten, or of all. It is for the thread that asks the service."""
        while self.gone:
            self.gone.pop().hang_up()
        for it in list(self.by_name.values()) if all_of_them else ():
            it.hang_up()
