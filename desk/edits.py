"""What a person asks the desk to do: each is a batch, and is refused if what the person saw has changed. The desk looks
at what it knows, and the service at what came since: each batch names the alternatives that it rests on, with the batch
at which they were looked at."""
import contextlib

import joining
import maps
from features import changed_features, split_feature
from joining import Choice
from maps import Fault
from people import Step

CHANGED = 103  # The service refuses a batch by this number if an alternative has changed meanwhile.


def merge(designs, alt, it, person):
    """Merges with the choices that were made, and tells of which features both are kept."""
    design = designs.design(alt)
    chosen = {**person.chosen(alt, design), **it.get("choices", {})}
    renamed = joining.merge(person.hand(designs), alt, design.clashes, chosen, seen(designs, alt, designs.parents[alt]))
    person.choices.pop(alt, None)
    return [f"{design.mine.name(table)} {number} of {alt} is {new} now." for (table, number), new in renamed.items()]


def change(designs, alt, it, person):
    """Draws, changes and removes features, if they are still as the person saw them."""
    update, text = changed_features(designs, alt, it["features"], person.hand(designs))
    send(designs, alt, update, text, person)


def split(designs, alt, it, person):
    update, text = split_feature(designs, alt, it, person.hand(designs))
    send(designs, alt, update, text, person)


def take_back(designs, alt, it, person):
    """Gives a feature what it has in the base."""
    feature = int(it["table"]), int(it["number"])
    design = designs.design(alt)
    keys = design.mine.keys_of(feature)
    base, now = (maps.read(designs.store, at, keys) for at in (design.base, alt))
    update = maps.Update(dict(now))
    for key in set(keys) & set(base):
        update.set(*key, maps.value_at(base, *key))
    send(designs, alt, update, f"{design.mine.name(feature[0])} {feature[1]} as in the base", person)


def undo(designs, alt, _, person):
    """Undoes the person's last step in a design, if nobody has changed its records since."""
    step = turn_back(designs, alt, person, person.steps.get(alt), "before", "after")
    person.undone.setdefault(alt, []).append(step)


def redo(designs, alt, _, person):
    step = turn_back(designs, alt, person, person.undone.get(alt), "after", "before")
    person.steps.setdefault(alt, []).append(step)


def turn_back(designs, alt, person, steps, to, since):
    if not steps:
        raise Fault("there is nothing more to undo" if to == "before" else "there is nothing to do again")
    wanted, expected = getattr(steps[-1], to), getattr(steps[-1], since)
    designs.known(alt)
    now = dict(zip(expected, designs.store.get_many(alt, expected)))
    if now != expected:
        raise Fault(f"somebody has changed that since ({steps[-1].text}), so it stays as it is")
    put_records(designs, alt, wanted, person)
    return steps.pop()


def style(designs, alt, it, person):
    """Keeps the style of a layer in the design, as a record."""
    key, value = designs.design(alt).style_record(int(it["table"]), it["style"])
    update = maps.Update(maps.read(designs.store, alt, [key]))
    update.set(*key, value)
    send(designs, alt, update, f"the style of {designs.design(alt).mine.name(key[1])}", person)


def post(designs, alt, _it, person):
    with as_seen(designs, person, alt, designs.parents[alt]) as store:
        store.post(alt)


def drop(designs, alt, _it, person):
    with as_seen(designs, person, alt) as store:
        store.drop(alt)


def back(designs, alt, it, person):
    with as_seen(designs, person, alt) as store:
        store.back(alt, it["name"])


def choose(designs, alt, it, person):
    """Keeps choices until the merge is sent. Each has the mark of the clash that the person saw: it is for no other
    one."""
    its, marks, late = person.choices.setdefault(alt, {}), designs.design(alt).clashes.marks, []
    for key, made in it["choices"].items():
        its.pop(key, None)
        if made is not None and marks.get(key) == made["mark"]:
            its[key] = Choice(made["side"], made["mark"])
        elif made is not None:
            late.append(key)
    if late:
        raise Fault(f"{late[0]} has changed meanwhile: look at it again")


def describe(designs, alt, it, person):
    """Gives a design a title, an owner, a status and a note."""
    designs.about_designs.write(person.hand(designs), alt, it)


def send(designs, alt, update, text, person):
    """Sends an update of records as a batch, and keeps how to undo it. If nothing is to change there is none."""
    gone = update.gone()
    if not update.put and not gone:
        return
    before = dict(zip([*update.put, *gone], designs.store.get_many(alt, [*update.put, *gone])))
    after = {**update.put, **dict.fromkeys(gone)}
    put_records(designs, alt, after, person)
    person.done(alt, Step(text, before, after))


def put_records(designs, alt, records, person):
    """Puts records, and removes those that are to have no value."""
    is_there = dict(zip(records, designs.store.get_many(alt, records)))
    with as_seen(designs, person, alt) as store:
        store.put_many(alt, ((*key, value) for key, value in records.items() if value is not None))
        store.remove_many(alt, (key for key, value in records.items() if value is None and is_there[key] is not None))


@contextlib.contextmanager
def as_seen(designs, person, *alts):
    """A batch of a person, which is refused if one of these has changed since the desk looked at it."""
    store = person.hand(designs)
    with store.batch(seen(designs, *alts)):
        yield store


def seen(designs, *alts):
    return dict.fromkeys(filter(None, alts), designs.batch)


ACTIONS = {
    "merge": merge,
    "change": change,
    "split": split,
    "take-back": take_back,
    "undo": undo,
    "redo": redo,
    "style": style,
    "post": post,
    "drop": drop,
    "back": back,
    "choose": choose,
    "describe": describe,
    "new": lambda designs, alt, it, person: person.hand(designs).new(it["name"], alt),
    "checkpoint": lambda designs, alt, it, person: person.hand(designs).checkpoint(alt, it["name"]),
}
# These go by what the person saw as a whole, and are not done where that has changed.
BY_SIGHT = {"merge", "post", "drop", "back", "take-back"}


def carry_out(designs, it, person):
    """Does what a person asks for. Gives what there is to say of it, as lines, or None."""
    alt = designs.known(it["at"])
    is_by_sight = it["do"] in BY_SIGHT
    if is_by_sight and (designs.epoch != it["epoch"] or designs.stamp(alt) > it["seen"]):
        raise Fault(f"{alt} or its parent has changed meanwhile: look at it again")
    return ACTIONS[it["do"]](designs, alt, it, person)
