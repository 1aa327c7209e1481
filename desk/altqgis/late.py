"""An edit that came too late, beside what others have made: once each field has a choice, the edit can be saved."""
from .fields import geometry_of, text_of, to_qgis

HEADS = ["Feature", "Field", "As you saw it", "Theirs, now", "Yours"]
SIDES = [("theirs", "theirs"), ("yours", "mine")]


def rows_of(late):
    """The rows for a table of choices. What one side alone has changed is chosen already."""
    for it in late.clashes:
        texts = [f"{late.design_layer.record['name']} {it.number}", it.field or "all of it", *map(text_of, it[2:])]
        yield (it.number, it.field), texts, SIDES, "theirs" if it.field and it.mine == it.seen else None


def settle(late, choices):
    """Gives the features that were edited what was chosen. What others have made is what was seen from now on."""
    its = late.design_layer
    now = its.now(sorted({it.number for it in late.clashes}))
    removed = {its.numbers[it] for it in its.layer.editBuffer().deletedFeatureIds()}
    for number in sorted({it.number for it in late.clashes}):
        fields = {it.field: (it, choices[it.number, it.field]) for it in late.clashes if it.number == number}
        if number not in now:
            settle_removed(its, number, fields[""][1])
        elif number in removed:
            if all(side == "theirs" for _, side in fields.values()):
                its.spared.add(number)
        else:
            settle_changed(its, number, now[number], fields)
        its.seen[number] = now.get(number)


def settle_removed(its, number, side):
    """Others have removed it: here it goes as well, or is made again as it was edited."""
    if side == "theirs":
        its.layer.deleteFeature(its.ids[number])
    else:
        its.lost[number] = its.seen[number]


def settle_changed(its, number, now, fields):
    fid, feature = its.ids[number], its.feature(number, *now)
    names = [it["name"] for it in its.record["fields"]]
    mine = {name: its.layer.getFeature(fid)[at] for at, name in enumerate(names, 1)}
    course = its.layer.getFeature(fid).geometry()
    if feature is not None:
        its.memory.changeAttributeValues({fid: dict(enumerate(feature.attributes()))})
        its.memory.changeGeometryValues({fid: feature.geometry()})
    for name, (clash, side) in fields.items():
        if name in names:
            field = its.record["fields"][names.index(name)]
            its.layer.changeAttributeValue(
                fid, names.index(name) + 1, mine[name] if side == "mine" else to_qgis(field, clash.theirs)
            )
        else:
            its.layer.changeGeometry(fid, course if side == "mine" else geometry_of(clash.theirs))
