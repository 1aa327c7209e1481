"""The figures of the service, for the page that shows them: what `altserve status` tells, by the same names."""
from altctl import Store
from service.status import FIGURES


def figures(path):
    """Asks the service on a connection of its own: other questions of the desk may take long."""
    with Store(f"unix:{path}") as store:
        rows = [it.split() for it in store.answer_lines("status")]
    return {"file": path, "figures": [figure(name, value) for _, name, value in rows]}


def figure(name, value):
    kind, about = FIGURES.get(name, ("gauge", ""))  # The service may be a later one.
    return {"name": name, "kind": kind, "about": about, "value": float(value)}
