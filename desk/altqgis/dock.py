"""The dock: the tree of designs, what is done with one, and a table of what needs a choice."""
import functools

from qgis.core import Qgis, QgsCoordinateTransform, QgsProject
from qgis.PyQt.QtCore import QSettings, QTimer
from qgis.PyQt.QtWidgets import (
    QDockWidget,
    QGridLayout,
    QInputDialog,
    QLabel,
    QLineEdit,
    QMessageBox,
    QPushButton,
    QTreeWidget,
    QTreeWidgetItem,
    QVBoxLayout,
    QWidget,
)

import joining
import maps
from altctl import Ended, Refusal
from maps import GEOMETRY, Fault

from . import comparing, late
from .choices import ChoicesTable
from .fields import geometry_of, text_of
from .layers import crs_of
from .saving import Late
from .session import Session

LOOK_MILLISECONDS = 1500
AROUND = 20.0  # metres that are shown around a feature
DEGREE = 111_320.0  # metres of a degree from north to south
NAMES = {"mine": "mine", "theirs": "the parent's", "both": "both"}
REFUSALS = {
    8: "merge first: the parent has changed since",
    90: "you may not do that",
    103: "somebody has changed it meanwhile: look again",
}


class Dock(QDockWidget):
    def __init__(self, iface):
        super().__init__("Designs")
        self.setObjectName("altqgis")
        self.iface, self.session, self.settles, self.batch = iface, None, None, 0
        self.sent = []  # Layers whose edits are in the store already, and which QGIS takes in.
        self.path = QLineEdit(QSettings().value("altqgis/path", ""))
        self.path.setPlaceholderText("the socket of the service, as map.alt.sock")
        self.path.setAccessibleName("Socket of the service")
        self.tree = QTreeWidget()
        self.tree.setHeaderLabels(["Design", "Changed", "Conflicts"])
        self.tree.setAccessibleName("Designs")
        self.tree.itemActivated.connect(lambda item, _: self.try_to(self.open_design, item.text(0)))
        self.said, self.table = QLabel(), ChoicesTable(lambda key: self.try_to(self.zoom, key))
        self.said.setWordWrap(True)
        self.settle = QPushButton("&Take what is chosen")
        self.settle.clicked.connect(lambda: self.try_to(self.take_choices))
        self._lay_out()
        self.show_choices(None, [], [])
        self.timer = QTimer(self)
        self.timer.timeout.connect(self.look)
        QgsProject.instance().layersWillBeRemoved.connect(self.forget)

    def _lay_out(self):
        frame, grid = QWidget(), QGridLayout()
        its = QVBoxLayout(frame)
        connect = QPushButton("&Connect")
        connect.clicked.connect(lambda: self.try_to(self.connect_to, self.path.text()))
        buttons = [
            ("&Open as layers", self.open_design),
            ("&Save all edits", self.save_all),
            ("&Merge…", self.merge),
            ("&Post…", self.ask_post),
            ("Chec&kpoint…", self.ask_checkpoint),
            ("Com&pare…", self.ask_compare),
        ]
        for at, (text, work) in enumerate(buttons):
            button = QPushButton(text)
            button.clicked.connect(lambda _, work=work: self.try_to(work, self.chosen()))
            grid.addWidget(button, at // 2, at % 2)
        for it in (self.path, connect, self.tree):
            its.addWidget(it)
        its.addLayout(grid)
        for it in (self.said, self.table, self.settle):
            its.addWidget(it)
        self.setWidget(frame)

    # --- what is said ---------------------------------------------------------------------------------

    def tell(self, text, level=Qgis.Info):
        self.said.setText(text)
        self.iface.messageBar().pushMessage("Designs", text, level, 8)

    def try_to(self, work, *words):
        """Does something, and says why if it is refused. Tells whether it was done."""
        try:
            work(*words)
            return True
        except Late as fault:
            self.show_late(fault)
        except (Fault, Refusal) as fault:
            self.tell(
                str(fault)
                if isinstance(fault, Fault)
                else REFUSALS.get(fault.number, f"the store refused it: {fault}"),
                Qgis.Warning,
            )
        except (OSError, Ended) as fault:
            self.tell(
                f"The service is not there: {fault}. What was sent last may be done or not: look once it is back.",
                Qgis.Critical,
            )
        return False

    # --- designs --------------------------------------------------------------------------------------

    def connect_to(self, path):
        if self.session is not None:
            self.session.close()
        self.session = Session(path)
        QSettings().setValue("altqgis/path", path)
        self.path.setText(path)
        self.show_tree()
        self.timer.start(LOOK_MILLISECONDS)

    def show_tree(self):
        chosen, parents = self.chosen(), {}
        self.batch = self.session.store.batches()
        self.tree.clear()
        for it in self.session.tree():
            item = QTreeWidgetItem(parents.get(it.parent, self.tree), [it.name, str(it.changed), str(it.conflicts)])
            parents[it.name] = item
            item.setExpanded(True)
            if it.name == chosen:
                self.tree.setCurrentItem(item)

    def chosen(self):
        item = self.tree.currentItem()
        return item.text(0) if item is not None else "top"

    def look(self):
        """Shows what others have done."""
        if self.session is not None:
            try:
                if self.session.look():
                    self.show_tree()
            except (OSError, Ended) as fault:
                self.timer.stop()
                self.tell(f"The service is not there: {fault}. Connect again once it is back.", Qgis.Critical)

    def open_design(self, alt):
        project, known = QgsProject.instance(), set(self.session.open)
        design_layers = self.session.layers(alt)
        root = project.layerTreeRoot()
        group = root.findGroup(alt) or root.insertGroup(0, alt)
        if not project.mapLayers() and design_layers:
            project.setCrs(design_layers[0].layer.crs())
            self.show_on_map(design_layers[0].layer.extent(), design_layers[0].layer.crs())
        for its in design_layers:
            if (its.alt, its.table) not in known:
                self._follow(its)
                project.addMapLayer(its.layer, False)
                group.addLayer(its.layer)
        left_out = sum(it.left_out for it in design_layers)
        self.tell(
            f"{alt} has {len(design_layers)} layers"
            + (f", without {left_out} features that QGIS cannot show there" if left_out else "")
        )

    def _follow(self, its):
        its.layer.beforeCommitChanges.connect(functools.partial(self.before_commit, its))
        its.layer.committedFeaturesAdded.connect(lambda _, added: [its.know(it.id(), it[0]) for it in added])
        its.layer.afterCommitChanges.connect(functools.partial(setattr, its.provider, "takes", False))
        its.layer.editingStopped.connect(lambda: self.try_to(its.catch_up, ()))

    # --- edits ----------------------------------------------------------------------------------------

    def before_commit(self, its, *_):
        """QGIS saves a layer: the store comes first, and where it refuses, the edits stay edits."""
        its.provider.takes = False
        its.provider.takes = its in self.sent or self.try_to(self.send, [its])

    def send(self, design_layers):
        for its, hand in zip(design_layers, self.session.save(design_layers)):
            for fid, number in hand.items():
                its.layer.changeAttributeValue(fid, 0, number)
        self.show_choices(None, [], [])

    def save_all(self, alt):
        """Saves the edits of all layers of a design as one batch."""
        due = [it for it in self.session.layers(alt) if it.layer.isEditable() and it.layer.isModified()]
        if not due:
            return self.tell(f"Nothing of {alt} was edited.")
        self.send(due)
        self.sent = due
        for its in due:
            its.layer.commitChanges()
        self.sent = []
        return self.tell(f"Saved what was edited of {alt}.", Qgis.Success)

    def show_late(self, fault):
        self.tell(f"{fault}. Choose for each field, then save again.", Qgis.Warning)
        self.show_choices(fault, late.HEADS, list(late.rows_of(fault)))

    # --- choices ----------------------------------------------------------------------------------------

    def show_choices(self, settles, heads, rows):
        self.settles = settles
        self.table.show_rows(heads, rows)
        for it in (self.table, self.settle):
            it.setVisible(bool(rows))

    def take_choices(self):
        if not self.table.is_complete():
            raise Fault("choose for each of them first")
        if isinstance(self.settles, Late):
            late.settle(self.settles, self.table.chosen())
            self.show_choices(None, [], [])
            self.tell("Your edits have what you chose: save them again.")
        else:
            self.carry_out_merge(*self.settles, self.table.chosen())

    def zoom(self, key):
        """Zooms to a feature in conflict."""
        if isinstance(self.settles, Late):
            (number, _), its = key, self.settles.design_layer
            alt, table, record = its.alt, its.table, its.record
        else:
            alt, clashes, _ = self.settles
            table, number = clashes.by_key[key][:2]
            table -= GEOMETRY if table > GEOMETRY else 0
            record = maps.layer_at(self.session.store, alt, table)
        shapes = [geometry_of(self.geometry(at, table, number)) for at in (alt, self.session.parent(alt) or alt)]
        shown = next((it for it in shapes if not it.isNull()), None)
        if shown is None or record is None:
            raise Fault("it has no geometry to zoom to")
        system, box = crs_of(record["crs"]), shown.boundingBox()
        box.grow(max(box.width(), box.height(), AROUND / DEGREE if system.isGeographic() else AROUND))
        self.show_on_map(box, system)

    def show_on_map(self, box, system):
        canvas = self.iface.mapCanvas()
        turned = QgsCoordinateTransform(system, canvas.mapSettings().destinationCrs(), QgsProject.instance())
        canvas.setExtent(turned.transformBoundingBox(box))
        canvas.refresh()

    def geometry(self, at, table, number):
        return maps.value_at(maps.read(self.session.store, at, [(table + GEOMETRY, number)]), table + GEOMETRY, number)

    # --- merge, post, checkpoint, compare -----------------------------------------------------------------

    def merge(self, alt):
        """Merges a design, or shows what needs a choice first."""
        if self.session.parent(alt) is None:
            raise Fault(f"{alt} has no parent")
        clashes, batch = self.session.clashes(alt)
        if not clashes.by_key:
            return self.carry_out_merge(alt, clashes, batch, {})
        self.show_choices(
            (alt, clashes, batch), ["Feature", "Field", "Base", "Parent", "Mine"], list(self._rows(alt, clashes))
        )
        return self.tell(f"{len(clashes.by_key)} fields of {alt} need a choice.", Qgis.Warning)

    def _rows(self, alt, clashes):
        names = {table: its["name"] for table, its in maps.layers(self.session.store, alt).items()}
        for key, it in clashes.by_key.items():
            feature = f"{names.get(it.table, f'table {it.table}')} {it.number}"
            values = [
                text_of(side) if it.field or isinstance(side, bytes) else "–" if side is None else "there"
                for side in it[3:]
            ]
            yield key, [feature, it.field or "all of it", *values], [
                (NAMES[side], side) for side in joining.can_be(it)
            ], None

    def carry_out_merge(self, alt, clashes, batch, choices):
        renamed = self.session.merge(alt, clashes, choices, batch)
        self.show_choices(None, [], [])
        told = "".join(f" {table}:{number} is {new} now." for (table, number), new in renamed.items())
        self.tell(f"Merged {self.session.parent(alt)} into {alt}.{told}", Qgis.Success)
        self.look()

    def post(self, alt):
        if self.session.parent(alt) is None:
            raise Fault(f"{alt} has no parent")
        self.session.post(alt, self.batch)
        self.tell(f"Posted {alt}.", Qgis.Success)
        self.look()

    def checkpoint(self, alt, name):
        self.session.store.checkpoint(alt, name)
        self.tell(f"Made the checkpoint {name} of {alt}.", Qgis.Success)
        self.look()

    def compare(self, old, new):
        """Shows how two designs differ, as layers."""
        made = list(comparing.compared(self.session.store, old, new))
        for it in made:
            QgsProject.instance().addMapLayer(it)
        count = sum(it.featureCount() for it in made)
        self.tell(f"From {old} to {new} {count} features differ." if made else f"{old} and {new} are the same.")

    def ask_post(self, alt):
        if (
            QMessageBox.question(self, "Post", f"Post {alt}? Its parent then shows what {alt} shows.")
            == QMessageBox.Yes
        ):
            self.post(alt)

    def ask_checkpoint(self, alt):
        name, is_said = QInputDialog.getText(self, "Checkpoint", f"The name of a checkpoint of {alt} as it is now:")
        if is_said:
            self.checkpoint(alt, name)

    def ask_compare(self, alt):
        others = [it.name for it in self.session.tree() if it.name != alt]
        other, is_said = QInputDialog.getItem(self, "Compare", f"How {alt} differs from:", others, 0, False)
        if is_said:
            self.compare(other, alt)

    def forget(self, layer_ids):
        """Layers are removed from the project."""
        if self.session is not None:
            self.session.forget(layer_ids)

    def close_session(self):
        self.timer.stop()
        QgsProject.instance().layersWillBeRemoved.disconnect(self.forget)
        if self.session is not None:
            self.session.close()
