"""A table of what needs a choice: each field with what three sides have, and a list of sides to choose from."""
from qgis.PyQt.QtCore import Qt
from qgis.PyQt.QtWidgets import QAbstractItemView, QComboBox, QTableWidget, QTableWidgetItem

NONE = ""


class ChoicesTable(QTableWidget):
    """`zoom` is called with the key of a row that is double-clicked, or on which Enter is pressed."""

    def __init__(self, zoom):
        super().__init__()
        self.keys, self.boxes = [], {}
        self.setEditTriggers(QAbstractItemView.NoEditTriggers)
        self.setSelectionBehavior(QAbstractItemView.SelectRows)
        self.setAccessibleName("What needs a choice")
        self.cellActivated.connect(lambda row, _: zoom(self.keys[row]))

    def show_rows(self, heads, rows):
        """Shows rows: a key, texts, the sides to choose from, and the one that is chosen already."""
        self.keys, self.boxes = [key for key, *_ in rows], {}
        self.setColumnCount(len(heads) + 1)
        self.setHorizontalHeaderLabels([*heads, "Choice"])
        self.setRowCount(len(rows))
        for row, (key, texts, sides, chosen) in enumerate(rows):
            for column, text in enumerate(texts):
                self.setItem(row, column, QTableWidgetItem(text))
            box = QComboBox()
            box.setAccessibleName(f"{' '.join(texts[:2])}: choice")
            box.addItem("not chosen", NONE)
            for name, side in sides:
                box.addItem(name, side)
            box.setCurrentIndex(max(box.findData(chosen), 0))
            self.boxes[key] = box
            self.setCellWidget(row, len(texts), box)
        self.resizeColumnsToContents()

    def choose(self, key, side):
        box = self.boxes[key]
        box.setCurrentIndex(box.findData(side))

    def chosen(self):
        return {key: box.currentData() for key, box in self.boxes.items() if box.currentData() != NONE}

    def is_complete(self):
        return len(self.chosen()) == len(self.boxes)

    def keyPressEvent(self, event):  # Enter does what a double click does.
        if event.key() in (Qt.Key_Return, Qt.Key_Enter) and self.currentRow() >= 0:
            self.cellActivated.emit(self.currentRow(), 0)
        else:
            super().keyPressEvent(event)
