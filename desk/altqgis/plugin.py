"""What QGIS starts and ends."""
from qgis.PyQt.QtCore import Qt


from .dock import Dock


class Plugin:
    def __init__(self, iface):
        self.iface, self.dock, self.action = iface, None, None

    def initGui(self):  # QGIS calls it by this name.
        self.dock = Dock(self.iface)
        self.iface.addDockWidget(Qt.RightDockWidgetArea, self.dock)
        self.action = self.dock.toggleViewAction()
        self.iface.addPluginToMenu("Designs", self.action)

    def unload(self):
        self.dock.close_session()
        self.iface.removePluginMenu("Designs", self.action)
        self.iface.removeDockWidget(self.dock)
        self.dock.deleteLater()
