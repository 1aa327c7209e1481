"""The provider of a design's layers: the features lie in memory, and QGIS reads them there. What is edited is taken
only once the store has it: QGIS then keeps an edit session that was refused as it is."""
from qgis.core import (
    QgsDataProvider,
    QgsFeatureRequest,
    QgsProviderMetadata,
    QgsProviderRegistry,
    QgsVectorDataProvider,
    QgsVectorLayer,
)

KEY = "altqgis"


class StoreProvider(QgsVectorDataProvider):
    """`memory` has the features. The address is the type of geometry."""

    @classmethod
    def create(cls, address, options, flags=QgsDataProvider.ReadFlags()):
        return cls(address, options, flags)

    def __init__(self, address, options, _flags):
        super().__init__(address, options)
        self._layer, self.takes = QgsVectorLayer(address, KEY, "memory"), False
        self.memory = self._layer.dataProvider()

    def add_fields(self, fields):
        self.memory.addAttributes(fields)
        self._layer.updateFields()

    # --- what QGIS asks, by these names ---------------------------------------------------------------

    def name(self):
        return KEY

    def description(self):
        return "A design of a map store"

    def storageType(self):
        return "map store"

    def isValid(self):
        return self.memory.isValid()

    def capabilities(self):
        its = QgsVectorDataProvider
        return its.AddFeatures | its.DeleteFeatures | its.ChangeGeometries | its.ChangeAttributeValues | its.SelectAtId

    def featureSource(self):
        return self.memory.featureSource()

    def getFeatures(self, request=QgsFeatureRequest()):
        return self.memory.getFeatures(request)

    def featureCount(self):
        return self.memory.featureCount()

    def fields(self):
        return self.memory.fields()

    def wkbType(self):
        return self.memory.wkbType()

    def crs(self):
        return self.memory.crs()

    def extent(self):
        return self.memory.extent()

    def updateExtents(self):
        self.memory.updateExtents()

    def addFeatures(self, features, _flags=None):
        return self.memory.addFeatures(features) if self.takes else (False, features)

    def deleteFeatures(self, ids):
        return self.takes and self.memory.deleteFeatures(ids)

    def changeAttributeValues(self, values):
        return self.takes and self.memory.changeAttributeValues(values)

    def changeGeometryValues(self, geometries):
        return self.takes and self.memory.changeGeometryValues(geometries)


def register():
    registry = QgsProviderRegistry.instance()
    if registry.providerMetadata(KEY) is None:
        registry.registerProvider(QgsProviderMetadata(KEY, "Designs of a map store", StoreProvider.create))
