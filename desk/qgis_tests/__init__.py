"""Tests of the plugin for QGIS: `within` runs in a real QGIS, which `starting` starts."""
