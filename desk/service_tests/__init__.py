"""Tests of `desk/altserve`, which `desk/test_altserve.py` runs."""
