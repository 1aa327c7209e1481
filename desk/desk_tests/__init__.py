"""Tests of `desk/altdesk`, which `desk/test_altdesk.py` runs."""
