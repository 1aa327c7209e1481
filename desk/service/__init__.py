"""The modules of `desk/altserve`: one process over one store, for many planners."""
