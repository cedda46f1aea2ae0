"""Stands before the system's package of this name, for tests of the service without it."""

raise ImportError("left out by service/tests/support.py")
