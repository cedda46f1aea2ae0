"""Hostile callers, at a worker that owns the history and at one that passes on."""

import contextlib
import io
import unittest

from attacks import attacked


class HostileCallers(unittest.TestCase):
    def attack(self, store):
        said = io.StringIO()
        with contextlib.redirect_stdout(said):
            is_well = attacked(store)
        self.assertTrue(is_well, said.getvalue())

    def test_at_the_owner_over_files(self):
        self.attack("files")

    def test_through_another_worker_over_postgres(self):
        self.attack("postgres")


if __name__ == "__main__":
    unittest.main()
