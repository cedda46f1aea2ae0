"""A round of each fault, over each store."""

import contextlib
import io
import unittest

import faults


class Rounds(unittest.TestCase):
    def run_over(self, store):
        said = io.StringIO()
        given = faults.words().parse_args(["--store", store, "--rounds", str(len(faults.KINDS[store])), "--clients", "24", "--histories", "6"])
        with contextlib.redirect_stdout(said):
            is_well = faults.Faults(given).run()
        self.assertTrue(is_well, said.getvalue())

    def test_over_files(self):
        self.run_over("files")

    def test_over_sqlite(self):
        self.run_over("sqlite")

    def test_over_postgres(self):
        self.run_over("postgres")


if __name__ == "__main__":
    unittest.main()
