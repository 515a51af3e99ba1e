"""scripts/import_lines.py on lines."""
import sys
import unittest
from pathlib import Path

sys.path.insert(0, str(Path(__file__).resolve().parent.parent))

from import_lines import put_together, taken_apart

APART = """use Rattle.net.proofs.Common.{refl}
use Rattle.net.proofs.Links.{back, links_are_mutual}
use Rattle.net.proofs.Cells.{first_cell as first}
use Rattle.net.specs.{cell_at}
use Rattle.net.specs.declared.cell.Cell.{Cell}
use Rattle.net.proofs.walk.Goals as goal
"""
TOGETHER = """use Rattle.net.proofs.Common.{refl}
use Rattle.net.proofs.{Links.back, Links.links_are_mutual, Cells.first_cell as first}
use Rattle.net.specs.{cell_at, declared.cell.Cell.Cell}
use Rattle.net.proofs.walk.Goals as goal
"""


class Lines(unittest.TestCase):
    def test_what_comes_from_several_files_of_a_library_stands_in_one_line(self):
        self.assertEqual(put_together(APART, 160), TOGETHER)

    def test_a_line_of_several_files_is_taken_apart_again(self):
        self.assertEqual(taken_apart(TOGETHER), APART)

    def test_lines_stay_where_one_line_is_too_short_for_them(self):
        self.assertEqual(put_together(APART, 45), APART)

    def test_an_operator_has_no_path(self):
        lines = "use Rattle.net.proofs.Links.{◌≡◌}\nuse Rattle.net.proofs.Cells.{back}\n"
        self.assertEqual(put_together(lines, 160), lines)


if __name__ == "__main__":
    unittest.main()
