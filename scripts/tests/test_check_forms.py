"""scripts/check_forms on small trees."""
import importlib.machinery
import importlib.util
import tempfile
import unittest
from pathlib import Path

SCRIPT = str(Path(__file__).resolve().parent.parent / "check_forms")
LOADER = importlib.machinery.SourceFileLoader("check_forms", SCRIPT)
check_forms = importlib.util.module_from_spec(importlib.util.spec_from_loader("check_forms", LOADER))
LOADER.exec_module(check_forms)

LEMMAS = "pub back : A\nback = it\n\npub links_are_mutual : A\nlinks_are_mutual = it\n"
COMMON = "pub use Rattle.net.proofs.Links.{back, links_are_mutual}\n"
CITES = "use Rattle.net.proofs.Common.{back, links_are_mutual}\n\nfirst : A\nfirst = back\n"


class Forms(unittest.TestCase):
    def setUp(self):
        self.folder = tempfile.TemporaryDirectory()
        self.addCleanup(self.folder.cleanup)
        self.top = Path(self.folder.name)

    def write(self, files):
        for name, text in files.items():
            file = self.top / "crates" / "net" / name
            file.parent.mkdir(parents=True, exist_ok=True)
            file.write_text(text, encoding="utf-8")

    def test_a_line_that_is_too_long_is_named_with_its_number(self):
        self.write({"proofs/Links.antt": "a\n" + "b" * 201 + "\n", "specs/Links.antt": "c" * 161, "src/lib.rt": "d" * 161})
        self.assertEqual(
            list(check_forms.long_lines(self.top)),
            [
                "crates/net/proofs/Links.antt:2: 201 letters, 200 may be",
                "crates/net/specs/Links.antt:1: 161 letters, 160 may be",
                "crates/net/src/lib.rt:1: 161 letters, 160 may be",
            ],
        )

    def test_letters_are_counted_and_not_bytes(self):
        self.write({"proofs/Links.antt": "ℤ" * 200, "specs/Links.antt": "→" * 160})
        self.assertEqual(list(check_forms.long_lines(self.top)), [])

    def test_a_text_and_an_attribute_may_be_longer(self):
        self.write({"src/lib.rt": 'const USAGE: &str = "' + "a" * 300 + '";\n#[tactic(auto, using(' + "b" * 200 + "))]\n"})
        self.assertEqual(list(check_forms.long_lines(self.top)), [])

    def test_a_lemma_of_one_word_that_two_files_cite_is_named(self):
        self.write({"proofs/Links.antt": LEMMAS, "proofs/Common.antt": COMMON, "proofs/A.antt": CITES, "proofs/B.antt": CITES})
        self.assertEqual(
            list(check_forms.one_word_lemmas(self.top)), ["Rattle.net.proofs.Links: back is one word, and 2 files cite it"]
        )

    def test_one_file_may_cite_a_lemma_of_one_word(self):
        self.write({"proofs/Links.antt": LEMMAS, "proofs/Common.antt": COMMON, "proofs/A.antt": CITES})
        self.assertEqual(list(check_forms.one_word_lemmas(self.top)), [])

    def test_the_file_of_a_lemma_counts_where_it_uses_it(self):
        more = LEMMAS + "\nsecond : A\nsecond = back\n"
        self.write({"proofs/Links.antt": more, "proofs/Common.antt": COMMON, "proofs/A.antt": CITES})
        self.assertEqual(len(list(check_forms.one_word_lemmas(self.top))), 1)

    def test_an_attribute_and_the_name_of_a_module_cite_a_lemma(self):
        self.write(
            {
                "proofs/Links.antt": LEMMAS,
                "proofs/A.antt": "use Rattle.net.proofs.Links as links\n\nfirst : A\nfirst = links.back\n",
                "src/lib.rt": "#[tactic(auto, using(crate::proofs::Links::back))]\nfn f() {}\n",
            }
        )
        self.assertEqual(len(list(check_forms.one_word_lemmas(self.top))), 1)

    def test_a_field_of_that_name_is_no_citation(self):
        self.write(
            {
                "proofs/Links.antt": LEMMAS + "\nsecond : (x : Link) → A\nsecond x = x.back\n",
                "proofs/Common.antt": COMMON,
                "proofs/A.antt": CITES,
            }
        )
        self.assertEqual(list(check_forms.one_word_lemmas(self.top)), [])


if __name__ == "__main__":
    unittest.main()
