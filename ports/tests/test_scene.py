"""What the page's map takes of a listing and of a deck, by Node: python3 -m unittest discover -s ports/tests."""
import json
import random
import shutil
import subprocess
import sys
import tempfile
import unittest
from pathlib import Path

PORTS = Path(__file__).resolve().parents[1]
sys.path[:0] = [str(PORTS), str(PORTS / "tests")]
sys.dont_write_bytecode = True

import records  # noqa: E402

EXAMPLES = PORTS.parent / "examples"
SCENE = f"""
import {{ readFileSync }} from "node:fs";
import {{ scene_of_listing }} from "{(PORTS / 'web' / 'scene_of.mjs').as_uri()}";
import {{ units_of }} from "{(PORTS / 'web' / 'deck.mjs').as_uri()}";
import {{ decimal }} from "{(PORTS.parent / 'tools' / 'heads_tools' / 'map' / 'numbers.mjs').as_uri()}";
const [listing, deck] = process.argv.slice(1).map((name) => new Uint8Array(readFileSync(name)));
const scene = listing && scene_of_listing(listing, deck, {{ time: 4 }});
process.stdout.write(JSON.stringify(TOLD, (_, value) => typeof value === "bigint" ? String(value) : value));
"""


def told(text, *contents):
    """The value of an expression of the scene of a listing and a deck."""
    with tempfile.TemporaryDirectory() as folder:
        names = [Path(folder) / str(n) for n in range(len(contents))]
        for name, content in zip(names, contents):
            name.write_bytes(content)
        words = ["node", "--input-type=module", "-e", SCENE.replace("TOLD", text), *map(str, names)]
        done = subprocess.run(words, capture_output=True, text=True)
        if done.returncode:
            raise AssertionError(done.stderr)
        return json.loads(done.stdout)


def made(name, *words):
    """What dist/heads writes of an example."""
    done = subprocess.run([str(records.PROGRAM), *words], cwd=EXAMPLES / name, capture_output=True)
    return done.stdout


@unittest.skipUnless(shutil.which("node"), "no node")
class OfListing(unittest.TestCase):
    def test_the_pairs_are_those_of_the_listing(self):
        listing = made("pumping_test", "run", "m.nam")
        steps, wanted = 0, {}
        for line in listing.decode().splitlines():
            word, *rest = line.split()
            steps += word == "STEP"
            if word == "HEAD":
                wanted[steps - 1, *(int(n) - 1 for n in rest[:3])] = rest[3:]
        keys = random.Random(3).sample(sorted(wanted), 200)
        pair = "[scene.low(0, s, scene.place(k, i, j)), scene.high(0, s, scene.place(k, i, j))].map(decimal)"
        found = told(f"{json.dumps(keys)}.map(([s, k, i, j]) => {pair})", listing)
        self.assertEqual(found, [wanted[key] for key in keys])

    def test_heads_of_any_size_and_sign_are_exact(self):
        lines = ["HEADS 2 DIGITS 12 UNIT 2", "STEP 1 1", "HEAD 1 1 1 -3999999999.999999999 4000000000.000000000",
                 "HEAD 1 1 2 -0.000000001 0.000000001", "HEAD 1 1 3 9007199.254740993 8999999.999999999", "END", ""]
        field = told("[[...scene.fields[0].low], [...scene.fields[0].high]]", "\n".join(lines).encode())
        self.assertEqual(field, [["-3999999999999999999", "-1", "9007199254740993"],
                                 ["4000000000000000000", "1", "8999999999999999"]])

    def test_a_listing_without_a_cell_has_no_scene(self):
        self.assertIsNone(told("scene ?? null", b"HEADS 2 DIGITS 12 UNIT 2\nSTEP 1 1\nEND\n"))

    def test_without_a_deck_cells_are_squares(self):
        listing = made("three_aquifers", "run", "m.nam")
        found = told("[scene.shape, scene.x.at(-1), scene.is_true, scene.tops, scene.time]", listing)
        self.assertEqual(found, [[3, 15, 15], 15, False, None, ""])


@unittest.skipUnless(shutil.which("node"), "no node")
class OfDeck(unittest.TestCase):
    def scene(self, text, name):
        return told(text, made(name, "run", "m.nam"), made(name, "write", "m.nam"))

    def test_grid_and_elevations_are_those_of_the_files(self):
        """The file DIS: 15 columns of 200 m; layers from 45 to 30, 28 to 10 and 7 to -15 m, with beds between them."""
        ends = "[scene.tops[n], scene.bottoms[n]].map(decimal)"
        cells = f"...[0, 1, 2].map((k) => scene.place(k, 7, 7)).map((n) => {ends})"
        text = f"[scene.x.at(-1), scene.y.at(-1), scene.unit, {cells}]"
        self.assertEqual(self.scene(text, "three_aquifers"), [
            3000, 3000, "m", ["45.000000000", "30.000000000"], ["28.000000000", "10.000000000"],
            ["7.000000000", "-15.000000000"]])

    def test_entries_are_those_of_the_lists(self):
        """Two wells, and a river along column 15 of 20 rows and 30 columns."""
        found = self.scene("scene.marks", "river_valley")
        self.assertEqual([(it["kind"], it["cells"]) for it in found],
                         [("WEL", [7 * 30 + 16, 13 * 30 + 16]), ("RIV", [row * 30 + 14 for row in range(20)])])

    def test_steps_end_when_they_do(self):
        """Twelve periods of an hour in days, each of four equal steps."""
        found = self.scene("[scene.time, scene.steps.length, scene.steps[3][2], scene.steps.at(-1)[2]]", "tide")
        self.assertEqual(found[:2], ["d", 48])
        self.assertAlmostEqual(found[2], 1 / 24, places=3)
        self.assertAlmostEqual(found[3], 0.5, places=2)

    def test_elevations_are_rounded_up(self):
        words = ["305E-1", "1E-10", "-1E-10", "0E0", "123456789012345678E-9", "-15E-10"]
        found = told(f"{json.dumps(words)}.map(units_of)")
        self.assertEqual(found, ["30500000000", "1", "0", "0", "123456789012345678", "-1"])


@unittest.skipUnless(shutil.which("node"), "no node")
class OfZones(unittest.TestCase):
    def zones(self, zone_file, more=b""):
        """The zones that the map has of the cells of layer, row and column of three_aquifers, by a zone file."""
        about = "{ time: 4, zones: read(2), open: (name) => (name === 'sub/z.txt' ? read(3) : undefined) }"
        read = "(n) => new Uint8Array(readFileSync(process.argv[1 + n]))"
        again = f"((read) => scene_of_listing(listing, deck, {about}))({read})"
        at = "[[0, 0], [7, 7], [14, 14]].map(([i, j]) => it.zones[it.place(k, i, j)])"
        text = f"((it) => it.zones && [0, 1, 2].map((k) => {at}))({again})"
        files = made("three_aquifers", "run", "m.nam"), made("three_aquifers", "write", "m.nam"), zone_file, more
        return told(text, *files)

    def test_each_record_is_read(self):
        rows = b"\n".join(b"%d 6*%d,\t%d %d 6*%d" % (n, n + 1, n + 2, n + 3, n + 4) for n in range(0, 150, 10))
        file = b"CONSTANT 7\r\nINTERNAL 2 (FREE) -1\r\n" + rows + b"\nopen/close sub/z.txt 0 (FREE) -1\n"
        found = self.zones(file, b"225*3 more words\n")
        self.assertEqual(found, [[7, 7, 7], [0, 2 * 72, 2 * 144], [3, 3, 3]])

    def test_a_file_that_cant_be_read_leaves_the_map_without_zones(self):
        self.assertIsNone(self.zones(b"CONSTANT 7\n"))


if __name__ == "__main__":
    unittest.main()
