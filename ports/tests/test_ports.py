"""Tests of the ports' own tools, by Python alone: python3 -m unittest discover -s ports/tests."""
import importlib.machinery
import importlib.util
import io
import json
import os
import shutil
import struct
import subprocess
import sys
import tarfile
import tempfile
import unittest
import zipfile
from pathlib import Path
from unittest import mock

PORTS = Path(__file__).resolve().parents[1]
sys.path.insert(0, str(PORTS))
sys.dont_write_bytecode = True

import ported  # noqa: E402
import records  # noqa: E402
from program import NotSo, Program  # noqa: E402


def load(name):
    """A command of this folder as a module."""
    loader = importlib.machinery.SourceFileLoader(name, str(PORTS / name))
    module = importlib.util.module_from_spec(importlib.util.spec_from_loader(name, loader))
    loader.exec_module(module)
    return module


same_code, image = load("same_code"), load("image")
OF = records.sha256(records.PROGRAM)
# The ports that hold the pages of this program; after a change of the program they are older until ports/build.
CURRENT = [port for port in records.ports() if port.program == OF and port.name not in same_code.FROM_MODULE]
PROGRAM = Program(records.PROGRAM) if CURRENT else None


def place_of(path, page_place):
    """Where in a port's file a byte of the program's pages stands."""
    pieces = same_code.pages_of(ported.read_port(path), PROGRAM)
    address = pieces[0].address + page_place
    piece = next(it for it in pieces if it.holds(address))
    return piece.offset + address - piece.address


@unittest.skipUnless(CURRENT, "no port of this program is kept")
class Spoiled(unittest.TestCase):
    """A port that isn't the program's code is found."""

    def windows(self):
        port = next((it for it in CURRENT if it.name == "heads.exe"), None)
        return port or self.skipTest("no heads.exe of this program is kept")

    def refused(self, port, place, value):
        with tempfile.TemporaryDirectory() as folder:
            data = bytearray(port.path.read_bytes())
            data[place : place + len(value)] = value
            path = Path(folder) / port.name
            path.write_bytes(data)
            with self.assertRaises(NotSo) as caught:
                same_code.compare(path, PROGRAM)
            return str(caught.exception)

    def test_a_port_as_it_is_passes(self):
        for port in CURRENT:
            self.assertIn("bytes are the program's", same_code.compare(port.path, PROGRAM))

    def test_one_byte_of_code_is_found(self):
        for port in CURRENT:
            place = place_of(port.path, PROGRAM.main)
            byte = port.path.read_bytes()[place]
            self.assertIn("differs", self.refused(port, place, bytes([byte ^ 1])))

    def test_another_function_of_the_pages_is_found(self):
        """A word of a C function that points into the program's own code."""
        slot = next(place for place, word in PROGRAM.words.items() if isinstance(word, same_code.Function))
        for port in CURRENT:
            base = same_code.pages_of(ported.read_port(port.path), PROGRAM)[0].address
            said = self.refused(port, place_of(port.path, slot), struct.pack("<Q", base + PROGRAM.main))
            self.assertIn("no function of the port", said)

    def test_another_address_is_found(self):
        slot = next(place for place, word in PROGRAM.words.items() if isinstance(word, same_code.Address))
        for port in CURRENT:
            self.assertIn("another address", self.refused(port, place_of(port.path, slot), bytes(8)))

    def test_code_that_can_be_written_is_found(self):
        """The protection of the section with the code, in the headers of a program for Windows."""
        port = self.windows()
        data = port.path.read_bytes()
        place = data.index(b".heads1\0") + 36
        flags, = struct.unpack_from("<I", data, place)
        self.assertIn("protection", self.refused(port, place, struct.pack("<I", flags | 1 << 31)))

    def test_a_base_relocation_less_is_found(self):
        port = self.windows()
        read = ported.read_port(port.path)
        table = next(it for it in read.pieces if it.name == ".reloc")
        base = same_code.pages_of(read, PROGRAM)[0].address
        entry = next(at for word, at in read.moved.items() if base <= word < base + PROGRAM.groups[-1].high)
        self.assertIn("moves other words", self.refused(port, table.offset + entry, b"\0\0"))


class Recorded(unittest.TestCase):
    """What is said of a port by its line of dist/heads.txt."""

    def of(self, **changes):
        port = {"name": "heads.exe", "sha256": "0" * 64, "program": OF, "made_with": "gcc", "date": "2026-01-01"}
        return records.Port(**port | changes)

    def test_a_line_is_read_as_it_was_written(self):
        port = self.of(made_with="gcc-12 12.2.0-14, binutils 2.40-2")
        self.assertEqual(records.Port(*records.LINE.fullmatch(port.line()).groups()), port)

    def test_other_bytes_than_recorded_fail(self):
        with tempfile.TemporaryDirectory() as folder, mock.patch.object(records, "DIST", Path(folder)):
            (Path(folder) / "heads.exe").write_bytes(b"MZ")
            with self.assertRaisesRegex(NotSo, "sha256"):
                same_code.compare_recorded(self.of(), OF)

    def test_a_file_that_is_missing_fails(self):
        with tempfile.TemporaryDirectory() as folder, mock.patch.object(records, "DIST", Path(folder)):
            with self.assertRaisesRegex(NotSo, "no such file"):
                same_code.compare_recorded(self.of(), OF)

    def test_a_port_of_an_older_program_is_said_to_be_one(self):
        with tempfile.TemporaryDirectory() as folder, mock.patch.object(records, "DIST", Path(folder)):
            path = Path(folder) / "heads.exe"
            path.write_bytes(b"MZ")
            port = self.of(sha256=records.sha256(path), program="1" * 64)
            self.assertIn("older program", same_code.compare_recorded(port, OF))
            with self.assertRaises(NotSo):
                same_code.compare_recorded(self.of(sha256=records.sha256(path)), OF)

    def test_a_bad_line_is_an_error(self):
        with mock.patch.object(records, "lines", lambda: ["port heads.exe 12"]), self.assertRaises(ValueError):
            records.ports()


class Images(unittest.TestCase):
    """The image for containers, unpacked and run without an engine."""

    def setUp(self):
        self.port = records.DIST / image.PORT
        if image.PORT not in [port.name for port in CURRENT]:
            self.skipTest("no port of this program is kept for it")
        whole = image.image_of(self.port, OF)
        self.assertEqual(whole, image.image_of(self.port, OF))
        with tarfile.open(fileobj=io.BytesIO(whole)) as tar:
            self.files = {it.name: tar.extractfile(it).read() for it in tar if it.isfile()}

    def blob(self, described):
        content = self.files["blobs/sha256/" + described["digest"].removeprefix("sha256:")]
        self.assertEqual((image.digest(content), len(content)), (described["digest"][7:], described["size"]))
        return content

    def test_the_manifests_lead_to_the_program(self):
        manifest = json.loads(self.blob(json.loads(self.files["index.json"])["manifests"][0]))
        config = json.loads(self.blob(manifest["config"]))
        layer = self.blob(manifest["layers"][0])
        self.assertEqual(config["rootfs"]["diff_ids"], [f"sha256:{image.digest(layer)}"])
        self.assertEqual(config["config"]["Entrypoint"], ["/heads"])
        older, = json.loads(self.files["manifest.json"])
        self.assertEqual(self.files[older["Layers"][0]], layer)
        self.assertEqual(json.loads(self.files[older["Config"]]), config)
        with tarfile.open(fileobj=io.BytesIO(layer)) as tar:
            self.assertEqual(tar.extractfile("heads").read(), self.port.read_bytes())

    @unittest.skipUnless(hasattr(os, "geteuid") and os.geteuid() == 0, "chroot needs root")
    def test_the_program_runs_with_nothing_else_in_the_folder(self):
        example = PORTS.parent / "examples" / "river_valley"
        wanted = subprocess.run([records.PROGRAM, "run", "m.nam"], cwd=example, capture_output=True).stdout
        older, = json.loads(self.files["manifest.json"])
        with tempfile.TemporaryDirectory() as folder:
            with tarfile.open(fileobj=io.BytesIO(self.files[older["Layers"][0]])) as tar:
                tar.extractall(folder)
            for path in example.iterdir():
                if path.is_file():
                    (Path(folder) / "model" / path.name).write_bytes(path.read_bytes())
            def enter():
                os.chroot(folder)
                os.chdir("/model")
            done = subprocess.run(["/heads", "run", "m.nam"], capture_output=True, preexec_fn=enter)
        self.assertEqual((done.returncode, done.stdout), (0, wanted))


@unittest.skipUnless(shutil.which("gcc"), "gcc isn't installed")
class PartsOfThePage(unittest.TestCase):
    """The C of web/ by itself, compiled for this machine."""

    def run_test(self, name):
        with tempfile.TemporaryDirectory() as folder:
            program, source = str(Path(folder) / name), str(PORTS / "tests" / f"{name}.c")
            warnings = ["-Wall", "-Wextra", "-Werror", "-Wno-builtin-declaration-mismatch"]
            subprocess.run(["gcc", "-O2", *warnings, "-o", program, source], check=True)
            done = subprocess.run([program], capture_output=True, text=True)
        self.assertEqual(done.returncode, 0, done.stdout)

    def test_memory_keeps_blocks_apart_and_joins_what_is_given_back(self):
        self.run_test("memory_test")

    def test_arithmetic_of_128_bits_is_that_of_gcc(self):
        self.run_test("wide_test")


@unittest.skipUnless(shutil.which("node"), "node isn't installed")
class Files(unittest.TestCase):
    """Names and .zip files as the page takes them."""

    def node(self, text):
        words = ["node", "--input-type=module", "-e", text]
        done = subprocess.run(words, cwd=PORTS / "web", capture_output=True, text=True)
        self.assertEqual(done.returncode, 0, done.stderr)
        return json.loads(done.stdout)

    def test_names_are_looked_up_from_the_folder_of_the_name_file(self):
        asked = ["a.nam", "./a.nam", "sub/a.dis", "sub\\a.dis", "../other.bas", "sub/../a.nam", "A.NAM",
                 "none/../a.nam", "../../other.bas", "/model/a.nam", "b.nam", ""]
        found = self.node("""
            import { Folder } from "./host.mjs";
            const names = ["model/a.nam", "model/sub/a.dis", "other.bas"];
            const folder = new Folder(new Map(names.map((name) => [name, name])), "model/");
            console.log(JSON.stringify([ASKED.map((name) => folder.find(name) ?? null), [...folder.taken]]));
        """.replace("ASKED", json.dumps(asked)))
        due = ["model/a.nam", "model/a.nam", "model/sub/a.dis", "model/sub/a.dis", "other.bas", "model/a.nam",
               "model/a.nam", None, None, None, None, None]
        self.assertEqual(found, [due, [["A.NAM", "model/a.nam"]]])

    def test_a_zip_is_unpacked_and_a_spoiled_one_is_refused(self):
        with tempfile.TemporaryDirectory() as folder:
            path = Path(folder) / "a.zip"
            with zipfile.ZipFile(path, "w") as file:
                file.writestr("sub/a.dis", b"1 1 3\n" * 100, zipfile.ZIP_DEFLATED)
                file.writestr("a.nam", b"DIS 11 a.dis\n", zipfile.ZIP_STORED)
            whole = path.read_bytes()
            spoiled = bytearray(whole)
            spoiled[whole.index(b"DIS 11")] ^= 1
            given = [list(whole), list(spoiled), list(whole[:-30]), list(b"not a zip")]
            found = self.node("""
                import { unzipped } from "./unzip.mjs";
                const said = [];
                for (const bytes of GIVEN) {
                    try {
                        const files = await unzipped(new Uint8Array(bytes));
                        said.push([...files].map(([name, content]) => [name, new TextDecoder().decode(content)]));
                    } catch (error) {
                        said.push(error.message);
                    }
                }
                console.log(JSON.stringify(said));
            """.replace("GIVEN", json.dumps(given)))
        self.assertEqual(found[0], [["sub/a.dis", "1 1 3\n" * 100], ["a.nam", "DIS 11 a.dis\n"]])
        self.assertEqual(found[1], "a.nam is spoiled in this .zip")
        self.assertEqual(found[2:], ["this is no whole .zip"] * 2)


if __name__ == "__main__":
    unittest.main()
