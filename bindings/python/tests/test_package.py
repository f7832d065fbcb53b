"""The package as it is installed: derived data, types, versions, pip."""
from __future__ import annotations

import doctest
import importlib.util
import inspect
import os
import py_compile
import re
import subprocess
import sys
import tempfile
import typing
import unittest
from pathlib import Path
from types import ModuleType
from unittest import mock

import aspdrupe
from aspdrupe import _derived, _library

HERE = Path(__file__).resolve().parents[1]
ROOT = HERE.parents[1]


def module(name: str) -> ModuleType:
    """A file beside the package as a module."""
    spec = importlib.util.spec_from_file_location(name, HERE / f"{name}.py")
    assert spec is not None and spec.loader is not None
    found = importlib.util.module_from_spec(spec)
    spec.loader.exec_module(found)
    return found


class Derived(unittest.TestCase):
    def test_current(self) -> None:
        stands = (HERE / "aspdrupe" / "_derived.py").read_text()
        self.assertEqual(stands, module("derive").derived(), "run `python3 bindings/python/derive.py`")

    def test_a_service_for_each_function(self) -> None:
        named = {"check_texts": "check", "trim_proof": "trim"}
        for name in _derived.FUNCTIONS:
            self.assertTrue(callable(getattr(aspdrupe, named.get(name, name), None)), f"there is no service {name}")

    def test_a_refusal_for_each_kind_of_question(self) -> None:
        kinds = {kind.questions for kind in aspdrupe.Refusal.__subclasses__()}
        self.assertEqual(kinds, set(aspdrupe.Question.__subclasses__()))
        for kind in [*kinds, *aspdrupe.Refusal.__subclasses__()]:
            self.assertIs(getattr(aspdrupe, kind.__name__), kind)

    def test_other_forms_are_told(self) -> None:
        derive = module("derive")
        for wrong in ("const uint8_t *text, int32_t n, size_t text_len", "const uint8_t *text, size_t other_len"):
            with self.assertRaises(ValueError):
                derive.parameters("f", wrong)
        with self.assertRaises(ValueError):
            derive.questions(derive.QUESTIONS.read_text().replace('    Length = 1, "', '    Length = 1, r"'))

    def test_memory_of_the_header(self) -> None:
        header = (HERE.parent / "c" / "aspdrupe.h").read_text()
        self.assertIn("#define ASPDRUPE_MEMORY(store_len) (49287 + ((store_len) + 7) / 8 * 25)", header)


class Package(unittest.TestCase):
    def test_compiles(self) -> None:
        with tempfile.TemporaryDirectory() as room:
            for path in sorted(HERE.glob("**/*.py")):
                py_compile.compile(str(path), cfile=f"{room}/compiled", doraise=True)

    def test_all_is_typed(self) -> None:
        self.assertTrue((Path(aspdrupe.__file__).parent / "py.typed").is_file())
        for name in aspdrupe.__all__:
            found = getattr(aspdrupe, name)
            if inspect.isfunction(found):
                hints = typing.get_type_hints(found)
                self.assertEqual(set(hints), {*inspect.signature(found).parameters, "return"}, name)

    def test_examples_of_the_documentation(self) -> None:
        self.assertEqual(doctest.testmod(aspdrupe).failed, 0)

    def test_version(self) -> None:
        stated = re.search(r'^version = "(.+)"$', (ROOT / "Cargo.toml").read_text(), re.MULTILINE)
        assert stated is not None
        self.assertEqual(module("backend").version(), stated[1])


class Build(unittest.TestCase):
    def test_pip(self) -> None:
        if importlib.util.find_spec("pip") is None:
            self.skipTest("pip")
        with tempfile.TemporaryDirectory() as room:
            pip = ["-m", "pip", "--isolated", "--disable-pip-version-check", "--no-cache-dir", "install", "--quiet"]
            self.run_in(room, *pip, "--no-index", "--target", f"{room}/site", str(HERE))
            lines = "import aspdrupe; print(aspdrupe.__file__, aspdrupe.check('asp 1 0 0\\n0\\n', ''))"
            said = self.run_in(room, "-c", lines, PYTHONPATH=f"{room}/site")
            self.assertEqual(said.split(), [f"{room}/site/aspdrupe/__init__.py", "open", "0", "0", "0", "0"])

    def run_in(self, room: str, *arguments: str, **variables: str) -> str:
        done = subprocess.run(
            [sys.executable, *arguments], cwd=room, env={**os.environ, **variables}, capture_output=True, text=True
        )
        self.assertEqual(done.returncode, 0, done.stderr)
        return done.stdout

    def test_what_is_missing_is_said(self) -> None:
        backend = module("backend")
        with tempfile.TemporaryDirectory() as room:
            backend.LIBRARY = Path(room) / "libexports.a"
            with self.assertRaisesRegex(SystemExit, "libexports.a is missing: run `bindings/library`"):
                backend.build_wheel(room)
            backend.LIBRARY.write_bytes(b"")
            with mock.patch.dict(os.environ, CC=f"{room}/none"):
                with self.assertRaisesRegex(SystemExit, "no C compiler"):
                    backend.build_wheel(room)
        with self.assertRaisesRegex(ImportError, "none.so is missing: install the package again"):
            _library._load(Path("none.so"))
