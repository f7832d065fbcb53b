"""The lines of bindings/README.md that certify what clingo says, run inside clingo."""
from __future__ import annotations

import os
import re
import shutil
import subprocess
import tempfile
import unittest
from pathlib import Path

import aspdrupe

ROOT = Path(__file__).resolve().parents[3]
PLANS = ROOT / "examples" / "plans"


def missing() -> str:
    """What is not there of clingo with Python, cadical and the command."""
    for tool in ("clingo", "cadical"):
        if shutil.which(tool) is None:
            return tool
    if "with Python" not in subprocess.run(["clingo", "--version"], capture_output=True, text=True).stdout:
        return "clingo with Python"
    return "" if (ROOT / "target" / "cargo" / "debug" / "aspdrupe").is_file() else "target/cargo/debug/aspdrupe"


class Certify(unittest.TestCase):
    def said(self, plan: Path) -> str:
        """What the lines come to for a plan."""
        _, lines = re.findall(r"```python\n(.*?)```", (ROOT / "bindings" / "README.md").read_text(), re.DOTALL)
        self.assertLessEqual(len(lines.splitlines()), 30)
        told = f"try: print('said', certified({str(plan)!r}))\n"
        told += "except Exception as why: print('said', str(why).strip().splitlines()[-1])\n"
        path = f"{ROOT}/target/cargo/debug:{os.environ['PATH']}"
        with tempfile.TemporaryDirectory() as room:
            (Path(room) / "script.lp").write_text(f"#script (python)\n{lines}\n{told}#end.\n")
            variables = {**os.environ, "PATH": path, "PYTHONPATH": str(Path(aspdrupe.__file__).parents[1])}
            done = subprocess.run(["clingo", "script.lp"], cwd=room, env=variables, capture_output=True, text=True)
        found = re.search(r"^said (.*)$", done.stdout, re.MULTILINE)
        return found[1] if found else done.stdout + done.stderr

    def test_plans(self) -> None:
        if missing():
            self.skipTest(missing())
        for name, said in [
            ("pigeons", "inconsistent 49 79 "),
            ("budget", "inconsistent 17 19 "),
            ("order", "SetAnswer(differs=None, broken=None, "),
        ]:
            self.assertEqual(self.said(PLANS / f"{name}.lp")[: len(said)], said)

    def test_what_is_not_checked(self) -> None:
        if missing():
            self.skipTest(missing())
        external = "{a}. #external e. :- e, a."
        for plan, said in [(external, "ValueError: externals, "), ("a; b.", "refused program 7 2: ")]:
            with tempfile.TemporaryDirectory() as room:
                (Path(room) / "plan.lp").write_text(plan)
                self.assertIn(said, self.said(Path(room) / "plan.lp"))
