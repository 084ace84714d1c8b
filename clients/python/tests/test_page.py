"""The blocks of docs/PYTHON.md give what stands under them."""

import doctest
import os
import shutil
import subprocess
import sys
from pathlib import Path

import pytest

REPOSITORY = Path(__file__).resolve().parents[3]


def test_the_page(tmp_path, monkeypatch):
    pytest.importorskip("pandas")
    shutil.copytree(REPOSITORY / "examples/sales", tmp_path / "sales")
    monkeypatch.chdir(tmp_path)
    ran = doctest.testfile(str(REPOSITORY / "docs/PYTHON.md"), module_relative=False, optionflags=doctest.NORMALIZE_WHITESPACE)
    assert ran.attempted > 15 and ran.failed == 0


def test_the_picture(star, tmp_path):
    pytest.importorskip("matplotlib")
    pytest.importorskip("pandas")
    script = REPOSITORY / "clients/python/examples/pictures.py"
    shown = (REPOSITORY / "docs/PYTHON.md").read_text().split("## A picture")[1].split("```python\n")[1].split("```")[0]
    assert shown in script.read_text()
    shutil.copytree(star.path, tmp_path / "star")
    subprocess.run(
        [sys.executable, script, tmp_path / "star", tmp_path / "star.svg"],
        check=True,
        env={**os.environ, "PYTHONPATH": str(REPOSITORY / "clients/python")},
    )
    assert (tmp_path / "star.svg").read_text().rstrip().endswith("</svg>")
