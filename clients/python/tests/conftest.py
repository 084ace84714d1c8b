"""The folders that the tests run over, each a copy of its own."""

import shutil
import subprocess
import sys
from pathlib import Path

import pytest

from xcols import Folder, NoProgram

REPOSITORY = Path(__file__).resolve().parents[3]


@pytest.fixture(scope="session", autouse=True)
def program():
    """Without the program no test can say anything."""
    try:
        Folder(".")
    except NoProgram as error:
        pytest.exit(str(error), returncode=2)


@pytest.fixture
def sales(tmp_path):
    """The sales of `examples`, as yet without files of columns."""
    return Folder(shutil.copytree(REPOSITORY / "examples/sales", tmp_path / "sales"))


@pytest.fixture
def loaded(sales):
    """The sales in three fragments."""
    sales.load(rows=2, load=7)
    return sales


@pytest.fixture(scope="session")
def star(tmp_path_factory):
    """A star of 20,000 rows in eight fragments."""
    path = tmp_path_factory.mktemp("star")
    subprocess.run([sys.executable, REPOSITORY / "bench/star/generate.py", path, "20000"], check=True)
    folder = Folder(path)
    folder.load(rows=2500)
    return folder
