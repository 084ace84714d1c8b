"""The package as `pip install` leaves it: alone in an environment, with the program of the repository's release."""

import base64
import hashlib
import os
import shutil
import subprocess
import sys
import zipfile
from pathlib import Path

import pytest

REPOSITORY = Path(__file__).resolve().parents[3]
RELEASE = REPOSITORY / "dist/RELEASE"
QUERY = "SELECT region, COUNT(*) AS orders FROM sales JOIN store ON s = k GROUP BY region"

sys.path.append(str(REPOSITORY / "clients/python/backend"))
import wheel_with_program as backend  # noqa: E402

needs_release = pytest.mark.skipif(not RELEASE.exists() or not backend.runs_here(), reason="there is no release for this machine")


def said_of_release():
    return dict(line.split(" ", 1) for line in RELEASE.read_text().splitlines())


@needs_release
def test_the_wheel_has_the_program_of_the_release(tmp_path):
    name = backend.build_wheel(tmp_path)
    assert name == f"xcols-{said_of_release()['version']}-py3-none-manylinux_2_34_x86_64.whl"
    with zipfile.ZipFile(tmp_path / name) as wheel:
        assert hashlib.sha256(wheel.read("xcols/bin/xcols")).hexdigest() == said_of_release()["program"]
        assert wheel.getinfo("xcols/bin/xcols").external_attr >> 16 & 0o777 == 0o755


def test_without_a_release_the_wheel_is_for_any_machine(tmp_path, monkeypatch):
    monkeypatch.setattr(backend, "DIST", tmp_path)
    name = backend.build_wheel(tmp_path)
    assert name.endswith("-py3-none-any.whl")
    with zipfile.ZipFile(tmp_path / name) as wheel:
        assert "xcols/bin/xcols" not in wheel.namelist()


def test_a_damaged_release_is_refused(tmp_path, monkeypatch):
    (tmp_path / "RELEASE").write_text("version 1.0.0\ntoolchain t\nprogram 00\nsources 00\n")
    import gzip

    (tmp_path / "xcols-x86_64-linux.gz").write_bytes(gzip.compress(b"another program"))
    monkeypatch.setattr(backend, "DIST", tmp_path)
    monkeypatch.setattr(backend, "runs_here", lambda: True)
    with pytest.raises(SystemExit, match="damaged"):
        backend.build_wheel(tmp_path)


def test_the_record_has_the_sum_of_each_file(tmp_path):
    with zipfile.ZipFile(tmp_path / backend.build_wheel(tmp_path)) as wheel:
        record = next(name for name in wheel.namelist() if name.endswith("/RECORD"))
        listed = dict(line.split(",", 1) for line in wheel.read(record).decode().splitlines())
        assert set(listed) == set(wheel.namelist())
        for name in set(listed) - {record}:
            data = wheel.read(name)
            digest = base64.urlsafe_b64encode(hashlib.sha256(data).digest()).rstrip(b"=").decode()
            assert listed[name] == f"sha256={digest},{len(data)}"


@needs_release
def test_it_answers_with_no_repository_beside_it(tmp_path):
    if subprocess.run([sys.executable, "-m", "venv", tmp_path / "env"], capture_output=True, check=False).returncode:
        pytest.skip("this Python makes no virtual environment (Debian: python3-venv)")
    python = tmp_path / "env/bin/python"
    alone = {name: value for name, value in os.environ.items() if name not in ("PYTHONPATH", "XCOLS")} | {"PATH": "/usr/bin:/bin"}
    package = shutil.copytree(REPOSITORY / "clients", tmp_path / "clients", ignore=shutil.ignore_patterns("__pycache__"))
    shutil.copytree(REPOSITORY / "dist", tmp_path / "dist")
    subprocess.run([python, "-m", "pip", "install", "--quiet", "--no-index", package / "python"], check=True, env=alone, cwd=tmp_path)
    shutil.rmtree(tmp_path / "clients")
    shutil.rmtree(tmp_path / "dist")
    shutil.copytree(REPOSITORY / "examples/sales", tmp_path / "sales")
    code = f"import xcols; print(xcols.Folder('sales').whole({QUERY!r}).rows)"
    done = subprocess.run([python, "-c", code], check=True, env=alone, cwd=tmp_path, capture_output=True, text=True)
    assert done.stdout == "[(None, 1), ('north', 2)]\n"
