"""Builds the package's wheel, with the program of the repository's release in it.

A build backend of the package's own, since it has to run where nothing but Python is installed: `pip install ./clients/python`
then asks no index for a build tool. Where the machine can't run the release, or there is none, the wheel has no program.
The files and their fields are those of PEP 427, PEP 566 and PEP 600.
"""

import base64
import gzip
import hashlib
import platform
import sys
import tomllib
import zipfile
from pathlib import Path

HERE = Path(__file__).resolve().parents[1]
DIST = HERE.parents[1] / "dist"
# The least version of the C library that the program runs with.
GLIBC = (2, 34)


def release():
    """What dist/RELEASE says, by the first word of each line; nothing where there is no release."""
    path = DIST / "RELEASE"
    return dict(line.split(" ", 1) for line in path.read_text().splitlines()) if path.exists() else {}


def runs_here():
    """Whether this machine can run the release."""
    library, version = platform.libc_ver()
    return (
        (sys.platform, platform.machine(), library) == ("linux", "x86_64", "glibc")
        and tuple(int(part) for part in version.split(".")[:2]) >= GLIBC
    )


def program():
    """The release's program, or nothing where there is none for this machine."""
    said = release()
    if not said or not runs_here():
        return None
    unpacked = gzip.decompress((DIST / "xcols-x86_64-linux.gz").read_bytes())
    if hashlib.sha256(unpacked).hexdigest() != said["program"]:
        sys.exit("xcols: the release in dist/ is damaged: its program isn't the one that dist/RELEASE names")
    return unpacked


def metadata(project):
    lines = [
        "Metadata-Version: 2.1",
        f"Name: {project['name']}",
        f"Version: {project['version']}",
        f"Summary: {project['description']}",
        f"Requires-Python: {project['requires-python']}",
        f"License: {project['license']['text']}",
        "Description-Content-Type: text/markdown",
    ]
    for extra, wanted in project["optional-dependencies"].items():
        lines.append(f"Provides-Extra: {extra}")
        lines += [f'Requires-Dist: {name}; extra == "{extra}"' for name in wanted]
    return "\n".join(lines) + "\n\n" + (HERE / project["readme"]).read_text()


def files(project, tag, bundled):
    """The name in the wheel, the bytes and the mode of each file but the record."""
    for path in sorted((HERE / "xcols").iterdir()):
        if path.suffix == ".py" or path.name == "py.typed":
            yield f"xcols/{path.name}", path.read_bytes(), 0o644
    if bundled is not None:
        yield "xcols/bin/xcols", bundled, 0o755
    info = info_folder(project)
    pure = str(bundled is None).lower()
    yield f"{info}/METADATA", metadata(project).encode(), 0o644
    yield f"{info}/WHEEL", f"Wheel-Version: 1.0\nGenerator: xcols\nRoot-Is-Purelib: {pure}\nTag: {tag}\n".encode(), 0o644


def info_folder(project):
    return f"{project['name']}-{project['version']}.dist-info"


def record_line(name, data):
    digest = base64.urlsafe_b64encode(hashlib.sha256(data).digest()).rstrip(b"=").decode()
    return f"{name},sha256={digest},{len(data)}\n"


def build_wheel(wheel_directory, config_settings=None, metadata_directory=None):
    """Writes the wheel into the folder, and gives its name."""
    project = tomllib.loads((HERE / "pyproject.toml").read_text())["project"]
    bundled = program()
    tag = "py3-none-any" if bundled is None else f"py3-none-manylinux_{GLIBC[0]}_{GLIBC[1]}_x86_64"
    name = f"{project['name']}-{project['version']}-{tag}.whl"
    record = ""
    with zipfile.ZipFile(Path(wheel_directory) / name, "w", zipfile.ZIP_DEFLATED) as wheel:
        for path, data, mode in files(project, tag, bundled):
            put(wheel, path, data, mode)
            record += record_line(path, data)
        path = f"{info_folder(project)}/RECORD"
        put(wheel, path, f"{record}{path},,\n".encode(), 0o644)
    return name


def put(wheel, path, data, mode):
    # A fixed time, so that the same files are the same wheel.
    entry = zipfile.ZipInfo(path, (2020, 1, 1, 0, 0, 0))
    entry.external_attr = (0o100000 | mode) << 16
    entry.compress_type = zipfile.ZIP_DEFLATED
    wheel.writestr(entry, data)
