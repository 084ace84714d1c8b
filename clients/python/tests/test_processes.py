"""Queries by a process for each fragment, held against sqlite over the same CSV files."""

import csv
import sqlite3
from pathlib import Path

import pytest

from xcols import ArithmeticFault

QUERIES = [line.rstrip("\n").split("|", 1) for line in open(Path(__file__).resolve().parents[3] / "bench/star/queries.txt")]


@pytest.fixture(scope="module")
def database(star):
    """The star in sqlite, with integers where every field is one."""
    base = sqlite3.connect(":memory:")
    for path in Path(star.path).glob("*.csv"):
        with open(path, newline="") as file:
            header, *rows = csv.reader(file)
        kinds = ["INTEGER" if all(row[at].isdigit() for row in rows) else "TEXT" for at in range(len(header))]
        columns = ", ".join(f"{name} {kind}" for name, kind in zip(header, kinds, strict=True))
        base.execute(f"CREATE TABLE {path.stem} ({columns})")
        base.executemany(f"INSERT INTO {path.stem} VALUES ({', '.join('?' * len(header))})", rows)
    return base


@pytest.mark.parametrize(("name", "query"), QUERIES)
def test_the_star(star, database, name, query):
    assert star.query(query, processes=4).rows == database.execute(query).fetchall()
    assert star.whole(query, rows=3000).rows == database.execute(query).fetchall()


def test_previews_grow_to_the_report(star):
    seen = list(star.previews("SELECT COUNT(*) AS n FROM lineorder", processes=3))
    assert [preview.result.rows for preview in seen] == [[(2500 * count,)] for count in range(1, 9)]
    assert [(preview.answered, preview.fragments) for preview in seen] == [(count, 8) for count in range(1, 9)]


def test_a_fault_comes_out_of_a_query(star):
    with pytest.raises(ArithmeticFault) as caught:
        star.query("SELECT SUM(lo_revenue / (lo_orderkey - 1)) FROM lineorder", processes=2)
    assert caught.value.kind == "division by zero" and caught.value.row == 0


def test_a_preview_can_be_a_fault(star):
    *_, last = star.previews("SELECT SUM(lo_revenue / (lo_orderkey - 1)) FROM lineorder", processes=2)
    assert last.result is None and last.fault.kind == "division by zero"
