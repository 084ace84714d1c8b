"""What is refused, as exceptions."""

from pathlib import Path

import pytest

from xcols import ArithmeticFault, CannotRead, CannotWrite, Conflict, Folder, Missing, NoProgram, Refusal, UsageError


def test_a_refusal_has_its_word_number_and_details(sales):
    with pytest.raises(Refusal) as caught:
        sales.whole("SELECT ALL")
    assert (caught.value.word, caught.value.number, caught.value.details) == ("sql", 8, ("7", "all"))


def test_a_refusal_has_its_sentence(sales):
    with pytest.raises(Refusal) as caught:
        sales.whole("SELECT COUNT(*) FROM shop")
    assert caught.value.line == "plan 1" and "a table that the catalogue doesn't have" in caught.value.sentence


def test_a_refusal_of_a_load(sales):
    Path(sales.path, "store.csv").write_text("k,region\n10,north\n10,south\n")
    with pytest.raises(Refusal) as caught:
        sales.load(rows=2)
    assert (caught.value.word, caught.value.number, caught.value.details) == ("load", 7, ("1",))


def test_a_file_that_is_not_there(sales):
    Path(sales.path, "store.csv").unlink()
    with pytest.raises(CannotRead) as caught:
        sales.load(rows=2)
    assert caught.value.details == (f"{sales.path}/store.csv",)


def test_a_file_that_cannot_be_written(loaded, tmp_path):
    with pytest.raises(CannotWrite):
        loaded.work("SELECT COUNT(*) FROM sales", 0, tmp_path / "nowhere" / "a0")


def test_words_out_of_range(sales):
    with pytest.raises(UsageError):
        sales.load(rows=0)


def test_a_fault_of_a_row(sales):
    with pytest.raises(ArithmeticFault) as caught:
        sales.whole("SELECT SUM(p / q) FROM sales")
    assert (caught.value.kind, caught.value.row) == ("division by zero", 2)


def test_a_fault_of_a_group(sales):
    with pytest.raises(ArithmeticFault) as caught:
        sales.whole("SELECT SUM(p) FROM sales")
    assert (caught.value.kind, caught.value.row) == ("sum out of range", None)


def test_missing_answers(loaded, tmp_path):
    query = "SELECT COUNT(*) FROM sales"
    with pytest.raises(Missing) as caught:
        loaded.gather(query, [loaded.work(query, 1, tmp_path / "a1")])
    assert caught.value.fragments == (0, 2)


def test_a_conflict(loaded, tmp_path):
    # Two loads of different rows under one number can't be distinguished.
    query, rows = "SELECT SUM(id) FROM sales", Path(loaded.path, "sales.csv")
    one = loaded.work(query, 1, tmp_path / "one")
    rows.write_text(rows.read_text().replace("3,20,0,9,a", "9,20,0,9,a"))
    loaded.load(rows=2, load=7)
    with pytest.raises(Conflict) as caught:
        loaded.gather(query, [one, loaded.work(query, 1, tmp_path / "other")])
    assert caught.value.fragments == (1,)


def test_without_the_program_it_says_how_to_get_one(tmp_path):
    with pytest.raises(NoProgram, match="prove and build it"):
        Folder(tmp_path, program=tmp_path / "xcols")


def test_a_refusal_says_where(sales):
    with pytest.raises(Refusal) as caught:
        sales.whole("SELECT FROM sales")
    assert (caught.value.offset, caught.value.row, caught.value.column) == (7, None, None)
    Path(sales.path, "store.csv").write_text("k,region\n10,north\nx,south\n")
    with pytest.raises(Refusal) as caught:
        sales.whole("SELECT COUNT(*) FROM sales JOIN store ON s = k")
    assert (caught.value.line, caught.value.offset, caught.value.row, caught.value.column) == ("load 3 1 0", None, 1, 0)
