"""Each command, over the tables of `examples/sales`. What is wanted is worked out by hand from the CSV files."""

from pathlib import Path

import pytest

from xcols import CannotRead, Column, Folder, Loaded, PassedOver

BY_REGION = "SELECT region, COUNT(*) AS orders, SUM(q) AS pieces FROM sales JOIN store ON s = k GROUP BY region ORDER BY region"


def test_whole_gives_rows_with_their_types(sales):
    result = sales.whole(BY_REGION, rows=2)
    assert result.columns == (Column("region", "text"), Column("orders", "int"), Column("pieces", "int"))
    assert result.rows == [(None, 1, 0), ("north", 2, 2)] or result.rows == [("north", 2, 2), (None, 1, 0)]


def test_integers_are_exact(sales):
    assert sales.whole("SELECT MAX(p) AS most FROM sales").rows == [(9223372036854775807,)]


def test_texts_stay_texts(tmp_path):
    # An empty field is NULL in a column that takes NULL, and else the text without letters.
    Path(tmp_path, "catalog.txt").write_text("fact n\ncol t text null\ncol u text\ncol v int\n")
    Path(tmp_path, "n.csv").write_bytes(b't,u,v\n007,1,1\n"a,""b""\r\n",,2\n\\N,x,3\n,y,4\n')
    rows = Folder(tmp_path).whole("SELECT t, u, v FROM n ORDER BY v").rows
    assert rows == [("007", "1", 1), ('a,"b"\r\n', "", 2), (None, "x", 3), (None, "y", 4)]


def test_no_rows_is_no_row(sales):
    result = sales.whole("SELECT id FROM sales WHERE q > 99")
    assert len(result) == 0 and list(result) == []


def test_rows_as_dictionaries(sales):
    assert sales.whole("SELECT id, t FROM sales WHERE id < 3 ORDER BY id").to_dicts() == [{"id": 1, "t": "a"}, {"id": 2, "t": "b"}]


def test_rows_as_a_frame(sales):
    pandas = pytest.importorskip("pandas")
    frame = sales.whole("SELECT id, q, t FROM sales ORDER BY id").to_frame()
    assert [str(kind) for kind in frame.dtypes] == ["Int64", "Int64", "string"]
    assert frame["q"].isna().tolist() == [False, True, False, False, False]
    assert frame["t"][3] is pandas.NA and frame["q"].sum() == 7


def test_a_frame_of_integers_beyond_53_bits_is_exact(sales):
    pytest.importorskip("pandas")
    assert int(sales.whole("SELECT p FROM sales WHERE id = 5").to_frame()["p"][0]) == 9223372036854775807


def test_load_counts(sales):
    assert sales.load(rows=2, load=7) == Loaded(rows=5, fragments=3)
    assert Path(sales.path, "sales.2.xcf").exists()


def test_work_and_gather(loaded, tmp_path):
    query = "SELECT COUNT(*) AS n FROM sales"
    answers = [loaded.work(query, k, tmp_path / f"a{k}") for k in range(3)]
    assert loaded.gather(query, [answers[2], answers[0], answers[1], answers[0]]).rows == [(5,)]


def test_a_preview_of_one_fragment(loaded, tmp_path):
    query = "SELECT COUNT(*) AS n FROM sales"
    answer = loaded.work(query, 0, tmp_path / "a0")
    assert loaded.preview(query, [answer]).rows == [(2,)]


def test_a_state_is_gathered_again(loaded, tmp_path):
    query = "SELECT COUNT(*) AS n FROM sales"
    for k in range(2):
        loaded.work(query, k, tmp_path / f"a{k}")
    assert loaded.preview(query, [tmp_path / "a0", tmp_path / "a1"], save=tmp_path / "state").rows == [(4,)]
    assert loaded.gather(query, [tmp_path / "state", loaded.work(query, 2, tmp_path / "a2")]).rows == [(5,)]


def test_a_journal_keeps_what_came(loaded, tmp_path):
    query = "SELECT COUNT(*) AS n FROM sales"
    for k in range(3):
        answer = loaded.work(query, k, tmp_path / "answer")
        seen = loaded.preview(query, [answer], journal=tmp_path / "journal").rows
        answer.unlink()
    assert seen == [(5,)]


def test_files_that_are_passed_over(loaded, tmp_path):
    query = "SELECT COUNT(*) AS n FROM sales"
    other = loaded.work("SELECT SUM(q) FROM sales", 0, tmp_path / "other")
    answers = [loaded.work(query, k, tmp_path / f"a{k}") for k in range(3)]
    result = loaded.gather(query, [other, *answers])
    assert result.rows == [(5,)] and result.passed_over == (PassedOver(6, str(other)),)


def test_explain_names_the_tables(sales):
    text = sales.explain(BY_REGION)
    assert "store" in text and "sales" in text


def test_show_names_the_columns(loaded):
    text = loaded.show("sales.0.xcf")
    assert all(name in text for name in ("id", "s", "q", "p", "t"))


def test_show_gives_rows(loaded):
    assert "3,20,0,9,a" in loaded.show("sales.1.xcf", rows=2)


def test_init_writes_a_catalogue(sales):
    Path(sales.path, "catalog.txt").unlink()
    assert "sales" in sales.init(fact="sales")
    assert sales.whole("SELECT COUNT(*) AS n FROM sales JOIN store ON s = k").rows == [(3,)]


def test_the_fragments_of_a_load(loaded):
    assert loaded.fragments() == (0, 1, 2)


def test_a_result_prints_as_a_table(sales):
    result = sales.whole("SELECT t, SUM(q) AS pieces FROM sales GROUP BY t")
    assert str(result) == "t     pieces\n----  ------\nNULL       4\na          3\nb       NULL"


def test_a_result_without_rows_is_one(sales):
    assert sales.whole("SELECT id FROM sales WHERE id > 9")


def test_a_folder_names_itself(sales):
    assert repr(sales) == f"Folder({sales.path!r})"


def test_before_a_load_there_are_no_fragments(sales):
    with pytest.raises(CannotRead, match="cut.xcl"):
        sales.fragments()
