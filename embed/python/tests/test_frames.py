"""Data frames of pandas: labels, kinds of columns, names, what is shown, and frames of others by `__dataframe__`."""
import datetime
import io
import pathlib
import pickle
import warnings

import numpy
import pandas
import pytest

import flashfill

EXAMPLES = pathlib.Path(__file__).resolve().parents[3] / "examples"
SETTLED = {3: "Noether (Erlangen)"}
LABELS = ["Byron (London)", "Planck (Kiel)", "Meitner (Graz)", "Noether (Erlangen)", "Gauss (Kassel)"]


def people():
    return pandas.read_csv(EXAMPLES / "people.csv")


def filled(*words, **how):
    """A filled copy; guesses are not told of."""
    with warnings.catch_warnings():
        warnings.simplefilter("ignore", flashfill.DoubtWarning)
        return flashfill.fill(*words, **how)


def test_people():
    frame = people()
    learned = flashfill.learn(frame, "Label", sources=["Name", "City"])
    wanted = pandas.read_csv(EXAMPLES / "people-filled.csv", keep_default_na=False)
    assert learned.frame["Label"].fillna("").tolist() == wanted["Label"].tolist()
    assert learned.states.tolist() == wanted["Label state"].tolist() and learned.states.name == "Label state"
    assert learned.doubts.index.tolist() == [3] and learned.next == 3
    assert learned.doubts.loc[3, ["answer", "other"]].tolist() == ["A Noether (Erlangen)", "Noether (Erlangen)"]
    assert frame.equals(people()) and learned.frame.drop(columns="Label").equals(frame.drop(columns="Label"))


def test_correct():
    learned = flashfill.learn(people(), "Label", sources=["Name", "City"]).correct(SETTLED)
    assert learned.frame["Label"].tolist()[:5] == LABELS and learned.doubts.empty and learned.next is None
    assert learned.doubts.columns.tolist() == ["answer", "other", "rule", "other_rule"]


def test_examples_go_by_labels():
    by_mail = people().set_index("Mail")
    new = filled(by_mail, "Label", {"emmy.n@ring.de": "Noether (Erlangen)"}, ["Name", "City"])
    assert new["Label"].tolist()[:5] == LABELS and new.index.equals(by_mail.index)
    shuffled = people().sample(frac=1, random_state=3)
    assert filled(shuffled, "Label", SETTLED, ["Name", "City"])["Label"].sort_index().tolist()[:5] == LABELS
    days = people().set_index(pandas.date_range("2020-01-01", periods=6))
    assert filled(days, "Label", {days.index[3]: LABELS[3]}, ["Name", "City"])["Label"].tolist()[:5] == LABELS
    two = people().set_index(["Name", "Mail"], drop=False)
    assert filled(two, "Label", {two.index[3]: LABELS[3]}, ["Name", "City"])["Label"].tolist()[:5] == LABELS


@pytest.mark.parametrize("label", ["nobody", "2020", 3.5, None])
def test_labels_that_name_no_row(label):
    frame = people().set_index(pandas.date_range("2020-01-01", periods=6)) if label == "2020" else people()
    with pytest.raises(KeyError):
        flashfill.fill(frame, "Label", {label: "x"})


def test_labels_that_are_there_twice():
    frame = pandas.concat([people(), people()])
    with pytest.raises(ValueError, match="reset_index"):
        flashfill.learn(frame, "Label")
    rule = flashfill.learn(people(), "Label", SETTLED, ["Name", "City"]).rule
    assert rule.apply(frame)["Label"].tolist()[6:11] == LABELS


def test_what_is_to_fill():
    frame = pandas.DataFrame({"Code": ["a-12", "b-7", "c-300", "d-1", "e-2"], "N": ["12", None, float("nan"), pandas.NA, ""]})
    assert filled(frame, "N")["N"].tolist() == ["12", "7", "300", "1", "2"]
    zeros = pandas.DataFrame({"Code": ["a-12", "b-0", "c-0.0"], "N": [12, None, None]})
    assert filled(zeros, "N")["N"].tolist() == [12, 0, 0]
    days = pandas.DataFrame({"Text": ["on 2012-03-11!", "on 1999-07-30!"], "Day": [pandas.Timestamp("2012-03-11"), pandas.NaT]})
    assert filled(days, "Day")["Day"].tolist() == [pandas.Timestamp("2012-03-11"), pandas.Timestamp("1999-07-30")]


@pytest.mark.parametrize("dtype", ["float64", "float32", "Float64", "Int64", "Int16"])
def test_numbers_come_back_as_numbers(dtype):
    frame = pandas.DataFrame({"Code": ["a-12", "b-7", "c-300"], "N": pandas.Series([12, None, None], dtype=dtype)})
    new = filled(frame, "N")["N"]
    assert new.tolist() == [12, 7, 300] and new.dtype == dtype
    frame.loc[2, "Code"] = "c-x"
    assert filled(frame, "N")["N"].tolist() == [12, "7", "x"]


def test_numbers_and_dates_are_read_as_texts():
    frame = pandas.DataFrame({
        "When": pandas.to_datetime(["2012-03-11", "1999-07-30", "2020-12-24"]), "Id": [7.0, 12.0, numpy.nan],
        "N": pandas.array([1, None, 3], "Int64"), "F": numpy.array([0.1, 2, 3], "float32"), "C": pandas.Categorical(["a", "b", "a"]),
        "B": pandas.array([True, None, False], "boolean"), "T": pandas.array(["x", None, "z"], "string"),
    })
    for column, text in [("When", "2012-03-11"), ("Id", "7"), ("N", "1"), ("F", "0.1"), ("C", "a"), ("B", "True"), ("T", "x")]:
        learned = flashfill.learn(frame, "New", {0: text}, [column])
        assert learned.frame["New"][0] == text and learned.rule.sources == [column]
        assert learned.rule.switch.count("Const") == 0 or text in "a1x7"
    shown = filled(frame, "D", {0: "11.03.2012"}, ["When"], formats={"When": lambda it: it.strftime("%d.%m.%Y")})
    assert shown["D"].tolist() == ["11.03.2012", "30.07.1999", "24.12.2020"]
    times = pandas.DataFrame({"When": pandas.to_datetime(["2012-03-11 09:30", "1999-07-30"])})
    assert filled(times, "Hour", {0: "09"}, ["When"])["Hour"].tolist() == ["09", "00"]


def test_texts_keep_their_dtype():
    frame = pandas.DataFrame({"Name": ["Ada Byron", "Max Planck", "Lise Meitner"]})
    for dtype in ("string", "category", object):
        frame["Last"] = pandas.Series(["Byron", None, None], dtype=dtype)
        new = filled(frame, "Last")["Last"]
        assert new.tolist() == ["Byron", "Planck", "Meitner"]
        assert isinstance(new.dtype, type(frame["Last"].dtype))
    frame["Last"] = pandas.Categorical(["Byron", None, None], ordered=True)
    assert filled(frame, "Last")["Last"].tolist() == ["Byron", "Planck", "Meitner"]


def test_an_empty_column_of_a_file():
    frame = pandas.read_csv(io.StringIO("Name,Last,N\nAda Byron 12,,\nMax Planck 7,,\n"))
    assert frame["Last"].dtype == float
    assert filled(frame, "Last", {0: "Byron"}, ["Name"])["Last"].tolist() == ["Byron", "Planck"]
    assert filled(frame, "N", {0: 12}, ["Name"])["N"].tolist() == [12, 7]


def test_truth_values_and_days_in_object_columns():
    frame = pandas.DataFrame({"Text": ["is True", "is False"], "Is": [True, None]})
    assert filled(frame, "Is")["Is"].tolist() == [True, False]
    frame = pandas.DataFrame({"Text": ["on 2012-03-11!", "on 1999-07-30!"], "Day": [datetime.date(2012, 3, 11), None]})
    assert filled(frame, "Day")["Day"].tolist() == [datetime.date(2012, 3, 11), datetime.date(1999, 7, 30)]


NAMES = [[0, 1], ["2", "1"], ["-x", "a,b"], ["", " "], [("a", 1), ("b", 2)], [None, "x"], [datetime.date(2012, 3, 11), 2.5]]


@pytest.mark.parametrize("names", NAMES)
def test_names_of_columns(names):
    frame = pandas.DataFrame({"a": ["Ada Byron", "Max Planck"], "b": ["Byron", None]})
    frame.columns = pandas.Index(names, dtype=object, tupleize_cols=False)
    learned = flashfill.learn(frame, names[1])
    assert learned.frame.iloc[:, 1].tolist() == ["Byron", "Planck"] and learned.frame.columns.equals(frame.columns)
    assert learned.rule.apply(frame).iloc[:, 1].tolist() == ["Byron", "Planck"]


def test_columns_on_two_levels_and_with_one_name():
    frame = pandas.DataFrame([["Ada Byron", None], ["Max Planck", None]], columns=pandas.MultiIndex.from_tuples([("a", "x"), ("a", "y")]))
    assert filled(frame, ("a", "y"), {0: "Byron"})[("a", "y")].tolist() == ["Byron", "Planck"]
    frame.columns = ["a", "a"]
    with pytest.raises(ValueError, match="more than one column"):
        flashfill.fill(frame, "new", {0: "x"})
    assert filled(frame.assign(b="c d"), "new", {0: "d"}, ["b"])["new"].tolist() == ["d", "d"]


def test_rules_on_frames_and_series():
    rule = flashfill.learn(people(), "Label", SETTLED, ["Name", "City"]).rule
    more = pandas.DataFrame({"City": ["Paris", None], "Name": ["Marie Curie", "Kurt Gödel"]}, index=[10, 20])
    again = pickle.loads(pickle.dumps(rule))
    new = again(more)["Label"].tolist()
    assert new[0] == "Curie (Paris)" and new[1] != new[1], "NaN if there is no answer"
    more["Label"] = [None, "mine"]
    assert rule.apply(more)["Label"].tolist() == ["Curie (Paris)", "mine"]
    assert rule.apply(more.iloc[:0]).columns.tolist() == ["City", "Name", "Label"]
    with pytest.raises(KeyError, match="City"):
        rule.apply(more.drop(columns="City"))
    last = flashfill.learn(people(), "Last", {0: "Byron"}, ["Name"]).rule
    series = last.apply(pandas.Series(["Marie Curie", None], index=["x", "y"], name="Who"))
    assert series.name == "Last" and series.index.tolist() == ["x", "y"] and series["x"] == "Curie" and series.isna()["y"]
    with pytest.raises(TypeError):
        rule.apply(pandas.Series(["Marie Curie"]))


def test_tables_are_frames():
    months = pandas.read_csv(EXAMPLES / "months.csv", names=["no", "name"], dtype=str)
    sales, wanted = pandas.read_csv(EXAMPLES / "sales.csv"), pandas.read_csv(EXAMPLES / "sales-filled.csv")
    assert filled(sales, "Month", tables={"months": months}, keys={"months": ["no"]})["Month"].tolist() == wanted["Month"].tolist()


def test_what_jupyter_shows():
    learned = flashfill.learn(people(), "Label", sources=["Name", "City"])
    shown = learned._repr_html_()
    assert "Noether (Erlangen)" in shown and shown.count("background:#ffe8a3") == 1 and shown.count("<tr>") == 7
    evil = pandas.DataFrame({"<b>": ["<script>x", "<script>y y"], "to": ["x", None]})
    assert "<script" not in flashfill.learn(evil, "to")._repr_html_() and "<b>," not in repr(learned)
    many = pandas.DataFrame({"Name": [f"Ada N{it}" for it in range(50)]})
    assert "and 30 rows more" in flashfill.learn(many, "Last", {0: "N0"})._repr_html_()


class Other:
    """A frame of another package, of which only the interchange is known."""

    def __init__(self, frame):
        self._frame = frame

    def __dataframe__(self, nan_as_null=False, allow_copy=True):
        return self._frame.__dataframe__(nan_as_null, allow_copy)


def test_frames_of_others():
    new = filled(Other(people()), "Label", SETTLED, ["Name", "City"])
    assert new["Label"].tolist()[:5] == LABELS and new["Label"].isna()[5]
    rule = flashfill.learn(people(), "Label", SETTLED, ["Name", "City"]).rule
    assert rule.apply(Other(people()))["Label"].tolist()[:5] == LABELS


def test_progress(capsys, monkeypatch):
    monkeypatch.setattr("flashfill.rule.CHUNK", 100)
    rule = flashfill.learn(people(), "Label", SETTLED, ["Name", "City"]).rule
    frame = pandas.DataFrame({"Name": [f"Ada N{it}" for it in range(240)], "City": "Bonn"})
    done = []
    assert rule.apply(frame, progress=done.append)["Label"].iloc[-1] == "N239 (Bonn)" and done == [100, 100, 40]
    rule.apply(frame, progress=True)
    assert "240" in capsys.readouterr().err
