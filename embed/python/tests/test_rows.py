"""What needs no other package: lists of dicts, rules on `csv` readers, errors, warnings, threads and their stacks."""
import csv
import datetime
import io
import pathlib
import pickle
import tempfile
import threading
import unittest
import warnings
from unittest import mock

import flashfill
from flashfill import engine, told
from flashfill.cells import cells_of, records_of, texts_of

EXAMPLES = pathlib.Path(__file__).resolve().parents[3] / "examples"
SETTLED = {3: "Noether (Erlangen)"}


def rows_of(name):
    with open(EXAMPLES / name, newline="", encoding="utf-8") as file:
        return list(csv.DictReader(file))


def label_rule():
    return flashfill.learn(rows_of("people.csv"), "Label", SETTLED, ["Name", "City"]).rule


def months():
    with open(EXAMPLES / "months.csv", newline="", encoding="utf-8") as file:
        return [{"no": no, "name": name} for no, name in csv.reader(file)]


class Learning(unittest.TestCase):
    def test_people_are_filled_as_the_examples_have_them(self):
        rows = rows_of("people.csv")
        learned = flashfill.learn(rows, "Label", sources=["Name", "City"])
        wanted = rows_of("people-filled.csv")
        self.assertEqual([it["Label"] for it in learned.frame], [it["Label"] for it in wanted])
        self.assertEqual(learned.states, [it["Label state"] for it in wanted])
        self.assertEqual((learned.next, learned.refused, learned.counts["sure"]), (3, {}, 2))
        (doubt,) = learned.doubts
        self.assertEqual((doubt["row"], doubt["answer"], doubt["other"]), (3, "A Noether (Erlangen)", "Noether (Erlangen)"))
        self.assertEqual(doubt["rule"], 'Name after the first space, " (", City, ")"')
        self.assertIn("Name from the last block", doubt["other_rule"])
        self.assertEqual(rows, rows_of("people.csv"))

    def test_a_correction_goes_on(self):
        first = flashfill.learn(rows_of("people.csv"), "Label", sources=["Name", "City"])
        then = first.correct(SETTLED)
        self.assertEqual(then.states, ["given", "sure", "given", "given", "sure", "none"])
        self.assertEqual((then.doubts, then.next, then.rule), ([], None, label_rule()))
        self.assertEqual(then.correct({3: "E. Noether"}).frame[3]["Label"], "E. Noether")
        self.assertEqual(first.frame[3]["Label"], "A Noether (Erlangen)")

    def test_more_doubts_than_the_program_tells(self):
        rows = [{"Name": "Ada Byron"}, *({"Name": f"Ada {letter} By-ron"} for letter in "ABCDEFGHIJKLMNOPQRSTUVWXYZ")]
        learned = flashfill.learn(rows, "Last", {0: "Byron"})
        self.assertEqual(learned.states, ["given", *["doubt"] * 26])
        self.assertEqual([(it["row"], it["answer"]) for it in learned.doubts], [(at, it["Last"]) for at, it in enumerate(learned.frame)][1:])
        self.assertTrue(all(it["other"] not in (None, it["answer"]) and it["other_rule"] for it in learned.doubts))

    def test_doubts_above_the_examples(self):
        (doubt,) = flashfill.learn([{"Name": "Max A Planck"}, {"Name": "Ada Byron"}], "Last", {1: "Byron"}).doubts
        self.assertEqual((doubt["row"], doubt["answer"], doubt["other"]), (0, "A Planck", "Planck"))

    def test_an_example_can_say_that_a_cell_stays_empty(self):
        learned = flashfill.learn(rows_of("people.csv"), "Label", {5: ""}, ["Name", "City"])
        self.assertEqual((learned.states[5], learned.frame[5]["Label"]), ("given", ""))

    def test_what_no_rule_explains_is_refused(self):
        rows = [{"a": "x", "b": "1"}, {"a": "x", "b": "2"}, {"a": "y", "b": ""}]
        with self.assertWarns(flashfill.NotLearnedWarning) as caught:
            learned = flashfill.learn(rows, "b")
        self.assertEqual((list(learned.refused), caught.warning.rows), ([1], (1,)))
        self.assertEqual(caught.filename, __file__)
        self.assertEqual([it["b"] for it in learned.frame[:2]], ["1", "2"])

    def test_guesses_are_warned_of(self):
        with self.assertWarns(flashfill.DoubtWarning) as caught:
            flashfill.fill(rows_of("people.csv"), "Label", sources=["Name", "City"])
        self.assertEqual((caught.warning.rows, caught.filename), ((3,), __file__))
        with warnings.catch_warnings():
            warnings.simplefilter("error")
            filled = flashfill.fill(rows_of("people.csv"), "Label", sources=["Name", "City"], only_sure=True)
        self.assertEqual([it["Label"] for it in filled[3:]], ["", "Gauss (Kassel)", ""])

    def test_tables_with_keys_and_without(self):
        wanted = [it["Month"] for it in rows_of("sales-filled.csv")]
        for keys in (None, {"months": ["no"]}, {"months": [["no"]]}):
            learned = flashfill.learn(rows_of("sales.csv"), "Month", tables={"months": months()}, keys=keys)
            self.assertEqual([it["Month"] for it in learned.frame], wanted)

    def test_replace(self):
        rows = [{"Name": "Ada Byron", "Last": "x"}, {"Name": "Max Planck", "Last": "y"}]
        learned = flashfill.learn(rows, "Last", {0: "Byron"}, replace=True)
        self.assertEqual([it["Last"] for it in learned.frame], ["Byron", "Planck"])


class Kinds(unittest.TestCase):
    def test_the_rule_for_texts(self):
        day, time = datetime.date(2012, 3, 11), datetime.datetime(2012, 3, 11, 9, 30)
        self.assertEqual(texts_of(["a", 7, 7.0, 0.5, True, None, float("nan"), day]), ["a", "7", "7", "0.5", "True", "", "", "2012-03-11"])
        self.assertEqual(texts_of([time, time.replace(hour=0, minute=0)]), ["2012-03-11 09:30:00", "2012-03-11 00:00:00"])
        self.assertEqual(texts_of([time.replace(hour=0, minute=0)]), ["2012-03-11"])
        self.assertEqual(texts_of([time], lambda it: it.strftime("%d.%m.%Y")), ["11.03.2012"])

    def test_answers_come_back_as_what_was_given(self):
        rows = [{"Code": "a-12", "N": 12}, {"Code": "b-7", "N": None}, {"Code": "c-300", "N": ""}]
        self.assertEqual([it["N"] for it in flashfill.learn(rows, "N").frame], [12, 7, 300])
        rows = [{"Text": "on 2012-03-11!", "Day": datetime.date(2012, 3, 11)}, {"Text": "on 1999-07-30!", "Day": None}]
        self.assertEqual(flashfill.learn(rows, "Day").frame[1]["Day"], datetime.date(1999, 7, 30))
        rows = [{"Code": "a-12", "N": 12}, {"Code": "b-x", "N": None}]
        self.assertEqual(flashfill.learn(rows, "N").frame[1]["N"], "x")
        self.assertIsNone(cells_of(["12345678901234567891"], [0.5]), "digits would be lost")

    def test_names_and_cells_of_any_form(self):
        for names in (["2", "1"], ["-x", "a,b"], ["", " "], [0, 1], [("a", 1), None], ['"', "\n"], ["--to", "1"]):
            rows = [dict(zip(names, it)) for it in (("Ada Byron", ""), ("Max Planck", ""))]
            self.assertEqual(flashfill.learn(rows, names[1], {0: "Byron"}, names[:1]).frame[1][names[1]], "Planck")
        texts = ["a\nb", 'say "x", y', "c\r\nd", "\r", "z\0z", "-", "=1+1", "é\u2028\U0001f600", " "]
        rows = [{"Text": it} for it in texts]
        self.assertEqual([it["Copy"] for it in flashfill.learn(rows, "Copy", {0: "a\nb"}).frame], texts)

    def test_long_cells(self):
        long = "x" * 200_000 + '",\n'
        rule = flashfill.learn([{"Name": "Ada Byron"}, {"Name": "Max Planck"}], "Last", {0: "Byron"}).rule
        self.assertEqual([it["Last"] for it in rule.apply([{"Name": f"Ada {long}"}, {"Name": "Max Planck"}])], [long, "Planck"])
        self.assertEqual(records_of(f'a,"{long[:-3]}"",\n"\n"",\n'.encode()), [["a", long], ["", ""]])


class Rules(unittest.TestCase):
    def test_a_rule_is_what_the_program_saves(self):
        learned = flashfill.learn(rows_of("sales.csv"), "Month", tables={"months": months()}, keys={"months": ["no"]})
        self.assertEqual(learned.rule.text, (EXAMPLES / "month.rule").read_bytes())
        again = flashfill.Rule((EXAMPLES / "label.rule").read_bytes())
        self.assertEqual((again.sources, again.to), (["Name", "City"], "Label"))
        wanted = [it["Label"] for it in rows_of("more-people-filled.csv")]
        self.assertEqual([it["Label"] or "" for it in again.apply(rows_of("more-people.csv"))], wanted)

    def test_pickle_equality_file(self):
        rule = label_rule()
        again = pickle.loads(pickle.dumps(rule))
        self.assertEqual((again, hash(again), again.explain()), (rule, hash(rule), rule.explain()))
        with tempfile.TemporaryDirectory() as folder:
            rule.save(f"{folder}/label.rule")
            self.assertEqual(flashfill.Rule.load(pathlib.Path(folder, "label.rule")), rule)
        self.assertNotEqual(rule, flashfill.Rule((EXAMPLES / "label.rule").read_bytes().replace(b"' ('", b"' ['")))

    def test_a_rule_with_a_table_is_saved_with_it(self):
        rule = flashfill.learn(rows_of("sales.csv"), "Month", tables={"months": months()}).rule
        with tempfile.TemporaryDirectory() as folder:
            rule.save(f"{folder}/month.rule")
            again = flashfill.Rule.load(f"{folder}/month.rule")
            wanted = [it["Month"] for it in rows_of("more-sales-filled.csv")]
            self.assertEqual([it["Month"] for it in again.apply(rows_of("more-sales.csv"))], wanted)
            pathlib.Path(folder, "months.csv").write_text("mine")
            self.assertRaises(FileExistsError, rule.save, f"{folder}/month.rule")
            self.assertEqual(pathlib.Path(folder, "months.csv").read_text(), "mine")

    def test_csv_readers_are_filled_piece_by_piece(self):
        rule, text = label_rule(), (EXAMPLES / "more-people.csv").read_text()
        wanted = (EXAMPLES / "more-people-filled.csv").read_bytes()
        self.assertEqual(list(rule.apply(csv.reader(io.StringIO(text)))), records_of(wanted))
        self.assertEqual(list(rule.apply(csv.DictReader(io.StringIO(text)))), rule.apply(rows_of("more-people.csv")))
        self.assertEqual(list(rule.apply(csv.reader(io.StringIO("City,Name\n")))), [["City", "Name", "Label"]])
        self.assertEqual((list(rule.apply(iter([]))), rule.apply([])), ([], []))
        done = []
        many = ({"Name": f"Ada N{it}", "City": "Bonn"} for it in range(240))
        with mock.patch("flashfill.rule.CHUNK", 100):
            last = list(rule.apply(many, progress=done.append))[-1]
        self.assertEqual((last["Label"], done), ("N239 (Bonn)", [100, 100, 40]))

    def test_pieces_keep_their_order(self):
        rows, done = [{"Name": f"Ada N{it}", "City": "Bonn" if it % 7 else ""} for it in range(1000)], []
        with mock.patch("flashfill.rule.CHUNK", 30):
            new = label_rule().apply(rows, progress=done.append)
        self.assertEqual([it["Label"] or "" for it in new], [f"N{it} (Bonn)" if it % 7 else "" for it in range(1000)])
        self.assertEqual(done, [*[30] * 33, 10])

    def test_progress_without_a_bar(self):
        with mock.patch.dict("sys.modules", {"tqdm.auto": None}), mock.patch("sys.stderr", io.StringIO()) as err:
            label_rule().apply(rows_of("more-people.csv"), progress=True)
        self.assertEqual(err.getvalue(), "5 of 5 rows\n")

    def test_filled_cells_stay(self):
        rows = [{"Name": "Marie Curie", "City": "Paris", "Label": "mine"}, {"Name": "Kurt Gödel", "City": "Brno", "Label": ""}]
        self.assertEqual([it["Label"] for it in label_rule()(rows)], ["mine", "Gödel (Brno)"])


class Errors(unittest.TestCase):
    def test_errors_have_the_programs_line(self):
        with self.assertRaisesRegex(flashfill.MissingFile, "^flashfill: people.csv: cannot be read$") as caught:
            flashfill.report("sheet,people.csv\ninputs,1\nbegin\n", {})
        self.assertEqual((caught.exception.status, isinstance(caught.exception, LookupError)), (3, True))
        with self.assertRaisesRegex(flashfill.RefusedFile, 'more than 8 columns to read'):
            flashfill.learn([{str(it): "a" for it in range(11)}], "0", {0: "b"}, [str(it) for it in range(1, 10)])
        self.assertRaises(flashfill.WrongWords, flashfill.learn, rows_of("people.csv"), "Label", profile=9)
        self.assertRaises(flashfill.WrongWords, flashfill.run("neither", [], {}).checked)
        again = pickle.loads(pickle.dumps(flashfill.RefusedFile(5, "a line", (7,))))
        self.assertEqual((str(again), again.status, again.rows), ("a line", 5, (7,)))

    def test_errors_name_rows(self):
        table = [{"no": "1", "name": "a"}, {"no": "1", "name": "b"}]
        with self.assertRaisesRegex(flashfill.RefusedFile, "agree in the key") as caught:
            flashfill.learn(rows_of("sales.csv"), "Month", tables={"months": table}, keys={"months": ["no"]})
        self.assertEqual(caught.exception.rows, (1, 2))
        with self.assertRaises(flashfill.RefusedFile) as caught:
            flashfill.learn([{"a": "x"}, {"a": "\ud800"}], "b", {0: "x"})
        self.assertEqual(caught.exception.rows, (1,))

    def test_wrong_calls(self):
        rows = rows_of("people.csv")
        for error, call in [
            (KeyError, lambda: flashfill.fill(rows, "Label", {6: "x"})),
            (KeyError, lambda: flashfill.fill(rows, "Label", sources=["Nome"])),
            (KeyError, lambda: label_rule().apply([{"Name": "Ada Byron"}])),
            (ValueError, lambda: flashfill.fill([], "Label")),
            (ValueError, lambda: flashfill.fill([{"1": "a", 1: "b"}], "Label", {0: "x"})),
            (TypeError, lambda: flashfill.fill("people.csv", "Label")),
            (flashfill.RefusedFile, lambda: flashfill.Rule(b"x")),
            (flashfill.RefusedFile, lambda: flashfill.Rule(b"\xff")),
        ]:
            self.assertRaises(error, call)

    def test_lines_that_are_not_understood_are_warned_of(self):
        self.assertEqual(told.told_by(b"fillcsv: 1 given, 0 sure\nfillcsv: something new\n").rest, ("something new",))
        with self.assertWarnsRegex(flashfill.FlashFillWarning, "nothing to learn from"):
            self.assertIsNone(flashfill.learn([{"a": "x"}], "b").rule)


class Threads(unittest.TestCase):
    def test_eight_at_once(self):
        found = []
        wanted = [it["Label"] for it in rows_of("people-filled.csv")]

        def learn():
            found.append(flashfill.learn(rows_of("people.csv"), "Label", sources=["Name", "City"]))

        work = [threading.Thread(target=learn) for _ in range(8)]
        for it in work:
            it.start()
        for it in work:
            it.join()
        self.assertEqual([[row["Label"] for row in it.frame] for it in found], [wanted] * 8)

    def small(self, size, work):
        """What work gives in a thread with a small stack, which all threads have that Python starts meanwhile."""
        found = []
        before = threading.stack_size(size)
        try:
            thread = threading.Thread(target=lambda: found.append(work()))
            thread.start()
            thread.join()
            self.assertEqual(threading.stack_size(), size)
        finally:
            threading.stack_size(before)
        return found

    def test_threads_with_a_small_stack(self):
        self.assertEqual(self.small(64 << 10, lambda: flashfill.run("flashfill", ["replay", "s"], session()).status), [0])
        with mock.patch("flashfill.rule.CHUNK", 2):
            made = self.small(256 << 10, lambda: label_rule().apply(rows_of("more-people.csv")))
        self.assertEqual([[it["Label"] or "" for it in rows] for rows in made], [[it["Label"] for it in rows_of("more-people-filled.csv")]])

    def test_the_lock_is_released(self):
        """The engine learns from long cells, which takes a while, and Python goes on meanwhile."""
        rows = [{"a": "".join(chr(97 + at * (it + 3) % 26) for at in range(90)), "b": ""} for it in range(20)]
        work = threading.Thread(target=lambda: flashfill.learn(rows, "b", {0: rows[0]["a"][3:40], 1: rows[1]["a"][3:40]}))
        work.start()
        steps = 0
        while work.is_alive():
            steps += 1
        self.assertGreater(steps, 1000)


def session():
    files = {it.name: it.read_bytes() for it in EXAMPLES.glob("*.csv")}
    return {**files, "s": files["dates-session.csv"]}


class Sessions(unittest.TestCase):
    def test_reports_are_those_of_the_examples(self):
        files = {it.name: it.read_bytes() for it in EXAMPLES.glob("*.csv")}
        for name in [it for it in files if it.endswith("-session.csv")]:
            wanted = files[name.replace("-session", "-report")].decode()
            self.assertEqual(engine.report(files[name], files), wanted)


if __name__ == "__main__":
    unittest.main()
