"""Fills a list of dicts, as `csv.DictReader` gives them, without any other package."""
import csv
import io

import flashfill

SHEET = """Name,City,Label
Ada Byron,London,
Max Planck,Kiel,
Lise Meitner,Graz,
Carl Gauss,Kassel,
"""

rows = list(csv.DictReader(io.StringIO(SHEET)))
learned = flashfill.learn(rows, "Label", examples={0: "Byron (London)", 2: "Meitner (Graz)"})
for row, state in zip(learned.frame, learned.states):
    print(row["Label"], state, sep="\t")

try:
    flashfill.report("sheet,people.csv\ninputs,1\nbegin\n", {})
except flashfill.MissingFile as error:
    print(error)

for row in learned.rule.apply([{"City": "Paris", "Name": "Marie Curie", "Id": 7}]):
    print(row)
