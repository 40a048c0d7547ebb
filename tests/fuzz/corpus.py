#!/usr/bin/env python3
"""corpus.py FOLDER: writes inputs for the fuzzer: requests with the examples' sessions, sheets, rules and streams, cases of the notation,
and a few bytes that are no request. The corpus in the tree is what this writes."""
import os
import sys

ROOT = os.path.join(os.path.dirname(os.path.realpath(__file__)), "..", "..")
NOTATION = "Switch(!Match(1,[Digits],1)&Match(1,[Upper Lower],2)=>Concat(Sub(Col(1),Pos([Space],[],1),CPos(-1)),Const('\\'x'));else=>Concat(Whole(Select(2,1,1,Whole(Col(1))))))"


def example(name):
    with open(os.path.join(ROOT, "examples", name), "rb") as file:
        return file.read()


def made(program, words, files):
    texts = [program.encode(), "\n".join(words).encode()]
    for name, text in files.items():
        texts += [name.encode(), text]
    return b"\n--\n".join(texts)


def inputs():
    for name, more in (("people", []), ("dates", ["months.csv"]), ("orders", ["prices.csv", "items.csv"]), ("phones", [])):
        names = [f"{name}-session.csv", f"{name}.csv", *more]
        yield f"replay-{name}", made("flashfill", ["replay", names[0]], {it: example(it) for it in names})
    names = ["phones-session.csv", "phones-report.csv", "more-phones.csv"]
    yield "apply", made("flashfill", ["apply", *names], {it: example(it) for it in names})
    session = b"sheet,t.csv\ninputs,1\ntable,t,t.csv\nkey,t,1\nprofile,2\ndepth,3\nbegin\n"
    report = b'switch,"' + NOTATION.replace('"', '""').encode() + b'"\n'
    yield "notation", made("flashfill", ["apply", "s", "p", "t.csv"], {"s": session, "p": report, "t.csv": b"a 1,b\nc,d\n"})
    yield "keys", made("flashfill", ["keys", "prices.csv"], {"prices.csv": example("prices.csv")})
    edits = b"sheet,t.csv\ninputs,1\nconstants,separators\nbegin\nadd,1,a\ncorrect,1,1\nretract,1\nclear\nundo\nundo\nredo\nprograms\nswitch\nfill\ncount\nbest,1,20\nobject,2\nanswer,9\n"
    yield "edits", made("flashfill", ["replay", "s"], {"s": edits, "t.csv": b'a 1\r\n"b ""2"\r\xc3\xa9\n'})
    people = {"people.csv": example("people.csv")}
    yield "fill", made("fillcsv", ["people.csv", "--to", "Label", "--from", "Name,City", "--state", "--explain"], people)
    yield "fill-new", made("fillcsv", ["people.csv", "--new", "I", "--example", "2=AB", "--only", "sure", "--strict", "--profile", "2"], people)
    yield "ask", made("fillcsv", ["people.csv", "--to", "Label", "--ask"], {**people, "-": b"2\n\nu\ns\n-\n=2\nq\n"})
    words = ["sales.csv", "--to", "Month", "--table", "months=months.csv", "--key", "months:1", "--save-rule", "r"]
    yield "fill-table", made("fillcsv", words, {it: example(it) for it in ("sales.csv", "months.csv")})
    yield "rule", made("fillcsv", ["--rule", "label.rule"], {"label.rule": example("label.rule"), "-": example("more-people.csv")})
    files = {"month.rule": example("month.rule"), "months.csv": example("months.csv"), "-": example("more-sales.csv")}
    yield "rule-table", made("fillcsv", ["--rule", "month.rule"], files)
    yield "no-request", b"\x00\x09" + b"\x00" * 7 + b"flashfill" + b"\x01" + b"\x00" * 7 + b"\xff" * 8


def main():
    if len(sys.argv) != 2:
        sys.exit(__doc__)
    for name, text in inputs():
        with open(os.path.join(sys.argv[1], name), "wb") as file:
            file.write(text)


main()
