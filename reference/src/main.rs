//! `flashfill`, written a second time: the same words, files, reports, statuses and lines, from the language's definitions alone.
mod arena;
mod build;
mod classes;
mod csv;
mod doubt;
mod guard;
mod hash;
mod least;
mod meet;
mod notation;
mod object;
mod places;
mod profile;
mod reading;
mod report;
mod script;
mod session;
mod sheets;
mod text;
mod text_index;
mod tokens;
mod tree;
mod values;

use csv::Reader;
use report::*;
use script::*;
use sheets::*;
use std::io::{Read, Write};
use tree::*;

/// Bytes of a file.
const LIMIT: usize = 16_777_216;
const USAGE: &str =
    "usage: flashfill replay SESSION or flashfill made N or flashfill apply SESSION PROGRAM SHEET or flashfill keys FILE";

/// a status that is not 0 or 1, and the line on the error stream
struct Stop(u8, String);
type Res<T> = Result<T, Stop>;

fn refused<T>(name: &str, what: impl std::fmt::Display) -> Res<T> {
    Err(Stop(5, format!("flashfill: {name}: {what}")))
}

fn read_file(name: &str) -> Res<Vec<u8>> {
    let fail = |_| Stop(3, format!("flashfill: {name}: cannot be read"));
    let f = std::fs::File::open(name).map_err(fail)?;
    let mut v = Vec::new();
    f.take(LIMIT as u64 + 1).read_to_end(&mut v).map_err(fail)?;
    if v.len() > LIMIT {
        return refused(name, "more than 16777216 bytes");
    }
    Ok(v)
}

fn read_script(name: &str, bytes: &[u8]) -> Res<Script> {
    Script::read(bytes).or_else(|e| match e {
        ScriptError::TooManyRecords => refused(name, "more than 1000 records"),
        ScriptError::NotUtf8(n) => refused(name, format!("record {n} is not UTF-8")),
        ScriptError::BadRecord(n) => refused(name, format!("record {n} is not understood")),
        ScriptError::Again(n) => refused(name, format!("record {n} comes again")),
        ScriptError::MissingSheet => refused(name, "no sheet"),
        ScriptError::MissingInputs => refused(name, "no inputs"),
        ScriptError::MissingBegin => refused(name, "no begin"),
    })
}

fn read_sheet(name: &str, bytes: &[u8], header: bool, inputs: &[u32], output: Option<u32>) -> Res<Sheet> {
    Sheet::read(bytes, header, inputs, output).or_else(|e| match e {
        SheetError::TooManyRows => refused(name, "more than 20000 records"),
        SheetError::NotUtf8 { number, .. } => refused(name, format!("record {number} is not UTF-8")),
    })
}

fn read_tables(session: &str, lines: &[TableLine]) -> Res<Tables> {
    let mut t = Tables::default();
    for l in lines {
        let (number, file, r) = match l {
            TableLine::Table { number, name, file } => (number, file.as_str(), t.add_table(name, &read_file(file)?)),
            TableLine::Key { number, name, columns } => (number, "", t.add_key(name, columns)),
        };
        let line = |what: &str| refused(session, format!("record {number}: {what}"));
        match r {
            Ok(()) => {}
            Err(TableError::TooManyTables) => return line("too many tables"),
            Err(TableError::SameName { .. }) => return line("the name is taken"),
            Err(TableError::NoSuchTable) => return line("no such table"),
            Err(TableError::NoSuchColumn { .. }) => return line("no such column"),
            Err(TableError::TooManyKeys) => return line("too many keys"),
            Err(TableError::NotAKey { row1, row2 }) => return line(&format!("rows {row1} and {row2} agree in the key")),
            Err(TableError::TooManyRows) => return refused(file, "more than 2000 records"),
            Err(TableError::NotUtf8 { number, .. }) => return refused(file, format!("record {number} is not UTF-8")),
        }
    }
    Ok(t)
}

/// The session file and the sheet of `made`.
fn made(n: u32) -> (Vec<u8>, Vec<u8>) {
    let session = b"sheet,made.csv\ninputs,1\noutput,2\nbegin\nprograms\ncount\n".to_vec();
    let mut sheet = Vec::new();
    for i in 1..=n {
        let s = 4 * (i - 1);
        let pat = if i % 10 == 0 {
            "Ul Ul Ul"
        } else if i % 2 == 1 {
            "Ul Ul"
        } else {
            "Ulll Ull"
        };
        let mut j = 0;
        for c in pat.bytes() {
            if c == b' ' {
                sheet.push(b' ');
                continue;
            }
            let l = ((s + j) % 26) as u8;
            j += 1;
            sheet.push(if c == b'U' { b'A' + l } else { b'a' + l });
        }
        sheet.push(b',');
        sheet.extend_from_slice(match i {
            1 => b"Cd",
            2 => b"Ijk",
            _ => b"",
        });
        sheet.push(b'\n');
    }
    (session, sheet)
}

fn open_switch(name: &str, bytes: &[u8], inputs: &[u32], last: tokens::Token) -> Res<Switch> {
    let mut rd = Reader::new(bytes);
    let mut text = Vec::new();
    while let Some(mut r) = rd.next_record() {
        if r.len() == 2 && r[0] == b"switch" {
            text = r.pop().unwrap();
        }
    }
    if text.is_empty() {
        return refused(name, "no switch");
    }
    let s = reading::read_switch(&text, last).or_else(|at| refused(name, format!("switch is wrong at byte {at}")))?;
    for c in &s.cases {
        for l in [Some(c.guard.first), c.guard.second].into_iter().flatten() {
            if !inputs.contains(&l.column) {
                return refused(name, format!("column {} is no input", l.column));
            }
        }
    }
    Ok(s)
}

fn replay(words: &[String]) -> Res<Report> {
    let name = &words[1];
    let script = read_script(name, &read_file(name)?)?;
    let sheet = read_sheet(&script.sheet, &read_file(&script.sheet)?, script.header, &script.inputs, script.output)?;
    let tables = read_tables(name, &script.tables)?;
    Ok(report(&script, sheet, tables))
}

fn run(words: &[String]) -> Res<Report> {
    let w: Vec<&str> = words.iter().map(|s| s.as_str()).collect();
    match w[..] {
        ["replay", s] if !s.is_empty() => replay(words),
        ["made", n] => {
            let ok = !n.is_empty() && n.len() <= 4 && n.bytes().all(|b| b.is_ascii_digit()) && !n.starts_with('0');
            let n: u32 = if ok { n.parse().unwrap() } else { 0 };
            if !(1..=2000).contains(&n) {
                return Err(Stop(2, USAGE.into()));
            }
            let (session, sheet) = made(n);
            let script = read_script("made", &session)?;
            let sheet = read_sheet("made.csv", &sheet, script.header, &script.inputs, script.output)?;
            Ok(report(&script, sheet, Tables::default()))
        }
        ["apply", session, program, sheet] if !session.is_empty() && !program.is_empty() && !sheet.is_empty() => {
            let script = read_script(session, &read_file(session)?)?;
            let s = open_switch(program, &read_file(program)?, &script.inputs, script.settings.profile.last_read)?;
            let sheet = read_sheet(sheet, &read_file(sheet)?, script.header, &script.inputs, None)?;
            let tables = read_tables(session, &script.tables)?;
            let mut r = Report::default();
            for row in 1..=sheet.rows {
                let v = switch_value(&s, row, &sheet, &tables);
                let word: &[u8] = if v.is_some() { b"some" } else { b"none" };
                r.put(&[b"applied", row.to_string().as_bytes(), &v.map_or(Vec::new(), |t| utf8(&t)), word]);
            }
            Ok(r)
        }
        ["keys", file] if !file.is_empty() => {
            let bytes = read_file(file)?;
            let mut t = Tables::default();
            match t.add_table(file, &bytes) {
                Ok(()) => {}
                Err(TableError::TooManyRows) => return refused(file, "more than 2000 records"),
                Err(TableError::NotUtf8 { number, .. }) => return refused(file, format!("record {number} is not UTF-8")),
                Err(_) => unreachable!(),
            }
            let keys = match keys_of(&t.list[0]) {
                Some(keys) => keys,
                None => return refused(file, "more than 32 columns"),
            };
            let mut r = Report::default();
            for k in keys {
                let v: Vec<String> = std::iter::once("key".to_string()).chain(k.iter().map(|c| c.to_string())).collect();
                r.strs(&v.iter().map(|s| s.as_str()).collect::<Vec<_>>());
            }
            Ok(r)
        }
        _ => Err(Stop(2, USAGE.into())),
    }
}

fn work() -> i32 {
    let words: Vec<String> = std::env::args_os().skip(1).map(|w| w.into_string()).collect::<Result<_, _>>().unwrap_or_default();
    match run(&words) {
        Ok(r) => {
            let mut o = std::io::stdout().lock();
            if o.write_all(&r.out).and_then(|_| o.flush()).is_err() {
                eprintln!("flashfill: output cannot be written");
                return 4;
            }
            (r.refusals > 0) as i32
        }
        Err(Stop(status, line)) => {
            eprintln!("{line}");
            status as i32
        }
    }
}

fn main() {
    // deep recursion comes only from dropping long shared lists; give it room
    let status = std::thread::Builder::new().stack_size(256 << 20).spawn(work).unwrap().join().unwrap_or(101);
    std::process::exit(status);
}
