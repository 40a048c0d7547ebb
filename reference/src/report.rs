//! The report of a session, record by record.
use crate::csv::put_record;
use crate::notation::*;
use crate::script::*;
use crate::session::*;
use crate::sheets::*;
use crate::text::*;

pub fn utf8(t: &[char]) -> Vec<u8> {
    let mut v = Vec::new();
    push_utf8(&mut v, t);
    v
}

/// Records, and how many of them are refusals.
#[derive(Default)]
pub struct Report {
    pub out: Vec<u8>,
    pub refusals: usize,
}
impl Report {
    pub fn put(&mut self, fields: &[&[u8]]) {
        if fields[0] == b"refused" {
            self.refusals += 1;
        }
        put_record(&mut self.out, fields);
    }
    pub fn strs(&mut self, fields: &[&str]) {
        let v: Vec<&[u8]> = fields.iter().map(|s| s.as_bytes()).collect();
        self.put(&v);
    }
}

fn do_edit(s: &mut Session, e: &Edit, r: &mut Report) {
    let (kind, row) = match e {
        Edit::Add { row, .. } => ("add", Some(row)),
        Edit::Correct { row, .. } => ("correct", Some(row)),
        Edit::Retract { row } => ("retract", Some(row)),
        Edit::Clear => ("clear", None),
    };
    let row = row.map(|r| r.to_string());
    match (s.edit(e), row) {
        (Ok(()), Some(row)) => r.strs(&["ok", kind, &row]),
        (Ok(()), None) => r.strs(&["ok", kind]),
        (Err(e), row) => r.strs(&["refused", kind, &row.unwrap(), &e.reason()]),
    }
}

/// the answer's text and its state's number: given, sure, doubt, none, none doubt
fn show(s: &mut Session, row: u32) -> (Vec<u8>, usize) {
    if s.branches().is_empty() {
        return (Vec::new(), 3);
    }
    let a = s.answer(row);
    let st = match (a.mark, &a.text) {
        (Mark::Given, _) => 0,
        (Mark::Sure, Some(_)) => 1,
        (Mark::Doubt, Some(_)) => 2,
        (Mark::Sure, None) => 3,
        (Mark::Doubt, None) => 4,
    };
    (a.text.map_or(Vec::new(), |t| utf8(&t)), st)
}
static STATES: [&str; 5] = ["given", "sure", "doubt", "none", "none doubt"];

pub fn report(script: &Script, sheet: Sheet, tables: Tables) -> Report {
    let mut r = Report::default();
    let rows = sheet.rows;
    let opening: Vec<Edit> = sheet
        .given
        .iter()
        .enumerate()
        .filter_map(|(i, t)| t.as_ref().map(|t| Edit::Add { row: i as u32 + 1, text: t.clone() }))
        .collect();
    let mut s = Session::new(script.settings, sheet, tables);
    for e in &opening {
        do_edit(&mut s, e, &mut r);
    }
    s.forget();
    let no_row = |r: &mut Report, kind: &str, row: u32| r.strs(&["refused", kind, &row.to_string(), "no such row"]);
    let put_row = |s: &mut Session, r: &mut Report, row: u32| {
        let (t, st) = show(s, row);
        r.put(&[b"row", row.to_string().as_bytes(), &t, STATES[st].as_bytes()]);
    };
    for e in &script.entries {
        match e {
            Entry::Edit(e) => do_edit(&mut s, e, &mut r),
            Entry::Programs => {
                for (i, b) in s.branches().iter().enumerate() {
                    let (mut g, mut p) = (Vec::new(), Vec::new());
                    match &b.guard {
                        Some(x) => put_guard(&mut g, x),
                        None => g.extend_from_slice(b"else"),
                    }
                    put_program(&mut p, &b.program);
                    r.put(&[b"branch", (i + 1).to_string().as_bytes(), &g, &p]);
                }
            }
            Entry::Switch => {
                let mut v = Vec::new();
                if let Some(x) = s.switch() {
                    put_switch(&mut v, &x);
                }
                r.put(&[b"switch", &v]);
            }
            Entry::Fill => {
                for row in 1..=rows {
                    put_row(&mut s, &mut r, row);
                }
            }
            Entry::Count => {
                let mut n = [0u32; 5];
                for row in 1..=rows {
                    n[show(&mut s, row).1] += 1;
                }
                let v: Vec<String> = n.iter().map(|x| x.to_string()).collect();
                r.strs(&["count", &v[0], &v[1], &v[2], &v[3], &v[4]]);
            }
            Entry::Answer(row) => {
                if *row == 0 || *row > rows {
                    no_row(&mut r, "answer", *row);
                } else {
                    put_row(&mut s, &mut r, *row);
                }
            }
            Entry::Best(b, k) => {
                if *b == 0 || *b as usize > s.branches().len() {
                    r.strs(&["refused", "best", &b.to_string(), "no such branch"]);
                } else {
                    for (i, p) in s.best(*b as usize, *k as usize).iter().enumerate() {
                        let mut v = Vec::new();
                        put_program(&mut v, p);
                        r.put(&[b"best", b.to_string().as_bytes(), (i + 1).to_string().as_bytes(), &v]);
                    }
                }
            }
            Entry::Object(row) => {
                let n = row.to_string();
                if *row == 0 || *row > rows {
                    no_row(&mut r, "object", *row);
                } else {
                    match s.object(*row) {
                        None => r.strs(&["object", &n, "", "", "agreed"]),
                        Some((p, t)) => {
                            let mut v = Vec::new();
                            put_program(&mut v, &p);
                            let word: &[u8] = if t.is_some() { b"some" } else { b"none" };
                            r.put(&[b"object", n.as_bytes(), &v, &t.map_or(Vec::new(), |t| utf8(&t)), word]);
                        }
                    }
                }
            }
            Entry::Undo | Entry::Redo => {
                let (word, done) = if *e == Entry::Undo { ("undo", s.undo()) } else { ("redo", s.redo()) };
                match done {
                    None => r.strs(&["refused", word, &format!("nothing to {word}")]),
                    Some(d) if d.kind == "clear" => r.strs(&["ok", word, "clear"]),
                    Some(d) => r.strs(&["ok", word, d.kind, &d.row.to_string()]),
                }
            }
        }
    }
    // the process ends soon
    std::mem::forget(s);
    r
}
