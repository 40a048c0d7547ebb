//! Session files.
use crate::csv::Reader;
use crate::profile::Profile;
use crate::text::{text, Text};
use crate::tree::Settings;

#[derive(Clone, Debug, PartialEq)]
pub enum Edit {
    Add { row: u32, text: Text },
    Correct { row: u32, text: Text },
    Retract { row: u32 },
    Clear,
}
#[derive(Debug, PartialEq)]
pub enum Entry {
    Edit(Edit),
    Programs,
    Switch,
    Fill,
    Count,
    Answer(u32),
    Best(u32, u32),
    Object(u32),
    Undo,
    Redo,
}
#[derive(Debug, PartialEq)]
pub enum TableLine {
    Table { number: u32, name: String, file: String },
    Key { number: u32, name: String, columns: Vec<u32> },
}
/// Lines of a session file.
const MOST_LINES: u32 = 1_000;

/// What a session file says.
pub struct Script {
    pub sheet: String,
    pub header: bool,
    pub inputs: Vec<u32>,
    pub output: Option<u32>,
    pub tables: Vec<TableLine>,
    pub settings: Settings,
    pub entries: Vec<Entry>,
}
#[derive(Debug, PartialEq)]
pub enum ScriptError {
    TooManyRecords,
    NotUtf8(u32),
    BadRecord(u32),
    Again(u32),
    MissingSheet,
    MissingInputs,
    MissingBegin,
}

fn number(s: &str) -> Option<u32> {
    let b = s.as_bytes();
    if b.is_empty() || b.len() > 10 || !b.iter().all(|c| c.is_ascii_digit()) || (b[0] == b'0' && b.len() > 1) {
        return None;
    }
    s.parse().ok()
}
/// distinct numbers from 1 to `max`, at least one and at most `most`
fn columns(f: &[&str], most: usize, max: u32) -> Option<Vec<u32>> {
    let v: Vec<u32> = f.iter().map(|s| number(s)).collect::<Option<_>>()?;
    let ok = !v.is_empty() && v.len() <= most && v.iter().enumerate().all(|(i, c)| (1..=max).contains(c) && !v[..i].contains(c));
    ok.then_some(v)
}

impl Script {
    pub fn read(bytes: &[u8]) -> Result<Script, ScriptError> {
        use ScriptError::*;
        let mut rd = Reader::new(bytes);
        let mut n = 0u32;
        let (mut sheet, mut header, mut inputs, mut output) = (None::<String>, false, None::<Vec<u32>>, None::<u32>);
        let (mut depth, mut constants, mut profile) = (None::<u8>, None::<bool>, None::<u8>);
        let mut tables = Vec::new();
        let mut entries = Vec::new();
        let mut begun = false;
        while let Some(rec) = rd.next_record() {
            n += 1;
            if n > MOST_LINES {
                return Err(TooManyRecords);
            }
            let mut f: Vec<&str> = Vec::new();
            for x in &rec {
                f.push(std::str::from_utf8(x).map_err(|_| NotUtf8(n))?);
            }
            let bad = BadRecord(n);
            if begun {
                let e = match f[..] {
                    ["add", r, t] => number(r).map(|row| Entry::Edit(Edit::Add { row, text: text(t) })),
                    ["correct", r, t] => number(r).map(|row| Entry::Edit(Edit::Correct { row, text: text(t) })),
                    ["retract", r] => number(r).map(|row| Entry::Edit(Edit::Retract { row })),
                    ["clear"] => Some(Entry::Edit(Edit::Clear)),
                    ["programs"] => Some(Entry::Programs),
                    ["switch"] => Some(Entry::Switch),
                    ["fill"] => Some(Entry::Fill),
                    ["count"] => Some(Entry::Count),
                    ["answer", r] => number(r).map(Entry::Answer),
                    ["best", b, k] => match (number(b), number(k)) {
                        (Some(b), Some(k)) if (1..=20).contains(&k) => Some(Entry::Best(b, k)),
                        _ => None,
                    },
                    ["object", r] => number(r).map(Entry::Object),
                    ["undo"] => Some(Entry::Undo),
                    ["redo"] => Some(Entry::Redo),
                    _ => None,
                };
                entries.push(e.ok_or(bad)?);
                continue;
            }
            let again = |b: bool| if b { Err(Again(n)) } else { Ok(()) };
            match f[..] {
                ["sheet", file] if !file.is_empty() => {
                    again(sheet.is_some())?;
                    sheet = Some(file.to_string());
                }
                ["header"] => {
                    again(header)?;
                    header = true;
                }
                ["inputs", ..] => {
                    let v = columns(&f[1..], 8, 1000).ok_or(BadRecord(n))?;
                    if output.map_or(false, |o| v.contains(&o)) {
                        return Err(bad);
                    }
                    again(inputs.is_some())?;
                    inputs = Some(v);
                }
                ["output", c] => {
                    let c = number(c).filter(|c| (1..=1000).contains(c)).ok_or(BadRecord(n))?;
                    if inputs.as_ref().map_or(false, |v| v.contains(&c)) {
                        return Err(bad);
                    }
                    again(output.is_some())?;
                    output = Some(c);
                }
                ["table", name, file] if !name.is_empty() && !file.is_empty() => {
                    tables.push(TableLine::Table { number: n, name: name.to_string(), file: file.to_string() })
                }
                ["key", name, ..] if !name.is_empty() => {
                    let v = columns(&f[2..], 3, u32::MAX).ok_or(bad)?;
                    tables.push(TableLine::Key { number: n, name: name.to_string(), columns: v });
                }
                ["depth", d] => {
                    let d = match d {
                        "0" => 0,
                        "1" => 1,
                        "2" => 2,
                        "3" if profile.map_or(false, |p| Profile::of(p).most_depth == 3) => 3,
                        _ => return Err(bad),
                    };
                    again(depth.is_some())?;
                    depth = Some(d);
                }
                ["constants", w @ ("any" | "separators")] => {
                    again(constants.is_some())?;
                    constants = Some(w == "separators");
                }
                ["profile", p @ ("1" | "2" | "3")] => {
                    again(profile.is_some())?;
                    profile = Some(p.parse().unwrap());
                }
                ["begin"] => {
                    if sheet.is_none() {
                        return Err(MissingSheet);
                    }
                    if inputs.is_none() {
                        return Err(MissingInputs);
                    }
                    begun = true;
                }
                _ => return Err(bad),
            }
        }
        if !begun {
            return Err(MissingBegin);
        }
        Ok(Script {
            sheet: sheet.unwrap(),
            header,
            inputs: inputs.unwrap(),
            output,
            tables,
            settings: Settings {
                depth: depth.unwrap_or(1),
                separators: constants.unwrap_or(false),
                profile: Profile::of(profile.unwrap_or(1)),
            },
            entries,
        })
    }
}
