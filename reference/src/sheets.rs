//! Sheets, lookup tables and their keys.
use crate::csv::Reader;
use crate::hash::{FxMap, FxSet};
use crate::text::Text;
use std::rc::Rc;

/// Records of a sheet, with a header.
const MOST_RECORDS: u32 = 20_000;
/// Rows of a table.
const MOST_ROWS: u32 = 2_000;
/// Fields of a table's row that are read.
const MOST_FIELDS: usize = 1_000;
const MOST_TABLES: usize = 8;
/// Keys of a table.
const MOST_KEYS: usize = 4;
/// Columns of a table whose keys are listed.
const MOST_COLUMNS: u32 = 32;

/// The cells of the input columns, and of each row the filled cell of the output column.
pub struct Sheet {
    pub inputs: Vec<u32>,
    cells: Vec<Text>,
    pub given: Vec<Option<Text>>,
    pub rows: u32,
}
#[derive(Debug, PartialEq)]
pub enum SheetError {
    TooManyRows,
    NotUtf8 { number: u32, column: u32 },
}

/// Equal texts are kept once.
struct Pool(FxSet<Text>);
impl Pool {
    fn get(&mut self, bytes: &[u8]) -> Option<Text> {
        let s = std::str::from_utf8(bytes).ok()?;
        let v: Vec<char> = s.chars().collect();
        if let Some(t) = self.0.get(&v[..]) {
            return Some(t.clone());
        }
        let t: Text = v.into();
        self.0.insert(t.clone());
        Some(t)
    }
}

impl Sheet {
    pub fn read(bytes: &[u8], header: bool, inputs: &[u32], output: Option<u32>) -> Result<Sheet, SheetError> {
        let mut ins = inputs.to_vec();
        ins.sort();
        let mut used: Vec<u32> = ins.clone();
        used.extend(output);
        used.sort();
        let mut pool = Pool(FxSet::default());
        let (mut cells, mut given) = (Vec::new(), Vec::new());
        let mut rows = 0;
        let mut rd = Reader::new(bytes);
        let mut number = 0u32;
        while let Some(rec) = rd.next_record() {
            number += 1;
            if number > MOST_RECORDS {
                return Err(SheetError::TooManyRows);
            }
            if header && number == 1 {
                continue;
            }
            let mut out = None;
            for &c in &used {
                let f: &[u8] = rec.get(c as usize - 1).map_or(&[], |v| v);
                let t = pool.get(f).ok_or(SheetError::NotUtf8 { number, column: c })?;
                if Some(c) == output {
                    out = Some(t).filter(|t| !t.is_empty());
                } else {
                    cells.push(t);
                }
            }
            given.push(out);
            rows += 1;
        }
        Ok(Sheet { inputs: ins, cells, given, rows })
    }
    pub fn cell(&self, row: u32, column: u32) -> Option<&Text> {
        let i = self.inputs.binary_search(&column).ok()?;
        self.cells.get((row as usize - 1) * self.inputs.len() + i)
    }
}

/// Columns that tell the rows of a table apart, and each row by its cells there.
pub struct Key {
    pub columns: Vec<u32>,
    pub index: FxMap<Vec<Text>, u32>,
}
pub struct Table {
    pub name: String,
    pub width: u32,
    pub rows: Vec<Vec<Text>>,
    pub keys: Vec<Key>,
}
impl Table {
    pub fn cell(&self, row: u32, column: u32) -> &Text {
        &self.rows[row as usize - 1][column as usize - 1]
    }
}
#[derive(Default)]
pub struct Tables {
    pub list: Vec<Table>,
}
#[derive(Debug, PartialEq)]
pub enum TableError {
    TooManyTables,
    SameName { first: u32 },
    TooManyRows,
    NotUtf8 { number: u32, column: u32 },
    NoSuchTable,
    NoSuchColumn { columns: u32 },
    TooManyKeys,
    NotAKey { row1: u32, row2: u32 },
}

impl Tables {
    pub fn add_table(&mut self, name: &str, bytes: &[u8]) -> Result<(), TableError> {
        if self.list.len() == MOST_TABLES {
            return Err(TableError::TooManyTables);
        }
        if let Some(i) = self.list.iter().position(|t| t.name == name) {
            return Err(TableError::SameName { first: i as u32 + 1 });
        }
        let mut pool = Pool(FxSet::default());
        let mut rows: Vec<Vec<Text>> = Vec::new();
        let mut rd = Reader::new(bytes);
        while let Some(rec) = rd.next_record() {
            let number = rows.len() as u32 + 1;
            if number > MOST_ROWS {
                return Err(TableError::TooManyRows);
            }
            let mut v = Vec::new();
            for (i, f) in rec.iter().take(MOST_FIELDS).enumerate() {
                v.push(pool.get(f).ok_or(TableError::NotUtf8 { number, column: i as u32 + 1 })?);
            }
            rows.push(v);
        }
        let width = rows.iter().map(|r| r.len()).max().unwrap_or(0);
        let none: Text = Rc::from(Vec::new());
        for r in &mut rows {
            r.resize(width, none.clone());
        }
        self.list.push(Table { name: name.to_string(), width: width as u32, rows, keys: Vec::new() });
        Ok(())
    }
    pub fn add_key(&mut self, name: &str, columns: &[u32]) -> Result<(), TableError> {
        let t = self.list.iter_mut().find(|t| t.name == name).ok_or(TableError::NoSuchTable)?;
        if columns.iter().any(|&c| c > t.width) {
            return Err(TableError::NoSuchColumn { columns: t.width });
        }
        if t.keys.len() == MOST_KEYS {
            return Err(TableError::TooManyKeys);
        }
        let mut index: FxMap<Vec<Text>, u32> = FxMap::default();
        for (i, r) in t.rows.iter().enumerate() {
            let cells: Vec<Text> = columns.iter().map(|&c| r[c as usize - 1].clone()).collect();
            let row = i as u32 + 1;
            match index.get(&cells) {
                Some(&first) => return Err(TableError::NotAKey { row1: first, row2: row }),
                None => index.insert(cells, row),
            };
        }
        t.keys.push(Key { columns: columns.to_vec(), index });
        Ok(())
    }
}

/// The minimal keys of one to three columns, in order; none where the table has more than 32 columns.
pub fn keys_of(t: &Table) -> Option<Vec<Vec<u32>>> {
    if t.width > MOST_COLUMNS {
        return None;
    }
    let n = t.width;
    let is_key = |cs: &[u32]| {
        let mut seen: FxSet<Vec<&Text>> = FxSet::default();
        t.rows.iter().all(|r| seen.insert(cs.iter().map(|&c| &r[c as usize - 1]).collect()))
    };
    let mut out: Vec<Vec<u32>> = Vec::new();
    let one: Vec<bool> = (0..=n).map(|c| c > 0 && is_key(&[c])).collect();
    for c in 1..=n {
        if one[c as usize] {
            out.push(vec![c]);
        }
    }
    let mut two: FxSet<(u32, u32)> = FxSet::default();
    for a in 1..=n {
        for b in a + 1..=n {
            if !one[a as usize] && !one[b as usize] && is_key(&[a, b]) {
                two.insert((a, b));
                out.push(vec![a, b]);
            }
        }
    }
    for a in 1..=n {
        for b in a + 1..=n {
            for c in b + 1..=n {
                if one[a as usize] || one[b as usize] || one[c as usize] {
                    continue;
                }
                if two.contains(&(a, b)) || two.contains(&(a, c)) || two.contains(&(b, c)) {
                    continue;
                }
                if is_key(&[a, b, c]) {
                    out.push(vec![a, b, c]);
                }
            }
        }
    }
    Some(out)
}
