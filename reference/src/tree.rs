//! Programs, guards and conditional programs: their order and their values.
use crate::places::*;
use crate::profile::*;
use crate::sheets::{Sheet, Tables};
use crate::text::*;
use crate::tokens::*;
use std::cmp::Ordering;
use std::rc::Rc;

#[derive(Clone, PartialEq, Eq, Debug)]
pub enum Source {
    Col(u32),
    Select(Rc<Select>),
}
#[derive(Clone, PartialEq, Eq, Debug)]
pub struct Select {
    pub column: u32,
    pub table: u32,
    pub key: u32,
    pub conditions: Vec<Atom>,
}
#[derive(Clone, PartialEq, Eq, Debug)]
pub enum Atom {
    Const(Text),
    Whole(Source),
    Sub(Source, Place, Place),
}
#[derive(Clone, PartialEq, Eq, Debug)]
pub struct Program {
    pub atoms: Vec<Atom>,
}
#[derive(Clone, Copy, PartialEq, Eq, Debug, Hash)]
pub struct Literal {
    pub negated: bool,
    pub column: u32,
    pub seq: Seq,
    pub least: u8,
}
#[derive(Clone, Copy, PartialEq, Eq, Debug)]
pub struct Guard {
    pub first: Literal,
    pub second: Option<Literal>,
}
#[derive(Clone, PartialEq, Eq, Debug)]
pub struct Case {
    pub guard: Guard,
    pub program: Program,
}
#[derive(Clone, PartialEq, Eq, Debug)]
pub struct Switch {
    pub cases: Vec<Case>,
    pub last: Program,
}
#[derive(Clone, Copy)]
pub struct Settings {
    pub depth: u8,
    pub separators: bool,
    pub profile: &'static Profile,
}

/// The cost of a constant as an atom of a program.
pub fn constant_cost(text: &[char], prices: &Prices) -> u64 {
    CONSTANT + text.iter().map(|&c| if is_separator(c) { SEPARATOR } else { prices.character }).sum::<u64>()
}

impl Source {
    pub fn compare(&self, o: &Source) -> Ordering {
        match (self, o) {
            (Source::Col(a), Source::Col(b)) => a.cmp(b),
            (Source::Col(_), _) => Ordering::Less,
            (_, Source::Col(_)) => Ordering::Greater,
            (Source::Select(a), Source::Select(b)) => (a.column, a.table, a.key)
                .cmp(&(b.column, b.table, b.key))
                .then_with(|| compare_atoms(&a.conditions, &b.conditions)),
        }
    }
}
impl Atom {
    pub fn compare(&self, o: &Atom) -> Ordering {
        match (self, o) {
            (Atom::Const(a), Atom::Const(b)) => a.cmp(b),
            (Atom::Const(_), _) => Ordering::Less,
            (_, Atom::Const(_)) => Ordering::Greater,
            (Atom::Whole(a), Atom::Whole(b)) => a.compare(b),
            (Atom::Whole(_), _) => Ordering::Less,
            (_, Atom::Whole(_)) => Ordering::Greater,
            (Atom::Sub(s, a, b), Atom::Sub(t, c, d)) => s.compare(t).then_with(|| a.compare(c)).then_with(|| b.compare(d)),
        }
    }
}
/// Atom by atom; a list comes before those that it begins.
pub fn compare_atoms(a: &[Atom], b: &[Atom]) -> Ordering {
    for (x, y) in a.iter().zip(b) {
        let o = x.compare(y);
        if o != Ordering::Equal {
            return o;
        }
    }
    a.len().cmp(&b.len())
}

pub fn source_value(s: &Source, row: u32, sheet: &Sheet, tables: &Tables) -> Option<Text> {
    match s {
        Source::Col(c) => sheet.cell(row, *c).cloned(),
        Source::Select(s) => {
            let t = tables.list.get((s.table as usize).wrapping_sub(1))?;
            let k = t.keys.get((s.key as usize).wrapping_sub(1))?;
            if s.column == 0 || s.column > t.width || k.columns.len() != s.conditions.len() {
                return None;
            }
            let mut cells: Vec<Text> = Vec::new();
            for c in &s.conditions {
                cells.push(match c {
                    Atom::Const(t) => t.clone(),
                    _ => atom_value(c, row, sheet, tables)?,
                });
            }
            let r = *k.index.get(&cells)?;
            Some(t.cell(r, s.column).clone())
        }
    }
}
pub fn atom_value(a: &Atom, row: u32, sheet: &Sheet, tables: &Tables) -> Option<Text> {
    match a {
        Atom::Const(t) => (!t.is_empty()).then(|| t.clone()),
        Atom::Whole(s) => source_value(s, row, sheet, tables).filter(|t| !t.is_empty()),
        Atom::Sub(s, p, q) => {
            let t = source_value(s, row, sheet, tables)?;
            let a = place_value(p, &t)?;
            let b = place_value(q, &t)?;
            (a < b).then(|| t[a..b].into())
        }
    }
}
pub fn program_value(p: &Program, row: u32, sheet: &Sheet, tables: &Tables) -> Option<Text> {
    let mut out: Vec<char> = Vec::new();
    for a in &p.atoms {
        out.extend_from_slice(&atom_value(a, row, sheet, tables)?);
    }
    Some(out.into())
}
pub fn literal_holds(l: &Literal, row: u32, sheet: &Sheet) -> bool {
    let t = sheet.cell(row, l.column).expect("a literal's column is an input");
    (match_count(l.seq, t) >= l.least as usize) != l.negated
}
pub fn guard_holds(g: &Guard, row: u32, sheet: &Sheet) -> bool {
    literal_holds(&g.first, row, sheet) && g.second.map_or(true, |l| literal_holds(&l, row, sheet))
}
pub fn switch_value(s: &Switch, row: u32, sheet: &Sheet, tables: &Tables) -> Option<Text> {
    let p = s.cases.iter().find(|c| guard_holds(&c.guard, row, sheet)).map_or(&s.last, |c| &c.program);
    program_value(p, row, sheet, tables)
}
