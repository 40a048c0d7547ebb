//! The first guard that holds on some rows and on none of others.
use crate::hash::{FxMap, FxSet};
use crate::profile::Profile;
use crate::sheets::Sheet;
use crate::tokens::*;
use crate::tree::*;
use std::rc::Rc;

/// How many pieces of a text each sequence of one or two tokens spans, up to 3.
fn counts(t: &[char], profile: &Profile) -> Vec<(Seq, u8)> {
    let n = t.len();
    let starts: Vec<Vec<(Token, usize)>> =
        (0..=n).map(|a| profile.tokens.iter().filter_map(|&x| span(x, t, a).map(|b| (x, b))).collect()).collect();
    let mut m: FxMap<Seq, u8> = FxMap::default();
    let mut add = |s: Seq| {
        let e = m.entry(s).or_insert(0);
        *e = (*e + 1).min(3);
    };
    for a in 0..=n {
        for &(x, b) in &starts[a] {
            add(seq(&[x]));
            if x != END {
                for &(y, _) in &starts[b] {
                    if y != START {
                        add(seq(&[x, y]));
                    }
                }
            }
        }
    }
    let mut v: Vec<(Seq, u8)> = m.into_iter().collect();
    v.sort_unstable();
    v
}

/// What was counted so far, by row and column.
#[derive(Default)]
pub struct Guards {
    cache: FxMap<(u32, u32), Rc<Vec<(Seq, u8)>>>,
}

impl Guards {
    /// The first guard, in order, that holds on the rows inside and on none outside.
    pub fn guard(&mut self, sheet: &Sheet, inside: &[u32], outside: &[u32], profile: &Profile) -> Option<Guard> {
        let rows: Vec<u32> = inside.iter().chain(outside).copied().collect();
        let ins: u64 = if inside.len() == 64 { u64::MAX } else { (1u64 << inside.len()) - 1 };
        let all: u64 = if rows.len() == 64 { u64::MAX } else { (1u64 << rows.len()) - 1 };
        let outs = all & !ins;
        let mut seen: FxSet<u64> = FxSet::default();
        // the first literal of each outside mask, among those that hold inside
        let mut list: Vec<(u64, Literal)> = Vec::new();
        for &column in &sheet.inputs {
            let mut by: FxMap<Seq, [u64; 3]> = FxMap::default();
            for (i, &row) in rows.iter().enumerate() {
                let c = self
                    .cache
                    .entry((row, column))
                    .or_insert_with(|| Rc::new(counts(sheet.cell(row, column).unwrap(), profile)))
                    .clone();
                for &(s, n) in c.iter() {
                    let e = by.entry(s).or_insert([0; 3]);
                    for k in 0..n as usize {
                        e[k] |= 1 << i;
                    }
                }
            }
            let mut seqs: Vec<(Seq, [u64; 3])> = by.into_iter().collect();
            seqs.sort_unstable();
            for (s, masks) in seqs {
                for k in 0..3 {
                    for negated in [false, true] {
                        let m = if negated { all & !masks[k] } else { masks[k] };
                        if m & ins == ins {
                            let o = m & outs;
                            let l = Literal { negated, column, seq: s, least: k as u8 + 1 };
                            if o == 0 {
                                return Some(Guard { first: l, second: None });
                            }
                            if seen.insert(o) {
                                list.push((o, l));
                            }
                        }
                    }
                }
            }
        }
        for (i, (m, l)) in list.iter().enumerate() {
            for (o, r) in &list[i + 1..] {
                if m & o == 0 {
                    return Some(Guard { first: *l, second: Some(*r) });
                }
            }
        }
        None
    }
}
