//! The values that the programs of a set have on one row, and whether those of a graph differ there.
use crate::arena::*;
use crate::hash::{FxMap, FxSet};
use crate::least::*;
use crate::places::*;
use crate::profile::*;
use crate::sheets::{Sheet, Tables};
use crate::text::*;
use crate::text_index::*;
use crate::tokens::*;
use crate::tree::*;
use std::rc::Rc;

/// the different values of a set: texts, and whether something has none
pub struct Vals {
    pub texts: Vec<Text>,
    pub none: bool,
}
/// The different positions of a set of places in a text, and whether some place has none.
pub struct PosVals {
    pub at: Vec<u32>,
    pub none: bool,
}
struct TextCache {
    x: TextIndex,
    lefts: FxMap<Id, Rc<[(u32, Seq)]>>,
    rights: FxMap<Id, Rc<[(u32, Seq)]>>,
    pos: FxMap<Id, Rc<PosVals>>,
    least: FxMap<Id, Rc<Vec<(Option<u32>, u64, Place)>>>,
}
/// Of each value, and of having none, the least one with its cost.
pub type Leasts<T> = Vec<(Option<Text>, u64, T)>;

/// What was found of the sets of an arena on one row.
pub struct RowEval<'a> {
    pub arena: &'a mut Arena,
    pub row: u32,
    pub sheet: &'a Sheet,
    pub tables: &'a Tables,
    texts: FxMap<Text, TextCache>,
    srcs: FxMap<Id, Rc<Vals>>,
    atoms: FxMap<Id, Rc<Vals>>,
    has: FxMap<Id, bool>,
    pub src_least: FxMap<Id, Rc<Leasts<Source>>>,
    pub atom_least: FxMap<Id, Rc<Leasts<Rc<Atom>>>>,
}

/// Of each class of sequences the cheapest one, and of several the first.
fn by_class(seqs: &[u16], cls: impl Fn(Seq) -> u32, prices: &Prices) -> Rc<[(u32, Seq)]> {
    let mut v: Vec<(u32, Seq)> = Vec::new();
    for &s in seqs {
        let c = cls(s);
        match v.iter_mut().find(|x| x.0 == c) {
            None => v.push((c, s)),
            Some(x) => {
                if seq_cost(s, prices) < seq_cost(x.1, prices) {
                    x.1 = s;
                }
            }
        }
    }
    v.into()
}

impl<'a> RowEval<'a> {
    pub fn new(arena: &'a mut Arena, row: u32, sheet: &'a Sheet, tables: &'a Tables) -> Self {
        RowEval {
            arena,
            row,
            sheet,
            tables,
            texts: FxMap::default(),
            srcs: FxMap::default(),
            atoms: FxMap::default(),
            has: FxMap::default(),
            src_least: FxMap::default(),
            atom_least: FxMap::default(),
        }
    }

    fn cache(&mut self, t: &Text) {
        if !self.texts.contains_key(t) {
            let x = TextIndex::new(t, self.arena.profile);
            let c = TextCache {
                x,
                lefts: FxMap::default(),
                rights: FxMap::default(),
                pos: FxMap::default(),
                least: FxMap::default(),
            };
            self.texts.insert(t.clone(), c);
        }
    }

    /// the positions of a set's places in a text
    pub fn positions(&mut self, id: Id, t: &Text) -> Rc<PosVals> {
        self.cache(t);
        let tc = self.texts.get_mut(t).unwrap();
        if let Some(v) = tc.pos.get(&id) {
            return v.clone();
        }
        let p = self.arena.places.get(id);
        let mut at: Vec<u32> = Vec::new();
        let mut none = false;
        let mut push = |x: Option<u32>| match x {
            None => none = true,
            Some(x) => {
                if !at.contains(&x) {
                    at.push(x)
                }
            }
        };
        for &k in &p.cpos {
            push(place_value(&Place::CPos(k), t).map(|x| x as u32));
        }
        for &(c, r, l) in &p.groups {
            let (ls, rs) = sides(tc, self.arena, l, r);
            for &(lc, _) in ls.iter() {
                for &(rc, _) in rs.iter() {
                    if lc == ABSENT || rc == ABSENT {
                        push(None);
                    } else {
                        push(nth(&tc.x.cuts(lc, rc), c));
                    }
                }
            }
        }
        at.sort_unstable();
        let v = Rc::new(PosVals { at, none });
        tc.pos.insert(id, v.clone());
        v
    }

    /// for each value of a set's places in a text the least such place
    pub fn least_positions(&mut self, id: Id, t: &Text) -> Rc<Vec<(Option<u32>, u64, Place)>> {
        self.cache(t);
        let tc = self.texts.get_mut(t).unwrap();
        if let Some(v) = tc.least.get(&id) {
            return v.clone();
        }
        let p = self.arena.places.get(id);
        let prices = &self.arena.profile.prices;
        let mut best: FxMap<Option<u32>, (u64, Place)> = FxMap::default();
        let mut put = |v: Option<u32>, x: Place| {
            let c = (x.cost(prices), x);
            match best.get_mut(&v) {
                None => {
                    best.insert(v, c);
                }
                Some(b) => {
                    if before(&c, b, |a, b| a.compare(b)) {
                        *b = c;
                    }
                }
            }
        };
        for &k in &p.cpos {
            put(place_value(&Place::CPos(k), t).map(|x| x as u32), Place::CPos(k));
        }
        for &(c, r, l) in &p.groups {
            let (ls, rs) = sides(tc, self.arena, l, r);
            for &(lc, ls) in ls.iter() {
                for &(rc, rs) in rs.iter() {
                    let v = if lc == ABSENT || rc == ABSENT { None } else { nth(&tc.x.cuts(lc, rc), c) };
                    put(v, Place::Pos(ls, rs, c));
                }
            }
        }
        let v: Rc<Vec<(Option<u32>, u64, Place)>> = Rc::new(best.into_iter().map(|(v, (c, p))| (v, c, p)).collect());
        tc.least.insert(id, v.clone());
        v
    }

    pub fn source_vals(&mut self, id: Id) -> Rc<Vals> {
        if let Some(v) = self.srcs.get(&id) {
            return v.clone();
        }
        let s = self.arena.sources.get(id);
        let mut texts: FxSet<Text> = FxSet::default();
        let mut none = false;
        for &c in &s.cols {
            match self.sheet.cell(self.row, c) {
                Some(t) => {
                    texts.insert(t.clone());
                }
                None => none = true,
            }
        }
        for item in &s.lookups {
            none |= self.select_vals(item, &mut texts);
        }
        let v = Rc::new(Vals { texts: texts.into_iter().collect(), none });
        self.srcs.insert(id, v.clone());
        v
    }

    fn select_vals(&mut self, item: &Lookup, out: &mut FxSet<Text>) -> bool {
        let tables = self.tables;
        let table = &tables.list[item.table as usize - 1];
        let key = &table.keys[item.key as usize - 1];
        let mut none = false;
        // each condition's texts, and whether an atom gives the text
        let mut conds: Vec<FxMap<Text, bool>> = Vec::new();
        for c in &item.conditions {
            let mut m: FxMap<Text, bool> = FxMap::default();
            if c.constant != NONE {
                m.insert(self.arena.texts[c.constant as usize].clone(), false);
            }
            if c.atoms != NONE {
                let v = self.atom_vals(c.atoms);
                none |= v.none;
                for t in &v.texts {
                    m.insert(t.clone(), true);
                }
            }
            conds.push(m);
        }
        if conds.iter().any(|m| m.is_empty()) {
            return none; // every choice has a condition without a value
        }
        let product = conds.iter().fold(1u128, |p, m| p * m.len() as u128);
        let plain = conds.iter().fold(1u128, |p, m| p * m.values().filter(|x| !**x).count() as u128);
        let mut hits = 0u128;
        if product <= table.rows.len() as u128 {
            let lists: Vec<Vec<(Text, bool)>> = conds.iter().map(|m| m.iter().map(|(t, b)| (t.clone(), *b)).collect()).collect();
            let mut at = vec![0usize; lists.len()];
            loop {
                if at.iter().zip(&lists).any(|(&i, l)| l[i].1) {
                    let cells: Vec<Text> = at.iter().zip(&lists).map(|(&i, l)| l[i].0.clone()).collect();
                    if let Some(&r) = key.index.get(&cells) {
                        hits += 1;
                        out.insert(table.cell(r, item.column).clone());
                    }
                }
                let mut i = 0;
                while i < at.len() {
                    at[i] += 1;
                    if at[i] < lists[i].len() {
                        break;
                    }
                    at[i] = 0;
                    i += 1;
                }
                if i == at.len() {
                    break;
                }
            }
        } else {
            for r in 1..=table.rows.len() as u32 {
                let mut any = false;
                let all = key.columns.iter().zip(&conds).all(|(&c, m)| match m.get(table.cell(r, c)) {
                    Some(b) => {
                        any |= b;
                        true
                    }
                    None => false,
                });
                if all && any {
                    hits += 1;
                    out.insert(table.cell(r, item.column).clone());
                }
            }
        }
        none || product - plain > hits
    }

    pub fn atom_vals(&mut self, id: Id) -> Rc<Vals> {
        if let Some(v) = self.atoms.get(&id) {
            return v.clone();
        }
        let s = self.arena.atoms.get(id);
        let mut texts: FxSet<Text> = FxSet::default();
        let mut none = false;
        if s.constant != NONE {
            texts.insert(self.arena.texts[s.constant as usize].clone());
        }
        if s.whole != NONE {
            let v = self.source_vals(s.whole);
            none |= v.none;
            for t in &v.texts {
                if t.is_empty() {
                    none = true;
                } else {
                    texts.insert(t.clone());
                }
            }
        }
        for &(s, l, r) in &s.subs {
            let v = self.source_vals(s);
            none |= v.none;
            for t in &v.texts {
                let (a, b) = (self.positions(l, t), self.positions(r, t));
                none |= a.none | b.none;
                for &x in &a.at {
                    for &y in &b.at {
                        if x < y {
                            let p = &t[x as usize..y as usize];
                            if !texts.contains(p) {
                                texts.insert(p.into());
                            }
                        } else {
                            none = true;
                        }
                    }
                }
            }
        }
        let v = Rc::new(Vals { texts: texts.into_iter().collect(), none });
        self.atoms.insert(id, v.clone());
        v
    }

    /// some atom of the set has a value
    pub fn has_value(&mut self, id: Id) -> bool {
        if let Some(&b) = self.has.get(&id) {
            return b;
        }
        let s = self.arena.atoms.get(id);
        let b = s.constant != NONE || (s.whole != NONE && self.source_vals(s.whole).texts.iter().any(|t| !t.is_empty())) || {
            let mut b = false;
            'o: for &(s, l, r) in &s.subs {
                let v = self.source_vals(s);
                for t in &v.texts {
                    let (x, y) = (self.positions(l, t), self.positions(r, t));
                    if !x.at.is_empty() && !y.at.is_empty() && x.at[0] < *y.at.last().unwrap() {
                        b = true;
                        break 'o;
                    }
                }
            }
            b
        };
        self.has.insert(id, b);
        b
    }
}

/// The left and the right sequences of a group of places, by their class in a text.
fn sides(tc: &mut TextCache, arena: &Arena, l: Id, r: Id) -> (Rc<[(u32, Seq)]>, Rc<[(u32, Seq)]>) {
    let x = &tc.x;
    let prices = &arena.profile.prices;
    let ls = tc.lefts.entry(l).or_insert_with(|| by_class(&arena.seqs.items[l as usize], |s| x.left_class(s), prices)).clone();
    let rs = tc.rights.entry(r).or_insert_with(|| by_class(&arena.seqs.items[r as usize], |s| x.right_class(s), prices)).clone();
    (ls, rs)
}
