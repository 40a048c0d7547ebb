//! The graph of one example: all programs that give its text on its row.
use crate::arena::*;
use crate::hash::FxMap;
use crate::places::count_order;
use crate::sheets::{Sheet, Tables};
use crate::text::*;
use crate::text_index::*;
use crate::tree::*;
use std::rc::Rc;

impl Arena {
    /// for each position of a text the set of all places with that value
    pub fn places_in(&mut self, t: &Text) -> Rc<Vec<Id>> {
        if let Some(v) = self.text_places.get(t) {
            return v.clone();
        }
        let mut x = TextIndex::new(t, self.profile);
        let n = t.len();
        let mut out = Vec::with_capacity(n + 1);
        for k in 0..=n {
            let mut cpos = vec![k as i32, k as i32 - n as i32 - 1];
            cpos.sort_by_key(|&c| count_order(c));
            let ls = x.left_groups(k);
            let rs = x.right_groups(k);
            // for each left group and count the union of the right groups
            let mut by: FxMap<i32, Vec<(usize, Vec<usize>)>> = FxMap::default();
            for (i, (lc, _)) in ls.iter().enumerate() {
                for (j, (rc, _)) in rs.iter().enumerate() {
                    if *lc == ALL && *rc == ALL {
                        continue;
                    }
                    let cuts = x.cuts(*lc, *rc);
                    let at = cuts.binary_search(&(k as u32)).expect("k is a cut");
                    for c in [at as i32 + 1, at as i32 - cuts.len() as i32] {
                        let e = by.entry(c).or_default();
                        if e.last().map_or(true, |l| l.0 != i) {
                            e.push((i, Vec::new()));
                        }
                        e.last_mut().unwrap().1.push(j);
                    }
                }
            }
            let mut groups = Vec::new();
            for (c, v) in by {
                let mut merged: FxMap<Id, Vec<u16>> = FxMap::default();
                for (i, js) in v {
                    let mut r: Vec<u16> = js.iter().flat_map(|&j| rs[j].1.iter().copied()).collect();
                    r.sort_unstable();
                    let r = self.seqs.put(r);
                    merged.entry(r).or_default().extend_from_slice(&ls[i].1);
                }
                for (r, mut l) in merged {
                    l.sort_unstable();
                    let l = self.seqs.put(l);
                    groups.push((c, r, l));
                }
            }
            groups.sort_unstable();
            out.push(self.places.put(PlaceSet { cpos, groups }));
        }
        let out = Rc::new(out);
        self.text_places.insert(t.clone(), out.clone());
        out
    }

    /// all sources within the depth, by their text on the row
    fn sources_on(&mut self, row: u32, sheet: &Sheet, tables: &Tables, depth: u8) -> Vec<(Text, Id)> {
        let mut cols: FxMap<Text, Vec<u32>> = FxMap::default();
        for &c in &sheet.inputs {
            cols.entry(sheet.cell(row, c).unwrap().clone()).or_default().push(c);
        }
        let mut now: Vec<(Text, Id)> =
            cols.iter().map(|(t, v)| (t.clone(), self.sources.put(SourceSet { cols: v.clone(), lookups: Vec::new() }))).collect();
        if depth == 0 || tables.list.iter().all(|t| t.keys.is_empty()) {
            return now;
        }
        // the key cells
        let mut keyed: FxMap<Text, usize> = FxMap::default();
        let mut lens: Vec<usize> = Vec::new();
        for t in &tables.list {
            for k in &t.keys {
                for r in &t.rows {
                    for &c in &k.columns {
                        let x = &r[c as usize - 1];
                        if !x.is_empty() {
                            let n = keyed.len();
                            keyed.entry(x.clone()).or_insert(n);
                            lens.push(x.len());
                        }
                    }
                }
            }
        }
        lens.sort_unstable();
        lens.dedup();
        for _ in 0..depth {
            // the atoms over the sources so far that spell each key cell
            let mut found: Vec<(Id, Vec<(Id, Id, Id)>)> = vec![(NONE, Vec::new()); keyed.len()];
            for (t, s) in &now {
                if t.is_empty() {
                    continue;
                }
                let mut at: Option<Rc<Vec<Id>>> = None;
                for a in 0..t.len() {
                    for &l in &lens {
                        if a + l > t.len() {
                            break;
                        }
                        if let Some(&i) = keyed.get(&t[a..a + l]) {
                            if l == t.len() {
                                found[i].0 = *s;
                            }
                            let p = at.get_or_insert_with(|| self.places_in(t)).clone();
                            found[i].1.push((*s, p[a], p[a + l]));
                        }
                    }
                }
            }
            let sets: Vec<Id> = found
                .into_iter()
                .map(|(whole, mut subs)| {
                    if whole == NONE && subs.is_empty() {
                        NONE
                    } else {
                        subs.sort_unstable();
                        self.atoms.put(AtomSet { constant: NONE, whole, subs })
                    }
                })
                .collect();
            let mut all: FxMap<Text, (Vec<u32>, Vec<Lookup>)> = FxMap::default();
            for (t, v) in &cols {
                all.entry(t.clone()).or_default().0 = v.clone();
            }
            for (ti, t) in tables.list.iter().enumerate() {
                for (ki, k) in t.keys.iter().enumerate() {
                    for r in &t.rows {
                        let cells: Vec<&Text> = k.columns.iter().map(|&c| &r[c as usize - 1]).collect();
                        let ids: Vec<Id> = cells.iter().map(|x| keyed.get(*x).map_or(NONE, |&i| sets[i])).collect();
                        if ids.iter().all(|&i| i == NONE) {
                            continue;
                        }
                        let conditions: Vec<Condition> =
                            cells.iter().zip(&ids).map(|(x, &atoms)| Condition { constant: self.text_id(x), atoms }).collect();
                        for c in 1..=t.width {
                            if !k.columns.contains(&c) {
                                all.entry(r[c as usize - 1].clone()).or_default().1.push(Lookup {
                                    column: c,
                                    table: ti as u32 + 1,
                                    key: ki as u32 + 1,
                                    conditions: conditions.clone(),
                                });
                            }
                        }
                    }
                }
            }
            now = all
                .into_iter()
                .map(|(t, (cols, mut lookups))| {
                    lookups.sort_unstable();
                    let id = self.sources.put(SourceSet { cols, lookups });
                    (t, id)
                })
                .collect();
        }
        now
    }

    /// The graph of all programs that give a text on a row, where there is one.
    pub fn build(&mut self, row: u32, text: &Text, sheet: &Sheet, tables: &Tables, set: &Settings) -> Option<Id> {
        let n = text.len();
        if n == 0 {
            return Some(self.graphs.put(Graph { nodes: 1, edges: Vec::new(), first: vec![0, 0] }));
        }
        let mut cells: Vec<(Id, Vec<(Id, Id, Id)>)> = vec![(NONE, Vec::new()); n * (n + 1)];
        for (t, s) in self.sources_on(row, sheet, tables, set.depth) {
            let m = t.len();
            let mut at: Option<Rc<Vec<Id>>> = None;
            for a in 0..m {
                for i in 0..n {
                    let mut l = 0;
                    while a + l < m && i + l < n && t[a + l] == text[i + l] {
                        l += 1;
                        let p = at.get_or_insert_with(|| self.places_in(&t));
                        let e = &mut cells[i * (n + 1) + i + l];
                        e.1.push((s, p[a], p[a + l]));
                        if l == m {
                            e.0 = s;
                        }
                    }
                }
            }
        }
        let mut edges = Vec::new();
        for i in 0..n {
            for j in i + 1..=n {
                let (whole, subs) = &mut cells[i * (n + 1) + j];
                let piece = &text[i..j];
                let constant = if !set.separators || piece.iter().all(|&c| is_separator(c)) { self.text_id(piece) } else { NONE };
                if constant == NONE && *whole == NONE && subs.is_empty() {
                    continue;
                }
                let mut subs = std::mem::take(subs);
                subs.sort_unstable();
                let atoms = self.atoms.put(AtomSet { constant, whole: *whole, subs });
                edges.push(Edge { from: i as u32, to: j as u32, atoms });
            }
        }
        self.trim(n as u32 + 1, edges)
    }

    /// keeps the nodes that lie on a walk; edges are sorted by `from`, then `to`
    pub fn trim(&mut self, nodes: u32, edges: Vec<Edge>) -> Option<Id> {
        let n = nodes as usize;
        let mut f = vec![false; n];
        let mut b = vec![false; n];
        f[0] = true;
        b[n - 1] = true;
        for e in &edges {
            if f[e.from as usize] {
                f[e.to as usize] = true;
            }
        }
        for e in edges.iter().rev() {
            if b[e.to as usize] {
                b[e.from as usize] = true;
            }
        }
        if !f[n - 1] {
            return None;
        }
        let mut name = vec![NONE; n];
        let mut count = 0;
        for i in 0..n {
            if f[i] && b[i] {
                name[i] = count;
                count += 1;
            }
        }
        let mut out = Vec::new();
        let mut first = vec![0u32; count as usize + 1];
        for e in edges {
            let (u, v) = (name[e.from as usize], name[e.to as usize]);
            if u != NONE && v != NONE {
                out.push(Edge { from: u, to: v, atoms: e.atoms });
                first[u as usize + 1] = out.len() as u32;
            }
        }
        for i in 1..first.len() {
            first[i] = first[i].max(first[i - 1]);
        }
        Some(self.graphs.put(Graph { nodes: count, edges: out, first }))
    }
}
