//! The first program of a graph that answers otherwise than a given text on a row. For each value that atoms of a set have on
//! the row the least such atom is kept.
use crate::arena::*;
use crate::hash::{FxMap, FxSet};
use crate::least::*;
use crate::profile::*;
use crate::text::*;
use crate::tree::*;
use crate::values::*;
use std::cmp::Ordering;
use std::rc::Rc;

impl RowEval<'_> {
    fn source_leasts(&mut self, id: Id) -> Rc<Leasts<Source>> {
        if let Some(v) = self.src_least.get(&id) {
            return v.clone();
        }
        let s = self.arena.sources.get(id);
        let mut best: FxMap<Option<Text>, (u64, Source)> = FxMap::default();
        for &c in &s.cols {
            put(&mut best, self.sheet.cell(self.row, c).cloned(), 0, Source::Col(c), |a, b| a.compare(b));
        }
        for item in &s.lookups {
            self.select_leasts(item, &mut best);
        }
        let v: Rc<Leasts<Source>> = Rc::new(best.into_iter().map(|(v, (c, x))| (v, c, x)).collect());
        self.src_least.insert(id, v.clone());
        v
    }

    fn select_leasts(&mut self, item: &Lookup, best: &mut FxMap<Option<Text>, (u64, Source)>) {
        let tables = self.tables;
        let table = &tables.list[item.table as usize - 1];
        let key = &table.keys[item.key as usize - 1];
        // choices of each condition: value, cost, tree; sorted
        let mut opts: Vec<Vec<(Option<Text>, u64, Atom)>> = Vec::new();
        for c in &item.conditions {
            let mut v = Vec::new();
            if c.constant != NONE {
                let t = self.arena.texts[c.constant as usize].clone();
                v.push((Some(t.clone()), self.arena.profile.prices.constant_condition, Atom::Const(t)));
            }
            if c.atoms != NONE {
                for (t, c, a) in self.atom_leasts(c.atoms).iter() {
                    v.push((t.clone(), CONDITION + c, (**a).clone()));
                }
            }
            v.sort_by(|a, b| a.1.cmp(&b.1).then_with(|| a.2.compare(&b.2)));
            opts.push(v);
        }
        let m = opts.len();
        let make = |at: &[usize]| -> Option<(Option<Text>, u64, Vec<Atom>)> {
            let pick: Vec<&(Option<Text>, u64, Atom)> = at.iter().zip(&opts).map(|(&i, o)| &o[i]).collect();
            if pick.iter().all(|p| matches!(p.2, Atom::Const(_))) {
                return None;
            }
            let cost = SELECT + pick.iter().map(|p| p.1).sum::<u64>();
            let cells: Option<Vec<Text>> = pick.iter().map(|p| p.0.clone()).collect();
            let v = cells.and_then(|c| key.index.get(&c)).map(|&r| table.cell(r, item.column).clone());
            Some((v, cost, pick.iter().map(|p| p.2.clone()).collect()))
        };
        let tree =
            |conditions| Source::Select(Rc::new(Select { column: item.column, table: item.table, key: item.key, conditions }));
        let product = opts.iter().fold(1u128, |p, o| p * o.len() as u128);
        if product <= 20_000 {
            let mut at = vec![0usize; m];
            loop {
                if let Some((v, c, conds)) = make(&at) {
                    put(best, v, c, tree(conds), |a, b| a.compare(b));
                }
                let mut i = 0;
                while i < m {
                    at[i] += 1;
                    if at[i] < opts[i].len() {
                        break;
                    }
                    at[i] = 0;
                    i += 1;
                }
                if i == m {
                    return;
                }
            }
        }
        // found rows one by one
        let mut maps: Vec<FxMap<Text, Vec<usize>>> = Vec::new();
        for o in &opts {
            let mut mm: FxMap<Text, Vec<usize>> = FxMap::default();
            for (i, x) in o.iter().enumerate() {
                if let Some(t) = &x.0 {
                    mm.entry(t.clone()).or_default().push(i);
                }
            }
            maps.push(mm);
        }
        'rows: for r in 1..=table.rows.len() as u32 {
            let mut ways: Vec<Vec<usize>> = vec![Vec::new()];
            for (&c, mm) in key.columns.iter().zip(&maps) {
                match mm.get(table.cell(r, c)) {
                    None => continue 'rows,
                    Some(is) => {
                        ways =
                            ways.iter().flat_map(|w| is.iter().map(move |&i| w.iter().copied().chain([i]).collect())).collect();
                    }
                }
            }
            for w in ways {
                if let Some((v, c, conds)) = make(&w) {
                    put(best, v, c, tree(conds), |a, b| a.compare(b));
                }
            }
        }
        // the least choice without a value, cheapest first
        let mut open: Vec<Vec<usize>> = vec![vec![0; m]];
        let mut seen: FxSet<Vec<usize>> = FxSet::default();
        let key_of = |at: &[usize]| -> u64 { at.iter().zip(&opts).map(|(&i, o)| o[i].1).sum() };
        let cmp_at = |a: &[usize], b: &[usize]| -> Ordering {
            key_of(a).cmp(&key_of(b)).then_with(|| {
                for ((&i, &j), o) in a.iter().zip(b).zip(&opts) {
                    let c = o[i].2.compare(&o[j].2);
                    if c != Ordering::Equal {
                        return c;
                    }
                }
                Ordering::Equal
            })
        };
        while !open.is_empty() {
            let i = (0..open.len()).min_by(|&i, &j| cmp_at(&open[i], &open[j])).unwrap();
            let at = open.swap_remove(i);
            if let Some((None, c, conds)) = make(&at) {
                put(best, None, c, tree(conds), |a, b| a.compare(b));
                return;
            }
            for i in 0..m {
                let mut n = at.clone();
                n[i] += 1;
                if n[i] < opts[i].len() && seen.insert(n.clone()) {
                    open.push(n);
                }
            }
        }
    }

    pub fn atom_leasts(&mut self, id: Id) -> Rc<Leasts<Rc<Atom>>> {
        if let Some(v) = self.atom_least.get(&id) {
            return v.clone();
        }
        let s = self.arena.atoms.get(id);
        let mut best: FxMap<Option<Text>, (u64, Atom)> = FxMap::default();
        let cmp = |a: &Atom, b: &Atom| a.compare(b);
        if s.constant != NONE {
            let t = self.arena.texts[s.constant as usize].clone();
            put(&mut best, Some(t.clone()), constant_cost(&t, &self.arena.profile.prices), Atom::Const(t), cmp);
        }
        if s.whole != NONE {
            for (v, c, x) in self.source_leasts(s.whole).iter() {
                put(&mut best, v.clone().filter(|t| !t.is_empty()), WHOLE + c, Atom::Whole(x.clone()), cmp);
            }
        }
        for &(s, l, r) in &s.subs {
            for (v, c, x) in self.source_leasts(s).iter() {
                match v {
                    None => {
                        let ((d, p), (e, q)) = (self.arena.least_place(l), self.arena.least_place(r));
                        put(&mut best, None, SUB + c + d + e, Atom::Sub(x.clone(), p, q), cmp);
                    }
                    Some(t) => {
                        let (ls, rs) = (self.least_positions(l, t), self.least_positions(r, t));
                        for &(a, d, p) in ls.iter() {
                            for &(b, e, q) in rs.iter() {
                                let v: Option<Text> = match (a, b) {
                                    (Some(a), Some(b)) if a < b => Some(t[a as usize..b as usize].into()),
                                    _ => None,
                                };
                                put(&mut best, v, SUB + c + d + e, Atom::Sub(x.clone(), p, q), cmp);
                            }
                        }
                    }
                }
            }
        }
        let v: Rc<Leasts<Rc<Atom>>> = Rc::new(best.into_iter().map(|(v, (c, x))| (v, c, Rc::new(x))).collect());
        self.atom_least.insert(id, v.clone());
        v
    }

    /// the least program of the graph whose value on the row is not `said`
    pub fn object(&mut self, g: Id, said: Option<&Text>) -> Option<Program> {
        let graph = self.arena.graphs.get(g);
        let n = graph.nodes as usize;
        // least chains from each node: whatever, and by how much of the answer was spelled
        let mut free: Vec<Option<Chain>> = vec![None; n];
        free[n - 1] = Some(nil());
        let less = |b: &mut Option<Chain>, x: Chain| {
            if b.as_ref().map_or(true, |y| compare_chains(&x, y) == Ordering::Less) {
                *b = Some(x);
            }
        };
        match said {
            None => {
                // a program that has a value
                for u in (0..n - 1).rev() {
                    let mut b = None;
                    for e in graph.out(u as u32) {
                        let rest = match free[e.to as usize].clone() {
                            Some(rest) => rest,
                            None => continue,
                        };
                        for (v, c, a) in self.atom_leasts(e.atoms).iter() {
                            if v.is_some() {
                                if b.as_ref().map_or(true, |y: &Chain| ATOM + c + rest.cost <= y.cost) {
                                    less(&mut b, cons(*c, a, &rest));
                                }
                            }
                        }
                    }
                    free[u] = b;
                }
                free[0].as_ref().map(to_program)
            }
            Some(said) => {
                for u in (0..n - 1).rev() {
                    let mut b = None;
                    for e in graph.out(u as u32) {
                        let (c, a) = self.arena.least_atom(e.atoms);
                        less(&mut b, cons(c, &a, free[e.to as usize].as_ref().unwrap()));
                    }
                    free[u] = b;
                }
                let m = said.len();
                // on[u][k]: k characters of the answer were spelled before node u
                let mut reached = vec![vec![false; m + 1]; n];
                reached[0][0] = true;
                for e in &graph.edges {
                    let l = self.atom_leasts(e.atoms);
                    for k in 0..=m {
                        if reached[e.from as usize][k] {
                            for (v, _, _) in l.iter() {
                                if let Some(t) = v {
                                    if on_way(said, k, t) {
                                        reached[e.to as usize][k + t.len()] = true;
                                    }
                                }
                            }
                        }
                    }
                }
                let mut on: Vec<Vec<Option<Chain>>> = vec![vec![None; m + 1]; n];
                for k in 0..m {
                    on[n - 1][k] = Some(nil());
                }
                for u in (0..n - 1).rev() {
                    for k in 0..=m {
                        if !reached[u][k] {
                            continue;
                        }
                        let mut b = None;
                        for e in graph.out(u as u32) {
                            for (v, c, a) in self.atom_leasts(e.atoms).iter() {
                                let rest = match v {
                                    Some(t) if on_way(said, k, t) => &on[e.to as usize][k + t.len()],
                                    _ => &free[e.to as usize],
                                };
                                if let Some(rest) = rest {
                                    if b.as_ref().map_or(true, |y: &Chain| ATOM + c + rest.cost <= y.cost) {
                                        less(&mut b, cons(*c, a, rest));
                                    }
                                }
                            }
                        }
                        on[u][k] = b;
                    }
                }
                on[0][0].as_ref().map(to_program)
            }
        }
    }
}

fn put<T>(best: &mut FxMap<Option<Text>, (u64, T)>, v: Option<Text>, c: u64, x: T, cmp: impl Fn(&T, &T) -> Ordering) {
    match best.get_mut(&v) {
        None => {
            best.insert(v, (c, x));
        }
        Some(b) => {
            if c < b.0 || (c == b.0 && cmp(&x, &b.1) == Ordering::Less) {
                *b = (c, x);
            }
        }
    }
}

/// the text stands in `said` at k
#[inline]
fn on_way(said: &[char], k: usize, t: &[char]) -> bool {
    k + t.len() <= said.len() && t[0] == said[k] && said[k..].starts_with(t)
}
