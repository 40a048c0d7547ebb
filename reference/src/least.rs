//! The least of a set by cost and order, and the first programs of a graph.
use crate::arena::*;
use crate::places::Place;
use crate::profile::*;
use crate::tokens::*;
use crate::tree::*;
use std::cmp::Ordering;
use std::rc::Rc;

/// a list of atoms with its cost, shared from the back
#[derive(Clone)]
pub struct Chain {
    pub cost: u64,
    pub head: Option<Rc<Link>>,
}
pub struct Link {
    pub atom: Rc<Atom>,
    pub rest: Chain,
}
pub fn nil() -> Chain {
    Chain { cost: 0, head: None }
}
/// `cost` is the cost of the atom alone
pub fn cons(cost: u64, atom: &Rc<Atom>, rest: &Chain) -> Chain {
    Chain { cost: ATOM + cost + rest.cost, head: Some(Rc::new(Link { atom: atom.clone(), rest: rest.clone() })) }
}
pub fn compare_chains(a: &Chain, b: &Chain) -> Ordering {
    a.cost.cmp(&b.cost).then_with(|| {
        let (mut x, mut y) = (&a.head, &b.head);
        loop {
            match (x, y) {
                (None, None) => return Ordering::Equal,
                (None, _) => return Ordering::Less,
                (_, None) => return Ordering::Greater,
                (Some(p), Some(q)) => {
                    if Rc::ptr_eq(p, q) {
                        return Ordering::Equal;
                    }
                    if !Rc::ptr_eq(&p.atom, &q.atom) {
                        let o = p.atom.compare(&q.atom);
                        if o != Ordering::Equal {
                            return o;
                        }
                    }
                    x = &p.rest.head;
                    y = &q.rest.head;
                }
            }
        }
    })
}
pub fn to_program(c: &Chain) -> Program {
    let mut atoms = Vec::new();
    let mut h = &c.head;
    while let Some(l) = h {
        atoms.push((*l.atom).clone());
        h = &l.rest.head;
    }
    Program { atoms }
}

pub fn before<T>(a: &(u64, T), b: &(u64, T), cmp: impl Fn(&T, &T) -> Ordering) -> bool {
    a.0.cmp(&b.0).then_with(|| cmp(&a.1, &b.1)) == Ordering::Less
}
pub fn keep<T>(best: &mut Option<(u64, T)>, x: (u64, T), cmp: impl Fn(&T, &T) -> Ordering) {
    if best.as_ref().map_or(true, |b| before(&x, b, cmp)) {
        *best = Some(x);
    }
}
fn slot<T>(v: &mut Vec<Option<T>>, i: Id) -> &mut Option<T> {
    if v.len() <= i as usize {
        v.resize_with(i as usize + 1, || None);
    }
    &mut v[i as usize]
}
fn finish<T>(mut v: Vec<(u64, T)>, k: usize, cmp: impl Fn(&T, &T) -> Ordering) -> Vec<(u64, T)> {
    v.sort_by(|a, b| a.0.cmp(&b.0).then_with(|| cmp(&a.1, &b.1)));
    v.truncate(k);
    v
}

impl Arena {
    pub fn least_place(&mut self, id: Id) -> (u64, Place) {
        if let Some(x) = slot(&mut self.least_places, id) {
            return *x;
        }
        let p = self.places.get(id);
        let prices = &self.profile.prices;
        let mut best = None;
        for &k in &p.cpos {
            let x = Place::CPos(k);
            keep(&mut best, (x.cost(prices), x), |a, b| a.compare(b));
        }
        for &(c, r, l) in &p.groups {
            let few = |v: &[Seq]| -> Vec<Seq> {
                let m = v.iter().map(|&s| seq_cost(s, prices)).min().unwrap();
                v.iter().copied().filter(|&s| seq_cost(s, prices) == m).collect::<Vec<_>>()
            };
            for a in few(&self.seqs.items[l as usize]) {
                for b in few(&self.seqs.items[r as usize]) {
                    let x = Place::Pos(a, b, c);
                    keep(&mut best, (x.cost(prices), x), |a, b| a.compare(b));
                }
            }
        }
        let x = best.expect("a place set is not empty");
        *slot(&mut self.least_places, id) = Some(x);
        x
    }

    pub fn least_source(&mut self, id: Id) -> (u64, Source) {
        if let Some(x) = slot(&mut self.least_sources, id) {
            return x.clone();
        }
        let s = self.sources.get(id);
        let mut best = None;
        for &c in &s.cols {
            keep(&mut best, (0, Source::Col(c)), |a, b| a.compare(b));
        }
        for item in &s.lookups {
            let opts: Vec<(Option<(u64, Atom)>, Option<(u64, Atom)>)> = item
                .conditions
                .iter()
                .map(|c| {
                    let k = (c.constant != NONE)
                        .then(|| (self.profile.prices.constant_condition, Atom::Const(self.texts[c.constant as usize].clone())));
                    let a = (c.atoms != NONE).then(|| {
                        let (cost, a) = self.least_atom(c.atoms);
                        (CONDITION + cost, (*a).clone())
                    });
                    (k, a)
                })
                .collect();
            let m = opts.len();
            for mask in 1..1usize << m {
                let mut cost = SELECT;
                let mut conditions = Vec::with_capacity(m);
                for (i, (k, a)) in opts.iter().enumerate() {
                    if let Some((c, t)) = if mask >> i & 1 == 1 { a } else { k } {
                        cost += c;
                        conditions.push(t.clone());
                    }
                }
                if conditions.len() == m {
                    let x = Source::Select(Rc::new(Select { column: item.column, table: item.table, key: item.key, conditions }));
                    keep(&mut best, (cost, x), |a, b| a.compare(b));
                }
            }
        }
        let x = best.expect("a source set is not empty");
        *slot(&mut self.least_sources, id) = Some(x.clone());
        x
    }

    pub fn least_atom(&mut self, id: Id) -> (u64, Rc<Atom>) {
        if let Some(x) = slot(&mut self.least_atoms, id) {
            return x.clone();
        }
        let s = self.atoms.get(id);
        let mut best: Option<(u64, Atom)> = None;
        if s.constant != NONE {
            let t = self.texts[s.constant as usize].clone();
            keep(&mut best, (constant_cost(&t, &self.profile.prices), Atom::Const(t)), |a, b| a.compare(b));
        }
        if s.whole != NONE {
            let (c, x) = self.least_source(s.whole);
            keep(&mut best, (WHOLE + c, Atom::Whole(x)), |a, b| a.compare(b));
        }
        for &(s, l, r) in &s.subs {
            let (c, x) = self.least_source(s);
            let (d, p) = self.least_place(l);
            let (e, q) = self.least_place(r);
            keep(&mut best, (SUB + c + d + e, Atom::Sub(x, p, q)), |a, b| a.compare(b));
        }
        let (c, a) = best.expect("an atom set is not empty");
        let x = (c, Rc::new(a));
        *slot(&mut self.least_atoms, id) = Some(x.clone());
        x
    }

    pub fn least(&mut self, g: Id) -> (u64, Rc<Program>) {
        if let Some(x) = self.least_graphs.get(&g) {
            return x.clone();
        }
        let graph = self.graphs.get(g);
        let n = graph.nodes as usize;
        let mut best: Vec<Option<Chain>> = vec![None; n];
        best[n - 1] = Some(nil());
        for u in (0..n - 1).rev() {
            let mut b: Option<Chain> = None;
            for e in graph.out(u as u32) {
                let (c, a) = self.least_atom(e.atoms);
                let rest = best[e.to as usize].as_ref().expect("every node lies on a walk");
                if b.as_ref().map_or(false, |x| x.cost < ATOM + c + rest.cost) {
                    continue;
                }
                let x = cons(c, &a, rest);
                if b.as_ref().map_or(true, |y| compare_chains(&x, y) == Ordering::Less) {
                    b = Some(x);
                }
            }
            best[u] = b;
        }
        let c = best[0].take().unwrap();
        let x = (c.cost, Rc::new(to_program(&c)));
        self.least_graphs.insert(g, x.clone());
        x
    }

    fn top_places(&mut self, id: Id, k: usize) -> Vec<(u64, Place)> {
        let p = self.places.get(id);
        let prices = &self.profile.prices;
        let mut v: Vec<(u64, Place)> = p.cpos.iter().map(|&c| (Place::CPos(c).cost(prices), Place::CPos(c))).collect();
        for &(c, r, l) in &p.groups {
            let by = |v: &[Seq]| -> Vec<Seq> {
                let mut v = v.to_vec();
                v.sort_by_key(|&s| (seq_cost(s, prices), s));
                v
            };
            let (ls, rs) = (by(&self.seqs.items[l as usize]), by(&self.seqs.items[r as usize]));
            for (i, &a) in ls.iter().enumerate().take(k) {
                for &b in rs.iter().take(k / (i + 1)) {
                    let x = Place::Pos(a, b, c);
                    v.push((x.cost(prices), x));
                }
            }
        }
        finish(v, k, |a, b| a.compare(b))
    }

    fn top_sources(&mut self, id: Id, k: usize) -> Vec<(u64, Source)> {
        let s = self.sources.get(id);
        let mut v: Vec<(u64, Source)> = s.cols.iter().map(|&c| (0, Source::Col(c))).collect();
        for item in &s.lookups {
            // one more than k, since the choice of constants alone is no source
            let want = k + 1;
            let mut rows: Vec<(u64, Vec<Atom>)> = vec![(SELECT, Vec::new())];
            for c in &item.conditions {
                let mut opts: Vec<(u64, Atom)> = Vec::new();
                if c.constant != NONE {
                    opts.push((self.profile.prices.constant_condition, Atom::Const(self.texts[c.constant as usize].clone())));
                }
                if c.atoms != NONE {
                    opts.extend(self.top_atoms(c.atoms, want).into_iter().map(|(c, a)| (CONDITION + c, a)));
                }
                let opts = finish(opts, want, |a, b| a.compare(b));
                let mut next = Vec::new();
                for (i, (c, list)) in rows.iter().enumerate() {
                    for (d, a) in opts.iter().take(want / (i + 1)) {
                        let mut list = list.clone();
                        list.push(a.clone());
                        next.push((c + d, list));
                    }
                }
                rows = finish(next, want, |a, b| compare_atoms(a, b));
            }
            for (c, conditions) in rows {
                if conditions.iter().any(|a| !matches!(a, Atom::Const(_))) {
                    v.push((
                        c,
                        Source::Select(Rc::new(Select { column: item.column, table: item.table, key: item.key, conditions })),
                    ));
                }
            }
        }
        finish(v, k, |a, b| a.compare(b))
    }

    fn top_atoms(&mut self, id: Id, k: usize) -> Vec<(u64, Atom)> {
        let s = self.atoms.get(id);
        let mut v: Vec<(u64, Atom)> = Vec::new();
        if s.constant != NONE {
            let t = self.texts[s.constant as usize].clone();
            v.push((constant_cost(&t, &self.profile.prices), Atom::Const(t)));
        }
        if s.whole != NONE {
            v.extend(self.top_sources(s.whole, k).into_iter().map(|(c, x)| (WHOLE + c, Atom::Whole(x))));
        }
        for &(s, l, r) in &s.subs {
            let (ss, ls, rs) = (self.top_sources(s, k), self.top_places(l, k), self.top_places(r, k));
            for (i, (c, x)) in ss.iter().enumerate() {
                for (j, (d, p)) in ls.iter().enumerate().take(k / (i + 1)) {
                    for (e, q) in rs.iter().take(k / ((i + 1) * (j + 1))) {
                        v.push((SUB + c + d + e, Atom::Sub(x.clone(), *p, *q)));
                    }
                }
            }
        }
        finish(v, k, |a, b| a.compare(b))
    }

    pub fn best(&mut self, g: Id, k: usize) -> Vec<Program> {
        let graph = self.graphs.get(g);
        let n = graph.nodes as usize;
        let mut best: Vec<Vec<Chain>> = vec![Vec::new(); n];
        best[n - 1].push(nil());
        for u in (0..n - 1).rev() {
            let mut v: Vec<Chain> = Vec::new();
            for e in graph.out(u as u32) {
                // an edge whose least program is dearer than k found ones adds nothing
                let (c0, _) = self.least_atom(e.atoms);
                if v.len() >= 4 * k {
                    v.sort_by(compare_chains);
                    v.truncate(k);
                }
                if v.len() >= k && v[..k].iter().all(|x| x.cost < ATOM + c0 + best[e.to as usize][0].cost) {
                    continue;
                }
                let atoms = self.top_atoms(e.atoms, k);
                for (i, (c, a)) in atoms.into_iter().enumerate() {
                    let a = Rc::new(a);
                    for rest in best[e.to as usize].iter().take(k / (i + 1)) {
                        v.push(cons(c, &a, rest));
                    }
                }
            }
            v.sort_by(compare_chains);
            v.dedup_by(|a, b| compare_chains(a, b) == Ordering::Equal);
            v.truncate(k);
            best[u] = v;
        }
        best[0].iter().map(to_program).collect()
    }
}
