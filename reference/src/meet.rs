//! Meets: the set of what stands in both of two sets, and the graph of the programs that stand in both of two graphs.
use crate::arena::*;
use crate::hash::FxMap;

impl Arena {
    fn meet_seqs(&mut self, a: Id, b: Id) -> Id {
        if a == b {
            return a;
        }
        if let Some(&r) = self.met_seqs.get(&pair(a, b)) {
            return r;
        }
        let (x, y) = (&self.seqs.items[a as usize], &self.seqs.items[b as usize]);
        let mut v = Vec::new();
        let (mut i, mut j) = (0, 0);
        while i < x.len() && j < y.len() {
            if x[i] == y[j] {
                v.push(x[i]);
                i += 1;
                j += 1;
            } else if x[i] < y[j] {
                i += 1;
            } else {
                j += 1;
            }
        }
        let r = if v.is_empty() { NONE } else { self.seqs.put(v) };
        self.met_seqs.insert(pair(a, b), r);
        r
    }

    pub fn meet_places(&mut self, a: Id, b: Id) -> Id {
        if a == b {
            return a;
        }
        if let Some(&r) = self.met_places.get(&pair(a, b)) {
            return r;
        }
        let (x, y) = (self.places.get(a), self.places.get(b));
        let cpos: Vec<i32> = x.cpos.iter().copied().filter(|k| y.cpos.contains(k)).collect();
        let mut groups: Vec<(i32, Id, Id)> = Vec::new();
        let (gx, gy) = (&x.groups, &y.groups);
        let (mut i, mut j) = (0, 0);
        while i < gx.len() && j < gy.len() {
            let (c, d) = (gx[i].0, gy[j].0);
            if c < d {
                i += 1;
                continue;
            }
            if d < c {
                j += 1;
                continue;
            }
            let ie = i + gx[i..].iter().take_while(|g| g.0 == c).count();
            let je = j + gy[j..].iter().take_while(|g| g.0 == c).count();
            let from = groups.len();
            for p in &gx[i..ie] {
                for q in &gy[j..je] {
                    let l = self.meet_seqs(p.2, q.2);
                    if l == NONE {
                        continue;
                    }
                    let r = self.meet_seqs(p.1, q.1);
                    if r != NONE {
                        groups.push((c, r, l));
                    }
                }
            }
            // one left set for each right set
            groups[from..].sort_unstable();
            let mut w = from;
            let mut k = from;
            while k < groups.len() {
                let mut e = k + 1;
                while e < groups.len() && groups[e].1 == groups[k].1 {
                    e += 1;
                }
                if e - k > 1 {
                    let mut u: Vec<u16> = Vec::new();
                    for g in &groups[k..e] {
                        u.extend_from_slice(&self.seqs.items[g.2 as usize]);
                    }
                    u.sort_unstable();
                    let l = self.seqs.put(u);
                    groups[w] = (c, groups[k].1, l);
                } else {
                    groups[w] = groups[k];
                }
                w += 1;
                k = e;
            }
            groups.truncate(w);
            i = ie;
            j = je;
        }
        let r = if cpos.is_empty() && groups.is_empty() { NONE } else { self.places.put(PlaceSet { cpos, groups }) };
        self.met_places.insert(pair(a, b), r);
        r
    }

    fn meet_cond(&mut self, a: Condition, b: Condition) -> Option<Condition> {
        let constant = if a.constant == b.constant { a.constant } else { NONE };
        let atoms = if a.atoms == NONE || b.atoms == NONE { NONE } else { self.meet_atoms(a.atoms, b.atoms) };
        if constant == NONE && atoms == NONE {
            None
        } else {
            Some(Condition { constant, atoms })
        }
    }

    pub fn meet_sources(&mut self, a: Id, b: Id) -> Id {
        if a == b {
            return a;
        }
        if let Some(&r) = self.met_sources.get(&pair(a, b)) {
            return r;
        }
        let (x, y) = (self.sources.get(a), self.sources.get(b));
        let cols: Vec<u32> = x.cols.iter().copied().filter(|k| y.cols.contains(k)).collect();
        let mut lookups: Vec<Lookup> = Vec::new();
        for p in &x.lookups {
            let from = y.lookups.partition_point(|q| (q.column, q.table, q.key) < (p.column, p.table, p.key));
            for q in &y.lookups[from..] {
                if (q.column, q.table, q.key) != (p.column, p.table, p.key) {
                    break;
                }
                let mut conditions = Vec::with_capacity(p.conditions.len());
                for (&c, &d) in p.conditions.iter().zip(&q.conditions) {
                    match self.meet_cond(c, d) {
                        Some(m) => conditions.push(m),
                        None => break,
                    }
                }
                if conditions.len() == p.conditions.len() && conditions.iter().any(|c| c.atoms != NONE) {
                    lookups.push(Lookup { conditions, ..*p });
                }
            }
        }
        lookups.sort_unstable();
        let r = if cols.is_empty() && lookups.is_empty() { NONE } else { self.sources.put(SourceSet { cols, lookups }) };
        self.met_sources.insert(pair(a, b), r);
        r
    }

    pub fn meet_atoms(&mut self, a: Id, b: Id) -> Id {
        if a == b {
            return a;
        }
        if let Some(&r) = self.met_atoms.get(&pair(a, b)) {
            return r;
        }
        let (x, y) = (self.atoms.get(a), self.atoms.get(b));
        let constant = if x.constant == y.constant { x.constant } else { NONE };
        let whole = if x.whole == NONE || y.whole == NONE { NONE } else { self.meet_sources(x.whole, y.whole) };
        let mut subs = Vec::new();
        for p in &x.subs {
            for q in &y.subs {
                let s = self.meet_sources(p.0, q.0);
                if s == NONE {
                    continue;
                }
                let l = self.meet_places(p.1, q.1);
                if l == NONE {
                    continue;
                }
                let r = self.meet_places(p.2, q.2);
                if r != NONE {
                    subs.push((s, l, r));
                }
            }
        }
        subs.sort_unstable();
        let r = if constant == NONE && whole == NONE && subs.is_empty() {
            NONE
        } else {
            self.atoms.put(AtomSet { constant, whole, subs })
        };
        if self.met_atoms.len() > 8_000_000 {
            self.met_atoms = FxMap::default();
        }
        self.met_atoms.insert(pair(a, b), r);
        r
    }

    /// The graph of the programs that stand in both, where there are any.
    pub fn meet(&mut self, a: Id, b: Id) -> Option<Id> {
        if a == b {
            return Some(a);
        }
        if let Some(&r) = self.met_graphs.get(&pair(a, b)) {
            return (r != NONE).then_some(r);
        }
        let (x, y) = (self.graphs.get(a), self.graphs.get(b));
        let m = y.nodes as usize;
        let total = x.nodes as usize * m;
        let mut seen = vec![false; total];
        seen[0] = true;
        let mut edges: Vec<Edge> = Vec::new();
        for u in 0..x.nodes {
            for v in 0..y.nodes {
                let p = u as usize * m + v as usize;
                if !seen[p] {
                    continue;
                }
                for e in x.out(u) {
                    for f in y.out(v) {
                        let atoms = self.meet_atoms(e.atoms, f.atoms);
                        if atoms != NONE {
                            let to = e.to as usize * m + f.to as usize;
                            seen[to] = true;
                            edges.push(Edge { from: p as u32, to: to as u32, atoms });
                        }
                    }
                }
            }
        }
        let r = if seen[total - 1] { self.trim(total as u32, edges) } else { None };
        self.met_graphs.insert(pair(a, b), r.unwrap_or(NONE));
        r
    }
}
