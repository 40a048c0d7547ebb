//! Whether the programs of a graph differ on a row.
use crate::arena::*;
use crate::text::*;
use crate::values::*;

impl RowEval<'_> {
    /// the one value of all atoms of the set, or None where one has no value or two differ
    fn one_value(&mut self, id: Id) -> Option<Text> {
        let s = self.arena.atoms.get(id);
        let mut one: Option<Text> = None;
        if s.constant != NONE {
            one = Some(self.arena.texts[s.constant as usize].clone());
        }
        if s.whole != NONE {
            let v = self.source_vals(s.whole);
            if v.none {
                return None;
            }
            for t in &v.texts {
                if t.is_empty() || one.as_ref().map_or(false, |o| o != t) {
                    return None;
                }
                one = Some(t.clone());
            }
        }
        for &(s, l, r) in &s.subs {
            let v = self.source_vals(s);
            if v.none {
                return None;
            }
            for t in &v.texts {
                let (a, b) = (self.positions(l, t), self.positions(r, t));
                if a.none || b.none || a.at.last() >= b.at.first() {
                    return None;
                }
                for &x in &a.at {
                    for &y in &b.at {
                        let p = &t[x as usize..y as usize];
                        match &one {
                            None => one = Some(p.into()),
                            Some(o) if **o != *p => return None,
                            _ => {}
                        }
                    }
                }
            }
        }
        one
    }

    /// Whether two programs of the graph answer differently on the row; `known` says that one is known to have a value there.
    pub fn doubt(&mut self, g: Id, known: bool) -> bool {
        let graph = self.arena.graphs.get(g);
        let mut spelled: Vec<Option<Vec<char>>> = vec![None; graph.nodes as usize];
        spelled[0] = Some(Vec::new());
        for e in &graph.edges {
            let mut now = spelled[e.from as usize].clone().expect("every node lies on a walk");
            match self.one_value(e.atoms) {
                Some(t) => {
                    now.extend_from_slice(&t);
                    match &spelled[e.to as usize] {
                        None => spelled[e.to as usize] = Some(now),
                        Some(x) if *x == now => {}
                        // Two answers unless some atom elsewhere has no value; either way a walk with values decides.
                        _ => return known || self.some_walk(&graph),
                    }
                }
                None => return known || self.some_walk(&graph),
            }
        }
        false
    }

    /// some program of the graph has a value
    fn some_walk(&mut self, graph: &Graph) -> bool {
        let n = graph.nodes as usize;
        let mut ok = vec![false; n];
        ok[0] = true;
        for e in &graph.edges {
            if ok[e.from as usize] && !ok[e.to as usize] && self.has_value(e.atoms) {
                ok[e.to as usize] = true;
            }
        }
        ok[n - 1]
    }
}
