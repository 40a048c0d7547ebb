//! Which sequences of tokens end and begin at which positions of one text.
//! Sequences that end (or begin) at the same positions are one class; a class is a node of a trie of rising positions.
use crate::hash::FxMap;
use crate::profile::Profile;
use crate::text::class_of;
use crate::tokens::*;
use std::cell::RefCell;
use std::rc::Rc;

pub const ABSENT: u32 = 0;
pub const ALL: u32 = 1;

#[derive(Default)]
struct Trie {
    parent: Vec<u32>,
    pos: Vec<u32>,
    stamp: Vec<u32>,
    child: Vec<u32>,
}
impl Trie {
    fn new() -> Trie {
        // 0 is "nowhere", 1 is "everywhere" (the empty sequence alone)
        Trie { parent: vec![0, 0], pos: vec![0, 0], stamp: vec![u32::MAX; 2], child: vec![0, 0] }
    }
    fn step(&mut self, old: u32, k: u32) -> u32 {
        let o = old as usize;
        if self.stamp[o] == k {
            return self.child[o];
        }
        let id = self.parent.len() as u32;
        self.parent.push(old);
        self.pos.push(k);
        self.stamp.push(u32::MAX);
        self.child.push(0);
        self.stamp[o] = k;
        self.child[o] = id;
        id
    }
    fn list(&self, mut c: u32) -> Vec<u32> {
        let mut v = Vec::new();
        while c != 0 {
            v.push(self.pos[c as usize]);
            c = self.parent[c as usize];
        }
        v.reverse();
        v
    }
}

thread_local! {
    static FREE: RefCell<Vec<Vec<u32>>> = const { RefCell::new(Vec::new()) };
}
fn take() -> Vec<u32> {
    FREE.with(|f| f.borrow_mut().pop()).unwrap_or_else(|| vec![0; SEQS])
}

pub struct TextIndex {
    pub n: usize,
    l_seqs: Vec<u16>,
    l_off: Vec<u32>,
    r_seqs: Vec<u16>,
    r_off: Vec<u32>,
    lcls: Vec<u32>,
    rcls: Vec<u32>,
    lt: Trie,
    rt: Trie,
    cuts: FxMap<(u32, u32), Rc<[u32]>>,
    l_lists: FxMap<u32, Rc<[u32]>>,
    r_lists: FxMap<u32, Rc<[u32]>>,
}

impl Drop for TextIndex {
    fn drop(&mut self) {
        let (mut a, mut b) = (std::mem::take(&mut self.lcls), std::mem::take(&mut self.rcls));
        for &s in &self.l_seqs {
            a[s as usize] = 0;
        }
        for &s in &self.r_seqs {
            b[s as usize] = 0;
        }
        a[0] = 0;
        b[0] = 0;
        FREE.with(|f| {
            let mut f = f.borrow_mut();
            if f.len() < 64 {
                f.push(a);
                f.push(b);
            }
        });
    }
}

impl TextIndex {
    pub fn new(t: &[char], profile: &Profile) -> TextIndex {
        let n = t.len();
        // spans
        let mut starts: Vec<Vec<(Token, u32)>> = vec![Vec::new(); n + 1];
        let mut ends: Vec<Vec<(Token, u32)>> = vec![Vec::new(); n + 1];
        let mut add = |tok: Token, a: usize, b: usize| {
            starts[a].push((tok, b as u32));
            ends[b].push((tok, a as u32));
        };
        let classes: Vec<u8> = t.iter().map(|&c| class_of(c)).collect();
        for &token in profile.tokens {
            match SPANS[token as usize] {
                Span::Start => add(token, 0, 0),
                Span::End => add(token, n, n),
                Span::One(c) => (0..n).filter(|&i| t[i] == c).for_each(|i| add(token, i, i + 1)),
                Span::Run(spanned, outside) => {
                    let is_in = |i: usize| (classes[i] & spanned != 0) != outside;
                    let mut from = 0;
                    while from < n {
                        let to = (from..n).find(|&i| !is_in(i)).unwrap_or(n);
                        if from < to {
                            add(token, from, to);
                        }
                        from = to + 1;
                    }
                }
            }
        }
        let mut x = TextIndex {
            n,
            l_seqs: Vec::new(),
            l_off: vec![0],
            r_seqs: Vec::new(),
            r_off: vec![0],
            lcls: take(),
            rcls: take(),
            lt: Trie::new(),
            rt: Trie::new(),
            cuts: FxMap::default(),
            l_lists: FxMap::default(),
            r_lists: FxMap::default(),
        };
        x.lcls[0] = ALL;
        x.rcls[0] = ALL;
        for k in 0..=n {
            for &(t3, a) in &ends[k] {
                if t3 == END {
                    continue;
                }
                x.l_seqs.push(seq(&[t3]));
                if t3 == START {
                    continue;
                }
                for &(t2, b) in &ends[a as usize] {
                    if t2 == END {
                        continue;
                    }
                    x.l_seqs.push(seq(&[t2, t3]));
                    if t2 == START {
                        continue;
                    }
                    for &(t1, _) in &ends[b as usize] {
                        if t1 != END {
                            x.l_seqs.push(seq(&[t1, t2, t3]));
                        }
                    }
                }
            }
            let from = *x.l_off.last().unwrap() as usize;
            for &s in &x.l_seqs[from..] {
                let c = &mut x.lcls[s as usize];
                *c = x.lt.step(*c, k as u32);
            }
            x.l_off.push(x.l_seqs.len() as u32);
            for &(t1, a) in &starts[k] {
                if t1 == START {
                    continue;
                }
                x.r_seqs.push(seq(&[t1]));
                if t1 == END {
                    continue;
                }
                for &(t2, b) in &starts[a as usize] {
                    if t2 == START {
                        continue;
                    }
                    x.r_seqs.push(seq(&[t1, t2]));
                    if t2 == END {
                        continue;
                    }
                    for &(t3, _) in &starts[b as usize] {
                        if t3 != START {
                            x.r_seqs.push(seq(&[t1, t2, t3]));
                        }
                    }
                }
            }
            let from = *x.r_off.last().unwrap() as usize;
            for &s in &x.r_seqs[from..] {
                let c = &mut x.rcls[s as usize];
                *c = x.rt.step(*c, k as u32);
            }
            x.r_off.push(x.r_seqs.len() as u32);
        }
        x
    }
    #[inline]
    pub fn left_class(&self, s: Seq) -> u32 {
        self.lcls[s as usize]
    }
    #[inline]
    pub fn right_class(&self, s: Seq) -> u32 {
        self.rcls[s as usize]
    }
    /// the sequences that end at k, by class, in order; the empty one is alone in class ALL
    pub fn left_groups(&self, k: usize) -> Vec<(u32, Vec<u16>)> {
        groups(&self.l_seqs[self.l_off[k] as usize..self.l_off[k + 1] as usize], &self.lcls)
    }
    pub fn right_groups(&self, k: usize) -> Vec<(u32, Vec<u16>)> {
        groups(&self.r_seqs[self.r_off[k] as usize..self.r_off[k + 1] as usize], &self.rcls)
    }
    fn l_list(&mut self, c: u32) -> Rc<[u32]> {
        if let Some(v) = self.l_lists.get(&c) {
            return v.clone();
        }
        let v: Rc<[u32]> = if c == ALL { (0..=self.n as u32).collect::<Vec<_>>().into() } else { self.lt.list(c).into() };
        self.l_lists.insert(c, v.clone());
        v
    }
    fn r_list(&mut self, c: u32) -> Rc<[u32]> {
        if let Some(v) = self.r_lists.get(&c) {
            return v.clone();
        }
        let v: Rc<[u32]> = if c == ALL { (0..=self.n as u32).collect::<Vec<_>>().into() } else { self.rt.list(c).into() };
        self.r_lists.insert(c, v.clone());
        v
    }
    /// the cuts of two sequences of these classes
    pub fn cuts(&mut self, l: u32, r: u32) -> Rc<[u32]> {
        if l == ABSENT || r == ABSENT {
            return Rc::from(Vec::new());
        }
        if l == ALL {
            return self.r_list(r);
        }
        if r == ALL {
            return self.l_list(l);
        }
        if let Some(v) = self.cuts.get(&(l, r)) {
            return v.clone();
        }
        let (a, b) = (self.l_list(l), self.r_list(r));
        let (mut i, mut j) = (0, 0);
        let mut v = Vec::new();
        while i < a.len() && j < b.len() {
            if a[i] == b[j] {
                v.push(a[i]);
                i += 1;
                j += 1;
            } else if a[i] < b[j] {
                i += 1;
            } else {
                j += 1;
            }
        }
        let v: Rc<[u32]> = v.into();
        self.cuts.insert((l, r), v.clone());
        v
    }
}

fn groups(seqs: &[u16], cls: &[u32]) -> Vec<(u32, Vec<u16>)> {
    let mut v: Vec<(u32, u16)> = seqs.iter().map(|&s| (cls[s as usize], s)).collect();
    v.sort_unstable();
    let mut out: Vec<(u32, Vec<u16>)> = vec![(ALL, vec![EMPTY])];
    for (c, s) in v {
        if out.last().unwrap().0 != c {
            out.push((c, Vec::new()));
        }
        out.last_mut().unwrap().1.push(s);
    }
    out
}

pub fn nth(cuts: &[u32], c: i32) -> Option<u32> {
    let i = (c as i64).unsigned_abs() as usize;
    if i == 0 || i > cuts.len() {
        None
    } else if c > 0 {
        Some(cuts[i - 1])
    } else {
        Some(cuts[cuts.len() - i])
    }
}
