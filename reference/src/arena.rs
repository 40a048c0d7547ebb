//! Sets of places, sources and atoms, and graphs over them. Each stands once, under a number.
use crate::hash::FxMap;
use crate::places::*;
use crate::profile::*;
use crate::text::*;
use crate::tree::*;
use std::hash::Hash;
use std::rc::Rc;

/// The number of a set or a graph.
pub type Id = u32;
/// No set: the empty one.
pub const NONE: Id = u32::MAX;

/// Values under numbers; equal ones have one number.
pub struct Numbered<T> {
    map: FxMap<Rc<T>, Id>,
    pub items: Vec<Rc<T>>,
}
impl<T: Hash + Eq> Numbered<T> {
    fn new() -> Self {
        Numbered { map: FxMap::default(), items: Vec::new() }
    }
    pub fn put(&mut self, x: T) -> Id {
        if let Some(&i) = self.map.get(&x) {
            return i;
        }
        let r = Rc::new(x);
        let i = self.items.len() as Id;
        self.items.push(r.clone());
        self.map.insert(r, i);
        i
    }
    #[inline]
    pub fn get(&self, i: Id) -> Rc<T> {
        self.items[i as usize].clone()
    }
}

/// The places of a set: counted positions, and for each count a list of products (right set, left set) with
/// different right sets and disjoint left sets. Equal sets of places have equal contents.
#[derive(Hash, PartialEq, Eq, Debug)]
pub struct PlaceSet {
    pub cpos: Vec<i32>,
    pub groups: Vec<(i32, Id, Id)>,
}
/// The choices of one condition of a lookup: a constant, and other atoms.
#[derive(Hash, PartialEq, Eq, Clone, Copy, PartialOrd, Ord, Debug)]
pub struct Condition {
    pub constant: Id,
    pub atoms: Id,
}
/// Lookups that differ in their conditions alone.
#[derive(Hash, PartialEq, Eq, Clone, PartialOrd, Ord, Debug)]
pub struct Lookup {
    pub column: u32,
    pub table: u32,
    pub key: u32,
    pub conditions: Vec<Condition>,
}
#[derive(Hash, PartialEq, Eq, Debug)]
pub struct SourceSet {
    pub cols: Vec<u32>,
    pub lookups: Vec<Lookup>,
}
#[derive(Hash, PartialEq, Eq, Debug)]
pub struct AtomSet {
    pub constant: Id,
    pub whole: Id,
    pub subs: Vec<(Id, Id, Id)>,
}
#[derive(Hash, PartialEq, Eq, Clone, Copy, Debug)]
pub struct Edge {
    pub from: u32,
    pub to: u32,
    pub atoms: Id,
}
/// Edges are sorted by `from`, then `to`; those from node u are `edges[first[u]..first[u + 1]]`.
#[derive(Hash, PartialEq, Eq, Debug)]
pub struct Graph {
    pub nodes: u32,
    pub edges: Vec<Edge>,
    pub first: Vec<u32>,
}
impl Graph {
    pub fn out(&self, u: u32) -> &[Edge] {
        &self.edges[self.first[u as usize] as usize..self.first[u as usize + 1] as usize]
    }
}

pub struct Arena {
    pub profile: &'static Profile,
    pub texts: Vec<Text>,
    text_ids: FxMap<Text, Id>,
    pub seqs: Numbered<Vec<u16>>,
    pub places: Numbered<PlaceSet>,
    pub sources: Numbered<SourceSet>,
    pub atoms: Numbered<AtomSet>,
    pub graphs: Numbered<Graph>,
    pub met_seqs: FxMap<(Id, Id), Id>,
    pub met_places: FxMap<(Id, Id), Id>,
    pub met_sources: FxMap<(Id, Id), Id>,
    pub met_atoms: FxMap<(Id, Id), Id>,
    pub met_graphs: FxMap<(Id, Id), Id>,
    pub text_places: FxMap<Text, Rc<Vec<Id>>>,
    pub least_places: Vec<Option<(u64, Place)>>,
    pub least_sources: Vec<Option<(u64, Source)>>,
    pub least_atoms: Vec<Option<(u64, Rc<Atom>)>>,
    pub least_graphs: FxMap<Id, (u64, Rc<Program>)>,
}

/// Two numbers in order, since a meet of sets is the same either way.
pub fn pair(a: Id, b: Id) -> (Id, Id) {
    if a < b {
        (a, b)
    } else {
        (b, a)
    }
}

impl Arena {
    pub fn new(profile: &'static Profile) -> Arena {
        Arena {
            profile,
            texts: Vec::new(),
            text_ids: FxMap::default(),
            seqs: Numbered::new(),
            places: Numbered::new(),
            sources: Numbered::new(),
            atoms: Numbered::new(),
            graphs: Numbered::new(),
            met_seqs: FxMap::default(),
            met_places: FxMap::default(),
            met_sources: FxMap::default(),
            met_atoms: FxMap::default(),
            met_graphs: FxMap::default(),
            text_places: FxMap::default(),
            least_places: Vec::new(),
            least_sources: Vec::new(),
            least_atoms: Vec::new(),
            least_graphs: FxMap::default(),
        }
    }
    pub fn text_id(&mut self, t: &[char]) -> Id {
        if let Some(&i) = self.text_ids.get(t) {
            return i;
        }
        let r: Text = t.into();
        let i = self.texts.len() as Id;
        self.texts.push(r.clone());
        self.text_ids.insert(r, i);
        i
    }
}
