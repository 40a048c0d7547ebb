//! Examples, branches with their guards and programs, answers, and edits that can be undone. The branches of each beginning
//! of the examples are kept, so an edit goes on from the first example that changed; undo keeps whole states.
use crate::arena::*;
use crate::guard::Guards;
use crate::hash::FxMap;
use crate::profile::Placing;
use crate::script::Edit;
use crate::sheets::{Sheet, Tables};
use crate::text::Text;
use crate::tree::*;
use crate::values::RowEval;
use std::cell::RefCell;
use std::rc::Rc;

#[derive(Debug, PartialEq)]
pub enum EditError {
    NoSuchRow,
    HasExample,
    NoExample,
    TooLongText(usize),
    TooLongInputs(usize),
    TooMany,
    NoProgram(u32),
    TooManyBranches(u32),
    NoGuard(u32),
}
impl EditError {
    pub fn reason(&self) -> String {
        use EditError::*;
        match self {
            NoSuchRow => "no such row".into(),
            HasExample => "row has an example".into(),
            NoExample => "row has no example".into(),
            TooLongText(l) => format!("text of {l} characters is too long"),
            TooLongInputs(l) => format!("inputs of {l} characters are too long"),
            TooMany => "too many examples".into(),
            NoProgram(r) => format!("no program for row {r}"),
            TooManyBranches(r) => format!("too many branches at row {r}"),
            NoGuard(b) => format!("no guard for branch {b}"),
        }
    }
}

#[derive(Clone)]
struct Fold {
    items: Vec<usize>,
    kept: Id,
}
pub struct Branch {
    pub guard: Option<Guard>,
    pub program: Rc<Program>,
    pub graph: Id,
}
#[derive(Clone, Copy, PartialEq, Debug)]
pub enum Mark {
    Given,
    Sure,
    Doubt,
}
#[derive(Clone)]
pub struct Answer {
    pub branch: usize,
    pub text: Option<Text>,
    pub mark: Mark,
}
struct State {
    examples: Vec<(u32, Text)>,
    alone: Vec<Id>,
    prefixes: Vec<Rc<Vec<Fold>>>,
    branches: Vec<Branch>,
    answers: RefCell<FxMap<u32, Answer>>,
}
#[derive(Clone, Copy)]
pub struct Done {
    pub kind: &'static str,
    pub row: u32,
}

pub struct Session {
    pub settings: Settings,
    pub sheet: Sheet,
    pub tables: Tables,
    pub arena: Arena,
    guards: Guards,
    state: Rc<State>,
    past: Vec<(Done, Rc<State>)>,
    future: Vec<(Done, Rc<State>)>,
}

fn empty() -> Rc<State> {
    Rc::new(State {
        examples: Vec::new(),
        alone: Vec::new(),
        prefixes: vec![Rc::new(Vec::new())],
        branches: Vec::new(),
        answers: RefCell::default(),
    })
}

impl Session {
    pub fn new(settings: Settings, sheet: Sheet, tables: Tables) -> Session {
        let arena = Arena::new(settings.profile);
        Session {
            settings,
            sheet,
            tables,
            arena,
            guards: Guards::default(),
            state: empty(),
            past: Vec::new(),
            future: Vec::new(),
        }
    }
    pub fn branches(&self) -> &[Branch] {
        &self.state.branches
    }

    pub fn edit(&mut self, edit: &Edit) -> Result<(), EditError> {
        let new = self.outcome(edit)?;
        let done = match edit {
            Edit::Add { row, .. } => Done { kind: "add", row: *row },
            Edit::Correct { row, .. } => Done { kind: "correct", row: *row },
            Edit::Retract { row } => Done { kind: "retract", row: *row },
            Edit::Clear => Done { kind: "clear", row: 0 },
        };
        let old = std::mem::replace(&mut self.state, new);
        self.past.push((done, old));
        if self.past.len() > 32 {
            self.past.remove(0);
        }
        self.future.clear();
        Ok(())
    }

    fn outcome(&mut self, edit: &Edit) -> Result<Rc<State>, EditError> {
        use EditError::*;
        let (row, text) = match edit {
            Edit::Clear => return Ok(empty()),
            Edit::Add { row, text } | Edit::Correct { row, text } => (*row, Some(text)),
            Edit::Retract { row } => (*row, None),
        };
        let old = self.state.clone();
        if row == 0 || row > self.sheet.rows {
            return Err(NoSuchRow);
        }
        let found = old.examples.binary_search_by_key(&row, |e| e.0);
        let is_add = matches!(edit, Edit::Add { .. });
        if is_add && found.is_ok() {
            return Err(HasExample);
        }
        if !is_add && found.is_err() {
            return Err(NoExample);
        }
        if let Some(t) = text {
            if t.len() > 100 {
                return Err(TooLongText(t.len()));
            }
            let l: usize = self.sheet.inputs.iter().map(|&c| self.sheet.cell(row, c).unwrap().len()).sum();
            if l > 1000 {
                return Err(TooLongInputs(l));
            }
        }
        if is_add && old.examples.len() == 64 {
            return Err(TooMany);
        }
        let at = match found {
            Ok(i) | Err(i) => i,
        };
        let mut examples = old.examples.clone();
        let mut alone = old.alone.clone();
        match text {
            None => {
                examples.remove(at);
                alone.remove(at);
            }
            Some(t) => {
                let g = self.arena.build(row, t, &self.sheet, &self.tables, &self.settings).ok_or(NoProgram(row))?;
                if is_add {
                    examples.insert(at, (row, t.clone()));
                    alone.insert(at, g);
                } else {
                    examples[at].1 = t.clone();
                    alone[at] = g;
                }
            }
        }
        let mut prefixes: Vec<Rc<Vec<Fold>>> = old.prefixes[..=at].to_vec();
        for i in at..examples.len() {
            let mut folds: Vec<Fold> = (**prefixes.last().unwrap()).clone();
            let mut chosen: Option<(usize, Id, u64)> = None;
            for (b, f) in folds.iter().enumerate() {
                if let Some(g) = self.arena.meet(f.kept, alone[i]) {
                    if self.settings.profile.placing == Placing::FirstFit {
                        chosen = Some((b, g, 0));
                        break;
                    }
                    let w = self.arena.least(g).0;
                    if chosen.map_or(true, |c| w < c.2) {
                        chosen = Some((b, g, w));
                    }
                }
            }
            match chosen {
                Some((b, g, _)) => {
                    folds[b].items.push(i);
                    folds[b].kept = g;
                }
                None if folds.len() == 8 => return Err(TooManyBranches(examples[i].0)),
                None => folds.push(Fold { items: vec![i], kept: alone[i] }),
            }
            prefixes.push(Rc::new(folds));
        }
        let folds = prefixes.last().unwrap().clone();
        let mut branches = Vec::new();
        for (b, f) in folds.iter().enumerate() {
            let guard = if b + 1 == folds.len() {
                None
            } else {
                let rows = |f: &Fold| f.items.iter().map(|&i| examples[i].0).collect::<Vec<u32>>();
                let inside = rows(f);
                let outside: Vec<u32> = folds[b + 1..].iter().flat_map(rows).collect();
                Some(self.guards.guard(&self.sheet, &inside, &outside, self.settings.profile).ok_or(NoGuard(b as u32 + 1))?)
            };
            branches.push(Branch { guard, program: Rc::new(Program { atoms: Vec::new() }), graph: f.kept });
        }
        for b in &mut branches {
            b.program = self.arena.least(b.graph).1;
        }
        Ok(Rc::new(State { examples, alone, prefixes, branches, answers: RefCell::default() }))
    }

    pub fn undo(&mut self) -> Option<Done> {
        let (done, state) = self.past.pop()?;
        self.future.push((done, std::mem::replace(&mut self.state, state)));
        Some(done)
    }
    pub fn redo(&mut self) -> Option<Done> {
        let (done, state) = self.future.pop()?;
        self.past.push((done, std::mem::replace(&mut self.state, state)));
        Some(done)
    }
    pub fn forget(&mut self) {
        self.past.clear();
        self.future.clear();
    }

    pub fn answer(&mut self, row: u32) -> Answer {
        let st = self.state.clone();
        if st.branches.is_empty() {
            return Answer { branch: 0, text: None, mark: Mark::Sure };
        }
        if let Some(a) = st.answers.borrow().get(&row) {
            return a.clone();
        }
        let b = st.branches.iter().position(|b| b.guard.map_or(true, |g| guard_holds(&g, row, &self.sheet))).unwrap();
        let br = &st.branches[b];
        let text = program_value(&br.program, row, &self.sheet, &self.tables);
        let mark = if st.examples.binary_search_by_key(&row, |e| e.0).is_ok() {
            Mark::Given
        } else if RowEval::new(&mut self.arena, row, &self.sheet, &self.tables).doubt(br.graph, text.is_some()) {
            Mark::Doubt
        } else {
            Mark::Sure
        };
        let a = Answer { branch: b + 1, text, mark };
        st.answers.borrow_mut().insert(row, a.clone());
        a
    }

    pub fn best(&mut self, branch: usize, k: usize) -> Vec<Program> {
        let g = self.state.branches[branch - 1].graph;
        self.arena.best(g, k)
    }

    pub fn object(&mut self, row: u32) -> Option<(Program, Option<Text>)> {
        let st = self.state.clone();
        if st.branches.is_empty() {
            return None;
        }
        let a = self.answer(row);
        let g = st.branches[a.branch - 1].graph;
        let p = RowEval::new(&mut self.arena, row, &self.sheet, &self.tables).object(g, a.text.as_ref())?;
        let v = program_value(&p, row, &self.sheet, &self.tables);
        Some((p, v))
    }

    pub fn switch(&self) -> Option<Switch> {
        let (last, cases) = self.state.branches.split_last()?;
        Some(Switch {
            cases: cases.iter().map(|b| Case { guard: b.guard.unwrap(), program: (*b.program).clone() }).collect(),
            last: (*last.program).clone(),
        })
    }
}
