//! Document 01 read word by word, with nothing clever: entries in a list, a class is a root, a refused offer is dropped with its
//! copy of the state. It shares no code with the library, nor with the binding but for `Answer`.

use std::collections::HashMap;
use tsarovima::Answer;

#[derive(Clone, Copy, PartialEq)]
enum Bound {
    Free,
    Unit,
    Sum(usize, usize),
    Product(usize, usize),
}
use Bound::{Free, Product, Sum, Unit};

#[derive(Clone)]
struct State {
    bounds: Vec<Bound>,
    parents: Vec<usize>,
    arrows: Vec<(usize, usize)>,
    joins: u32,
}

pub struct Model {
    /// The states after 0, 1, .. kept nodes: a take-back drops the later ones.
    states: Vec<State>,
    /// The listing of the last record of kind 65, as far as it is fixed.
    pub listing: Vec<u16>,
}

const UNIT: usize = 0;
const MOST: usize = 1024;

fn word(n: usize) -> usize {
    1 + n
}

fn answer(code: u16, first: usize, second: u32) -> Answer {
    Answer { code, first: first as u16, second }
}

impl State {
    fn fresh() -> State {
        let mut state = State { bounds: vec![], parents: vec![], arrows: vec![], joins: 0 };
        state.add(Unit);
        state.add(Sum(UNIT, UNIT));
        for n in 1..32 {
            state.add(Product(word(n - 1), word(n - 1)));
        }
        state
    }

    fn add(&mut self, bound: Bound) -> usize {
        self.bounds.push(bound);
        self.parents.push(self.parents.len());
        self.parents.len() - 1
    }

    fn root(&self, entry: usize) -> usize {
        let mut at = entry;
        while self.parents[at] != at {
            at = self.parents[at];
        }
        at
    }

    /// Makes two entries one class, and their parts; false if kinds differ.
    fn join(&mut self, a: usize, b: usize) -> bool {
        let mut pairs = vec![(a, b)];
        while let Some((a, b)) = pairs.pop() {
            let (a, b) = (self.root(a), self.root(b));
            if a == b {
                continue;
            }
            match (self.bounds[a], self.bounds[b]) {
                (Sum(l, r), Sum(m, s)) | (Product(l, r), Product(m, s)) => pairs.extend([(l, m), (r, s)]),
                (x, y) if x == y => {}
                (_, Free) => {}
                (Free, bound) => self.bounds[a] = bound,
                _ => return false,
            }
            self.parents[b] = a;
            self.joins += 1;
        }
        true
    }

    /// One row of document 01's table: the arrow, or the rule that clashes.
    fn combine(&mut self, kind: u8, s: usize, t: usize) -> Result<(usize, usize), usize> {
        let arrow = |state: &State, node: usize| state.arrows[node];
        let need = |holds: bool, rule: usize| if holds { Ok(()) } else { Err(rule) };
        Ok(match kind {
            1 => {
                let a = self.add(Free);
                (a, a)
            }
            2 => (self.add(Free), UNIT),
            3 | 4 => {
                let (source, target) = arrow(self, s);
                let other = self.add(Free);
                (source, self.add(if kind == 3 { Sum(target, other) } else { Sum(other, target) }))
            }
            5 | 6 => {
                let (source, target) = arrow(self, s);
                let other = self.add(Free);
                (self.add(if kind == 5 { Product(source, other) } else { Product(other, source) }), target)
            }
            7 => {
                let (left, right) = (arrow(self, s), arrow(self, t));
                need(self.join(left.1, right.0), 1)?;
                (left.0, right.1)
            }
            8..=10 => {
                let (a, b, c, d) = (self.add(Free), self.add(Free), self.add(Free), self.add(Free));
                let sum = self.add(Sum(a, b));
                let source = self.add(Product(sum, c));
                if kind != 10 {
                    let left = arrow(self, s);
                    let needed = self.add(Product(a, c));
                    need(self.join(left.0, needed), 3)?;
                    assert!(self.join(d, left.1));
                }
                if kind != 9 {
                    let right = arrow(self, if kind == 8 { t } else { s });
                    let needed = self.add(Product(b, c));
                    need(self.join(right.0, needed), 4)?;
                    need(self.join(d, right.1), 5)?;
                }
                (source, d)
            }
            11 => {
                let (left, right) = (arrow(self, s), arrow(self, t));
                need(self.join(left.0, right.0), 2)?;
                (left.0, self.add(Product(left.1, right.1)))
            }
            12 | 13 => {
                let left = arrow(self, s);
                let right = if kind == 12 { arrow(self, t) } else { (self.add(Free), self.add(Free)) };
                let (a, b) = (self.add(Free), self.add(Free));
                let source = self.add(Product(word(8), a));
                need(self.join(left.0, source), 6)?;
                let target = self.add(Product(b, right.0));
                need(self.join(left.1, target), 7)?;
                (a, self.add(Product(b, right.1)))
            }
            14 | 15 => (self.add(Free), self.add(Free)),
            _ => (UNIT, word(s)),
        })
    }

    /// Whether a class has an end; `seen` has true for one that has, false for one on the way or without.
    fn ends(&self, entry: usize, seen: &mut HashMap<usize, bool>) -> bool {
        let root = self.root(entry);
        if let Some(known) = seen.get(&root) {
            return *known;
        }
        seen.insert(root, false);
        let ends = match self.bounds[root] {
            Free | Unit => true,
            Sum(l, r) | Product(l, r) => self.ends(l, seen) && self.ends(r, seen),
        };
        seen.insert(root, ends);
        ends
    }

    fn number(&self, entry: usize, types: &mut Vec<[u16; 3]>, known: &mut HashMap<usize, u16>) -> u16 {
        let root = self.root(entry);
        if let Some(number) = known.get(&root) {
            return *number;
        }
        let triple = match self.bounds[root] {
            Free | Unit => [0, 0, 0],
            Sum(l, r) => [1, self.number(l, types, known), self.number(r, types, known)],
            Product(l, r) => [2, self.number(l, types, known), self.number(r, types, known)],
        };
        let number = types.iter().position(|other| *other == triple).unwrap_or_else(|| {
            types.push(triple);
            types.len() - 1
        });
        known.insert(root, number as u16);
        number as u16
    }

    /// The listing, or the lowest node without types.
    fn close(&self) -> Result<Vec<u16>, usize> {
        let mut seen = HashMap::new();
        for (node, (source, target)) in self.arrows.iter().enumerate() {
            if !self.ends(*source, &mut seen) || !self.ends(*target, &mut seen) {
                return Err(node);
            }
        }
        let (mut types, mut known, mut pairs) = (vec![], HashMap::new(), vec![]);
        for (source, target) in &self.arrows {
            pairs.push(self.number(*source, &mut types, &mut known));
            pairs.push(self.number(*target, &mut types, &mut known));
        }
        let count = types.len() as u16;
        let mut listing = vec![self.arrows.len() as u16, count, 4, 4 + 3 * count];
        listing.extend(types.iter().flatten());
        listing.extend(pairs);
        Ok(listing)
    }
}

impl Model {
    pub fn new() -> Model {
        Model { states: vec![State::fresh()], listing: vec![0, 0, 4, 4] }
    }

    pub fn kept(&self) -> usize {
        self.states.len() - 1
    }

    pub fn put(&mut self, record: [u8; 8]) -> Answer {
        let [kind, zero, a, aa, b, bb, y, z] = record;
        let (a, b) = (usize::from(a) + 256 * usize::from(aa), usize::from(b) + 256 * usize::from(bb));
        let fields = match kind {
            1 | 2 | 14 | 15 | 65 => 0,
            3..=6 | 9 | 10 | 13 | 16 | 64 => 1,
            7 | 8 | 11 | 12 => 2,
            _ => 3,
        };
        let unused = (fields < 1 && a != 0) || (fields < 2 && b != 0) || [zero, y, z] != [0, 0, 0];
        if kind == 65 {
            self.listing = vec![0, 0, 4, 4];
        }
        if fields == 3 || unused || (kind == 16 && a > 31) {
            return answer(1, 0, 0);
        }
        match kind {
            64 if a <= self.kept() => {
                self.states.truncate(a + 1);
                answer(0, a, 0)
            }
            64 => answer(6, self.kept(), 0),
            65 => match self.states[self.kept()].close() {
                Ok(listing) => {
                    let types = u32::from(listing[1]);
                    self.listing = listing;
                    answer(0, self.kept(), types)
                }
                Err(node) => answer(5, node, 0),
            },
            _ => self.offer(kind, a, b),
        }
    }

    fn offer(&mut self, kind: u8, a: usize, b: usize) -> Answer {
        let kept = self.kept();
        if kept == MOST {
            return answer(3, 0, 0);
        }
        let one = matches!(kind, 3..=13);
        let two = matches!(kind, 7 | 8 | 11 | 12);
        if (one && a >= kept) || (two && b >= kept) {
            return answer(2, 0, 0);
        }
        let mut state = self.states[kept].clone();
        let before = state.joins;
        match state.combine(kind, a, b) {
            Ok(arrow) => {
                state.arrows.push(arrow);
                let joins = state.joins - before;
                self.states.push(state);
                answer(0, kept, joins)
            }
            Err(rule) => answer(4, rule, 0),
        }
    }
}
