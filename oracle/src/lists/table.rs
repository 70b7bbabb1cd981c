//! A class table that tells the maker of lists which offers will be kept, so
//! that it can aim. It takes no part in any comparison: if it were wrong, the
//! lists would be other lists and the answers to them just as good.
//!
//! Entries and rules are document 01's. Parents are never shortened, and what
//! an offer changes is written on a trail, so that it can be taken back.

use crate::record::{kind, Record};

#[derive(Copy, Clone, PartialEq)]
enum Bound {
    Free,
    Unit,
    Sum(u16, u16),
    Product(u16, u16),
}

/// The state before a node.
struct Mark {
    entries: usize,
    trail: usize,
}

/// One merge: the root that lost its place, and what the winner was before.
struct Merge {
    under: u16,
    over: u16,
    size: u16,
    bound: Bound,
}

pub struct Table {
    parent: Vec<u16>,
    size: Vec<u16>,
    bound: Vec<Bound>,
    trail: Vec<Merge>,
    marks: Vec<Mark>,
    arrows: Vec<(u16, u16)>,
}

struct Clash;

const UNIT: u16 = 0;
/// The entry of the word n = 0; the others follow it.
const FIRST_WORD: u16 = 1;
const WORDS: u16 = 32;

impl Default for Table {
    fn default() -> Self {
        let mut table = Table {
            parent: vec![],
            size: vec![],
            bound: vec![],
            trail: vec![],
            marks: vec![],
            arrows: vec![],
        };
        table.entry(Bound::Unit);
        table.entry(Bound::Sum(UNIT, UNIT));
        for n in 1..WORDS {
            table.product(n, n);
        }
        table
    }
}

impl Table {
    pub fn kept(&self) -> usize {
        self.arrows.len()
    }

    /// Offers a well-formed node whose children exist, and tells if it is kept.
    pub fn offer(&mut self, node: &Record) -> bool {
        self.marks.push(Mark {
            entries: self.parent.len(),
            trail: self.trail.len(),
        });
        match self.arrow(node) {
            Ok(arrow) => {
                self.arrows.push(arrow);
                true
            }
            Err(Clash) => {
                self.undo();
                false
            }
        }
    }

    pub fn take_back(&mut self, count: usize) {
        while self.kept() > count {
            self.arrows.pop();
            self.undo();
        }
    }

    /// Takes back the last kept node if it closed a cycle, and tells if so.
    pub fn take_back_a_cycle(&mut self) -> bool {
        let found = self.has_new_cycle();
        if found {
            self.arrows.pop();
            self.undo();
        }
        found
    }

    /// A new cycle passes through a class that the last node's rules merged.
    fn has_new_cycle(&self) -> bool {
        const NEW: u8 = 0;
        const OPEN: u8 = 1;
        const DONE: u8 = 2;
        let since = self.marks.last().map_or(0, |mark| mark.trail);
        let mut state = vec![NEW; self.parent.len()];
        let mut stack: Vec<u16> = vec![];
        for merge in &self.trail[since..] {
            stack.push(self.root(merge.over));
            while let Some(&class) = stack.last() {
                let seen = state[class as usize];
                if seen != NEW {
                    stack.pop();
                    state[class as usize] = DONE;
                    continue;
                }
                state[class as usize] = OPEN;
                if let Bound::Sum(a, b) | Bound::Product(a, b) = self.bound[class as usize] {
                    for part in [self.root(a), self.root(b)] {
                        match state[part as usize] {
                            OPEN => return true,
                            NEW => stack.push(part),
                            _ => {}
                        }
                    }
                }
            }
        }
        false
    }

    /// Goes back to the last mark.
    fn undo(&mut self) {
        let Some(mark) = self.marks.pop() else { return };
        while self.trail.len() > mark.trail {
            let Some(merge) = self.trail.pop() else {
                return;
            };
            self.parent[merge.under as usize] = merge.under;
            self.size[merge.over as usize] = merge.size;
            self.bound[merge.over as usize] = merge.bound;
        }
        self.parent.truncate(mark.entries);
        self.size.truncate(mark.entries);
        self.bound.truncate(mark.entries);
    }

    fn entry(&mut self, bound: Bound) -> u16 {
        let entry = self.parent.len() as u16;
        self.parent.push(entry);
        self.size.push(1);
        self.bound.push(bound);
        entry
    }

    fn free(&mut self) -> u16 {
        self.entry(Bound::Free)
    }

    fn product(&mut self, left: u16, right: u16) -> u16 {
        self.entry(Bound::Product(left, right))
    }

    fn root(&self, mut entry: u16) -> u16 {
        while self.parent[entry as usize] != entry {
            entry = self.parent[entry as usize];
        }
        entry
    }

    fn join(&mut self, x: u16, y: u16) -> Result<(), Clash> {
        let mut waiting = vec![(x, y)];
        while let Some((x, y)) = waiting.pop() {
            let (mut over, mut under) = (self.root(x), self.root(y));
            if over == under {
                continue;
            }
            if self.size[over as usize] < self.size[under as usize] {
                (over, under) = (under, over);
            }
            let (kept, lost) = (self.bound[over as usize], self.bound[under as usize]);
            self.trail.push(Merge {
                under,
                over,
                size: self.size[over as usize],
                bound: kept,
            });
            self.parent[under as usize] = over;
            self.size[over as usize] += self.size[under as usize];
            match (kept, lost) {
                (_, Bound::Free) | (Bound::Unit, Bound::Unit) => {}
                (Bound::Free, _) => self.bound[over as usize] = lost,
                (Bound::Sum(a, b), Bound::Sum(c, d))
                | (Bound::Product(a, b), Bound::Product(c, d)) => {
                    waiting.push((b, d));
                    waiting.push((a, c));
                }
                _ => return Err(Clash),
            }
        }
        Ok(())
    }

    fn arrow(&mut self, node: &Record) -> Result<(u16, u16), Clash> {
        let child = |table: &Table, number: u16| table.arrows[number as usize];
        Ok(match node.kind {
            kind::IDEN => {
                let a = self.free();
                (a, a)
            }
            kind::UNIT => (self.free(), UNIT),
            kind::WITNESS | kind::FAIL => (self.free(), self.free()),
            kind::WORD => (UNIT, FIRST_WORD + node.a),
            kind::INJL | kind::INJR => {
                let (source, target) = child(self, node.a);
                let other = self.free();
                let sum = match node.kind {
                    kind::INJL => Bound::Sum(target, other),
                    _ => Bound::Sum(other, target),
                };
                (source, self.entry(sum))
            }
            kind::TAKE | kind::DROP => {
                let (source, target) = child(self, node.a);
                let other = self.free();
                let product = match node.kind {
                    kind::TAKE => self.product(source, other),
                    _ => self.product(other, source),
                };
                (product, target)
            }
            kind::COMP => {
                let ((source, middle), (other, target)) =
                    (child(self, node.a), child(self, node.b));
                self.join(middle, other)?;
                (source, target)
            }
            kind::PAIR => {
                let ((source, left), (other, right)) = (child(self, node.a), child(self, node.b));
                self.join(source, other)?;
                (source, self.product(left, right))
            }
            kind::CASE => self.case(Some(node.a), Some(node.b))?,
            kind::ASSERTL => self.case(Some(node.a), None)?,
            kind::ASSERTR => self.case(None, Some(node.a))?,
            kind::DISCONNECT => {
                let right = child(self, node.b);
                self.disconnect(node.a, right)?
            }
            _ => {
                let right = (self.free(), self.free());
                self.disconnect(node.a, right)?
            }
        })
    }

    fn case(&mut self, left: Option<u16>, right: Option<u16>) -> Result<(u16, u16), Clash> {
        let (a, b, c, target) = (self.free(), self.free(), self.free(), self.free());
        for (child, part) in [(left, a), (right, b)] {
            if let Some(number) = child {
                let (child_source, child_target) = self.arrows[number as usize];
                let needed = self.product(part, c);
                self.join(child_source, needed)?;
                self.join(target, child_target)?;
            }
        }
        let sum = self.entry(Bound::Sum(a, b));
        Ok((self.product(sum, c), target))
    }

    fn disconnect(&mut self, left: u16, right: (u16, u16)) -> Result<(u16, u16), Clash> {
        let (a, b) = (self.free(), self.free());
        let (source, target) = self.arrows[left as usize];
        let needed = self.product(FIRST_WORD + 8, a);
        self.join(source, needed)?;
        let needed = self.product(b, right.0);
        self.join(target, needed)?;
        Ok((a, self.product(b, right.1)))
    }
}
