//! What a comparison has seen, to be told at its end.

use std::fmt;

use crate::answer::{code, Answers};
use crate::record::{kind, Record};
use crate::rules::TEXTS;

#[derive(Default)]
pub struct Counts {
    pub jobs: u64,
    pub records: u64,
    pub longest: usize,
    pub kept: [u64; 17],
    pub clashes: [u64; TEXTS.len()],
    pub malformed: u64,
    pub no_such_child: u64,
    pub full: u64,
    pub taken_back: u64,
    pub too_few_kept: u64,
    pub closed: u64,
    pub cycles: u64,
    pub listings: u64,
    pub types: u64,
    pub most_types: u16,
}

impl Counts {
    /// Counts one job by the answers that one side gave.
    pub fn add(&mut self, records: &[Record], answers: &Answers) {
        self.jobs += 1;
        self.records += records.len() as u64;
        self.longest = self.longest.max(records.len());
        for (record, answer) in records.iter().zip(&answers.answers) {
            let count = match (answer.code, record.kind) {
                (code::DONE, kind::TAKE_BACK) => &mut self.taken_back,
                (code::DONE, kind::CLOSE) => &mut self.closed,
                (code::DONE, node) => match self.kept.get_mut(node as usize) {
                    Some(count) => count,
                    None => continue,
                },
                (code::MALFORMED, _) => &mut self.malformed,
                (code::NO_SUCH_CHILD, _) => &mut self.no_such_child,
                (code::FULL, _) => &mut self.full,
                (code::CLASH, _) => {
                    match self
                        .clashes
                        .get_mut((answer.first as usize).wrapping_sub(1))
                    {
                        Some(count) => count,
                        None => continue,
                    }
                }
                (code::CYCLE, _) => &mut self.cycles,
                (code::TOO_FEW_KEPT, _) => &mut self.too_few_kept,
                _ => continue,
            };
            *count += 1;
        }
        let types = answers.listing[1];
        self.listings += u64::from(types > 0);
        self.types += u64::from(types);
        self.most_types = self.most_types.max(types);
    }
}

impl fmt::Display for Counts {
    fn fmt(&self, f: &mut fmt::Formatter) -> fmt::Result {
        let of = |counts: &[u64]| {
            let texts: Vec<String> = counts.iter().map(u64::to_string).collect();
            texts.join(" ")
        };
        let (jobs, records, longest) = (self.jobs, self.records, self.longest);
        writeln!(
            f,
            "jobs        {jobs}, {records} records, the longest {longest}"
        )?;
        writeln!(f, "kept        {}", self.kept.iter().sum::<u64>())?;
        writeln!(f, "  by kind   {} (kinds 1 to 16)", of(&self.kept[1..]))?;
        writeln!(f, "clashes     {}", self.clashes.iter().sum::<u64>())?;
        writeln!(f, "  by rule   {} (rules 1 to 7)", of(&self.clashes))?;
        writeln!(f, "malformed   {}", self.malformed)?;
        writeln!(f, "no child    {}", self.no_such_child)?;
        writeln!(f, "full        {}", self.full)?;
        writeln!(
            f,
            "taken back  {}, {} refused",
            self.taken_back, self.too_few_kept
        )?;
        writeln!(f, "closed      {}, {} cycles", self.closed, self.cycles)?;
        let (listings, types, most) = (self.listings, self.types, self.most_types);
        write!(
            f,
            "listings    {listings} with types, {types} types, at most {most}"
        )
    }
}
