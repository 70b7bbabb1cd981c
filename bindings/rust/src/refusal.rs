//! Why a call said no. After any refusal the checker answers as before.

use crate::limits::RULE_TEXT_BYTES;
use crate::rule_text;
use core::fmt;
use core::ops::Deref;

/// Why an offer was refused.
///
/// ```
/// use tsarovima::{Checker, Node, Refusal};
/// let mut checker = Checker::new();
/// assert_eq!(checker.offer(Node::Take(0)), Err(Refusal::NoSuchChild));
/// ```
#[derive(Clone, Copy, Debug, PartialEq, Eq, Hash)]
pub enum Refusal {
    /// Code 1: a word's n is over 31.
    Malformed,
    /// Code 2: a child is not the number of a node kept.
    NoSuchChild,
    /// Code 3: [`MOST_NODES`](crate::MOST_NODES) are kept.
    Full,
    /// Code 4: no types satisfy the rules of the nodes kept and of this one; the rule is the first that brings a clash.
    Clash(Rule),
}

impl Refusal {
    /// The code of its answer, 1 to 4.
    ///
    /// ```
    /// assert_eq!(tsarovima::Refusal::Full.code(), 3);
    /// ```
    pub fn code(self) -> u16 {
        match self {
            Refusal::Malformed => 1,
            Refusal::NoSuchChild => 2,
            Refusal::Full => 3,
            Refusal::Clash(_) => 4,
        }
    }
}

/// For a clash the rule's text, and nothing else.
impl fmt::Display for Refusal {
    fn fmt(&self, f: &mut fmt::Formatter<'_>) -> fmt::Result {
        match self {
            Refusal::Malformed => f.write_str("malformed node: a word's n is over 31"),
            Refusal::NoSuchChild => f.write_str("a child is not below the next node's number"),
            Refusal::Full => f.write_str("full: 1024 nodes are kept"),
            Refusal::Clash(rule) => rule.fmt(f),
        }
    }
}

/// The rules that can clash, in the order of their numbers.
///
/// ```
/// use tsarovima::{Checker, Node, Refusal, Rule};
/// let mut checker = Checker::new();
/// checker.offer(Node::Word(0))?;
/// assert_eq!(checker.offer(Node::AssertL(0)), Err(Refusal::Clash(Rule::CaseLeftSource)));
/// # Ok::<(), Refusal>(())
/// ```
#[derive(Clone, Copy, Debug, PartialEq, Eq, Hash)]
pub enum Rule {
    /// Rule 1.
    CompMiddle,
    /// Rule 2.
    PairSources,
    /// Rule 3.
    CaseLeftSource,
    /// Rule 4. Its text says "left" and means the right child's source, as the text of simplicity-lang does.
    CaseRightSource,
    /// Rule 5.
    CaseTargets,
    /// Rule 6.
    DisconnectSource,
    /// Rule 7.
    DisconnectTarget,
}

impl Rule {
    /// All seven, in order.
    ///
    /// ```
    /// use tsarovima::Rule;
    /// assert!(Rule::ALL.iter().map(|rule| rule.number()).eq(1..=7));
    /// ```
    pub const ALL: [Rule; 7] = [
        Rule::CompMiddle,
        Rule::PairSources,
        Rule::CaseLeftSource,
        Rule::CaseRightSource,
        Rule::CaseTargets,
        Rule::DisconnectSource,
        Rule::DisconnectTarget,
    ];

    /// The rule's number, 1 to 7.
    ///
    /// ```
    /// assert_eq!(tsarovima::Rule::CaseTargets.number(), 5);
    /// ```
    pub fn number(self) -> u16 {
        self as u16 + 1
    }

    /// The rule of a number.
    ///
    /// ```
    /// use tsarovima::Rule;
    /// assert_eq!(Rule::numbered(1), Some(Rule::CompMiddle));
    /// assert_eq!(Rule::numbered(8), None);
    /// ```
    pub fn numbered(number: u16) -> Option<Rule> {
        Rule::ALL.iter().copied().find(|rule| rule.number() == number)
    }

    /// The rule in words, as the library writes it: byte for byte the hint of simplicity-lang.
    ///
    /// ```
    /// assert_eq!(tsarovima::Rule::CaseLeftSource.text().as_str(), "case combinator: left source = A × C");
    /// ```
    pub fn text(self) -> RuleText {
        let mut bytes = [0; RULE_TEXT_BYTES];
        let length = rule_text(self.number(), &mut bytes);
        RuleText { bytes, length }
    }
}

/// What [`Rule::text`] gives: a `str` by value, for the library writes it into a buffer.
///
/// ```
/// let text = tsarovima::Rule::PairSources.text();
/// assert!(text.starts_with("pair combinator"));
/// assert_eq!(text.to_string(), "pair combinator: left source = right source");
/// ```
#[derive(Clone, Copy, PartialEq, Eq, Hash)]
pub struct RuleText {
    bytes: [u8; RULE_TEXT_BYTES],
    length: usize,
}

impl RuleText {
    /// The words.
    ///
    /// ```
    /// assert_eq!(tsarovima::Rule::DisconnectSource.text().as_str().len(), tsarovima::RULE_TEXT_BYTES);
    /// ```
    pub fn as_str(&self) -> &str {
        // The seven texts are proved byte for byte, and are UTF-8.
        core::str::from_utf8(&self.bytes[..self.length]).expect("libtsarovima_c.a wrote a text that is no UTF-8")
    }
}

impl Deref for RuleText {
    type Target = str;

    fn deref(&self) -> &str {
        self.as_str()
    }
}

impl fmt::Display for RuleText {
    fn fmt(&self, f: &mut fmt::Formatter<'_>) -> fmt::Result {
        f.write_str(self.as_str())
    }
}

impl fmt::Debug for RuleText {
    fn fmt(&self, f: &mut fmt::Formatter<'_>) -> fmt::Result {
        fmt::Debug::fmt(self.as_str(), f)
    }
}

impl fmt::Display for Rule {
    fn fmt(&self, f: &mut fmt::Formatter<'_>) -> fmt::Result {
        self.text().fmt(f)
    }
}

/// Code 5: a closing found a type that lies inside itself.
///
/// ```
/// use tsarovima::{Checker, Cycle, Node};
/// let mut checker = Checker::new();
/// checker.offer(Node::Iden)?;
/// checker.offer(Node::Take(0))?;
/// checker.offer(Node::Pair(0, 1))?;
/// assert_eq!(checker.close().unwrap_err(), Cycle { node: 0 });
/// # Ok::<(), tsarovima::Refusal>(())
/// ```
#[derive(Clone, Copy, Debug, PartialEq, Eq, Hash)]
pub struct Cycle {
    /// The lowest node whose source or target is such a type or contains one.
    pub node: u16,
}

impl fmt::Display for Cycle {
    fn fmt(&self, f: &mut fmt::Formatter<'_>) -> fmt::Result {
        write!(f, "infinitely-sized type at node {}", self.node)
    }
}

/// Code 6: a take-back to more nodes than are kept.
///
/// ```
/// use tsarovima::{Checker, MoreThanKept};
/// assert_eq!(Checker::new().take_back(1), Err(MoreThanKept { kept: 0 }));
/// ```
#[derive(Clone, Copy, Debug, PartialEq, Eq, Hash)]
pub struct MoreThanKept {
    /// Nodes that are kept.
    pub kept: usize,
}

impl fmt::Display for MoreThanKept {
    fn fmt(&self, f: &mut fmt::Formatter<'_>) -> fmt::Result {
        write!(f, "only {} nodes are kept", self.kept)
    }
}

/// Why a job was refused: it was not run, and both buffers are as they were.
///
/// ```
/// use tsarovima::{job, JobRefusal};
/// assert_eq!(job(&[], &mut [], &mut []), Err(JobRefusal::Short));
/// ```
#[derive(Clone, Copy, Debug, PartialEq, Eq, Hash)]
pub enum JobRefusal {
    /// 16: under 16 bytes.
    Short,
    /// 17: the format is not 1.
    Format,
    /// 18: more than [`MOST_RECORDS`](crate::MOST_RECORDS) records.
    Count,
    /// 19: the first record is not at 16.
    Offset,
    /// 20: the length field, or the length of the job, is not that of its records.
    Length,
    /// 21: fewer than eight bytes of answers for each record.
    Answers,
    /// 22: a listing of fewer than [`LISTING_NUMBERS`](crate::LISTING_NUMBERS) numbers.
    Listing,
}

impl JobRefusal {
    /// All seven, in the order in which they are looked for.
    ///
    /// ```
    /// assert_eq!(tsarovima::JobRefusal::ALL[0].code(), 16);
    /// ```
    pub const ALL: [JobRefusal; 7] = [
        JobRefusal::Short,
        JobRefusal::Format,
        JobRefusal::Count,
        JobRefusal::Offset,
        JobRefusal::Length,
        JobRefusal::Answers,
        JobRefusal::Listing,
    ];

    /// What the job call returns, 16 to 22.
    ///
    /// ```
    /// assert_eq!(tsarovima::JobRefusal::Listing.code(), 22);
    /// ```
    pub fn code(self) -> u32 {
        self as u32 + 16
    }

    /// The refusal of a code.
    ///
    /// ```
    /// use tsarovima::JobRefusal;
    /// assert_eq!(JobRefusal::coded(17), Some(JobRefusal::Format));
    /// assert_eq!(JobRefusal::coded(0), None);
    /// ```
    pub fn coded(code: u32) -> Option<JobRefusal> {
        JobRefusal::ALL.iter().copied().find(|refusal| refusal.code() == code)
    }
}

impl fmt::Display for JobRefusal {
    fn fmt(&self, f: &mut fmt::Formatter<'_>) -> fmt::Result {
        f.write_str(match self {
            JobRefusal::Short => "a job has at least 16 bytes",
            JobRefusal::Format => "the job's format is not 1",
            JobRefusal::Count => "the job has more than 4096 records",
            JobRefusal::Offset => "the job's first record is not at 16",
            JobRefusal::Length => "the job's length is not that of its records",
            JobRefusal::Answers => "the answers have no room for eight bytes a record",
            JobRefusal::Listing => "the listing has no room for 26727 numbers",
        })
    }
}

#[cfg(feature = "std")]
mod errors {
    use super::{Cycle, JobRefusal, MoreThanKept, Refusal, Rule};
    use std::error::Error;

    impl Error for Refusal {}
    impl Error for Rule {}
    impl Error for Cycle {}
    impl Error for MoreThanKept {}
    impl Error for JobRefusal {}
}
