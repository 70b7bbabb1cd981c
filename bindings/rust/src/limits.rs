//! The limits, each number once.

/// Nodes that a checker keeps at most.
///
/// ```
/// use tsarovima::{Checker, Node, Refusal, MOST_NODES};
/// let mut checker = Checker::new();
/// for _ in 0..MOST_NODES {
///     checker.offer(Node::Unit)?;
/// }
/// assert_eq!(checker.offer(Node::Unit), Err(Refusal::Full));
/// # Ok::<(), Refusal>(())
/// ```
pub const MOST_NODES: usize = 1024;

/// The largest n of [`Node::Word`](crate::Node::Word), whose target is 2^(2^n).
///
/// ```
/// use tsarovima::{Checker, Node, Refusal, MOST_WORD};
/// let mut checker = Checker::new();
/// assert!(checker.offer(Node::Word(MOST_WORD)).is_ok());
/// assert_eq!(checker.offer(Node::Word(MOST_WORD + 1)), Err(Refusal::Malformed));
/// ```
pub const MOST_WORD: u16 = 31;

/// Records of the longest job.
///
/// ```
/// assert_eq!(tsarovima::job_header(tsarovima::MOST_RECORDS as u32)[4..8], 4096u32.to_le_bytes());
/// ```
pub const MOST_RECORDS: usize = 4096;

/// Bytes of the longest job.
///
/// ```
/// assert_eq!(tsarovima::MOST_JOB_BYTES, 16 + 8 * tsarovima::MOST_RECORDS);
/// ```
pub const MOST_JOB_BYTES: usize = 16 + 8 * MOST_RECORDS;

/// Bytes that hold the answers of every job.
///
/// ```
/// let mut answers = vec![0; tsarovima::MOST_ANSWER_BYTES];
/// let mut listing = vec![0; tsarovima::LISTING_NUMBERS];
/// assert!(tsarovima::job(&tsarovima::job_header(0), &mut answers, &mut listing).is_ok());
/// ```
pub const MOST_ANSWER_BYTES: usize = 8 * MOST_RECORDS;

/// Numbers of the longest listing, which every job must be lent: four, three for each entry, two for each node.
///
/// ```
/// use tsarovima::{job, job_header, JobRefusal, LISTING_NUMBERS};
/// let mut short = vec![0; LISTING_NUMBERS - 1];
/// assert_eq!(job(&job_header(0), &mut [], &mut short), Err(JobRefusal::Listing));
/// ```
pub const LISTING_NUMBERS: usize = 4 + 3 * ENTRIES + 2 * MOST_NODES;

/// Bytes of the longest text of a rule.
///
/// ```
/// use tsarovima::{Rule, RULE_TEXT_BYTES};
/// assert_eq!(Rule::ALL.iter().map(|rule| rule.text().len()).max(), Some(RULE_TEXT_BYTES));
/// ```
pub const RULE_TEXT_BYTES: usize = 47;

/// Entries of a class table: 33 that stand, and eight for each node.
pub(crate) const ENTRIES: usize = 33 + 8 * MOST_NODES;

/// Bound and shape: four numbers for each entry.
pub(crate) const ROWS: usize = 4 * ENTRIES;

/// Undo records: three numbers for each link.
pub(crate) const TRAIL: usize = 3 * ENTRIES;

/// Seven numbers for each node.
pub(crate) const NODES: usize = 7 * MOST_NODES;

/// Counts of entries, links and nodes kept.
pub(crate) const LIVE: usize = 3;

/// Working memory: four numbers for each entry.
pub(crate) const WORK: usize = 4 * ENTRIES;
