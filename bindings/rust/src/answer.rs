//! The eight bytes that answer a record.

/// A record's answer: a code and two numbers, as the table of codes in `docs/FORMATS.md` has them.
///
/// [`Checker::offer`](crate::Checker::offer) and its like read them for you; this is for the answers of a [`job`](crate::job).
///
/// ```
/// use tsarovima::{job, job_header, Answer, Node, Record, LISTING_NUMBERS};
/// let mut bytes = job_header(1).to_vec();
/// bytes.extend(Record::Offer(Node::Unit).bytes());
/// let (mut answers, mut listing) = ([0; 8], vec![0; LISTING_NUMBERS]);
/// job(&bytes, &mut answers, &mut listing)?;
/// assert_eq!(Answer::read(answers), Answer { code: 0, first: 0, second: 0 });
/// # Ok::<(), tsarovima::JobRefusal>(())
/// ```
#[derive(Clone, Copy, Debug, PartialEq, Eq, Hash)]
pub struct Answer {
    /// 0, or the refusal: 1 malformed, 2 no such child, 3 full, 4 clash, 5 endless, 6 too few kept.
    pub code: u16,
    /// A node's number, nodes kept, or a rule.
    pub first: u16,
    /// Joins, or closed types.
    pub second: u32,
}

impl Answer {
    /// Reads the eight bytes.
    ///
    /// ```
    /// let clash = tsarovima::Answer::read([4, 0, 1, 0, 0, 0, 0, 0]);
    /// assert_eq!((clash.code, clash.first, clash.second), (4, 1, 0));
    /// ```
    pub fn read(bytes: [u8; 8]) -> Self {
        let [a, b, c, d, e, f, g, h] = bytes;
        Answer { code: u16::from_le_bytes([a, b]), first: u16::from_le_bytes([c, d]), second: u32::from_le_bytes([e, f, g, h]) }
    }
}
