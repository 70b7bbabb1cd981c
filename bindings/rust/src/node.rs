//! What is offered, and its eight bytes: a record is kind, zero, a (2 bytes), b (2 bytes), zero, zero, little-endian.

/// A node of a program, under simplicity-lang's name. A child is the number of a node kept before, and may be used more than once.
///
/// ```
/// use tsarovima::{Checker, Node};
/// let mut checker = Checker::new();
/// let word = checker.offer(Node::Word(8))?.number;
/// let unit = checker.offer(Node::Unit)?.number;
/// let key = checker.offer(Node::Comp(unit, word))?.number;
/// assert_eq!(checker.close().unwrap().arrow(key).unwrap().to_string(), "1 → 2^256");
/// # Ok::<(), tsarovima::Refusal>(())
/// ```
#[derive(Clone, Copy, Debug, PartialEq, Eq, Hash)]
pub enum Node {
    /// A to A.
    Iden,
    /// A to 1.
    Unit,
    /// Of t: A to B, gives A to B + C.
    InjL(u16),
    /// Of t: A to C, gives A to B + C.
    InjR(u16),
    /// Of t: A to C, gives A × B to C.
    Take(u16),
    /// Of t: B to C, gives A × B to C.
    Drop(u16),
    /// Needs target s = source t; source s to target t.
    Comp(u16, u16),
    /// Of s: A × C to D and t: B × C to D, gives (A + B) × C to D.
    Case(u16, u16),
    /// The left half of a case.
    AssertL(u16),
    /// The right half of a case.
    AssertR(u16),
    /// Of s: A to B and t: A to C, gives A to B × C.
    Pair(u16, u16),
    /// Of s: 2^256 × A to B × C and t: C to D, gives A to B × D. Without a second child C and D are free.
    Disconnect(u16, Option<u16>),
    /// A to B.
    Witness,
    /// A to B.
    Fail,
    /// 1 to 2^(2^n), for n from 0 to 31.
    Word(u16),
}

/// What a job is made of: an offer, a take-back or a closing.
///
/// ```
/// use tsarovima::Record;
/// assert_eq!(Record::TakeBack(258).bytes(), [64, 0, 2, 1, 0, 0, 0, 0]);
/// ```
#[derive(Clone, Copy, Debug, PartialEq, Eq, Hash)]
pub enum Record {
    /// Offers a node.
    Offer(Node),
    /// Takes back to so many nodes.
    TakeBack(u16),
    /// Closes.
    Close,
}

impl Record {
    /// The record's bytes, as a job has them.
    ///
    /// ```
    /// use tsarovima::{Node, Record};
    /// assert_eq!(Record::Offer(Node::Comp(1, 258)).bytes(), [7, 0, 1, 0, 2, 1, 0, 0]);
    /// ```
    pub fn bytes(self) -> [u8; 8] {
        let (kind, a, b) = match self {
            Record::Offer(node) => node.numbers(),
            Record::TakeBack(to) => (64, to, 0),
            Record::Close => (65, 0, 0),
        };
        let ([a, aa], [b, bb]) = (a.to_le_bytes(), b.to_le_bytes());
        [kind, 0, a, aa, b, bb, 0, 0]
    }
}

impl Node {
    /// The kind, and the two fields.
    fn numbers(self) -> (u8, u16, u16) {
        match self {
            Node::Iden => (1, 0, 0),
            Node::Unit => (2, 0, 0),
            Node::InjL(t) => (3, t, 0),
            Node::InjR(t) => (4, t, 0),
            Node::Take(t) => (5, t, 0),
            Node::Drop(t) => (6, t, 0),
            Node::Comp(s, t) => (7, s, t),
            Node::Case(s, t) => (8, s, t),
            Node::AssertL(s) => (9, s, 0),
            Node::AssertR(t) => (10, t, 0),
            Node::Pair(s, t) => (11, s, t),
            Node::Disconnect(s, Some(t)) => (12, s, t),
            Node::Disconnect(s, None) => (13, s, 0),
            Node::Witness => (14, 0, 0),
            Node::Fail => (15, 0, 0),
            Node::Word(n) => (16, n, 0),
        }
    }
}

/// The sixteen bytes that open a job of so many records. A count over [`MOST_RECORDS`](crate::MOST_RECORDS) is written as it is:
/// the job call refuses it.
///
/// ```
/// use tsarovima::{job, job_header, Record, LISTING_NUMBERS};
/// let mut bytes = job_header(1).to_vec();
/// bytes.extend(Record::Close.bytes());
/// assert!(job(&bytes, &mut [0; 8], &mut vec![0; LISTING_NUMBERS]).is_ok());
/// ```
pub fn job_header(records: u32) -> [u8; 16] {
    let mut header = [0; 16];
    let length = records.wrapping_mul(8).wrapping_add(16);
    for (to, number) in header.chunks_exact_mut(4).zip([1, records, 16, length]) {
        to.copy_from_slice(&number.to_le_bytes());
    }
    header
}
