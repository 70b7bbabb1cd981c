//! The boundary: the five functions of `libtsarovima_c.a`, and all of this crate's unsafe code.
//!
//! Nothing compares these declarations with the Rattle source. So they are few, in one place and in the order of `tsarovima.h`,
//! and the tests beside them call each with lengths at the limits.
//!
//! `tsarovima_record` and `tsarovima_close` have a premise: the tables came from `tsarovima_open` and these calls, and nobody else
//! wrote to them. Here it holds by construction. An [`Opened`] is made by [`Opened::lent`] and [`Opened::boxed`] alone, and both
//! open before they return; its numbers are private to this file, and only [`Opened::put`] and [`Opened::close`] lend them out,
//! to those two functions.

use crate::limits::{ENTRIES, LISTING_NUMBERS, LIVE, NODES, ROWS, TRAIL, WORK};
use crate::{Answer, JobRefusal};
use core::mem::take;

#[cfg(feature = "std")]
use std::{boxed::Box, vec};

#[rustfmt::skip]
extern "C" {
    fn tsarovima_job(
        job: *const u8, job_len: usize,
        answers: *mut u8, answers_len: usize,
        listing: *mut u16, listing_len: usize,
    ) -> u32;

    fn tsarovima_rule_text(rule: u16, text: *mut u8, text_len: usize) -> usize;

    fn tsarovima_open(
        parent: *mut u16, parent_len: usize,
        rank: *mut u16, rank_len: usize,
        rows: *mut u16, rows_len: usize,
        trail: *mut u16, trail_len: usize,
        nodes: *mut u16, nodes_len: usize,
        live: *mut u16, live_len: usize,
    ) -> u32;

    fn tsarovima_record(
        parent: *mut u16, parent_len: usize,
        rank: *mut u16, rank_len: usize,
        rows: *mut u16, rows_len: usize,
        trail: *mut u16, trail_len: usize,
        nodes: *mut u16, nodes_len: usize,
        live: *mut u16, live_len: usize,
        work: *mut u16, work_len: usize,
        record: *const u8, record_len: usize,
        answer: *mut u8, answer_len: usize,
        listing: *mut u16, listing_len: usize,
    ) -> u32;

    fn tsarovima_close(
        parent: *mut u16, parent_len: usize,
        rank: *mut u16, rank_len: usize,
        rows: *mut u16, rows_len: usize,
        trail: *mut u16, trail_len: usize,
        nodes: *mut u16, nodes_len: usize,
        live: *mut u16, live_len: usize,
        work: *mut u16, work_len: usize,
        answer: *mut u8, answer_len: usize,
        listing: *mut u16, listing_len: usize,
    ) -> u32;
}

/// What open, record and close return where every length is right.
const DONE: u32 = 0;

/// The one way not to be done is a wrong length, and the lengths are constants of this crate: so the archive has other limits.
const OTHER_LIMITS: &str = "libtsarovima_c.a is not the archive that this binding was written for";

/// The numbers of the tables, and all the numbers of a checker: tables, working memory and listing.
const TABLE_NUMBERS: usize = 2 * ENTRIES + ROWS + TRAIL + NODES + LIVE;
const NUMBERS: usize = TABLE_NUMBERS + WORK + LISTING_NUMBERS;

/// Runs a job from a fresh state. It needs no checker, and any bytes may be lent.
///
/// After `Ok` the answers have eight bytes for each record, to be read with [`Answer::read`], and the listing is that of the last
/// closing, or 0, 0, 4, 4 if that was refused or there was none: [`Listing::read`](crate::Listing::read) takes it. Bytes and
/// numbers past these are as they were. The call takes some 276 KiB of stack.
///
/// # Errors
///
/// A [`JobRefusal`], with both buffers as they were.
///
/// ```
/// use tsarovima::{job, job_header, Listing, Node, Record, LISTING_NUMBERS};
/// let records = [Record::Offer(Node::Unit), Record::Offer(Node::InjL(0)), Record::Close];
/// let mut bytes = job_header(records.len() as u32).to_vec();
/// bytes.extend(records.iter().flat_map(|record| record.bytes()));
///
/// let (mut answers, mut listing) = ([0; 24], vec![0; LISTING_NUMBERS]);
/// job(&bytes, &mut answers, &mut listing)?;
/// let listing = Listing::read(&listing).unwrap();
/// assert_eq!(listing.arrow(1).unwrap().to_string(), "1 → 2");
/// # Ok::<(), tsarovima::JobRefusal>(())
/// ```
pub fn job(job: &[u8], answers: &mut [u8], listing: &mut [u16]) -> Result<(), JobRefusal> {
    // SAFETY: the call has no premise but that each pointer and length are one buffer and that none overlap: they are three
    // slices, two of them exclusive, and a slice's pointer is not null even if it is empty.
    let code = unsafe {
        tsarovima_job(job.as_ptr(), job.len(), answers.as_mut_ptr(), answers.len(), listing.as_mut_ptr(), listing.len())
    };
    if code == 0 {
        return Ok(());
    }
    Err(JobRefusal::coded(code).expect(OTHER_LIMITS))
}

/// Writes the text of a rule at the front of a buffer, and gives how many bytes it has: 0 if there is no rule of that number. A
/// buffer that has no room for all of them is left as it was; [`RULE_TEXT_BYTES`](crate::RULE_TEXT_BYTES) are enough for every
/// rule. [`Rule::text`](crate::Rule::text) has them as a `str`.
///
/// ```
/// let mut text = [0; 50];
/// let length = tsarovima::rule_text(1, &mut text);
/// assert_eq!(&text[..length], b"comp combinator: left target = right source");
/// assert_eq!(tsarovima::rule_text(8, &mut text), 0);
/// assert_eq!(tsarovima::rule_text(1, &mut []), 43);
/// ```
pub fn rule_text(rule: u16, text: &mut [u8]) -> usize {
    // SAFETY: the call has no premise but that pointer and length are one buffer: they are one exclusive slice.
    unsafe { tsarovima_rule_text(rule, text.as_mut_ptr(), text.len()) }
}

/// Memory for one [`Checker`](crate::Checker): 281,646 bytes, for a host without a heap. What it holds does not matter.
///
/// ```
/// use tsarovima::{Checker, Node, Tables};
/// let mut tables = Tables::new();
/// let mut checker = Checker::over(&mut tables);
/// assert!(checker.offer(Node::Iden).is_ok());
/// ```
pub struct Tables {
    numbers: [u16; NUMBERS],
}

impl Tables {
    /// Memory that nobody has used. In a `static` it costs no stack.
    ///
    /// ```
    /// static mut TABLES: tsarovima::Tables = tsarovima::Tables::new();
    /// assert_eq!(core::mem::size_of::<tsarovima::Tables>(), 281_646);
    /// ```
    pub const fn new() -> Self {
        Tables { numbers: [0; NUMBERS] }
    }
}

impl Default for Tables {
    fn default() -> Self {
        Tables::new()
    }
}

impl core::fmt::Debug for Tables {
    fn fmt(&self, f: &mut core::fmt::Formatter<'_>) -> core::fmt::Result {
        f.debug_struct("Tables").finish_non_exhaustive()
    }
}

enum Held<'t> {
    #[cfg(feature = "std")]
    Boxed(Box<[u16]>),
    Lent(&'t mut [u16; NUMBERS]),
}

/// Tables that came from opening and the record calls, and from nowhere else.
pub(crate) struct Opened<'t> {
    held: Held<'t>,
}

/// The numbers, cut into what the calls take, in their order.
struct Parts<'a> {
    parent: &'a mut [u16],
    rank: &'a mut [u16],
    rows: &'a mut [u16],
    trail: &'a mut [u16],
    nodes: &'a mut [u16],
    live: &'a mut [u16],
    work: &'a mut [u16],
    listing: &'a mut [u16],
}

/// Where the count of nodes kept stands, the last of `live`, and where the listing begins, the last part.
const KEPT_AT: usize = TABLE_NUMBERS - 1;
const LISTING_AT: usize = NUMBERS - LISTING_NUMBERS;

fn cut<'a>(rest: &mut &'a mut [u16], length: usize) -> &'a mut [u16] {
    let (part, then) = take(rest).split_at_mut(length);
    *rest = then;
    part
}

/// Parts of the lengths that the calls need, for any numbers as long as [`NUMBERS`]; no two overlap.
fn parts(numbers: &mut [u16]) -> Parts<'_> {
    let mut rest = numbers;
    let rest = &mut rest;
    Parts {
        parent: cut(rest, ENTRIES),
        rank: cut(rest, ENTRIES),
        rows: cut(rest, ROWS),
        trail: cut(rest, TRAIL),
        nodes: cut(rest, NODES),
        live: cut(rest, LIVE),
        work: cut(rest, WORK),
        listing: cut(rest, LISTING_NUMBERS),
    }
}

/// A call with the six tables in front, each as pointer and length. The list is written once, so no call has an order of its own.
macro_rules! with_tables {
    ($call:ident, $t:ident $(, $more:expr)* $(,)?) => {
        $call(
            $t.parent.as_mut_ptr(), $t.parent.len(),
            $t.rank.as_mut_ptr(), $t.rank.len(),
            $t.rows.as_mut_ptr(), $t.rows.len(),
            $t.trail.as_mut_ptr(), $t.trail.len(),
            $t.nodes.as_mut_ptr(), $t.nodes.len(),
            $t.live.as_mut_ptr(), $t.live.len(),
            $($more,)*
        )
    };
}

impl<'t> Opened<'t> {
    /// Opens what is lent, whatever it holds.
    pub(crate) fn lent(tables: &'t mut Tables) -> Self {
        Opened::open(Held::Lent(&mut tables.numbers))
    }

    /// Opens numbers on the heap. They come there without passing over the stack.
    #[cfg(feature = "std")]
    pub(crate) fn boxed() -> Self {
        Opened::open(Held::Boxed(vec![0; NUMBERS].into_boxed_slice()))
    }

    fn open(held: Held<'t>) -> Self {
        let mut opened = Opened { held };
        let t = parts(opened.numbers_mut());
        // SAFETY: the call has no premise on what the tables hold. Each pointer and length are one slice; `parts` cut them from
        // one exclusive borrow, so none overlap.
        let returned = unsafe { with_tables!(tsarovima_open, t) };
        assert!(returned == DONE, "{}", OTHER_LIMITS);
        opened
    }

    /// Puts a record. Any eight bytes may be put.
    pub(crate) fn put(&mut self, record: [u8; 8]) -> Answer {
        let t = parts(self.numbers_mut());
        let mut answer = [0; 8];
        // SAFETY: the premise, that the tables came from `tsarovima_open` and these calls, holds by construction: `self` is an
        // `Opened`, which only `open` makes, and nobody but this and `close` has written to it since. Each pointer and length are
        // one slice or array, and none overlap: the tables are cut from one exclusive borrow, `record` and `answer` are this
        // call's own.
        let returned = unsafe {
            with_tables!(
                tsarovima_record,
                t,
                t.work.as_mut_ptr(),
                t.work.len(),
                record.as_ptr(),
                record.len(),
                answer.as_mut_ptr(),
                answer.len(),
                t.listing.as_mut_ptr(),
                t.listing.len(),
            )
        };
        assert!(returned == DONE, "{}", OTHER_LIMITS);
        Answer::read(answer)
    }

    /// Closes. The listing is in [`Opened::listing`] then.
    pub(crate) fn close(&mut self) -> Answer {
        let t = parts(self.numbers_mut());
        let mut answer = [0; 8];
        // SAFETY: the premise holds by construction, as in `put`: only `open` makes an `Opened`, and only `put` and `close` have
        // written to it since. Buffers and overlap are as there.
        let returned = unsafe {
            with_tables!(
                tsarovima_close,
                t,
                t.work.as_mut_ptr(),
                t.work.len(),
                answer.as_mut_ptr(),
                answer.len(),
                t.listing.as_mut_ptr(),
                t.listing.len(),
            )
        };
        assert!(returned == DONE, "{}", OTHER_LIMITS);
        Answer::read(answer)
    }

    /// How many nodes are kept.
    pub(crate) fn kept(&self) -> usize {
        usize::from(self.numbers()[KEPT_AT])
    }

    /// The listing of the last closing. Before the first it is as lent.
    pub(crate) fn listing(&self) -> &[u16] {
        &self.numbers()[LISTING_AT..]
    }

    fn numbers(&self) -> &[u16] {
        match &self.held {
            #[cfg(feature = "std")]
            Held::Boxed(numbers) => numbers,
            Held::Lent(numbers) => &numbers[..],
        }
    }

    fn numbers_mut(&mut self) -> &mut [u16] {
        match &mut self.held {
            #[cfg(feature = "std")]
            Held::Boxed(numbers) => numbers,
            Held::Lent(numbers) => &mut numbers[..],
        }
    }
}

#[cfg(all(test, feature = "std"))]
mod host;
#[cfg(all(test, feature = "std"))]
mod tests;
