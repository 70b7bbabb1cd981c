//! The checker: a state that keeps nodes, and says for each offer whether types can still be found.

use crate::boundary::{Opened, Tables};
use crate::{Answer, Cycle, Listing, MoreThanKept, Node, Record, Refusal, Rule};
use core::cell::Cell;
use core::fmt;
use core::marker::PhantomData;

/// What an accepted offer gives.
///
/// ```
/// use tsarovima::{Checker, Kept, Node};
/// let mut checker = Checker::new();
/// assert_eq!(checker.offer(Node::Unit), Ok(Kept { number: 0, joins: 0 }));
/// assert_eq!(checker.offer(Node::Comp(0, 0)), Ok(Kept { number: 1, joins: 1 }));
/// ```
#[derive(Clone, Copy, Debug, PartialEq, Eq, Hash)]
pub struct Kept {
    /// The node's number, by which later nodes have it as a child.
    pub number: u16,
    /// Classes before, plus the new entries, less the classes after.
    pub joins: u32,
}

/// A type checker for up to [`MOST_NODES`](crate::MOST_NODES) nodes, which can be taken back.
///
/// It owns its tables, boxed once (`Checker::new`, with the feature `std`), or has them lent ([`Checker::over`]). It may move to another thread, and is
/// not shared between two:
///
/// ```
/// use tsarovima::{Checker, Node};
/// let mut checker = Checker::new();
/// let kept = std::thread::spawn(move || checker.offer(Node::Iden)).join().unwrap();
/// assert!(kept.is_ok());
/// ```
///
/// ```compile_fail,E0277
/// fn shared<T: Sync>(_: &T) {}
/// shared(&tsarovima::Checker::new());
/// ```
///
/// Lent tables cannot be touched while the checker lives, and a listing is gone with the next call:
///
/// ```compile_fail,E0499
/// let mut checker = tsarovima::Checker::new();
/// let listing = checker.close().unwrap();
/// checker.offer(tsarovima::Node::Iden).unwrap();
/// println!("{}", listing);
/// ```
pub struct Checker<'t> {
    tables: Opened<'t>,
    /// One set of tables serves one thread at a time: a `Cell` may be sent, and not shared.
    one_thread: PhantomData<Cell<()>>,
}

#[cfg(feature = "std")]
impl Checker<'static> {
    /// A fresh checker that owns its tables: one allocation of 281,646 bytes, and none later.
    ///
    /// ```
    /// assert_eq!(tsarovima::Checker::new().kept(), 0);
    /// ```
    pub fn new() -> Self {
        Checker::of(Opened::boxed())
    }
}

#[cfg(feature = "std")]
impl Default for Checker<'static> {
    fn default() -> Self {
        Checker::new()
    }
}

impl<'t> Checker<'t> {
    /// A fresh checker over lent tables, whatever they hold. It allocates nothing.
    ///
    /// ```
    /// use tsarovima::{Checker, Node, Tables};
    /// let mut tables = Tables::new();
    /// Checker::over(&mut tables).offer(Node::Iden)?;
    /// assert_eq!(Checker::over(&mut tables).kept(), 0);
    /// # Ok::<(), tsarovima::Refusal>(())
    /// ```
    pub fn over(tables: &'t mut Tables) -> Self {
        Checker::of(Opened::lent(tables))
    }

    fn of(tables: Opened<'t>) -> Self {
        Checker { tables, one_thread: PhantomData }
    }

    /// Offers a node. One that is well formed, with its children and room for it, is kept exactly when types satisfy its rules and
    /// those of all that are kept; a type that would lie inside itself is left for [`Checker::close`] to find.
    ///
    /// # Errors
    ///
    /// A [`Refusal`]; then nothing has changed.
    ///
    /// ```
    /// use tsarovima::{Checker, Node, Refusal, Rule};
    /// let mut checker = Checker::new();
    /// let bit = checker.offer(Node::Word(0))?.number;
    /// assert_eq!(checker.offer(Node::Comp(bit, bit)), Err(Refusal::Clash(Rule::CompMiddle)));
    /// assert_eq!(checker.kept(), 1);
    /// # Ok::<(), Refusal>(())
    /// ```
    pub fn offer(&mut self, node: Node) -> Result<Kept, Refusal> {
        let answer = self.put(Record::Offer(node).bytes());
        match (answer.code, Rule::numbered(answer.first)) {
            (0, _) => Ok(Kept { number: answer.first, joins: answer.second }),
            (1, _) => Err(Refusal::Malformed),
            (2, _) => Err(Refusal::NoSuchChild),
            (3, _) => Err(Refusal::Full),
            (4, Some(rule)) => Err(Refusal::Clash(rule)),
            _ => no_such(answer),
        }
    }

    /// Takes back to the first `kept` nodes. The checker answers then as one that was offered those alone.
    ///
    /// # Errors
    ///
    /// [`MoreThanKept`], if fewer are kept; then nothing has changed.
    ///
    /// ```
    /// use tsarovima::{Checker, Node};
    /// let mut checker = Checker::new();
    /// checker.offer(Node::Iden)?;
    /// let mark = checker.kept();
    /// checker.offer(Node::Take(0))?;
    /// checker.take_back(mark)?;
    /// assert_eq!(checker.kept(), 1);
    /// # Ok::<(), Box<dyn std::error::Error>>(())
    /// ```
    pub fn take_back(&mut self, kept: usize) -> Result<(), MoreThanKept> {
        // A record has two bytes for the count, and more than they hold is more than are kept.
        let to = u16::try_from(kept).map_err(|_| MoreThanKept { kept: self.kept() })?;
        let answer = self.put(Record::TakeBack(to).bytes());
        match answer.code {
            0 => Ok(()),
            6 => Err(MoreThanKept { kept: usize::from(answer.first) }),
            _ => no_such(answer),
        }
    }

    /// Works out the types of the nodes kept, with unit where a type is free. It binds nothing: later offers find it free.
    ///
    /// # Errors
    ///
    /// A [`Cycle`], if a type would lie inside itself; then nothing has changed.
    ///
    /// ```
    /// use tsarovima::{Checker, Node};
    /// let mut checker = Checker::new();
    /// checker.offer(Node::Iden)?;
    /// assert_eq!(checker.close()?.arrow(0).unwrap().to_string(), "1 → 1");
    /// # Ok::<(), Box<dyn std::error::Error>>(())
    /// ```
    pub fn close(&mut self) -> Result<Listing<'_>, Cycle> {
        // The premise of the call holds by construction: `tables` is an `Opened`, and nobody else can write to it.
        let answer = self.tables.close();
        match answer.code {
            0 => Ok(Listing::closed(self.tables.listing())),
            5 => Err(Cycle { node: answer.first }),
            _ => no_such(answer),
        }
    }

    /// How many nodes are kept. The next that is kept has this number.
    ///
    /// ```
    /// use tsarovima::{Checker, Node};
    /// let mut checker = Checker::new();
    /// checker.offer(Node::Witness)?;
    /// assert_eq!(checker.kept(), 1);
    /// # Ok::<(), tsarovima::Refusal>(())
    /// ```
    pub fn kept(&self) -> usize {
        self.tables.kept()
    }

    /// Puts a record of eight bytes, as they came from a client. Any bytes are a record; what is none is answered with code 1.
    ///
    /// ```
    /// use tsarovima::{Answer, Checker};
    /// let mut checker = Checker::new();
    /// assert_eq!(checker.put([2, 0, 0, 0, 0, 0, 0, 0]), Answer { code: 0, first: 0, second: 0 });
    /// assert_eq!(checker.put([99, 0, 0, 0, 0, 0, 0, 0]), Answer { code: 1, first: 0, second: 0 });
    /// ```
    pub fn put(&mut self, record: [u8; 8]) -> Answer {
        // The premise of the call holds by construction: `tables` is an `Opened`, and nobody else can write to it. Offers and
        // take-backs come here too.
        self.tables.put(record)
    }
}

impl fmt::Debug for Checker<'_> {
    fn fmt(&self, f: &mut fmt::Formatter<'_>) -> fmt::Result {
        f.debug_struct("Checker").field("kept", &self.kept()).finish_non_exhaustive()
    }
}

/// An answer that no record of its kind is given: better to stop than to take it for a yes.
fn no_such(answer: Answer) -> ! {
    panic!("libtsarovima_c.a gave an answer that this binding does not know: {:?}", answer)
}
