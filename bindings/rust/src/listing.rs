//! What a closing found: types, each once, and for each node the number of its source and of its target.
//!
//! The numbers are the listing of `docs/FORMATS.md`: nodes n, types t, offset of types, offset of arrows, t triples (0 unit,
//! 1 sum, 2 product; left; right), n pairs. A type's parts have lower numbers, so a walk down ends.

use core::iter::FusedIterator;

const HEADER: usize = 4;
const SUM: u16 = 1;
const PRODUCT: u16 = 2;

/// The types of a program's nodes. Equal types are one type with one number, so a large type costs no more than its parts.
///
/// ```
/// use tsarovima::{Checker, Node};
/// let mut checker = Checker::new();
/// checker.offer(Node::Unit)?;
/// checker.offer(Node::Case(0, 0))?;
/// let listing = checker.close().unwrap();
/// assert_eq!(listing.to_string(), "n0: 1 × 1 → 1\nn1: 2 × 1 → 1\n");
/// # Ok::<(), tsarovima::Refusal>(())
/// ```
#[derive(Clone, Copy, Debug)]
pub struct Listing<'a> {
    /// The listing and nothing past its end.
    numbers: &'a [u16],
}

/// A type of a [`Listing`].
///
/// `Display` writes it as `(A + B) × C`, with 1 for unit, 2 for 1 + 1 and 2^256 and the like for words. A type whose text would
/// have more than [`MOST_PARTS`](crate::MOST_PARTS) parts is written as its number, `t17`; [`Type::definition`] says of what it
/// is made.
///
/// ```
/// use tsarovima::{Checker, Node};
/// let mut checker = Checker::new();
/// checker.offer(Node::Word(8))?;
/// checker.offer(Node::Pair(0, 0))?;
/// let listing = checker.close().unwrap();
/// assert_eq!(listing.arrow(1).unwrap().target.to_string(), "2^512");
/// # Ok::<(), tsarovima::Refusal>(())
/// ```
#[derive(Clone, Copy, Debug)]
pub struct Type<'a> {
    listing: Listing<'a>,
    number: u16,
}

/// How a type is made.
///
/// ```
/// use tsarovima::{Checker, Node, Shape};
/// let mut checker = Checker::new();
/// checker.offer(Node::Word(0))?;
/// let listing = checker.close().unwrap();
/// assert!(matches!(listing.arrow(0).unwrap().target.shape(), Shape::Sum(..)));
/// # Ok::<(), tsarovima::Refusal>(())
/// ```
#[derive(Clone, Copy, Debug)]
pub enum Shape<'a> {
    /// 1.
    Unit,
    /// Left + right.
    Sum(Type<'a>, Type<'a>),
    /// Left × right.
    Product(Type<'a>, Type<'a>),
}

/// A node's types. `Display` writes `A → B`.
///
/// ```
/// use tsarovima::{Checker, Node};
/// let mut checker = Checker::new();
/// checker.offer(Node::Word(1))?;
/// let listing = checker.close().unwrap();
/// let arrow = listing.arrow(0).unwrap();
/// assert_eq!((arrow.source.to_string(), arrow.target.to_string()), ("1".into(), "2^2".into()));
/// # Ok::<(), tsarovima::Refusal>(())
/// ```
#[derive(Clone, Copy, Debug)]
pub struct Arrow<'a> {
    /// The source type.
    pub source: Type<'a>,
    /// The target type.
    pub target: Type<'a>,
}

impl<'a> Listing<'a> {
    /// A closing's own listing. Its form is proved, so it is not looked over again.
    pub(crate) fn closed(buffer: &'a [u16]) -> Self {
        let end = HEADER + 3 * usize::from(buffer[1]) + 2 * usize::from(buffer[0]);
        Listing { numbers: &buffer[..end] }
    }

    /// Reads the buffer that a [`job`](crate::job) filled, or `None` if the numbers are no listing. Numbers past its end do not
    /// matter.
    ///
    /// ```
    /// use tsarovima::Listing;
    /// let listing = Listing::read(&[1, 1, 4, 7, 0, 0, 0, 0, 0, 99]).unwrap();
    /// assert_eq!(listing.arrow(0).unwrap().to_string(), "1 → 1");
    /// assert!(Listing::read(&[1, 1, 4, 7]).is_none());
    /// ```
    pub fn read(buffer: &'a [u16]) -> Option<Self> {
        let header = buffer.get(..HEADER)?;
        let (nodes, types) = (usize::from(header[0]), usize::from(header[1]));
        let arrows = HEADER + 3 * types;
        if usize::from(header[2]) != HEADER || usize::from(header[3]) != arrows {
            return None;
        }
        let numbers = buffer.get(..arrows + 2 * nodes)?;
        let mut triples = numbers[HEADER..arrows].chunks_exact(3).enumerate();
        let sound = |(number, triple): (usize, &[u16])| match triple[0] {
            0 => triple[1] == 0 && triple[2] == 0,
            SUM | PRODUCT => usize::from(triple[1]) < number && usize::from(triple[2]) < number,
            _ => false,
        };
        let named = |number: &u16| usize::from(*number) < types;
        if triples.all(sound) && numbers[arrows..].iter().all(named) {
            Some(Listing { numbers })
        } else {
            None
        }
    }

    /// The listing's numbers, as `docs/FORMATS.md` has them, and none past the end.
    ///
    /// ```
    /// let mut checker = tsarovima::Checker::new();
    /// assert_eq!(checker.close().unwrap().numbers(), [0, 0, 4, 4]);
    /// ```
    pub fn numbers(&self) -> &'a [u16] {
        self.numbers
    }

    /// The types, in the order of their numbers.
    ///
    /// ```
    /// use tsarovima::{Checker, Node};
    /// let mut checker = Checker::new();
    /// checker.offer(Node::Word(1))?;
    /// let listing = checker.close().unwrap();
    /// let texts: Vec<String> = listing.types().map(|each| each.to_string()).collect();
    /// assert_eq!(texts, ["1", "2", "2^2"]);
    /// # Ok::<(), tsarovima::Refusal>(())
    /// ```
    pub fn types(&self) -> Types<'a> {
        Types { listing: *self, next: 0, end: self.numbers[1] }
    }

    /// The nodes' arrows, in the nodes' order.
    ///
    /// ```
    /// use tsarovima::{Checker, Node};
    /// let mut checker = Checker::new();
    /// checker.offer(Node::Iden)?;
    /// checker.offer(Node::InjR(0))?;
    /// let listing = checker.close().unwrap();
    /// let texts: Vec<String> = listing.arrows().map(|each| each.to_string()).collect();
    /// assert_eq!(texts, ["1 → 1", "1 → 2"]);
    /// # Ok::<(), tsarovima::Refusal>(())
    /// ```
    pub fn arrows(&self) -> Arrows<'a> {
        Arrows { listing: *self, next: 0, end: self.numbers[0] }
    }

    /// One node's arrow, or `None` if the node is not listed.
    ///
    /// ```
    /// let mut checker = tsarovima::Checker::new();
    /// assert!(checker.close().unwrap().arrow(0).is_none());
    /// ```
    pub fn arrow(&self, node: u16) -> Option<Arrow<'a>> {
        if node >= self.numbers[0] {
            return None;
        }
        let at = usize::from(self.numbers[3]) + 2 * usize::from(node);
        let (source, target) = (self.named(self.numbers[at]), self.named(self.numbers[at + 1]));
        Some(Arrow { source, target })
    }

    /// One type by its number, or `None` if there are not so many.
    ///
    /// ```
    /// let listing = tsarovima::Listing::read(&[0, 1, 4, 7, 0, 0, 0]).unwrap();
    /// assert_eq!(listing.numbered(0).unwrap().to_string(), "1");
    /// assert!(listing.numbered(1).is_none());
    /// ```
    pub fn numbered(&self, number: u16) -> Option<Type<'a>> {
        if number < self.numbers[1] {
            Some(self.named(number))
        } else {
            None
        }
    }

    fn named(self, number: u16) -> Type<'a> {
        Type { listing: self, number }
    }
}

impl<'a> Type<'a> {
    /// The type's number in its listing. Two types of one listing are equal exactly when their numbers are.
    ///
    /// ```
    /// use tsarovima::{Checker, Node};
    /// let mut checker = Checker::new();
    /// checker.offer(Node::Iden)?;
    /// let listing = checker.close().unwrap();
    /// let arrow = listing.arrow(0).unwrap();
    /// assert_eq!(arrow.source.number(), arrow.target.number());
    /// # Ok::<(), tsarovima::Refusal>(())
    /// ```
    pub fn number(&self) -> u16 {
        self.number
    }

    /// Unit, or a sum or product with its parts.
    ///
    /// ```
    /// use tsarovima::{Checker, Node, Shape, Type};
    /// fn depth(of: Type<'_>) -> usize {
    ///     match of.shape() {
    ///         Shape::Unit => 0,
    ///         Shape::Sum(a, b) | Shape::Product(a, b) => 1 + depth(a).max(depth(b)),
    ///     }
    /// }
    /// let mut checker = Checker::new();
    /// checker.offer(Node::Word(3))?;
    /// assert_eq!(depth(checker.close().unwrap().arrow(0).unwrap().target), 4);
    /// # Ok::<(), tsarovima::Refusal>(())
    /// ```
    pub fn shape(&self) -> Shape<'a> {
        let at = HEADER + 3 * usize::from(self.number);
        let triple = &self.listing.numbers[at..at + 3];
        let (left, right) = (self.listing.named(triple[1]), self.listing.named(triple[2]));
        match triple[0] {
            SUM => Shape::Sum(left, right),
            PRODUCT => Shape::Product(left, right),
            _ => Shape::Unit,
        }
    }
}

/// The types of a listing: what [`Listing::types`] gives.
///
/// ```
/// let listing = tsarovima::Listing::read(&[0, 1, 4, 7, 0, 0, 0]).unwrap();
/// assert_eq!(listing.types().len(), 1);
/// ```
#[derive(Clone, Debug)]
pub struct Types<'a> {
    listing: Listing<'a>,
    next: u16,
    end: u16,
}

/// The arrows of a listing: what [`Listing::arrows`] gives.
///
/// ```
/// let listing = tsarovima::Listing::read(&[1, 1, 4, 7, 0, 0, 0, 0, 0]).unwrap();
/// assert_eq!(listing.arrows().len(), 1);
/// ```
#[derive(Clone, Debug)]
pub struct Arrows<'a> {
    listing: Listing<'a>,
    next: u16,
    end: u16,
}

impl<'a> Iterator for Types<'a> {
    type Item = Type<'a>;

    fn next(&mut self) -> Option<Type<'a>> {
        let found = self.listing.numbered(self.next)?;
        self.next += 1;
        Some(found)
    }

    fn size_hint(&self) -> (usize, Option<usize>) {
        let left = usize::from(self.end - self.next);
        (left, Some(left))
    }
}

impl<'a> Iterator for Arrows<'a> {
    type Item = Arrow<'a>;

    fn next(&mut self) -> Option<Arrow<'a>> {
        let found = self.listing.arrow(self.next)?;
        self.next += 1;
        Some(found)
    }

    fn size_hint(&self) -> (usize, Option<usize>) {
        let left = usize::from(self.end - self.next);
        (left, Some(left))
    }
}

impl ExactSizeIterator for Types<'_> {}
impl ExactSizeIterator for Arrows<'_> {}
impl FusedIterator for Types<'_> {}
impl FusedIterator for Arrows<'_> {}
