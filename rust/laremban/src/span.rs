//! Spans of height, and how a row of them stands in a table.

use crate::widths::{PER_SPAN, SPAN_NUMBERS, SPANS};

/// A span of height: from its low end to its high end, and whose it is.
///
/// More may come to it with later versions, so that it is made by
/// [`Span::new`] and [`Span::of`].
///
/// ```
/// use laremban::Span;
///
/// let storey = Span::new(0, 3).of(101);
/// assert_eq!((storey.lo, storey.hi, storey.object), (0, 3, 101));
/// assert_eq!(Span::new(0, 3).object, 0);
/// // Objects make spans differ, and play no part in where they stand.
/// assert_ne!(storey, Span::new(0, 3));
/// assert!(storey.overlaps(Span::new(2, 5)) && !storey.overlaps(Span::new(3, 5)));
/// ```
///
/// In a row no two overlap. A new one becomes one with those of its own object
/// that it overlaps ([`Command::Span`](crate::Command::Span)); one that only
/// touches stays by itself, also where the objects are the same.
#[derive(Clone, Copy, Debug, PartialEq, Eq, Hash, PartialOrd, Ord)]
#[non_exhaustive]
pub struct Span {
    /// The low end.
    pub lo: i32,
    /// The high end.
    pub hi: i32,
    /// The number of the object that it belongs to; 0 where none was named.
    pub object: u16,
}

impl Span {
    /// From lo to hi, of object 0.
    pub const fn new(lo: i32, hi: i32) -> Span {
        let object = 0;
        Span { lo, hi, object }
    }

    /// The same ends, of an object.
    #[must_use]
    pub const fn of(self, object: u16) -> Span {
        Span { object, ..self }
    }

    /// Whether some height lies within both; touching is none.
    pub const fn overlaps(self, other: Span) -> bool {
        self.lo < other.hi && other.lo < self.hi
    }
}

/// The spans of a row in a table.
///
/// # Panics
///
/// Where its first number is no number of spans, or an object is no 16-bit number.
pub(crate) fn spans([count, numbers @ ..]: &[i32; SPAN_NUMBERS]) -> Vec<Span> {
    let count = usize::try_from(*count).ok().filter(|&count| count <= SPANS);
    let count = count.expect("a row of up to eight spans");
    let spans = numbers.as_chunks::<PER_SPAN>().0.iter();
    spans.take(count).map(span).collect()
}

/// The span that the numbers of one make.
fn span(&[lo, hi, object]: &[i32; PER_SPAN]) -> Span {
    let object = u16::try_from(object).expect("an object of 16 bits");
    Span { lo, hi, object }
}

/// The numbers of a span, as they stand in its row.
pub(crate) fn numbers(Span { lo, hi, object }: Span) -> [i32; PER_SPAN] {
    [lo, hi, object.into()]
}
