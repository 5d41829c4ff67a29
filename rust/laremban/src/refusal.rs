//! Why something is refused.

use std::fmt;

/// Why a command or a call is refused, by its number. What a call or a reply
/// gives in place of its value is [`Refused`], which has it.
///
/// ```
/// use laremban::Refusal;
///
/// let refusal = Refusal::from_number(15);
/// assert_eq!(refusal, Some(Refusal::NoPairing));
/// assert_eq!(Refusal::NoPairing.number(), 15);
/// assert_eq!(Refusal::from_number(0), None);
/// let told = "the span overlaps one of another object";
/// assert_eq!(Refusal::SpanOverlaps.to_string(), told);
/// ```
///
/// The names are those of the definitions, as in the header for C.
/// More may come with later versions.
#[derive(Clone, Copy, Debug, PartialEq, Eq, Hash, PartialOrd, Ord)]
#[non_exhaustive]
#[repr(u8)]
pub enum Refusal {
    /// 1: the command byte is unknown. It ends a run.
    UnknownCommand = 1,
    /// 2: the bytes end before the command's operands do. It ends a run.
    CutShort = 2,
    /// 3: a dimension, an axis or a side is out of range.
    OutOfRange = 3,
    /// 4: a dart is not below the count, or a count is above the capacity of its tables.
    NoSuchDart = 4,
    /// 5: the span's low end is not below its high end.
    EmptySpan = 5,
    /// 6: a link is not below the count.
    LinkBeyond = 6,
    /// 7: a link, followed twice, does not lead back.
    LinkNotUndone = 7,
    /// 8: two links at least two axes apart, followed in turn twice, do not lead back.
    PairNotUndone = 8,
    /// 9: the place differs from that of the dart to which an axis from 1 on leads.
    PlacesDiffer = 9,
    /// 10: the row of spans has a wrong count, an empty span, an overlap, a wrong
    /// order, or an object that is no 16-bit number.
    BadRow = 10,
    /// 11: the row of spans, with their objects, differs from that of the dart to which
    /// an axis below the dimension leads.
    RowsDiffer = 11,
    /// 12: there is no plan yet.
    NoPlan = 12,
    /// 13: the plan has no room for more darts.
    PlanFull = 13,
    /// 14: a dart is linked along the axis already.
    AlreadyLinked = 14,
    /// 15: the darts around the two cannot be paired.
    NoPairing = 15,
    /// 16: places, or rows of spans with their objects, differ within a pair.
    PairDisagrees = 16,
    /// 17: the dart is free along the axis already.
    AlreadyFree = 17,
    /// 18: the span overlaps one of another object in the row.
    SpanOverlaps = 18,
    /// 19: the row would have more than eight spans, those that overlap joined.
    RowFull = 19,
    /// 20: the result is larger than the memory lent for it.
    TooLarge = 20,
    /// 21: nothing has been lifted yet.
    NothingLifted = 21,
    /// 22: a map of dimension 5 cannot be lifted.
    TopDimension = 22,
    /// 23: fewer than three bytes are left for the reply. It ends a run.
    RepliesFull = 23,
}

impl Refusal {
    /// Every refusal, in the order of their numbers from 1 on.
    pub const ALL: &[Refusal] = &[
        Refusal::UnknownCommand,
        Refusal::CutShort,
        Refusal::OutOfRange,
        Refusal::NoSuchDart,
        Refusal::EmptySpan,
        Refusal::LinkBeyond,
        Refusal::LinkNotUndone,
        Refusal::PairNotUndone,
        Refusal::PlacesDiffer,
        Refusal::BadRow,
        Refusal::RowsDiffer,
        Refusal::NoPlan,
        Refusal::PlanFull,
        Refusal::AlreadyLinked,
        Refusal::NoPairing,
        Refusal::PairDisagrees,
        Refusal::AlreadyFree,
        Refusal::SpanOverlaps,
        Refusal::RowFull,
        Refusal::TooLarge,
        Refusal::NothingLifted,
        Refusal::TopDimension,
        Refusal::RepliesFull,
    ];

    /// Its number.
    pub const fn number(self) -> u8 {
        self as u8
    }

    /// The refusal with a number; none has 0, which stands for accepted.
    pub fn from_number(number: u8) -> Option<Refusal> {
        let at = usize::from(number).checked_sub(1)?;
        Refusal::ALL.get(at).copied()
    }

    /// The refusal that the library tells by a number; nothing where it accepts.
    ///
    /// A number that is not known here is none that was accepted. No library of
    /// the crate's version has one, but memory that is another's may.
    pub(crate) fn told(number: u8) -> Option<Refusal> {
        let refusal = Refusal::from_number(number);
        assert!(
            number == 0 || refusal.is_some(),
            "refused by {number}, which this crate does not know"
        );
        refusal
    }

    /// Whether a call that tells a dart tells the first at fault for it: 6 to 11.
    fn is_of_a_dart(self) -> bool {
        (Refusal::LinkBeyond..=Refusal::RowsDiffer).contains(&self)
    }

    /// What it means, in plain words.
    fn reason(self) -> &'static str {
        match self {
            Refusal::UnknownCommand => "the command byte is unknown",
            Refusal::CutShort => "the bytes end before the command's operands do",
            Refusal::OutOfRange => "a dimension, an axis or a side is out of range",
            Refusal::NoSuchDart => {
                "a dart is not below the count, or a count is above the capacity of its tables"
            }
            Refusal::EmptySpan => "the span's low end is not below its high end",
            Refusal::LinkBeyond => "a link is not below the count",
            Refusal::LinkNotUndone => "a link, followed twice, does not lead back",
            Refusal::PairNotUndone => {
                "two links at least two axes apart, followed in turn twice, do not lead back"
            }
            Refusal::PlacesDiffer => "its place differs from that of a dart of the same corner",
            Refusal::BadRow => {
                "its row of spans has a wrong count, an empty span, an overlap, a wrong order, or \
                 an object that is not 0 to 65535"
            }
            Refusal::RowsDiffer => {
                "its row of spans, with their objects, differs from that of a dart of the same top \
                 cell"
            }
            Refusal::NoPlan => "there is no plan yet",
            Refusal::PlanFull => "the plan has no room for more darts",
            Refusal::AlreadyLinked => "a dart is linked along the axis already",
            Refusal::NoPairing => "the darts around the two cannot be paired",
            Refusal::PairDisagrees => {
                "places, or rows of spans with their objects, differ within a pair"
            }
            Refusal::AlreadyFree => "the dart is free along the axis already",
            Refusal::SpanOverlaps => "the span overlaps one of another object",
            Refusal::RowFull => "the row would have more than eight spans",
            Refusal::TooLarge => "the result is larger than the memory lent for it",
            Refusal::NothingLifted => "nothing has been lifted yet",
            Refusal::TopDimension => "a map of dimension 5 cannot be lifted",
            Refusal::RepliesFull => "fewer than three bytes are left for the reply",
        }
    }
}

impl fmt::Display for Refusal {
    fn fmt(&self, f: &mut fmt::Formatter) -> fmt::Result {
        f.write_str(self.reason())
    }
}

/// A refused command or call, the one error of all that can be refused: why, and
/// the first dart at fault where that is told, as [`check`](crate::check),
/// [`cells`](crate::cells) and [`lift`](crate::lift) do for 6 to 11.
///
/// ```
/// use laremban::{Refusal, Refused};
///
/// let refused = Refused::new(Refusal::LinkNotUndone, Some(4));
/// let told = "refused by 7 at dart 4: a link, followed twice, does not lead back";
/// assert_eq!(refused.to_string(), told);
/// assert_eq!(Refused::from(Refusal::NoPlan).dart, None);
/// ```
#[derive(Clone, Copy, Debug, PartialEq, Eq, Hash)]
#[non_exhaustive]
pub struct Refused {
    /// Why it is refused.
    pub refusal: Refusal,
    /// The first dart at fault.
    pub dart: Option<u16>,
}

impl Refused {
    /// Why, and the first dart at fault where there is one.
    pub const fn new(refusal: Refusal, dart: Option<u16>) -> Refused {
        Refused { refusal, dart }
    }

    /// Of a command, or of a call that tells no dart; nothing where it is accepted.
    pub(crate) fn without_dart(number: u8) -> Option<Refused> {
        Refusal::told(number).map(Refused::from)
    }

    /// Of a call whose value is the first dart at fault for 6 to 11; nothing
    /// where it is accepted.
    pub(crate) fn with_value(number: u8, value: u16) -> Option<Refused> {
        Refusal::told(number).map(|refusal| {
            let dart = refusal.is_of_a_dart().then_some(value);
            Refused { refusal, dart }
        })
    }
}

impl From<Refusal> for Refused {
    fn from(refusal: Refusal) -> Refused {
        Refused::new(refusal, None)
    }
}

impl fmt::Display for Refused {
    fn fmt(&self, f: &mut fmt::Formatter) -> fmt::Result {
        write!(f, "refused by {}", self.refusal.number())?;
        if let Some(dart) = self.dart {
            write!(f, " at dart {dart}")?;
        }
        write!(f, ": {}", self.refusal)
    }
}

impl std::error::Error for Refused {}

#[cfg(test)]
mod tests {
    use super::*;
    use std::collections::BTreeSet;

    #[test]
    fn numbers_lead_to_refusals_and_back() {
        for number in 0..=u8::MAX {
            let refusal = Refusal::from_number(number);
            assert_eq!(refusal.is_some(), (1..=23).contains(&number));
            assert!(refusal.is_none_or(|refusal| refusal.number() == number));
        }
    }

    #[test]
    fn every_refusal_has_words_of_its_own() {
        let told: BTreeSet<String> = Refusal::ALL.iter().map(Refusal::to_string).collect();
        assert_eq!(told.len(), Refusal::ALL.len());
    }

    #[test]
    fn a_dart_is_told_for_six_to_eleven() {
        for number in 1..=23 {
            let dart = Refused::with_value(number, 5).and_then(|refused| refused.dart);
            assert_eq!(dart, (6..=11).contains(&number).then_some(5));
        }
        assert_eq!(Refused::with_value(0, 5), None);
    }

    #[test]
    #[should_panic = "refused by 24, which this crate does not know"]
    fn a_number_that_is_not_known_is_not_taken_for_accepted() {
        Refused::without_dart(24);
    }
}
