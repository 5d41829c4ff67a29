//! The run, its replies, and the text of `liftrun`.

use crate::linked::{self, Ended};
use crate::refusal::{Refusal, Refused};
use crate::tables::{LiftedMut, PlanMut};
use crate::widths::{REPLY_BYTES, TEXT_BYTES};

impl Ended {
    /// Why the run ended before the bytes did; nothing where it did not.
    pub fn refusal(self) -> Option<Refusal> {
        Refusal::told(self.number)
    }
}

/// Takes commands from bytes until one ends the run. Whatever the tables held
/// before, they hold both maps afterwards, with 0 past the last dart, and both
/// works anything. The replies stand at the start of `memory`, three bytes each
/// ([`replies`] reads them), and past them it keeps what it held.
///
/// ```
/// use laremban::{Commands, LiftedTables, PlanTables, Side, replies, run};
///
/// let mut list = Commands::new();
/// list.new_plan(1).darts(2).sew(0, 0, 1).place(1, 0, 4).span(0, 0, 3).lift();
/// list.count(Side::Lifted, 0);
/// let (mut plan, mut lifted) = (PlanTables::new(2), LiftedTables::new(8));
/// let mut memory = list.reply_memory();
/// let ended = run(list.bytes(), &mut plan.lend(), &mut lifted.lend(), &mut memory);
/// assert_eq!((ended.refusal(), ended.accepted, ended.refused), (None, 8, 0));
/// let values: Result<Vec<u16>, _> = replies(&memory, ended).collect();
/// assert_eq!(values, Ok(vec![0, 0, 1, 2, 1, 2, 8, 4]));
/// ```
pub fn run(bytes: &[u8], plan: &mut PlanMut, lifted: &mut LiftedMut, memory: &mut [u8]) -> Ended {
    linked::run(bytes, plan, lifted, memory)
}

/// The replies in the memory of a run that ended so, in order: the value of
/// each command that was accepted, or why it was refused. Where the memory is
/// too short for all commands that were taken, as another's is, the last one
/// that comes is [`Refusal::RepliesFull`]; the run itself never replies so.
///
/// # Panics
///
/// Where the memory is another's, and has a number in it that no refusal has.
///
/// ```
/// use laremban::{Commands, LiftedTables, PlanTables, Refusal, replies, run};
///
/// let mut list = Commands::new();
/// list.new_plan(1).dart().sew(0, 0, 0);
/// let (mut plan, mut lifted) = (PlanTables::new(1), LiftedTables::new(0));
/// let mut memory = list.reply_memory();
/// let ended = run(list.bytes(), &mut plan.lend(), &mut lifted.lend(), &mut memory);
/// let replied: Vec<_> = replies(&memory, ended).collect();
/// assert_eq!(replied, [Ok(0), Ok(0), Err(Refusal::NoPairing.into())]);
///
/// let short: Result<Vec<u16>, _> = replies(&memory[..5], ended).collect();
/// assert_eq!(short, Err(Refusal::RepliesFull.into()));
/// ```
pub fn replies(
    memory: &[u8],
    ended: Ended,
) -> impl Iterator<Item = Result<u16, Refused>> + Clone + '_ {
    let all = memory.as_chunks::<REPLY_BYTES>().0;
    let short = (all.len() < ended.taken).then(|| Err(Refusal::RepliesFull.into()));
    let replies = all.iter().take(ended.taken).map(|&[number, high, low]| {
        let value = u16::from_be_bytes([high, low]);
        Refused::without_dart(number).map_or(Ok(value), Err)
    });
    replies.chain(short)
}

/// The text that `liftrun` prints for these bytes.
///
/// ```
/// use laremban::liftrun;
///
/// assert_eq!(liftrun(&[0x10, 1, 0x11, 0xff]), "0 0\n0 0\n1 0\nend 1 3 2 1\n");
/// assert_eq!(liftrun(&[0x11; 2_049]), "long\n");
/// ```
pub fn liftrun(bytes: &[u8]) -> String {
    let mut out = vec![0; TEXT_BYTES];
    let length = linked::liftrun(bytes, &mut out);
    // The text is made of digits, letters, blanks and newlines.
    out[..length].iter().copied().map(char::from).collect()
}

#[cfg(test)]
mod tests {
    use super::*;
    use crate::{Commands, LiftedTables, PlanTables};

    #[test]
    fn memory_that_is_too_short_is_never_taken_for_fewer_replies() {
        let mut list = Commands::new();
        list.new_plan(1).darts(2).sew(0, 0, 1);
        let (mut plan, mut lifted) = (PlanTables::new(2), LiftedTables::new(0));
        let mut memory = list.reply_memory();
        let (p, l) = (&mut plan.lend(), &mut lifted.lend());
        let ended = run(list.bytes(), p, l, &mut memory);
        let whole: Vec<_> = replies(&memory, ended).collect();
        assert_eq!(whole, [Ok(0), Ok(0), Ok(1), Ok(2)]);
        memory.push(0);
        assert!(replies(&memory, ended).eq(whole.clone()));
        for length in 0..REPLY_BYTES * ended.taken {
            let short: Vec<_> = replies(&memory[..length], ended).collect();
            let there = length / REPLY_BYTES;
            assert_eq!(short[..there], whole[..there]);
            assert_eq!(short[there..], [Err(Refusal::RepliesFull.into())]);
        }
        // A run that ends since its memory is full has all replies of what it took.
        let mut little = [0; 2 * REPLY_BYTES + 1];
        let ended = run(list.bytes(), p, l, &mut little);
        assert_eq!(ended.refusal(), Some(Refusal::RepliesFull));
        assert!(replies(&little, ended).eq([Ok(0), Ok(0)]));
    }
}
