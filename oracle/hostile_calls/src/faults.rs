//! Wrong libraries, made from the right one: each spoils a call in one way. The comparison has to tell each.

use crate::archive::Lending;
use crate::calls::Call;
use crate::layout::*;

#[derive(Clone, Copy, Debug, PartialEq)]
pub enum Fault {
    /// A state with the counter at its end counts as unsound.
    CounterAtItsEnd,
    /// An unsound state with settings in range gives 3, to an end.
    UnsoundIsNoHandle,
    /// The byte behind the state is cleared by a freeze.
    BehindTheState,
    /// The byte in front of the state is changed by a refused call.
    FrontOfTheState,
    /// A refused put changes an unused byte of the state.
    RefusalWrites,
    /// The end clears the read number of the place too.
    EndClears,
    /// A get writes one byte more than the value has.
    OneByteMore,
    /// A get of an absent key writes its out buffer.
    AbsentWrites,
    /// A commit without writes tells a second value.
    SecondValue,
    /// A conflict leaves its transaction open.
    ConflictLeavesOpen,
    /// The opening clears the reader rows' room.
    OpeningClears,
    /// A scan that has no room for its answer counts it as read.
    RefusedScanReads,
    /// A scan changes its lower bound's key.
    ArgumentChanged,
    /// A begin looks at the byte behind the state. This changes nothing, so that valgrind alone can tell it.
    LooksBehind,
}

/// All of them; the last is not for the comparison to tell.
pub const FAULTS: [Fault; 14] = [
    Fault::CounterAtItsEnd,
    Fault::UnsoundIsNoHandle,
    Fault::BehindTheState,
    Fault::FrontOfTheState,
    Fault::RefusalWrites,
    Fault::EndClears,
    Fault::OneByteMore,
    Fault::AbsentWrites,
    Fault::SecondValue,
    Fault::ConflictLeavesOpen,
    Fault::OpeningClears,
    Fault::RefusedScanReads,
    Fault::ArgumentChanged,
    Fault::LooksBehind,
];

impl Fault {
    /// Spoils what a call did; the number that it is to give.
    ///
    /// # Safety
    /// The pairs are those of buffers between watched elements.
    pub unsafe fn spoil(self, call: &Call, lent: &Lending, before: &[u8], number: u64) -> u64 {
        let (state, length) = lent.state;
        let number_in = |at: usize| number_at(before, at, 8);
        match (self, call, number) {
            (Fault::CounterAtItsEnd, Call::Begin, 7) if number_in(COUNTER) == u64::MAX => return 9,
            (Fault::UnsoundIsNoHandle, Call::End { .. }, 9) if length >= HEAD => {
                let mut numbers = [0; 9];
                for (k, n) in numbers.iter_mut().enumerate() {
                    *n = number_in(8 * k);
                }
                if Settings::of(numbers).is_some() {
                    return 3;
                }
            }
            (Fault::BehindTheState, Call::Freeze, 0) => *state.add(length) = 0,
            (Fault::FrontOfTheState, Call::Put { .. }, 4) => *state.sub(1) ^= 1,
            (Fault::RefusalWrites, Call::Put { .. }, 5) => *state.add(length - 1) ^= 1,
            (Fault::EndClears, Call::End { handle }, 0) => {
                for at in 0..length - 16 {
                    if number_in(at) == *handle && at > HEAD {
                        *state.add(at + 15) = 0;
                    }
                }
            }
            (Fault::OneByteMore, Call::Get { .. }, 0) if lent.reply.1 > 1 && *lent.reply.0 == 1 => {
                let count = *lent.reply.0.add(1) as usize;
                *lent.value_out.0.add(count) = 0;
            }
            (Fault::AbsentWrites, Call::Get { .. }, 0)
                if lent.reply.1 > 0 && lent.value_out.1 > 0 && *lent.reply.0 == 0 =>
            {
                *lent.value_out.0 = 0;
            }
            (Fault::SecondValue, Call::Commit { .. }, 0) if lent.reply.1 > 1 && *lent.reply.0 == 0 => {
                *lent.reply.0.add(1) = 0;
            }
            (Fault::ConflictLeavesOpen, Call::Commit { .. }, 6) => {
                std::ptr::copy_nonoverlapping(before.as_ptr(), state, length);
            }
            (Fault::OpeningClears, Call::Open { .. }, 0) => *state.add(HEAD + 8) = 0,
            (Fault::RefusedScanReads, Call::Scan { .. }, 5) => *state.add(length - 1) = !before[length - 1],
            (Fault::ArgumentChanged, Call::Scan { low, .. }, 0) if !low.1.is_empty() => {
                *lent.first.0.cast_mut() ^= 0x20;
            }
            (Fault::LooksBehind, Call::Begin, _) if std::ptr::read_volatile(state.add(length)) == 0 => return number,
            _ => {}
        }
        number
    }
}
