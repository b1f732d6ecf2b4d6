//! A call of the library on lent buffers, held against what the model expects of it: the number, the values of the
//! reply, and every byte of every buffer, with those around it.

use crate::archive::{self, Lending};
use crate::calls::{expected, Call, Lent, NAMES};
use crate::faults::Fault;
use crate::store::Store;
use std::fmt::Write;

/// How many elements around a buffer are watched.
const GUARD: usize = 32;

/// A buffer to lend. It either lies between watched elements, each time a little further on, or takes up all of an
/// allocation of its own, so that a tool that watches memory sees any use outside of it.
struct Buffer<T> {
    alone: bool,
    all: Vec<T>,
    /// Where the lent elements begin, and how many they are.
    start: usize,
    length: usize,
    guard: [T; GUARD],
}

impl<T: Copy> Buffer<T>
where
    [T]: PartialEq,
{
    fn new(alone: bool, guard: T) -> Buffer<T> {
        Buffer { alone, all: Vec::new(), start: 0, length: 0, guard: [guard; GUARD] }
    }

    /// Fills the buffer anew.
    fn lay(&mut self, content: &[T]) {
        self.length = content.len();
        if self.alone {
            self.all = content.to_vec();
            assert_eq!(self.all.capacity(), content.len(), "an allocation of exactly the buffer's length");
            return;
        }
        self.start = GUARD + (self.start + 3) % 8;
        let end = self.start + content.len();
        if self.all.len() < end + GUARD {
            self.all.resize(end + GUARD, self.guard[0]);
        }
        self.all[self.start - GUARD..self.start].copy_from_slice(&self.guard);
        self.all[self.start..end].copy_from_slice(content);
        self.all[end..end + GUARD].copy_from_slice(&self.guard);
    }

    fn lend(&mut self) -> (*mut T, usize) {
        (self.all[self.start..self.start + self.length].as_mut_ptr(), self.length)
    }

    fn content(&self) -> &[T] {
        &self.all[self.start..self.start + self.length]
    }

    /// Whether the elements around the buffer are what they were.
    fn guarded(&self) -> bool {
        let (start, end) = (self.start, self.start + self.length);
        let same = |around: &[T]| *around == self.guard[..];
        self.alone || (same(&self.all[start - GUARD..start]) && same(&self.all[end..end + GUARD]))
    }

    /// Whether the buffer has `front`, then what `blank` had there, and nothing around it changed.
    fn has(&self, front: &[T], blank: &[T]) -> bool {
        let content = self.content();
        front.len() <= content.len()
            && content[..front.len()] == *front
            && content[front.len()..] == blank[front.len()..content.len()]
            && self.guarded()
    }
}

/// What a call gave back, in words.
pub struct Difference {
    pub call: String,
    pub model: String,
    pub library: String,
    /// What differs.
    pub parts: Vec<&'static str>,
}

impl Difference {
    /// What there is to say of a state that a call on a sound one left, and that breaks a rule.
    pub fn left_unsound() -> Difference {
        Difference {
            call: "any".to_string(),
            model: "left by a call on a sound state, and breaks a rule".to_string(),
            library: "the same".to_string(),
            parts: vec!["state"],
        }
    }
}

/// The number returned and the first value of the reply, of a call that agreed.
#[derive(Clone, Copy)]
pub struct Agreed {
    pub number: u64,
    pub first: Option<u64>,
}

pub struct Desk {
    pub fault: Option<Fault>,
    state: Buffer<u8>,
    key_out: Buffer<u8>,
    value_out: Buffer<u8>,
    reply: Buffer<u64>,
    first: Buffer<u8>,
    second: Buffer<u8>,
    words: Buffer<u64>,
    /// What the out buffers have before a call.
    blank: Vec<u8>,
    blank_reply: Vec<u64>,
    /// What the model expects of the state.
    pub after: Vec<u8>,
}

impl Desk {
    /// `alone`: each buffer is an allocation of its own.
    pub fn new(alone: bool) -> Desk {
        let bytes = || Buffer::new(alone, 0xc5);
        let words = || Buffer::new(alone, 0xc5c5_c5c5_c5c5_c5c5);
        Desk {
            fault: None,
            state: bytes(),
            key_out: bytes(),
            value_out: bytes(),
            reply: words(),
            first: bytes(),
            second: bytes(),
            words: words(),
            blank: (0..1024).map(|k| 0xa0 + (k % 31) as u8).collect(),
            blank_reply: (0..16).map(|k| 0xe7e7_e7e7_e7e7_e700 + k).collect(),
            after: Vec::new(),
        }
    }

    /// Makes a call on a copy of the state. `store` is what the state holds, if the model calls it sound.
    pub fn meet(
        &mut self,
        state: &[u8],
        store: Option<&Store>,
        call: &Call,
        lent: Lent,
    ) -> Result<Agreed, Box<Difference>> {
        self.after.clear();
        self.after.extend_from_slice(state);
        let answer = expected(store, call, lent, &mut self.after);

        let (first, second, words): (&[u8], &[u8], &[u64]) = match *call {
            Call::Get { key, .. } | Call::Delete { key, .. } => (key, b"", &[]),
            Call::Scan { low, high, .. } => (low.1, high.1, &[]),
            Call::Put { key, value, .. } => (key, value, &[]),
            Call::Open { images, lengths, .. } => (images, b"", lengths),
            _ => (b"", b"", &[]),
        };
        self.state.lay(state);
        self.key_out.lay(&self.blank[..lent.key]);
        self.value_out.lay(&self.blank[..lent.value]);
        self.reply.lay(&self.blank_reply[..lent.reply]);
        self.first.lay(first);
        self.second.lay(second);
        self.words.lay(words);
        let lending = Lending {
            state: self.state.lend(),
            key_out: self.key_out.lend(),
            value_out: self.value_out.lend(),
            reply: self.reply.lend(),
            first: (self.first.lend().0, first.len()),
            second: (self.second.lend().0, second.len()),
            words: (self.words.lend().0, words.len()),
        };
        // SAFETY: each pair is the pointer and the length of a part of a vector of its own, which nothing else uses
        // before the call is back.
        let mut number = unsafe { archive::make(call, &lending) };
        if let Some(fault) = self.fault {
            // SAFETY: as above; a fault that writes outside of a buffer writes to the watched elements around it.
            number = unsafe { fault.spoil(call, &lending, state, number) };
        }

        let told = answer.values();
        let shown = &told[..told.len().min(lent.reply)];
        let same = number == answer.number
            && self.state.has(&self.after, state)
            && self.reply.has(shown, &self.blank_reply)
            && self.key_out.has(answer.key, &self.blank)
            && self.value_out.has(answer.value, &self.blank)
            && self.first.has(first, first)
            && self.second.has(second, second)
            && self.words.has(words, words);
        if same {
            return Ok(Agreed { number, first: told.first().copied() });
        }

        let mut parts = Vec::new();
        let mut part = |same: bool, name| {
            if !same {
                parts.push(name);
            }
        };
        part(number == answer.number, "number");
        part(self.state.content() == self.after, "state");
        part(self.state.guarded(), "bytes around the state");
        part(self.reply.has(shown, &self.blank_reply), "reply");
        part(self.key_out.has(answer.key, &self.blank), "key out buffer");
        part(self.value_out.has(answer.value, &self.blank), "value out buffer");
        part(
            self.first.has(first, first) && self.second.has(second, second) && self.words.has(words, words),
            "arguments",
        );
        let mut model = format!("number {}, reply {:?}", answer.number, shown);
        let mut library = format!("number {}, reply {:x?}", number, self.reply.content());
        let _ = write!(model, ", key {:02x?}, value {:02x?}", answer.key, answer.value);
        let _ = write!(library, ", key {:02x?}, value {:02x?}", self.key_out.content(), self.value_out.content());
        let _ = write!(model, ", state {}", changes(state, &self.after));
        let _ = write!(library, ", state {}", changes(state, self.state.content()));
        Err(Box::new(Difference { call: described(call, lent), model, library, parts }))
    }
}

/// The bytes of a state that a call changed, as places and bytes.
fn changes(before: &[u8], after: &[u8]) -> String {
    let mut text = String::new();
    let mut at = 0;
    while at < before.len() {
        if before[at] == after[at] {
            at += 1;
            continue;
        }
        let end = (at..before.len()).find(|k| before[*k] == after[*k]).unwrap_or(before.len());
        let _ = write!(text, " {at}:{}", hex(&after[at..end]));
        at = end;
    }
    if text.is_empty() {
        "unchanged".to_string()
    } else {
        format!("changed at{text}")
    }
}

pub fn hex(bytes: &[u8]) -> String {
    bytes.iter().fold(String::new(), |mut text, byte| {
        let _ = write!(text, "{byte:02x}");
        text
    })
}

fn described(call: &Call, lent: Lent) -> String {
    let short = |bytes: &[u8]| {
        if bytes.len() > 600 {
            format!("{} bytes", bytes.len())
        } else {
            format!("[{}]", hex(bytes))
        }
    };
    let name = NAMES[call.name()];
    let arguments = match call {
        Call::Sound | Call::Begin | Call::Freeze => String::new(),
        Call::Get { handle, key } | Call::Delete { handle, key } => format!("handle {handle}, key {}", short(key)),
        Call::Scan { handle, low, high } => {
            format!("handle {handle}, low {} {}, high {} {}", low.0, short(low.1), high.0, short(high.1))
        }
        Call::Put { handle, key, value } => format!("handle {handle}, key {}, value {}", short(key), short(value)),
        Call::Commit { handle } | Call::End { handle } => format!("handle {handle}"),
        Call::Open { settings, images, lengths } => {
            format!("settings {settings:?}, images {}, lengths {lengths:?}", short(images))
        }
    };
    format!("{name}({arguments}; out lengths {} {}, reply {})", lent.key, lent.value, lent.reply)
}
