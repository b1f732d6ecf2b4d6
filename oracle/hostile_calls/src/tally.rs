//! What was met, in numbers.

use crate::calls::{Call, NAMES};
use crate::damage::KINDS;
use crate::desk::Agreed;
use crate::store::{Rule, Rules, RULES};
use std::time::Duration;

/// How many numbers there are to return, 0 to 12.
const NUMBERS: usize = 13;

pub struct Tally {
    pub states: u64,
    pub rounds: u64,
    /// The calls on the way to good states.
    pub walked: u64,
    /// The lengths of the good states.
    pub sizes: Vec<usize>,
    /// The longest time that a state took with all its calls and their comparison.
    pub longest: Duration,
    sound: [u64; KINDS.len()],
    unsound: [u64; KINDS.len()],
    /// States that break this rule alone.
    alone: [u64; RULES.len()],
    /// Stores that break several.
    several: u64,
    /// By call and number, on states that are sound and on those that are not.
    on_sound: [[u64; NUMBERS]; NAMES.len()],
    on_unsound: [[u64; NUMBERS]; NAMES.len()],
    /// The accepted calls whose reply begins with 0: absent, the end, no writes.
    nothing: [u64; NAMES.len()],
}

impl Tally {
    pub fn new() -> Tally {
        Tally {
            states: 0,
            rounds: 0,
            walked: 0,
            sizes: Vec::new(),
            longest: Duration::ZERO,
            sound: [0; KINDS.len()],
            unsound: [0; KINDS.len()],
            alone: [0; RULES.len()],
            several: 0,
            on_sound: [[0; NUMBERS]; NAMES.len()],
            on_unsound: [[0; NUMBERS]; NAMES.len()],
            nothing: [0; NAMES.len()],
        }
    }

    pub fn count_state(&mut self, kind: usize, broken: Rules, store: bool) {
        self.states += 1;
        if broken.count() == 0 {
            self.sound[kind] += 1;
            return;
        }
        self.unsound[kind] += 1;
        if broken.count() > 1 {
            self.several += 1;
        } else {
            debug_assert!(store != (broken.0.trailing_zeros() <= Rule::ImageForm as u32));
            self.alone[broken.0.trailing_zeros() as usize] += 1;
        }
    }

    pub fn count_call(&mut self, call: &Call, agreed: Agreed, sound: bool) {
        let by = if sound { &mut self.on_sound } else { &mut self.on_unsound };
        by[call.name()][agreed.number as usize] += 1;
        if agreed.number == 0 && agreed.first == Some(0) {
            self.nothing[call.name()] += 1;
        }
    }

    pub fn print(&self, seed: u64, time: Duration) {
        let sound: u64 = self.sound.iter().sum();
        let calls: u64 = self.on_sound.iter().chain(&self.on_unsound).flatten().sum();
        println!(
            "seed {seed}: {} damaged states of {} good ones, {sound} of them sound; {calls} calls, {} of these on the way to good states",
            self.states, self.rounds, self.walked
        );
        let mut sizes = self.sizes.clone();
        sizes.sort_unstable();
        if let (Some(least), Some(most)) = (sizes.first(), sizes.last()) {
            println!("the good states have {least} to {most} bytes, half of them up to {}", sizes[sizes.len() / 2]);
        }
        println!("{:.0} s; the longest state took {:?} with all its calls", time.as_secs_f64(), self.longest);
        println!();
        println!("{:>10} {:>10}  damage", "sound", "unsound");
        for (k, name) in KINDS.iter().enumerate() {
            println!("{:>10} {:>10}  {name}", self.sound[k], self.unsound[k]);
        }
        println!();
        println!("{:>10}  unsound, and breaks alone", "states");
        for (k, (_, name)) in RULES.iter().enumerate() {
            println!("{:>10}  {name}", self.alone[k]);
        }
        println!("{:>10}  several of the rules that stores break", self.several);
        println!();
        for (title, by) in [("sound states", &self.on_sound), ("unsound states", &self.on_unsound)] {
            println!("calls on {title}, by the number returned:");
            for (name, numbers) in NAMES.iter().zip(by) {
                let told = numbers.iter().enumerate().filter(|(_, count)| **count > 0);
                let told: Vec<String> = told.map(|(number, count)| format!("{number}: {count}")).collect();
                println!("{name:>10}  {}", told.join(", "));
            }
        }
        let nothing = NAMES.iter().zip(self.nothing).filter(|(_, count)| *count > 0);
        let nothing: Vec<String> = nothing.map(|(name, count)| format!("{name} {count}")).collect();
        println!("of the accepted ones the reply was 0 (absent, the end, no writes): {}", nothing.join(", "));
    }
}
