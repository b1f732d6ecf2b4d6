//! Damaged states, met with every call of the store's library and compared with a model of document 01.
//!
//!   hostile_calls [--states N] [--seed S]   N damaged states, 10,000,000 where nothing is said
//!   hostile_calls --sample N [--seed S]     some of each round alone, each buffer in an allocation of its own
//!   hostile_calls --self-test [--seed S]    wrong libraries and models without one of the rules: each has to be told
//!   hostile_calls --round R [--seed S]      one round alone, that of one good state
//!   .. --fault K                            with the wrong library number K, from 1 to 14
//!
//! A round opens a store with random settings and leads it by random calls to a good state, which is then damaged in
//! many ways. Each damaged state that differs from the others of its round is judged by the model and met with all
//! calls, each on a copy of its own. The exit status is 0 where all agreed, 1 where something differed, 2 for a wrong
//! command line, and 3 where a call did not come back or ended the program.

mod archive;
mod calls;
mod damage;
mod desk;
mod draft;
mod faults;
mod good;
mod layout;
mod random;
mod store;
mod tally;

use calls::{Call, Lent};
use damage::{store_of, Shape, Source};
use desk::{hex, Desk, Difference};
use faults::{Fault, FAULTS};
use good::{choose, opening, settings, step, Good, Opening, Scratch};
use layout::Settings;
use random::Random;
use std::collections::HashSet;
use std::hash::{BuildHasherDefault, Hasher};
use std::process::ExitCode;
use std::sync::atomic::{AtomicU64, Ordering::Relaxed};
use std::time::{Duration, Instant};
use store::{judge, Rule, Store, RULES};
use tally::Tally;

/// The round and the damaged state that are under way, for the last words of a run.
static ROUND: AtomicU64 = AtomicU64::new(0);
static STATE: AtomicU64 = AtomicU64::new(0);

/// A state that does not come back from its calls in this time counts as one that never does.
const PATIENCE: Duration = Duration::from_secs(60);

/// Stands for a kind of damage where a state is met in a row of calls.
const FURTHER: usize = usize::MAX;

/// One round in so many is of a wide store.
const WIDE: u64 = 64;

/// A hash of bytes, to know states that were met before.
fn mixed(bytes: &[u8]) -> u64 {
    let mut hash = bytes.len() as u64;
    for eight in bytes.chunks(8) {
        let mut word = [0; 8];
        word[..eight.len()].copy_from_slice(eight);
        hash = (hash ^ u64::from_le_bytes(word)).wrapping_mul(0xff51_afd7_ed55_8ccd);
        hash ^= hash >> 32;
    }
    hash
}

/// Takes a number that is a hash already.
#[derive(Default)]
struct AsItIs(u64);

impl Hasher for AsItIs {
    fn write(&mut self, _: &[u8]) {}

    fn write_u64(&mut self, n: u64) {
        self.0 = n;
    }

    fn finish(&self) -> u64 {
        self.0
    }
}

/// A difference with the state that it was found on, made as small as it goes.
struct Found {
    state: Vec<u8>,
    difference: Box<Difference>,
    kind: usize,
    round: u64,
}

struct Runner {
    seed: u64,
    /// How many damaged states there are to be.
    states: u64,
    /// Of how many damaged states one is met.
    one_of: usize,
    desk: Desk,
    scratch: Scratch,
    tally: Tally,
    met: HashSet<u64, BuildHasherDefault<AsItIs>>,
    /// A rule that the model is to leave out.
    left_out: Option<Rule>,
    found: Option<Found>,
    /// How many calls differed.
    differed: u64,
}

/// The calls that every state is met with, by their names' places; a sound one with more of those that depend on their
/// arguments.
const ON_UNSOUND: [usize; 10] = [0, 1, 2, 3, 4, 5, 6, 7, 8, 9];
const ON_SOUND: [usize; 22] = [0, 1, 2, 2, 2, 2, 3, 3, 3, 3, 4, 4, 4, 5, 6, 6, 6, 7, 7, 8, 9, 9];

impl Runner {
    fn new(seed: u64, states: u64, alone: bool) -> Runner {
        Runner {
            seed,
            states,
            one_of: if alone { 61 } else { 1 },
            desk: Desk::new(alone),
            scratch: Scratch::new(),
            tally: Tally::new(),
            met: HashSet::default(),
            left_out: None,
            found: None,
            differed: 0,
        }
    }

    fn full(&self) -> bool {
        self.tally.states >= self.states || (self.differed > 0 && self.tally.rounds > 0)
    }

    /// A good state by random calls from an opening, and some states on the way to it. The calls are compared too.
    fn walk(&mut self, random: &mut Random, settings: Settings, openings: &[Opening], behind: usize) -> Vec<Good> {
        let mut bytes = vec![0; settings.length() + behind];
        match random.below(4) {
            0 => {}
            1 => bytes.fill(0xff),
            _ => random.fill(&mut bytes),
        }
        let Opening { settings: numbers, images, lengths } = &openings[0];
        let first = Call::Open { settings: *numbers, images, lengths };
        match self.desk.meet(&bytes, None, &first, Lent { key: 0, value: 0, reply: 3 }) {
            Ok(agreed) => self.tally.count_call(&first, agreed, false),
            Err(difference) => self.keep(bytes.clone(), difference, FURTHER),
        }
        bytes.clone_from(&self.desk.after);
        let count = random.between(4, 70) * settings.transactions.div_ceil(4);
        let mut goods = Vec::new();
        for k in 0..count {
            self.tally.walked += 1;
            if !self.further(&mut bytes, openings, random) {
                break;
            }
            if k > count / 2 && random.once_in(5) {
                goods.push(Good { settings, bytes: bytes.clone() });
            }
        }
        goods.push(Good { settings, bytes });
        goods
    }

    /// A random call on a state that is to be sound, after which it is what the model expects; no where it is not
    /// sound.
    fn further(&mut self, bytes: &mut Vec<u8>, openings: &[Opening], random: &mut Random) -> bool {
        let (store, broken) = judge(bytes);
        let held = broken.without(self.left_out).count() == 0;
        let Some(store) = store.filter(|_| held) else {
            self.keep(bytes.clone(), Box::new(Difference::left_unsound()), FURTHER);
            return false;
        };
        let handles: Vec<u64> = store.transactions().map(|txn| txn.handle).collect();
        let mut scratch = std::mem::replace(&mut self.scratch, Scratch::empty());
        let (call, lent) = choose(step(random, &store), random, &handles, Some(&store), openings, &mut scratch);
        match self.desk.meet(bytes, Some(&store), &call, lent) {
            Ok(agreed) => self.tally.count_call(&call, agreed, true),
            Err(difference) => self.keep(bytes.clone(), difference, FURTHER),
        }
        self.scratch = scratch;
        drop(store);
        bytes.clone_from(&self.desk.after);
        true
    }

    /// All damage to one good state.
    fn round(&mut self, round: u64) {
        ROUND.store(round, Relaxed);
        let mut random = Random::new(self.seed, round);
        let random = &mut random;
        self.scratch.new_keys(random);
        let chosen = settings(random, round % WIDE == WIDE - 1);
        let mut openings = vec![opening(random, &chosen, true)];
        openings.extend((0..15).map(|k| opening(random, &chosen, k % 3 == 0)));
        for opening in &openings {
            let length = Settings::of(opening.settings).map_or(0, |settings| settings.length() as u64);
            if archive::state_length(opening.settings) != length {
                println!("state_length({:?}) differs from {length}", opening.settings);
                self.differed += 1;
            }
        }
        let behind = if random.once_in(2) { 0 } else { random.below(40) };
        let mut siblings = self.walk(random, chosen, &openings, behind);
        siblings.extend(self.walk(random, chosen, &openings, behind));
        let others = settings(random, false);
        let strange = [opening(random, &others, true)];
        let stranger = self.walk(random, others, &strange, 0).pop();
        let last = siblings.len() - 1;
        let good = siblings[last].clone();
        self.tally.sizes.push(good.settings.length());
        let (Some(store), Some(stranger)) = (store_of(&good), stranger) else {
            return;
        };
        let shape = Shape::of(&good);
        let source = Source {
            good: &good,
            shape: &shape,
            store: &store,
            siblings: &siblings[..last.max(1)],
            stranger: &stranger,
        };
        let handles: Vec<u64> = store.transactions().map(|txn| txn.handle).collect();
        self.met.clear();
        self.met.insert(mixed(&good.bytes));
        let mut arguments = Random::new(self.seed, !round);
        let mut make = Random::new(self.seed ^ 0x5eed, round);
        let runner = &mut *self;
        let mut each = |kind: usize, state: &[u8]| {
            runner.damaged(kind, state, &good, &handles, &openings, &mut arguments);
        };
        source.structured(&mut make, &mut each);
        source.random(&mut make, &mut each);
        self.tally.rounds += 1;
    }

    /// A damaged state: all calls, each on a copy of it.
    fn damaged(
        &mut self,
        kind: usize,
        state: &[u8],
        good: &Good,
        handles: &[u64],
        openings: &[Opening],
        random: &mut Random,
    ) {
        if self.full() || !random.once_in(self.one_of) || !self.met.insert(mixed(state)) {
            return;
        }
        STATE.fetch_add(1, Relaxed);
        let started = Instant::now();
        let (store, broken) = judge(state);
        let held = broken.without(self.left_out).count() == 0;
        let sound = store.as_ref().filter(|_| held);
        self.tally.count_state(kind, broken, store.is_some());
        let own: Vec<u64>;
        let (names, handles): (&[usize], &[u64]) = match sound {
            Some(store) => {
                own = store.transactions().map(|txn| txn.handle).collect();
                (&ON_SOUND, &own)
            }
            None => (&ON_UNSOUND, handles),
        };
        for name in names {
            let mut scratch = std::mem::replace(&mut self.scratch, Scratch::empty());
            let (call, lent) = choose(*name, random, handles, sound, openings, &mut scratch);
            match self.desk.meet(state, sound, &call, lent) {
                Ok(agreed) => self.tally.count_call(&call, agreed, sound.is_some()),
                Err(difference) => {
                    let (state, difference) = self.smaller(state, &good.bytes, &call, lent, difference);
                    self.keep(state, difference, kind);
                }
            }
            self.scratch = scratch;
        }
        if sound.is_some() && random.once_in(4) {
            let mut bytes = state.to_vec();
            while self.further(&mut bytes, openings, random) && !random.once_in(5) {}
        }
        self.tally.longest = self.tally.longest.max(started.elapsed());
    }

    /// The difference that a call makes on a state, if any.
    fn difference(&mut self, state: &[u8], call: &Call, lent: Lent) -> Option<Box<Difference>> {
        let (store, broken) = judge(state);
        let held = broken.without(self.left_out).count() == 0;
        let sound: Option<&Store> = store.as_ref().filter(|_| held);
        self.desk.meet(state, sound, call, lent).err()
    }

    /// A state with fewer damaged and fewer other bytes on which the call still differs.
    fn smaller(
        &mut self,
        state: &[u8],
        good: &[u8],
        call: &Call,
        lent: Lent,
        difference: Box<Difference>,
    ) -> (Vec<u8>, Box<Difference>) {
        let mut best = (state.to_vec(), difference);
        if self.found.as_ref().is_some_and(|found| found.state.len() <= state.len() / 2) {
            return best;
        }
        let attempt = |runner: &mut Runner, best: &mut (Vec<u8>, Box<Difference>), candidate: Vec<u8>| {
            if candidate != best.0 {
                if let Some(difference) = runner.difference(&candidate, call, lent) {
                    *best = (candidate, difference);
                }
            }
        };
        // Fewer bytes at the end, by halves of what can be cut; then bytes as in the good state; then zeros.
        let mut step = best.0.len() / 2;
        while step > 0 {
            if step <= best.0.len() {
                let shorter = best.0[..best.0.len() - step].to_vec();
                let length = best.0.len();
                attempt(self, &mut best, shorter);
                if best.0.len() < length {
                    continue;
                }
            }
            step /= 2;
        }
        for at in 0..best.0.len().min(good.len()) {
            if best.0[at] != good[at] {
                let mut candidate = best.0.clone();
                candidate[at] = good[at];
                attempt(self, &mut best, candidate);
            }
        }
        for width in [64, 16, 4, 1] {
            for at in (0..best.0.len()).step_by(width) {
                let mut candidate = best.0.clone();
                let end = (at + width).min(candidate.len());
                candidate[at..end].fill(0);
                attempt(self, &mut best, candidate);
            }
        }
        best
    }

    /// Keeps the smallest difference: the one with the fewest bytes that are not 0, and of these the shortest.
    fn keep(&mut self, state: Vec<u8>, difference: Box<Difference>, kind: usize) {
        self.differed += 1;
        let size = |state: &[u8]| (state.iter().filter(|byte| **byte != 0).count(), state.len());
        if self.found.as_ref().is_none_or(|found| size(&state) < size(&found.state)) {
            self.found = Some(Found { state, difference, kind, round: ROUND.load(Relaxed) });
        }
    }

    fn run(&mut self) {
        let mut round = 0;
        let mut told = 0;
        while !self.full() {
            self.round(round);
            round += 1;
            if self.tally.states / 1_000_000 > told {
                told = self.tally.states / 1_000_000;
                eprintln!("{told},000,000 states");
            }
        }
    }

    /// Prints the smallest difference, if there is any.
    fn report(&self) -> ExitCode {
        let Some(found) = &self.found else {
            return if self.differed == 0 { ExitCode::SUCCESS } else { ExitCode::from(1) };
        };
        let Difference { call, model, library, parts } = &*found.difference;
        println!("{} differences; the smallest, of seed {} and round {}:", self.differed, self.seed, found.round);
        println!("  damage:  {}", damage::KINDS.get(found.kind).unwrap_or(&"none, in a row of calls"));
        println!("  state:   {} bytes: {}", found.state.len(), hex(&found.state));
        let (store, broken) = judge(&found.state);
        let rules: Vec<&str> = RULES.iter().filter(|(rule, _)| broken.has(*rule)).map(|(_, name)| *name).collect();
        println!("  rules broken: {rules:?}, {}", if store.is_some() { "a store" } else { "no store" });
        println!("  call:    {call}");
        println!("  model:   {model}");
        println!("  library: {library}");
        println!("  differ:  {}", parts.join(", "));
        ExitCode::from(1)
    }
}

/// Runs wrong libraries and models until each is told; says after how many states.
fn self_test(seed: u64) -> ExitCode {
    let mut missed = 0;
    let most = 400_000;
    let mut attempt = |name: String, fault: Option<Fault>, left_out: Option<Rule>| {
        let mut runner = Runner::new(seed, most, false);
        runner.desk.fault = fault;
        runner.left_out = left_out;
        let mut round = 0;
        while runner.differed == 0 && runner.tally.states < most {
            runner.round(round);
            round += 1;
        }
        match &runner.found {
            Some(found) => println!(
                "told in round {round:>2}, {:>5} times: {name} ({}; {})",
                runner.differed,
                found.difference.call.split('(').next().unwrap_or(""),
                found.difference.parts.join(", ")
            ),
            None => {
                println!("NOT TOLD in {} states: {name}", runner.tally.states);
                missed += 1;
            }
        }
    };
    for fault in FAULTS.into_iter().filter(|fault| *fault != Fault::LooksBehind) {
        attempt(format!("library: {fault:?}"), Some(fault), None);
    }
    for (rule, name) in RULES.iter().filter(|(rule, _)| *rule as u8 > Rule::ImageForm as u8) {
        attempt(format!("model without: {name}"), None, Some(*rule));
    }
    if missed == 0 {
        println!("all were told");
        ExitCode::SUCCESS
    } else {
        ExitCode::from(1)
    }
}

/// The last words where a signal ends the program.
extern "C" fn last_words(number: i32) {
    let mut text = [b' '; 80];
    let words = b"signal    in round            at damaged state";
    text[..words.len()].copy_from_slice(words);
    let mut put = |mut n: u64, mut end: usize| loop {
        text[end] = b'0' + (n % 10) as u8;
        n /= 10;
        end -= 1;
        if n == 0 {
            break;
        }
    };
    put(number as u64, 8);
    put(ROUND.load(Relaxed), 27);
    put(STATE.load(Relaxed), 60);
    text[79] = b'\n';
    archive::say_and_exit(&text, 3)
}

/// Ends the program where no state is finished for a long time.
fn watch() {
    std::thread::spawn(|| {
        let mut last = (u64::MAX, u64::MAX);
        loop {
            std::thread::sleep(PATIENCE);
            let here = (ROUND.load(Relaxed), STATE.load(Relaxed));
            if here == last {
                eprintln!("round {}, damaged state {}: a call does not come back", here.0, here.1);
                std::process::exit(3);
            }
            last = here;
        }
    });
}

fn usage() -> ExitCode {
    eprintln!("usage: hostile_calls [--states N | --sample N | --self-test | --round R] [--seed S] [--fault K]");
    ExitCode::from(2)
}

fn main() -> ExitCode {
    let (mut states, mut seed, mut alone, mut only, mut test) = (10_000_000, 1, false, None, false);
    let mut fault = None;
    let mut arguments = std::env::args().skip(1);
    while let Some(argument) = arguments.next() {
        if argument == "--self-test" {
            test = true;
            continue;
        }
        let Some(n) = arguments.next().and_then(|n| n.parse::<u64>().ok()) else {
            return usage();
        };
        match argument.as_str() {
            "--states" => states = n,
            "--sample" => (states, alone) = (n, true),
            "--seed" => seed = n,
            "--round" => only = Some(n),
            "--fault" if (1..=FAULTS.len() as u64).contains(&n) => fault = Some(FAULTS[n as usize - 1]),
            _ => return usage(),
        }
    }
    assert!(good::keys_share_hashes());
    archive::on_signals(last_words);
    watch();
    if test {
        return self_test(seed);
    }
    let mut runner = Runner::new(seed, states, alone);
    runner.desk.fault = fault;
    let started = Instant::now();
    match only {
        Some(round) => runner.round(round),
        None => runner.run(),
    }
    runner.tally.print(seed, started.elapsed());
    runner.report()
}
