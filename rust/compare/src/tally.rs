//! What was compared: part by part, and in each part by what it was held to. `report` prints it.
use std::collections::hash_map::DefaultHasher;
use std::collections::BTreeMap;
use std::fmt::Debug;
use std::hash::{Hash, Hasher};

use crate::explanations;
use crate::pixels::{KINDS, NEEDED};
use crate::sums::Way;

/// What a comparison holds its subject to.
#[derive(Clone, Copy, Debug, Eq, PartialEq)]
pub enum Held {
    Crate,
    Checked,
    Datasheet,
    Walk,
    Wide,
    Decoder,
    Pixels,
    Explained,
    Sets,
    Rules,
    Judges,
    Files,
    Bytes,
}

impl Held {
    /// Comparisons of the library's answers, those with the original crate first.
    pub const ANSWERS: [Held; 10] = [
        Held::Crate,
        Held::Checked,
        Held::Datasheet,
        Held::Walk,
        Held::Wide,
        Held::Decoder,
        Held::Pixels,
        Held::Explained,
        Held::Sets,
        Held::Rules,
    ];
    /// Comparisons with a model, where the original crate has no answer that counts.
    pub const MODELS: [Held; 6] = [Held::Walk, Held::Wide, Held::Pixels, Held::Explained, Held::Sets, Held::Rules];
    /// Comparisons that are not about an answer of the library.
    pub const BESIDE: [Held; 3] = [Held::Judges, Held::Files, Held::Bytes];

    pub fn all() -> impl Iterator<Item = Held> {
        Held::ANSWERS.iter().chain(&Held::BESIDE).copied()
    }

    pub fn name(self) -> &'static str {
        match self {
            Held::Crate => "crate",
            Held::Checked => "checked",
            Held::Datasheet => "sheet",
            Held::Walk => "walk",
            Held::Wide => "wide",
            Held::Decoder => "decoder",
            Held::Pixels => "pixels",
            Held::Explained => "explain",
            Held::Sets => "sets",
            Held::Rules => "rules",
            Held::Judges => "judges",
            Held::Files => "files",
            Held::Bytes => "bytes",
        }
    }

    pub fn meaning(self) -> &'static str {
        match self {
            Held::Crate => "the original crate, release build",
            Held::Checked => "the original crate once more, built with overflow checks",
            Held::Datasheet => "the datasheet's formula: alpha_ptat, where the crate has whole steps",
            Held::Walk => "model in wide integers: an image is accepted, or its refusal, table and pixel",
            Held::Wide => "model in wide integers: alpha, where the crate's sum wraps",
            Held::Decoder => "the library's own decoder: one pixel, the one it names, an explanation's end",
            Held::Pixels => "model in wide integers: one pixel, where there is no table to hold it to",
            Held::Explained => "model in wide integers: an explanation, number by number, and in words",
            Held::Sets => "model of sets: words, marks, counts and refusals of gatherings",
            Held::Rules => "model of the interface's rules: out of range, too short, unread, any record",
            Held::Judges => "not the library: the model and the crate's two builds, against each other",
            Held::Files => "not the library: rows of docs/DIFFERENCES.md and the recorded sample",
            Held::Bytes => "bytes that a call must leave: guards, the image, all that a refused call is lent",
        }
    }
}

#[derive(Clone, Copy, Default)]
pub struct Count {
    pub compared: u64,
    pub different: u64,
}

impl Count {
    fn add(&mut self, other: Count) {
        self.compared += other.compared;
        self.different += other.different;
    }
}

/// One part of the run: images of one kind, or questions of one kind.
#[derive(Clone, Default)]
pub struct Part {
    counts: [Count; 13],
    /// A hash of each image that was compared.
    images: Vec<u64>,
    pub accepted: u64,
}

impl Part {
    pub fn count(&self, held: Held) -> Count {
        self.counts[held as usize]
    }

    pub fn images(&self) -> usize {
        self.images.len()
    }

    pub fn add(&mut self, other: Part) {
        for (mine, theirs) in self.counts.iter_mut().zip(other.counts) {
            mine.add(theirs);
        }
        self.images.extend(other.images);
        self.accepted += other.accepted;
    }
}

/// How many images there are among those of some parts, each counted once. Two images whose 64-bit hashes happen to be the
/// same would make the count one too small, never too large.
pub fn distinct<'a>(parts: impl Iterator<Item = &'a Part>) -> usize {
    let mut hashes: Vec<u64> = parts.flat_map(|part| part.images.iter().copied()).collect();
    hashes.sort_unstable();
    hashes.dedup();
    hashes.len()
}

/// What the original crate did with images of one kind.
#[derive(Clone, Default)]
pub struct Doings {
    pub seen: u64,
    /// Release build: answered, gave an error, panicked.
    pub release: [u64; 3],
    /// The same with overflow checks.
    pub checked: [u64; 3],
}

impl Doings {
    fn add(&mut self, other: Doings) {
        self.seen += other.seen;
        for i in 0..3 {
            self.release[i] += other.release[i];
            self.checked[i] += other.checked[i];
        }
    }
}

#[derive(Clone, Default)]
pub struct Tally {
    pub parts: BTreeMap<&'static str, Part>,
    /// Images that the library refuses, by the refusal's number.
    pub refusals: BTreeMap<u8, Doings>,
    /// Images that it accepts, although a sum that the crate makes in 16 bits leaves them.
    pub overflows: Doings,
    /// How many sums of offset and of alpha went each way out of 16 bits.
    pub ways: [[u64; Way::COUNT]; 2],
    /// How many records and listings were compared, by the nibble of their alpha_ptat.
    pub nibbles: [u64; 16],
    /// What pixels were given by themselves, by `KINDS`.
    pub singles: [u64; KINDS.len()],
    /// How often another value of a word that a pixel needs changed its answer, by `NEEDED`.
    pub needed: [u64; NEEDED.len()],
    /// What was explained, by its own `KINDS`.
    pub explained: [u64; explanations::KINDS.len()],
    /// The first few differences, in words.
    pub shown: Vec<String>,
    /// What this run did not compare, and why.
    pub left_out: Vec<String>,
    current: &'static str,
}

const SHOWN: usize = 20;

impl Tally {
    /// The part that the following counts belong to.
    pub fn part(&mut self, name: &'static str) {
        self.current = name;
        self.current();
    }

    fn current(&mut self) -> &mut Part {
        self.parts.entry(self.current).or_default()
    }

    /// An image that is compared.
    pub fn image(&mut self, image: &[u8]) {
        let mut hasher = DefaultHasher::new();
        image.hash(&mut hasher);
        self.current().images.push(hasher.finish());
    }

    /// An image that the library accepts.
    pub fn accepted(&mut self) {
        self.current().accepted += 1;
    }

    /// A sum of the offset table or of alpha that went this way.
    pub fn way(&mut self, table: usize, way: Way) {
        self.ways[table][way.number()] += 1;
    }

    /// Counts things that were compared, of which some may differ; the first few differences are printed at the end.
    pub fn count(&mut self, held: Held, compared: u64, different: u64, first: impl FnOnce() -> String) {
        self.current().counts[held as usize].add(Count { compared, different });
        if different > 0 && self.shown.len() < SHOWN {
            self.shown.push(format!("{} ({}): {}", self.current, held.name(), first()));
        }
    }

    pub fn equal(&mut self, held: Held, compared: u64) {
        self.count(held, compared, 0, String::new);
    }

    pub fn different(&mut self, held: Held, what: impl FnOnce() -> String) {
        self.count(held, 1, 1, what);
    }

    /// Compares two things as one number.
    pub fn same<T: PartialEq + Debug>(&mut self, held: Held, name: impl FnOnce() -> String, ours: T, expected: T) {
        let different = u64::from(ours != expected);
        self.count(held, 1, different, || format!("{}: {:?}, must be {:?}", name(), ours, expected));
    }

    /// Compares two lists entry by entry, and so their lengths.
    pub fn list<T: PartialEq + Debug>(
        &mut self,
        held: Held,
        name: impl Fn(u64) -> String,
        mut ours: impl Iterator<Item = T>,
        mut expected: impl Iterator<Item = T>,
    ) {
        let (mut place, mut different, mut first) = (0, 0, None);
        loop {
            let (mine, must) = (ours.next(), expected.next());
            if mine.is_none() && must.is_none() {
                break;
            }
            if mine != must {
                different += 1;
                first.get_or_insert((place, mine, must));
            }
            place += 1;
        }
        self.count(held, place, different, || match first {
            Some((place, mine, must)) => format!("{}: {:?}, must be {:?}", name(place), mine, must),
            None => String::new(),
        });
    }

    pub fn left_out(&mut self, what: impl Into<String>) {
        self.left_out.push(what.into());
    }

    pub fn merge(&mut self, other: Tally) {
        for (name, part) in other.parts {
            self.parts.entry(name).or_default().add(part);
        }
        for (number, doings) in other.refusals {
            self.refusals.entry(number).or_default().add(doings);
        }
        self.overflows.add(other.overflows);
        for (mine, theirs) in self.ways.iter_mut().flatten().zip(other.ways.iter().flatten()) {
            *mine += theirs;
        }
        let mine = self.nibbles.iter_mut().chain(&mut self.singles).chain(&mut self.needed).chain(&mut self.explained);
        let theirs = other.nibbles.iter().chain(&other.singles).chain(&other.needed).chain(&other.explained);
        mine.zip(theirs).for_each(|(mine, theirs)| *mine += theirs);
        self.shown.extend(other.shown);
        self.shown.truncate(SHOWN);
        self.left_out.extend(other.left_out);
    }

    /// All parts together, held to any of these.
    pub fn total(&self, held: &[Held]) -> Count {
        let mut total = Count::default();
        for part in self.parts.values() {
            held.iter().for_each(|held| total.add(part.count(*held)));
        }
        total
    }

    pub fn total_different(&self) -> u64 {
        Held::all().map(|held| self.total(&[held]).different).sum()
    }
}
