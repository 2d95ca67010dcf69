//! Counts by name, and counts of pairs of grounds.

use std::collections::hash_map::HashMap;
use std::fmt::{self, Write};
use std::hash::{BuildHasherDefault, Hasher};

/// The numbers answered are 0 to 20.
const ANSWERS: usize = 21;

/// FNV-1a with 64 bits, which is quick for short names.
struct Fnv(u64);

impl Default for Fnv {
    fn default() -> Fnv {
        Fnv(0xcbf2_9ce4_8422_2325)
    }
}

impl Hasher for Fnv {
    fn finish(&self) -> u64 {
        self.0
    }

    fn write(&mut self, bytes: &[u8]) {
        for byte in bytes {
            self.0 = (self.0 ^ u64::from(*byte)).wrapping_mul(0x0100_0000_01b3);
        }
    }
}

/// How often one event gave grounds for both of two answers.
struct Pairs {
    function: String,
    counts: [[u64; ANSWERS]; ANSWERS],
}

/// Names that are told together, with what they are.
pub type Group = (String, Vec<String>);

pub struct Counts {
    /// What each group is, and how many names it has. All of them must be reached.
    groups: Vec<(String, usize)>,
    /// In the order in which they are printed, those of the groups first.
    names: Vec<String>,
    counts: Vec<u64>,
    places: HashMap<String, usize, BuildHasherDefault<Fnv>>,
    /// The name that is being counted.
    text: String,
    pairs: Vec<Pairs>,
}

impl Counts {
    /// All names must be reached. Each of the functions can give pairs of grounds.
    pub fn new(groups: Vec<Group>, functions: &[&str]) -> Counts {
        let sizes = groups
            .iter()
            .map(|(what, names)| (what.clone(), names.len()));
        let sizes = sizes.collect();
        let names: Vec<String> = groups.into_iter().flat_map(|(_, names)| names).collect();
        let places = names.iter().cloned().zip(0..).collect();
        let pairs = functions.iter().map(|function| Pairs {
            function: function.to_string(),
            counts: [[0; ANSWERS]; ANSWERS],
        });
        Counts {
            counts: vec![0; names.len()],
            groups: sizes,
            names,
            places,
            text: String::new(),
            pairs: pairs.collect(),
        }
    }

    /// Counts a name. One that was not foreseen stands behind the others.
    pub fn add(&mut self, name: fmt::Arguments) {
        self.add_times(name, 1);
    }

    pub fn add_name(&mut self, name: &str) {
        self.add(format_args!("{name}"));
    }

    fn add_times(&mut self, name: fmt::Arguments, times: u64) {
        self.text.clear();
        // Writing to a string cannot fail.
        let _ = self.text.write_fmt(name);
        let place = match self.places.get(&self.text) {
            Some(place) => *place,
            None => self.new_place(),
        };
        self.counts[place] += times;
    }

    fn new_place(&mut self) -> usize {
        let place = self.names.len();
        self.names.push(self.text.clone());
        self.counts.push(0);
        self.places.insert(self.text.clone(), place);
        place
    }

    /// Only an event that gives grounds for two answers shows which of them comes first.
    pub fn add_pairs(&mut self, side: &str, event: &str, grounds: &[u8]) {
        if grounds.len() < 2 {
            return;
        }
        let mut pairs = self.pairs.iter_mut();
        let pairs = pairs.find(|pairs| is_function(&pairs.function, side, event));
        let Some(pairs) = pairs else {
            return;
        };
        for (index, low) in grounds.iter().enumerate() {
            for high in &grounds[index + 1..] {
                pairs.counts[usize::from(*low)][usize::from(*high)] += 1;
            }
        }
    }

    /// The counts, with those of the pairs among them.
    pub fn told(mut self) -> Told {
        for pairs in std::mem::take(&mut self.pairs) {
            for (low, high, times) in pairs_counted(&pairs) {
                let name = format_args!("{}-both-{low}-{high}", pairs.function);
                self.add_times(name, times);
            }
        }
        Told {
            groups: self.groups,
            counts: self.names.into_iter().zip(self.counts).collect(),
        }
    }
}

/// Groups and counts as they are told.
pub struct Told {
    groups: Vec<(String, usize)>,
    /// The names of the groups first, then those that were not foreseen.
    pub counts: Vec<(String, u64)>,
}

impl Told {
    /// What each group is, and the counts of its names.
    pub fn groups(&self) -> Vec<(&str, &[(String, u64)])> {
        let mut rest = &self.counts[..];
        let mut groups = Vec::new();
        for (what, size) in &self.groups {
            let (group, behind) = rest.split_at(*size);
            groups.push((what.as_str(), group));
            rest = behind;
        }
        groups
    }

    /// The counts of names that no group has.
    pub fn not_foreseen(&self) -> &[(String, u64)] {
        let foreseen: usize = self.groups.iter().map(|(_, size)| size).sum();
        &self.counts[foreseen..]
    }
}

/// The pairs that were counted.
fn pairs_counted(pairs: &Pairs) -> Vec<(usize, usize, u64)> {
    let all = (0..ANSWERS).flat_map(|low| (0..ANSWERS).map(move |high| (low, high)));
    let counted = all.map(|(low, high)| (low, high, pairs.counts[low][high]));
    counted.filter(|(_, _, times)| *times > 0).collect()
}

/// Whether a function is the event of the side; a side without a name has one function of its own.
fn is_function(function: &str, side: &str, event: &str) -> bool {
    match side {
        "" => function == event,
        _ => function
            .strip_prefix(side)
            .and_then(|rest| rest.strip_prefix('-'))
            .is_some_and(|rest| rest == event),
    }
}

/// The names of all pairs of the answers.
pub fn pair_names(function: &str, answers: &[u8]) -> Vec<String> {
    let mut names = Vec::new();
    for (index, low) in answers.iter().enumerate() {
        let highs = answers[index + 1..].iter();
        names.extend(highs.map(|high| format!("{function}-both-{low}-{high}")));
    }
    names
}
