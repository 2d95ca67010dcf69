//! Random numbers: a small generator with a seed for trying things out, and the system's for activities.

use super::Failure;
use std::fs::File;
use std::io::Read;

/// A generator that gives the same numbers for the same seed. Not for secrets.
pub struct Random {
    state: u64,
}

impl Random {
    /// A generator of this seed.
    pub fn new(seed: u64) -> Random {
        Random { state: seed }
    }

    /// The next number, of 31 bits: a product and a sum, of which only the upper bits are good enough.
    pub fn number(&mut self) -> u64 {
        self.state = self.state.wrapping_mul(0x5851_f42d_4c95_7f2d).wrapping_add(0x2706_1706_4b1d_0a35);
        self.state >> 33
    }

    /// A number below a bound that is not 0.
    pub fn below(&mut self, bound: u64) -> u64 {
        self.number() % bound
    }

    /// True in so many of a hundred cases.
    pub fn happens(&mut self, percent: u64) -> bool {
        self.below(100) < percent
    }

    /// So many bytes.
    pub fn bytes(&mut self, length: usize) -> Vec<u8> {
        (0..length).map(|_| self.number() as u8).collect()
    }
}

/// A new activity: a random UUID of the system, in its little-endian form.
pub fn new_activity() -> Result<[u8; 16], Failure> {
    let mut activity = [0; 16];
    File::open("/dev/urandom")
        .and_then(|mut source| source.read_exact(&mut activity))
        .map_err(|error| Failure::system("cannot read /dev/urandom", &error))?;
    activity[7] = activity[7] & 0x0f | 0x40;
    activity[8] = activity[8] & 0x3f | 0x80;
    Ok(activity)
}

#[cfg(test)]
mod tests {
    use super::*;

    #[test]
    fn a_seed_decides_the_numbers() {
        assert_eq!(Random::new(5).bytes(40), Random::new(5).bytes(40));
        assert_ne!(Random::new(5).bytes(40), Random::new(6).bytes(40));
    }

    #[test]
    fn percents_are_about_right() {
        let mut random = Random::new(1);
        assert!((0..1000).all(|_| !random.happens(0)));
        assert!((0..1000).all(|_| random.happens(100)));
        let so_many = (0..10_000).filter(|_| random.happens(20)).count();
        assert!((1_800..2_200).contains(&so_many), "{so_many}");
    }

    #[test]
    fn activities_differ() {
        assert_ne!(new_activity(), new_activity());
    }
}
