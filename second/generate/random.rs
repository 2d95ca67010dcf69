//! Numbers that look random and are the same on every machine (splitmix64).

use crate::codec::pdu::Header;

pub struct Random {
    state: u64,
}

impl Random {
    pub fn new(seed: u64) -> Random {
        Random { state: seed }
    }

    pub fn u64(&mut self) -> u64 {
        self.state = self.state.wrapping_add(0x9e37_79b9_7f4a_7c15);
        let mut mixed = self.state;
        mixed = (mixed ^ mixed >> 30).wrapping_mul(0xbf58_476d_1ce4_e5b9);
        mixed = (mixed ^ mixed >> 27).wrapping_mul(0x94d0_49bb_1331_11eb);
        mixed ^ mixed >> 31
    }

    pub fn u8(&mut self) -> u8 {
        (self.u64() >> 56) as u8
    }

    /// A number from `low` to `high`, both included.
    pub fn between(&mut self, low: usize, high: usize) -> usize {
        let span = (high - low) as u64 + 1;
        let drawn = (u128::from(self.u64()) * u128::from(span)) >> 64;
        low + drawn as usize
    }

    /// True in so many of a hundred cases.
    pub fn percent(&mut self, cases: usize) -> bool {
        self.between(0, 99) < cases
    }

    pub fn pick<T: Copy>(&mut self, choices: &[T]) -> T {
        choices[self.between(0, choices.len() - 1)]
    }

    /// One of the choices, each as often beside the others as its share says.
    pub fn share<T: Copy>(&mut self, choices: &[T], shares: &[usize]) -> T {
        let mut drawn = self.between(0, shares.iter().sum::<usize>() - 1);
        let mut place = 0;
        while drawn >= shares[place] {
            drawn -= shares[place];
            place += 1;
        }
        choices[place]
    }

    pub fn shuffle<T>(&mut self, things: &mut [T]) {
        for place in (1..things.len()).rev() {
            things.swap(place, self.between(0, place));
        }
    }

    pub fn bytes(&mut self, length: usize) -> Vec<u8> {
        let mut bytes = vec![0; length];
        self.fill(&mut bytes);
        bytes
    }

    pub fn fill(&mut self, bytes: &mut [u8]) {
        for part in bytes.chunks_mut(8) {
            part.copy_from_slice(&self.u64().to_le_bytes()[..part.len()]);
        }
    }

    pub fn uuid(&mut self) -> [u8; 16] {
        (u128::from(self.u64()) << 64 | u128::from(self.u64())).to_le_bytes()
    }

    /// Mostly any number; now and then one at an edge.
    pub fn field_u16(&mut self) -> u16 {
        if self.percent(10) {
            return self.pick(&[0, 1, 255, 256, 32_767, 32_768, 65_534, 65_535]);
        }
        (self.u64() >> 48) as u16
    }

    pub fn field_u32(&mut self) -> u32 {
        if self.percent(10) {
            return self.pick(&[0, 1, 65_535, 65_536, 0x7fff_ffff, 0x8000_0000, 0xffff_ffff]);
        }
        (self.u64() >> 32) as u32
    }

    /// A header of the type given, its other fields over their whole range, authentication 0.
    pub fn header(&mut self, pdu_type: u8) -> Header {
        Header {
            pdu_type,
            flags1: self.u8(),
            flags2: self.u8(),
            serial: self.field_u16(),
            object: self.uuid(),
            interface: self.uuid(),
            activity: self.uuid(),
            server_boot: self.field_u32(),
            interface_version: self.field_u32(),
            call_number: self.field_u32(),
            operation: self.field_u16(),
            interface_hint: self.field_u16(),
            activity_hint: self.field_u16(),
            fragment_number: self.field_u16(),
            authentication: 0,
        }
    }
}
