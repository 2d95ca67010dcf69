//! Reads and writes, good and damaged.
//!
//! What must not be missed (types, single defects, pairs of defects, lengths at a boundary) goes
//! round in turn; the rest is random.

use crate::bench::bench::Bench;
use crate::bench::memory::{MOST, RIGHT};
use crate::bench::message::message;
use crate::codec::pdu::{offset, written_header, ByteOrder, HeaderBytes};
use crate::codec::pdu::{BODY_LIMIT, HEADER_LENGTH, HIGHEST_TYPE};
use crate::generate::datagram::datagram;
use crate::generate::defect::{Defect, Draft, DEFECTS};
use crate::generate::random::Random;
use crate::generate::turn::{pairs_below, Turn};

/// So many reads and writes.
pub fn play(bench: Bench, seed: u64, events: u64) -> Bench {
    let mut author = Author::new(bench, seed);
    for _ in 0..events {
        author.next_event();
    }
    author.bench
}

/// The longest body that is mostly lent to be written. A longer one has a short length in two bytes.
const LONGEST_BODY: usize = 2_048;

/// Datagram lengths at which something changes, and some others.
const BOUNDARY_LENGTHS: [usize; 11] = [79, 80, 81, 1_471, 1_472, 1_473, 0, 1, 40, 2_048, 65_616];

/// What is wrong with a datagram of a boundary length, apart from the length itself.
const BOUNDARY_DEFECTS: [&[Defect]; 6] = [
    &[],
    DEFECTS[1],
    DEFECTS[2],
    DEFECTS[3],
    DEFECTS[4],
    &[Defect::LengthMore, Defect::LengthLess],
];

struct Author {
    bench: Bench,
    random: Random,
    single_defects: Vec<Defect>,
    defect_pairs: Vec<(usize, usize)>,
    read_kinds: Turn,
    boundaries: Turn,
    singles: Turn,
    pairs: Turn,
    write_types: Turn,
    write_defects: Turn,
    header_lengths: Turn,
    pdu_lengths: Turn,
}

impl Author {
    fn new(bench: Bench, seed: u64) -> Author {
        let types = usize::from(HIGHEST_TYPE) + 1;
        let single_defects = DEFECTS.concat();
        let defect_pairs = pairs_below(DEFECTS.len());
        Author {
            bench,
            random: Random::new(seed),
            header_lengths: Turn::new(MOST.header + 1),
            pdu_lengths: Turn::new(MOST.pdu + 1),
            read_kinds: Turn::new(2 * types),
            boundaries: Turn::new(BOUNDARY_LENGTHS.len() * BOUNDARY_DEFECTS.len()),
            singles: Turn::new(single_defects.len()),
            pairs: Turn::new(defect_pairs.len()),
            write_types: Turn::new(types),
            write_defects: Turn::new(7),
            single_defects,
            defect_pairs,
        }
    }

    /// A read or a write. Now and then what is lent has any length.
    fn next_event(&mut self) {
        let is_any_length = self.random.percent(8);
        if self.random.percent(50) {
            let datagram = self.datagram_to_read();
            if is_any_length {
                self.bench.lent.header = self.header_lengths.take();
            }
            // What it gives is compared; nothing here goes on from it.
            let _ = self.bench.read(&datagram);
        } else {
            let (header, body_length) = match self.random.percent(70) {
                true => self.good_write(),
                false => self.refused_write(),
            };
            self.write(&header, body_length, is_any_length);
        }
        self.bench.lent = RIGHT;
    }

    /// A write; what is lent of the header or of the PDU buffer may have any length.
    fn write(&mut self, header: &HeaderBytes, body_length: usize, is_any_length: bool) {
        let mut lent_header = header.to_vec();
        match (is_any_length, self.random.percent(50)) {
            (true, true) => lent_header.resize(self.header_lengths.take(), 0),
            (true, false) => self.bench.lent.pdu = self.pdu_lengths.take(),
            _ => {}
        }
        let body = message(body_length, self.random.u8());
        let _ = self.bench.write(&lent_header, &body);
    }

    fn datagram_to_read(&mut self) -> Vec<u8> {
        match self.random.between(0, 99) {
            0..=43 => self.good_datagram(),
            44..=49 => self.boundary_datagram(),
            50..=67 => self.datagram_with_a_defect(),
            68..=79 => self.datagram_with_two_defects(),
            80..=91 => self.datagram_with_a_bit_flipped(),
            _ => self.random_datagram(),
        }
    }

    /// A good datagram with a body of the length given, type and byte order by turns.
    fn draft(&mut self, body_length: usize) -> Draft {
        let kind = self.read_kinds.take();
        let order = [ByteOrder::Little, ByteOrder::Big][kind % 2];
        let header = self.random.header((kind / 2) as u8);
        let body = self.random.bytes(body_length);
        Draft {
            order,
            bytes: datagram(&header, order, &body),
        }
    }

    /// A short body; its length read in the other byte order would be another.
    fn short_draft(&mut self) -> Draft {
        let body_length = self.random.between(1, 40);
        self.draft(body_length)
    }

    fn good_datagram(&mut self) -> Vec<u8> {
        let body_length = match self.random.between(0, 99) {
            0..=14 => 0,
            15..=79 => self.random.between(1, 32),
            80..=93 => self.random.between(33, 600),
            94..=96 => BODY_LIMIT - 1,
            _ => BODY_LIMIT,
        };
        self.draft(body_length).bytes
    }

    fn boundary_datagram(&mut self) -> Vec<u8> {
        let turn = self.boundaries.take();
        let length = BOUNDARY_LENGTHS[turn % BOUNDARY_LENGTHS.len()];
        let defects = BOUNDARY_DEFECTS[turn / BOUNDARY_LENGTHS.len()];
        let mut draft = self.draft(length.saturating_sub(HEADER_LENGTH));
        if !defects.is_empty() {
            draft.apply(self.random.pick(defects), &mut self.random);
        }
        draft.bytes.truncate(length);
        draft.bytes
    }

    fn datagram_with_a_defect(&mut self) -> Vec<u8> {
        let defect = self.single_defects[self.singles.take()];
        let mut draft = self.short_draft();
        draft.apply(defect, &mut self.random);
        draft.bytes
    }

    /// Two defects of different answers. The later one is put in first, so that a cut comes last.
    fn datagram_with_two_defects(&mut self) -> Vec<u8> {
        let (first, second) = self.defect_pairs[self.pairs.take()];
        let mut draft = self.short_draft();
        draft.apply(self.random.pick(DEFECTS[second]), &mut self.random);
        draft.apply(self.random.pick(DEFECTS[first]), &mut self.random);
        draft.bytes
    }

    fn datagram_with_a_bit_flipped(&mut self) -> Vec<u8> {
        let mut bytes = self.short_draft().bytes;
        let at = self.random.between(0, bytes.len() - 1);
        bytes[at] ^= 1 << self.random.between(0, 7);
        bytes
    }

    /// Random bytes; in most of them the first few of the judged fields are good.
    fn random_datagram(&mut self) -> Vec<u8> {
        let length = self.random.between(0, 200);
        let mut draft = Draft {
            order: ByteOrder::Little,
            bytes: self.random.bytes(length),
        };
        let good_fields = self.random.between(0, 4);
        if good_fields > 0 {
            draft.put(offset::VERSION, &[4]);
        }
        if good_fields > 1 {
            let pdu_type = self.random.between(0, usize::from(HIGHEST_TYPE)) as u8;
            draft.put(offset::TYPE, &[pdu_type]);
        }
        if good_fields > 2 {
            let order = self.random.pick(&[ByteOrder::Little, ByteOrder::Big]);
            draft.put(offset::REPRESENTATION, &order.representation());
        }
        if good_fields > 3 {
            draft.put(offset::AUTHENTICATION, &[0]);
        }
        draft.bytes
    }

    /// A header as the reader gives it; what the writer sets itself is anything.
    fn header_to_write(&mut self, pdu_type: u8) -> HeaderBytes {
        let header = self.random.header(pdu_type);
        let mut bytes = written_header(&header, self.random.u64() as u16);
        bytes[offset::VERSION] = self.random.pick(&[0, 4, 255]);
        let noise = self.random.u64().to_le_bytes();
        let places = offset::REPRESENTATION..offset::REPRESENTATION + 3;
        match self.random.between(0, 2) {
            0 => bytes[places].copy_from_slice(&noise[..3]),
            1 => bytes[places].fill(0),
            _ => {}
        }
        bytes
    }

    fn good_write(&mut self) -> (HeaderBytes, usize) {
        let pdu_type = self.write_types.take() as u8;
        let header = self.header_to_write(pdu_type);
        (header, self.good_body_length())
    }

    fn good_body_length(&mut self) -> usize {
        match self.random.between(0, 99) {
            0..=29 => self.random.pick(&[0, 1, 8]),
            30..=89 => self.random.between(0, 64),
            90..=94 => self.random.between(65, BODY_LIMIT),
            95..=96 => BODY_LIMIT - 1,
            _ => BODY_LIMIT,
        }
    }

    /// A write with one, two or three defects, all seven sets of them by turns.
    fn refused_write(&mut self) -> (HeaderBytes, usize) {
        let defects = self.write_defects.take() + 1;
        let pdu_type = self.random.between(0, usize::from(HIGHEST_TYPE)) as u8;
        let mut header = self.header_to_write(pdu_type);
        let mut body_length = self.random.pick(&[0, 1, 8, BODY_LIMIT - 1, BODY_LIMIT]);
        if defects & 1 != 0 {
            header[offset::TYPE] = self.random.pick(&[11, 12, 0x20, 0x80, 255]);
        }
        if defects & 2 != 0 {
            header[offset::AUTHENTICATION] = self.random.between(1, 255) as u8;
        }
        if defects & 4 != 0 {
            body_length = self.body_length_over_the_limit();
        }
        (header, body_length)
    }

    fn body_length_over_the_limit(&mut self) -> usize {
        if self.random.percent(60) {
            return self
                .random
                .pick(&[BODY_LIMIT + 1, LONGEST_BODY, 65_536, 65_537]);
        }
        self.random.between(BODY_LIMIT + 1, LONGEST_BODY)
    }
}
