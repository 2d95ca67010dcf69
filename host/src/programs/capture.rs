//! A capture file of the classic form, which Wireshark opens: each PDU as an IPv4 packet with a UDP datagram.

use super::Failure;
use std::fs::File;
use std::io::{self, Write};
use std::net::SocketAddrV4;
use std::time::{SystemTime, UNIX_EPOCH};

/// Packets begin with the IPv4 header.
const LINK_TYPE_RAW: u32 = 101;
const IPV4_HEADER: usize = 20;
const UDP_HEADER: usize = 8;

/// A capture file that grows by one packet a PDU.
pub struct Capture {
    file: File,
    name: String,
}

impl Capture {
    /// Makes the file anew.
    pub fn create(name: &str) -> Result<Capture, Failure> {
        let failed = |error: io::Error| Failure::system(&format!("cannot write {name}"), &error);
        let mut file = File::create(name).map_err(failed)?;
        file.write_all(&file_header()).map_err(failed)?;
        Ok(Capture { file, name: name.to_string() })
    }

    /// Adds a PDU that went from one address to the other, now.
    pub fn add(&mut self, from: SocketAddrV4, to: SocketAddrV4, pdu: &[u8]) -> Result<(), Failure> {
        let since = SystemTime::now().duration_since(UNIX_EPOCH).unwrap_or_default();
        let packet = packet(from, to, pdu);
        let length = packet.len() as u32;
        let mut record = Vec::with_capacity(16 + packet.len());
        for word in [since.as_secs() as u32, since.subsec_micros(), length, length] {
            record.extend(word.to_le_bytes());
        }
        record.extend(packet);
        self.file.write_all(&record).map_err(|error| Failure::system(&format!("cannot write {}", self.name), &error))
    }
}

/// The mark of the form with microseconds, version 2.4, local time zone 0, accuracy 0, longest packet, link type.
fn file_header() -> Vec<u8> {
    let mut header = Vec::with_capacity(24);
    header.extend(0xa1b2_c3d4_u32.to_le_bytes());
    header.extend(2_u16.to_le_bytes());
    header.extend(4_u16.to_le_bytes());
    for word in [0, 0, 65_535, LINK_TYPE_RAW] {
        header.extend(word.to_le_bytes());
    }
    header
}

/// An IPv4 packet with one UDP datagram. The UDP checksum is 0, which means none; the IPv4 one is right.
fn packet(from: SocketAddrV4, to: SocketAddrV4, pdu: &[u8]) -> Vec<u8> {
    let datagram = (UDP_HEADER + pdu.len()) as u16;
    let mut packet = Vec::with_capacity(IPV4_HEADER + UDP_HEADER + pdu.len());
    packet.extend([0x45, 0]);
    packet.extend((IPV4_HEADER as u16 + datagram).to_be_bytes());
    packet.extend([0, 0, 0x40, 0]);
    packet.extend([64, 17, 0, 0]);
    packet.extend(from.ip().octets());
    packet.extend(to.ip().octets());
    let sum = checksum(&packet);
    packet[10..12].copy_from_slice(&sum.to_be_bytes());
    for short in [from.port(), to.port(), datagram, 0] {
        packet.extend(short.to_be_bytes());
    }
    packet.extend(pdu);
    packet
}

/// The Internet checksum of an even number of bytes: the complement of the sum in ones' complement.
fn checksum(bytes: &[u8]) -> u16 {
    let sum: u32 = bytes.chunks(2).map(|pair| u32::from(pair[0]) << 8 | u32::from(pair[1])).sum();
    let once = (sum & 0xffff) + (sum >> 16);
    !((once & 0xffff) + (once >> 16)) as u16
}

#[cfg(test)]
mod tests {
    use super::*;
    use std::net::Ipv4Addr;

    #[test]
    fn the_checksum_of_a_header_with_its_checksum_is_0() {
        let from = SocketAddrV4::new(Ipv4Addr::new(127, 0, 0, 1), 4000);
        let to = SocketAddrV4::new(Ipv4Addr::new(192, 168, 7, 255), 65_535);
        let made = packet(from, to, &[1, 2, 3]);
        assert_eq!(checksum(&made[..IPV4_HEADER]), 0);
        assert_ne!(made[10..12], [0, 0]);
        assert_eq!(made.len(), 31);
        assert_eq!(made[2..4], [0, 31]);
        assert_eq!(made[20..28], [0x0f, 0xa0, 0xff, 0xff, 0, 11, 0, 0]);
        assert_eq!(made[28..], [1, 2, 3]);
    }

    #[test]
    fn a_known_checksum() {
        let header = [0x45, 0, 0, 0x73, 0, 0, 0x40, 0, 0x40, 0x11, 0, 0, 0xc0, 0xa8, 0, 1, 0xc0, 0xa8, 0, 0xc7];
        assert_eq!(checksum(&header), 0xb861);
    }

    #[test]
    fn a_file_that_cannot_be_made_is_told() {
        assert!(matches!(Capture::create("/nowhere/at/all"), Err(Failure::Failed(_))));
    }
}
