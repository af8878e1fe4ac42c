//! Makers of what the ground desk hands to the check of a whole dump (paper 02, A6): the packets of a dump in any order, and each fault put in on
//! purpose, with the number that it must earn.

use crate::make::{count, damage_packet, raw_dump_packet, read_packet_call, tick, Call, Kind};
use crate::rng::Rng;

/// What is handed over; the last are the packets that slots wrote in a list of calls.
pub const CHECKS: [&str; 16] = [
    "whole",
    "pieces missing",
    "a piece repeated",
    "another unit",
    "another transaction",
    "another address",
    "another size",
    "a packet refused",
    "cut short",
    "a length that overruns",
    "bytes left over",
    "odd list",
    "over 65 packets",
    "no packets",
    "anything",
    "from slots",
];
pub const ANYTHING: usize = 14;
pub const FROM_SLOTS: usize = 15;

#[derive(Clone, Copy)]
struct Dump {
    unit: u32,
    transaction: u32,
    address: u32,
    words: u32,
}

impl Dump {
    fn new(rng: &mut Rng) -> Dump {
        let words = match rng.below(40) {
            0 => rng.pick(&[64 * 1_016, 64 * 1_016 + 1, 65_534, 65_535]),
            1 => rng.between(1, 65_535) as u32,
            2..=14 => rng.pick(&[1, 2, 1_015, 1_016, 1_017, 2_032, 2_033, 3_048]),
            _ => rng.between(1, 6_000) as u32,
        };
        let top = (1u64 << 32) - 4 * u64::from(words);
        let address = match rng.below(4) {
            0 => top as u32, // ends at 2^32
            1 => 0,
            _ => (4 * rng.below(top / 4 + 1)) as u32,
        };
        Dump { unit: rng.below(16) as u32, transaction: count(rng, 4_095), address, words }
    }

    fn pieces(&self) -> u32 {
        self.words.div_ceil(1_016)
    }

    /// A packet with piece k, of any sequence count, tick and data.
    fn packet(&self, rng: &mut Rng, k: u32) -> Vec<u8> {
        let words = 1_016.min(self.words - 1_016 * k);
        let fields = [count(rng, 16_383), self.unit, self.transaction, tick(rng), self.address, self.words, self.address + 4_064 * k, words];
        raw_dump_packet(rng, &fields, 4 * words as usize)
    }

    fn packets(&self, rng: &mut Rng) -> Vec<Vec<u8>> {
        (0..self.pieces()).map(|k| self.packet(rng, k)).collect()
    }

    /// Another dump, which differs in what the aim says alone.
    fn other(&self, rng: &mut Rng, aim: usize) -> Dump {
        let mut other = *self;
        match aim {
            3 => other.unit ^= rng.between(1, 15) as u32,
            4 => other.transaction ^= rng.pick(&[1, 0x100, 0x800, 0xFFF]),
            5 => {
                // A piece away, so that pieces of both have the same address, or a word away.
                let by = rng.pick(&[4_064, 4, 8_128]);
                let end = u64::from(self.address) + 4 * u64::from(self.words);
                other.address = if end + u64::from(by) <= 1 << 32 { self.address + by } else { self.address - by };
            }
            _ => {
                let end = u64::from(self.address) + 4 * u64::from(self.words);
                let more = self.words < 65_535 && end < 1 << 32 && (self.words == 1 || rng.one_in(2));
                other.words = if more { self.words + 1 } else { (self.words - 1).max(1) };
                if other.words == self.words {
                    // The one word that ends at 2^32: two words, from a word before, differ in the address too.
                    other.address = self.address - 4;
                    other.words = 2;
                }
            }
        }
        other
    }
}

pub fn shuffle<T>(rng: &mut Rng, all: &mut [T]) {
    for i in (1..all.len()).rev() {
        all.swap(i, rng.below(i as u64 + 1) as usize);
    }
}

/// The packets as they are handed over.
pub fn hand_over(call: &mut Call, packets: &[Vec<u8>]) {
    call.packet = packets.concat();
    call.list = packets.iter().flat_map(|packet| (packet.len() as u16).to_be_bytes()).collect();
}

fn length_at(list: &[u8], i: usize) -> usize {
    256 * list[2 * i] as usize + list[2 * i + 1] as usize
}

/// The first packet that ends past so many bytes.
fn first_past(list: &[u8], bytes: usize) -> Option<usize> {
    let mut end = 0;
    (0..list.len() / 2).find(|&i| {
        end += length_at(list, i);
        end > bytes
    })
}

/// The packets that slots wrote for one dump, in any order.
pub fn own_dump_call(rng: &mut Rng, mut packets: Vec<Vec<u8>>) -> Call {
    let mut call = Call::new(Kind::CheckDump, rng);
    shuffle(rng, &mut packets);
    hand_over(&mut call, &packets);
    call.check = FROM_SLOTS;
    call.expected = Some(0);
    call
}

pub fn check_call(rng: &mut Rng, aim: usize) -> Call {
    let mut call = Call::new(Kind::CheckDump, rng);
    call.check = aim;
    let dump = Dump::new(rng);
    let mut packets = dump.packets(rng);
    shuffle(rng, &mut packets);
    let n = packets.len();
    let at = rng.below(n as u64) as usize;
    let bad = |i: usize| Some(65_536 + i as u32);
    match aim {
        0 => call.expected = Some(0),
        1 => {
            // One or several; of a dump of one piece, all.
            let several = rng.one_in(2);
            let gone: Vec<u32> = (0..dump.pieces()).filter(|&k| k as usize == at || (several && rng.one_in(3))).collect();
            packets.retain(|packet| !gone.iter().any(|k| packet[20..24] == (dump.address + 4_064 * k).to_be_bytes()));
            call.expected = Some(131_072 + if packets.is_empty() { 0 } else { gone[0] });
        }
        2 => {
            // Again with another count, tick and data, or byte for byte; the later of the two is bad, whatever is missing.
            let address = u32::from_be_bytes([packets[at][20], packets[at][21], packets[at][22], packets[at][23]]);
            let again = if rng.one_in(3) { packets[at].clone() } else { dump.packet(rng, (address - dump.address) / 4_064) };
            if n == 65 || rng.one_in(3) {
                packets = vec![packets.swap_remove(at)];
            }
            packets.insert(rng.between(0, packets.len() as u64) as usize, again);
            call.expected = packets.iter().rposition(|packet| packet[20..24] == address.to_be_bytes()).and_then(bad);
        }
        3..=6 => {
            // One packet of another dump in the place of one, or beside them; where it comes first, the next one is bad.
            let other = dump.other(rng, aim);
            let k = rng.below(u64::from(other.pieces())) as u32;
            let stranger = other.packet(rng, k);
            if n == 65 || rng.one_in(2) {
                packets[at] = stranger;
            } else {
                packets.insert(at, stranger);
            }
            call.expected = if packets.len() == 1 { None } else { bad(at.max(1)) };
        }
        7 => {
            let number = rng.pick(&[4, 5, 7, 9]);
            packets[at] = read_packet_call(rng, number, None).packet;
            packets[at].truncate(65_535);
            call.expected = bad(at);
        }
        _ => {}
    }
    hand_over(&mut call, &packets);
    let end = call.packet.len();
    match aim {
        8 => {
            // By less than a packet, or by 65,536, so that a sum of 16 bits would see nothing.
            let off = if end > 65_536 && rng.one_in(2) { 65_536 } else { rng.between(1, 4_000) as usize };
            call.packet.truncate(end.saturating_sub(off));
            call.expected = first_past(&call.list, call.packet.len()).and_then(bad);
        }
        9 => {
            // Longer by what is left of the 16 bits, at most; of a dump's last packet the bytes that are there are the whole packet.
            let more = rng.pick(&[1, 4, 256, 4_064, 61_000]) as usize;
            let long = (length_at(&call.list, at) + more) as u16;
            call.list[2 * at..2 * at + 2].copy_from_slice(&long.to_be_bytes());
            if rng.one_in(3) && at + 1 < n {
                // The next is as much shorter, so that the sum is right.
                let short = length_at(&call.list, at + 1).saturating_sub(more) as u16;
                call.list[2 * at + 2..2 * at + 4].copy_from_slice(&short.to_be_bytes());
            }
            call.expected = bad(at);
        }
        10 => {
            match rng.below(3) {
                0 => {
                    let more = rng.between(1, 40) as usize;
                    let bytes = rng.bytes(more);
                    call.packet.extend(bytes);
                }
                1 => {
                    // The last length is gone, and its packet is left over.
                    call.list.truncate(2 * n - 2);
                }
                _ => {
                    let short = (length_at(&call.list, at) - rng.pick(&[1, 4, 28])) as u16;
                    call.list[2 * at..2 * at + 2].copy_from_slice(&short.to_be_bytes());
                }
            }
            call.expected = Some(3);
        }
        11 => {
            if rng.one_in(2) {
                call.list.pop();
            } else {
                call.list.push(rng.word() as u8);
            }
            call.expected = Some(3);
        }
        12 => {
            // 65 whole pieces and one more; or packets of no bytes, 65 of which are not too many.
            let most = Dump { words: 65_535, address: 0, ..dump };
            let count = rng.pick(&[65, 66, 67, 200, 32_768]);
            if rng.one_in(20) {
                let mut packets = most.packets(rng);
                packets.push(most.packet(rng, 0));
                hand_over(&mut call, &packets);
                call.expected = Some(3);
            } else {
                call.packet.clear();
                call.list = vec![0; 2 * count];
                call.expected = if count == 65 { bad(0) } else { Some(3) };
            }
        }
        13 => {
            call.packet.truncate(if rng.one_in(2) { 0 } else { rng.below(60) as usize });
            call.list.clear();
            call.expected = Some(if call.packet.is_empty() { 131_072 } else { 3 });
        }
        14 => match rng.below(4) {
            0 => {
                let (bytes, list) = (rng.below(300) as usize, rng.below(20) as usize);
                call.packet = rng.bytes(bytes);
                call.list = rng.bytes(list);
                call.list.iter_mut().step_by(2).for_each(|high| *high = 0);
            }
            1 => {
                let byte = rng.below(call.list.len() as u64) as usize;
                call.list[byte] ^= 1 << rng.below(8);
            }
            2 => {
                // A bit of a header.
                let packet = first_past(&call.list, rng.below(end as u64) as usize).unwrap_or(0);
                let start: usize = (0..packet).map(|i| length_at(&call.list, i)).sum();
                call.packet[start + rng.below(28) as usize] ^= 1 << rng.below(8);
            }
            _ => {
                damage_packet(rng, &mut packets[at], false);
                packets[at].truncate(65_535);
                hand_over(&mut call, &packets);
            }
        },
        _ => {}
    }
    call
}
