//! The account of demand 3, as the last paragraph of "Telemetry slots" words it, kept over one list of calls from a fresh start. It sees only
//! what goes in and what comes out: commands and the symbol table lent to each, numbers, packets, and the image lent to each slot.

use second::model::Setup;

struct Open {
    transaction: u32,
    start: u32,
    words: u32,
    /// m: words/1,016 rounded up.
    packets_due: u32,
    packets: u32,
    /// Slots that count since the acceptance or the packet before, none of which wrote this dump's next packet.
    waited: u32,
    cancelled: bool,
    /// The packets' data, joined; and what the slots' images held, joined.
    joined: Vec<u32>,
    lent: Vec<u32>,
    /// The packets themselves, for the desk's check.
    written: Vec<Vec<u8>>,
}

#[derive(Default, Clone, Copy)]
pub struct Sums {
    pub lists: u64,
    pub accepted: u64,
    /// Of those, by name.
    pub by_name: u64,
    pub finished: u64,
    pub cancelled: u64,
    pub packets: u64,
    pub largest_wait: u32,
    pub most_packets: u32,
}

pub struct Account {
    setup: Setup,
    image_words: usize,
    open: Vec<Open>,
    pub sums: Sums,
}

pub fn word(bytes: &[u8], at: usize) -> u32 {
    u32::from_be_bytes([bytes[at], bytes[at + 1], bytes[at + 2], bytes[at + 3]])
}

/// The address that a packet of code 9 asks for by the table lent to its call: the record with its name, through aliases to a value, and its offset.
pub fn address_by_name(packet: &[u8], symbols: &[u8]) -> Option<u32> {
    let length = packet[10] as usize;
    let mut record = symbols.chunks_exact(56).find(|record| record[1] == packet[10] && record.get(4..4 + length) == packet.get(12..12 + length))?;
    for _ in 0..256 {
        let number = word(record, 52);
        if record[0] == 0 {
            return u32::try_from(i64::from(number) + i64::from(word(packet, 60) as i32)).ok();
        }
        let at = 56 * number as usize;
        record = symbols.get(at..at + 56)?;
    }
    None
}

impl Account {
    /// After a start-up answered 0.
    pub fn new(setup: &Setup) -> Account {
        let image_words = setup.regions[..setup.region_count as usize].iter().map(|region| region.size as usize).sum();
        Account { setup: setup.clone(), image_words, open: vec![], sums: Sums { lists: 1, ..Sums::default() } }
    }

    /// Words of the image from word `first` of the range at `start`.
    fn image_part<'a>(&self, image: &'a [u32], start: u32, first: u32, words: u32) -> Option<&'a [u32]> {
        let mut before = 0;
        for region in &self.setup.regions[..self.setup.region_count as usize] {
            if start >= region.start.0 && ((start - region.start.0) / 4) < region.size {
                let at = before + ((start - region.start.0) / 4 + first) as usize;
                return image.get(at..at + words as usize);
            }
            before += region.size as usize;
        }
        None
    }

    /// A dump or cancel command (by its packet and the symbol table lent with it) was answered 0.
    pub fn command_done(&mut self, packet: &[u8], symbols: &[u8]) -> Result<(), String> {
        let transaction = u32::from(packet[8] & 15) << 8 | u32::from(packet[9]);
        match packet[6] {
            0 | 9 => {
                // The packets of an earlier dump with this number end here.
                self.close(Some(transaction))?;
                let at = if packet[6] == 9 { 64 } else { 10 };
                let words = u32::from(packet[at]) << 8 | u32::from(packet[at + 1]);
                let start = if packet[6] == 9 {
                    self.sums.by_name += 1;
                    address_by_name(packet, symbols).ok_or(format!("dump {transaction:03X} was accepted by a name that resolves to no address"))?
                } else {
                    word(packet, 12)
                };
                self.open.push(Open {
                    transaction,
                    start,
                    words,
                    packets_due: words.div_ceil(1_016),
                    packets: 0,
                    waited: 0,
                    cancelled: false,
                    joined: vec![],
                    lent: vec![],
                    written: vec![],
                });
                self.sums.accepted += 1;
            }
            1 => {
                let mut found = false;
                for dump in self.open.iter_mut() {
                    if dump.transaction == transaction && dump.packets < dump.packets_due && !dump.cancelled {
                        dump.cancelled = true;
                        found = true;
                        self.sums.cancelled += 1;
                    }
                }
                if !found {
                    return Err(format!("a cancel of {transaction:03X} was answered 0, but no unfinished dump has that number"));
                }
            }
            _ => {}
        }
        Ok(())
    }

    /// A slot was called with this image and this buffer length; `packet` is what it wrote (empty if nothing). The packets of a dump that it ended.
    pub fn slot_done(&mut self, image: &[u32], buffer_bytes: usize, packet: &[u8]) -> Result<Option<Vec<Vec<u8>>>, String> {
        let counts = image.len() == self.image_words && buffer_bytes >= 4_092;
        let mut writer = None;
        let mut ended = None;
        if !packet.is_empty() {
            if packet.len() < 28 || packet.len() > 4_092 {
                return Err(format!("a packet of {} bytes", packet.len()));
            }
            let transaction = u32::from(packet[6] & 15) << 8 | u32::from(packet[7]);
            // At most one open dump has the number: an accepted one closes the one before.
            let i = self.open.iter().position(|dump| dump.transaction == transaction);
            let Some(i) = i else {
                return Err(format!("a packet of transaction {transaction:03X}, which no accepted dump has"));
            };
            let dump = &self.open[i];
            if dump.cancelled {
                return Err(format!("a packet of transaction {transaction:03X} after its cancel"));
            }
            if dump.packets == dump.packets_due {
                return Err(format!("a packet of transaction {transaction:03X} after its last, number {}", dump.packets_due));
            }
            let first = 1_016 * dump.packets;
            let words = 1_016.min(dump.words - first);
            if packet.len() != 28 + 4 * words as usize {
                return Err(format!("packet {} of {transaction:03X} is {} bytes, not {} words", dump.packets + 1, packet.len(), words));
            }
            let said = [word(packet, 12), word(packet, 16), word(packet, 20), word(packet, 24)];
            let due = [dump.start, dump.words, dump.start + 4 * first, words];
            if said != due {
                return Err(format!("packet {} of {transaction:03X} says {said:X?}, due is {due:X?} (order)", dump.packets + 1));
            }
            let Some(held) = self.image_part(image, dump.start, first, words) else {
                return Err(format!("packet {} of {transaction:03X}: the image lent to the slot has no such words", dump.packets + 1));
            };
            let data: Vec<u32> = packet[28..].chunks(4).map(|b| word(b, 0)).collect();
            if data != held {
                return Err(format!("packet {} of {transaction:03X}: data differ from the image lent to its slot", dump.packets + 1));
            }
            let held = held.to_vec();
            let dump = &mut self.open[i];
            dump.joined.extend_from_slice(&data);
            dump.lent.extend_from_slice(&held);
            dump.packets += 1;
            dump.written.push(packet.to_vec());
            self.sums.packets += 1;
            self.sums.largest_wait = self.sums.largest_wait.max(dump.waited + 1);
            dump.waited = 0;
            if dump.packets == dump.packets_due {
                self.sums.finished += 1;
                self.sums.most_packets = self.sums.most_packets.max(dump.packets);
                ended = Some(std::mem::take(&mut dump.written));
            }
            writer = Some(i);
        }
        if counts {
            for (i, dump) in self.open.iter_mut().enumerate() {
                if Some(i) != writer && !dump.cancelled && dump.packets < dump.packets_due {
                    dump.waited += 1;
                    if dump.waited >= 4 {
                        return Err(format!(
                            "packet {} of {:03X} is not among the first four slots that count after {}",
                            dump.packets + 1,
                            dump.transaction,
                            if dump.packets == 0 { "the acceptance".to_string() } else { format!("packet {}", dump.packets) }
                        ));
                    }
                }
            }
        } else if writer.is_some() {
            return Err("a slot that does not count wrote a packet".to_string());
        }
        Ok(ended)
    }

    /// Ends the account of a dump with this number, or of all at the list's end.
    pub fn close(&mut self, transaction: Option<u32>) -> Result<(), String> {
        let mut keep = vec![];
        for dump in self.open.drain(..) {
            if transaction.is_some() && transaction != Some(dump.transaction) {
                keep.push(dump);
                continue;
            }
            if dump.joined != dump.lent {
                return Err(format!("the joined data of {:03X} differ from the memory lent", dump.transaction));
            }
            if transaction.is_some() && !dump.cancelled && dump.packets < dump.packets_due {
                return Err(format!("{:03X} was accepted again with {} of {} packets written", dump.transaction, dump.packets, dump.packets_due));
            }
            if !dump.cancelled && dump.packets == dump.packets_due && dump.joined.len() != dump.words as usize {
                return Err(format!("{:03X} gave {} words of {}", dump.transaction, dump.joined.len(), dump.words));
            }
        }
        self.open = keep;
        Ok(())
    }
}
