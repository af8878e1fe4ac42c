//! compare [--calls N] [--seed S] [--unused zero|sent] [--self-test]
//!
//! Drives the first implementation (through the C door) and the model on the same input and compares all that comes out.

mod account;
mod desk;
mod make;
mod rng;

use account::{address_by_name, word, Account, Sums};
use desk::{check_call, own_dump_call, ANYTHING, CHECKS};
use make::*;
use rng::Rng;
use second::door::{self, by_model, Answer, COMMAND_WORDS, STATE_WORDS};
use second::model::{command_call, DumpPlace, Setup, State};
use std::process::exit;

const DEFAULT_CALLS: u64 = 200_000;
const DEFAULT_SEED: u64 = 20_260_101;

// ------------------------------------------------------------------------------------------------------------------------------------
// One call, on both sides
// ------------------------------------------------------------------------------------------------------------------------------------

/// All that is there after a call.
#[derive(Clone, PartialEq)]
struct Outcome {
    number: u32,
    length: u32,
    words: Vec<u32>,
    fixed: Vec<u32>,
    packet: Vec<u8>,
    list: Vec<u8>,
    starts: Vec<u32>,
    lengths: Vec<u32>,
    answers: Vec<Answer>,
    symbols: Vec<u8>,
    image: Vec<u32>,
    buffer: Vec<u8>,
    /// The name of a lent part next to which something was written.
    overrun: &'static str,
}

fn ask_model(call: &Call) -> Outcome {
    let mut o = Outcome {
        number: 0,
        length: call.length,
        words: call.words.clone(),
        fixed: call.fixed.clone(),
        packet: call.packet.clone(),
        list: call.list.clone(),
        starts: call.starts.clone(),
        lengths: call.lengths.clone(),
        answers: call.answers.clone(),
        symbols: call.symbols.clone(),
        image: call.image.clone(),
        buffer: call.buffer.clone(),
        overrun: "",
    };
    o.number = match call.kind {
        Kind::StartUp => by_model::start_up(&o.fixed, &mut o.words),
        Kind::Command => by_model::command(&mut o.words, &o.packet, &o.symbols, &mut o.image, &mut o.buffer, &mut o.length),
        Kind::Batch => by_model::commands(
            &mut o.words,
            &o.packet,
            &o.starts,
            &o.lengths,
            &o.symbols,
            &mut o.image,
            &mut o.buffer,
            &mut o.answers,
        ),
        Kind::Slot => by_model::slot(&mut o.words, call.tick, &o.image, &mut o.buffer, &mut o.length),
        Kind::WriteCommand => by_model::write_command(&o.fixed, &mut o.buffer, &mut o.length),
        Kind::ReadCommand => by_model::read_command(&o.packet, &mut o.words),
        Kind::ReadPacket => by_model::read_packet(&o.packet, &mut o.words, &mut o.length),
        Kind::CheckDump => by_model::check_dump(&o.packet, &o.list),
    };
    o
}

const GUARD: usize = 16;

/// A copy of a lent part with guard elements on both sides.
struct Guarded<T> {
    all: Vec<T>,
    guard: T,
}

impl<T: Copy + PartialEq> Guarded<T> {
    fn new(part: &[T], guard: T) -> Guarded<T> {
        let mut all = Vec::with_capacity(part.len() + 2 * GUARD);
        all.resize(GUARD, guard);
        all.extend_from_slice(part);
        all.resize(part.len() + 2 * GUARD, guard);
        Guarded { all, guard }
    }

    fn part(&mut self) -> &mut [T] {
        let end = self.all.len() - GUARD;
        &mut self.all[GUARD..end]
    }

    fn broken(&self) -> bool {
        let end = self.all.len() - GUARD;
        self.all[..GUARD].iter().chain(&self.all[end..]).any(|element| *element != self.guard)
    }

    fn take(mut self) -> Vec<T> {
        let end = self.all.len() - GUARD;
        self.all.truncate(end);
        self.all.drain(..GUARD);
        self.all
    }
}

fn ask_door(call: &Call) -> Outcome {
    let mut words = Guarded::new(&call.words, 0xC0DE_D00D);
    let mut fixed = Guarded::new(&call.fixed, 0xC0DE_D00D);
    let mut packet = Guarded::new(&call.packet, 0xD7);
    let mut list = Guarded::new(&call.list, 0xD7);
    let mut starts = Guarded::new(&call.starts, 0xC0DE_D00D);
    let mut lengths = Guarded::new(&call.lengths, 0xC0DE_D00D);
    let mut answers = Guarded::new(&call.answers, Answer { number: 0xC0DE_D00D, length: 0xC0DE_D00D });
    let mut symbols = Guarded::new(&call.symbols, 0xD7);
    let mut image = Guarded::new(&call.image, 0xC0DE_D00D);
    let mut buffer = Guarded::new(&call.buffer, 0xD7);
    let mut length = call.length;
    let number = match call.kind {
        Kind::StartUp => door::start_up(fixed.part(), words.part()),
        Kind::Command => door::command(words.part(), packet.part(), symbols.part(), image.part(), buffer.part(), &mut length),
        Kind::Batch => door::commands(
            words.part(),
            packet.part(),
            starts.part(),
            lengths.part(),
            symbols.part(),
            image.part(),
            buffer.part(),
            answers.part(),
        ),
        Kind::Slot => door::slot(words.part(), call.tick, image.part(), buffer.part(), &mut length),
        Kind::WriteCommand => door::write_command(fixed.part(), buffer.part(), &mut length),
        Kind::ReadCommand => door::read_command(packet.part(), words.part()),
        Kind::ReadPacket => door::read_packet(packet.part(), words.part(), &mut length),
        Kind::CheckDump => door::check_dump(packet.part(), list.part()),
    };
    let mut overrun = "";
    for (name, broken) in [
        ("block", words.broken()),
        ("read-only block", fixed.broken()),
        ("packet", packet.broken()),
        ("list", list.broken()),
        ("starts", starts.broken()),
        ("lengths", lengths.broken()),
        ("answer records", answers.broken()),
        ("symbols", symbols.broken()),
        ("image", image.broken()),
        ("buffer", buffer.broken()),
    ] {
        if broken {
            overrun = name;
        }
    }
    Outcome {
        number,
        length,
        words: words.take(),
        fixed: fixed.take(),
        packet: packet.take(),
        list: list.take(),
        starts: starts.take(),
        lengths: lengths.take(),
        answers: answers.take(),
        symbols: symbols.take(),
        image: image.take(),
        buffer: buffer.take(),
        overrun,
    }
}

fn first_difference<T: PartialEq + std::fmt::LowerHex>(name: &str, model: &[T], door: &[T]) -> Option<String> {
    if model == door {
        return None;
    }
    if model.len() != door.len() {
        return Some(format!("{name}: {} and {} elements", model.len(), door.len()));
    }
    let at = (0..model.len()).find(|&i| model[i] != door[i])?;
    Some(format!("{name}, element {at}: model {:x}, library {:x}", model[at], door[at]))
}

/// Answer records as words: number and length of the first, of the second, and so on.
fn record_words(answers: &[Answer]) -> Vec<u32> {
    answers.iter().flat_map(|answer| [answer.number, answer.length]).collect()
}

fn difference(model: &Outcome, door: &Outcome) -> Option<String> {
    if model.number != door.number {
        return Some(format!("number: model {}, library {}", model.number, door.number));
    }
    if model.length != door.length {
        return Some(format!("length: model {}, library {}", model.length, door.length));
    }
    if !door.overrun.is_empty() {
        return Some(format!("the library wrote beside the {}", door.overrun));
    }
    first_difference("answer records, as words", &record_words(&model.answers), &record_words(&door.answers))
        .or_else(|| first_difference("block", &model.words, &door.words))
        .or_else(|| first_difference("image", &model.image, &door.image))
        .or_else(|| first_difference("buffer", &model.buffer, &door.buffer))
        .or_else(|| first_difference("read-only block", &model.fixed, &door.fixed))
        .or_else(|| first_difference("packet", &model.packet, &door.packet))
        .or_else(|| first_difference("list", &model.list, &door.list))
        .or_else(|| first_difference("starts", &model.starts, &door.starts))
        .or_else(|| first_difference("lengths", &model.lengths, &door.lengths))
        .or_else(|| first_difference("symbols", &model.symbols, &door.symbols))
}

/// The packet of item i of a batch; empty if it leaves the buffer.
fn item_of(call: &Call, i: usize) -> &[u8] {
    let start = u64::from(call.starts[i]);
    let end = start + u64::from(call.lengths[i]);
    if end <= call.packet.len() as u64 {
        &call.packet[start as usize..end as usize]
    } else {
        &[]
    }
}

/// Request A1: the items of a batch answered 0, one by one through the library's command call, beside what the library's batch left.
fn one_by_one(call: &Call, batch: &Outcome) -> Option<String> {
    let mut words = call.words.clone();
    let mut image = call.image.clone();
    let mut replies = call.buffer.clone();
    for i in 0..call.starts.len() {
        let mut length = 99;
        let reply = &mut replies[32 * i..32 * i + 32];
        let number = door::command(&mut words, item_of(call, i), &call.symbols, &mut image, reply, &mut length);
        if (Answer { number, length }) != batch.answers[i] {
            return Some(format!("item {i}: alone {number} and length {length}, in the batch {:?}", batch.answers[i]));
        }
    }
    let same = words == batch.words && image == batch.image && replies == batch.buffer;
    (!same).then(|| "the batch does not leave what its items leave one by one".to_string())
}

// ------------------------------------------------------------------------------------------------------------------------------------
// The data words of a load beyond its size and the bytes of a name field beyond its name, as the command reader gives them: the paper leaves them
// open, and says that they go alike
// ------------------------------------------------------------------------------------------------------------------------------------

#[derive(Clone, Copy, PartialEq, Debug)]
enum Unused {
    /// Given as 0, since a command does not look at them.
    Zero,
    /// Given as they stand in the packet.
    Sent,
}

/// Puts the library's reading of the unused words and bytes into the model's outcome: the first call that shows it settles it for all later calls.
fn settle_unused(reading: &mut Option<Unused>, call: &Call, model: &mut Outcome, door: &Outcome) {
    if call.kind != Kind::ReadCommand || model.number != 0 || model.words.len() != COMMAND_WORDS {
        return;
    }
    // Where the words are in the packet, how many there are, and how many bytes of them are used.
    let (from, words, used) = match model.words[0] {
        4 => (16, 11, 4 * model.words[4] as usize),
        8 | 9 => (12, 12, model.words[19] as usize),
        _ => return,
    };
    for k in used / 4..words {
        let at = from + 4 * k;
        let mut sent = [call.packet[at], call.packet[at + 1], call.packet[at + 2], call.packet[at + 3]];
        let whole = u32::from_be_bytes(sent);
        sent[..used.saturating_sub(4 * k).min(4)].fill(0);
        let unused = u32::from_be_bytes(sent);
        if reading.is_none() && unused != 0 && door.words.len() == COMMAND_WORDS {
            if door.words[7 + k] == whole - unused {
                *reading = Some(Unused::Zero);
            } else if door.words[7 + k] == whole {
                *reading = Some(Unused::Sent);
            }
        }
        if *reading == Some(Unused::Sent) {
            model.words[7 + k] = whole;
        }
    }
}

// ------------------------------------------------------------------------------------------------------------------------------------
// The run
// ------------------------------------------------------------------------------------------------------------------------------------

/// The numbers are 0 to 19.
const NUMBERS: usize = 20;
const CODES: [(u8, &str); 6] =
    [(0, "dump"), (1, "cancel"), (4, "load"), (7, "pool statistics"), (8, "value of a symbol"), (9, "dump by name")];
/// By the free blocks: none, each of one word, and others. The last is answered 10.
const POOLS: [&str; 4] = ["no free block", "free blocks of one word", "larger ones", "absent"];

/// Blocks by what is odd about them.
const BLOCKS: [&str; 4] = [
    "table of another length, state of 80 words",
    "rights over 3 in an unused entry: start-ups answered 0",
    "commands answered 0",
    "slots answered 0",
];
/// The codes of `CODES` that name a range, and where one lies that gets 19, 10 or, beside them, 0.
const RANGE_CODES: [usize; 3] = [0, 2, 5];
const RANGES: [(u32, &str); 7] = [
    (19, "into a gap"),
    (19, "into a touching region"),
    (19, "past 2^32"),
    (10, "from a gap into a region"),
    (10, "from a region's end"),
    (10, "elsewhere"),
    (0, "from a region's end, where the next one touches"),
];

/// Which of `RANGES` it is by the region table alone, if any.
fn range_kind(setup: &Setup, address: u32, words: u32) -> Option<usize> {
    let (start, end) = (u64::from(address), u64::from(address) + 4 * u64::from(words));
    let regions = || setup.regions[..setup.region_count as usize].iter().map(|r| (u64::from(r.start.0), u64::from(r.start.0) + 4 * u64::from(r.size)));
    let at_an_end = regions().any(|region| region.1 == start);
    match regions().find(|region| region.0 <= start && start < region.1) {
        Some(region) if end <= region.1 => at_an_end.then_some(6),
        Some(region) if region.1 == 1 << 32 => Some(2),
        Some(region) => Some(usize::from(regions().any(|next| next.0 == region.1))),
        None if at_an_end => Some(4),
        None if regions().any(|region| start < region.0 && region.0 < end) => Some(3),
        None => Some(5),
    }
}

struct Run {
    seed: u64,
    calls: u64,
    unused: Option<Unused>,
    /// [kind][number]
    table: [[u64; NUMBERS]; KINDS.len()],
    /// Items of batches by number.
    items: [u64; NUMBERS],
    /// Commands of codes 8 and 9 that came to the test of the symbol table, by number; items of batches included here and below.
    by_name: [[u64; NUMBERS]; 2],
    /// The same, by what the table is.
    tables: [u64; TABLES.len()],
    /// Commands answered 0 by function code.
    done: [u64; CODES.len()],
    pools: [u64; POOLS.len()],
    blocks: [u64; BLOCKS.len()],
    /// Ranges that got the number of their kind, by code.
    ranges: [[u64; RANGES.len()]; RANGE_CODES.len()],
    /// Checks of a dump by what was handed over; and those that told of a bad packet or a missing piece, and of which.
    checks: [u64; CHECKS.len()],
    told: [(u64, u32); 2],
    sums: Sums,
}

fn hex_bytes(bytes: &[u8]) -> String {
    let mut text = String::new();
    for (i, byte) in bytes.iter().enumerate() {
        text += &format!("{}{byte:02X}", if i % 32 == 0 { "\n    " } else { " " });
    }
    text
}

fn hex_words(words: &[u32]) -> String {
    let mut text = String::new();
    for (i, word) in words.iter().enumerate() {
        text += &format!("{}{word:08X}", if i % 12 == 0 { "\n    " } else { " " });
    }
    text
}

/// Long parts are shown to their 6,000th element.
fn shown<'a, T>(part: &'a [T]) -> &'a [T] {
    &part[..part.len().min(6_000)]
}

fn print_call(call: &Call) {
    println!("INPUT of {}:", call.kind.name());
    println!("  block, {} words:{}", call.words.len(), hex_words(&call.words));
    println!("  read-only block, {} words:{}", call.fixed.len(), hex_words(&call.fixed));
    println!("  packet, {} bytes:{}", call.packet.len(), hex_bytes(shown(&call.packet)));
    if call.kind == Kind::CheckDump {
        println!("  list of lengths, {} bytes ({}):{}", call.list.len(), CHECKS[call.check], hex_bytes(&call.list));
    }
    if call.kind == Kind::Batch {
        println!("  starts, {}:{}", call.starts.len(), hex_words(&call.starts));
        println!("  lengths, {}:{}", call.lengths.len(), hex_words(&call.lengths));
        println!("  answer records, {}, as words:{}", call.answers.len(), hex_words(&record_words(&call.answers)));
    }
    println!("  tick {:08X}, length variable before {:08X}", call.tick, call.length);
    println!("  symbols, {} bytes ({}):{}", call.symbols.len(), TABLES[call.table], hex_bytes(&call.symbols));
    println!("  image, {} words:{}", call.image.len(), hex_words(shown(&call.image)));
    println!("  buffer, {} bytes:{}", call.buffer.len(), hex_bytes(shown(&call.buffer)));
}

fn print_outcome(name: &str, call: &Call, outcome: &Outcome) {
    println!("RESULT of the {name}: number {}, length {}", outcome.number, outcome.length);
    println!("  block:{}", hex_words(&outcome.words));
    if call.kind == Kind::Batch {
        println!("  answer records, as words:{}", hex_words(&record_words(&outcome.answers)));
    }
    print_changes("image", &call.image, &outcome.image);
    if call.buffer == outcome.buffer {
        println!("  buffer: unchanged");
    } else {
        println!("  buffer:{}", hex_bytes(shown(&outcome.buffer)));
    }
    print_changes("read-only block", &call.fixed, &outcome.fixed);
    if call.packet != outcome.packet {
        println!("  packet CHANGED:{}", hex_bytes(shown(&outcome.packet)));
    }
}

fn print_changes(name: &str, before: &[u32], after: &[u32]) {
    let changes: Vec<String> = before
        .iter()
        .zip(after)
        .enumerate()
        .filter(|(_, (b, a))| b != a)
        .take(40)
        .map(|(i, (b, a))| format!("[{i}] {b:08X} -> {a:08X}"))
        .collect();
    println!("  {name}: {}", if changes.is_empty() { "unchanged".to_string() } else { changes.join(", ") });
}

impl Run {
    fn new(seed: u64, unused: Option<Unused>) -> Run {
        Run {
            seed,
            calls: 0,
            unused,
            table: [[0; NUMBERS]; KINDS.len()],
            items: [0; NUMBERS],
            by_name: [[0; NUMBERS]; 2],
            tables: [0; TABLES.len()],
            done: [0; CODES.len()],
            pools: [0; POOLS.len()],
            blocks: [0; BLOCKS.len()],
            ranges: [[0; RANGES.len()]; RANGE_CODES.len()],
            checks: [0; CHECKS.len()],
            told: [(0, 0); 2],
            sums: Sums::default(),
        }
    }

    /// One call on both sides. Any difference ends the program.
    fn call(&mut self, call: &Call) -> Outcome {
        self.calls += 1;
        let mut model = ask_model(call);
        let door = ask_door(call);
        settle_unused(&mut self.unused, call, &mut model, &door);
        let mut wrong = difference(&model, &door);
        if wrong.is_none() && call.expected.is_some_and(|number| number != model.number) {
            wrong = Some(format!("both answer {}, but the maker of this input knows of {}", model.number, call.expected.unwrap_or(99)));
        }
        if wrong.is_none() && call.kind == Kind::Batch && door.number == 0 {
            wrong = one_by_one(call, &door);
            for (i, expected) in call.expected_items.iter().enumerate() {
                if wrong.is_none() && expected.is_some_and(|number| number != door.answers[i].number) {
                    wrong = Some(format!("item {i}: both answer {}, but the maker of this input knows of {expected:?}", door.answers[i].number));
                }
            }
        }
        if let Some(what) = wrong {
            println!("DIFFERENCE: seed {}, call {} ({}): {what}", self.seed, self.calls, call.kind.name());
            print_call(call);
            print_outcome("model", call, &model);
            print_outcome("library", call, &door);
            exit(1);
        }
        let kind = KINDS.iter().position(|&kind| kind == call.kind).unwrap_or(0);
        if door.number < 65_536 {
            self.table[kind][door.number as usize] += 1;
        } else {
            let told = &mut self.told[usize::from(door.number >= 131_072)];
            *told = (told.0 + 1, told.1.max(door.number % 65_536));
        }
        if call.kind == Kind::CheckDump {
            self.checks[call.check] += 1;
        }
        self.count_blocks(call, door.number);
        if call.kind == Kind::Command {
            self.count_command(call, &call.packet, door.number, &door.buffer);
        }
        if call.kind == Kind::Batch && door.number == 0 {
            for i in 0..call.starts.len() {
                self.items[door.answers[i].number as usize] += 1;
                self.count_command(call, item_of(call, i), door.answers[i].number, &door.buffer[32 * i..]);
            }
        }
        door
    }

    /// Table blocks of another length with a state block that fits; and blocks that are taken with rights over 3 in an entry that is not in use.
    fn count_blocks(&mut self, call: &Call, number: u32) {
        let odd = |entries: &[u32], in_use: u32| entries.chunks(3).skip(in_use as usize).any(|entry| entry[2] > 3);
        match call.kind {
            Kind::StartUp => {
                self.blocks[0] += u64::from(call.fixed.len() != door::TABLE_WORDS && call.words.len() == door::STATE_WORDS);
                self.blocks[1] += u64::from(number == 0 && odd(&call.fixed[6..54], call.fixed[1]));
            }
            Kind::Command => self.blocks[2] += u64::from(number == 0 && odd(&call.words[1..49], call.words[0])),
            Kind::Slot => self.blocks[3] += u64::from(number == 0 && odd(&call.words[1..49], call.words[0])),
            _ => {}
        }
    }

    /// A call's packet, or that of an item: what it got, and its reply.
    fn count_command(&mut self, call: &Call, packet: &[u8], number: u32, reply: &[u8]) {
        if (1..=8).contains(&number) {
            return;
        }
        let code = packet[6];
        if number == 0 {
            self.done[CODES.iter().position(|known| known.0 == code).unwrap_or(0)] += 1;
        }
        if number == 0 && code == 7 {
            let (free_blocks, usable) = (&reply[16..20], &reply[20..24]);
            self.pools[if free_blocks == [0; 4] { 0 } else if usable == [0; 4] { 1 } else { 2 }] += 1;
        }
        if number == 10 && code == 7 {
            self.pools[3] += 1;
        }
        if code == 8 || code == 9 {
            self.by_name[code as usize - 8][number as usize] += 1;
            self.tables[call.table] += 1;
        }
        if let Some(k) = RANGE_CODES.iter().position(|&k| CODES[k].0 == code).filter(|_| [0, 10, 19].contains(&number)) {
            let (address, size) = if code == 9 { (address_by_name(packet, &call.symbols), 64) } else { (Some(word(packet, 12)), 10) };
            let words = u32::from(packet[size]) << 8 | u32::from(packet[size + 1]);
            // No command changes the table, so that a batch's items have that of the call.
            let setup = door::unpack_state(&call.words).map(|state| state.setup);
            if let Some(kind) = setup.zip(address).and_then(|(setup, address)| range_kind(&setup, address, words)) {
                self.ranges[k][kind] += u64::from(RANGES[kind].0 == number);
            }
        }
    }

    /// One call by itself, of the kind and aim that the turn says; and what follows from it.
    fn single(&mut self, rng: &mut Rng, turn: u64) {
        let (aim, part) = (turn / 25, turn % 25);
        match part {
            0 | 1 => {
                let call = start_up_call(rng, 2 * aim + part);
                self.call(&call);
            }
            2..=6 => {
                let call = aimed_command(rng, COMMAND_NUMBERS[(5 * aim + part - 2) as usize % COMMAND_NUMBERS.len()]);
                self.call(&call);
            }
            7..=10 => {
                let call = free_command(rng);
                self.call(&call);
            }
            11 | 12 => {
                let aims = [0, 0, 1, 2, 3, 16];
                let call = aimed_slot(rng, aims[(2 * aim + part - 11) as usize % 6]);
                let outcome = self.call(&call);
                if outcome.number == 0 {
                    // The packet goes to the reader, whole and damaged.
                    let packet = outcome.buffer[..outcome.length as usize].to_vec();
                    let mut read = read_packet_call(rng, 0, None);
                    read.packet = packet.clone();
                    self.call(&read);
                    let read = read_packet_call(rng, 99, Some(packet));
                    self.call(&read);
                }
            }
            13 => {
                let call = free_slot(rng);
                self.call(&call);
            }
            14 | 15 => {
                let aims = [0, 3, 6, 9, 33, 9];
                let call = write_call(rng, aims[(2 * aim + part - 14) as usize % 6]);
                let outcome = self.call(&call);
                if outcome.number == 0 {
                    self.read_back(rng, &call, &outcome);
                }
            }
            16 => {
                let aims = [0, 3, 4, 5, 6, 7, 9];
                let call = read_command_call(rng, aims[aim as usize % 7]);
                let outcome = self.call(&call);
                if outcome.number == 0 {
                    self.write_back(rng, &call, &outcome);
                }
            }
            17 => {
                let call = read_command_call(rng, 99);
                self.call(&call);
            }
            18 => {
                let aims = [0, 3, 4, 5, 7, 9, 9, 7];
                let call = read_packet_call(rng, aims[aim as usize % 8], None);
                self.call(&call);
            }
            19 => {
                let call = read_packet_call(rng, 99, None);
                self.call(&call);
            }
            20 | 21 => {
                let aims = [0, 3, 0, 1, 0, 3, 2];
                let call = aimed_batch(rng, aims[(2 * aim + part - 20) as usize % 7]);
                self.call(&call);
            }
            22 => {
                let call = free_batch(rng);
                self.call(&call);
            }
            _ => {
                let call = check_call(rng, (2 * aim + part - 23) as usize % (ANYTHING + 1));
                self.call(&call);
            }
        }
    }

    fn stop(&self, what: &str, call: &Call) -> ! {
        println!("WRONG: seed {}, call {}: {what}", self.seed, self.calls);
        print_call(call);
        exit(1);
    }

    /// Ground reader and writer: a written packet reads as what the writer was given. Of a load only used words matter, of a name only used bytes.
    fn read_back(&mut self, rng: &mut Rng, written: &Call, outcome: &Outcome) {
        let mut read = Call::new(Kind::ReadCommand, rng);
        read.packet = outcome.buffer[..outcome.length as usize].to_vec();
        read.words = rng.words(COMMAND_WORDS);
        read.expected = Some(0);
        let back = self.call(&read);
        let f = &written.fixed;
        let mut due = vec![0; COMMAND_WORDS];
        due[..4].copy_from_slice(&f[..4]);
        match f[0] {
            0 => due[4..6].copy_from_slice(&f[4..6]),
            4 => {
                due[4..6].copy_from_slice(&f[4..6]);
                let used = f[4] as usize;
                due[7..7 + used].copy_from_slice(&f[7..7 + used]);
            }
            7 => due[6] = f[6],
            8 | 9 => {
                let used = f[19] as usize;
                let bytes: Vec<u8> = f[7..19].iter().flat_map(|word| word.to_be_bytes()).collect();
                for (k, byte) in bytes[..used].iter().enumerate() {
                    due[7 + k / 4] |= u32::from(*byte) << (24 - 8 * (k % 4));
                }
                due[19] = f[19];
                if f[0] == 9 {
                    due[4] = f[4];
                    due[20] = f[20];
                }
            }
            _ => {}
        }
        if back.words != due {
            self.stop("writing and reading does not give the fields", written);
        }
    }

    /// Ground reader and writer: what was read from a packet is written as that packet, if the unused words of a load or bytes of a name are 0.
    fn write_back(&mut self, rng: &mut Rng, read: &Call, outcome: &Outcome) {
        let mut write = Call::new(Kind::WriteCommand, rng);
        write.fixed = outcome.words.clone();
        write.buffer = rng.bytes(68);
        write.expected = Some(0);
        let back = self.call(&write);
        let mut due = read.packet.clone();
        if due[6] == 4 {
            let used = 16 + 4 * outcome.words[4] as usize;
            due[used..].fill(0);
            mend_check(&mut due);
        }
        if due[6] == 8 || due[6] == 9 {
            let used = 12 + due[10] as usize;
            due[used..60].fill(0);
            mend_check(&mut due);
        }
        if back.buffer[..back.length as usize] != due[..] {
            self.stop("reading and writing does not give the bytes", read);
        }
    }

    /// A list of calls from a fresh start, with the account of demand 3. `fault` plants one in a copy of the slots' results (self-test only).
    fn list(&mut self, rng: &mut Rng, length: u64, mut fault: Option<&mut ListFault>) -> Result<(), String> {
        let big = rng.one_in(5);
        let setup = list_setup(rng, big);
        let mut call = Call::new(Kind::StartUp, rng);
        call.fixed = door::pack_setup(&setup).to_vec();
        call.words = rng.words(STATE_WORDS);
        call.expected = Some(0);
        let started = self.call(&call);
        let mut block = started.words;
        let mut image = rng.words(sum_of_sizes(&setup));
        let mut account = Account::new(&setup);
        let mut symbols = Symbols::good(rng, &setup);
        let mut mood = 0;
        let mut done = 1;
        while done < length {
            if rng.one_in(60) {
                mood = rng.below(4);
            }
            // Another table now and then: names go, come, and stand for other addresses.
            if rng.one_in(80) {
                symbols = Symbols::good(rng, &setup);
            }
            // Someone else changes words of the memory now and then.
            if rng.one_in(2) {
                for _ in 0..rng.between(1, 30) {
                    let at = rng.below(image.len() as u64) as usize;
                    image[at] = rng.word();
                }
            }
            let Some(state) = door::unpack_state(&block) else {
                return Err("the state in the list is no state".to_string());
            };
            let slots_in_ten = [5, 8, 3, 6][mood as usize];
            let is_slot = rng.below(10) < slots_in_ten;
            let mut call = if is_slot {
                list_slot(rng)
            } else if rng.one_in(8) {
                list_batch(rng, &state, &setup, &symbols, &mut image, mood, big.then_some(done))
            } else {
                list_command(rng, &state, &setup, &symbols, &mut image, mood)
            };
            if big && call.kind == Kind::Command {
                long_dumps(rng, &mut call, &state, &setup, &symbols, done);
            }
            if !is_slot {
                (call.symbols, call.table) = (symbols.bytes(), symbols.kind());
            }
            // What is lent wrongly: the symbols one in 25, the image one in 25, the buffer one in 25.
            if !is_slot && rng.one_in(25) {
                (call.symbols, call.table) = symbols.broken(rng);
            }
            call.image = std::mem::take(&mut image);
            let whole = call.image.len();
            let kept = if rng.one_in(25) {
                let to = rng.pick(&[0, whole - 1, whole + 1]);
                let mut wrong = call.image.clone();
                wrong.resize(to, 0x5555_AAAA);
                Some(std::mem::replace(&mut call.image, wrong))
            } else {
                None
            };
            if rng.one_in(25) {
                let need = match call.kind {
                    Kind::Slot => 4_092,
                    Kind::Batch => 32 * call.starts.len(),
                    _ => 32,
                };
                let to = rng.pick(&[0, need - 1, need / 2]);
                call.buffer.truncate(to);
            }
            call.words = std::mem::take(&mut block);
            let outcome = self.call(&call);
            done += call.starts.len().max(1) as u64; // the items of a batch are calls of the list
            if is_slot {
                let mut packet = outcome.buffer[..outcome.length as usize].to_vec();
                if let Some(fault) = fault.as_deref_mut() {
                    fault.slot(&call, &mut packet, &setup);
                }
                if let Some(packets) = account.slot_done(&call.image, call.buffer.len(), &packet)? {
                    // The dump is whole: the desk's check says so, in whatever order its packets come.
                    let check = own_dump_call(rng, packets);
                    self.call(&check);
                }
            } else if outcome.number == 0 {
                let accepted: Vec<&[u8]> = if call.kind == Kind::Batch {
                    (0..call.starts.len()).filter(|&i| outcome.answers[i].number == 0).map(|i| item_of(&call, i)).collect()
                } else {
                    vec![&call.packet]
                };
                for packet in accepted {
                    if let Some(fault) = fault.as_deref_mut() {
                        fault.command(packet, &call.image);
                    }
                    account.command_done(packet, &call.symbols)?;
                }
            }
            block = outcome.words;
            image = match kept {
                Some(image) => image,
                None => outcome.image,
            };
        }
        account.close(None)?;
        let s = &mut self.sums;
        s.lists += 1;
        s.accepted += account.sums.accepted;
        s.by_name += account.sums.by_name;
        s.finished += account.sums.finished;
        s.cancelled += account.sums.cancelled;
        s.packets += account.sums.packets;
        s.largest_wait = s.largest_wait.max(account.sums.largest_wait);
        s.most_packets = s.most_packets.max(account.sums.most_packets);
        Ok(())
    }

    fn print_table(&self) -> bool {
        let mut complete = true;
        print!("{:<15}", "number");
        for number in 0..NUMBERS {
            print!("{number:>7}");
        }
        println!();
        let mut rows: Vec<(&str, &[u32], &[u64; NUMBERS])> = vec![];
        for (i, kind) in KINDS.iter().enumerate() {
            rows.push((kind.name(), kind.numbers(), &self.table[i]));
            if *kind == Kind::Batch {
                rows.push(("batch's items", &ITEM_NUMBERS, &self.items));
            }
        }
        rows.push(("code 8, of both", &[0, 9, 17, 18], &self.by_name[0]));
        rows.push(("code 9, of both", &[0, 9, 10, 11, 12, 13, 17, 18, 19], &self.by_name[1]));
        for (name, numbers, counts) in rows {
            print!("{name:<15}");
            for number in 0..NUMBERS as u32 {
                let n = counts[number as usize];
                if numbers.contains(&number) {
                    print!("{n:>7}");
                    complete &= n > 0;
                } else if n > 0 {
                    print!("{:>7}", format!("!{n}"));
                    complete = false;
                } else {
                    print!("{:>7}", "-");
                }
            }
            println!();
        }
        let list = |names: &[&str], counts: &[u64]| -> String {
            names.iter().zip(counts).map(|(name, n)| format!("{name} {n}")).collect::<Vec<String>>().join(", ")
        };
        let [bad, missing] = self.told;
        println!("dumps checked: {}; a bad packet told {} times, up to packet {}; a missing piece {} times, up to piece {}", list(&CHECKS, &self.checks), bad.0, bad.1, missing.0, missing.1);
        println!("commands done: {}", list(&CODES.map(|code| code.1), &self.done));
        println!("pools told: {}", list(&POOLS, &self.pools));
        println!("blocks: {}", list(&BLOCKS, &self.blocks));
        for (k, counts) in RANGE_CODES.iter().zip(&self.ranges) {
            let each: Vec<String> = RANGES.iter().zip(counts).map(|((number, place), n)| format!("{number} {place} {n}")).collect();
            println!("ranges of a {}: {}", CODES[*k].1, each.join(", "));
        }
        println!("symbol tables that codes 8 and 9 tested: {}", list(&TABLES[..NO_TABLE], &self.tables));
        println!("no symbol tables: {}; table or none: {}", list(&TABLES[NO_TABLE..DISTURBED], &self.tables[NO_TABLE..]), self.tables[DISTURBED]);
        complete && self.done.iter().chain(&self.pools).chain(&self.blocks).chain(&self.tables).chain(&self.checks).chain(self.ranges.iter().flatten()).all(|&n| n > 0)
    }
}

// ------------------------------------------------------------------------------------------------------------------------------------
// Lists
// ------------------------------------------------------------------------------------------------------------------------------------

/// A setup for a list: some region has dump right and some words.
fn list_setup(rng: &mut Rng, big: bool) -> Setup {
    loop {
        let mut setup = good_setup(rng, if big { Scale::Large } else { Scale::Small });
        let n = setup.region_count as usize;
        for region in setup.regions[..n].iter_mut() {
            if region.size >= 1_000 {
                region.dump = true;
            }
        }
        // Mostly a region that gives dumps of more than one packet.
        let wide = setup.regions[..n].iter().any(|region| region.size >= 1_500);
        if !with_dump_right(&setup).is_empty() && (wide || rng.one_in(6)) {
            return setup;
        }
    }
}

fn list_slot(rng: &mut Rng) -> Call {
    let mut call = Call::new(Kind::Slot, rng);
    call.tick = tick(rng);
    let n = rng.pick(&[4_092, 4_093, 4_100, 5_000]);
    call.buffer = rng.bytes(n);
    call
}

/// A dump by its address, or by a name if one reaches it.
fn list_dump(rng: &mut Rng, symbols: &Symbols, unit: u32, transaction: u32, words: u32, address: u32) -> Vec<u8> {
    match symbols.reach(rng, address).filter(|_| rng.one_in(2)) {
        None => dump_command(rng, unit, transaction, words, address),
        Some((i, offset)) => by_name_command(rng, unit, transaction, &symbols.records[i].name, offset, words),
    }
}

fn list_command(rng: &mut Rng, state: &State, setup: &Setup, symbols: &Symbols, image: &mut [u32], mood: u64) -> Call {
    let mut call = Call::new(Kind::Command, rng);
    let n = rng.pick(&[32, 33, 40, 100]);
    call.buffer = rng.bytes(n);
    let busy = busy_transactions(state);
    let unit = setup.unit;
    // A few numbers only, so that they come back.
    let transaction = if rng.one_in(3) { rng.below(4_096) as u32 } else { rng.below(8) as u32 * 0x111 };
    call.packet = match rng.below(12) {
        0..=5 => {
            let able = with_dump_right(setup);
            let mut region = setup.regions[rng.pick(&able)];
            if rng.one_in(2) {
                // The largest one, for dumps of many packets.
                for &i in &able {
                    if setup.regions[i].size > region.size {
                        region = setup.regions[i];
                    }
                }
            }
            let first = if rng.one_in(2) { 0 } else { rng.below(u64::from(region.size)) as u32 };
            let rest = (region.size - first).min(65_535);
            let words = match rng.below(6) {
                0 | 5 => rest,
                1 => rest.min(1_016),
                2 => rest.min(1_017),
                3 => rest.min(2_032),
                _ => rng.between(1, u64::from(rest)) as u32,
            };
            // Dumps of scores of packets only now and then, so that lists see many dumps.
            let words = if words > 5_000 && !rng.one_in(4) { rng.between(1, 5_000) as u32 } else { words };
            list_dump(rng, symbols, unit, transaction, words, region.start.0 + 4 * first)
        }
        6 if !busy.is_empty() && (mood == 1 || rng.one_in(2)) => {
            let transaction = rng.pick(&busy);
            cancel_command(rng, unit, transaction)
        }
        7 => {
            // A load into words that a busy dump covers, if there is one.
            let mut address = None;
            for place in &state.places {
                if let DumpPlace::Busy(dump) = place {
                    address = Some(dump.start.0 + 4 * rng.below(u64::from(dump.requested)) as u32);
                }
            }
            match address {
                Some(address) => {
                    let size = rng.between(1, 11) as u32;
                    load_command(rng, unit, transaction, size, address)
                }
                None => some_command(rng, state, symbols),
            }
        }
        8 => {
            let p = rng.below(2) as usize;
            let pool = setup.pools[p];
            if pool.size != 0 && !rng.one_in(3) {
                if let Some(first) = image_place(setup, pool.start.0) {
                    fill_blocks(rng, &mut image[first..first + pool.size as usize]);
                }
            }
            pool_command(rng, unit, transaction, p as u32)
        }
        _ => some_command(rng, state, symbols),
    };
    if rng.one_in(10) {
        damage_packet(rng, &mut call.packet, true);
    }
    call
}

/// A few list commands in one call, each for the state that those before it leave. `long` is for `long_dumps`, in lists that have them.
fn list_batch(
    rng: &mut Rng,
    state: &State,
    setup: &Setup,
    symbols: &Symbols,
    image: &mut [u32],
    mood: u64,
    long: Option<u64>,
) -> Call {
    let n = if rng.one_in(12) { 64 } else { rng.between(1, 10) };
    let mut state = state.clone();
    let mut items = vec![];
    let mut left = image.to_vec();
    let table = symbols.bytes();
    for _ in 0..n {
        let mut one = list_command(rng, &state, setup, symbols, image, mood);
        if let Some(done) = long {
            long_dumps(rng, &mut one, &state, setup, symbols, done);
        }
        state = command_call(&state, &one.packet, &table, &mut left, &mut [0; 32]).state;
        let leaves = rng.one_in(12);
        items.push(Item { packet: one.packet, spot: if leaves { Spot::Beyond } else { Spot::Own }, expected: leaves.then_some(4) });
    }
    let mut call = Call::new(Kind::Batch, rng);
    lay_out(rng, &mut call, &items);
    call.expected_items = vec![]; // the image is lent wrongly now and then
    call
}

/// In lists with a region of 65,535 words or more: dumps of 65,535 words to begin with, and few cancels of such, so that they finish.
fn long_dumps(rng: &mut Rng, call: &mut Call, state: &State, setup: &Setup, symbols: &Symbols, done: u64) {
    let n = setup.region_count as usize;
    let Some(region) = setup.regions[..n].iter().find(|region| region.size >= 65_535) else {
        return;
    };
    if done < 40 && rng.one_in(3) {
        let transaction = free_transaction(rng, state);
        call.packet = list_dump(rng, symbols, setup.unit, transaction, 65_535, region.start.0);
        return;
    }
    let is_cancel = call.packet.len() == 10 && call.packet[6] == 1;
    let long = state.places.iter().any(|place| matches!(place, DumpPlace::Busy(dump) if dump.requested > 30_000));
    if is_cancel && long && !rng.one_in(30) {
        let transaction = rng.below(4_096) as u32;
        call.packet = pool_command(rng, setup.unit, transaction, 0);
    }
}

// ------------------------------------------------------------------------------------------------------------------------------------
// Self-test
// ------------------------------------------------------------------------------------------------------------------------------------

#[derive(Clone, Copy, PartialEq, Debug)]
enum Plant {
    /// No slot ever writes.
    IdleForEver,
    /// Each dump's first packet, then none.
    FirstOnly,
    /// Each dump's first packet, then that one again for each.
    RepeatFirst,
    /// One bit of one packet's data.
    OneBit,
    /// Data as they were when the dump was accepted.
    Frozen,
    /// One packet lost.
    Lost,
    /// A packet with the number of a cancelled dump.
    AfterCancel,
    /// A finished dump's last packet again.
    Again,
    /// Two packets of a dump in the wrong order: the second cut first.
    Order,
    /// Place 3 is never served (its packets are not written).
    Starve,
}

const PLANTS: [Plant; 10] = [
    Plant::IdleForEver,
    Plant::FirstOnly,
    Plant::RepeatFirst,
    Plant::OneBit,
    Plant::Frozen,
    Plant::Lost,
    Plant::AfterCancel,
    Plant::Again,
    Plant::Order,
    Plant::Starve,
];

struct ListFault {
    plant: Plant,
    slots: u64,
    firsts: Vec<(u16, Vec<u8>)>,
    frozen: Vec<(u16, Vec<u32>)>,
    cancelled: Option<u16>,
    last: Vec<u8>,
    starved: Option<u16>,
    lost: bool,
}

fn number_of(packet: &[u8]) -> u16 {
    u16::from_be_bytes([packet[6] & 15, packet[7]])
}

impl ListFault {
    fn new(plant: Plant) -> ListFault {
        ListFault { plant, slots: 0, firsts: vec![], frozen: vec![], cancelled: None, last: vec![], starved: None, lost: false }
    }

    fn command(&mut self, packet: &[u8], image: &[u32]) {
        let number = u16::from_be_bytes([packet[8] & 15, packet[9]]);
        match packet[6] {
            0 | 9 => {
                self.firsts.retain(|(other, _)| *other != number);
                self.frozen.retain(|(other, _)| *other != number);
                self.frozen.push((number, image.to_vec()));
                if self.starved.is_none() && self.slots > 20 {
                    self.starved = Some(number);
                }
            }
            1 => self.cancelled = Some(number),
            _ => {}
        }
    }

    fn slot(&mut self, call: &Call, packet: &mut Vec<u8>, setup: &Setup) {
        self.slots += 1;
        let written = packet.clone();
        if !packet.is_empty() {
            let number = number_of(packet);
            let first = self.firsts.iter().find(|(other, _)| *other == number).map(|(_, packet)| packet.clone());
            match self.plant {
                Plant::IdleForEver => packet.clear(),
                Plant::FirstOnly if first.is_some() => packet.clear(),
                Plant::RepeatFirst => {
                    if let Some(first) = &first {
                        *packet = first.clone();
                    }
                }
                Plant::OneBit if self.slots >= 40 => {
                    let end = packet.len() - 1;
                    packet[end] ^= 1;
                }
                Plant::Frozen => {
                    if let Some((_, image)) = self.frozen.iter().find(|(other, _)| *other == number) {
                        let address = u32::from_be_bytes([packet[20], packet[21], packet[22], packet[23]]);
                        if let Some(at) = image_place(setup, address) {
                            for (k, data) in packet[28..].chunks_mut(4).enumerate() {
                                data.copy_from_slice(&image[at + k].to_be_bytes());
                            }
                        }
                    }
                }
                Plant::Lost if self.slots >= 40 && !self.lost => {
                    self.lost = true;
                    packet.clear();
                }
                Plant::AfterCancel => {
                    if let Some(number) = self.cancelled {
                        packet[6] = packet[6] & 0xF0 | (number >> 8) as u8;
                        packet[7] = number as u8;
                    }
                }
                Plant::Again if self.slots >= 40 && !self.last.is_empty() => *packet = self.last.clone(),
                Plant::Order => {
                    let first_cut = packet[12..16] == packet[20..24];
                    let words = u32::from_be_bytes([packet[16], packet[17], packet[18], packet[19]]);
                    if first_cut && words >= 2_032 {
                        let address = u32::from_be_bytes([packet[20], packet[21], packet[22], packet[23]]) + 4_064;
                        packet[20..24].copy_from_slice(&address.to_be_bytes());
                        if let Some(at) = image_place(setup, address) {
                            for (k, data) in packet[28..].chunks_mut(4).enumerate() {
                                data.copy_from_slice(&call.image[at + k].to_be_bytes());
                            }
                        }
                    }
                }
                Plant::Starve if self.starved == Some(number) => packet.clear(),
                _ => {}
            }
            if first.is_none() {
                self.firsts.push((number, written.clone()));
            }
            self.last = written;
        }
    }
}

/// Plants faults in copies of the library's results and sees that each is caught.
fn self_test(run: &mut Run) -> bool {
    let mut rng = Rng::new(run.seed);
    let mut planted = 0u64;
    let mut caught = 0u64;
    let mut by_part = std::collections::BTreeMap::<&str, (u64, u64)>::new();
    for turn in 0..4_000u64 {
        let call = match turn % 8 {
            0 => start_up_call(&mut rng, turn / 8),
            1 => aimed_command(&mut rng, COMMAND_NUMBERS[(turn / 8) as usize % COMMAND_NUMBERS.len()]),
            2 => aimed_slot(&mut rng, [0, 1, 2, 3, 16][(turn / 8 % 5) as usize]),
            3 => write_call(&mut rng, [0, 3, 6, 9, 33][(turn / 8 % 5) as usize]),
            4 => read_command_call(&mut rng, [0, 3, 4, 5, 6, 7, 9][(turn / 8 % 7) as usize]),
            5 => aimed_batch(&mut rng, [0, 1, 2, 3][(turn / 8 % 4) as usize]),
            6 => read_packet_call(&mut rng, [0, 3, 4, 5, 7, 9][(turn / 8 % 6) as usize], None),
            _ => check_call(&mut rng, (turn / 8) as usize % (ANYTHING + 1)),
        };
        let mut model = ask_model(&call);
        let door = ask_door(&call);
        settle_unused(&mut run.unused, &call, &mut model, &door);
        if difference(&model, &door).is_some() {
            println!("self-test: the two differ before any fault is planted (turn {turn}); run without --self-test");
            return false;
        }
        let mut try_one = |part: &'static str, bad: Outcome| {
            let entry = by_part.entry(part).or_default();
            planted += 1;
            entry.0 += 1;
            if difference(&model, &bad).is_some() {
                caught += 1;
                entry.1 += 1;
            }
        };
        let mut bad = door.clone();
        bad.number = if rng.one_in(2) { bad.number + 1 } else { NUMBERS as u32 };
        try_one("number", bad);
        let mut bad = door.clone();
        bad.length ^= 1 << rng.below(32);
        try_one("length", bad);
        for part in [
            "block", "image", "buffer", "read-only block", "packet", "last byte of buffer", "beside a buffer", "nothing done", "record", "last record",
            "starts", "lengths", "symbols", "list",
        ] {
            let mut bad = door.clone();
            match part {
                "block" if !bad.words.is_empty() => {
                    let at = rng.below(bad.words.len() as u64) as usize;
                    bad.words[at] ^= 1 << rng.below(32);
                }
                "image" if !bad.image.is_empty() => {
                    let at = rng.below(bad.image.len() as u64) as usize;
                    bad.image[at] ^= 1 << rng.below(32);
                }
                "buffer" if !bad.buffer.is_empty() => {
                    let at = rng.below(bad.buffer.len() as u64) as usize;
                    bad.buffer[at] ^= 1 << rng.below(8);
                }
                "last byte of buffer" if !bad.buffer.is_empty() => {
                    let at = bad.buffer.len() - 1;
                    bad.buffer[at] = !bad.buffer[at];
                }
                "read-only block" if !bad.fixed.is_empty() => {
                    let at = rng.below(bad.fixed.len() as u64) as usize;
                    bad.fixed[at] ^= 1 << rng.below(32);
                }
                "packet" if !bad.packet.is_empty() => {
                    let at = rng.below(bad.packet.len() as u64) as usize;
                    bad.packet[at] ^= 1 << rng.below(8);
                }
                "record" if !bad.answers.is_empty() => {
                    let at = rng.below(bad.answers.len() as u64) as usize;
                    bad.answers[at].number ^= 1 << rng.below(32);
                }
                "last record" if !bad.answers.is_empty() => {
                    let at = bad.answers.len() - 1;
                    bad.answers[at].length ^= 1 << rng.below(32);
                }
                "starts" if !bad.starts.is_empty() => {
                    let at = rng.below(bad.starts.len() as u64) as usize;
                    bad.starts[at] ^= 1 << rng.below(32);
                }
                "lengths" if !bad.lengths.is_empty() => {
                    let at = rng.below(bad.lengths.len() as u64) as usize;
                    bad.lengths[at] ^= 1 << rng.below(32);
                }
                "list" if !bad.list.is_empty() => {
                    let at = rng.below(bad.list.len() as u64) as usize;
                    bad.list[at] ^= 1 << rng.below(8);
                }
                "symbols" if !bad.symbols.is_empty() => {
                    let at = rng.below(bad.symbols.len() as u64) as usize;
                    bad.symbols[at] ^= 1 << rng.below(8);
                }
                "beside a buffer" => bad.overrun = "buffer",
                "nothing done" if door.number == 0 && door.words != call.words => bad.words = call.words.clone(),
                _ => continue,
            }
            try_one(part, bad);
        }
    }
    for (part, (planted, caught)) in &by_part {
        println!("self-test: {part}: {planted} planted, {caught} caught");
    }
    for plant in PLANTS {
        let mut hits = 0;
        let lists = 8;
        for k in 0..lists {
            let mut rng = Rng::new(run.seed + 1_000 + k);
            let mut fault = ListFault::new(plant);
            if let Err(what) = run.list(&mut rng, 1_500, Some(&mut fault)) {
                if hits == 0 {
                    println!("self-test: list with {plant:?}: caught: {what}");
                }
                hits += 1;
            }
        }
        println!("self-test: list with {plant:?}: caught in {hits} of {lists} lists");
        planted += 1;
        caught += u64::from(hits > 0);
    }
    println!("self-test: {planted} faults planted, {caught} caught");
    planted == caught
}

// ------------------------------------------------------------------------------------------------------------------------------------
// The program
// ------------------------------------------------------------------------------------------------------------------------------------

fn usage() -> ! {
    println!("usage: compare [--calls N] [--seed S] [--unused zero|sent] [--self-test]");
    exit(2);
}

fn main() {
    let mut calls = DEFAULT_CALLS;
    let mut seed = DEFAULT_SEED;
    let mut unused = None;
    let mut test = false;
    let mut arguments = std::env::args().skip(1);
    while let Some(argument) = arguments.next() {
        let mut number = || arguments.next().and_then(|text| text.parse::<u64>().ok()).unwrap_or_else(|| usage());
        match argument.as_str() {
            "--calls" => calls = number(),
            "--seed" => seed = number(),
            "--unused" => match arguments.next().as_deref() {
                Some("zero") => unused = Some(Unused::Zero),
                Some("sent") => unused = Some(Unused::Sent),
                _ => usage(),
            },
            "--self-test" => test = true,
            _ => usage(),
        }
    }
    println!("compare: {calls} calls, seed {seed}, {}", if cfg!(feature = "door") { "library through the door" } else { "the model answers itself" });
    let mut run = Run::new(seed, unused);
    if test {
        exit(if self_test(&mut run) { 0 } else { 1 });
    }
    let mut rng = Rng::new(seed);
    let mut turn = 0;
    while run.calls < calls {
        // Three parts by themselves, two parts in lists.
        let until = (run.calls + 3_000).min(calls);
        while run.calls < until {
            run.single(&mut rng, turn);
            turn += 1;
        }
        let length = rng.between(1_500, 4_000).min(calls.saturating_sub(run.calls));
        if length >= 2 {
            if let Err(what) = run.list(&mut rng, length, None) {
                println!("DEMAND 3: seed {}, call {}: {what}", run.seed, run.calls);
                exit(1);
            }
        }
    }
    let complete = run.print_table();
    let s = run.sums;
    println!(
        "lists {}: dumps accepted {} ({} by name), finished {}, cancelled {}, packets {}, most packets of one dump {}, longest wait {} slots",
        s.lists, s.accepted, s.by_name, s.finished, s.cancelled, s.packets, s.most_packets, s.largest_wait
    );
    println!(
        "unused data words of a load and bytes of a name, as the command reader gives them: {}",
        match run.unused {
            None => "never seen",
            Some(Unused::Zero) => "0",
            Some(Unused::Sent) => "as in the packet",
        }
    );
    if !complete {
        println!("FAILED: a number that a call can give or a kind of input never came, or a number that a call cannot give did");
        exit(1);
    }
    println!("compare: {} calls agree, seed {}", run.calls, run.seed);
}
