//! Makers of input: tables, states, images, packets; good ones by construction, and each kind of fault put in on purpose. Where a maker knows
//! which number its input must earn, it says so (`Call::expected`); that is a third opinion, apart from both implementations.

use crate::rng::Rng;
use second::door::{pack_setup, pack_state, Answer, COMMAND_WORDS, PACKET_WORDS, STATE_WORDS, TABLE_WORDS};
use second::model::{Address, Dump, DumpPlace, Pool, Region, Setup, State, NO_POOL, NO_REGION};

#[derive(Clone, Copy, PartialEq, Eq, Debug)]
pub enum Kind {
    StartUp,
    Command,
    Batch,
    Slot,
    WriteCommand,
    ReadCommand,
    ReadPacket,
    CheckDump,
}

pub const KINDS: [Kind; 8] = [
    Kind::StartUp,
    Kind::Command,
    Kind::Batch,
    Kind::Slot,
    Kind::WriteCommand,
    Kind::ReadCommand,
    Kind::ReadPacket,
    Kind::CheckDump,
];

/// The numbers that an item of a batch can get: its 32 bytes of reply buffer are always there.
pub const ITEM_NUMBERS: [u32; 18] = [0, 1, 2, 4, 5, 6, 7, 8, 9, 10, 11, 12, 13, 14, 15, 17, 18, 19];

/// The numbers that a command call can give.
pub const COMMAND_NUMBERS: [u32; 19] = [0, 1, 2, 3, 4, 5, 6, 7, 8, 9, 10, 11, 12, 13, 14, 15, 17, 18, 19];

impl Kind {
    pub fn name(self) -> &'static str {
        match self {
            Kind::StartUp => "start-up",
            Kind::Command => "command",
            Kind::Batch => "batch",
            Kind::Slot => "slot",
            Kind::WriteCommand => "write command",
            Kind::ReadCommand => "read command",
            Kind::ReadPacket => "read packet",
            Kind::CheckDump => "check dump",
        }
    }

    /// The numbers that the call can give; of the check of a dump, those below 65,536.
    pub fn numbers(self) -> &'static [u32] {
        match self {
            Kind::StartUp => &[0, 17],
            Kind::Command => &COMMAND_NUMBERS,
            Kind::Batch => &[0, 3],
            Kind::Slot => &[0, 1, 2, 3, 16],
            Kind::WriteCommand => &[0, 3, 6, 9],
            Kind::ReadCommand => &[0, 3, 4, 5, 6, 7, 9],
            Kind::ReadPacket => &[0, 3, 4, 5, 7, 9],
            Kind::CheckDump => &[0, 3],
        }
    }
}

/// One call's whole input. Parts that a kind of call does not have are empty.
#[derive(Clone)]
pub struct Call {
    pub kind: Kind,
    /// The block that the call may write: state, or the readers' fields.
    pub words: Vec<u32>,
    /// The block that the call only reads: start-up's table, the writer's command.
    pub fixed: Vec<u32>,
    /// The packet that the call reads, or the bytes of a batch or of a dump to check.
    pub packet: Vec<u8>,
    /// The lengths of a dump's packets, two bytes each, and which of `CHECKS` they are.
    pub list: Vec<u8>,
    pub check: usize,
    /// A batch's lists, and its answer records.
    pub starts: Vec<u32>,
    pub lengths: Vec<u32>,
    pub answers: Vec<Answer>,
    /// The symbol table, and which of `TABLES` it is.
    pub symbols: Vec<u8>,
    pub table: usize,
    pub image: Vec<u32>,
    /// Reply buffer, a batch's reply buffer, slot buffer, writer's buffer.
    pub buffer: Vec<u8>,
    pub tick: u32,
    /// What the length variable holds before the call.
    pub length: u32,
    /// The number that the maker knows the call must earn.
    pub expected: Option<u32>,
    /// The same for a batch's items; empty if nothing is known.
    pub expected_items: Vec<Option<u32>>,
}

impl Call {
    pub fn new(kind: Kind, rng: &mut Rng) -> Call {
        Call {
            kind,
            words: vec![],
            fixed: vec![],
            packet: vec![],
            list: vec![],
            check: 0,
            starts: vec![],
            lengths: vec![],
            answers: vec![],
            symbols: vec![],
            table: 0,
            image: vec![],
            buffer: vec![],
            tick: 0,
            length: rng.word(),
            expected: None,
            expected_items: vec![],
        }
    }
}

// ------------------------------------------------------------------------------------------------------------------------------------
// Tables and states
// ------------------------------------------------------------------------------------------------------------------------------------

const MEMORY_WORDS: u64 = 1 << 30;

#[derive(Clone, Copy, PartialEq)]
pub enum Scale {
    /// Regions of 1 to 40 words, now and then one of up to 4,000.
    Small,
    /// One region of 65,530 to 67,000 words among them.
    Large,
    /// One region of 1,048,576 words among them.
    Huge,
}

pub fn scale(rng: &mut Rng) -> Scale {
    match rng.below(1_000) {
        0 | 1 => Scale::Huge,
        2..=51 => Scale::Large,
        _ => Scale::Small,
    }
}

/// A table that keeps the rules: 1 to 16 regions, at 0 or ending at 2^32 or between, touching or with gaps, random rights.
pub fn good_table(rng: &mut Rng, scale: Scale) -> Vec<Region> {
    let n = match rng.below(5) {
        0 => 1,
        1 => 16,
        _ => rng.between(1, 16),
    } as usize;
    let mut sizes: Vec<u64> = (0..n).map(|_| if rng.one_in(4) { rng.between(1, 3) } else { rng.between(1, 40) }).collect();
    let big = rng.below(n as u64) as usize;
    match scale {
        Scale::Small => {
            if rng.one_in(3) {
                sizes[big] = rng.between(1_000, 4_000);
            }
        }
        Scale::Large => sizes[big] = rng.pick(&[65_534, 65_535, 65_536, 65_537, 67_000]),
        Scale::Huge => sizes[big] = 1_048_576,
    }
    // Gaps before each region, in words; the first one is the way from 0.
    let mut gaps: Vec<u64> = (0..n).map(|_| if rng.one_in(2) { 0 } else { rng.between(1, 50) }).collect();
    gaps[0] = 0;
    let taken: u64 = sizes.iter().sum::<u64>() + gaps.iter().sum::<u64>();
    let mut free = MEMORY_WORDS - taken;
    match rng.below(5) {
        0 => {}                             // begins at 0
        1 => gaps[0] = free,                // ends at 2^32
        2 => {
            // begins at 0 and ends at 2^32, or all the way from one gap
            let wide = rng.below(n as u64) as usize;
            gaps[wide] += free;
        }
        3 => {
            // wide gaps all over
            for gap in gaps.iter_mut() {
                let more = rng.below(free + 1) / rng.between(1, 4);
                *gap += more;
                free -= more;
            }
        }
        _ => gaps[0] = rng.below(free + 1),
    }
    let mut at = 0;
    let mut table = vec![];
    for i in 0..n {
        at += gaps[i];
        let rights = if rng.one_in(2) { 3 } else { rng.below(4) };
        table.push(Region { start: Address((4 * at) as u32), size: sizes[i] as u32, load: rights % 2 == 1, dump: rights / 2 == 1 });
        at += sizes[i];
    }
    table
}

fn setup_of(rng: &mut Rng, table: &[Region], dirty: bool) -> Setup {
    let mut regions = [NO_REGION; 16];
    if dirty {
        for region in regions.iter_mut() {
            *region = Region { start: Address(rng.word()), size: rng.word(), load: rng.one_in(2), dump: rng.one_in(2) };
        }
    }
    regions[..table.len()].copy_from_slice(table);
    Setup { region_count: table.len() as u32, regions, pools: [NO_POOL; 2], unit: rng.below(16) as u32 }
}

pub fn with_dump_right(setup: &Setup) -> Vec<usize> {
    (0..setup.region_count as usize).filter(|&i| setup.regions[i].dump).collect()
}

/// A word of a region, and how many words there are from it to the region's end.
fn inside(rng: &mut Rng, region: &Region) -> (Address, u32) {
    let k = match rng.below(4) {
        0 => 0,
        1 => region.size - 1,
        _ => rng.below(u64::from(region.size)) as u32,
    };
    (Address(region.start.0 + 4 * k), region.size - k)
}

/// A pool whole in region `i`.
fn pool_in(rng: &mut Rng, setup: &Setup, i: usize) -> Pool {
    let region = setup.regions[i];
    if rng.one_in(3) {
        return Pool { start: region.start, size: region.size };
    }
    let (start, rest) = inside(rng, &region);
    Pool { start, size: if rng.one_in(3) { rest } else { rng.between(1, u64::from(rest)) as u32 } }
}

pub fn good_setup(rng: &mut Rng, scale: Scale) -> Setup {
    let table = good_table(rng, scale);
    let dirty = rng.one_in(2);
    let mut setup = setup_of(rng, &table, dirty);
    let able = with_dump_right(&setup);
    for p in 0..2 {
        if !able.is_empty() && !rng.one_in(3) {
            let i = rng.pick(&able);
            setup.pools[p] = pool_in(rng, &setup, i);
        }
    }
    setup
}

/// A good busy dump in region `i`, which has dump right. The caller sees to the transaction number.
fn dump_in(rng: &mut Rng, region: &Region, transaction: u32) -> Dump {
    let (start, rest) = inside(rng, region);
    let most = u64::from(rest.min(65_535));
    let requested = match rng.below(5) {
        0 => most,
        1 => 1_016.min(most),
        2 => 1_017.min(most),
        _ => rng.between(1, most),
    };
    let cuts = requested.div_ceil(1_016);
    let sent = if rng.one_in(3) { 1_016 * (cuts - 1) } else { 1_016 * rng.below(cuts) };
    Dump { transaction, start, requested: requested as u32, sent: sent as u32 }
}

/// A transaction number that no busy dump has.
pub fn free_transaction(rng: &mut Rng, state: &State) -> u32 {
    loop {
        let number = match rng.below(4) {
            0 => rng.pick(&[0, 1, 4_094, 4_095]),
            _ => rng.below(4_096) as u32,
        };
        if !busy_transactions(state).contains(&number) {
            return number;
        }
    }
}

pub fn busy_transactions(state: &State) -> Vec<u32> {
    state.places.iter().filter_map(|place| if let DumpPlace::Busy(dump) = place { Some(dump.transaction) } else { None }).collect()
}

pub fn count(rng: &mut Rng, most: u32) -> u32 {
    match rng.below(4) {
        0 => most,
        1 => rng.pick(&[0, 1, most - 1]),
        _ => rng.below(u64::from(most) + 1) as u32,
    }
}

/// A good state: all rules kept, any of the places busy.
pub fn good_state(rng: &mut Rng, scale: Scale) -> State {
    let setup = good_setup(rng, scale);
    let mut state = State {
        setup,
        places: [DumpPlace::Idle; 4],
        last: rng.below(4) as u32,
        count_785: count(rng, 16_383),
        count_786: count(rng, 16_383),
        count_788: count(rng, 16_383),
        accepted: count(rng, 65_535),
        refused: count(rng, 65_535),
    };
    let able = with_dump_right(&state.setup);
    if !able.is_empty() {
        let how = rng.below(3);
        for i in 0..4 {
            if how == 1 || (how == 2 && rng.one_in(2)) {
                let region = state.setup.regions[rng.pick(&able)];
                let transaction = free_transaction(rng, &state);
                state.places[i] = DumpPlace::Busy(dump_in(rng, &region, transaction));
            }
        }
    }
    state
}

/// Makes sure that some region has dump right; gives one such.
fn force_dump_region(rng: &mut Rng, state: &mut State) -> usize {
    let able = with_dump_right(&state.setup);
    if able.is_empty() {
        let i = rng.below(u64::from(state.setup.region_count)) as usize;
        state.setup.regions[i].dump = true;
        return i;
    }
    rng.pick(&able)
}

/// Makes sure that some place is busy; gives one such and its dump.
fn force_busy(rng: &mut Rng, state: &mut State) -> (usize, Dump) {
    let busy: Vec<usize> = (0..4).filter(|&i| state.places[i] != DumpPlace::Idle).collect();
    if !busy.is_empty() {
        let i = rng.pick(&busy);
        if let DumpPlace::Busy(dump) = state.places[i] {
            return (i, dump);
        }
    }
    let i = rng.below(4) as usize;
    let region = state.setup.regions[force_dump_region(rng, state)];
    let transaction = free_transaction(rng, state);
    let dump = dump_in(rng, &region, transaction);
    state.places[i] = DumpPlace::Busy(dump);
    (i, dump)
}

fn force_four_busy(rng: &mut Rng, state: &mut State) {
    for i in 0..4 {
        if state.places[i] == DumpPlace::Idle {
            let region = state.setup.regions[force_dump_region(rng, state)];
            let transaction = free_transaction(rng, state);
            state.places[i] = DumpPlace::Busy(dump_in(rng, &region, transaction));
        }
    }
}

fn force_idle(rng: &mut Rng, state: &mut State) {
    if !state.places.contains(&DumpPlace::Idle) {
        state.places[rng.below(4) as usize] = DumpPlace::Idle;
    }
}

fn force_pool(rng: &mut Rng, state: &mut State) -> usize {
    let p = rng.below(2) as usize;
    for p in [p, 1 - p] {
        if state.setup.pools[p].size != 0 {
            return p;
        }
    }
    let i = force_dump_region(rng, state);
    state.setup.pools[p] = pool_in(rng, &state.setup, i);
    p
}

pub fn sum_of_sizes(setup: &Setup) -> usize {
    setup.regions[..setup.region_count as usize].iter().map(|region| region.size as usize).sum()
}

/// Where a region's word is in the image (regions back to back).
pub fn image_place(setup: &Setup, address: u32) -> Option<usize> {
    let mut before = 0usize;
    for region in &setup.regions[..setup.region_count as usize] {
        let start = u64::from(region.start.0);
        let end = start + 4 * u64::from(region.size);
        if (start..end).contains(&u64::from(address)) {
            return Some(before + ((u64::from(address) - start) / 4) as usize);
        }
        before += region.size as usize;
    }
    None
}

/// Breaks one rule of the setup, for certain.
fn break_setup(rng: &mut Rng, setup: &mut Setup) {
    let n = setup.region_count as usize;
    let i = rng.below(n as u64) as usize;
    match rng.below(13) {
        0 => setup.region_count = 0,
        1 => setup.region_count = rng.pick(&[17, 18, 255, 256, 65_536, 65_552, 0x8000_0001, u32::MAX]),
        2 => setup.regions[i].start.0 |= rng.between(1, 3) as u32,
        3 => setup.regions[i].size = 0,
        4 => {
            // Too large, with room made for it so that only its size is wrong.
            setup.region_count = 1;
            let size = rng.pick(&[1_048_577, 1_048_578, 2_000_000]);
            setup.regions[0] = Region { start: Address(rng.pick(&[0, 4, 0x1000])), size, load: true, dump: true };
            setup.pools = [NO_POOL; 2];
        }
        5 => {
            // The last region ends one word past 2^32.
            let region = &mut setup.regions[n - 1];
            if region.size == 1 {
                region.size = 2;
            }
            region.start.0 = ((1u64 << 32) + 4 - 4 * u64::from(region.size)) as u32;
        }
        6 if n >= 2 => {
            // A region begins one word before the end of the one before it.
            let i = rng.between(1, n as u64 - 1) as usize;
            let before = setup.regions[i - 1];
            setup.regions[i].start.0 = (u64::from(before.start.0) + 4 * u64::from(before.size) - 4) as u32;
        }
        7 if n >= 2 => {
            let i = rng.between(1, n as u64 - 1) as usize;
            setup.regions.swap(i - 1, i);
        }
        8 => setup.pools[rng.below(2) as usize] = Pool { start: Address(rng.pick(&[1, 4, setup.regions[i].start.0 | 4, u32::MAX])), size: 0 },
        9 => {
            let p = rng.below(2) as usize;
            if setup.pools[p].size == 0 {
                setup.pools[p] = Pool { start: setup.regions[i].start, size: 1 };
            }
            setup.pools[p].start.0 |= rng.between(1, 3) as u32;
        }
        10 => {
            // A pool one word past its region's end: into a gap or into the next region.
            let region = setup.regions[i];
            let k = rng.below(u64::from(region.size)) as u32;
            let start = Address(region.start.0 + 4 * k);
            let size = region.size - k + rng.pick(&[1, 1, 1, 0x4000_0000, 0x4000_0000 - 1]);
            // All of region `i` made dumpable, so that the edge alone is wrong.
            setup.regions[i].dump = true;
            if i + 1 < n {
                setup.regions[i + 1].dump = true;
            }
            setup.pools[rng.below(2) as usize] = Pool { start, size };
        }
        11 => {
            setup.regions[i].dump = false;
            setup.pools[rng.below(2) as usize] = pool_in(rng, setup, i);
        }
        _ => setup.unit = rng.pick(&[16, 17, 31, 128, 255]),
    }
}

/// Breaks one rule of a good state, for certain; gives the block.
pub fn break_state(rng: &mut Rng, state: &State) -> Vec<u32> {
    let mut state = state.clone();
    match rng.below(25) {
        0..=7 => break_setup(rng, &mut state.setup),
        8 => state.last = rng.pick(&[4, 5, 7, 128, 255, 256, 259, u32::MAX]),
        9 => state.count_785 = rng.pick(&[16_384, 16_385, 32_768, 65_535, 65_536, u32::MAX]),
        10 => state.count_788 = rng.pick(&[16_384, 16_385, 32_768, 65_535, 65_536, u32::MAX]),
        11 => state.accepted = rng.pick(&[65_536, 65_537, 0x8000_0000, u32::MAX]),
        12 => state.refused = rng.pick(&[65_536, 65_537, 0x8000_0000, u32::MAX]),
        13 => {
            let (i, dump) = force_busy(rng, &mut state);
            let transaction = rng.pick(&[4_096, 4_097, 8_191, 65_535, 65_536, 65_536 + 7, u32::MAX]);
            state.places[i] = DumpPlace::Busy(Dump { transaction, ..dump });
        }
        14 => {
            // Two busy dumps with one number.
            let (i, dump) = force_busy(rng, &mut state);
            let k = (i + 1 + rng.below(3) as usize) % 4;
            state.places[k] = match state.places[k] {
                DumpPlace::Busy(other) if rng.one_in(2) => DumpPlace::Busy(Dump { transaction: dump.transaction, ..other }),
                _ => DumpPlace::Busy(dump),
            };
        }
        15 => {
            let (i, dump) = force_busy(rng, &mut state);
            state.places[i] = DumpPlace::Busy(Dump { requested: 0, sent: 0, ..dump });
        }
        16 => {
            // Over 65,535 words, in a region that has them: nothing else is wrong.
            one_wide_region(rng, &mut state, 70_000);
            let start = state.setup.regions[0].start;
            let dump = Dump { transaction: 7, start, requested: rng.pick(&[65_536, 65_537, 69_999]), sent: rng.pick(&[0, 1_016, 65_024]) };
            state.places[rng.below(4) as usize] = DumpPlace::Busy(dump);
        }
        17 => {
            let (i, dump) = force_busy(rng, &mut state);
            state.places[i] = DumpPlace::Busy(Dump { start: Address(dump.start.0 | rng.between(1, 3) as u32), ..dump });
        }
        18 => {
            // One word past the region's end, or one before its start.
            let (i, _) = force_busy(rng, &mut state);
            let r = rng.below(u64::from(state.setup.region_count)) as usize;
            let region = state.setup.regions[r];
            state.setup.regions[r].dump = true;
            let transaction = match state.places[i] {
                DumpPlace::Busy(dump) => dump.transaction,
                DumpPlace::Idle => 0,
            };
            let k = rng.below(u64::from(region.size)).max(u64::from(region.size).saturating_sub(3_000)) as u32;
            let start = Address(region.start.0 + 4 * k);
            state.places[i] = DumpPlace::Busy(Dump { transaction, start, requested: region.size - k + 1, sent: 0 });
        }
        19 => {
            // Its region loses the dump right.
            let (_, dump) = force_busy(rng, &mut state);
            let n = state.setup.region_count as usize;
            for region in state.setup.regions[..n].iter_mut() {
                if u64::from(dump.start.0) >= u64::from(region.start.0)
                    && u64::from(dump.start.0) < u64::from(region.start.0) + 4 * u64::from(region.size)
                {
                    region.dump = false;
                }
            }
        }
        20 => {
            let (i, dump) = force_busy(rng, &mut state);
            let sent = dump.sent + rng.pick(&[1, 2, 4, 508, 1_015]);
            state.places[i] = DumpPlace::Busy(Dump { sent, ..dump });
        }
        21 => {
            // All sent, or more.
            if rng.one_in(2) {
                one_wide_region(rng, &mut state, 5_000);
                let start = state.setup.regions[0].start;
                let requested = rng.pick(&[1_016, 2_032, 1_017, 1]);
                let dump = Dump { transaction: 7, start, requested, sent: 1_016 * requested.div_ceil(1_016) };
                state.places[rng.below(4) as usize] = DumpPlace::Busy(dump);
            } else {
                let (i, dump) = force_busy(rng, &mut state);
                let sent = 1_016 * (dump.requested.div_ceil(1_016) + rng.pick(&[0, 0, 0, 1, 64]));
                state.places[i] = DumpPlace::Busy(Dump { sent, ..dump });
            }
        }
        22 => {
            // Words that the block cannot hold.
            let mut block = pack_state(&state).to_vec();
            match rng.below(3) {
                0 => block[3 + 3 * rng.below(u64::from(state.setup.region_count)) as usize] = rng.pick(&[4, 5, 7, 255, 256, u32::MAX]),
                1 => block[54 + 5 * rng.below(4) as usize] = rng.pick(&[2, 3, 255, 256, 257, u32::MAX]),
                _ => {
                    let i = rng.below(4) as usize;
                    let k = rng.between(1, 4) as usize;
                    block[54 + 5 * i..59 + 5 * i].fill(0);
                    block[54 + 5 * i + k] = rng.pick(&[1, 4, 1_016, 65_536, u32::MAX]);
                }
            }
            return block;
        }
        23 => state.count_786 = rng.pick(&[16_384, 16_385, 32_768, 65_535, 65_536, u32::MAX]),
        _ => {
            // Another length.
            let mut block = pack_state(&state).to_vec();
            let length = rng.pick(&[0, 1, 54, 77, 78, 79, 81, 82, 160]);
            let more = rng.words(length);
            block.extend_from_slice(&more);
            block.truncate(length);
            return block;
        }
    }
    if rng.one_in(20) {
        // The unit as a number that only a wider word can hold.
        state.setup.unit = rng.pick(&[256, 257, 65_536, u32::MAX]);
    }
    pack_state(&state).to_vec()
}

/// Any words in the entries of a block that are not in use, now and then.
fn fill_unused(rng: &mut Rng, entries: &mut [u32], in_use: u32) {
    if rng.one_in(3) {
        for word in entries.iter_mut().skip(3 * in_use as usize) {
            *word = if rng.one_in(3) { rng.below(8) as u32 } else { rng.word() };
        }
    }
}

pub fn state_block(rng: &mut Rng, state: &State) -> Vec<u32> {
    let mut block = pack_state(state).to_vec();
    fill_unused(rng, &mut block[1..49], state.setup.region_count);
    block
}

fn table_block(rng: &mut Rng, setup: &Setup) -> Vec<u32> {
    let mut block = pack_setup(setup).to_vec();
    fill_unused(rng, &mut block[6..54], setup.region_count);
    block
}

/// One region with both rights, no pools, all places idle; the rest of the state as it was.
fn one_wide_region(rng: &mut Rng, state: &mut State, size: u32) {
    let top = ((1u64 << 32) - 4 * u64::from(size)) as u32;
    state.setup.region_count = 1;
    state.setup.regions[0] = Region { start: Address(rng.pick(&[0, 0x1000, top])), size, load: true, dump: true };
    state.setup.pools = [NO_POOL; 2];
    state.places = [DumpPlace::Idle; 4];
}

/// A state block changed in one word or one bit, or wholly random: good or not, no one knows beforehand.
fn disturb_block(rng: &mut Rng, block: &mut Vec<u32>) {
    match rng.below(12) {
        0 => *block = rng.words(STATE_WORDS),
        1 => {
            // Random small words.
            for word in block.iter_mut() {
                *word = rng.below(5) as u32;
            }
        }
        2..=5 => {
            let at = rng.below(block.len() as u64) as usize;
            block[at] ^= 1 << rng.below(32);
        }
        6..=8 => {
            // The words after the regions more often, since fewer of them are idle padding.
            let at = rng.between(49, 79) as usize;
            block[at] ^= 1 << rng.below(17);
        }
        9 => {
            let at = rng.below(block.len() as u64) as usize;
            block[at] = rng.pick(&[0, 1, 2, 3, 4, 15, 16, 255, 256, 1_016, 4_095, 4_096, 16_383, 16_384, 65_535, 65_536, u32::MAX]);
        }
        _ => {
            let at = rng.below(block.len() as u64) as usize;
            block[at] = block[at].wrapping_add(rng.pick(&[1, 4, u32::MAX, u32::MAX - 3]));
        }
    }
}

// ------------------------------------------------------------------------------------------------------------------------------------
// Images and pools
// ------------------------------------------------------------------------------------------------------------------------------------

/// Whole blocks over a pool: sizes random, used or free, the rest of each block random. In some pools no block is free, or none is used, or each
/// free block has one word.
pub fn fill_blocks(rng: &mut Rng, pool: &mut [u32]) -> Vec<usize> {
    let mut heads = vec![];
    let mut at = 0;
    let most = rng.pick(&[1, 3, 8, 50, 5_000, 2_000_000]);
    let kind = rng.below(6);
    while at < pool.len() {
        let rest = (pool.len() - at) as u64;
        let size = rng.between(1, rest.min(most)) as usize;
        for word in &mut pool[at..at + size] {
            *word = rng.word();
        }
        let used = match kind {
            0 => true,
            1 => false,
            2 => size > 1 || rng.one_in(2),
            _ => rng.one_in(2),
        };
        pool[at] = size as u32 | if used { 0x8000_0000 } else { 0 };
        heads.push(at);
        at += size;
    }
    heads
}

/// Damage for certain, in blocks that were whole.
pub fn break_blocks(rng: &mut Rng, pool: &mut [u32], heads: &[usize]) {
    let last = heads[heads.len() - 1];
    let used = rng.word() & 0x8000_0000;
    match rng.below(5) {
        0 => pool[rng.pick(heads)] = used,                                             // size 0
        1 => pool[last] += 1,                                                          // one past the end
        2 => pool[rng.pick(heads)] = used | rng.pick(&[0x7FFF_FFFF, 0x7FFF_FFFE, 0x4000_0000, 0x2000_0000]), // far past the end
        3 => {
            // One short: the last word is left, and is no block of one word.
            pool[last] -= 1;
            let end = pool.len() - 1;
            if end != last {
                pool[end] = rng.pick(&[0, 0x8000_0000, 2, 0x8000_0002, 0xFFFF_FFFF]);
            }
        }
        _ => {
            let at = rng.pick(heads);
            pool[at] = used | (pool.len() - at + 1) as u32; // from any block to one past the end
        }
    }
}

fn pool_range(setup: &Setup, p: usize) -> Option<std::ops::Range<usize>> {
    let pool = setup.pools[p];
    if pool.size == 0 {
        return None;
    }
    let first = image_place(setup, pool.start.0)?;
    Some(first..first + pool.size as usize)
}

/// An image of the right length, with blocks in the pools (whole or damaged), those of pool `last` written last and as `whole` says.
fn image_for(rng: &mut Rng, setup: &Setup, last: usize, whole: Option<bool>) -> Vec<u32> {
    let mut image = rng.words(sum_of_sizes(setup));
    for p in [1 - last, last] {
        if let Some(range) = pool_range(setup, p) {
            let heads = fill_blocks(rng, &mut image[range.clone()]);
            let keep = if p == last { whole } else { None };
            if !keep.unwrap_or_else(|| !rng.one_in(3)) {
                break_blocks(rng, &mut image[range], &heads);
            }
        }
    }
    image
}

/// An image of another length.
fn wrong_length(rng: &mut Rng, image: &mut Vec<u32>) {
    let n = image.len();
    let to = match rng.below(6) {
        0 => 0,
        1 => n + 1,
        2 => n - 1,
        3 => 2 * n,
        4 => n + rng.between(1, 40) as usize,
        _ => rng.below(n as u64) as usize,
    };
    let more = rng.words(to.saturating_sub(n));
    image.extend_from_slice(&more);
    image.truncate(to);
}

// ------------------------------------------------------------------------------------------------------------------------------------
// Symbol tables
// ------------------------------------------------------------------------------------------------------------------------------------

/// What a lent symbol table is: tables, those that are none, and those of which no one knows.
pub const TABLES: [&str; 16] = [
    "no record",
    "one record",
    "values",
    "aliases",
    "256 records",
    "odd length",
    "over 256",
    "another kind",
    "name length",
    "zero bytes",
    "padding",
    "alias of itself",
    "forward alias",
    "loop",
    "equal names",
    "disturbed",
];
/// The first of `TABLES` that is none.
pub const NO_TABLE: usize = 5;
pub const DISTURBED: usize = 15;

#[derive(Clone)]
pub struct Record {
    pub name: Vec<u8>,
    pub alias: Option<usize>,
    pub value: u32,
}

/// A table that keeps the rules.
#[derive(Clone)]
pub struct Symbols {
    pub records: Vec<Record>,
}

fn letters(rng: &mut Rng, n: usize) -> Vec<u8> {
    (0..n).map(|_| b'A' + rng.below(26) as u8).collect()
}

/// Some value: an address of the setup, or any number.
fn some_value(rng: &mut Rng, setup: &Setup) -> u32 {
    match rng.below(8) {
        0 => rng.word(),
        1 => rng.pick(&[0, 1, 4, 0x7FFF_FFFC, 0x8000_0000, 0xFFFF_FFFC, u32::MAX]),
        2 | 3 => some_address(rng, setup),
        _ => setup.regions[rng.below(u64::from(setup.region_count.clamp(1, 16))) as usize].start.0,
    }
}

/// Some offset: none, near, to the ends of its range, any; a multiple of 4 or not.
pub fn some_offset(rng: &mut Rng) -> i32 {
    match rng.below(8) {
        0 => 0,
        1 => rng.pick(&[1, -1, 4, -4, i32::MAX, i32::MIN, i32::MAX - 3, i32::MIN + 4]),
        2 => rng.word() as i32,
        3 => rng.between(0, 40) as i32 - 20,
        _ => 4 * (rng.between(0, 4_000) as i32 - 2_000),
    }
}

/// Names of one manner or of all: letters; alike but for the last of 48 bytes; each the beginning of the next; alike but for zero bytes at the end;
/// any bytes.
fn some_name(rng: &mut Rng, manner: u64, base: &[u8], i: usize) -> Vec<u8> {
    let manner = if manner == 5 { rng.below(5) } else { manner };
    let mut name = base.to_vec();
    match manner {
        0 => {
            let n = rng.between(1, 9) as usize;
            return letters(rng, n);
        }
        1 => name[47] = name[47].wrapping_add(i as u8),
        2 => {
            name[0] = name[0].wrapping_add((i / 48) as u8);
            name.truncate(i % 48 + 1);
        }
        3 => {
            name.truncate(2);
            name[0] = name[0].wrapping_add((i / 8) as u8);
            name.resize(2 + i % 8 * rng.between(1, 5) as usize, 0);
        }
        _ => {
            let any = rng.between(1, 48) as usize;
            let n = rng.pick(&[1, 2, 3, 4, 5, 47, 48, 48, any]);
            return rng.bytes(n);
        }
    }
    name
}

impl Symbols {
    /// A table by its rules: 0 to 256 records, names of all manners, no aliases or some or a chain of them.
    pub fn good(rng: &mut Rng, setup: &Setup) -> Symbols {
        let n = match rng.below(24) {
            0 => 0,
            1 | 2 => 1,
            3 => 256,
            4 => rng.between(200, 255),
            5 | 6 => rng.between(13, 60),
            _ => rng.between(2, 12),
        } as usize;
        Symbols::of(rng, setup, n)
    }

    pub fn of(rng: &mut Rng, setup: &Setup, n: usize) -> Symbols {
        let manner = rng.below(6);
        let base = if rng.one_in(2) { letters(rng, 48) } else { rng.bytes(48) };
        let aliases = rng.below(4);
        let mut seen = std::collections::HashSet::new();
        let mut records: Vec<Record> = vec![];
        for i in 0..n {
            let mut name = some_name(rng, manner, &base, i);
            while !seen.insert(name.clone()) {
                let more = rng.pick(&[2, 3, 8, 48]);
                name = rng.bytes(more);
            }
            let alias = match aliases {
                _ if i == 0 => None,
                1 if !rng.one_in(12) => Some(i - 1), // chains
                2 if rng.one_in(3) => Some(rng.below(i as u64) as usize),
                3 if !rng.one_in(4) => Some(rng.pick(&[0, i / 2, i - 1])),
                _ => None,
            };
            records.push(Record { name, alias, value: some_value(rng, setup) });
        }
        Symbols { records }
    }

    /// Which of `TABLES` it is.
    pub fn kind(&self) -> usize {
        match self.records.len() {
            0 => 0,
            1 => 1,
            256 => 4,
            _ => 2 + usize::from(self.records.iter().any(|record| record.alias.is_some())),
        }
    }

    pub fn bytes(&self) -> Vec<u8> {
        let mut all = Vec::with_capacity(56 * self.records.len());
        for record in &self.records {
            all.extend_from_slice(&[u8::from(record.alias.is_some()), record.name.len() as u8, 0, 0]);
            all.extend_from_slice(&record.name);
            all.resize(all.len() + 48 - record.name.len(), 0);
            let number = record.alias.map_or(record.value, |other| other as u32);
            all.extend_from_slice(&number.to_be_bytes());
        }
        all
    }

    /// The record with the value that record `i` is resolved to.
    fn root(&self, i: usize) -> usize {
        let mut at = i;
        while let Some(other) = self.records[at].alias {
            at = other;
        }
        at
    }

    pub fn value(&self, i: usize) -> u32 {
        self.records[self.root(i)].value
    }

    pub fn some_record(&self, rng: &mut Rng) -> Option<usize> {
        let n = self.records.len();
        match rng.below(6) {
            _ if n == 0 => None,
            0 => Some(0),
            1 => Some(n - 1),
            _ => Some(rng.below(n as u64) as usize),
        }
    }

    /// A record from whose value an address can be reached, and the offset to it.
    pub fn reach(&self, rng: &mut Rng, address: u32) -> Option<(usize, i32)> {
        for _ in 0..6 {
            let i = self.some_record(rng)?;
            if let Ok(offset) = i32::try_from(i64::from(address) - i64::from(self.value(i))) {
                return Some((i, offset));
            }
        }
        None
    }

    /// A name that the table has not: near one that it has, or any.
    pub fn unknown_name(&self, rng: &mut Rng) -> Vec<u8> {
        loop {
            let mut name = match self.some_record(rng) {
                Some(i) if !rng.one_in(5) => self.records[i].name.clone(),
                _ => {
                    let n = rng.between(1, 48) as usize;
                    rng.bytes(n)
                }
            };
            let n = name.len();
            match rng.below(5) {
                0 if n > 1 => name.truncate(if rng.one_in(2) { n - 1 } else { rng.between(1, n as u64 - 1) as usize }),
                1 if n < 48 => name.push(0),
                2 if n < 48 => {
                    let more = rng.between(1, 48 - n as u64) as usize;
                    let more = rng.bytes(more);
                    name.extend_from_slice(&more);
                }
                3 => name[n - 1] ^= 1 << rng.below(8),
                _ => name[rng.below(n as u64) as usize] ^= 1 << rng.below(8),
            }
            if self.records.iter().all(|record| record.name != name) {
                return name;
            }
        }
    }

    /// The table with one rule broken, for certain; and which of `TABLES` it is then.
    pub fn broken(&self, rng: &mut Rng) -> (Vec<u8>, usize) {
        let n = self.records.len();
        let mut all = self.bytes();
        let kind = match rng.below(10) as usize + NO_TABLE {
            6 => 6,
            _ if n == 0 => 5,
            13 | 14 if n == 1 => rng.pick(&[7, 8, 9, 10, 11, 12]),
            kind => kind,
        };
        let i = rng.below(n as u64) as usize;
        let at = 56 * i;
        let alias = |all: &mut [u8], at: usize, number: u32| {
            all[at] = 1;
            all[at + 52..at + 56].copy_from_slice(&number.to_be_bytes());
        };
        match kind {
            5 => {
                let any = rng.between(1, 55) as usize;
                let by = rng.pick(&[1, 4, 28, 52, 55, any]);
                if n > 0 && rng.one_in(2) {
                    all.truncate(all.len() - by);
                } else {
                    all.resize(all.len() + by, 0);
                }
            }
            6 => {
                // Records of value 0 with names of their own, up to 257 or more.
                let to = rng.pick(&[257, 257, 257, 258, 300, 512]);
                for k in n..to {
                    let name = loop {
                        let name = [vec![0x80 | k as u8, (k >> 8) as u8], rng.bytes(8)].concat();
                        if self.records.iter().all(|record| record.name != name) {
                            break name;
                        }
                    };
                    all.extend_from_slice(&[0, 10, 0, 0]);
                    all.extend_from_slice(&name);
                    all.extend_from_slice(&[0; 42]);
                }
            }
            7 => all[at] = rng.pick(&[2, 3, 4, 127, 128, 129, 255]),
            8 => {
                all[at + 1] = rng.pick(&[0, 0, 49, 49, 50, 96, 128, 176, 255]);
                // As if the length were the only thing wrong: no name, or one that is full.
                let full = all[at + 1] != 0;
                for byte in &mut all[at + 4..at + 52] {
                    *byte = if full { 1 + rng.below(255) as u8 } else { 0 };
                }
            }
            9 => all[at + 2 + rng.below(2) as usize] = 1 << rng.below(8),
            10 => {
                // Nonzero right after the name, at the end, or between.
                let used = (all[at + 1] as usize).min(47);
                all[at + 1] = used as u8;
                let any = rng.between(used as u64, 47) as usize;
                let k = rng.pick(&[used, 47, any]);
                all[at + 4 + k] = 1 + rng.below(255) as u8;
            }
            11 => alias(&mut all, at, i as u32),
            12 => {
                // The next one, the last, one that is not there, or a lower one modulo something.
                let next = i as u32 + 1;
                let low = rng.below(i as u64 + 1) as u32;
                let last = (n as u32 - 1).max(next);
                let number = rng.pick(&[next, last, n as u32, 256 + low, 65_536 + low, 0x0100_0000 + low, 0x8000_0000 + low, u32::MAX]);
                alias(&mut all, at, number);
            }
            13 => {
                let other = (i + 1 + rng.below(n as u64 - 1) as usize) % n;
                alias(&mut all, at, other as u32);
                alias(&mut all, 56 * other, i as u32);
            }
            _ => {
                let other = (i + 1 + rng.below(n as u64 - 1) as usize) % n;
                all.copy_within(at + 1..at + 52, 56 * other + 1);
            }
        }
        (all, kind)
    }

    /// The table with bits or bytes changed: a table or not, no one knows beforehand.
    pub fn disturbed(&self, rng: &mut Rng) -> (Vec<u8>, usize) {
        let mut all = self.bytes();
        for _ in 0..rng.between(1, 3) {
            if all.is_empty() || rng.one_in(12) {
                let n = rng.below(200) as usize;
                let n = if rng.one_in(2) { n } else { n / 56 * 56 };
                all = if rng.one_in(2) { rng.bytes(n) } else { vec![0; n] };
                continue;
            }
            let record = rng.below((all.len() as u64).div_ceil(56)) as usize;
            let any = rng.below(56) as usize;
            let field = rng.pick(&[0, 1, 2, 3, 4, 51, 52, 53, 54, 55, 55, any]);
            let at = (56 * record + field).min(all.len() - 1);
            all[at] = match rng.below(3) {
                0 => all[at] ^ 1 << rng.below(8),
                1 => rng.pick(&[0, 1, 2, 47, 48, 49, 255]),
                _ => all[at].wrapping_add(rng.pick(&[1, 255])),
            };
        }
        (all, DISTURBED)
    }

    /// What is lent to a command that must not look at it: anything.
    fn anything(&self, rng: &mut Rng) -> (Vec<u8>, usize) {
        match rng.below(3) {
            0 => (self.bytes(), self.kind()),
            1 => self.broken(rng),
            _ => self.disturbed(rng),
        }
    }

    /// A dump of a range, by its address or by a name: the record that the name resolves to gets the value that suits.
    fn dump(&mut self, rng: &mut Rng, unit: u32, transaction: u32, size: u32, address: u32) -> Vec<u8> {
        let Some(i) = self.some_record(rng).filter(|_| rng.one_in(2)) else {
            return dump_command(rng, unit, transaction, size, address);
        };
        let mut offset = some_offset(rng);
        let value = u32::try_from(i64::from(address) - i64::from(offset)).unwrap_or_else(|_| {
            offset = 0;
            address
        });
        let root = self.root(i);
        self.records[root].value = value;
        by_name_command(rng, unit, transaction, &self.records[i].name, offset, size)
    }

    /// A dump by name at an address that 32 bits cannot hold: just out, or good modulo 2^32. None: the table has no record.
    fn dump_outside(&mut self, rng: &mut Rng, unit: u32, transaction: u32, size: u32, address: u32) -> Option<Vec<u8>> {
        let i = self.some_record(rng)?;
        let address = i64::from(address);
        let all = 1i64 << 32;
        // Where it shall lie, and an offset that gets there.
        let (place, offset) = match rng.below(4) {
            0 => {
                let place = -(rng.pick(&[1, 2, 3, 4, 4, 8, 4_096]) as i64);
                (place, place - rng.pick(&[0, 4, 4_096, 0x7000_0000]))
            }
            1 => {
                let place = all + rng.pick(&[0, 0, 1, 4, 4_096]);
                (place, place - all + rng.pick(&[1, 4, 4_096, 0x7000_0000]))
            }
            _ if address < 0x7FFF_FFF0 => (address + all, rng.between(address as u64 + 1, 0x7FFF_FFFF) as i64),
            _ if address >= 0x8000_0000 => (address - all, -(rng.between((all - address) as u64, 0x8000_0000) as i64)),
            _ => (-4, -4),
        };
        let root = self.root(i);
        self.records[root].value = u32::try_from(place - offset).expect("a value");
        let offset = i32::try_from(offset).expect("an offset");
        Some(by_name_command(rng, unit, transaction, &self.records[i].name, offset, size))
    }
}

// ------------------------------------------------------------------------------------------------------------------------------------
// Packets
// ------------------------------------------------------------------------------------------------------------------------------------

/// Puts the right length field (its low 16 bits) into a packet.
pub fn mend_length(packet: &mut [u8]) {
    if packet.len() >= 6 {
        let field = packet.len().wrapping_sub(7) as u16;
        packet[4..6].copy_from_slice(&field.to_be_bytes());
    }
}

/// Puts the right check byte into a packet.
pub fn mend_check(packet: &mut [u8]) {
    if packet.len() >= 8 {
        let sum = packet.iter().fold(0, |sum, byte| sum ^ byte);
        packet[7] ^= sum ^ 0xFF;
    }
}

/// A command packet from its parts, with right header, length field and check byte.
pub fn raw_command(sequence: u32, code: u8, unit: u32, transaction: u32, body: &[u8]) -> Vec<u8> {
    let mut packet = vec![0x1E, 0x44, 0xC0 | (sequence >> 8) as u8, sequence as u8, 0, 0, code, 0];
    packet.extend_from_slice(&((unit << 12 | transaction) as u16).to_be_bytes());
    packet.extend_from_slice(body);
    mend_length(&mut packet);
    mend_check(&mut packet);
    packet
}

fn body_of_range(size: u32, address: u32) -> Vec<u8> {
    let mut body = (size as u16).to_be_bytes().to_vec();
    body.extend_from_slice(&address.to_be_bytes());
    body
}

pub fn dump_command(rng: &mut Rng, unit: u32, transaction: u32, size: u32, address: u32) -> Vec<u8> {
    let sequence = count(rng, 16_383);
    raw_command(sequence, 0, unit, transaction, &body_of_range(size, address))
}

pub fn cancel_command(rng: &mut Rng, unit: u32, transaction: u32) -> Vec<u8> {
    let sequence = count(rng, 16_383);
    raw_command(sequence, 1, unit, transaction, &[])
}

pub fn load_command(rng: &mut Rng, unit: u32, transaction: u32, size: u32, address: u32) -> Vec<u8> {
    let mut body = body_of_range(size, address);
    let mut data = rng.bytes(44);
    if rng.one_in(2) {
        // Unused words 0, as the writer makes them.
        let used = (4 * size as usize).min(44);
        data[used..].fill(0);
    }
    body.extend_from_slice(&data);
    let sequence = count(rng, 16_383);
    raw_command(sequence, 4, unit, transaction, &body)
}

pub fn pool_command(rng: &mut Rng, unit: u32, transaction: u32, pool: u32) -> Vec<u8> {
    let sequence = count(rng, 16_383);
    raw_command(sequence, 7, unit, transaction, &(pool as u16).to_be_bytes())
}

/// The name field of codes 8 and 9: size, a zero pad, and 48 bytes, those past the name 0 or not.
fn name_field(rng: &mut Rng, name: &[u8]) -> Vec<u8> {
    let mut field = vec![name.len() as u8, 0];
    field.extend_from_slice(name);
    let more = rng.bytes(48 - name.len());
    field.extend(if rng.one_in(2) { vec![0; more.len()] } else { more });
    field
}

pub fn value_command(rng: &mut Rng, unit: u32, transaction: u32, name: &[u8]) -> Vec<u8> {
    let body = name_field(rng, name);
    let sequence = count(rng, 16_383);
    raw_command(sequence, 8, unit, transaction, &body)
}

pub fn by_name_command(rng: &mut Rng, unit: u32, transaction: u32, name: &[u8], offset: i32, size: u32) -> Vec<u8> {
    let mut body = name_field(rng, name);
    body.extend_from_slice(&offset.to_be_bytes());
    body.extend_from_slice(&(size as u16).to_be_bytes());
    body.extend_from_slice(&[0; 2]);
    let sequence = count(rng, 16_383);
    raw_command(sequence, 9, unit, transaction, &body)
}

/// A packet of code 8, or of code 9 with any offset and size.
fn named_command(rng: &mut Rng, unit: u32, transaction: u32, name: &[u8]) -> Vec<u8> {
    if rng.one_in(2) {
        return value_command(rng, unit, transaction, name);
    }
    let (offset, size) = (some_offset(rng), rng.pick(&SIZES));
    by_name_command(rng, unit, transaction, name, offset, size)
}

/// A fault of number 9 that a packet of code 8 or 9 shows by itself: the name's size, the pad, the zero bits, or (if `size` says so) a size of 0.
fn break_name_field(rng: &mut Rng, packet: &mut [u8], size: bool) {
    let nine = packet[6] == 9;
    match rng.below(4) {
        0 if nine && size => packet[64..66].fill(0),
        1 if nine => packet[66 + rng.below(2) as usize] ^= 1 << rng.below(8),
        2 => packet[11] ^= 1 << rng.below(8),
        _ => packet[10] = rng.pick(&[0, 0, 49, 49, 50, 64, 128 | packet[10], 255]),
    }
    mend_check(packet);
}

const SIZES: [u32; 12] = [0, 1, 2, 10, 11, 12, 1_015, 1_016, 1_017, 2_032, 65_534, 65_535];

/// An address: at region edges, inside, outside, aligned or not, at the ends of memory.
fn some_address(rng: &mut Rng, setup: &Setup) -> u32 {
    let i = rng.below(u64::from(setup.region_count.clamp(1, 16))) as usize;
    let region = setup.regions[i];
    let end = u64::from(region.start.0) + 4 * u64::from(region.size);
    let address = match rng.below(12) {
        0 | 1 => u64::from(region.start.0),
        2 => end.wrapping_sub(4),
        3 => end,
        4 => u64::from(region.start.0).wrapping_sub(4),
        5 => end.wrapping_sub(4 * rng.between(1, 12)),
        6 => end.wrapping_sub(4 * rng.between(1, 1_100)),
        7 => rng.pick(&[0u64, 4, 0xFFFF_FFFC, 0xFFFF_FFF8, 0x8000_0000]),
        8 => u64::from(rng.word()),
        _ => u64::from(region.start.0) + 4 * rng.below(u64::from(region.size.max(1))),
    } as u32;
    if rng.one_in(8) {
        address ^ rng.between(1, 3) as u32
    } else {
        address
    }
}

/// A size for an address: the fixed ones, and those that end at a region's edge or one word past it.
fn some_size(rng: &mut Rng, setup: &Setup, address: u32) -> u32 {
    let region = setup.regions[..setup.region_count.min(16) as usize]
        .iter()
        .find(|region| address >= region.start.0 && u64::from(address) < u64::from(region.start.0) + 4 * u64::from(region.size));
    let rest = match region {
        Some(region) => ((u64::from(region.start.0) + 4 * u64::from(region.size) - u64::from(address)) / 4) as u32,
        None => 1,
    };
    match rng.below(6) {
        0 => rng.pick(&SIZES),
        1 => rest.min(65_535),
        2 => (rest + 1).min(65_535),
        3 => rng.between(1, 11) as u32,
        4 => rng.between(1, u64::from(rest.clamp(1, 65_535))) as u32,
        _ => rest.saturating_sub(1).min(65_535),
    }
}

/// A command packet for a state and a symbol table, of random fields; its header is right.
pub fn some_command(rng: &mut Rng, state: &State, symbols: &Symbols) -> Vec<u8> {
    let unit = if rng.one_in(12) { rng.below(16) as u32 } else { state.setup.unit & 15 };
    let busy = busy_transactions(state);
    let transaction = if !busy.is_empty() && rng.one_in(3) { rng.pick(&busy) & 4_095 } else { free_transaction(rng, state) };
    let address = some_address(rng, &state.setup);
    let size = some_size(rng, &state.setup, address);
    match rng.below(13) {
        0..=2 => dump_command(rng, unit, transaction, size, address),
        3 | 4 => cancel_command(rng, unit, transaction),
        5 | 6 => {
            let size = if rng.one_in(2) { size } else { rng.between(1, 11) as u32 };
            load_command(rng, unit, transaction, size, address)
        }
        9..=12 => {
            let known = symbols.some_record(rng).filter(|_| !rng.one_in(4));
            let mut packet = match known {
                None => {
                    let name = symbols.unknown_name(rng);
                    named_command(rng, unit, transaction, &name)
                }
                Some(i) if rng.one_in(3) => value_command(rng, unit, transaction, &symbols.records[i].name),
                Some(i) => {
                    let (i, offset) = symbols.reach(rng, address).unwrap_or((i, some_offset(rng)));
                    by_name_command(rng, unit, transaction, &symbols.records[i].name, offset, size)
                }
            };
            if rng.one_in(8) {
                break_name_field(rng, &mut packet, true);
            }
            packet
        }
        _ => {
            let pool = if rng.one_in(6) { rng.pick(&[2, 3, 255, 256, 257, 32_768, 65_535]) } else { rng.below(2) as u32 };
            pool_command(rng, unit, transaction, pool)
        }
    }
}

/// Damage to any packet: a bit, a byte, cut, lengthened, replaced; check byte and length field mended or not.
pub fn damage_packet(rng: &mut Rng, packet: &mut Vec<u8>, has_check: bool) {
    let early = packet.len().min(28) as u64;
    match rng.below(10) {
        0 | 1 if !packet.is_empty() => {
            let at = rng.below(packet.len() as u64) as usize;
            packet[at] ^= 1 << rng.below(8);
        }
        2 | 3 if !packet.is_empty() => {
            let at = rng.below(early) as usize;
            packet[at] ^= 1 << rng.below(8);
        }
        4 if !packet.is_empty() => {
            let at = rng.below(early) as usize;
            packet[at] = rng.word() as u8;
        }
        5 if !packet.is_empty() => {
            let to = rng.below(packet.len() as u64) as usize;
            packet.truncate(to);
        }
        6 if !packet.is_empty() => {
            packet.pop();
        }
        7 => {
            let n = if rng.one_in(100) { rng.pick(&[65_536, 65_542 - packet.len().min(65_542), 65_543]) } else { rng.between(1, 60) as usize };
            let more = if rng.one_in(2) { vec![0; n] } else { rng.bytes(n) };
            packet.extend_from_slice(&more);
        }
        8 => {
            let n = rng.below(80) as usize;
            *packet = rng.bytes(n);
        }
        _ => {
            // Random bytes behind a right beginning.
            let n = rng.below(80) as usize;
            let start = packet[..packet.len().min(7)].to_vec();
            *packet = rng.bytes(n);
            for (byte, right) in packet.iter_mut().zip(start) {
                *byte = right;
            }
        }
    }
    let mend = rng.below(4);
    if mend >= 2 {
        mend_length(packet);
    }
    if has_check && mend % 2 == 1 {
        mend_check(packet);
    }
}

/// Puts a fault of number 4, for certain, into a command packet.
fn break_command_header(rng: &mut Rng, packet: &mut Vec<u8>) {
    match rng.below(9) {
        0 => {
            let to = rng.below(8) as usize;
            packet.truncate(to);
            if rng.one_in(2) {
                mend_length(packet);
            }
        }
        1 => {
            packet[0] ^= (rng.between(1, 7) << 5) as u8; // version
            mend_check(packet);
        }
        2 => {
            packet[0] ^= 0x10; // type
            mend_check(packet);
        }
        3 => {
            packet[0] ^= 0x08; // second-header flag
            mend_check(packet);
        }
        4 => {
            packet[2] ^= (rng.between(1, 3) << 6) as u8; // sequence flags
            mend_check(packet);
        }
        5 => {
            // Length field: one off, or any other.
            let right = u16::from_be_bytes([packet[4], packet[5]]);
            let wrong = right.wrapping_add(rng.pick(&[1, 7, 256, 65_535, 65_529, 32_768]));
            packet[4..6].copy_from_slice(&wrong.to_be_bytes());
            mend_check(packet);
        }
        6 => {
            packet[6] ^= 0x80; // zero bit
            mend_check(packet);
        }
        7 => {
            let at = rng.below(packet.len() as u64) as usize;
            packet[if rng.one_in(2) { 7 } else { at.max(7) }] ^= 1 << rng.below(8); // check byte
        }
        _ => {
            if rng.one_in(8) {
                // 65,536 bytes more: the length field is right modulo 65,536 only.
                let more = rng.bytes(65_536);
                packet.extend_from_slice(&more);
            } else {
                let n = rng.between(1, 9) as usize;
                let more = vec![0; n];
                packet.extend_from_slice(&more); // bytes that the length field does not count
            }
            mend_check(packet);
        }
    }
}

/// Another APID, with the check byte mended.
fn break_apid(rng: &mut Rng, packet: &mut [u8], own: u16, has_check: bool) {
    let other = loop {
        let other = match rng.below(3) {
            0 => own ^ (1 << rng.below(11)),
            1 => rng.pick(&[0, 785, 786, 788, 1604, 1605, 2_047]),
            _ => rng.below(2_048) as u16,
        };
        if other != own {
            break other;
        }
    };
    packet[0] = packet[0] & 0xF8 | (other >> 8) as u8;
    packet[1] = other as u8;
    if has_check {
        mend_check(packet);
    }
}

fn other_code(rng: &mut Rng) -> u8 {
    loop {
        let code = if rng.one_in(2) { rng.below(12) as u8 } else { rng.below(128) as u8 };
        if ![0, 1, 4, 7, 8, 9].contains(&code) {
            return code;
        }
    }
}

/// A length that is wrong for the packet's code, everything else mended.
fn break_packet_length(rng: &mut Rng, packet: &mut Vec<u8>) {
    let right = packet.len();
    let to = loop {
        let to = match rng.below(6) {
            0 => right - 1,
            1 => right + 1,
            2 => rng.pick(&[8, 9, 10, 12, 16, 60, 68]),
            3 if rng.one_in(40) => rng.pick(&[65_542, 65_541, 256 + right]),
            _ => rng.between(8, 80) as usize,
        };
        if to != right && to >= 8 {
            break to;
        }
    };
    let more = if rng.one_in(2) { vec![0; to.saturating_sub(right)] } else { rng.bytes(to.saturating_sub(right)) };
    packet.extend_from_slice(&more);
    packet.truncate(to);
    mend_length(packet);
    mend_check(packet);
}

// ------------------------------------------------------------------------------------------------------------------------------------
// Start-up calls
// ------------------------------------------------------------------------------------------------------------------------------------

pub fn start_up_call(rng: &mut Rng, turn: u64) -> Call {
    let mut call = Call::new(Kind::StartUp, rng);
    call.words = rng.words(STATE_WORDS);
    let scale = rng.pick(&[Scale::Small, Scale::Large, Scale::Huge]);
    let mut setup = good_setup(rng, scale);
    match turn % 8 {
        0..=2 => {
            call.fixed = table_block(rng, &setup);
            call.expected = Some(0);
        }
        3 | 4 => {
            break_setup(rng, &mut setup);
            call.fixed = table_block(rng, &setup);
            call.expected = Some(17);
        }
        5 => {
            // Words out of their bounds in the block.
            call.fixed = table_block(rng, &setup);
            match rng.below(2) {
                0 => call.fixed[8 + 3 * rng.below(u64::from(setup.region_count)) as usize] = rng.pick(&[4, 5, 255, 256, u32::MAX]),
                _ => call.fixed[0] = rng.pick(&[256, 257, 65_536, u32::MAX]),
            }
            call.expected = Some(17);
        }
        6 => {
            // Another length of one block or both.
            call.fixed = table_block(rng, &setup);
            let which = rng.below(3);
            if which != 1 {
                let n = rng.pick(&[0, 1, 53, 55, 80]);
                let more = rng.words(n);
                call.fixed.extend_from_slice(&more);
                call.fixed.truncate(n);
            }
            if which != 0 {
                let n = rng.pick(&[0, 1, 54, 78, 79, 81]);
                call.words = rng.words(n);
            }
            call.expected = Some(17);
        }
        _ => {
            call.fixed = table_block(rng, &setup);
            match rng.below(4) {
                0 => call.fixed = rng.words(TABLE_WORDS),
                1 => {
                    let at = rng.below(54) as usize;
                    call.fixed[at] = rng.pick(&[0, 1, 2, 3, 4, 15, 16, 255, 256, 0xFFFF_FFFC, u32::MAX]);
                }
                _ => {
                    let at = rng.below(54) as usize;
                    call.fixed[at] ^= 1 << rng.below(32);
                }
            }
        }
    }
    call
}

// ------------------------------------------------------------------------------------------------------------------------------------
// Command calls
// ------------------------------------------------------------------------------------------------------------------------------------

/// A command packet that earns number 9 in any state; if `seen`, by what can be seen without a symbol table, so that the reader gives 9 too.
fn aimed_nine(rng: &mut Rng, setup: &Setup, symbols: &mut Symbols, seen: bool) -> Vec<u8> {
    let unit = setup.unit;
    let transaction = rng.below(4_096) as u32;
    let address = some_address(rng, setup);
    let size = some_size(rng, setup, address);
    let odd = address | rng.between(1, 3) as u32;
    match rng.below(8) {
        0 if seen => dump_command(rng, unit, transaction, size, odd),
        0 => symbols.dump(rng, unit, transaction, size, odd),
        1 => symbols.dump(rng, unit, transaction, 0, address),
        2 => load_command(rng, unit, transaction, size, odd),
        3 => load_command(rng, unit, transaction, wrong_load_size(size), address),
        4 if !seen => {
            let outside = symbols.dump_outside(rng, unit, transaction, size, address & !3);
            outside.unwrap_or_else(|| dump_command(rng, unit, transaction, 0, address))
        }
        5 | 6 => {
            // The table has the name or not.
            let name = match symbols.some_record(rng).filter(|_| !rng.one_in(3)) {
                Some(i) => symbols.records[i].name.clone(),
                None => symbols.unknown_name(rng),
            };
            let mut packet = named_command(rng, unit, transaction, &name);
            break_name_field(rng, &mut packet, seen);
            packet
        }
        _ => {
            let pool = rng.pick(&[2, 3, 255, 256, 257, 32_768, 65_535]);
            pool_command(rng, unit, transaction, pool)
        }
    }
}

/// A command that earns `aim` (0, 9 to 15, or 17 to 19) by its fields, the state and the symbol table, which are changed to suit; and the image.
fn aimed_body(rng: &mut Rng, state: &mut State, symbols: &mut Symbols, aim: u32) -> (Vec<u8>, Vec<u32>) {
    let unit = state.setup.unit;
    let n = state.setup.region_count as usize;
    let mut pool_wanted = (rng.below(2) as usize, None);
    let packet = match aim {
        0 => match rng.below(5) {
            0 => {
                force_idle(rng, state);
                let region = state.setup.regions[force_dump_region(rng, state)];
                let transaction = free_transaction(rng, state);
                let dump = dump_in(rng, &region, transaction);
                symbols.dump(rng, unit, transaction, dump.requested, dump.start.0)
            }
            1 => {
                let (_, dump) = force_busy(rng, state);
                cancel_command(rng, unit, dump.transaction)
            }
            2 => {
                let i = rng.below(n as u64) as usize;
                state.setup.regions[i].load = true;
                let (start, rest) = inside(rng, &state.setup.regions[i]);
                let most = rest.min(11);
                let size = if rng.one_in(2) { most } else { rng.between(1, u64::from(most)) as u32 };
                let start = if rng.one_in(4) { Address(state.setup.regions[i].start.0 + 4 * (state.setup.regions[i].size - size)) } else { start };
                let transaction = rng.below(4_096) as u32;
                load_command(rng, unit, transaction, size, start.0)
            }
            3 => {
                if symbols.records.is_empty() {
                    *symbols = Symbols::of(rng, &state.setup, 1);
                }
                let i = symbols.some_record(rng).unwrap_or(0);
                let transaction = rng.below(4_096) as u32;
                value_command(rng, unit, transaction, &symbols.records[i].name)
            }
            _ => {
                let p = force_pool(rng, state);
                pool_wanted = (p, Some(true));
                let transaction = rng.below(4_096) as u32;
                pool_command(rng, unit, transaction, p as u32)
            }
        },
        9 => aimed_nine(rng, &state.setup, symbols, false),
        10 | 19 => {
            let transaction = match busy_transactions(state) {
                busy if !busy.is_empty() && rng.one_in(3) => rng.pick(&busy),
                _ => rng.below(4_096) as u32,
            };
            if aim == 10 && rng.one_in(5) {
                let p = rng.below(2) as usize;
                state.setup.pools[p] = NO_POOL;
                pool_command(rng, unit, transaction, p as u32)
            } else {
                let load = rng.one_in(2);
                let most = if load { 11 } else { rng.pick(&[1_017, 65_535]) };
                let (address, size) = if aim == 10 { from_a_gap(rng, &state.setup, most) } else { out_of_a_region(rng, &state.setup, most) };
                if load {
                    load_command(rng, unit, transaction, size, address)
                } else {
                    symbols.dump(rng, unit, transaction, size, address)
                }
            }
        }
        11 => {
            let i = rng.below(n as u64) as usize;
            let transaction = rng.below(4_096) as u32;
            let (start, rest) = inside(rng, &state.setup.regions[i]);
            if rng.one_in(2) {
                state.setup.regions[i].load = false;
                let size = rng.between(1, u64::from(rest.min(11))) as u32;
                load_command(rng, unit, transaction, size, start.0)
            } else {
                // The region loses the dump right, and what needed it goes.
                state.setup.regions[i].dump = false;
                for p in 0..2 {
                    if !pool_still_good(&state.setup, p) {
                        state.setup.pools[p] = NO_POOL;
                    }
                }
                for k in 0..4 {
                    if let DumpPlace::Busy(dump) = state.places[k] {
                        if !dumpable(&state.setup, dump.start.0) {
                            state.places[k] = DumpPlace::Idle;
                        }
                    }
                }
                let size = rng.between(1, u64::from(rest.min(65_535))) as u32;
                symbols.dump(rng, unit, transaction, size, start.0)
            }
        }
        12 | 13 => {
            if aim == 13 || rng.one_in(2) {
                force_four_busy(rng, state);
            }
            let (_, busy) = force_busy(rng, state);
            let region = state.setup.regions[force_dump_region(rng, state)];
            let transaction = if aim == 12 { busy.transaction } else { free_transaction(rng, state) };
            let dump = dump_in(rng, &region, transaction);
            symbols.dump(rng, unit, transaction, dump.requested, dump.start.0)
        }
        14 => {
            let transaction = free_transaction(rng, state);
            cancel_command(rng, unit, transaction)
        }
        17 => {
            // Whatever comes after the table may be wrong too.
            let transaction = rng.below(4_096) as u32;
            let name = match symbols.some_record(rng).filter(|_| !rng.one_in(3)) {
                Some(i) => symbols.records[i].name.clone(),
                None => symbols.unknown_name(rng),
            };
            let mut packet = named_command(rng, unit, transaction, &name);
            if rng.one_in(3) {
                break_name_field(rng, &mut packet, true);
            }
            packet
        }
        18 => {
            let name = symbols.unknown_name(rng);
            let transaction = rng.below(4_096) as u32;
            named_command(rng, unit, transaction, &name)
        }
        _ => {
            let p = force_pool(rng, state);
            pool_wanted = (p, Some(false));
            let transaction = rng.below(4_096) as u32;
            pool_command(rng, unit, transaction, p as u32)
        }
    };
    let image = image_for(rng, &state.setup, pool_wanted.0, pool_wanted.1);
    (packet, image)
}

/// An address in no region, and up to `most` words from there: at a gap's first word, which is a region's end or 0, or near its last one, or between;
/// to where a region begins, into it or any.
fn from_a_gap(rng: &mut Rng, setup: &Setup, most: u64) -> (u32, u32) {
    // The gaps by their first words and ends, counted in words. There is one in each table, since no table has all of the memory.
    let mut gaps = vec![];
    let mut end = 0;
    for region in &setup.regions[..setup.region_count as usize] {
        let start = u64::from(region.start.0 / 4);
        gaps.push((end, start));
        end = start + u64::from(region.size);
    }
    gaps.push((end, MEMORY_WORDS));
    gaps.retain(|gap| gap.0 < gap.1);
    let (first, end) = rng.pick(&gaps);
    let at = match rng.below(3) {
        0 => first,
        1 => end - rng.between(1, (most - 1).min(end - first)),
        _ => rng.between(first, end - 1),
    };
    let any = rng.between(1, most);
    let size = rng.pick(&[end - at, end - at + 1, any]).min(most);
    ((4 * at) as u32, size as u32)
}

/// An address in a region, and up to `most` words from there that run out of it. The last region, which may end at 2^32, more often.
fn out_of_a_region(rng: &mut Rng, setup: &Setup, most: u64) -> (u32, u32) {
    let n = setup.region_count as usize;
    let region = setup.regions[if rng.one_in(4) { n - 1 } else { rng.below(n as u64) as usize }];
    let within = rng.between(1, (most - 1).min(u64::from(region.size)));
    let size = if rng.one_in(2) { within + 1 } else { rng.between(within + 1, most) };
    (region.start.0 + 4 * (region.size - within as u32), size as u32)
}

/// 0 or over 11, spread by the given size.
fn wrong_load_size(size: u32) -> u32 {
    if size % 2 == 0 {
        0
    } else {
        [12, 13, 16, 27, 255, 256, 257, 267, 32_768, 65_535][size as usize / 2 % 10]
    }
}

fn dumpable(setup: &Setup, address: u32) -> bool {
    setup.regions[..setup.region_count as usize].iter().any(|region| {
        region.dump && address >= region.start.0 && u64::from(address) < u64::from(region.start.0) + 4 * u64::from(region.size)
    })
}

fn pool_still_good(setup: &Setup, p: usize) -> bool {
    setup.pools[p].size == 0 || dumpable(setup, setup.pools[p].start.0)
}

fn buffer_length(rng: &mut Rng, need: usize) -> usize {
    match rng.below(3) {
        0 => need,
        1 => need + 1,
        _ => need + rng.below(70) as usize,
    }
}

fn short_length(rng: &mut Rng, need: usize) -> usize {
    match rng.below(4) {
        0 | 1 => need - 1,
        2 => 0,
        _ => rng.below(need as u64) as usize,
    }
}

fn is_by_name(packet: &[u8]) -> bool {
    packet[6] == 8 || packet[6] == 9
}

/// A command call that must earn `aim`: that fault is in it, and some of the faults that come after it in the order of tests.
pub fn aimed_command(rng: &mut Rng, aim: u32) -> Call {
    let mut call = Call::new(Kind::Command, rng);
    let scale = scale(rng);
    let mut state = good_state(rng, scale);
    let inner = if aim == 0 || aim >= 9 { aim } else { rng.pick(&[0, 0, 9, 10, 11, 12, 13, 14, 15, 17, 18, 19]) };
    let mut symbols = Symbols::good(rng, &state.setup);
    let (packet, image) = aimed_body(rng, &mut state, &mut symbols, inner);
    call.packet = packet;
    call.image = image;
    (call.symbols, call.table) = match (inner, is_by_name(&call.packet)) {
        (17, _) => symbols.broken(rng),
        (_, true) => (symbols.bytes(), symbols.kind()),
        (_, false) => symbols.anything(rng),
    };
    // Faults above the aim come in addition, one in six each.
    let mut has = |number: u32| aim == number || (aim != 0 && number > aim && rng.one_in(6));
    let faults: Vec<u32> = (1..=8).filter(|&number| has(number)).collect();
    // A command that is refused before the table does not look at it.
    if (1..=8).contains(&aim) && rng.one_in(4) {
        (call.symbols, call.table) = symbols.anything(rng);
    }
    let p = &mut call.packet;
    if faults.contains(&8) {
        p[8] ^= (rng.between(1, 15) << 4) as u8;
        mend_check(p);
    }
    if faults.contains(&7) {
        break_packet_length(rng, p);
    }
    if faults.contains(&6) {
        p[6] = other_code(rng);
        mend_check(p);
    }
    if faults.contains(&5) {
        break_apid(rng, p, 1604, true);
    }
    if faults.contains(&4) {
        break_command_header(rng, p);
    }
    let n = if faults.contains(&3) { short_length(rng, 32) } else { buffer_length(rng, 32) };
    call.buffer = rng.bytes(n);
    if faults.contains(&2) {
        wrong_length(rng, &mut call.image);
    }
    call.words = if faults.contains(&1) { break_state(rng, &state) } else { state_block(rng, &state) };
    call.expected = Some(aim);
    call
}

/// A command call of random parts, each damaged or not.
pub fn free_command(rng: &mut Rng) -> Call {
    let mut call = Call::new(Kind::Command, rng);
    let scale = scale(rng);
    let state = good_state(rng, scale);
    let symbols = Symbols::good(rng, &state.setup);
    call.packet = some_command(rng, &state, &symbols);
    if rng.one_in(3) {
        damage_packet(rng, &mut call.packet, true);
    }
    (call.symbols, call.table) = match rng.below(4) {
        0 => symbols.disturbed(rng),
        1 if rng.one_in(3) => symbols.broken(rng),
        _ => (symbols.bytes(), symbols.kind()),
    };
    let last = rng.below(2) as usize;
    call.image = image_for(rng, &state.setup, last, None);
    if rng.one_in(20) {
        wrong_length(rng, &mut call.image);
    }
    let n = if rng.one_in(20) { short_length(rng, 32) } else { buffer_length(rng, 32) };
    call.buffer = rng.bytes(n);
    call.words = state_block(rng, &state);
    if rng.one_in(4) {
        disturb_block(rng, &mut call.words);
    }
    call
}

// ------------------------------------------------------------------------------------------------------------------------------------
// Batches
// ------------------------------------------------------------------------------------------------------------------------------------

pub enum Spot {
    /// On bytes of its own.
    Own,
    /// On the bytes of an earlier item, from so far on.
    On(usize, usize),
    /// Leaves the buffer.
    Beyond,
}

pub struct Item {
    pub packet: Vec<u8>,
    pub spot: Spot,
    /// The number that the maker knows, in a good state with its image.
    pub expected: Option<u32>,
}

/// A start and a length that leave a buffer of so many bytes; `tail` is where its last item begins.
fn beyond(rng: &mut Rng, bytes: u32, tail: u32) -> (u32, u32) {
    let near = bytes.saturating_sub(rng.below(70) as u32);
    match rng.below(8) {
        // The last item and one to three bytes more.
        0 | 1 => (tail, bytes - tail + rng.between(1, 3) as u32),
        2 => (near, bytes - near + 1),
        3 => (bytes, rng.between(1, 60) as u32),
        4 => (bytes + rng.between(1, 100) as u32, rng.below(61) as u32),
        5 => (u32::MAX, rng.below(70) as u32),
        // Modulo 2^32 the end is that of a packet at the buffer's beginning, or near it.
        6 => {
            let back = rng.between(1, 100) as u32;
            (back.wrapping_neg(), back + rng.pick(&[0, 1, 10, 12, 16, 60, 68]))
        }
        // A length near 2^32: the end is at 2^32, one before it, or past it.
        _ => {
            let start = rng.between(1, 100) as u32;
            (start, rng.pick(&[start.wrapping_neg(), start.wrapping_neg() - 1, u32::MAX, 0x8000_0000]))
        }
    }
}

/// Puts the items into the call: those on bytes of their own in any order, with gaps or none between them.
pub fn lay_out(rng: &mut Rng, call: &mut Call, items: &[Item]) {
    let n = items.len();
    let mut order: Vec<usize> = (0..n).filter(|&i| matches!(items[i].spot, Spot::Own)).collect();
    if rng.one_in(2) {
        for i in 1..order.len() {
            order.swap(i, rng.below(i as u64 + 1) as usize);
        }
    }
    call.starts = vec![0; n];
    call.lengths = items.iter().map(|item| item.packet.len() as u32).collect();
    let gaps = rng.one_in(2);
    let mut tail = 0;
    for &i in &order {
        if gaps {
            let gap = rng.below(6) as usize;
            let gap = rng.bytes(gap);
            call.packet.extend_from_slice(&gap);
        }
        tail = call.packet.len() as u32;
        call.starts[i] = tail;
        call.packet.extend_from_slice(&items[i].packet);
    }
    if rng.one_in(3) {
        let more = rng.below(20) as usize;
        let more = rng.bytes(more);
        call.packet.extend_from_slice(&more);
    }
    for (i, item) in items.iter().enumerate() {
        match item.spot {
            Spot::Own => {}
            Spot::On(other, from) => call.starts[i] = call.starts[other] + from as u32,
            Spot::Beyond => (call.starts[i], call.lengths[i]) = beyond(rng, call.packet.len() as u32, tail),
        }
        // An empty item may begin anywhere.
        if item.packet.is_empty() && matches!(item.spot, Spot::Own) {
            call.starts[i] = rng.pick(&[0, call.packet.len() as u32, call.packet.len() as u32 + 1, u32::MAX]);
        }
    }
    call.expected_items = items.iter().map(|item| item.expected).collect();
    call.answers = (0..n).map(|_| Answer { number: rng.word(), length: rng.word() }).collect();
    call.buffer = rng.bytes(32 * n);
}

/// A header fault of one of the numbers 4 to 8.
fn break_header(rng: &mut Rng, packet: &mut Vec<u8>) -> u32 {
    let number = rng.between(4, 8) as u32;
    match number {
        4 => break_command_header(rng, packet),
        5 => break_apid(rng, packet, 1604, true),
        6 => {
            packet[6] = other_code(rng);
            mend_check(packet);
        }
        7 => break_packet_length(rng, packet),
        _ => {
            packet[8] ^= (rng.between(1, 15) << 4) as u8;
            mend_check(packet);
        }
    }
    number
}

/// Items for a state, which follows the dumps and cancels among them for as long as each one's answer is known. `table` says that the symbols are
/// lent as they are, not broken.
fn some_items(rng: &mut Rng, state: &State, symbols: &Symbols, table: bool, n: usize) -> Vec<Item> {
    let mut state = state.clone();
    let unit = state.setup.unit;
    let mut known = true;
    let mut items: Vec<Item> = vec![];
    let dump_able = with_dump_right(&state.setup);
    let load_able: Vec<usize> = (0..state.setup.region_count as usize).filter(|&i| state.setup.regions[i].load).collect();
    while items.len() < n {
        let busy = busy_transactions(&state);
        let own = |packet, expected| Item { packet, spot: Spot::Own, expected };
        let item = match rng.below(22) {
            0..=3 if !dump_able.is_empty() => {
                let region = state.setup.regions[rng.pick(&dump_able)];
                let again = !busy.is_empty() && rng.one_in(4);
                let transaction = if again { rng.pick(&busy) } else { free_transaction(rng, &state) };
                let dump = Dump { sent: 0, ..dump_in(rng, &region, transaction) };
                let idle = state.places.iter().position(|place| *place == DumpPlace::Idle);
                let by_name = symbols.reach(rng, dump.start.0).filter(|_| rng.one_in(2));
                let number = match idle {
                    _ if by_name.is_some() && !table => 17,
                    _ if again => 12,
                    None => 13,
                    Some(i) => {
                        state.places[i] = DumpPlace::Busy(dump);
                        0
                    }
                };
                let packet = match by_name {
                    None => dump_command(rng, unit, transaction, dump.requested, dump.start.0),
                    Some((i, offset)) => by_name_command(rng, unit, transaction, &symbols.records[i].name, offset, dump.requested),
                };
                own(packet, (known || number == 17).then_some(number))
            }
            4..=6 => {
                let found = !busy.is_empty() && !rng.one_in(4);
                let transaction = if found { rng.pick(&busy) } else { free_transaction(rng, &state) };
                for place in state.places.iter_mut() {
                    if matches!(place, DumpPlace::Busy(dump) if dump.transaction == transaction) {
                        *place = DumpPlace::Idle;
                    }
                }
                own(cancel_command(rng, unit, transaction), known.then_some(if found { 0 } else { 14 }))
            }
            7..=9 if !load_able.is_empty() => {
                let region = state.setup.regions[rng.pick(&load_able)];
                let (start, rest) = inside(rng, &region);
                let size = rng.between(1, u64::from(rest.min(11))) as u32;
                let transaction = rng.below(4_096) as u32;
                let mut packet = load_command(rng, unit, transaction, size, start.0);
                if rng.one_in(3) && items.len() + 1 < n {
                    // A whole packet in the load's data, which is the next item.
                    let from = rng.between(16, 44) as usize;
                    let transaction = free_transaction(rng, &state);
                    let inner = cancel_command(rng, unit, transaction);
                    packet[from..from + inner.len()].copy_from_slice(&inner);
                    mend_check(&mut packet);
                    items.push(own(packet, Some(0)));
                    Item { packet: inner, spot: Spot::On(items.len() - 1, from), expected: known.then_some(14) }
                } else {
                    own(packet, Some(0))
                }
            }
            10 | 11 => {
                let p = rng.below(2) as usize;
                let transaction = rng.below(4_096) as u32;
                let none = state.setup.pools[p].size == 0;
                own(pool_command(rng, unit, transaction, p as u32), none.then_some(10))
            }
            12 => {
                let mut packet = some_command(rng, &state, symbols);
                if packet[8] >> 4 != unit as u8 {
                    packet[8] = (unit << 4) as u8 | packet[8] & 15;
                    mend_check(&mut packet);
                }
                let number = break_header(rng, &mut packet);
                own(packet, Some(number))
            }
            13 | 14 => Item { packet: vec![], spot: Spot::Beyond, expected: Some(4) },
            15 => own(vec![], Some(4)),
            16 if !items.is_empty() => {
                // An earlier one's bytes again, all or a part of them.
                let other = rng.below(items.len() as u64) as usize;
                if !matches!(items[other].spot, Spot::Own) {
                    continue;
                }
                known = false;
                let bytes = items[other].packet.len();
                let from = if rng.one_in(2) { 0 } else { rng.below(bytes as u64 + 1) as usize };
                let to = if rng.one_in(2) { bytes } else { rng.between(from as u64, bytes as u64) as usize };
                let packet = items[other].packet[from..to].to_vec();
                if packet.is_empty() {
                    continue;
                }
                Item { packet, spot: Spot::On(other, from), expected: None }
            }
            18..=20 => {
                let transaction = rng.below(4_096) as u32;
                let found = symbols.some_record(rng).filter(|_| !rng.one_in(4));
                let mut packet = match found {
                    Some(i) => value_command(rng, unit, transaction, &symbols.records[i].name),
                    None => {
                        let name = symbols.unknown_name(rng);
                        named_command(rng, unit, transaction, &name)
                    }
                };
                let wrong = rng.one_in(8);
                if wrong {
                    break_name_field(rng, &mut packet, false);
                }
                let number = match found {
                    _ if !table => 17,
                    _ if wrong => 9,
                    None => 18,
                    Some(_) => 0,
                };
                own(packet, Some(number))
            }
            _ => {
                known = false;
                let mut packet = some_command(rng, &state, symbols);
                if rng.one_in(3) {
                    damage_packet(rng, &mut packet, true);
                }
                own(packet, None)
            }
        };
        items.push(item);
    }
    items
}

fn item_count(rng: &mut Rng) -> usize {
    match rng.below(8) {
        0 => 64,
        1 => rng.pick(&[0, 1, 62, 63]),
        2..=5 => rng.between(1, 9) as usize,
        _ => rng.below(65) as usize,
    }
}

/// More records and reply bytes than the items need.
fn spare(rng: &mut Rng, call: &mut Call) {
    for _ in 0..rng.pick(&[0, 0, 1, 2, 5, 64]) {
        call.answers.push(Answer { number: rng.word(), length: rng.word() });
    }
    let more = rng.pick(&[0, 0, 1, 31, 32, 33, 70]);
    let more = rng.bytes(more);
    call.buffer.extend_from_slice(&more);
}

/// A batch call: aim 0, items of all kinds; 1 or 2, which each item gets; 3, which the call gets.
pub fn aimed_batch(rng: &mut Rng, aim: u32) -> Call {
    let mut call = Call::new(Kind::Batch, rng);
    let scale = scale(rng);
    let state = good_state(rng, scale);
    let way = rng.below(6);
    let n = match (aim, way) {
        (3, 0 | 1) => rng.between(65, 66) as usize,
        (3, 4 | 5) => item_count(rng).max(1),
        _ => item_count(rng),
    };
    let symbols = Symbols::good(rng, &state.setup);
    let table = !rng.one_in(6);
    let items = some_items(rng, &state, &symbols, table, n);
    lay_out(rng, &mut call, &items);
    spare(rng, &mut call);
    (call.symbols, call.table) = if table { (symbols.bytes(), symbols.kind()) } else { symbols.broken(rng) };
    let last = rng.below(2) as usize;
    call.image = image_for(rng, &state.setup, last, None);
    call.words = state_block(rng, &state);
    if aim == 3 {
        match way {
            0 | 1 => {}
            2 => {
                let list = if rng.one_in(2) { &mut call.starts } else { &mut call.lengths };
                if list.is_empty() || rng.one_in(2) {
                    list.push(0);
                } else {
                    list.pop();
                }
            }
            3 => {
                // One list is empty, or has far more.
                let list = if rng.one_in(2) { &mut call.starts } else { &mut call.lengths };
                let to = if list.is_empty() || rng.one_in(2) { n + 64 } else { 0 };
                list.resize(to, 0);
            }
            4 => call.answers.truncate(if rng.one_in(3) { rng.below(n as u64) as usize } else { n - 1 }),
            _ => call.buffer.truncate(if rng.one_in(3) { rng.below(32 * n as u64) as usize } else { 32 * n - 1 }),
        }
    }
    if aim == 2 || (aim != 0 && rng.one_in(4)) {
        wrong_length(rng, &mut call.image);
    }
    if aim == 1 || (aim == 3 && rng.one_in(3)) {
        call.words = break_state(rng, &state);
    }
    match aim {
        0 => {}
        3 => call.expected_items = vec![],
        _ => call.expected_items = vec![Some(aim); n],
    }
    call.expected = Some(if aim == 3 { 3 } else { 0 });
    call
}

/// A batch call of random parts, each damaged or not.
pub fn free_batch(rng: &mut Rng) -> Call {
    let mut call = aimed_batch(rng, 0);
    call.expected = None;
    call.expected_items = vec![];
    for _ in 0..rng.below(3) {
        let n = call.starts.len();
        match rng.below(7) {
            0 => disturb_block(rng, &mut call.words),
            1 if rng.one_in(3) && !call.image.is_empty() => wrong_length(rng, &mut call.image),
            2 if n > 0 => {
                let at = rng.below(n as u64) as usize;
                call.starts[at] = call.starts[at].wrapping_add(rng.pick(&[1, 2, u32::MAX, 0x8000_0000, 60]));
            }
            3 if n > 0 => {
                let at = rng.below(n as u64) as usize;
                call.lengths[at] = call.lengths[at].wrapping_add(rng.pick(&[1, 2, u32::MAX, 0x8000_0000, 4]));
            }
            4 if !call.packet.is_empty() => {
                let at = rng.below(call.packet.len() as u64) as usize;
                call.packet[at] ^= 1 << rng.below(8);
            }
            5 if !call.symbols.is_empty() => {
                let at = rng.below(call.symbols.len() as u64) as usize;
                call.symbols[at] ^= 1 << rng.below(8);
                call.table = DISTURBED;
            }
            _ => {
                // The buffer ends before some of the items.
                let to = rng.below(call.packet.len() as u64 + 1) as usize;
                call.packet.truncate(if rng.one_in(2) { to } else { call.packet.len().saturating_sub(1) });
            }
        }
    }
    call
}

// ------------------------------------------------------------------------------------------------------------------------------------
// Slot calls
// ------------------------------------------------------------------------------------------------------------------------------------

pub fn aimed_slot(rng: &mut Rng, aim: u32) -> Call {
    let mut call = Call::new(Kind::Slot, rng);
    let scale = scale(rng);
    let mut state = good_state(rng, scale);
    if aim == 16 || (aim != 0 && rng.one_in(6)) {
        state.places = [DumpPlace::Idle; 4];
    } else {
        force_busy(rng, &mut state);
        if rng.one_in(3) {
            force_four_busy(rng, &mut state);
        }
    }
    call.tick = tick(rng);
    call.image = image_for(rng, &state.setup, 0, None);
    let mut has = |number: u32| aim == number || (aim != 0 && number > aim && rng.one_in(6));
    let faults: Vec<u32> = (1..=3).filter(|&number| has(number)).collect();
    let n = if faults.contains(&3) { short_length(rng, 4_092) } else { buffer_length(rng, 4_092) };
    call.buffer = rng.bytes(n);
    if faults.contains(&2) {
        wrong_length(rng, &mut call.image);
    }
    call.words = if faults.contains(&1) { break_state(rng, &state) } else { state_block(rng, &state) };
    call.expected = Some(aim);
    call
}

pub fn tick(rng: &mut Rng) -> u32 {
    if rng.one_in(4) {
        rng.pick(&[0, 1, 0x7FFF_FFFF, 0x8000_0000, u32::MAX])
    } else {
        rng.word()
    }
}

pub fn free_slot(rng: &mut Rng) -> Call {
    let mut call = aimed_slot(rng, 0);
    call.expected = None;
    disturb_block(rng, &mut call.words);
    call
}

// ------------------------------------------------------------------------------------------------------------------------------------
// Ground calls
// ------------------------------------------------------------------------------------------------------------------------------------

/// Command writer: aims 0, 3 (buffer), 6, 9 and 33 (3 by the block's length).
pub fn write_call(rng: &mut Rng, aim: u32) -> Call {
    let mut call = Call::new(Kind::WriteCommand, rng);
    let code = rng.pick(&[0, 1, 4, 7, 8, 8, 9, 9]);
    let mut block = rng.words(COMMAND_WORDS); // unused words are random: they are not read
    block[0] = code;
    block[1] = count(rng, 16_383);
    block[2] = rng.below(16) as u32;
    block[3] = count(rng, 4_095);
    let need = match code {
        0 => {
            block[4] = rng.pick(&[1, 2, 11, 12, 1_016, 1_017, 65_534, 65_535, 256, 4_660]);
            block[5] = rng.word() & !3;
            if rng.one_in(4) {
                block[5] = rng.pick(&[0, 4, 0xFFFF_FFFC]);
            }
            16
        }
        1 => 10,
        4 => {
            block[4] = rng.between(1, 11) as u32;
            block[5] = rng.word() & !3;
            60
        }
        8 | 9 => {
            let any = rng.between(1, 48) as u32;
            block[19] = rng.pick(&[1, 2, 3, 4, 5, 47, 48, any]);
            if code == 8 {
                60
            } else {
                block[4] = rng.pick(&[1, 2, 11, 12, 1_016, 1_017, 65_534, 65_535, 256, 4_660]);
                block[20] = some_offset(rng) as u32;
                68
            }
        }
        _ => {
            block[6] = rng.below(2) as u32;
            12
        }
    };
    let nine = aim == 9 || (aim != 0 && aim != 9 && rng.one_in(3));
    if nine {
        let way = rng.below(if code == 1 { 3 } else { 6 });
        match way {
            0 => block[1] = rng.pick(&[16_384, 16_385, 65_535, 65_536, u32::MAX]),
            1 => block[2] = rng.pick(&[16, 17, 255, 256, 65_536, u32::MAX]),
            2 => block[3] = rng.pick(&[4_096, 4_097, 65_535, 65_536, u32::MAX]),
            _ => match code {
                0 => match rng.below(2) {
                    0 => block[4] = rng.pick(&[0, 65_536, 65_537, 0x8000_0001, u32::MAX]),
                    _ => block[5] |= rng.between(1, 3) as u32,
                },
                4 => match rng.below(2) {
                    0 => block[4] = rng.pick(&[0, 12, 13, 255, 256, 267, 65_535, 65_536, 65_537, 65_547, u32::MAX]),
                    _ => block[5] |= rng.between(1, 3) as u32,
                },
                9 if rng.one_in(2) => block[4] = rng.pick(&[0, 0, 65_536, 65_537, 0x8000_0001, u32::MAX]),
                8 | 9 => block[19] = rng.pick(&[0, 0, 49, 49, 50, 255, 256, 257, 304, 65_537, 0x8000_0001, u32::MAX]),
                _ => block[6] = rng.pick(&[2, 3, 255, 256, 65_535, 65_536, 65_537, u32::MAX]),
            },
        }
    }
    let short = aim == 3 || (aim > 3 && aim != 9 && rng.one_in(3));
    let n = if short { short_length(rng, need) } else { buffer_length(rng, need) };
    call.buffer = rng.bytes(n);
    if aim == 6 || (aim == 33 && rng.one_in(3)) {
        block[0] = rng.pick(&[2, 3, 5, 6, 10, 11, 127, 128, 132, 136, 255, 256, 257, 260, 263, 264, 265, 65_536, 0x8000_0000, u32::MAX]);
    }
    call.fixed = block;
    if aim == 33 {
        let n = rng.pick(&[0, 1, 7, 18, 20, 22, 42]);
        let more = rng.words(n);
        call.fixed.extend_from_slice(&more);
        call.fixed.truncate(n);
    }
    call.expected = Some(if aim == 33 { 3 } else { aim });
    call
}

fn reader_block(rng: &mut Rng, right: usize, wrong: bool) -> Vec<u32> {
    let n = if wrong { rng.pick(&[0, 1, right - 1, right + 1, 2 * right]) } else { right };
    rng.words(n)
}

/// Command reader: aims 0, 3 to 7 and 9, or none (99).
pub fn read_command_call(rng: &mut Rng, aim: u32) -> Call {
    let mut call = Call::new(Kind::ReadCommand, rng);
    if aim == 99 {
        let state = good_state(rng, Scale::Small);
        let symbols = Symbols::of(rng, &state.setup, 4);
        call.packet = some_command(rng, &state, &symbols);
        damage_packet(rng, &mut call.packet, true);
        let wrong = rng.one_in(30);
        call.words = reader_block(rng, COMMAND_WORDS, wrong);
        return call;
    }
    let mut state = good_state(rng, Scale::Small);
    let inner = if aim == 9 || (aim != 0 && rng.one_in(3)) { 9 } else { rng.pick(&[0, 10, 11, 12, 13, 14, 15, 19]) };
    let mut symbols = Symbols::of(rng, &state.setup, 4);
    call.packet = match inner {
        9 => aimed_nine(rng, &state.setup, &mut symbols, true),
        _ => aimed_body(rng, &mut state, &mut symbols, inner).0,
    };
    let mut has = |number: u32| aim == number || (aim != 0 && number > aim && rng.one_in(4));
    let faults: Vec<u32> = (3..=7).filter(|&number| has(number)).collect();
    let p = &mut call.packet;
    if faults.contains(&7) {
        break_packet_length(rng, p);
    }
    if faults.contains(&6) {
        p[6] = other_code(rng);
        mend_check(p);
    }
    if faults.contains(&5) {
        break_apid(rng, p, 1604, true);
    }
    if faults.contains(&4) {
        break_command_header(rng, p);
    }
    call.words = reader_block(rng, COMMAND_WORDS, faults.contains(&3));
    call.expected = Some(aim);
    call
}

/// The fields of a dump packet, as eight numbers: count, unit, transaction, tick, address, words, data address, data words.
pub fn raw_dump_packet(rng: &mut Rng, f: &[u32; 8], bytes: usize) -> Vec<u8> {
    let mut packet = vec![0x03, 0x14, 0xC0 | (f[0] >> 8) as u8, f[0] as u8, 0, 0];
    packet.extend_from_slice(&((f[1] << 12 | f[2]) as u16).to_be_bytes());
    for field in &f[3..8] {
        packet.extend_from_slice(&field.to_be_bytes());
    }
    let data = rng.bytes(bytes);
    packet.extend_from_slice(&data);
    mend_length(&mut packet);
    packet
}

/// Fields of a packet that a slot could write.
fn cut_fields(rng: &mut Rng) -> [u32; 8] {
    let words = match rng.below(3) {
        0 => rng.pick(&[1, 2, 1_015, 1_016, 1_017, 2_032, 2_033, 65_534, 65_535, 65_024, 65_025]),
        1 => rng.between(1, 3_000) as u32,
        _ => rng.between(1, 65_535) as u32,
    };
    let top = (1u64 << 32) - 4 * u64::from(words);
    let address = match rng.below(4) {
        0 => top as u32, // ends at 2^32
        1 => 0,
        _ => (4 * rng.below(top / 4 + 1)) as u32,
    };
    let cuts = words.div_ceil(1_016);
    let j = match rng.below(3) {
        0 => cuts - 1,
        1 => 0,
        _ => rng.below(u64::from(cuts)) as u32,
    };
    let sent = 1_016 * j;
    let data_words = 1_016.min(words - sent);
    [count(rng, 16_383), rng.below(16) as u32, count(rng, 4_095), tick(rng), address, words, address + 4 * sent, data_words]
}

/// Dump packet reader: aims 0, 3, 4, 5, 7 and 9, or none (99).
pub fn read_packet_call(rng: &mut Rng, aim: u32, from_slot: Option<Vec<u8>>) -> Call {
    let mut call = Call::new(Kind::ReadPacket, rng);
    let mut f = cut_fields(rng);
    if aim == 99 {
        call.packet = match from_slot {
            Some(packet) => packet,
            None => {
                let bytes = 4 * f[7] as usize;
                raw_dump_packet(rng, &f, bytes)
            }
        };
        damage_packet(rng, &mut call.packet, false);
        let wrong = rng.one_in(30);
        call.words = reader_block(rng, PACKET_WORDS, wrong);
        return call;
    }
    if aim == 9 {
        match rng.below(8) {
            0 => f[4] |= rng.between(1, 3) as u32, // requested address
            1 => {
                // Both addresses moved alike: only the alignment is wrong.
                let by = rng.between(1, 3) as u32;
                f[4] |= by;
                f[6] |= by;
            }
            2 => f[5] = 0,
            3 => {
                // Over 65,535 words: the last cut, or an early one, of a request that is too large.
                f[5] = rng.pick(&[65_536, 65_537, 66_040, 0x0001_0001, 1_048_576, u32::MAX]);
                f[4] = rng.pick(&[0, 4, 0x1000]);
                f[6] = f[4];
                f[7] = 1_016;
            }
            4 => {
                // One word past 2^32.
                f[5] = rng.between(2, 65_535) as u32;
                f[4] = ((1u64 << 32) - 4 * u64::from(f[5]) + 4) as u32;
                f[6] = f[4];
                f[7] = f[5].min(1_016);
            }
            5 => f[6] = f[6].wrapping_add(rng.pick(&[1, 2, 4, 4_060, u32::MAX, u32::MAX - 3])),
            6 => {
                // A cut before the first or after the last.
                let cuts = f[5].div_ceil(1_016);
                f[6] = if rng.one_in(2) { f[4].wrapping_sub(4_064) } else { f[4].wrapping_add(4_064 * cuts) };
                f[7] = rng.pick(&[1, 1_016, f[7]]);
            }
            _ => {
                // Words not those of the cut.
                let right = f[7];
                while f[7] == right {
                    f[7] = rng.pick(&[1, 2, 1_015, 1_016, right.saturating_sub(1).max(1), (right + 1).min(1_016)]);
                }
            }
        }
    }
    let mut bytes = 4 * f[7] as usize;
    let mut has = |number: u32| aim == number || (aim != 0 && number > aim && rng.one_in(4));
    let faults: Vec<u32> = [3, 4, 5, 7].into_iter().filter(|&number| has(number)).collect();
    if faults.contains(&7) {
        match rng.below(5) {
            0 => {
                f[7] = 0;
                bytes = rng.pick(&[0, 4]);
            }
            1 => {
                // 1,017 words and their bytes.
                f[7] = rng.pick(&[1_017, 1_018, 2_032]);
                bytes = 4 * f[7] as usize;
            }
            2 => {
                bytes = match rng.below(4) {
                    0 => bytes - 1,
                    1 => bytes + 1,
                    2 => bytes + 4,
                    _ => bytes - 4,
                }
            }
            3 => f[7] = rng.pick(&[0x4000_0000 + f[7], 0x8000_0000 + f[7], 65_536 + f[7], u32::MAX]), // right modulo something
            _ => {
                let right = bytes;
                while bytes == right {
                    bytes = rng.below(4_070) as usize;
                }
            }
        }
    }
    call.packet = raw_dump_packet(rng, &f, bytes);
    let p = &mut call.packet;
    if faults.contains(&5) {
        break_apid(rng, p, 788, false);
    }
    if faults.contains(&4) {
        match rng.below(8) {
            0 => {
                let to = rng.below(28) as usize;
                p.truncate(to);
                mend_length(p);
            }
            1 => {
                let to = rng.pick(&[27, 27, 27, 7, 6, 5]);
                p.truncate(to);
                mend_length(p);
            }
            2 => p[0] ^= (rng.between(1, 7) << 5) as u8,
            3 => p[0] ^= 0x10,
            4 => p[0] ^= 0x08,
            5 => p[2] ^= (rng.between(1, 3) << 6) as u8,
            6 => {
                let right = u16::from_be_bytes([p[4], p[5]]);
                let wrong = right.wrapping_add(rng.pick(&[1, 7, 256, 65_535, 65_529]));
                p[4..6].copy_from_slice(&wrong.to_be_bytes());
            }
            _ => {
                let n = if rng.one_in(10) { 65_536 } else { rng.between(1, 8) as usize };
                let more = rng.bytes(n);
                p.extend_from_slice(&more);
            }
        }
    }
    call.words = reader_block(rng, PACKET_WORDS, faults.contains(&3));
    call.expected = Some(aim);
    call
}

