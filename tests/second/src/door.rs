//! The door: the C functions of leatgarnet.h, safe wrappers around them, and the packing of the model's types into the header's blocks.
//!
//! Three parts:
//!  * packing and unpacking (always);
//!  * `by_model`: each C function's answer as the model gives it, on the header's blocks (always);
//!  * `start_up`, `command`, ... : the safe wrappers of the C functions (with feature `door` or `self`).

use crate::model::*;

pub const STATE_WORDS: usize = 80;
pub const TABLE_WORDS: usize = 54;
pub const COMMAND_WORDS: usize = 21;
pub const PACKET_WORDS: usize = 8;

/// `struct lg_answer`.
#[repr(C)]
#[derive(Clone, Copy, PartialEq, Eq, Debug)]
pub struct Answer {
    pub number: u32,
    pub length: u32,
}

// ------------------------------------------------------------------------------------------------------------------------------------
// Packing
// ------------------------------------------------------------------------------------------------------------------------------------

fn pack_region(region: &Region) -> [u32; 3] {
    [region.start.0, region.size, u32::from(region.load) + 2 * u32::from(region.dump)]
}

fn unpack_region(words: &[u32]) -> Option<Region> {
    if words[2] > 3 {
        return None;
    }
    Some(Region { start: Address(words[0]), size: words[1], load: words[2] % 2 == 1, dump: words[2] / 2 == 1 })
}

/// An entry that is not in use may hold anything, and counts as none.
fn unpack_regions(words: &[u32], in_use: u32) -> Option<[Region; REGIONS_MOST]> {
    let mut regions = [NO_REGION; REGIONS_MOST];
    for (i, region) in regions.iter_mut().enumerate().take(in_use as usize) {
        *region = unpack_region(&words[3 * i..3 * i + 3])?;
    }
    Some(regions)
}

fn pack_place(place: &DumpPlace) -> [u32; 5] {
    match place {
        DumpPlace::Idle => [0; 5],
        DumpPlace::Busy(dump) => [1, dump.transaction, dump.start.0, dump.requested, dump.sent],
    }
}

fn unpack_place(words: &[u32]) -> Option<DumpPlace> {
    match words[0] {
        0 => (words[1..5] == [0; 4]).then_some(DumpPlace::Idle),
        1 => (words[1] <= 65_535).then_some(DumpPlace::Busy(Dump {
            transaction: words[1],
            start: Address(words[2]),
            requested: words[3],
            sent: words[4],
        })),
        _ => None,
    }
}

pub fn pack_state(state: &State) -> [u32; STATE_WORDS] {
    let mut block = [0; STATE_WORDS];
    block[0] = state.setup.region_count;
    for (i, region) in state.setup.regions.iter().enumerate() {
        block[1 + 3 * i..4 + 3 * i].copy_from_slice(&pack_region(region));
    }
    for (i, pool) in state.setup.pools.iter().enumerate() {
        block[49 + 2 * i] = pool.start.0;
        block[50 + 2 * i] = pool.size;
    }
    block[53] = state.setup.unit;
    for (i, place) in state.places.iter().enumerate() {
        block[54 + 5 * i..59 + 5 * i].copy_from_slice(&pack_place(place));
    }
    block[74] = state.last;
    block[75] = state.count_785;
    block[76] = state.count_788;
    block[77] = state.accepted;
    block[78] = state.refused;
    block[79] = state.count_786;
    block
}

/// None: a block of another length, or with a word that its field cannot hold, which is answered 1.
pub fn unpack_state(block: &[u32]) -> Option<State> {
    if block.len() != STATE_WORDS {
        return None;
    }
    if block[53] > 255 || block[74] > 255 {
        return None;
    }
    if block[75..80].iter().any(|&count| count > 65_535) {
        return None;
    }
    let mut places = [DumpPlace::Idle; 4];
    for (i, place) in places.iter_mut().enumerate() {
        *place = unpack_place(&block[54 + 5 * i..59 + 5 * i])?;
    }
    Some(State {
        setup: Setup {
            region_count: block[0],
            regions: unpack_regions(&block[1..49], block[0])?,
            pools: [Pool { start: Address(block[49]), size: block[50] }, Pool { start: Address(block[51]), size: block[52] }],
            unit: block[53],
        },
        places,
        last: block[74],
        count_785: block[75],
        count_786: block[79],
        count_788: block[76],
        accepted: block[77],
        refused: block[78],
    })
}

/// The block of the state after a call: the words of entries that are not in use stay.
fn put_back(block: &mut [u32], after: &State) {
    let unused = 1 + 3 * (after.setup.region_count as usize).min(REGIONS_MOST)..49;
    for (i, (word, packed)) in block.iter_mut().zip(pack_state(after)).enumerate() {
        if !unused.contains(&i) {
            *word = packed;
        }
    }
}

pub fn pack_setup(setup: &Setup) -> [u32; TABLE_WORDS] {
    let mut block = [0; TABLE_WORDS];
    block[0] = setup.unit;
    block[1] = setup.region_count;
    for (i, pool) in setup.pools.iter().enumerate() {
        block[2 + 2 * i] = pool.start.0;
        block[3 + 2 * i] = pool.size;
    }
    for (i, region) in setup.regions.iter().enumerate() {
        block[6 + 3 * i..9 + 3 * i].copy_from_slice(&pack_region(region));
    }
    block
}

/// None: another length, or a word out of its bounds.
fn unpack_setup(block: &[u32]) -> Option<Setup> {
    if block.len() != TABLE_WORDS || block[0] > 255 {
        return None;
    }
    Some(Setup {
        region_count: block[1],
        regions: unpack_regions(&block[6..54], block[1])?,
        pools: [Pool { start: Address(block[2]), size: block[3] }, Pool { start: Address(block[4]), size: block[5] }],
        unit: block[0],
    })
}

pub fn pack_fields(fields: &Fields) -> [u32; COMMAND_WORDS] {
    let mut block = [0; COMMAND_WORDS];
    block[0] = code_of(&fields.command);
    block[1] = fields.sequence;
    block[2] = fields.unit;
    block[3] = fields.transaction;
    match &fields.command {
        Command::Dump { size, address } => {
            block[4] = *size;
            block[5] = address.0;
        }
        Command::Cancel => {}
        Command::Load { size, address, data } => {
            block[4] = *size;
            block[5] = address.0;
            block[7..18].copy_from_slice(data);
        }
        Command::PoolStatistics { pool } => block[6] = *pool,
        Command::SymbolValue { name } => pack_name(&mut block, name),
        Command::DumpByName { name, offset, size } => {
            block[4] = *size;
            pack_name(&mut block, name);
            block[20] = *offset as u32;
        }
    }
    block
}

/// Words 7 to 18 hold the name's field, each four of its bytes, big-endian. Word 19 is the name's size.
fn pack_name(block: &mut [u32; COMMAND_WORDS], name: &Name) {
    for (word, four) in block[7..19].iter_mut().zip(name.bytes.chunks(4)) {
        *word = u32::from_be_bytes([four[0], four[1], four[2], four[3]]);
    }
    block[19] = name.size;
}

fn unpack_name(block: &[u32]) -> Name {
    let mut bytes = [0; NAME_BYTES];
    for (four, word) in bytes.chunks_mut(4).zip(&block[7..19]) {
        four.copy_from_slice(&word.to_be_bytes());
    }
    Name { size: block[19], bytes }
}

/// None: another code than 0, 1, 4, 7, 8 or 9. The length is right.
fn unpack_fields(block: &[u32]) -> Option<Fields> {
    let command = match block[0] {
        0 => Command::Dump { size: block[4], address: Address(block[5]) },
        1 => Command::Cancel,
        4 => {
            let mut data = [0; LOAD_WORDS];
            data.copy_from_slice(&block[7..18]);
            Command::Load { size: block[4], address: Address(block[5]), data }
        }
        7 => Command::PoolStatistics { pool: block[6] },
        8 => Command::SymbolValue { name: unpack_name(block) },
        9 => Command::DumpByName { name: unpack_name(block), offset: block[20] as i32, size: block[4] },
        _ => return None,
    };
    Some(Fields { sequence: block[1], unit: block[2], transaction: block[3], command })
}

fn pack_packet_fields(fields: &PacketFields) -> [u32; PACKET_WORDS] {
    [
        fields.count,
        fields.unit,
        fields.transaction,
        fields.tick,
        fields.requested_address.0,
        fields.requested_words,
        fields.data_address.0,
        fields.data_words,
    ]
}

// ------------------------------------------------------------------------------------------------------------------------------------
// Each C function as the model answers it
// ------------------------------------------------------------------------------------------------------------------------------------

pub mod by_model {
    use super::*;

    pub fn start_up(table: &[u32], state: &mut [u32]) -> u32 {
        if state.len() != STATE_WORDS {
            return 17;
        }
        let (number, after) = match unpack_setup(table) {
            None => (17, state_of_zero_regions()),
            Some(setup) => crate::model::start_up(&setup),
        };
        state.copy_from_slice(&pack_state(&after));
        number
    }

    pub fn command(
        state: &mut [u32],
        packet: &[u8],
        symbols: &[u8],
        image: &mut [u32],
        reply: &mut [u8],
        reply_length: &mut u32,
    ) -> u32 {
        *reply_length = 0;
        match unpack_state(state) {
            None => 1,
            Some(before) => {
                let answer = command_call(&before, packet, symbols, image, reply);
                put_back(state, &answer.state);
                *reply_length = answer.reply_length;
                answer.number
            }
        }
    }

    #[allow(clippy::too_many_arguments)]
    pub fn commands(
        state: &mut [u32],
        bytes: &[u8],
        starts: &[u32],
        lengths: &[u32],
        symbols: &[u8],
        image: &mut [u32],
        replies: &mut [u8],
        answers: &mut [Answer],
    ) -> u32 {
        if batch_is_refused(starts.len(), lengths.len(), answers.len(), replies.len()) {
            return 3;
        }
        match unpack_state(state) {
            None => answers[..starts.len()].fill(Answer { number: 1, length: 0 }),
            Some(before) => {
                let batch = batch_call(&before, bytes, starts, lengths, symbols, image, replies);
                put_back(state, &batch.state);
                for (record, item) in answers.iter_mut().zip(&batch.answers) {
                    *record = Answer { number: item.number, length: item.reply_length };
                }
            }
        }
        0
    }

    pub fn slot(state: &mut [u32], tick: u32, image: &[u32], buffer: &mut [u8], length: &mut u32) -> u32 {
        *length = 0;
        match unpack_state(state) {
            None => 1,
            Some(before) => {
                let answer = slot_call(&before, tick, image, buffer);
                put_back(state, &answer.state);
                *length = answer.length;
                answer.number
            }
        }
    }

    pub fn write_command(command: &[u32], buffer: &mut [u8], length: &mut u32) -> u32 {
        *length = 0;
        if command.len() != COMMAND_WORDS {
            return 3;
        }
        match unpack_fields(command) {
            None => 6,
            Some(fields) => match crate::model::write_command(&fields, buffer) {
                Err(number) => number,
                Ok(bytes) => {
                    *length = bytes as u32;
                    0
                }
            },
        }
    }

    pub fn read_command(packet: &[u8], command: &mut [u32]) -> u32 {
        if command.len() != COMMAND_WORDS {
            return 3;
        }
        match crate::model::read_command(packet) {
            Err(number) => number,
            Ok(fields) => {
                command.copy_from_slice(&pack_fields(&fields));
                0
            }
        }
    }

    pub fn read_packet(packet: &[u8], fields: &mut [u32], data_bytes: &mut u32) -> u32 {
        *data_bytes = 0;
        if fields.len() != PACKET_WORDS {
            return 3;
        }
        match crate::model::read_packet(packet) {
            Err(number) => number,
            Ok((read, data)) => {
                fields.copy_from_slice(&pack_packet_fields(&read));
                *data_bytes = data.len() as u32;
                0
            }
        }
    }

    pub fn check_dump(bytes: &[u8], lengths: &[u8]) -> u32 {
        crate::model::check_dump(bytes, lengths)
    }
}

// ------------------------------------------------------------------------------------------------------------------------------------
// The C functions and their safe wrappers
// ------------------------------------------------------------------------------------------------------------------------------------

#[cfg(all(feature = "door", feature = "self"))]
compile_error!("take one of the features `door` and `self`, not both");

#[cfg(feature = "door")]
mod c {
    use super::Answer;

    extern "C" {
        pub fn lg_start_up(table: *const u32, table_words: usize, state: *mut u32, state_words: usize) -> u32;
        pub fn lg_command(
            state: *mut u32,
            state_words: usize,
            packet: *const u8,
            packet_bytes: usize,
            symbols: *const u8,
            symbols_bytes: usize,
            image: *mut u32,
            image_words: usize,
            reply: *mut u8,
            reply_bytes: usize,
            reply_length: *mut u32,
        ) -> u32;
        pub fn lg_commands(
            state: *mut u32,
            state_words: usize,
            bytes: *const u8,
            bytes_length: usize,
            starts: *const u32,
            starts_count: usize,
            lengths: *const u32,
            lengths_count: usize,
            symbols: *const u8,
            symbols_bytes: usize,
            image: *mut u32,
            image_words: usize,
            replies: *mut u8,
            replies_bytes: usize,
            answers: *mut Answer,
            answers_count: usize,
        ) -> u32;
        pub fn lg_slot(
            state: *mut u32,
            state_words: usize,
            tick: u32,
            image: *const u32,
            image_words: usize,
            buffer: *mut u8,
            buffer_bytes: usize,
            length: *mut u32,
        ) -> u32;
        pub fn lg_write_command(command: *const u32, command_words: usize, buffer: *mut u8, buffer_bytes: usize, length: *mut u32) -> u32;
        pub fn lg_read_command(packet: *const u8, packet_bytes: usize, command: *mut u32, command_words: usize) -> u32;
        pub fn lg_read_packet(
            packet: *const u8,
            packet_bytes: usize,
            fields: *mut u32,
            fields_words: usize,
            data_bytes: *mut u32,
        ) -> u32;
        pub fn lg_check_dump(bytes: *const u8, bytes_length: usize, lengths: *const u8, lengths_bytes: usize) -> u32;
    }
}

#[cfg(all(feature = "self", not(feature = "door")))]
use crate::answer as c;

#[cfg(any(feature = "door", feature = "self"))]
pub use wrappers::{check_dump, command, commands, read_command, read_packet, slot, start_up, write_command};

#[cfg(any(feature = "door", feature = "self"))]
mod wrappers {
    use super::{c, Answer};
    use std::cell::Cell;

    thread_local!(static TURN: Cell<usize> = const { Cell::new(0) });

    /// The pointer of what has no length, which may be any: null, an odd one and a far one in turn.
    fn anything() -> usize {
        TURN.with(|turn| {
            turn.set(turn.get() + 1);
            [0, 1, 0x7FFF_FFFF_FFF0][turn.get() % 3]
        })
    }

    fn lent<T>(slice: &[T]) -> *const T {
        if slice.is_empty() {
            anything() as *const T
        } else {
            slice.as_ptr()
        }
    }

    fn lent_mut<T>(slice: &mut [T]) -> *mut T {
        if slice.is_empty() {
            anything() as *mut T
        } else {
            slice.as_mut_ptr()
        }
    }

    // SAFETY, of all eight: each pointer comes with the length of the slice that it comes from, the slices do not overlap (the borrow rules), and
    // the C functions keep no pointer.

    pub fn start_up(table: &[u32], state: &mut [u32]) -> u32 {
        unsafe { c::lg_start_up(lent(table), table.len(), lent_mut(state), state.len()) }
    }

    pub fn command(
        state: &mut [u32],
        packet: &[u8],
        symbols: &[u8],
        image: &mut [u32],
        reply: &mut [u8],
        reply_length: &mut u32,
    ) -> u32 {
        unsafe {
            c::lg_command(
                lent_mut(state),
                state.len(),
                lent(packet),
                packet.len(),
                lent(symbols),
                symbols.len(),
                lent_mut(image),
                image.len(),
                lent_mut(reply),
                reply.len(),
                reply_length,
            )
        }
    }

    #[allow(clippy::too_many_arguments)]
    pub fn commands(
        state: &mut [u32],
        bytes: &[u8],
        starts: &[u32],
        lengths: &[u32],
        symbols: &[u8],
        image: &mut [u32],
        replies: &mut [u8],
        answers: &mut [Answer],
    ) -> u32 {
        unsafe {
            c::lg_commands(
                lent_mut(state),
                state.len(),
                lent(bytes),
                bytes.len(),
                lent(starts),
                starts.len(),
                lent(lengths),
                lengths.len(),
                lent(symbols),
                symbols.len(),
                lent_mut(image),
                image.len(),
                lent_mut(replies),
                replies.len(),
                lent_mut(answers),
                answers.len(),
            )
        }
    }

    pub fn slot(state: &mut [u32], tick: u32, image: &[u32], buffer: &mut [u8], length: &mut u32) -> u32 {
        unsafe { c::lg_slot(lent_mut(state), state.len(), tick, lent(image), image.len(), lent_mut(buffer), buffer.len(), length) }
    }

    pub fn write_command(command: &[u32], buffer: &mut [u8], length: &mut u32) -> u32 {
        unsafe { c::lg_write_command(lent(command), command.len(), lent_mut(buffer), buffer.len(), length) }
    }

    pub fn read_command(packet: &[u8], command: &mut [u32]) -> u32 {
        unsafe { c::lg_read_command(lent(packet), packet.len(), lent_mut(command), command.len()) }
    }

    pub fn read_packet(packet: &[u8], fields: &mut [u32], data_bytes: &mut u32) -> u32 {
        unsafe { c::lg_read_packet(lent(packet), packet.len(), lent_mut(fields), fields.len(), data_bytes) }
    }

    pub fn check_dump(bytes: &[u8], lengths: &[u8]) -> u32 {
        unsafe { c::lg_check_dump(lent(bytes), bytes.len(), lent(lengths), lengths.len()) }
    }
}
