//! The memory service of paper 01 with requests A1, A2, A4 and A5 of paper 02, written a second time, from the papers alone.
//!
//! Plain style: one function for each rule, each naming the section of the paper that it comes from. All sums of addresses are done in 64 bits.

// ------------------------------------------------------------------------------------------------------------------------------------
// "The box and what it handles": kinds of number
// ------------------------------------------------------------------------------------------------------------------------------------

/// A byte address in the box's memory.
#[derive(Clone, Copy, PartialEq, Eq, Debug)]
pub struct Address(pub u32);

/// A word's place in the lent image.
#[derive(Clone, Copy, PartialEq, Eq, Debug)]
pub struct ImageWord(pub usize);

// "Regions and image" and "Where things come from": the fixed figures.
pub const REGIONS_MOST: usize = 16;
pub const REGION_WORDS_MOST: u32 = 1_048_576;
pub const MEMORY_END: u64 = 1 << 32;
pub const UNIT_MOST: u32 = 15;
pub const TRANSACTION_MOST: u32 = 4_095;
pub const REQUEST_MOST: u32 = 65_535;
pub const CUT: u32 = 1_016;
pub const PACKET_COUNT_MOST: u32 = 16_383;
pub const COMMAND_COUNT_MOST: u32 = 65_535;
pub const REPLY_BYTES: usize = 32;
pub const BATCH_ITEMS: usize = 64;
pub const SLOT_BYTES: usize = 4_092;
pub const PACKET_HEADER_BYTES: usize = 28;
pub const LOAD_WORDS: usize = 11;
pub const NAME_BYTES: usize = 48;
pub const SYMBOLS_MOST: usize = 256;
pub const SYMBOL_BYTES: usize = 56;
pub const VALUE_BYTES: usize = 12;

pub const APID_COMMAND: u32 = 1604;
pub const APID_POOL: u32 = 785;
pub const APID_SYMBOL: u32 = 786;
pub const APID_DUMP: u32 = 788;

// ------------------------------------------------------------------------------------------------------------------------------------
// "Regions and image": types
// ------------------------------------------------------------------------------------------------------------------------------------

#[derive(Clone, Copy, PartialEq, Eq, Debug)]
pub struct Region {
    pub start: Address,
    pub size: u32,
    pub load: bool,
    pub dump: bool,
}

pub const NO_REGION: Region = Region { start: Address(0), size: 0, load: false, dump: false };

#[derive(Clone, Copy, PartialEq, Eq, Debug)]
pub struct Pool {
    pub start: Address,
    pub size: u32,
}

pub const NO_POOL: Pool = Pool { start: Address(0), size: 0 };

/// What start-up takes.
#[derive(Clone, PartialEq, Eq, Debug)]
pub struct Setup {
    pub region_count: u32,
    pub regions: [Region; REGIONS_MOST],
    pub pools: [Pool; 2],
    pub unit: u32,
}

#[derive(Clone, Copy, PartialEq, Eq, Debug)]
pub struct Dump {
    pub transaction: u32,
    pub start: Address,
    pub requested: u32,
    pub sent: u32,
}

#[derive(Clone, Copy, PartialEq, Eq, Debug)]
pub enum DumpPlace {
    Idle,
    Busy(Dump),
}

#[derive(Clone, PartialEq, Eq, Debug)]
pub struct State {
    pub setup: Setup,
    pub places: [DumpPlace; 4],
    pub last: u32,
    pub count_785: u32,
    pub count_786: u32,
    pub count_788: u32,
    pub accepted: u32,
    pub refused: u32,
}

// ------------------------------------------------------------------------------------------------------------------------------------
// "Regions and image": the rules
// ------------------------------------------------------------------------------------------------------------------------------------

/// The end of a range: start plus 4 times size, never wrapped.
fn end_of(start: Address, words: u32) -> u64 {
    u64::from(start.0) + 4 * u64::from(words)
}

fn aligned(address: Address) -> bool {
    address.0 % 4 == 0
}

/// Regions and image: a region's start is aligned, it has at least one word and at most 1,048,576, and none of them lies past 2^32.
fn region_keeps_rules(region: &Region) -> bool {
    aligned(region.start) && region.size >= 1 && region.size <= REGION_WORDS_MOST && end_of(region.start, region.size) <= MEMORY_END
}

/// Regions and image: at least one region and at most 16, in the order of their addresses. They may touch but not overlap.
fn table_keeps_rules(setup: &Setup) -> bool {
    if setup.region_count < 1 || setup.region_count as usize > REGIONS_MOST {
        return false;
    }
    let regions = used_regions(setup);
    for region in regions {
        if !region_keeps_rules(region) {
            return false;
        }
    }
    for i in 1..regions.len() {
        let before = &regions[i - 1];
        let after = &regions[i];
        if before.start.0 >= after.start.0 {
            return false;
        }
        if end_of(before.start, before.size) > u64::from(after.start.0) {
            return false;
        }
    }
    true
}

/// The entries that the table uses. Entries after them say nothing.
fn used_regions(setup: &Setup) -> &[Region] {
    &setup.regions[..setup.region_count as usize]
}

/// Request A5: which region holds the range. If no region has even the first word it is 10, and if a region has that but not all of the range, 19.
fn region_holding(setup: &Setup, start: Address, words: u32) -> Result<usize, u32> {
    for (i, region) in used_regions(setup).iter().enumerate() {
        let end = end_of(region.start, region.size);
        if start.0 >= region.start.0 && end_of(start, 1) <= end {
            return if end_of(start, words) <= end { Ok(i) } else { Err(19) };
        }
    }
    Err(10)
}

/// Regions and image: an absent pool has start and size 0. Any other is aligned, and a single region that may be dumped holds all of it.
fn pool_keeps_rules(setup: &Setup, pool: &Pool) -> bool {
    if pool.size == 0 {
        return pool.start == Address(0);
    }
    if !aligned(pool.start) {
        return false;
    }
    match region_holding(setup, pool.start, pool.size) {
        Err(_) => false,
        Ok(i) => setup.regions[i].dump,
    }
}

/// Regions and image: what start-up and the good state both ask of regions, pools and unit.
pub fn setup_keeps_rules(setup: &Setup) -> bool {
    table_keeps_rules(setup)
        && pool_keeps_rules(setup, &setup.pools[0])
        && pool_keeps_rules(setup, &setup.pools[1])
        && setup.unit <= UNIT_MOST
}

/// Regions and image: how many words the image must have, those of all regions together.
pub fn image_words(setup: &Setup) -> u64 {
    used_regions(setup).iter().map(|region| u64::from(region.size)).sum()
}

/// Where in the image the word at an address of region `i` is: after the words of the regions before it.
fn place_in_image(setup: &Setup, i: usize, address: Address) -> ImageWord {
    let before: u64 = setup.regions[..i].iter().map(|region| u64::from(region.size)).sum();
    let within = u64::from((address.0 - setup.regions[i].start.0) / 4);
    ImageWord((before + within) as usize)
}

// ------------------------------------------------------------------------------------------------------------------------------------
// "Regions and image": start-up and the good state
// ------------------------------------------------------------------------------------------------------------------------------------

/// Regions and image: the state after start-up. No dump is busy, place 3 counts as the last one served, and every count begins at 0.
fn fresh(setup: Setup) -> State {
    State { setup, places: [DumpPlace::Idle; 4], last: 3, count_785: 0, count_786: 0, count_788: 0, accepted: 0, refused: 0 }
}

/// Regions and image: the state that comes with 17. Its setup is empty, with unit 0, and so no call takes it.
pub fn state_of_zero_regions() -> State {
    fresh(Setup { region_count: 0, regions: [NO_REGION; REGIONS_MOST], pools: [NO_POOL; 2], unit: 0 })
}

/// Start-up: 0 and a fresh state, or 17.
pub fn start_up(setup: &Setup) -> (u32, State) {
    if !setup_keeps_rules(setup) {
        return (17, state_of_zero_regions());
    }
    // Regions and image: start-up clears the entries that the table does not use.
    let mut kept = setup.clone();
    for i in setup.region_count as usize..REGIONS_MOST {
        kept.regions[i] = NO_REGION;
    }
    (0, fresh(kept))
}

/// What the good state asks of one busy dump by itself.
fn busy_dump_is_good(setup: &Setup, dump: &Dump) -> bool {
    if dump.transaction > TRANSACTION_MOST {
        return false;
    }
    if dump.requested < 1 || dump.requested > REQUEST_MOST {
        return false;
    }
    if !aligned(dump.start) {
        return false;
    }
    match region_holding(setup, dump.start, dump.requested) {
        Err(_) => return false,
        Ok(i) => {
            if !setup.regions[i].dump {
                return false;
            }
        }
    }
    dump.sent % CUT == 0 && dump.sent < dump.requested
}

/// The place that is busy with a transaction number.
fn busy_place_with(places: &[DumpPlace; 4], transaction: u32) -> Option<usize> {
    for (i, place) in places.iter().enumerate() {
        if let DumpPlace::Busy(dump) = place {
            if dump.transaction == transaction {
                return Some(i);
            }
        }
    }
    None
}

/// Regions and image: no two busy dumps have one transaction number.
fn transactions_differ(places: &[DumpPlace; 4]) -> bool {
    for i in 0..4 {
        for k in 0..i {
            if let (DumpPlace::Busy(a), DumpPlace::Busy(b)) = (&places[i], &places[k]) {
                if a.transaction == b.transaction {
                    return false;
                }
            }
        }
    }
    true
}

/// Regions and image: the rules of the good state.
pub fn state_is_good(state: &State) -> bool {
    if !setup_keeps_rules(&state.setup) {
        return false;
    }
    if state.last > 3 {
        return false;
    }
    if state.count_785 > PACKET_COUNT_MOST || state.count_788 > PACKET_COUNT_MOST {
        return false;
    }
    if state.count_786 > PACKET_COUNT_MOST {
        return false;
    }
    if state.accepted > COMMAND_COUNT_MOST || state.refused > COMMAND_COUNT_MOST {
        return false;
    }
    for place in &state.places {
        if let DumpPlace::Busy(dump) = place {
            if !busy_dump_is_good(&state.setup, dump) {
                return false;
            }
        }
    }
    transactions_differ(&state.places)
}

// ------------------------------------------------------------------------------------------------------------------------------------
// "The box and what it handles": big-endian numbers; and the CCSDS primary header
// ------------------------------------------------------------------------------------------------------------------------------------

fn get16(bytes: &[u8], at: usize) -> u32 {
    u32::from(bytes[at]) * 256 + u32::from(bytes[at + 1])
}

fn get32(bytes: &[u8], at: usize) -> u32 {
    get16(bytes, at) * 65_536 + get16(bytes, at + 2)
}

fn put16(bytes: &mut [u8], at: usize, number: u32) {
    bytes[at] = (number / 256 % 256) as u8;
    bytes[at + 1] = (number % 256) as u8;
}

fn put32(bytes: &mut [u8], at: usize, number: u32) {
    put16(bytes, at, number / 65_536);
    put16(bytes, at + 2, number % 65_536);
}

fn version_of(bytes: &[u8]) -> u32 {
    get16(bytes, 0) / 8_192
}

fn type_of(bytes: &[u8]) -> u32 {
    get16(bytes, 0) / 4_096 % 2
}

fn second_header_flag_of(bytes: &[u8]) -> u32 {
    get16(bytes, 0) / 2_048 % 2
}

fn apid_of(bytes: &[u8]) -> u32 {
    get16(bytes, 0) % 2_048
}

fn sequence_flags_of(bytes: &[u8]) -> u32 {
    get16(bytes, 2) / 16_384
}

fn sequence_count_of(bytes: &[u8]) -> u32 {
    get16(bytes, 2) % 16_384
}

/// Command packets: the length field is 7 less than the packet's bytes. Not modulo anything: a packet of over 65,542 bytes has no right length field.
fn length_field_is_right(bytes: &[u8]) -> bool {
    bytes.len() >= 7 && get16(bytes, 4) as usize == bytes.len() - 7
}

fn put_primary_header(bytes: &mut [u8], kind: u32, second_header: u32, apid: u32, count: u32, length: usize) {
    put16(bytes, 0, kind * 4_096 + second_header * 2_048 + apid);
    put16(bytes, 2, 3 * 16_384 + count);
    put16(bytes, 4, (length - 7) as u32);
}

fn exclusive_or(bytes: &[u8]) -> u8 {
    let mut sum = 0;
    for byte in bytes {
        sum ^= byte;
    }
    sum
}

// ------------------------------------------------------------------------------------------------------------------------------------
// "Command packets"
// ------------------------------------------------------------------------------------------------------------------------------------

#[derive(Clone, PartialEq, Eq, Debug)]
pub enum Command {
    Dump { size: u32, address: Address },
    Cancel,
    Load { size: u32, address: Address, data: [u32; LOAD_WORDS] },
    PoolStatistics { pool: u32 },
    SymbolValue { name: Name },
    DumpByName { name: Name, offset: i32, size: u32 },
}

/// The name field of codes 8 and 9: 48 bytes, of which the first `size` are the name.
#[derive(Clone, PartialEq, Eq, Debug)]
pub struct Name {
    pub size: u32,
    pub bytes: [u8; NAME_BYTES],
}

#[derive(Clone, PartialEq, Eq, Debug)]
pub struct Fields {
    pub sequence: u32,
    pub unit: u32,
    pub transaction: u32,
    pub command: Command,
}

/// The table's first and last columns: the packet bytes of a function code. None: any other code.
pub fn packet_bytes_of_code(code: u32) -> Option<usize> {
    match code {
        0 => Some(16),
        1 => Some(10),
        4 => Some(60),
        7 => Some(12),
        8 => Some(60),
        9 => Some(68),
        _ => None,
    }
}

/// The function code of a command.
pub fn code_of(command: &Command) -> u32 {
    match command {
        Command::Dump { .. } => 0,
        Command::Cancel => 1,
        Command::Load { .. } => 4,
        Command::PoolStatistics { .. } => 7,
        Command::SymbolValue { .. } => 8,
        Command::DumpByName { .. } => 9,
    }
}

/// Result numbers, 4: fewer than 8 bytes, or headers that, apart from APID and code, are not a command's, or a check byte that does not fit.
fn command_header_is_wrong(packet: &[u8]) -> bool {
    packet.len() < 8
        || version_of(packet) != 0
        || type_of(packet) != 1
        || second_header_flag_of(packet) != 1
        || sequence_flags_of(packet) != 3
        || !length_field_is_right(packet)
        || packet[6] >= 128
        || exclusive_or(packet) != 0xFF
}

/// Numbers 4 to 7, which a packet earns by itself; 0 if none of them.
fn frame_number(packet: &[u8]) -> u32 {
    if command_header_is_wrong(packet) {
        return 4;
    }
    if apid_of(packet) != APID_COMMAND {
        return 5;
    }
    match packet_bytes_of_code(u32::from(packet[6])) {
        None => 6,
        Some(length) => {
            if packet.len() != length {
                7
            } else {
                0
            }
        }
    }
}

/// Table 9 of source document 000: name size, pad, and 48 bytes.
fn name_of(packet: &[u8]) -> Name {
    let mut bytes = [0; NAME_BYTES];
    bytes.copy_from_slice(&packet[12..60]);
    Name { size: u32::from(packet[10]), bytes }
}

/// Request A2: a packet of code 8 or 9, its frame right, has something else than 0 in the byte after the name's size or in code 9's last two bytes.
fn padding_is_wrong(packet: &[u8]) -> bool {
    match packet[6] {
        8 => packet[11] != 0,
        9 => packet[11] != 0 || get16(packet, 66) != 0,
        _ => false,
    }
}

/// The fields of a packet whose frame is right (`frame_number` is 0). All eleven data words of a load, and all 48 bytes of a name field, are taken
/// as they stand.
fn fields_of(packet: &[u8]) -> Fields {
    let command = match packet[6] {
        0 => Command::Dump { size: get16(packet, 10), address: Address(get32(packet, 12)) },
        1 => Command::Cancel,
        4 => {
            let mut data = [0; LOAD_WORDS];
            for (i, word) in data.iter_mut().enumerate() {
                *word = get32(packet, 16 + 4 * i);
            }
            Command::Load { size: get16(packet, 10), address: Address(get32(packet, 12)), data }
        }
        7 => Command::PoolStatistics { pool: get16(packet, 10) },
        8 => Command::SymbolValue { name: name_of(packet) },
        _ => Command::DumpByName { name: name_of(packet), offset: get32(packet, 60) as i32, size: get16(packet, 64) },
    };
    Fields { sequence: sequence_count_of(packet), unit: get16(packet, 8) / 4_096, transaction: get16(packet, 8) % 4_096, command }
}

/// Result numbers, 9, and request A2: an unaligned address, or a size, a pool number or a name's size out of its bounds. What can be seen without a
/// symbol table. A dump's size is a 16-bit number; for the writer, which could be given more, more is out of bounds too.
fn fields_break_bounds(command: &Command) -> bool {
    match command {
        Command::Dump { size, address } => !aligned(*address) || dump_size_is_wrong(*size),
        Command::Cancel => false,
        Command::Load { size, address, .. } => !aligned(*address) || *size == 0 || *size > LOAD_WORDS as u32,
        Command::PoolStatistics { pool } => *pool > 1,
        Command::SymbolValue { name } => name_size_is_wrong(name),
        Command::DumpByName { name, size, .. } => name_size_is_wrong(name) || dump_size_is_wrong(*size),
    }
}

/// Request A2: a name has 1 to 48 bytes.
fn name_size_is_wrong(name: &Name) -> bool {
    name.size == 0 || name.size > NAME_BYTES as u32
}

fn dump_size_is_wrong(size: u32) -> bool {
    size == 0 || size > REQUEST_MOST
}

// ------------------------------------------------------------------------------------------------------------------------------------
// Request A2: the symbol table
// ------------------------------------------------------------------------------------------------------------------------------------

#[derive(Clone, Copy, PartialEq, Eq, Debug)]
pub enum Meaning {
    /// Kind 0.
    Value(u32),
    /// Kind 1: the number of an earlier record.
    Alias(usize),
}

#[derive(Clone, PartialEq, Eq, Debug)]
pub struct Symbol {
    /// As long as the record says.
    pub name: Vec<u8>,
    pub meaning: Meaning,
}

/// Request A2, record `number` of the table: byte 0 has the kind, byte 1 the name's size, 2 and 3 are 0, the name begins at 4 and is filled up with 0,
/// and the value or the other record's number is at 52. None: the bytes are no such record.
fn symbol_of(record: &[u8], number: usize) -> Option<Symbol> {
    let length = usize::from(record[1]);
    if length < 1 || length > NAME_BYTES {
        return None;
    }
    if get16(record, 2) != 0 {
        return None;
    }
    let (name, padding) = record[4..52].split_at(length);
    if padding.iter().any(|&byte| byte != 0) {
        return None;
    }
    let held = get32(record, 52);
    let meaning = match record[0] {
        0 => Meaning::Value(held),
        1 if u64::from(held) < number as u64 => Meaning::Alias(held as usize),
        _ => return None,
    };
    Some(Symbol { name: name.to_vec(), meaning })
}

/// Request A2: at most 256 records of 56 bytes each, no two with the same name, where zero bytes at a name's end count. None: the bytes are no table.
pub fn symbol_table(bytes: &[u8]) -> Option<Vec<Symbol>> {
    if bytes.len() % SYMBOL_BYTES != 0 || bytes.len() / SYMBOL_BYTES > SYMBOLS_MOST {
        return None;
    }
    let mut table = vec![];
    let mut names = std::collections::HashSet::new();
    for (number, record) in bytes.chunks(SYMBOL_BYTES).enumerate() {
        let symbol = symbol_of(record, number)?;
        if !names.insert(symbol.name.clone()) {
            return None;
        }
        table.push(symbol);
    }
    Some(table)
}

/// Request A2: an alias stands for what the earlier record that it names stands for.
fn value_of(table: &[Symbol], number: usize) -> u32 {
    match table[number].meaning {
        Meaning::Value(value) => value,
        Meaning::Alias(other) => value_of(table, other),
    }
}

/// The value that a name stands for. None: no record has the name. The size is 1 to 48.
pub fn look_up(table: &[Symbol], name: &Name) -> Option<u32> {
    let wanted = &name.bytes[..name.size as usize];
    let number = table.iter().position(|symbol| symbol.name == wanted)?;
    Some(value_of(table, number))
}

/// Request A2: value plus offset as a whole number. None: 32 bits cannot hold it.
fn address_by_name(value: u32, offset: i32) -> Option<Address> {
    let sum = i64::from(value) + i64::from(offset);
    if sum < 0 || sum >= 1 << 32 {
        return None;
    }
    Some(Address(sum as u32))
}

// ------------------------------------------------------------------------------------------------------------------------------------
// "Result numbers": what a command call gives
// ------------------------------------------------------------------------------------------------------------------------------------

#[derive(Clone, PartialEq, Eq, Debug)]
pub struct CommandAnswer {
    pub number: u32,
    pub state: State,
    /// Bytes written to the reply buffer.
    pub reply_length: u32,
}

/// Result numbers: a refusal raises the refused count, which is all that it changes. Not so 1, 2, 3, 5 and 8: they change nothing. By A2 and A5 the
/// numbers 17, 18 and 19 are counted.
fn refused(state: &State, number: u32) -> CommandAnswer {
    let mut after = state.clone();
    match number {
        4 | 6 | 7 | 9..=15 | 17 | 18 | 19 => after.refused = (state.refused + 1) % 65_536,
        _ => {}
    }
    CommandAnswer { number, state: after, reply_length: 0 }
}

/// Result numbers: a command that is done raises the accepted count.
fn accepted(mut after: State, reply_length: u32) -> CommandAnswer {
    after.accepted = (after.accepted + 1) % 65_536;
    CommandAnswer { number: 0, state: after, reply_length }
}

/// The command call. Only codes 8 and 9 look at the symbol table.
pub fn command_call(state: &State, packet: &[u8], symbols: &[u8], image: &mut [u32], reply: &mut [u8]) -> CommandAnswer {
    if !state_is_good(state) {
        return refused(state, 1);
    }
    if image.len() as u64 != image_words(&state.setup) {
        return refused(state, 2);
    }
    if reply.len() < REPLY_BYTES {
        return refused(state, 3);
    }
    let number = frame_number(packet);
    if number != 0 {
        return refused(state, number);
    }
    let fields = fields_of(packet);
    if fields.unit != state.setup.unit {
        return refused(state, 8);
    }
    if let Command::SymbolValue { name } | Command::DumpByName { name, .. } = &fields.command {
        return command_by_name(state, &fields, name, padding_is_wrong(packet), symbols, reply);
    }
    if fields_break_bounds(&fields.command) {
        return refused(state, 9);
    }
    match fields.command {
        Command::Dump { size, address } => do_dump(state, fields.transaction, size, address),
        Command::Cancel => do_cancel(state, fields.transaction),
        Command::Load { size, address, data } => do_load(state, size, address, &data, image),
        Command::PoolStatistics { pool } => do_pool_statistics(state, fields.transaction, pool, image, reply),
        Command::SymbolValue { .. } | Command::DumpByName { .. } => unreachable!("done above"),
    }
}

/// Request A2, codes 8 and 9 after number 8. The order: 17 for the symbol table, 9 for the name's size and the padding, 18 if no record has the name.
/// Code 9 goes on with 9 for an address that 32 bits cannot hold, and then with all tests of a dump.
fn command_by_name(state: &State, fields: &Fields, name: &Name, wrong_padding: bool, symbols: &[u8], reply: &mut [u8]) -> CommandAnswer {
    let table = match symbol_table(symbols) {
        None => return refused(state, 17),
        Some(table) => table,
    };
    if name_size_is_wrong(name) || wrong_padding {
        return refused(state, 9);
    }
    let value = match look_up(&table, name) {
        None => return refused(state, 18),
        Some(value) => value,
    };
    let Command::DumpByName { offset, size, .. } = fields.command else {
        return do_symbol_value(state, fields.transaction, value, reply);
    };
    let address = match address_by_name(value, offset) {
        None => return refused(state, 9),
        Some(address) => address,
    };
    if !aligned(address) || dump_size_is_wrong(size) {
        return refused(state, 9);
    }
    do_dump(state, fields.transaction, size, address)
}

// ------------------------------------------------------------------------------------------------------------------------------------
// "What each command does"
// ------------------------------------------------------------------------------------------------------------------------------------

/// What each command does: a dump takes the first place that is idle. Sending is left to the slots.
fn do_dump(state: &State, transaction: u32, size: u32, address: Address) -> CommandAnswer {
    let region = match region_holding(&state.setup, address, size) {
        Err(number) => return refused(state, number),
        Ok(i) => state.setup.regions[i],
    };
    if !region.dump {
        return refused(state, 11);
    }
    if busy_place_with(&state.places, transaction).is_some() {
        return refused(state, 12);
    }
    let mut idle = None;
    for i in (0..4).rev() {
        if state.places[i] == DumpPlace::Idle {
            idle = Some(i);
        }
    }
    match idle {
        None => refused(state, 13),
        Some(i) => {
            let mut after = state.clone();
            after.places[i] = DumpPlace::Busy(Dump { transaction, start: address, requested: size, sent: 0 });
            accepted(after, 0)
        }
    }
}

/// What each command does: a cancel frees the place of the dump with its number.
fn do_cancel(state: &State, transaction: u32) -> CommandAnswer {
    match busy_place_with(&state.places, transaction) {
        None => refused(state, 14),
        Some(i) => {
            let mut after = state.clone();
            after.places[i] = DumpPlace::Idle;
            accepted(after, 0)
        }
    }
}

/// What each command does: a load puts as many of its words into the image as its size says, from its address on. Busy dumps do not hinder it.
fn do_load(state: &State, size: u32, address: Address, data: &[u32; LOAD_WORDS], image: &mut [u32]) -> CommandAnswer {
    let i = match region_holding(&state.setup, address, size) {
        Err(number) => return refused(state, number),
        Ok(i) => i,
    };
    if !state.setup.regions[i].load {
        return refused(state, 11);
    }
    let first = place_in_image(&state.setup, i, address);
    for k in 0..size as usize {
        image[first.0 + k] = data[k];
    }
    accepted(state.clone(), 0)
}

#[derive(Clone, Copy, PartialEq, Eq, Debug)]
struct Figures {
    free_words: u32,
    free_blocks: u32,
    /// The largest free block's size; none if there is no free block.
    largest_free: Option<u32>,
    used_words: u32,
    used_blocks: u32,
}

/// What each command does: from block to block, the walk must come out right at the pool's end. None: damage, which an empty block is too.
fn walk_blocks(pool: &[u32]) -> Option<Figures> {
    let mut figures = Figures { free_words: 0, free_blocks: 0, largest_free: None, used_words: 0, used_blocks: 0 };
    let mut at: u64 = 0;
    while at < pool.len() as u64 {
        let first = pool[at as usize];
        let used = first >= 0x8000_0000;
        let size = first % 0x8000_0000;
        if size == 0 || at + u64::from(size) > pool.len() as u64 {
            return None;
        }
        if used {
            figures.used_words += size;
            figures.used_blocks += 1;
        } else {
            figures.free_words += size;
            figures.free_blocks += 1;
            if figures.largest_free.map_or(true, |largest| size > largest) {
                figures.largest_free = Some(size);
            }
        }
        at += u64::from(size);
    }
    Some(figures)
}

/// Pool statistics: the 32 bytes of the reply, and the 785 count raised.
fn do_pool_statistics(state: &State, transaction: u32, number: u32, image: &[u32], reply: &mut [u8]) -> CommandAnswer {
    let pool = state.setup.pools[number as usize];
    // Request A5: without such a pool it is 10, as before.
    if pool.size == 0 {
        return refused(state, 10);
    }
    // In a good state a region that may be dumped holds all of the pool, so neither 19 nor 11 can be given here.
    let i = region_holding(&state.setup, pool.start, pool.size).expect("a good state's pool lies in a region");
    let first = place_in_image(&state.setup, i, pool.start).0;
    let figures = match walk_blocks(&image[first..first + pool.size as usize]) {
        None => return refused(state, 15),
        Some(figures) => figures,
    };
    put_primary_header(reply, 0, 0, APID_POOL, state.count_785, REPLY_BYTES);
    put16(reply, 6, state.setup.unit * 4_096 + transaction);
    put16(reply, 8, number);
    put16(reply, 10, 0);
    put32(reply, 12, figures.free_words);
    put32(reply, 16, figures.free_blocks);
    // Request A4: the first word of the largest free block does not count. 0 without a free block.
    put32(reply, 20, figures.largest_free.map_or(0, |size| size - 1));
    put32(reply, 24, figures.used_words);
    put32(reply, 28, figures.used_blocks);
    let mut after = state.clone();
    after.count_785 = (state.count_785 + 1) % 16_384;
    accepted(after, REPLY_BYTES as u32)
}

/// Request A2, the value of a symbol: 12 bytes of reply, with APID 786 and the count of that APID.
fn do_symbol_value(state: &State, transaction: u32, value: u32, reply: &mut [u8]) -> CommandAnswer {
    put_primary_header(reply, 0, 0, APID_SYMBOL, state.count_786, VALUE_BYTES);
    put16(reply, 6, state.setup.unit * 4_096 + transaction);
    put32(reply, 8, value);
    let mut after = state.clone();
    after.count_786 = (state.count_786 + 1) % 16_384;
    accepted(after, VALUE_BYTES as u32)
}

// ------------------------------------------------------------------------------------------------------------------------------------
// Request A1: "Many commands in one call"
// ------------------------------------------------------------------------------------------------------------------------------------

/// Request A1: what one item gets.
#[derive(Clone, Copy, PartialEq, Eq, Debug)]
pub struct ItemAnswer {
    pub number: u32,
    pub reply_length: u32,
}

#[derive(Clone, PartialEq, Eq, Debug)]
pub struct BatchAnswer {
    pub state: State,
    /// One for each item.
    pub answers: Vec<ItemAnswer>,
}

/// Request A1: 3 for the batch as a whole, tested first: more than 64 items, starts and lengths of different number, too few records or reply bytes.
pub fn batch_is_refused(starts: usize, lengths: usize, answers: usize, reply_bytes: usize) -> bool {
    let items = starts;
    starts != lengths || items > BATCH_ITEMS || answers < items || reply_bytes < REPLY_BYTES * items
}

/// Request A1: an item with bytes outside the buffer has none at all. The sum is done in 64 bits.
pub fn item_packet(bytes: &[u8], start: u32, length: u32) -> &[u8] {
    let end = u64::from(start) + u64::from(length);
    if end > bytes.len() as u64 {
        return &[];
    }
    &bytes[start as usize..end as usize]
}

/// Request A1: one command call after the other, each on what the last one left, refused or not. Item i has bytes 32i to 32i + 31 for its reply. The
/// call is not refused; its number is 0. By A2 one symbol table is lent for all items.
pub fn batch_call(
    state: &State,
    bytes: &[u8],
    starts: &[u32],
    lengths: &[u32],
    symbols: &[u8],
    image: &mut [u32],
    replies: &mut [u8],
) -> BatchAnswer {
    let mut after = state.clone();
    let mut answers = vec![];
    for i in 0..starts.len() {
        let packet = item_packet(bytes, starts[i], lengths[i]);
        let reply = &mut replies[REPLY_BYTES * i..REPLY_BYTES * (i + 1)];
        let answer = command_call(&after, packet, symbols, image, reply);
        answers.push(ItemAnswer { number: answer.number, reply_length: answer.reply_length });
        after = answer.state;
    }
    BatchAnswer { state: after, answers }
}

// ------------------------------------------------------------------------------------------------------------------------------------
// "Telemetry slots"
// ------------------------------------------------------------------------------------------------------------------------------------

#[derive(Clone, PartialEq, Eq, Debug)]
pub struct SlotAnswer {
    pub number: u32,
    pub state: State,
    pub length: u32,
}

fn slot_refused(state: &State, number: u32) -> SlotAnswer {
    SlotAnswer { number, state: state.clone(), length: 0 }
}

/// Telemetry slots: busy places take turns. The search begins behind the place of the last turn, goes on at 0 after 3, and ends with that place.
fn place_to_serve(state: &State) -> Option<(usize, Dump)> {
    for step in 1..=4 {
        let i = (state.last as usize + step) % 4;
        if let DumpPlace::Busy(dump) = state.places[i] {
            return Some((i, dump));
        }
    }
    None
}

/// The slot call.
pub fn slot_call(state: &State, tick: u32, image: &[u32], buffer: &mut [u8]) -> SlotAnswer {
    if !state_is_good(state) {
        return slot_refused(state, 1);
    }
    if image.len() as u64 != image_words(&state.setup) {
        return slot_refused(state, 2);
    }
    if buffer.len() < SLOT_BYTES {
        return slot_refused(state, 3);
    }
    let (i, dump) = match place_to_serve(state) {
        None => return slot_refused(state, 16),
        Some(found) => found,
    };
    let left = dump.requested - dump.sent;
    let words = if left > CUT { CUT } else { left };
    let data_address = Address(dump.start.0 + 4 * dump.sent);
    let length = PACKET_HEADER_BYTES + 4 * words as usize;

    put_primary_header(buffer, 0, 0, APID_DUMP, state.count_788, length);
    put16(buffer, 6, state.setup.unit * 4_096 + dump.transaction);
    put32(buffer, 8, tick);
    put32(buffer, 12, dump.start.0);
    put32(buffer, 16, dump.requested);
    put32(buffer, 20, data_address.0);
    put32(buffer, 24, words);
    let region = region_holding(&state.setup, dump.start, dump.requested).expect("a good state's dump lies in a region");
    let first = place_in_image(&state.setup, region, data_address).0;
    for k in 0..words as usize {
        put32(buffer, PACKET_HEADER_BYTES + 4 * k, image[first + k]);
    }

    let mut after = state.clone();
    after.last = i as u32;
    after.count_788 = (state.count_788 + 1) % 16_384;
    after.places[i] = if words == left {
        DumpPlace::Idle // all is sent
    } else {
        DumpPlace::Busy(Dump { sent: dump.sent + words, ..dump })
    };
    SlotAnswer { number: 0, state: after, length: length as u32 }
}

// ------------------------------------------------------------------------------------------------------------------------------------
// "Ground reader and writer"
// ------------------------------------------------------------------------------------------------------------------------------------

/// The command writer: 3 for a buffer that cannot hold the packet, then 9 for a field out of its bounds. Only the packet's own bytes are written, and
/// none on a refusal. Gives the packet's bytes.
pub fn write_command(fields: &Fields, buffer: &mut [u8]) -> Result<usize, u32> {
    let code = code_of(&fields.command);
    let length = packet_bytes_of_code(code).expect("each command has a length");
    if buffer.len() < length {
        return Err(3);
    }
    if fields.unit > UNIT_MOST
        || fields.transaction > TRANSACTION_MOST
        || fields.sequence > PACKET_COUNT_MOST
        || fields_break_bounds(&fields.command)
    {
        return Err(9);
    }
    let packet = &mut buffer[..length];
    put_primary_header(packet, 1, 1, APID_COMMAND, fields.sequence, length);
    packet[6] = code as u8;
    packet[7] = 0;
    put16(packet, 8, fields.unit * 4_096 + fields.transaction);
    match &fields.command {
        Command::Dump { size, address } => {
            put16(packet, 10, *size);
            put32(packet, 12, address.0);
        }
        Command::Cancel => {}
        Command::Load { size, address, data } => {
            put16(packet, 10, *size);
            put32(packet, 12, address.0);
            for k in 0..LOAD_WORDS {
                // Words past the load's size go out as 0, whatever was given.
                let word = if k < *size as usize { data[k] } else { 0 };
                put32(packet, 16 + 4 * k, word);
            }
        }
        Command::PoolStatistics { pool } => put16(packet, 10, *pool),
        Command::SymbolValue { name } => put_name(packet, name),
        Command::DumpByName { name, offset, size } => {
            put_name(packet, name);
            put32(packet, 60, *offset as u32);
            put16(packet, 64, *size);
            put16(packet, 66, 0);
        }
    }
    packet[7] = 0xFF ^ exclusive_or(packet);
    Ok(length)
}

/// Name size, a zero pad, and the name. By A2 the rest of the name's field goes out as 0, like a load's unused words.
fn put_name(packet: &mut [u8], name: &Name) {
    packet[10] = name.size as u8;
    packet[11] = 0;
    for k in 0..NAME_BYTES {
        packet[12 + k] = if k < name.size as usize { name.bytes[k] } else { 0 };
    }
}

/// The command reader: the fields, or the number that the packet earns without state and symbols. A load's words past its size, and the bytes past a
/// name, are given as 0.
pub fn read_command(packet: &[u8]) -> Result<Fields, u32> {
    let number = frame_number(packet);
    if number != 0 {
        return Err(number);
    }
    let mut fields = fields_of(packet);
    if fields_break_bounds(&fields.command) || padding_is_wrong(packet) {
        return Err(9);
    }
    match &mut fields.command {
        Command::Load { size, data, .. } => data[*size as usize..].fill(0),
        Command::SymbolValue { name } | Command::DumpByName { name, .. } => name.bytes[name.size as usize..].fill(0),
        _ => {}
    }
    Ok(fields)
}

#[derive(Clone, Copy, PartialEq, Eq, Debug)]
pub struct PacketFields {
    pub count: u32,
    pub unit: u32,
    pub transaction: u32,
    pub tick: u32,
    pub requested_address: Address,
    pub requested_words: u32,
    pub data_address: Address,
    pub data_words: u32,
}

/// The packet reader's 4: less than a header, or a header that no slot writes, APID apart. The sequence flags are tested too: a slot only writes 3.
fn packet_header_is_wrong(packet: &[u8]) -> bool {
    packet.len() < PACKET_HEADER_BYTES
        || version_of(packet) != 0
        || type_of(packet) != 0
        || second_header_flag_of(packet) != 0
        || sequence_flags_of(packet) != 3
        || !length_field_is_right(packet)
}

/// The packet reader's 9: whether a dump command of some box could ask for this range.
fn could_be_a_dump(start: Address, words: u32) -> bool {
    aligned(start) && words >= 1 && words <= REQUEST_MOST && end_of(start, words) <= MEMORY_END
}

/// The packet reader's 9: whether slots would cut the request so. A cut begins a multiple of 1,016 words into it, and only the last one may be shorter.
fn is_a_cut(fields: &PacketFields) -> bool {
    let mut sent = 0;
    while sent < fields.requested_words {
        let left = fields.requested_words - sent;
        let words = if left > CUT { CUT } else { left };
        if u64::from(fields.data_address.0) == end_of(fields.requested_address, sent) && fields.data_words == words {
            return true;
        }
        sent += words;
    }
    false
}

/// The dump packet reader: the fields, and the data where they stand in the lent packet.
pub fn read_packet(packet: &[u8]) -> Result<(PacketFields, &[u8]), u32> {
    if packet_header_is_wrong(packet) {
        return Err(4);
    }
    if apid_of(packet) != APID_DUMP {
        return Err(5);
    }
    let fields = PacketFields {
        count: sequence_count_of(packet),
        unit: get16(packet, 6) / 4_096,
        transaction: get16(packet, 6) % 4_096,
        tick: get32(packet, 8),
        requested_address: Address(get32(packet, 12)),
        requested_words: get32(packet, 16),
        data_address: Address(get32(packet, 20)),
        data_words: get32(packet, 24),
    };
    if fields.data_words < 1 || fields.data_words > CUT || packet.len() != PACKET_HEADER_BYTES + 4 * fields.data_words as usize {
        return Err(7);
    }
    if !could_be_a_dump(fields.requested_address, fields.requested_words) || !is_a_cut(&fields) {
        return Err(9);
    }
    Ok((fields, &packet[PACKET_HEADER_BYTES..]))
}

// ------------------------------------------------------------------------------------------------------------------------------------
// The ground desk's check (paper 02, A6)
// ------------------------------------------------------------------------------------------------------------------------------------

const DESK_PACKETS_MOST: usize = 65;
const BAD_PACKET: u32 = 65_536;
const MISSING_PIECE: u32 = 131_072;

fn agree(first: &PacketFields, other: &PacketFields) -> bool {
    first.unit == other.unit
        && first.transaction == other.transaction
        && first.requested_address == other.requested_address
        && first.requested_words == other.requested_words
}

/// Whether packets, back to back and in any order, are one whole dump. In the list each length has two bytes.
pub fn check_dump(bytes: &[u8], list: &[u8]) -> u32 {
    if list.len() % 2 != 0 || list.len() > 2 * DESK_PACKETS_MOST {
        return 3;
    }
    let ends: Vec<u64> = list
        .chunks(2)
        .scan(0, |end, two| {
            *end += 256 * u64::from(two[0]) + u64::from(two[1]);
            Some(*end)
        })
        .collect();
    if ends.last().copied().unwrap_or(0) < bytes.len() as u64 {
        return 3;
    }
    let mut good: Vec<PacketFields> = vec![];
    for (number, end) in ends.iter().enumerate() {
        let start = if number == 0 { 0 } else { ends[number - 1] };
        let there = *end <= bytes.len() as u64;
        let packet = if there { read_packet(&bytes[start as usize..*end as usize]) } else { Err(4) };
        let fields = match packet {
            Ok((fields, _)) => fields,
            Err(_) => return BAD_PACKET + number as u32,
        };
        // In one request a piece is told by the address of its data.
        if good.iter().any(|earlier| !agree(earlier, &fields) || earlier.data_address == fields.data_address) {
            return BAD_PACKET + number as u32;
        }
        good.push(fields);
    }
    let Some(first) = good.first() else {
        return MISSING_PIECE;
    };
    let mut piece = 0;
    while CUT * piece < first.requested_words {
        let address = end_of(first.requested_address, CUT * piece);
        if !good.iter().any(|packet| u64::from(packet.data_address.0) == address) {
            return MISSING_PIECE + piece;
        }
        piece += 1;
    }
    0
}
