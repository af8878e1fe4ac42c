//! "Checked examples" E1 to E12 of paper 01, and requests A1 (a batch), A2 (symbol names), A4 (usable words), A5 (10 and 19) and A6 (whole dumps), against the model alone.
use second::model::*;

const BOTH: (bool, bool) = (true, true);

fn setup(regions: &[(u32, u32, (bool, bool))], pools: [(u32, u32); 2]) -> Setup {
    let mut table = [NO_REGION; REGIONS_MOST];
    for (i, (start, size, (load, dump))) in regions.iter().enumerate() {
        table[i] = Region { start: Address(*start), size: *size, load: *load, dump: *dump };
    }
    let pool = |(start, size): (u32, u32)| Pool { start: Address(start), size };
    Setup { region_count: regions.len() as u32, regions: table, pools: [pool(pools[0]), pool(pools[1])], unit: 2 }
}

fn started(regions: &[(u32, u32, (bool, bool))], pools: [(u32, u32); 2]) -> State {
    let (number, state) = start_up(&setup(regions, pools));
    assert_eq!(number, 0);
    state
}

fn usual() -> (State, Vec<u32>) {
    (started(&[(0x1000, 4, BOTH)], [(0, 0); 2]), vec![0x11111111, 0x22222222, 0x33333333, 0x44444444])
}

fn bytes(hex: &str) -> Vec<u8> {
    hex.split_whitespace().map(|byte| u8::from_str_radix(byte, 16).unwrap()).collect()
}

fn packet(sequence: u32, transaction: u32, command: Command) -> Vec<u8> {
    let mut buffer = vec![0xAA; 80];
    let length = write_command(&Fields { sequence, unit: 2, transaction, command }, &mut buffer).unwrap();
    assert!(buffer[length..].iter().all(|&byte| byte == 0xAA));
    buffer.truncate(length);
    buffer
}

fn dump(transaction: u32, size: u32, address: u32) -> Vec<u8> {
    packet(0, transaction, Command::Dump { size, address: Address(address) })
}

/// A packet that the writer would not write: a body of its own with right header and check byte.
fn raw(code: u8, body: &[u8]) -> Vec<u8> {
    let mut all = vec![0x1E, 0x44, 0xC0, 0, 0, (1 + body.len()) as u8, code, 0];
    all.extend_from_slice(body);
    all[7] = 0xFF ^ all.iter().fold(0, |a, b| a ^ b);
    all
}

fn give(state: &mut State, packet: &[u8], image: &mut [u32]) -> u32 {
    give_with(state, packet, &[], image)
}

fn give_with(state: &mut State, packet: &[u8], symbols: &[u8], image: &mut [u32]) -> u32 {
    let mut reply = [0x5C; 40];
    let before = state.clone();
    let image_before = image.to_vec();
    let answer = command_call(state, packet, symbols, image, &mut reply);
    *state = answer.state;
    if answer.reply_length == 0 {
        assert_eq!(reply, [0x5C; 40]);
    }
    if answer.number == 0 {
        assert_eq!(state.accepted, before.accepted + 1);
    } else {
        assert_eq!(image, image_before);
        assert_eq!((state.accepted, state.places, state.last), (before.accepted, before.places, before.last));
        assert_eq!((state.count_785, state.count_786, state.count_788), (before.count_785, before.count_786, before.count_788));
    }
    answer.number
}

fn slot(state: &mut State, tick: u32, image: &[u32]) -> (u32, Vec<u8>) {
    let mut buffer = vec![0x3D; 4_100];
    let answer = slot_call(state, tick, image, &mut buffer);
    *state = answer.state;
    assert!(buffer[answer.length as usize..].iter().all(|&byte| byte == 0x3D));
    buffer.truncate(answer.length as usize);
    (answer.number, buffer)
}

#[test]
fn e1_dump_command() {
    let (mut state, mut image) = usual();
    let written = dump(0x123, 2, 0x1004);
    assert_eq!(written, bytes("1E 44 C0 00 00 09 00 78 21 23 00 02 00 00 10 04"));
    assert_eq!(give(&mut state, &written, &mut image), 0);
    assert_eq!(state.places[0], DumpPlace::Busy(Dump { transaction: 0x123, start: Address(0x1004), requested: 2, sent: 0 }));
}

#[test]
fn e2_slot() {
    let (mut state, mut image) = usual();
    assert_eq!(give(&mut state, &dump(0x123, 2, 0x1004), &mut image), 0);
    let (number, packet) = slot(&mut state, 5, &image);
    assert_eq!(number, 0);
    let expected = "03 14 C0 00 00 1D 21 23 00 00 00 05 00 00 10 04 00 00 00 02 00 00 10 04 00 00 00 02 22 22 22 22 33 33 33 33";
    assert_eq!(packet, bytes(expected));
    assert_eq!((state.last, state.count_788, state.places), (0, 1, [DumpPlace::Idle; 4]));
    let before = state.clone();
    assert_eq!(slot(&mut state, 6, &image), (16, vec![]));
    assert_eq!(state, before);
    let (fields, data) = read_packet(&packet).unwrap();
    assert_eq!((fields.unit, fields.transaction, fields.tick, data), (2, 0x123, 5, &packet[28..]));
}

#[test]
fn e3_load_command() {
    let (mut state, mut image) = usual();
    let mut data = [7; LOAD_WORDS];
    data[0] = 0x01020304;
    let written = packet(1, 0xABC, Command::Load { size: 1, address: Address(0x1000), data });
    let mut expected = bytes("1E 44 C0 01 00 35 04 D6 2A BC 00 01 00 00 10 00 01 02 03 04");
    expected.extend_from_slice(&[0; 40]);
    assert_eq!(written, expected);
    assert_eq!(give(&mut state, &written, &mut image), 0);
    assert_eq!(image, [0x01020304, 0x22222222, 0x33333333, 0x44444444]);
}

#[test]
fn e4_whole_region_and_one_more() {
    let (mut state, mut image) = usual();
    assert_eq!(give(&mut state, &dump(1, 4, 0x1000), &mut image), 0);
    assert_eq!(give(&mut state, &dump(2, 5, 0x1000), &mut image), 19);
    assert_eq!(state.refused, 1);
}

#[test]
fn e5_e6_address_and_size() {
    let (mut state, mut image) = usual();
    assert_eq!(give(&mut state, &raw(0, &bytes("21 23 00 01 00 00 10 02")), &mut image), 9);
    assert_eq!(give(&mut state, &raw(0, &bytes("21 23 00 00 00 00 10 00")), &mut image), 9);
    let mut buffer = [0x77; 60];
    let command = Command::Dump { size: 1, address: Address(0x1002) };
    assert_eq!(write_command(&Fields { sequence: 0, unit: 2, transaction: 0x123, command }, &mut buffer), Err(9));
    assert_eq!(buffer, [0x77; 60]);
}

#[test]
fn e7_load_sizes() {
    let mut state = started(&[(0x1000, 11, BOTH)], [(0, 0); 2]);
    let mut image = vec![0; 11];
    let data = [1, 2, 3, 4, 5, 6, 7, 8, 9, 10, 11];
    assert_eq!(give(&mut state, &packet(0, 1, Command::Load { size: 11, address: Address(0x1000), data }), &mut image), 0);
    assert_eq!(image, data);
    let mut body = bytes("20 01 00 0C 00 00 10 00");
    body.extend_from_slice(&[0; 44]);
    assert_eq!(give(&mut state, &raw(4, &body), &mut image), 9);
}

#[test]
fn e8_packets_of_a_dump() {
    for (words, packets, last) in [(1_016, 1, 1_016), (1_017, 2, 1), (65_535, 65, 511)] {
        let mut state = started(&[(0x1000, 65_535, BOTH)], [(0, 0); 2]);
        let mut image: Vec<u32> = (0..65_535u32).map(|i| i.wrapping_mul(0x9E37_79B1)).collect();
        assert_eq!(give(&mut state, &dump(9, words, 0x1000), &mut image), 0);
        let mut joined = vec![];
        let mut count = 0;
        let mut words_last = 0;
        loop {
            let (number, packet) = slot(&mut state, count, &image);
            if number == 16 {
                break;
            }
            count += 1;
            let (fields, data) = read_packet(&packet).unwrap();
            words_last = fields.data_words;
            joined.extend(data.chunks(4).map(|b| u32::from_be_bytes([b[0], b[1], b[2], b[3]])));
        }
        assert_eq!((count, words_last), (packets, last));
        assert_eq!(joined, image[..words as usize]);
    }
    // The bound of 260 slots, with three others kept busy all the time.
    let mut state = started(&[(0x1000, 65_535, BOTH)], [(0, 0); 2]);
    let mut image = vec![0; 65_535];
    for transaction in 0..4 {
        assert_eq!(give(&mut state, &dump(transaction, 65_535, 0x1000), &mut image), 0);
    }
    let mut seen = 0;
    for _ in 0..260 {
        let (_, packet) = slot(&mut state, 0, &image);
        seen += usize::from(packet[7] == 3);
    }
    assert_eq!(seen, 65);
}

#[test]
fn e9_top_of_memory() {
    let mut state = started(&[(0xFFFF_FFF0, 4, BOTH)], [(0, 0); 2]);
    let mut image = vec![1, 2, 3, 4];
    assert_eq!(give(&mut state, &dump(1, 1, 0xFFFF_FFFC), &mut image), 0);
    assert_eq!(give(&mut state, &dump(2, 2, 0xFFFF_FFFC), &mut image), 19);
    let (number, packet) = slot(&mut state, 0, &image);
    assert_eq!((number, &packet[28..]), (0, &[0, 0, 0, 4][..]));
}

#[test]
fn e10_touching_regions() {
    let mut state = started(&[(0x1000, 4, BOTH), (0x1010, 4, BOTH)], [(0, 0); 2]);
    let mut image = vec![0; 8];
    assert_eq!(give(&mut state, &dump(1, 2, 0x100C), &mut image), 19);
    assert_eq!(give(&mut state, &dump(1, 1, 0x100C), &mut image), 0);
}

#[test]
fn e11_pool_statistics() {
    let state = started(&[(0x1000, 6, BOTH)], [(0, 0), (0x1000, 6)]);
    let mut image = vec![0x8000_0002, 5, 4, 5, 5, 5];
    let written = packet(0, 0x123, Command::PoolStatistics { pool: 1 });
    let mut reply = [0xEE; 35];
    let answer = command_call(&state, &written, &[], &mut image, &mut reply);
    assert_eq!((answer.number, answer.reply_length, answer.state.count_785, answer.state.accepted), (0, 32, 1, 1));
    let mut expected = bytes("03 11 C0 00 00 19 21 23 00 01 00 00");
    for figure in [4u32, 1, 3, 2, 1] {
        expected.extend_from_slice(&figure.to_be_bytes());
    }
    expected.extend_from_slice(&[0xEE; 3]);
    assert_eq!(reply.to_vec(), expected);
}

#[test]
fn a4_usable_words() {
    for (words, figures) in [
        ([3u32, 0, 0, 2, 0], [5u32, 2, 2, 0, 0]),
        ([2, 0, 3, 0, 0], [5, 2, 2, 0, 0]),
        ([0x8000_0005, 0, 0, 0, 0], [0, 0, 0, 5, 1]),
        ([1, 1, 1, 1, 1], [5, 5, 0, 0, 0]),
        ([1, 0x8000_0004, 0, 0, 0], [1, 1, 0, 4, 1]),
        ([5, 0, 0, 0, 0], [5, 1, 4, 0, 0]),
    ] {
        let state = started(&[(0x1000, 5, BOTH)], [(0x1000, 5), (0, 0)]);
        let mut reply = [0; 32];
        let written = packet(0, 1, Command::PoolStatistics { pool: 0 });
        assert_eq!(command_call(&state, &written, &[], &mut words.to_vec(), &mut reply).number, 0);
        assert_eq!(reply[12..], figures.map(u32::to_be_bytes).concat());
    }
}

#[test]
fn e12_four_places() {
    let (mut state, mut image) = usual();
    for transaction in 0..4 {
        assert_eq!(give(&mut state, &dump(transaction, 1, 0x1000), &mut image), 0);
    }
    assert_eq!(give(&mut state, &dump(4, 1, 0x1000), &mut image), 13);
    assert_eq!(give(&mut state, &dump(2, 1, 0x1000), &mut image), 12);
}

#[test]
fn start_up_refused() {
    let (number, state) = start_up(&setup(&[], [(0, 0); 2]));
    assert_eq!((number, &state), (17, &state_of_zero_regions()));
    assert_eq!(state.last, 3);
    let answer = command_call(&state, &[], &[], &mut [], &mut []);
    assert_eq!((answer.number, answer.state), (1, state));
}

#[test]
fn a1_batch() {
    // Eight words at 1000 hex, the first six of them pool 1 as in E11.
    let state = started(&[(0x1000, 8, BOTH)], [(0, 0), (0x1000, 6)]);
    let mut image = vec![0x8000_0002, 5, 4, 5, 5, 5, 0x7777_7777, 0x8888_8888];
    let statistics = packet(0, 0x123, Command::PoolStatistics { pool: 1 });
    let mut data = [0; LOAD_WORDS];
    data[0] = 0x8000_0004;
    let load = packet(1, 0xABC, Command::Load { size: 1, address: Address(0x1008), data });
    let whole = dump(0x123, 8, 0x1000);
    let mut buffer = statistics.clone();
    buffer.extend_from_slice(&load);
    buffer.extend_from_slice(&whole);
    let (pool_at, load_at, dump_at, end) = (0, 12, 72, 88);
    assert_eq!(buffer.len(), end as usize);
    let items = [
        (pool_at, 12),         // figures of E11
        (load_at, 60),         // the free block becomes used
        (pool_at, 12),         // the same bytes again: other figures and the next count
        (dump_at, 16),         // to the last byte of the buffer
        (dump_at, 17),         // one byte past it: an empty packet, not the dump again (which would be 12)
        (dump_at, 16),         // 12
        (end, 0),              // empty
        (u32::MAX, 13),        // as whole numbers far past the end; modulo 2^32 it would end with the first packet
        (u32::MAX - 11, 24),   // the same, as long as two of them
    ];
    let starts: Vec<u32> = items.iter().map(|item| item.0).collect();
    let lengths: Vec<u32> = items.iter().map(|item| item.1).collect();
    let mut replies = [0xEE; 32 * 9 + 3];
    assert!(!batch_is_refused(9, 9, 9, replies.len()));
    let batch = batch_call(&state, &buffer, &starts, &lengths, &[], &mut image, &mut replies);
    let got: Vec<(u32, u32)> = batch.answers.iter().map(|answer| (answer.number, answer.reply_length)).collect();
    assert_eq!(got, [(0, 32), (0, 0), (0, 32), (0, 0), (4, 0), (12, 0), (4, 0), (4, 0), (4, 0)]);
    assert_eq!((batch.state.accepted, batch.state.refused, batch.state.count_785), (4, 5, 2));
    assert_eq!(batch.state.places[0], DumpPlace::Busy(Dump { transaction: 0x123, start: Address(0x1000), requested: 8, sent: 0 }));
    assert_eq!(batch.state.places[1..], [DumpPlace::Idle; 3]);
    assert_eq!(image, [0x8000_0002, 5, 0x8000_0004, 5, 5, 5, 0x7777_7777, 0x8888_8888]);
    let reply = |count: u8, figures: [u32; 5]| {
        let mut all = bytes("03 11 C0 00 00 19 21 23 00 01 00 00");
        all[3] = count;
        all.extend(figures.iter().flat_map(|figure| figure.to_be_bytes()));
        all
    };
    assert_eq!(replies[..32], reply(0, [4, 1, 3, 2, 1]));
    assert_eq!(replies[32..64], [0xEE; 32]);
    assert_eq!(replies[64..96], reply(1, [0, 0, 0, 6, 2]));
    assert!(replies[96..].iter().all(|&byte| byte == 0xEE));
}

#[test]
fn a1_batch_refused() {
    // Items and the other list, records, reply bytes.
    assert!(!batch_is_refused(0, 0, 0, 0));
    assert!(!batch_is_refused(64, 64, 64, 2_048));
    assert!(!batch_is_refused(3, 3, 9, 100));
    assert!(batch_is_refused(65, 65, 65, 2_080));
    assert!(batch_is_refused(3, 2, 9, 100));
    assert!(batch_is_refused(2, 3, 9, 100));
    assert!(batch_is_refused(3, 3, 2, 100));
    assert!(batch_is_refused(3, 3, 3, 95));
}

#[test]
fn a1_batch_of_a_state_that_is_not_good() {
    let state = state_of_zero_regions();
    let batch = batch_call(&state, &[], &[0, 5], &[0, 0], &[], &mut [], &mut [0; 64]);
    assert_eq!(batch, BatchAnswer { state, answers: vec![ItemAnswer { number: 1, reply_length: 0 }; 2] });
}

// ------------------------------------------------------------------------------------------------------------------------------------
// Request A2
// ------------------------------------------------------------------------------------------------------------------------------------

fn name(text: &str) -> Name {
    let mut bytes = [0; NAME_BYTES];
    bytes[..text.len()].copy_from_slice(text.as_bytes());
    Name { size: text.len() as u32, bytes }
}

fn record(kind: u8, text: &str, number: u32) -> Vec<u8> {
    let mut all = vec![kind, text.len() as u8, 0, 0];
    all.extend_from_slice(&name(text).bytes);
    all.extend_from_slice(&number.to_be_bytes());
    all
}

const LONG: &str = "abcdefghijklmnopqrstuvwxyzABCDEFGHIJKLMNOPQRSTUV";

/// A value, a name of which it is the beginning, an alias, an alias of that alias, and a name of 48 bytes.
fn symbols() -> Vec<u8> {
    [record(0, "AB", 0x1004), record(0, "ABC", 0x1010), record(1, "X", 1), record(1, "Y", 2), record(0, LONG, 0xFFFF_FFFF)].concat()
}

fn value_command(text: &str) -> Vec<u8> {
    packet(0, 0x123, Command::SymbolValue { name: name(text) })
}

fn by_name(transaction: u32, text: &str, offset: i32, size: u32) -> Vec<u8> {
    packet(0, transaction, Command::DumpByName { name: name(text), offset, size })
}

/// A byte of a packet changed, and the check byte mended.
fn changed(mut packet: Vec<u8>, at: usize, byte: u8) -> Vec<u8> {
    packet[7] ^= packet[at] ^ byte;
    packet[at] = byte;
    packet
}

#[test]
fn a2_value_of_a_symbol() {
    let written = value_command("AB");
    let mut expected = bytes("1E 44 C0 00 00 35 08 5B 21 23 02 00 41 42");
    expected.extend_from_slice(&[0; 46]);
    assert_eq!(written, expected);
    let (state, mut image) = usual();
    let mut reply = [0xEE; 40];
    let answer = command_call(&state, &written, &symbols(), &mut image, &mut reply);
    assert_eq!((answer.number, answer.reply_length, answer.state.accepted, answer.state.refused), (0, 12, 1, 0));
    assert_eq!((answer.state.count_785, answer.state.count_786, answer.state.count_788), (0, 1, 0));
    let mut expected = bytes("03 12 C0 00 00 05 21 23 00 00 10 04");
    expected.extend_from_slice(&[0xEE; 28]);
    assert_eq!(reply.to_vec(), expected);
    // The count, at its end.
    let state = State { count_786: 16_383, ..state };
    let answer = command_call(&state, &written, &symbols(), &mut image, &mut reply);
    assert_eq!((answer.number, answer.state.count_786, &reply[..4]), (0, 0, &[0x03, 0x12, 0xFF, 0xFF][..]));
    let state = State { count_786: 16_384, ..state };
    assert_eq!(command_call(&state, &written, &symbols(), &mut image, &mut reply).number, 1);
}

#[test]
fn a2_names() {
    let table = symbol_table(&symbols()).unwrap();
    let value = |text| look_up(&table, &name(text));
    // The beginning of another name, an alias, an alias of an alias, 48 bytes.
    assert_eq!((value("AB"), value("ABC")), (Some(0x1004), Some(0x1010)));
    assert_eq!((value("X"), value("Y")), (Some(0x1010), Some(0x1010)));
    assert_eq!(value(LONG), Some(0xFFFF_FFFF));
    for unknown in ["A", "ABCD", "B", "x", "AB\0", &LONG[..47]] {
        assert_eq!(value(unknown), None, "{unknown}");
    }
    // What stands in the field past the name says nothing.
    let mut longer = name("ABC");
    longer.size = 2;
    assert_eq!(look_up(&table, &longer), Some(0x1004));
    let (mut state, mut image) = usual();
    let sent = changed(value_command("AB"), 14, b'C');
    assert_eq!(give_with(&mut state, &sent, &symbols(), &mut image), 0);
    assert_eq!(give_with(&mut state, &value_command("A"), &symbols(), &mut image), 18);
    assert_eq!((state.accepted, state.refused, state.count_786), (1, 1, 1));
}

#[test]
fn a2_dump_by_name() {
    // Two words before ABC, through its alias's alias.
    let written = by_name(0x123, "Y", -8, 2);
    let mut expected = bytes("1E 44 C0 00 00 3D 09 0E 21 23 01 00 59");
    expected.extend_from_slice(&[0; 47]);
    expected.extend_from_slice(&bytes("FF FF FF F8 00 02 00 00"));
    assert_eq!(written, expected);
    let (mut state, mut image) = usual();
    assert_eq!(give_with(&mut state, &written, &symbols(), &mut image), 0);
    assert_eq!(state.places[0], DumpPlace::Busy(Dump { transaction: 0x123, start: Address(0x1008), requested: 2, sent: 0 }));
    let (number, packet) = slot(&mut state, 5, &image);
    assert_eq!((number, &packet[28..]), (0, &bytes("33 33 33 33 44 44 44 44")[..]));
    assert_eq!((state.accepted, state.count_785, state.count_786, state.count_788), (1, 0, 0, 1));
}

#[test]
fn a2_addresses() {
    let mut state = started(&[(0, 4, BOTH), (0xFFFF_FFF0, 4, BOTH)], [(0, 0); 2]);
    let mut image = vec![0; 8];
    let table = [record(0, "low", 4), record(0, "top", 0xFFFF_FFFC), record(0, "odd", 0xFFFF_FFFE), record(0, "half", 0x8000_0000)].concat();
    for (text, offset, number) in [
        ("low", -4, 0),
        ("low", -8, 9),        // below 0; modulo 2^32 it is in the second region
        ("low", -5, 9),
        ("top", 0, 0),
        ("top", 4, 9),         // 2^32; modulo 2^32 it is in the first region
        ("top", -12, 0),
        ("top", -16, 10),
        ("odd", -2, 0),
        ("odd", 0, 9),
        ("odd", 2, 9),
        ("half", i32::MIN, 0), // 0
        ("half", i32::MAX, 9), // FFFFFFFF
        ("half", i32::MAX - 3, 0),
        ("low", i32::MIN, 9),
        ("low", 8, 0),
        ("low", 12, 10),
    ] {
        let mut state = state.clone();
        assert_eq!(give_with(&mut state, &by_name(1, text, offset, 1), &table, &mut image), number, "{text} {offset}");
        assert_eq!((state.accepted, state.refused), if number == 0 { (1, 0) } else { (0, 1) });
    }
    // 11 to 13 after 10.
    state.setup.regions[0].dump = false;
    assert_eq!(give_with(&mut state, &by_name(1, "low", 0, 1), &table, &mut image), 11);
    for transaction in 0..4 {
        assert_eq!(give_with(&mut state, &by_name(transaction, "top", -12, 4), &table, &mut image), 0);
    }
    assert_eq!(give_with(&mut state, &by_name(2, "top", 0, 1), &table, &mut image), 12);
    assert_eq!(give_with(&mut state, &by_name(4, "top", 0, 1), &table, &mut image), 13);
}

#[test]
fn a2_order_of_tests() {
    let (state, mut image) = usual();
    let mut number = |packet: &[u8], symbols: &[u8]| {
        let mut after = state.clone();
        let number = give_with(&mut after, packet, symbols, &mut image);
        assert_eq!((after.accepted, after.refused), if number == 8 { (0, 0) } else { (0, 1) });
        number
    };
    let table = symbols();
    let broken = &table[..55];
    let good = by_name(1, "AB", 0, 1);
    let unknown = changed(good.clone(), 12, b'Q');
    let no_size = |packet: &[u8]| changed(packet.to_vec(), 65, 0);
    // 8, 17, 9 of the name, the pad and the zero bits, 18, 9 of the address and the size.
    assert_eq!(number(&changed(unknown.clone(), 8, 0x30), broken), 8);
    assert_eq!(number(&good, broken), 17);
    assert_eq!(number(&changed(unknown.clone(), 10, 0), broken), 17);
    for (at, byte) in [(10, 0), (10, 49), (10, 255), (11, 1), (66, 0x80), (67, 1)] {
        assert_eq!(number(&changed(unknown.clone(), at, byte), &table), 9, "{at}");
        assert_eq!(number(&changed(good.clone(), at, byte), &[]), 9, "{at}");
    }
    assert_eq!(number(&unknown, &table), 18);
    assert_eq!(number(&no_size(&unknown), &table), 18);
    assert_eq!(number(&changed(no_size(&unknown), 63, 1), &table), 18);
    assert_eq!(number(&good, &[]), 18);
    assert_eq!(number(&no_size(&good), &table), 9);
    assert_eq!(number(&changed(good.clone(), 63, 1), &table), 9);
    assert_eq!(number(&changed(good.clone(), 65, 5), &table), 19);
    // Code 8 has the pad and no more; 17 and 18 are for it too.
    let value = value_command("AB");
    assert_eq!(number(&changed(value.clone(), 11, 1), &table), 9);
    assert_eq!(number(&changed(value.clone(), 10, 1), &table), 18);
    assert_eq!(number(&value, broken), 17);
    // Other codes do not look at the table.
    let mut after = state.clone();
    assert_eq!(give_with(&mut after, &dump(1, 1, 0x1000), broken, &mut image), 0);
}

#[test]
fn a2_tables() {
    let many = |n: u32| (0..n).flat_map(|i| record(0, &format!("s{i}"), i)).collect::<Vec<u8>>();
    for n in [0, 1, 2, 255, 256] {
        assert_eq!(symbol_table(&many(n)).map(|table| table.len()), Some(n as usize));
    }
    assert_eq!(symbol_table(&many(257)), None);
    for length in [1, 55, 57, 111] {
        assert_eq!(symbol_table(&many(2)[..length]), None);
    }
    // A chain through all 256.
    let chain: Vec<u8> = (0..256u32).flat_map(|i| record(u8::from(i > 0), &format!("s{i}"), if i == 0 { 7 } else { i - 1 })).collect();
    assert_eq!(look_up(&symbol_table(&chain).unwrap(), &name("s255")), Some(7));
    // One byte of a good table: kind, length, zero bytes, padding.
    let table = symbols();
    for (at, byte) in [(0, 2), (0, 255), (1, 0), (1, 1), (1, 49), (2, 1), (3, 0x80), (6, 1), (51, 1), (56 * 4 + 1, 47)] {
        let mut other = table.clone();
        other[at] = byte;
        assert_eq!(symbol_table(&other), None, "{at}");
    }
    // Aliases: of itself, of a later one, of none, in a loop; of the first they may be.
    for number in [2, 3, 4, 5, 256, 0x0100_0001, u32::MAX] {
        assert_eq!(symbol_table(&[record(0, "a", 1), record(0, "b", 2), record(1, "c", number), record(0, "d", 3)].concat()), None, "{number}");
    }
    assert_eq!(symbol_table(&[record(1, "a", 1), record(1, "b", 0)].concat()), None);
    assert_eq!(symbol_table(&record(1, "a", 0)), None);
    assert!(symbol_table(&[record(0, "a", 9), record(1, "b", 0)].concat()).is_some());
    // Equal names, and names that differ in a zero byte at the end.
    assert_eq!(symbol_table(&[record(0, "a", 1), record(0, "b", 1), record(1, "a", 0)].concat()), None);
    let near = symbol_table(&[record(0, "a", 1), record(0, "a\0", 2)].concat()).unwrap();
    assert_eq!((look_up(&near, &name("a")), look_up(&near, &name("a\0")), look_up(&near, &name("a\0\0"))), (Some(1), Some(2), None));
}

#[test]
fn a2_reader_and_writer() {
    let fields = |command| Fields { sequence: 0, unit: 2, transaction: 0x123, command };
    let mut buffer = [0x77; 80];
    for (size, number) in [(0, Err(9)), (1, Ok(60)), (48, Ok(60)), (49, Err(9)), (257, Err(9))] {
        let command = Command::SymbolValue { name: Name { size, ..name(LONG) } };
        assert_eq!(write_command(&fields(command), &mut buffer), number, "{size}");
    }
    for (size, number) in [(0, Err(9)), (1, Ok(68)), (65_535, Ok(68)), (65_536, Err(9))] {
        let command = Command::DumpByName { name: name("AB"), offset: -1, size };
        assert_eq!(write_command(&fields(command), &mut buffer), number, "{size}");
    }
    assert_eq!(write_command(&fields(Command::DumpByName { name: name("AB"), offset: 0, size: 1 }), &mut buffer[..67]), Err(3));
    // Bytes past the name are written as 0.
    let command = Command::DumpByName { name: Name { size: 2, ..name(LONG) }, offset: i32::MIN, size: 3 };
    let written = packet(0, 0x123, command);
    let command = Command::DumpByName { name: name("ab"), offset: i32::MIN, size: 3 };
    assert_eq!((written[10..15].to_vec(), read_command(&written)), (bytes("02 00 61 62 00"), Ok(fields(command))));
    // The reader's 9, which needs no table; an offset is never wrong to it.
    for (at, byte) in [(10, 0), (10, 49), (11, 1), (65, 0), (66, 1), (67, 1)] {
        assert_eq!(read_command(&changed(written.clone(), at, byte)), Err(9), "{at}");
    }
    assert!(read_command(&changed(written.clone(), 63, 3)).is_ok());
    assert_eq!(read_command(&changed(value_command("AB"), 11, 1)), Err(9));
}

#[test]
fn a2_batch() {
    // A name, its dump, an unknown name, the name again, and the same with a table that is none.
    let (state, mut image) = usual();
    let packets = [value_command("X"), by_name(7, "AB", 4, 2), value_command("Z"), value_command("Y")];
    let buffer = packets.concat();
    let (starts, lengths) = ([0, 60, 128, 188], [60, 68, 60, 60]);
    let mut replies = [0xEE; 128];
    let batch = batch_call(&state, &buffer, &starts, &lengths, &symbols(), &mut image, &mut replies);
    let got: Vec<(u32, u32)> = batch.answers.iter().map(|answer| (answer.number, answer.reply_length)).collect();
    assert_eq!(got, [(0, 12), (0, 0), (18, 0), (0, 12)]);
    assert_eq!((batch.state.accepted, batch.state.refused, batch.state.count_786), (3, 1, 2));
    assert_eq!(batch.state.places[0], DumpPlace::Busy(Dump { transaction: 7, start: Address(0x1008), requested: 2, sent: 0 }));
    assert_eq!(replies[..13], bytes("03 12 C0 00 00 05 21 23 00 00 10 10 EE"));
    assert_eq!(replies[96..109], bytes("03 12 C0 01 00 05 21 23 00 00 10 10 EE"));
    assert!(replies[12..96].iter().all(|&byte| byte == 0xEE));
    let batch = batch_call(&state, &buffer, &starts, &lengths, &symbols()[1..], &mut image, &mut replies);
    assert!(batch.answers.iter().all(|answer| *answer == ItemAnswer { number: 17, reply_length: 0 }));
    assert_eq!(batch.state, State { refused: 4, ..state });
}

// ------------------------------------------------------------------------------------------------------------------------------------
// Request A5
// ------------------------------------------------------------------------------------------------------------------------------------

fn load(size: u32, address: u32) -> Vec<u8> {
    packet(0, 1, Command::Load { size, address: Address(address), data: [7; LOAD_WORDS] })
}

#[test]
fn a5_how_a_range_missed() {
    // Two that touch, a gap of eight words, a third; and one that ends at 2^32.
    let state = started(&[(0x1000, 4, BOTH), (0x1010, 4, BOTH), (0x1040, 4, BOTH), (0xFFFF_FFF0, 4, BOTH)], [(0, 0); 2]);
    for (address, size, number) in [
        (0x1000, 5, 19),          // over both
        (0x1000, 8, 19),
        (0x1000, 9, 19),
        (0x100C, 2, 19),
        (0x1010, 1, 0),           // the second's first word
        (0x1010, 4, 0),
        (0x1010, 5, 19),          // into the gap
        (0x101C, 2, 19),
        (0x101C, 10, 19),         // through it into the third
        (0x1020, 1, 10),          // at the second's end
        (0x1020, 9, 10),
        (0x103C, 1, 10),
        (0x103C, 2, 10),          // from the gap into the third
        (0x103C, 6, 10),          // and out of it again
        (0x1040, 4, 0),
        (0x1040, 5, 19),
        (0x1050, 1, 10),
        (0x0FFC, 1, 10),
        (0x0FFC, 2, 10),
        (0, 1, 10),
        (0, 65_535, 10),          // over the three
        (0xFFFF_FFEC, 1, 10),
        (0xFFFF_FFEC, 2, 10),
        (0xFFFF_FFEC, 6, 10),     // past 2^32
        (0xFFFF_FFFC, 1, 0),
        (0xFFFF_FFFC, 2, 19),
        (0xFFFF_FFF0, 5, 19),
        (0xFFFF_FFF0, 65_535, 19),
    ] {
        let table = record(0, "at", address);
        let mut packets = vec![dump(1, size, address), by_name(1, "at", 0, size)];
        if size <= 11 {
            packets.push(load(size, address));
        }
        for packet in packets {
            let mut after = state.clone();
            let code = packet[6];
            assert_eq!(give_with(&mut after, &packet, &table, &mut [0; 16]), number, "code {code}, {size} at {address:X}");
            assert_eq!((after.accepted, after.refused), if number == 0 { (1, 0) } else { (0, 1) });
        }
    }
    // An absent pool.
    let mut after = state.clone();
    assert_eq!(give(&mut after, &packet(0, 1, Command::PoolStatistics { pool: 0 }), &mut [0; 16]), 10);
    assert_eq!(after.refused, 1);
}

#[test]
fn a5_order_of_tests() {
    // 19 after 9 and before 11, 12 and 13; its count goes on from 65,535 at 0.
    let mut state = started(&[(0x1000, 4, (false, false)), (0x1010, 4, BOTH)], [(0, 0); 2]);
    let mut image = vec![0; 8];
    assert_eq!(give(&mut state, &raw(0, &bytes("20 01 00 05 00 00 10 02")), &mut image), 9);
    for packet in [dump(1, 5, 0x1000), load(5, 0x1000)] {
        assert_eq!(give(&mut state, &packet, &mut image), 19);
    }
    for packet in [dump(1, 4, 0x1000), load(4, 0x1000)] {
        assert_eq!(give(&mut state, &packet, &mut image), 11);
    }
    for transaction in 0..4 {
        assert_eq!(give(&mut state, &dump(transaction, 4, 0x1010), &mut image), 0);
    }
    state.refused = 65_535;
    for (transaction, refused) in [(2, 0), (4, 1)] {
        assert_eq!(give(&mut state, &dump(transaction, 5, 0x1010), &mut image), 19);
        assert_eq!(state.refused, refused);
    }
}

/// The packets of a dump, as slots write them.
fn packets_of(transaction: u32, words: u32) -> Vec<Vec<u8>> {
    let mut state = started(&[(0x1000, words, BOTH)], [(0, 0); 2]);
    let mut image: Vec<u32> = (0..words).collect();
    assert_eq!(give(&mut state, &dump(transaction, words, 0x1000), &mut image), 0);
    (0..words.div_ceil(1_016))
        .map(|tick| {
            let (number, packet) = slot(&mut state, tick, &image);
            assert_eq!(number, 0);
            packet
        })
        .collect()
}

/// The check of these packets, as they are handed over.
fn check(packets: &[&[u8]]) -> u32 {
    let list: Vec<u8> = packets.iter().flat_map(|packet| (packet.len() as u16).to_be_bytes()).collect();
    check_dump(&packets.concat(), &list)
}

#[test]
fn a6_whole_dumps() {
    for words in [1, 1_016, 1_017, 2_033, 65_535] {
        let packets = packets_of(0x123, words);
        let mut all: Vec<&[u8]> = packets.iter().map(|packet| &packet[..]).collect();
        assert_eq!(check(&all), 0);
        all.reverse();
        assert_eq!(check(&all), 0);
        all.rotate_left(packets.len() / 2);
        assert_eq!(check(&all), 0);
        // Without the packet at i, the piece that it has.
        for i in 0..packets.len() {
            let rest: Vec<&[u8]> = (0..packets.len()).filter(|&k| k != i).map(|k| &packets[k][..]).collect();
            assert_eq!(check(&rest), 131_072 + if rest.is_empty() { 0 } else { i as u32 });
        }
    }
}

#[test]
fn a6_bad_packets() {
    let (a, b, other) = (packets_of(0x123, 3_000), packets_of(0x124, 3_000), packets_of(0x123, 2_999));
    assert_eq!(check(&[&a[0], &a[1], &a[1], &a[2]]), 65_538);
    assert_eq!(check(&[&a[0], &b[1], &a[2]]), 65_537);
    assert_eq!(check(&[&b[0], &a[1], &a[2]]), 65_537);
    assert_eq!(check(&[&a[0], &other[1], &a[2]]), 65_537);
    assert_eq!(check(&[&a[0], &a[1], &a[2][..100]]), 65_538);
    // The first bad one, whatever is bad or missing after it.
    assert_eq!(check(&[&a[2], &a[2], &b[0]]), 65_537);
}

#[test]
fn a6_lists() {
    let e2 = bytes("03 14 C0 00 00 1D 21 23 00 00 00 05 00 00 10 04 00 00 00 02 00 00 10 04 00 00 00 02 22 22 22 22 33 33 33 33");
    for (list, number) in [
        ("00 24", 0),
        ("00 24 00", 3),
        ("00 24 00 24", 65_537),
        ("00 24 00 00", 65_537),
        ("00 00 00 24", 65_536),
        ("00 23", 3),
        ("00 25", 65_536),
        ("FF FF", 65_536),
        ("FF FF FF FF", 65_536),
        ("", 3),
    ] {
        assert_eq!(check_dump(&e2, &bytes(list)), number, "{list}");
    }
    assert_eq!(check_dump(&[], &[]), 131_072);
    assert_eq!(check_dump(&[], &[0]), 3);
    assert_eq!(check_dump(&[], &[0; 130]), 65_536);
    assert_eq!(check_dump(&[], &[0; 132]), 3);
}
