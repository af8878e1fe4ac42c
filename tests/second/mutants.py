#!/usr/bin/env python3
"""Mutants: a trial library, the model behind the C functions, with one fault put into its model, linked behind the door; compare must find each.
Usage: python3 mutants.py [calls [first [last]]]      (works in target/mutants; two at a time)"""
import concurrent.futures, os, shutil, subprocess, sys

HERE = os.path.dirname(os.path.abspath(__file__))
WORK = os.path.join(HERE, "target", "mutants")
CALLS = sys.argv[1] if len(sys.argv) > 1 else "200000"
FIRST = int(sys.argv[2]) if len(sys.argv) > 2 else 0
LAST = int(sys.argv[3]) if len(sys.argv) > 3 else 10 ** 6
M, D = "model.rs", "door.rs"
SEARCH = "    for (i, region) in used_regions(setup).iter().enumerate() {\n"

OUT = "if end_of(start, words) <= end { Ok(i) } else { Err(19) };"
MISSED = "    Err(10)\n}"

EARLIER = "good.iter().any(|earlier| !agree(earlier, &fields)"
LEFT = "if ends.last().copied().unwrap_or(0) < bytes.len() as u64 {"

def halving(short="end_of(m.start, m.size) < end_of(start, 1)", among="all.len()", until="left > 1"):
    """the model's search by halving (A3), with a fault in one of its parts"""
    return f"""    let all = used_regions(setup);
    let (mut first, mut left) = (0, {among});
    while {until} {{
        let (half, m) = (left / 2, &all[first + left / 2 - 1]);
        if {short} {{ first += half; }}
        left -= half;
    }}
    for (i, region) in all.iter().enumerate().skip(first).take(1) {{
"""

# (name, file, old, new)
MUTANTS = [
    ("none (must agree)", M, "", ""),
    ("address sum wraps", M, "u64::from(start.0) + 4 * u64::from(words)", "u64::from(start.0.wrapping_add(words.wrapping_mul(4)))"),
    ("16 regions refused", M, "setup.region_count as usize > REGIONS_MOST", "setup.region_count as usize >= REGIONS_MOST"),
    ("region of 1,048,576 refused", M, "region.size <= REGION_WORDS_MOST", "region.size < REGION_WORDS_MOST"),
    ("region of 1,048,577 taken", M, "region.size <= REGION_WORDS_MOST", "region.size <= REGION_WORDS_MOST + 1"),
    ("region end 2^32 refused", M, "end_of(region.start, region.size) <= MEMORY_END", "end_of(region.start, region.size) < MEMORY_END"),
    ("region end past 2^32 taken", M, "end_of(region.start, region.size) <= MEMORY_END", "end_of(region.start, region.size) <= MEMORY_END + 4"),
    ("region start unaligned taken", M, "aligned(region.start) && region.size >= 1", "region.size >= 1"),
    ("touching regions refused", M, "end_of(before.start, before.size) > u64::from(after.start.0)", "end_of(before.start, before.size) >= u64::from(after.start.0)"),
    ("overlap by a word taken", M, "end_of(before.start, before.size) > u64::from(after.start.0)", "end_of(before.start, before.size) > u64::from(after.start.0) + 4"),
    ("range over touching regions", M, OUT, "if end_of(start, words) <= end || used_regions(setup).get(i + 1).is_some_and(|n| u64::from(n.start.0) == end && end_of(start, words) <= end_of(n.start, n.size)) { Ok(i) } else { Err(19) };"),
    ("10 and 19 exchanged", M, OUT + "\n        }\n    }\n" + MISSED, OUT.replace("19", "10") + "\n        }\n    }\n" + MISSED.replace("10", "19")),
    ("19 not counted", M, "17 | 18 | 19 => after", "17 | 18 => after"),
    ("19 for a range from a gap into a region", M, MISSED, "    Err(if used_regions(setup).iter().any(|r| start.0 < r.start.0 && end_of(start, words) > u64::from(r.start.0)) { 19 } else { 10 })\n}"),
    ("19 for a range from a region's end in a gap", M, MISSED, "    Err(if used_regions(setup).iter().any(|r| end_of(r.start, r.size) == u64::from(start.0)) { 19 } else { 10 })\n}"),
    ("a region's end is in it", M, "end_of(start, 1) <= end {", "u64::from(start.0) <= end {"),
    ("10 for a touching pair", M, "Err(19)", "Err(if used_regions(setup).iter().any(|n| u64::from(n.start.0) == end) { 10 } else { 19 })"),
    ("10 for a range past 2^32", M, "Err(19)", "Err(if end_of(start, words) > MEMORY_END { 10 } else { 19 })"),
    ("10 for a load that runs out", M, "    let i = match region_holding(&state.setup, address, size) {\n        Err(number) => return refused(state, number),", "    let i = match region_holding(&state.setup, address, size) {\n        Err(_) => return refused(state, 10),"),
    ("10 for a dump by name that runs out", M, "    do_dump(state, fields.transaction, size, address)\n}", "    let answer = do_dump(state, fields.transaction, size, address);\n    CommandAnswer { number: if answer.number == 19 { 10 } else { answer.number }, ..answer }\n}"),
    ("absent pool as 19", M, "    if pool.size == 0 {\n        return refused(state, 10);", "    if pool.size == 0 {\n        return refused(state, 19);"),
    ("11 before 19", M, "Err(19)", "Err(if region.dump || region.load { 19 } else { 11 })"),
    ("12 before 19", M, "        Err(number) => return refused(state, number),\n        Ok(i) => state.setup.regions[i],", "        Err(19) if busy_place_with(&state.places, transaction).is_some() => return refused(state, 12),\n        Err(number) => return refused(state, number),\n        Ok(i) => state.setup.regions[i],"),
    ("19 before 9", M, "    if fields_break_bounds(&fields.command) {\n        return refused(state, 9);", "    if let Command::Dump { size, address } | Command::Load { size, address, .. } = fields.command {\n        if region_holding(&state.setup, address, size) == Err(19) { return refused(state, 19); }\n    }\n    if fields_break_bounds(&fields.command) {\n        return refused(state, 9);"),
    ("halving: by the range's end", M, SEARCH, halving(short="end_of(m.start, m.size) < end_of(start, words)")),
    ("halving: the upper half left out", M, SEARCH, halving(short="false && m.size > 0")),
    ("halving: the lower half left out", M, SEARCH, halving(short="m.size > 0")),
    ("halving: the lower half's last word sought above it", M, SEARCH, halving(short="end_of(m.start, m.size) <= end_of(start, 1)")),
    ("halving: the last region left out", M, SEARCH, halving(among="all.len().max(2) - 1")),
    ("halving: ends at two regions", M, SEARCH, halving(until="left > 2")),
    ("end of the region not looked at", M, OUT, "Ok(i);"),
    ("no pool but start taken", M, "return pool.start == Address(0);", "return true;"),
    ("pool unaligned taken", M, "if !aligned(pool.start) {", "if false {"),
    ("pool without dump right", M, "Ok(i) => setup.regions[i].dump,\n    }\n}", "Ok(_) => true,\n    }\n}"),
    ("unit 16 taken", M, "&& setup.unit <= UNIT_MOST", "&& setup.unit <= 16"),
    ("unused entries kept at start-up", M, "kept.regions[i] = NO_REGION;", "kept.regions[i] = setup.regions[i];"),
    ("unused entries must be zero", M, "    transactions_differ(&state.places)\n}", "    transactions_differ(&state.places) && state.setup.regions[state.setup.region_count as usize..].iter().all(|r| *r == NO_REGION)\n}"),
    ("unused entries cleared by commands", M, "after.accepted = (after.accepted + 1) % 65_536;", "after.accepted = (after.accepted + 1) % 65_536;\n    for i in after.setup.region_count as usize..16 { after.setup.regions[i] = NO_REGION; }"),
    ("fresh last place 0", M, "last: 3, count_785: 0", "last: 0, count_785: 0"),
    ("last 4 taken", M, "state.last > 3", "state.last > 4"),
    ("count 785 16,384 taken", M, "state.count_785 > PACKET_COUNT_MOST ||", "state.count_785 > PACKET_COUNT_MOST + 1 ||"),
    ("count 788 16,384 taken", M, "|| state.count_788 > PACKET_COUNT_MOST", "|| state.count_788 > PACKET_COUNT_MOST + 1"),
    ("busy transaction 4,096 taken", M, "dump.transaction > TRANSACTION_MOST", "dump.transaction > TRANSACTION_MOST + 1"),
    ("busy request 65,536 taken", M, "dump.requested < 1 || dump.requested > REQUEST_MOST", "dump.requested < 1 || dump.requested > REQUEST_MOST + 1"),
    ("busy request 65,535 refused", M, "dump.requested < 1 || dump.requested > REQUEST_MOST", "dump.requested < 1 || dump.requested >= REQUEST_MOST"),
    ("busy start unaligned taken", M, "if !aligned(dump.start) {", "if false {"),
    ("busy region without right taken", M, "if !setup.regions[i].dump {\n                return false;", "if false {\n                return false;"),
    ("sent any number", M, "dump.sent % CUT == 0 && dump.sent < dump.requested", "dump.sent < dump.requested"),
    ("sent equal request taken", M, "dump.sent < dump.requested\n", "dump.sent <= dump.requested\n"),
    ("shared transaction taken", M, "if a.transaction == b.transaction {\n                    return false;", "if a.transaction == b.transaction {\n                    return true;"),
    ("length field modulo 65,536", M, "get16(bytes, 4) as usize == bytes.len() - 7", "get16(bytes, 4) as usize == (bytes.len() - 7) % 65_536"),
    ("7 bytes read", M, "packet.len() < 8\n", "packet.len() < 9\n"),
    ("version ignored", M, "        || version_of(packet) != 0\n        || type_of(packet) != 1", "        || type_of(packet) != 1"),
    ("command type ignored", M, "        || type_of(packet) != 1\n", ""),
    ("command second-header flag ignored", M, "        || second_header_flag_of(packet) != 1\n", ""),
    ("command sequence flags ignored", M, "        || second_header_flag_of(packet) != 1\n        || sequence_flags_of(packet) != 3\n", "        || second_header_flag_of(packet) != 1\n"),
    ("zero bit ignored", M, "        || packet[6] >= 128\n", ""),
    ("check byte ignored", M, "        || exclusive_or(packet) != 0xFF\n", ""),
    ("number 5 counted", M, "4 | 6 | 7 | 9..=15 |", "4..=7 | 9..=15 |"),
    ("number 8 counted", M, "4 | 6 | 7 | 9..=15 |", "4 | 6..=15 |"),
    ("number 4 not counted", M, "4 | 6 | 7 | 9..=15 |", "6 | 7 | 9..=15 |"),
    ("refused count stops at 65,535", M, "(state.refused + 1) % 65_536", "(state.refused + 1).min(65_535)"),
    ("accepted modulo 65,535", M, "(after.accepted + 1) % 65_536", "(after.accepted + 1) % 65_535"),
    ("image may be longer", M, "if image.len() as u64 != image_words(&state.setup) {\n        return refused", "if (image.len() as u64) < image_words(&state.setup) {\n        return refused"),
    ("slot image may be longer", M, "if image.len() as u64 != image_words(&state.setup) {\n        return slot_refused", "if (image.len() as u64) < image_words(&state.setup) {\n        return slot_refused"),
    ("reply of 33 needed", M, "reply.len() < REPLY_BYTES", "reply.len() <= REPLY_BYTES"),
    ("reply needed by pool statistics only", M, "if reply.len() < REPLY_BYTES {", "if reply.len() < REPLY_BYTES && packet.get(6) == Some(&7) {"),
    ("slot buffer as the packet needs", M, "if buffer.len() < SLOT_BYTES {", "if buffer.len() < SLOT_BYTES && (buffer.len() < SLOT_BYTES - 1) {"),
    ("9 before 8", M, "if fields.unit != state.setup.unit {", "if fields_break_bounds(&fields.command) { return refused(state, 9); }\n    if fields.unit != state.setup.unit {"),
    ("8 before 7", M, "    let number = frame_number(packet);\n    if number != 0 {\n        return refused", "    let number = frame_number(packet);\n    if number == 7 && packet.len() > 8 && u32::from(packet[8] / 16) != state.setup.unit { return refused(state, 8); }\n    if number != 0 {\n        return refused"),
    ("load size 12 taken as 9 lost", M, "*size > LOAD_WORDS as u32,\n        Command::Pool", "*size > 12,\n        Command::Pool"),
    ("pool 2 as 10", M, "Command::PoolStatistics { pool } => *pool > 1,", "Command::PoolStatistics { pool } => *pool > 255,"),
    ("dump right not asked", M, "if !region.dump {", "if false {"),
    ("12 after 13", M, "if busy_place_with(&state.places, transaction).is_some() {\n        return refused(state, 12);", "if state.places.contains(&DumpPlace::Idle) && busy_place_with(&state.places, transaction).is_some() {\n        return refused(state, 12);"),
    ("12 before 11", M, "    if !region.dump {", "    if busy_place_with(&state.places, transaction).is_some() { return refused(state, 12); }\n    if !region.dump {"),
    ("highest idle place", M, "for i in (0..4).rev() {", "for i in 0..4 {"),
    ("load right not asked", M, "if !state.setup.regions[i].load {", "if false {"),
    ("load asks for the dump right", M, "if !state.setup.regions[i].load {", "if !state.setup.regions[i].dump {"),
    ("load writes a word more", M, "for k in 0..size as usize {\n        image", "for k in 0..(size as usize + 1).min(11).min(image.len() - first.0) {\n        image"),
    ("block of size 0 skipped", M, "if size == 0 || at", "let size = size.max(1);\n        if at"),
    ("block past the end taken", M, "at + u64::from(size) > pool.len() as u64", "at + u64::from(size) > pool.len() as u64 + 1"),
    ("largest free is the last", M, "if figures.largest_free.map_or(true, |largest| size > largest) {", "if true {"),
    ("largest free is the first", M, "map_or(true, |largest| size > largest)", "is_none()"),
    ("first word taken for usable", M, "map_or(0, |size| size - 1)", "unwrap_or(0)"),
    ("one taken off no free block", M, "figures.largest_free.map_or(0, |size| size - 1)", "figures.largest_free.unwrap_or(0).wrapping_sub(1)"),
    ("two taken off the largest free block", M, "map_or(0, |size| size - 1)", "map_or(0, |size| size.saturating_sub(2))"),
    ("one taken off the free words too", M, "put32(reply, 12, figures.free_words)", "put32(reply, 12, figures.free_words.saturating_sub(1))"),
    ("first words of free blocks not free", M, "figures.free_words += size;", "figures.free_words += size - 1;"),
    ("largest of all blocks", M, "figures.used_blocks += 1;", "figures.used_blocks += 1;\n            figures.largest_free = figures.largest_free.max(Some(size));"),
    ("785 count raised first", M, "APID_POOL, state.count_785, REPLY_BYTES", "APID_POOL, (state.count_785 + 1) % 16_384, REPLY_BYTES"),
    ("785 count modulo 16,383", M, "(state.count_785 + 1) % 16_384", "(state.count_785 + 1) % 16_383"),
    ("reply's rest cleared", M, "put16(reply, 10, 0);", "put16(reply, 10, 0);\n    for b in reply[32..].iter_mut() { *b = 0; }"),
    ("785 raised by damage", M, "None => return refused(state, 15),", "None => { let mut s = refused(state, 15); s.state.count_785 = (state.count_785 + 1) % 16_384; return s; }"),
    ("slot searches from 0", M, "(state.last as usize + step) % 4", "(3 + step) % 4"),
    ("slot tries the last place first", M, "(state.last as usize + step) % 4", "(state.last as usize + step - 1) % 4"),
    ("788 count modulo 65,536", M, "(state.count_788 + 1) % 16_384", "state.count_788 + 1"),
    ("last place not set", M, "after.last = i as u32;", ""),
    ("last place kept when freed", M, "after.last = i as u32;", "if words != left { after.last = i as u32; }"),
    ("data always from the start", M, "place_in_image(&state.setup, region, data_address).0", "place_in_image(&state.setup, region, dump.start).0"),
    ("buffer's rest cleared", M, "put32(buffer, 24, words);", "put32(buffer, 24, words);\n    for b in buffer[length..].iter_mut() { *b = 0; }"),
    ("dump of 1,016 not freed", M, "after.places[i] = if words == left {", "after.places[i] = if words == left && words != CUT {"),
    ("slot raises accepted", M, "after.last = i as u32;", "after.last = i as u32;\n    after.accepted = (after.accepted + 1) % 65_536;"),
    ("writer: 9 before 3", M, "    if buffer.len() < length {\n        return Err(3);\n    }\n", "    if fields.unit > 15 { return Err(9); }\n    if buffer.len() < length {\n        return Err(3);\n    }\n"),
    ("writer: unused load words kept", M, "if k < *size as usize { data[k] } else { 0 }", "data[k]"),
    ("writer: later bytes cleared", M, "let packet = &mut buffer[..length];", "buffer[length..].fill(0);\n    let packet = &mut buffer[..length];"),
    ("writer: sequence 16,384", M, "fields.sequence > PACKET_COUNT_MOST", "fields.sequence > PACKET_COUNT_MOST + 1"),
    ("writer: size modulo 65,536", M, "size == 0 || size > REQUEST_MOST\n", "size % 65_536 == 0\n"),
    ("packet reader: sequence flags ignored", M, "        || second_header_flag_of(packet) != 0\n        || sequence_flags_of(packet) != 3\n", "        || second_header_flag_of(packet) != 0\n"),
    ("packet reader: 1,017 words as 9", M, "fields.data_words > CUT || packet", "fields.data_words > CUT + 1 || packet"),
    ("packet reader: end past 2^32", M, "words <= REQUEST_MOST && end_of(start, words) <= MEMORY_END", "words <= REQUEST_MOST"),
    ("packet reader: end 2^32 refused", M, "words <= REQUEST_MOST && end_of(start, words) <= MEMORY_END", "words <= REQUEST_MOST && end_of(start, words) < MEMORY_END"),
    ("packet reader: 65,536 words", M, "words <= REQUEST_MOST && end_of", "words <= REQUEST_MOST + 1 && end_of"),
    ("packet reader: unaligned", M, "aligned(start) && words >= 1", "words >= 1"),
    ("packet reader: any words in a cut", M, "&& fields.data_words == words {", "&& fields.data_words <= words {"),
    ("batch: item past the end shortened", M, "        return &[];\n    }\n    &bytes[start as usize..end as usize]", "        return &bytes[(start as usize).min(bytes.len())..];\n    }\n    &bytes[start as usize..end as usize]"),
    ("batch: sum modulo 2^32", M, "let end = u64::from(start) + u64::from(length);\n    if end", "let end = u64::from(start.wrapping_add(length));\n    let start = if u64::from(start) > end { 0 } else { start };\n    if end"),
    ("batch: item to the last byte left out", M, "if end > bytes.len() as u64 {", "if end >= bytes.len() as u64 {"),
    ("batch: state not handed on", M, "let answer = command_call(&after, packet, symbols, image, reply);", "let answer = command_call(state, packet, symbols, image, reply);"),
    ("batch: loads lost", M, "let answer = command_call(&after, packet, symbols, image, reply);", "let answer = command_call(&after, packet, symbols, &mut image.to_vec(), reply);"),
    ("batch: ends at the first refusal", M, "        after = answer.state;\n    }\n    BatchAnswer", "        after = answer.state;\n        if answer.number != 0 { break; }\n    }\n    BatchAnswer"),
    ("batch: replies at byte 0", M, "let reply = &mut replies[REPLY_BYTES * i..REPLY_BYTES * (i + 1)];", "let reply = &mut replies[..REPLY_BYTES];"),
    ("batch: replies without gaps", M, "let reply = &mut replies[REPLY_BYTES * i..REPLY_BYTES * (i + 1)];", "let k = answers.iter().filter(|a: &&ItemAnswer| a.reply_length != 0).count();\n        let reply = &mut replies[REPLY_BYTES * k..REPLY_BYTES * (k + 1)];"),
    ("batch: 65 items taken", M, "pub const BATCH_ITEMS: usize = 64;", "pub const BATCH_ITEMS: usize = 65;"),
    ("batch: 64 items refused", M, "pub const BATCH_ITEMS: usize = 64;", "pub const BATCH_ITEMS: usize = 63;"),
    ("batch: longer list of lengths taken", M, "starts != lengths || items > BATCH_ITEMS", "starts > lengths || items > BATCH_ITEMS"),
    ("batch: one reply byte more asked for", M, "|| reply_bytes < REPLY_BYTES * items", "|| reply_bytes <= REPLY_BYTES * items"),
    ("batch: one record more asked for", M, "|| answers < items ||", "|| answers <= items ||"),
    ("batch: 3 tested after 1", D, "            return 3;\n        }\n        match unpack_state(state) {\n            None => answers[", "            return if unpack_state(state).is_some_and(|state| state_is_good(&state)) { 3 } else { 1 };\n        }\n        match unpack_state(state) {\n            None => answers["),
    ("batch: 1 for the whole call", D, "None => answers[..starts.len()].fill(Answer { number: 1, length: 0 }),", "None => return 1,"),
    ("batch: every record written", D, "None => answers[..starts.len()].fill(", "None => answers.fill("),
    ("batch: record beyond cleared", D, "                put_back(state, &batch.state);\n", "                put_back(state, &batch.state);\n                answers[starts.len()..].fill(Answer { number: 0, length: 0 });\n"),
    ("batch: length 32 for each item done", D, "length: item.reply_length };", "length: if item.number == 0 { 32 } else { 0 } };"),
    ("by name: alias one step only", M, "Meaning::Alias(other) => value_of(table, other),", "Meaning::Alias(other) => match table[other].meaning { Meaning::Value(value) => value, Meaning::Alias(number) => number as u32 },"),
    ("by name: alias not resolved", M, "Meaning::Alias(other) => value_of(table, other),", "Meaning::Alias(other) => other as u32,"),
    ("by name: first bytes match", M, "table.iter().position(|symbol| symbol.name == wanted)?", "table.iter().position(|symbol| symbol.name.starts_with(wanted))?"),
    ("by name: a beginning of the name matches", M, "table.iter().position(|symbol| symbol.name == wanted)?", "table.iter().position(|symbol| wanted.starts_with(&symbol.name))?"),
    ("by name: length ignored in the field", M, "table.iter().position(|symbol| symbol.name == wanted)?", "table.iter().position(|symbol| { let mut n = symbol.name.clone(); n.resize(48, 0); let mut w = wanted.to_vec(); w.resize(48, 0); n == w })?"),
    ("by name: bytes past the length matter", M, "let wanted = &name.bytes[..name.size as usize];", "let last = name.bytes.iter().rposition(|&b| b != 0).map_or(0, |k| k + 1);\n    let wanted = &name.bytes[..last.max(name.size as usize)];"),
    ("by name: last of 48 bytes not compared", M, "table.iter().position(|symbol| symbol.name == wanted)?", "table.iter().position(|symbol| symbol.name.len() == wanted.len() && symbol.name.iter().zip(wanted).take(47).all(|(a, b)| a == b))?"),
    ("by name: first record not found", M, "table.iter().position(|symbol| symbol.name == wanted)?", "table.iter().rposition(|symbol| symbol.name == wanted).filter(|&i| i > 0)?"),
    ("table: equal names taken", M, "if !names.insert(symbol.name.clone()) {", "if !names.insert(symbol.name.clone()) && false {"),
    ("table: equal next to each other only", M, "if !names.insert(symbol.name.clone()) {", "names.insert(symbol.name.clone());\n        if table.last().is_some_and(|before: &Symbol| before.name == symbol.name) {"),
    ("table: names told apart without their length", M, "if !names.insert(symbol.name.clone()) {", "if !names.insert({ let mut n = symbol.name.clone(); n.resize(48, 0); n }) {"),
    ("table: names told apart with kind and number", M, "if !names.insert(symbol.name.clone()) {", "if !names.insert((symbol.name.clone(), format!(\"{:?}\", symbol.meaning))) {"),
    ("table: alias of itself taken", M, "1 if u64::from(held) < number as u64 => Meaning::Alias(held as usize),", "1 if u64::from(held) == number as u64 => Meaning::Value(held),\n        1 if u64::from(held) < number as u64 => Meaning::Alias(held as usize),"),
    ("table: forward alias taken", M, "1 if u64::from(held) < number as u64 => Meaning::Alias(held as usize),", "1 if u64::from(held) > number as u64 && held < 256 => Meaning::Value(held),\n        1 if u64::from(held) < number as u64 => Meaning::Alias(held as usize),"),
    ("table: alias number modulo 256", M, "1 if u64::from(held) < number as u64 => Meaning::Alias(held as usize),", "1 if u64::from(held) % 256 < number as u64 => Meaning::Alias(held as usize % 256),"),
    ("table: alias of record 0 refused", M, "1 if u64::from(held) < number as u64 => Meaning::Alias", "1 if held > 0 && u64::from(held) < number as u64 => Meaning::Alias"),
    ("table: another kind is a value", M, "        0 => Meaning::Value(held),", "        0 | 2..=255 => Meaning::Value(held),"),
    ("table: name of 48 refused", M, "length < 1 || length > NAME_BYTES", "length < 1 || length >= NAME_BYTES"),
    ("table: empty name taken", M, "length < 1 || length > NAME_BYTES", "length > NAME_BYTES"),
    ("table: zero bytes not tested", M, "if get16(record, 2) != 0 {", "if false {"),
    ("table: one zero byte tested", M, "if get16(record, 2) != 0 {", "if record[2] != 0 {"),
    ("table: padding not tested", M, "padding.iter().any(|&byte| byte != 0)", "false"),
    ("table: first byte of the padding not tested", M, "padding.iter().any(|&byte| byte != 0)", "padding.iter().skip(1).any(|&byte| byte != 0)"),
    ("table: 257 records taken", M, "pub const SYMBOLS_MOST: usize = 256;", "pub const SYMBOLS_MOST: usize = 257;"),
    ("table: 256 records refused", M, "pub const SYMBOLS_MOST: usize = 256;", "pub const SYMBOLS_MOST: usize = 255;"),
    ("table: bytes left over taken", M, "if bytes.len() % SYMBOL_BYTES != 0 || bytes", "let bytes = &bytes[..bytes.len() / SYMBOL_BYTES * SYMBOL_BYTES];\n    if bytes"),
    ("table: none refused", M, "bytes.len() % SYMBOL_BYTES != 0 ||", "bytes.is_empty() || bytes.len() % SYMBOL_BYTES != 0 ||"),
    ("by name: offset unsigned", M, "let sum = i64::from(value) + i64::from(offset);", "let sum = i64::from(value) + i64::from(offset as u32);"),
    ("by name: sum modulo 2^32", M, "let sum = i64::from(value) + i64::from(offset);", "let sum = i64::from(value.wrapping_add(offset as u32));"),
    ("by name: offset in words", M, "let sum = i64::from(value) + i64::from(offset);", "let sum = i64::from(value) + 4 * i64::from(offset);"),
    ("by name: 2^32 taken as 10", M, "if sum < 0 || sum >= 1 << 32 {", "let sum = if sum == 1 << 32 { 0x1_0000_0000 - 4 } else { sum };\n    if sum < 0 || sum >= 1 << 32 {"),
    ("by name: below 0 is 10", M, "    let address = match address_by_name(value, offset) {\n        None => return refused(state, 9),", "    let address = match address_by_name(value, offset) {\n        None => return refused(state, 10),"),
    ("by name: unaligned value refused", M, "    if !aligned(address) || dump_size_is_wrong(size) {", "    if value % 4 != 0 || !aligned(address) || dump_size_is_wrong(size) {"),
    ("by name: alignment not tested", M, "    if !aligned(address) || dump_size_is_wrong(size) {", "    let address = Address(address.0 & !3);\n    if dump_size_is_wrong(size) {"),
    ("by name: 18 before 9 of the name", M, "    if name_size_is_wrong(name) || wrong_padding {", "    if !name_size_is_wrong(name) && look_up(&table, name).is_none() { return refused(state, 18); }\n    if name_size_is_wrong(name) || wrong_padding {"),
    ("by name: 9 of the size before 18", M, "    if name_size_is_wrong(name) || wrong_padding {", "    if name_size_is_wrong(name) || wrong_padding || matches!(fields.command, Command::DumpByName { size: 0, .. }) {"),
    ("by name: 9 before 17", M, "    let table = match symbol_table(symbols) {", "    if name_size_is_wrong(name) || wrong_padding { return refused(state, 9); }\n    let table = match symbol_table(symbols) {"),
    ("by name: 17 before 8", M, "    if fields.unit != state.setup.unit {", "    if (packet[6] == 8 || packet[6] == 9) && symbol_table(symbols).is_none() { return refused(state, 17); }\n    if fields.unit != state.setup.unit {"),
    ("by name: 17 to every code", M, "    if fields_break_bounds(&fields.command) {\n        return refused(state, 9);", "    if symbol_table(symbols).is_none() { return refused(state, 17); }\n    if fields_break_bounds(&fields.command) {\n        return refused(state, 9);"),
    ("by name: 17 not counted", M, "9..=15 | 17 | 18 | 19 => after", "9..=15 | 18 | 19 => after"),
    ("by name: 18 not counted", M, "9..=15 | 17 | 18 | 19 => after", "9..=15 | 17 | 19 => after"),
    ("by name: pad not tested", M, "        8 => packet[11] != 0,\n        9 => packet[11] != 0 ||", "        9 =>"),
    ("by name: zero bits not tested", M, "packet[11] != 0 || get16(packet, 66) != 0", "packet[11] != 0"),
    ("by name: name size 49 taken", M, "name.size == 0 || name.size > NAME_BYTES as u32", "name.size == 0 || name.size > 49"),
    ("value: refused with an unaligned value", M, "        return do_symbol_value(state, fields.transaction, value, reply);", "        if value % 4 != 0 { return refused(state, 9); }\n        return do_symbol_value(state, fields.transaction, value, reply);"),
    ("value: 785 and 786 counts exchanged", M, "    put_primary_header(reply, 0, 0, APID_SYMBOL, state.count_786, VALUE_BYTES);", "    put_primary_header(reply, 0, 0, APID_SYMBOL, state.count_785, VALUE_BYTES);"),
    ("value: 785 count raised", M, "after.count_786 = (state.count_786 + 1) % 16_384;", "after.count_785 = (state.count_785 + 1) % 16_384;"),
    ("value: 786 count modulo 65,536", M, "after.count_786 = (state.count_786 + 1) % 16_384;", "after.count_786 = state.count_786 + 1;"),
    ("value: 786 count raised first", M, "APID_SYMBOL, state.count_786, VALUE_BYTES", "APID_SYMBOL, (state.count_786 + 1) % 16_384, VALUE_BYTES"),
    ("value: APID 785", M, "pub const APID_SYMBOL: u32 = 786;", "pub const APID_SYMBOL: u32 = 785;"),
    ("value: 32 bytes of reply", M, "    put32(reply, 8, value);", "    put32(reply, 8, value);\n    reply[12..32].fill(0);"),
    ("value: reply length 32", M, "accepted(after, VALUE_BYTES as u32)", "accepted(after, REPLY_BYTES as u32)"),
    ("count 786 16,384 taken", M, "if state.count_786 > PACKET_COUNT_MOST {", "if state.count_786 > PACKET_COUNT_MOST + 1 {"),
    ("writer: bytes past the name kept", M, "if k < name.size as usize { name.bytes[k] } else { 0 }", "name.bytes[k]"),
    ("writer: name size modulo 256", D, "    Name { size: block[19], bytes }", "    Name { size: block[19] % 256, bytes }"),
    ("writer: name in the machine's order", D, "        four.copy_from_slice(&word.to_be_bytes());", "        four.copy_from_slice(&word.to_le_bytes());"),
    ("writer: size 0 by name taken", M, "name_size_is_wrong(name) || dump_size_is_wrong(*size)", "name_size_is_wrong(name) || *size > REQUEST_MOST"),
    ("writer: unaligned offset refused", M, "name_size_is_wrong(name) || dump_size_is_wrong(*size)", "name_size_is_wrong(name) || dump_size_is_wrong(*size) || matches!(command, Command::DumpByName { offset, .. } if offset % 4 != 0)"),
    ("reader: pad and zero bits ignored", M, "if fields_break_bounds(&fields.command) || padding_is_wrong(packet) {", "if fields_break_bounds(&fields.command) {"),
    ("reader: bytes past a name unlike a load's", M, "name.bytes[name.size as usize..].fill(0),", "{}"),
    ("batch: no symbols lent after the first item", M, "let answer = command_call(&after, packet, symbols, image, reply);", "let answer = command_call(&after, packet, if i == 0 { symbols } else { &[] }, image, reply);"),
    ("door: rights over 3 unseen", D, "if words[2] > 3 {", "if false {"),
    ("door: rights over 3 of unused entries refused", D, ".enumerate().take(in_use as usize) {", ".enumerate() {"),
    ("door: unused entries cleared", D, "if !unused.contains(&i) {", "if unused.start <= 80 {"),
    ("door: a state kept where the table has another length", D, "if state.len() != STATE_WORDS {\n            return 17;", "if state.len() != STATE_WORDS || table.len() != TABLE_WORDS {\n            return 17;"),
    ("door: idle place not zero", D, "0 => (words[1..5] == [0; 4]).then_some(DumpPlace::Idle)", "0 => Some(DumpPlace::Idle)"),
    ("door: reply length left", D, "        *reply_length = 0;\n", ""),
    ("door: data bytes left", D, "        *data_bytes = 0;\n", ""),
    ("desk: a repeated piece taken", M, " || earlier.data_address == fields.data_address)", ")"),
    ("desk: all agree with the second", M, EARLIER, "good.iter().enumerate().any(|(i, earlier)| (i > 0 && !agree(earlier, &fields))"),
    ("desk: unit not compared", M, "    first.unit == other.unit\n        && first", "    first"),
    ("desk: transaction not compared", M, "        && first.transaction == other.transaction\n", ""),
    ("desk: address not compared", M, "        && first.requested_address == other.requested_address\n", ""),
    ("desk: words not compared", M, "        && first.requested_words == other.requested_words\n", ""),
    ("desk: sequence counts compared", M, "    first.unit == other.unit\n        && first", "    first.count == other.count && first.unit == other.unit\n        && first"),
    ("desk: ticks compared", M, "    first.unit == other.unit\n        && first", "    first.tick == other.tick && first.unit == other.unit\n        && first"),
    ("desk: missing piece counted from 1", M, "return MISSING_PIECE + piece;", "return MISSING_PIECE + piece + 1;"),
    ("desk: last missing piece given", M, "return MISSING_PIECE + piece;", "return MISSING_PIECE + (piece..65).rev().find(|k| CUT * k < first.requested_words && !good.iter().any(|g| u64::from(g.data_address.0) == end_of(first.requested_address, CUT * k))).unwrap_or(piece);"),
    ("desk: last piece not asked for", M, "while CUT * piece < first.requested_words {", "while CUT * (piece + 1) < first.requested_words {"),
    ("desk: bytes left over ignored", M, LEFT, "if false {"),
    ("desk: bytes left over after a bad first packet", M, LEFT, LEFT[:-2] + "&& read_packet(&bytes[..bytes.len().min(ends.first().copied().unwrap_or(0) as usize)]).is_ok() {"),
    ("desk: left over seen in 16 bits", M, LEFT, "if ends.last().copied().unwrap_or(0) % 65_536 < bytes.len() as u64 % 65_536 {"),
    ("desk: odd list rounded down", M, "if list.len() % 2 != 0 || list.len()", "let list = &list[..list.len() / 2 * 2];\n    if list.len()"),
    ("desk: odd list filled up", M, "if list.len() % 2 != 0 || list.len()", "let list = &[list, &vec![0; list.len() % 2]].concat()[..];\n    if list.len()"),
    ("desk: 66 packets taken", M, "list.len() > 2 * DESK_PACKETS_MOST", "list.len() > 2 * DESK_PACKETS_MOST + 2"),
    ("desk: 65 packets refused", M, "list.len() > 2 * DESK_PACKETS_MOST", "list.len() >= 2 * DESK_PACKETS_MOST"),
    ("desk: last bad packet given", M, "Err(_) => return BAD_PACKET + number as u32,", "Err(_) => return BAD_PACKET + ends.iter().rposition(|end| *end > bytes.len() as u64).unwrap_or(number) as u32,"),
    ("desk: a packet past the end as far as it goes", M, "if there { read_packet(&bytes[start as usize..*end as usize]) } else { Err(4) };", "{ let _ = there; read_packet(&bytes[bytes.len().min(start as usize)..bytes.len().min(*end as usize)]) };"),
    ("desk: lengths lowest byte first", M, "256 * u64::from(two[0]) + u64::from(two[1])", "u64::from(two[0]) + 256 * u64::from(two[1])"),
    ("desk: no packets are a whole dump", M, "        return MISSING_PIECE;\n", "        return 0;\n"),
    ("desk: bad packet counted from 1", M, "            Err(_) => return BAD_PACKET + number as u32,", "            Err(_) => return BAD_PACKET + number as u32 + 1,"),
]

def run(*command, **more):
    return subprocess.run(command, stdout=subprocess.PIPE, stderr=subprocess.STDOUT, text=True, **more)

def one(index):
    name, file, old, new = MUTANTS[index]
    folder = os.path.join(WORK, f"m{index:02d}")
    shutil.rmtree(folder, ignore_errors=True)
    os.makedirs(folder)
    for source in (M, D, "answer.rs"):
        shutil.copy(os.path.join(HERE, "src", source), folder)
    path = os.path.join(folder, file)
    text = open(path).read()
    if old and text.count(old) != 1:
        return index, name, f"NOT PLANTED: found {text.count(old)} times", False
    if old:
        open(path, "w").write(text.replace(old, new))
    open(os.path.join(folder, "lib.rs"), "w").write("pub mod model;\npub mod door;\npub mod answer;\n")
    built = run("rustc", "--edition", "2021", "-Copt-level=2", "-Awarnings", "--crate-type", "staticlib", "--crate-name", "capi", "--cfg", 'feature="export"',
                "-o", os.path.join(folder, "libcapi.a"), os.path.join(folder, "lib.rs"))
    if built.returncode:
        return index, name, "NOT BUILT: " + built.stdout[:600], False
    linked = run("rustc", "--edition", "2021", "-Copt-level=1", "-Awarnings", "--crate-name", "compare", "--cfg", 'feature="door"', "-L", folder, "-l", "static=capi",
                 "--extern", "second=" + os.path.join(WORK, "libsecond.rlib"), "-o", os.path.join(folder, "compare"), os.path.join(HERE, "src", "main.rs"))
    if linked.returncode:
        return index, name, "NOT LINKED: " + linked.stdout[:600], False
    ran = run(os.path.join(folder, "compare"), "--calls", CALLS)
    lines = ran.stdout.splitlines()
    said = next((line for line in lines if line.startswith(("DIFFERENCE", "DEMAND", "WRONG", "FAILED"))), lines[-1] if lines else "")
    shutil.rmtree(folder, ignore_errors=True)
    good = (ran.returncode == 0) if not old else (ran.returncode != 0)
    return index, name, f"exit {ran.returncode}: {said[:150]}", good

def main():
    os.makedirs(WORK, exist_ok=True)
    built = run("rustc", "--edition", "2021", "-O", "-Awarnings", "--crate-type", "lib", "--crate-name", "second", "--cfg", 'feature="door"',
                "-o", os.path.join(WORK, "libsecond.rlib"), os.path.join(HERE, "src", "lib.rs"))
    if built.returncode:
        print(built.stdout)
        sys.exit(2)
    bad = 0
    wanted = range(FIRST, min(LAST + 1, len(MUTANTS)))
    with concurrent.futures.ThreadPoolExecutor(2) as pool:
        for index, name, said, good in pool.map(one, wanted):
            bad += not good
            print(f"{'ok    ' if good else 'MISSED'} {index:02d} {name}: {said}", flush=True)
    print(f"mutants: {len(wanted)} tried, {bad} not as they should be")
    sys.exit(1 if bad else 0)

main()
