//! The C functions of leatgarnet.h answered by the model itself: for feature `self`, and for the trial libraries of mutants.py, which export them.

use crate::door::{by_model, Answer};

unsafe fn borrowed<'a, T>(pointer: *const T, length: usize) -> &'a [T] {
    if length == 0 {
        &[]
    } else {
        std::slice::from_raw_parts(pointer, length)
    }
}

unsafe fn borrowed_mut<'a, T>(pointer: *mut T, length: usize) -> &'a mut [T] {
    if length == 0 {
        &mut []
    } else {
        std::slice::from_raw_parts_mut(pointer, length)
    }
}

/// # Safety
/// As leatgarnet.h says.
#[cfg_attr(feature = "export", no_mangle)]
pub unsafe extern "C" fn lg_start_up(table: *const u32, table_words: usize, state: *mut u32, state_words: usize) -> u32 {
    by_model::start_up(borrowed(table, table_words), borrowed_mut(state, state_words))
}

/// # Safety
/// As leatgarnet.h says.
#[allow(clippy::too_many_arguments)]
#[cfg_attr(feature = "export", no_mangle)]
pub unsafe extern "C" fn lg_command(
    state: *mut u32,
    state_words: usize,
    packet: *const u8,
    packet_bytes: usize,
    symbols: *const u8,
    symbols_bytes: usize,
    image: *mut u32,
    image_words: usize,
    reply: *mut u8,
    reply_bytes: usize,
    reply_length: *mut u32,
) -> u32 {
    by_model::command(
        borrowed_mut(state, state_words),
        borrowed(packet, packet_bytes),
        borrowed(symbols, symbols_bytes),
        borrowed_mut(image, image_words),
        borrowed_mut(reply, reply_bytes),
        &mut *reply_length,
    )
}

/// # Safety
/// As leatgarnet.h says.
#[allow(clippy::too_many_arguments)]
#[cfg_attr(feature = "export", no_mangle)]
pub unsafe extern "C" fn lg_commands(
    state: *mut u32,
    state_words: usize,
    bytes: *const u8,
    bytes_length: usize,
    starts: *const u32,
    starts_count: usize,
    lengths: *const u32,
    lengths_count: usize,
    symbols: *const u8,
    symbols_bytes: usize,
    image: *mut u32,
    image_words: usize,
    replies: *mut u8,
    replies_bytes: usize,
    answers: *mut Answer,
    answers_count: usize,
) -> u32 {
    by_model::commands(
        borrowed_mut(state, state_words),
        borrowed(bytes, bytes_length),
        borrowed(starts, starts_count),
        borrowed(lengths, lengths_count),
        borrowed(symbols, symbols_bytes),
        borrowed_mut(image, image_words),
        borrowed_mut(replies, replies_bytes),
        borrowed_mut(answers, answers_count),
    )
}

/// # Safety
/// As leatgarnet.h says.
#[allow(clippy::too_many_arguments)]
#[cfg_attr(feature = "export", no_mangle)]
pub unsafe extern "C" fn lg_slot(
    state: *mut u32,
    state_words: usize,
    tick: u32,
    image: *const u32,
    image_words: usize,
    buffer: *mut u8,
    buffer_bytes: usize,
    length: *mut u32,
) -> u32 {
    by_model::slot(
        borrowed_mut(state, state_words),
        tick,
        borrowed(image, image_words),
        borrowed_mut(buffer, buffer_bytes),
        &mut *length,
    )
}

/// # Safety
/// As leatgarnet.h says.
#[cfg_attr(feature = "export", no_mangle)]
pub unsafe extern "C" fn lg_write_command(
    command: *const u32,
    command_words: usize,
    buffer: *mut u8,
    buffer_bytes: usize,
    length: *mut u32,
) -> u32 {
    by_model::write_command(borrowed(command, command_words), borrowed_mut(buffer, buffer_bytes), &mut *length)
}

/// # Safety
/// As leatgarnet.h says.
#[cfg_attr(feature = "export", no_mangle)]
pub unsafe extern "C" fn lg_read_command(packet: *const u8, packet_bytes: usize, command: *mut u32, command_words: usize) -> u32 {
    by_model::read_command(borrowed(packet, packet_bytes), borrowed_mut(command, command_words))
}

/// # Safety
/// As leatgarnet.h says.
#[cfg_attr(feature = "export", no_mangle)]
pub unsafe extern "C" fn lg_read_packet(
    packet: *const u8,
    packet_bytes: usize,
    fields: *mut u32,
    fields_words: usize,
    data_bytes: *mut u32,
) -> u32 {
    by_model::read_packet(borrowed(packet, packet_bytes), borrowed_mut(fields, fields_words), &mut *data_bytes)
}

/// # Safety
/// As leatgarnet.h says.
#[cfg_attr(feature = "export", no_mangle)]
pub unsafe extern "C" fn lg_check_dump(bytes: *const u8, bytes_length: usize, lengths: *const u8, lengths_bytes: usize) -> u32 {
    by_model::check_dump(borrowed(bytes, bytes_length), borrowed(lengths, lengths_bytes))
}
