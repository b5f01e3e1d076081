//! The functions of mars.h, whose comments say what each owes.

use std::os::raw::c_void;

#[repr(C)]
pub struct Mars {
    pub kept: *mut c_void,
    pub is_open: bool,
}

/// What `mars_piece` answers but for a barrier.
pub const NOTHING: i32 = 0;
pub const WRITE: i32 = 1;

#[rustfmt::skip]
extern "C" {
    pub fn mars_size(loggers: u8, callers: u8, entries: u16, pages: u32) -> u64;
    pub fn mars_format(bytes: *mut u8, size: usize, loggers: u8, callers: u8, entries: u16, pages: u32) -> i32;
    pub fn mars_open_late(m: *mut Mars, bytes: *const u8, size: usize, callers: u8, depth: u8) -> i32;
    pub fn mars_close(m: *mut Mars);
    pub fn mars_begin(m: *mut Mars, caller: u8) -> i32;
    pub fn mars_get(m: *mut Mars, caller: u8, table: *const u8, table_len: usize, key: u64, room: *mut u8, room_size: usize, len: *mut u64) -> i32;
    pub fn mars_put(m: *mut Mars, caller: u8, table: *const u8, table_len: usize, key: u64, value: *const u8, value_len: usize) -> i32;
    pub fn mars_del(m: *mut Mars, caller: u8, table: *const u8, table_len: usize, key: u64) -> i32;
    pub fn mars_scan(m: *mut Mars, caller: u8, table: *const u8, table_len: usize, low: u64, high: u64, count: *mut u64) -> i32;
    pub fn mars_row(m: *mut Mars, at: u64, key: *mut u64, room: *mut u8, room_size: usize, len: *mut u64) -> i32;
    pub fn mars_next(m: *mut Mars, caller: u8, table: *const u8, table_len: usize, from: u64, to: u64, key: *mut u64, room: *mut u8, room_size: usize,
                     len: *mut u64) -> i32;
    pub fn mars_save(m: *mut Mars, caller: u8, save: *mut u64) -> i32;
    pub fn mars_back(m: *mut Mars, caller: u8, save: u32) -> i32;
    pub fn mars_commit(m: *mut Mars, caller: u8, number: *mut u64) -> i32;
    pub fn mars_abort(m: *mut Mars, caller: u8) -> i32;
    pub fn mars_offer(m: *mut Mars, caller: u8) -> i32;
    pub fn mars_settle(m: *mut Mars, caller: u8, number: *mut u64) -> i32;
    pub fn mars_purge(m: *mut Mars, caller: u8, keys: *mut u64) -> i32;
    pub fn mars_table(m: *mut Mars, number: u8, room: *mut u8, room_size: usize, len: *mut u64) -> i32;
    pub fn mars_make(m: *mut Mars, table: *const u8, table_len: usize, number: *mut u8) -> i32;
    pub fn mars_put_bytes(m: *mut Mars, caller: u8, table: *const u8, table_len: usize, key: u64, bytes: *const u8, size: usize) -> i32;
    pub fn mars_get_bytes(m: *mut Mars, caller: u8, table: *const u8, table_len: usize, key: u64, room: *mut u8, room_size: usize,
                          len: *mut u64) -> i32;
    pub fn mars_del_bytes(m: *mut Mars, caller: u8, table: *const u8, table_len: usize, key: u64) -> i32;
    pub fn mars_bytes_length(m: *mut Mars, caller: u8, table: *const u8, table_len: usize, key: u64, len: *mut u64) -> i32;
    pub fn mars_piece(m: *mut Mars, at: *mut u64, len: *mut u64) -> i32;
    pub fn mars_piece_bytes(m: *mut Mars, skip: u64, room: *mut u8, room_size: usize, len: *mut u64) -> i32;
    pub fn mars_piece_done(m: *mut Mars) -> i32;
    pub fn mars_piece_failed(m: *mut Mars) -> i32;
    pub fn mars_moment(m: *mut Mars) -> u64;
    pub fn mars_done_up_to(m: *mut Mars) -> u64;
    pub fn mars_text(status: i32, room: *mut u8, room_size: usize, len: *mut u64);
}
