//! The exported functions of the proved library over words, each behind a safe function. This is
//! the only module with `unsafe` code.
//!
//! `c/specksonne.h` declares the same functions for C and says what each does. An array is passed
//! as a pointer; a slice as a pointer and a count of elements.
#![allow(unsafe_code)]

/// The number of the binary interface that this crate is written for. `c/specksonne.h` says when it
/// is raised.
pub const ABI: u64 = 1;
/// The words of a gateway's policy: its address, the counts of normal-form rows for out and in, and
/// room for 256 rows for each.
pub const POLICY_WORDS: usize = 11_267;
/// The words of the table of SA pairs: 64 places of 24 words.
pub const TABLE_WORDS: usize = 1536;
/// The words of a cache: 32 slots of 22 words, the count of slots in use, the slot that is next.
pub const CACHE_WORDS: usize = 706;
/// The words of a row.
pub const ROW_WORDS: usize = 22;
/// The most rows of a policy and of a normal form.
pub const MOST_ROWS: usize = 256;
/// Bytes that are enough for every normal-form file: the header line, and 120 for each row.
pub const MOST_FORM_BYTES: usize = 9 + MOST_ROWS * 120;

/// A gateway's policy.
pub type PolicyWords = [u64; POLICY_WORDS];
/// The table of SA pairs.
pub type Table = [u64; TABLE_WORDS];
/// The cache of one direction.
pub type CacheWords = [u64; CACHE_WORDS];
/// Five values, two words for each, the upper first.
pub type SelectorWords = [u64; 10];
/// Five ranges, four words for each: the low end and the high end, the upper word first.
pub type RangeWords = [u64; 20];
/// A row.
pub type RowWords = [u64; ROW_WORDS];

// The library is for 64-bit machines, and counts are passed as they are.
const _: () = assert!(size_of::<usize>() == size_of::<u64>());

mod raw {
    use super::{CacheWords, PolicyWords, RangeWords, RowWords, SelectorWords, Table};

    #[rustfmt::skip]
    extern "C" {
        pub fn specksonne_abi_1() -> u64;
        pub fn specksonne_version() -> u64;
        pub fn specksonne_policy_words() -> usize;
        pub fn specksonne_table_words() -> usize;
        pub fn specksonne_cache_words() -> usize;
        pub fn specksonne_row_words() -> usize;
        pub fn specksonne_most_rows() -> usize;
        pub fn specksonne_most_form_bytes() -> usize;
        pub fn specksonne_fresh(policy: &mut PolicyWords, table: &mut Table, outbound: &mut CacheWords, inbound: &mut CacheWords, address: u32);
        pub fn specksonne_policy(policy: &mut PolicyWords, outbound: &mut CacheWords, inbound: &mut CacheWords, bytes: *const u8, length: usize, carries: &mut u64) -> u64;
        pub fn specksonne_read(direction: u64, bytes: *const u8, length: usize, selectors: &mut SelectorWords) -> bool;
        pub fn specksonne_trigger(bytes: *const u8, length: usize, part: &mut [u64; 2]) -> bool;
        pub fn specksonne_search(rows: *const u64, words: usize, direction: u64, selectors: &SelectorWords, number: &mut u64) -> u64;
        pub fn specksonne_search_records(rows: *const RowWords, count: usize, direction: u64, selectors: &SelectorWords, number: &mut u64) -> u64;
        pub fn specksonne_first_match(rows: *const u64, words: usize, direction: u64, selectors: &SelectorWords, place: &mut u64) -> bool;
        pub fn specksonne_parse(bytes: *const u8, length: usize, rows: *mut u64, words: usize, carries: &mut u64) -> u64;
        pub fn specksonne_print(rows: *const u64, words: usize, direction: u64, out: *mut u8, room: usize, carries: &mut u64) -> u64;
        pub fn specksonne_normalise(bytes: *const u8, length: usize, direction: u64, out: *mut u8, room: usize, carries: &mut u64) -> u64;
        pub fn specksonne_same(first: *const u8, first_length: usize, second: *const u8, second_length: usize, direction: u64, carries: &mut [u64; 2]) -> u64;
        pub fn specksonne_add(table: &mut Table, protocol: u64, spi_in: u32, spi_out: u32, number: u64, ranges: &RangeWords) -> u64;
        pub fn specksonne_remove(table: &mut Table, protocol: u64, spi_in: u32) -> u64;
        pub fn specksonne_is_live(table: &Table, protocol: u64, spi_in: u32) -> bool;
        pub fn specksonne_outbound(policy: &PolicyWords, table: &Table, cache: &mut CacheWords, bytes: *const u8, length: usize, carries: &mut [u64; 3]) -> u64;
        pub fn specksonne_inbound(policy: &PolicyWords, table: &Table, cache: &mut CacheWords, bytes: *const u8, length: usize, carries: &mut [u64; 3]) -> u64;
        pub fn specksonne_from_sa(table: &Table, protocol: u64, spi_in: u32, bytes: *const u8, length: usize, carries: &mut [u64; 3]) -> u64;
    }
}

// SAFETY, for every call below: references and slices are valid for the whole call and a `&mut`
// overlaps nothing else, since they are Rust's; array lengths are those of the library's
// signatures; the library keeps no pointer, and is proved to end and to touch nothing else.

/// The number of the library's binary interface.
pub fn abi() -> u64 {
    unsafe { LINKED_ABI() }
}

// The function carries the number in its name, so that this crate links with no library of another
// number, whichever functions a program calls.
#[used]
static LINKED_ABI: unsafe extern "C" fn() -> u64 = raw::specksonne_abi_1;

/// The library's version: major * 1,000,000 + minor * 1,000 + patch.
pub fn version() -> u64 {
    unsafe { raw::specksonne_version() }
}

/// The sizes of what is lent.
#[derive(Clone, Copy, Debug, PartialEq, Eq)]
pub struct Sizes {
    /// The words of a gateway's policy.
    pub policy_words: usize,
    /// The words of the table of SA pairs.
    pub table_words: usize,
    /// The words of a cache.
    pub cache_words: usize,
    /// The words of a row.
    pub row_words: usize,
    /// The most rows of a policy and of a normal form.
    pub most_rows: usize,
    /// Bytes that are enough for every normal-form file.
    pub most_form_bytes: usize,
}

/// The sizes that this crate was compiled with.
pub const SIZES: Sizes = Sizes {
    policy_words: POLICY_WORDS,
    table_words: TABLE_WORDS,
    cache_words: CACHE_WORDS,
    row_words: ROW_WORDS,
    most_rows: MOST_ROWS,
    most_form_bytes: MOST_FORM_BYTES,
};

/// The sizes that the library was built with.
pub fn sizes() -> Sizes {
    unsafe {
        Sizes {
            policy_words: raw::specksonne_policy_words(),
            table_words: raw::specksonne_table_words(),
            cache_words: raw::specksonne_cache_words(),
            row_words: raw::specksonne_row_words(),
            most_rows: raw::specksonne_most_rows(),
            most_form_bytes: raw::specksonne_most_form_bytes(),
        }
    }
}

/// A fresh gateway. Panics, before a word is written, where the library is not the one that this
/// crate was written for.
pub fn fresh(
    policy: &mut PolicyWords,
    table: &mut Table,
    outbound: &mut CacheWords,
    inbound: &mut CacheWords,
    address: u32,
) {
    assert_eq!((abi(), sizes()), (ABI, SIZES), "the library is another than this crate is for");
    unsafe { raw::specksonne_fresh(policy, table, outbound, inbound, address) }
}

/// The answer to a policy file that is handed to the gateway.
pub fn policy(
    policy: &mut PolicyWords,
    outbound: &mut CacheWords,
    inbound: &mut CacheWords,
    bytes: &[u8],
    carries: &mut u64,
) -> u64 {
    let (bytes, length) = (bytes.as_ptr(), bytes.len());
    unsafe { raw::specksonne_policy(policy, outbound, inbound, bytes, length, carries) }
}

/// Whether a packet is readable, and its selectors.
pub fn read(direction: u64, bytes: &[u8], selectors: &mut SelectorWords) -> bool {
    unsafe { raw::specksonne_read(direction, bytes.as_ptr(), bytes.len(), selectors) }
}

/// Whether a packet is readable, and the start and length of its triggering header.
pub fn trigger(bytes: &[u8], part: &mut [u64; 2]) -> bool {
    unsafe { raw::specksonne_trigger(bytes.as_ptr(), bytes.len(), part) }
}

/// The kind of the action of the ordered search, and its protect number.
pub fn search(rows: &[u64], direction: u64, selectors: &SelectorWords, number: &mut u64) -> u64 {
    unsafe { raw::specksonne_search(rows.as_ptr(), rows.len(), direction, selectors, number) }
}

/// The same over a list of row records.
pub fn search_records(
    rows: &[RowWords],
    direction: u64,
    selectors: &SelectorWords,
    number: &mut u64,
) -> u64 {
    let (rows, count) = (rows.as_ptr(), rows.len());
    unsafe { raw::specksonne_search_records(rows, count, direction, selectors, number) }
}

/// Whether a row matches, and its place.
pub fn first_match(
    rows: &[u64],
    direction: u64,
    selectors: &SelectorWords,
    place: &mut u64,
) -> bool {
    unsafe { raw::specksonne_first_match(rows.as_ptr(), rows.len(), direction, selectors, place) }
}

/// The answer to a policy file, whose rows are written to the start of `rows`.
pub fn parse(bytes: &[u8], rows: &mut [u64], carries: &mut u64) -> u64 {
    let (words, length) = (rows.len(), bytes.len());
    unsafe { raw::specksonne_parse(bytes.as_ptr(), length, rows.as_mut_ptr(), words, carries) }
}

/// The answer to printing rows for one direction.
pub fn print(rows: &[u64], direction: u64, out: &mut [u8], carries: &mut u64) -> u64 {
    let (words, room) = (rows.len(), out.len());
    let (rows, out) = (rows.as_ptr(), out.as_mut_ptr());
    unsafe { raw::specksonne_print(rows, words, direction, out, room, carries) }
}

/// The answer to normalising a policy file for one direction.
pub fn normalise(bytes: &[u8], direction: u64, out: &mut [u8], carries: &mut u64) -> u64 {
    let (length, room) = (bytes.len(), out.len());
    let (bytes, out) = (bytes.as_ptr(), out.as_mut_ptr());
    unsafe { raw::specksonne_normalise(bytes, length, direction, out, room, carries) }
}

/// The answer to comparing two policy files in one direction.
pub fn same(first: &[u8], second: &[u8], direction: u64, carries: &mut [u64; 2]) -> u64 {
    let (first, first_length) = (first.as_ptr(), first.len());
    let (second, second_length) = (second.as_ptr(), second.len());
    unsafe { raw::specksonne_same(first, first_length, second, second_length, direction, carries) }
}

/// The answer to adding a pair.
pub fn add(
    table: &mut Table,
    protocol: u64,
    spi_in: u32,
    spi_out: u32,
    number: u64,
    ranges: &RangeWords,
) -> u64 {
    unsafe { raw::specksonne_add(table, protocol, spi_in, spi_out, number, ranges) }
}

/// The answer to removing a pair.
pub fn remove(table: &mut Table, protocol: u64, spi_in: u32) -> u64 {
    unsafe { raw::specksonne_remove(table, protocol, spi_in) }
}

/// Whether a pair is live.
pub fn is_live(table: &Table, protocol: u64, spi_in: u32) -> bool {
    unsafe { raw::specksonne_is_live(table, protocol, spi_in) }
}

/// The answer to a packet going out.
pub fn outbound(
    policy: &PolicyWords,
    table: &Table,
    cache: &mut CacheWords,
    bytes: &[u8],
    carries: &mut [u64; 3],
) -> u64 {
    let (bytes, length) = (bytes.as_ptr(), bytes.len());
    unsafe { raw::specksonne_outbound(policy, table, cache, bytes, length, carries) }
}

/// The answer to a packet coming in from outside.
pub fn inbound(
    policy: &PolicyWords,
    table: &Table,
    cache: &mut CacheWords,
    bytes: &[u8],
    carries: &mut [u64; 3],
) -> u64 {
    let (bytes, length) = (bytes.as_ptr(), bytes.len());
    unsafe { raw::specksonne_inbound(policy, table, cache, bytes, length, carries) }
}

/// The answer to a packet coming in from an association.
pub fn from_sa(
    table: &Table,
    protocol: u64,
    spi_in: u32,
    bytes: &[u8],
    carries: &mut [u64; 3],
) -> u64 {
    let length = bytes.len();
    unsafe { raw::specksonne_from_sa(table, protocol, spi_in, bytes.as_ptr(), length, carries) }
}
