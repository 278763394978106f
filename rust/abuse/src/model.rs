//! What document 01 makes of lent words, whatever they are: rows, the table of pairs, a cache. The
//! layouts are those of `c/specksonne.h`.

use reference::{Packet, Range, Requests};
use specksonne::ffi::{SelectorWords, ROW_WORDS, TABLE_WORDS};

pub const OUT: u64 = 1;
pub const IN: u64 = 2;

/// The words of a place in the table of pairs.
pub const PLACE_WORDS: usize = TABLE_WORDS / 64;
/// Where the count of slots in use and the next slot stand in a cache.
pub const USED: usize = SLOTS * ROW_WORDS;
pub const NEXT: usize = USED + 1;

const SLOTS: usize = 32;
const MOST_ROWS: usize = 256;

fn is_ipsec(protocol: u64) -> bool {
    matches!(protocol, 50 | 51)
}

/// Whether ranges, four words each, hold the selectors, two words each.
fn hold(ranges: &[u64], selectors: &SelectorWords) -> bool {
    let value = |words: &[u64]| u128::from(words[0]) << 64 | u128::from(words[1]);
    let fields = ranges.chunks_exact(4).zip(selectors.chunks_exact(2));
    let mut held =
        fields.map(|(ends, words)| Range::new(value(ends), value(&ends[2..])).holds(value(words)));
    held.all(|holds| holds)
}

/// The first row that matches.
pub fn first_match<'a>(
    rows: &'a [u64],
    direction: u64,
    selectors: &SelectorWords,
) -> Option<(usize, &'a [u64])> {
    let other = if direction == OUT { IN } else { OUT };
    let matches = |row: &[u64]| row[0] != other && hold(&row[2..], selectors);
    rows.chunks_exact(ROW_WORDS).enumerate().find(|(_, row)| matches(row))
}

/// The action of a row: 0 discard, 1 bypass, N + 2 protect-N.
pub fn action(row: &[u64]) -> u64 {
    row[1]
}

/// The normal-form rows of one direction in the words of a policy.
pub fn rows(policy: &[u64], direction: u64) -> &[u64] {
    let room = MOST_ROWS * ROW_WORDS;
    let (count, start) = if direction == OUT { (policy[1], 3) } else { (policy[2], 3 + room) };
    let count = count.min(MOST_ROWS as u64) as usize;
    &policy[start..start + count * ROW_WORDS]
}

/// Searches for the selectors: the action, and what the slot rule makes of the cache. 'A hit changes
/// nothing. A miss that finds a row writes it to the slot whose turn it is, and the turn moves on,
/// round after 32. A miss without a row changes nothing.'
pub fn look_up(cache: &mut [u64], rows: &[u64], direction: u64, selectors: &SelectorWords) -> u64 {
    let used = cache[USED].min(SLOTS as u64) as usize;
    if let Some((_, hit)) = first_match(&cache[..used * ROW_WORDS], direction, selectors) {
        return action(hit);
    }
    let Some((_, row)) = first_match(rows, direction, selectors) else {
        return 0;
    };
    let slot = (cache[NEXT] % SLOTS as u64) as usize;
    cache[slot * ROW_WORDS..][..ROW_WORDS].copy_from_slice(row);
    cache[USED] = used.max(slot + 1) as u64;
    cache[NEXT] = (slot as u64 + 1) % SLOTS as u64;
    action(row)
}

/// Protocol and outbound SPI of the pair for a packet under protect-N: 'the smallest inbound SPI,
/// ESP before AH on a tie'.
pub fn pair_for(table: &[u64], number: u64, selectors: &SelectorWords) -> Option<[u64; 2]> {
    let serves =
        |place: &&[u64]| is_ipsec(place[0]) && place[3] == number && hold(&place[4..], selectors);
    let serving = table.chunks_exact(PLACE_WORDS).filter(serves);
    serving.min_by_key(|place| (place[1], place[0])).map(|place| [place[0], place[2]])
}

/// Where the words of the live pair of that name begin.
pub fn live_place(table: &[u64], protocol: u64, spi_in: u32) -> Option<usize> {
    let named = |place: &[u64]| place[..2] == [protocol, spi_in.into()] && is_ipsec(place[0]);
    table.chunks_exact(PLACE_WORDS).position(named).map(|place| place * PLACE_WORDS)
}

/// The protocol and the inbound SPI of each live pair.
pub fn live_names(table: &[u64]) -> Vec<(u64, u32)> {
    let live = table.chunks_exact(PLACE_WORDS).filter(|place| is_ipsec(place[0]));
    live.map(|place| (place[0], place[1] as u32)).collect()
}

/// Where the words of the first free place begin.
pub fn free_place(table: &[u64]) -> Option<usize> {
    let mut places = table.chunks_exact(PLACE_WORDS);
    places.position(|place| !is_ipsec(place[0])).map(|place| place * PLACE_WORDS)
}

/// What is seen in a packet, as words; none where it is not readable.
pub fn selectors(packet: &[u8], direction: u64) -> Option<SelectorWords> {
    let way = if direction == OUT { reference::Direction::Out } else { reference::Direction::In };
    let values = Packet::read(packet)?.selectors(way, Requests::NONE).values();
    let mut words = [0; 10];
    for (words, value) in words.chunks_exact_mut(2).zip(values) {
        words.copy_from_slice(&[(value >> 64) as u64, value as u64]);
    }
    Some(words)
}

/// Where the triggering header of an ICMP error would begin, and how long it is; none where the
/// packet is not readable.
pub fn triggering_part(packet: &[u8]) -> Option<[u64; 2]> {
    let packet = Packet::read(packet)?;
    Some([packet.triggering_start() as u64, packet.triggering_header().len() as u64])
}
