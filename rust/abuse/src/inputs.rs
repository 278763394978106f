//! Words, packets and policy files: sound, broken, and at chance.

use testkit::{icmp_error, ports, Ipv4, Prng};

/// The most bytes of a packet or a file: more than any total length can name.
pub const MOST_BYTES: usize = 66_000;

/// Words that have a meaning somewhere.
const WORDS: [u64; 16] =
    [0, 1, 2, 6, 9, 17, 31, 32, 50, 51, 255, 256, 257, 65_535, 65_536, u64::MAX];

/// A word: any, small, one with a meaning somewhere, or one of these by turns.
pub fn word(prng: &mut Prng, kind: u64) -> u64 {
    match kind {
        0 => prng.number(),
        1 => prng.below(4),
        2 => *prng.pick(&WORDS),
        _ => {
            let kind = prng.below(3);
            word(prng, kind)
        }
    }
}

/// A number that is often a pair's protocol.
pub fn protocol(prng: &mut Prng) -> u64 {
    match prng.below(8) {
        0 => prng.number(),
        1 => prng.below(300),
        n => 50 + n % 2,
    }
}

/// An SPI that is often one of a few.
pub fn spi(prng: &mut Prng) -> u32 {
    match prng.below(6) {
        0 => prng.number() as u32,
        _ => 255 + prng.below(70) as u32,
    }
}

/// Bytes at chance, or a packet that is mostly sound, now and then a long one.
pub fn packet(prng: &mut Prng) -> Vec<u8> {
    if prng.one_in(400) {
        return long_packet(prng);
    }
    if prng.one_in(8) {
        let count = prng.below(100);
        return prng.bytes(count);
    }
    let protocol = *prng.pick(&[1, 6, 17, 50, 51, 132, 99]);
    let few = |prng: &mut Prng| prng.below(4) as u32;
    let (source, destination) = (few(prng), few(prng));
    let upper = match prng.below(3) {
        0 => ports(prng.below(3) as u16, prng.below(3) as u16),
        1 => {
            let inner = Ipv4::new(17, few(prng), few(prng), &ports(1, 2)).bytes();
            let cut = prng.below(inner.len() as u64 + 1) as usize;
            icmp_error(*prng.pick(&[0, 3, 4, 5, 8, 11, 12]), prng.byte(), &inner[..cut])
        }
        _ => {
            let mut upper = vec![0, 0, 1, prng.byte(), 0, 0, 1, prng.byte()];
            let more = prng.below(12);
            upper.extend(prng.bytes(more));
            upper
        }
    };
    let mut made = Ipv4::new(protocol, source, destination, &upper);
    if prng.one_in(6) {
        let (any, one) = (prng.number() as u16, 1 << prng.below(16));
        made = made.flags_and_offset(*prng.pick(&[any, one]));
    }
    let mut bytes = made.bytes();
    for _ in 0..prng.below(2) * prng.below(3) {
        let place = prng.below(bytes.len() as u64) as usize;
        bytes[place] = prng.byte();
    }
    let kept = if prng.one_in(6) { prng.below(bytes.len() as u64) as usize } else { bytes.len() };
    bytes.truncate(kept);
    bytes
}

/// A packet of about as many bytes as a total length can name, or more, whose total length names
/// all of them, more, or fewer.
fn long_packet(prng: &mut Prng) -> Vec<u8> {
    let any = prng.between(60_000, MOST_BYTES as u64) as usize;
    let length = *prng.pick(&[65_534, 65_535, 65_536, MOST_BYTES, any]);
    let mut bytes = packet(prng);
    bytes.resize(length.max(20), prng.byte());
    let any = prng.number() as u16;
    let named = length.min(65_535) as u16;
    let total_length = *prng.pick(&[65_535, named, named, named.saturating_add(1), 28, any]);
    bytes[2..4].copy_from_slice(&total_length.to_be_bytes());
    bytes
}

/// A policy file of more rows than are taken, or one whose normal form has more.
fn long_policy_file(prng: &mut Prng) -> Vec<u8> {
    if prng.one_in(2) {
        return format!("policy\t1\n{}", "\n".repeat(257)).into_bytes();
    }
    let way = *prng.pick(&["out", "in", "both"]);
    let one = |n: usize| format!("{way}\tbypass\t10.0.0.{}\tany\tany\tany\tany\n", 2 * n);
    let other = |n: usize| format!("{way}\tprotect-1\tany\tany\tany\tany\t{}\n", 2 * n);
    let rows: String = (0..20).map(one).chain((0..20).map(other)).collect();
    format!("policy\t1\n{rows}").into_bytes()
}

/// Bytes at chance, or a short policy file that is mostly sound.
pub fn policy_file(prng: &mut Prng) -> Vec<u8> {
    if prng.one_in(6) {
        let count = prng.below(100);
        return prng.bytes(count);
    }
    if prng.one_in(300) {
        return long_policy_file(prng);
    }
    let mut text = "policy\t1\n".to_string();
    for _ in 0..prng.below(5) {
        let mut pick = |choices: &[&'static str]| *prng.pick(choices);
        let fields = [
            pick(&["out", "in", "both"]),
            pick(&["bypass", "discard", "protect-7", "protect-255"]),
            pick(&["any", "any", "10.0.0.0/255.0.0.0", "0.0.0.1", "0.0.0.2-9.9.9.9"]),
            pick(&["any", "any", "0.0.0.0-0.0.0.9", "0.0.0.3"]),
            pick(&["any", "any", "6", "17-51"]),
            pick(&["any", "any", "opaque", "2-opaque", "0-65535"]),
            pick(&["any", "any", "1", "500-600", "opaque"]),
        ];
        text.push_str(&fields.join("\t"));
        text.push('\n');
    }
    let mut file = text.into_bytes();
    file.truncate(MOST_BYTES);
    if prng.one_in(3) {
        let place = prng.below(file.len() as u64) as usize;
        file[place] = prng.byte();
    }
    file
}
