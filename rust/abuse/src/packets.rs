//! The calls that take packets, held against document 01's rules.

use crate::array;
use crate::counts::Counts;
use crate::inputs::{packet, protocol, spi, MOST_BYTES};
use crate::lent::{Given, Lent};
use crate::model::{self, IN, OUT};
use specksonne::ffi::{self, PolicyWords, SelectorWords, Table, CACHE_WORDS};
use testkit::Prng;

/// A number, and what it carries.
type Answer = (u64, [u64; 3]);

/// What packet calls may change, and the packet, which they may not.
pub struct Packets {
    pub outbound: Lent<u64>,
    pub inbound: Lent<u64>,
    carries: Lent<u64>,
    packet: Given,
    pub counts: Counts,
}

impl Packets {
    pub fn new() -> Packets {
        Packets {
            outbound: Lent::new(CACHE_WORDS, 0),
            inbound: Lent::new(CACHE_WORDS, 0),
            carries: Lent::new(3, 0),
            packet: Given::new(MOST_BYTES),
            counts: Counts::default(),
        }
    }

    /// One call with one packet. Policy and table are only read: whoever lends them looks after
    /// them.
    pub fn call(&mut self, prng: &mut Prng, policy: &PolicyWords, table: &Table) {
        let mut bytes = packet(prng);
        if prng.one_in(3) && bytes.len() >= 20 {
            // The packet is for the gateway.
            bytes[16..20].copy_from_slice(&(policy[0] as u32).to_be_bytes());
            name_a_pair(prng, table, &mut bytes);
        }
        self.carries.set_part(3, prng.one_in(2));
        self.carries.write(0, &[prng.number(), prng.number(), prng.number()]);
        self.packet.set(bytes, prng.one_in(2));
        match prng.below(3) {
            0 => self.outbound(policy, table),
            1 => self.inbound(policy, table),
            _ => self.packet_from_sa(prng, table),
        }
        self.check();
    }

    /// Holds all that is lent against what it must be.
    #[track_caller]
    pub fn check(&mut self) {
        self.outbound.check("outbound cache");
        self.inbound.check("inbound cache");
        self.carries.check("room for what an answer carries");
        self.packet.check("packet");
    }

    fn outbound(&mut self, policy: &PolicyWords, table: &Table) {
        let (cache, carried) = (array(self.outbound.lent()), array(self.carries.lent()));
        let number = ffi::outbound(policy, table, cache, self.packet.lent(), carried);
        let expected = match model::selectors(self.packet.bytes(), OUT) {
            Some(selectors) => {
                let rows = model::rows(policy, OUT);
                let action = model::look_up(self.outbound.expect(), rows, OUT, &selectors);
                outbound_answer(action, table, &selectors)
            }
            None => (10, [0; 3]),
        };
        assert_eq!(self.answered(number, &[0, 2, 3, 10, 11]), expected);
    }

    fn inbound(&mut self, policy: &PolicyWords, table: &Table) {
        let (cache, carried) = (array(self.inbound.lent()), array(self.carries.lent()));
        let number = ffi::inbound(policy, table, cache, self.packet.lent(), carried);
        let Some(selectors) = model::selectors(self.packet.bytes(), IN) else {
            assert_eq!(self.answered(number, &[10]), (10, [0; 3]));
            return;
        };
        let (destination, protocol) = (selectors[1], selectors[5]);
        if destination == policy[0] && matches!(protocol, 50 | 51) {
            let (number, [carried, spi, rest]) = self.answered(number, &[4, 13, 15, 16]);
            let is_live = model::live_place(table, protocol, spi as u32).is_some();
            assert_eq!([carried, rest], if number == 4 { [protocol, 0] } else { [0, 0] });
            assert!(if number == 4 { is_live } else { spi == 0 });
            return;
        }
        let rows = model::rows(policy, IN);
        let action = model::look_up(self.inbound.expect(), rows, IN, &selectors);
        let expected = [11, 0, 12][action.min(2) as usize];
        assert_eq!(self.answered(number, &[0, 11, 12]), (expected, [0; 3]));
    }

    fn packet_from_sa(&mut self, prng: &mut Prng, table: &Table) {
        let live = model::live_names(table);
        let (protocol, spi) = match live.as_slice() {
            [_, ..] if prng.one_in(2) => *prng.pick(&live),
            _ => (protocol(prng), spi(prng)),
        };
        let (packet, carried) = (self.packet.lent(), array(self.carries.lent()));
        let number = ffi::from_sa(table, protocol, spi, packet, carried);
        let (number, carried) = self.answered(number, &[1, 10, 13, 14, 17, 18]);
        assert_eq!(carried, [0; 3]);
        let is_live = model::live_place(table, protocol, spi).is_some();
        assert_eq!(number == 13, !is_live);
        let is_readable = model::selectors(self.packet.bytes(), IN).is_some();
        assert_eq!(number == 10, is_live && !is_readable);
    }

    /// Counts an answer, which must be one of those allowed, and says what it carries.
    #[track_caller]
    fn answered(&mut self, number: u64, allowed: &[u64]) -> Answer {
        self.counts.answered(number, allowed);
        self.carries.accept_all();
        (number, *array(self.carries.lent()))
    }
}

/// Makes the packet one of AH or ESP by a live pair, perhaps, where it has the bytes for that.
fn name_a_pair(prng: &mut Prng, table: &Table, bytes: &mut [u8]) {
    let live = model::live_names(table);
    if live.is_empty() || prng.one_in(2) {
        return;
    }
    let (protocol, spi) = *prng.pick(&live);
    let start = if protocol == 50 { 20 } else { 24 };
    if let Some(place) = bytes.get_mut(start..start + 4) {
        place.copy_from_slice(&spi.to_be_bytes());
        bytes[9] = protocol as u8;
    }
}

/// The answer to a packet going out whose search gives an action.
fn outbound_answer(action: u64, table: &Table, selectors: &SelectorWords) -> Answer {
    match action {
        0 => (11, [0; 3]),
        1 => (0, [0; 3]),
        _ => match model::pair_for(table, action - 2, selectors) {
            Some([protocol, outbound_spi]) => (2, [action - 2, protocol, outbound_spi]),
            None => (3, [action - 2, 0, 0]),
        },
    }
}
