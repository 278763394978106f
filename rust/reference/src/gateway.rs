//! The gateway (document 01's gate): a policy, SA pairs, two caches, and the three ways a packet
//! can reach it.

use crate::packet::u32_at;
use crate::{
    normal_form, parse_policy, Action, Answer, Cache, Direction, Entry, OverLimit, Packet,
    PairTable, Policy, ProposedPair, Requests, Selectors, AH, ESP, FIELDS, FIELD_TOPS,
};

#[derive(Clone, Debug, PartialEq, Eq)]
pub struct Gateway {
    requests: Requests,
    address: u32,
    pairs: PairTable,
    outbound: Side,
    inbound: Side,
}

/// What is searched for one direction: the policy's normal form, and the cache before it.
#[derive(Clone, Debug, Default, PartialEq, Eq)]
struct Side {
    form: Vec<Entry<FIELDS>>,
    cache: Cache,
}

impl Side {
    /// A side for a newly accepted policy: its cache is empty.
    fn new(policy: &Policy, direction: Direction, limit: usize) -> Result<Side, OverLimit> {
        let form = normal_form(&FIELD_TOPS, &policy.entries(direction), limit)?;
        let cache = Cache::default();
        Ok(Side { form, cache })
    }

    fn look_up(&mut self, selectors: &Selectors) -> Action {
        self.cache.look_up(&self.form, &selectors.values())
    }
}

impl Gateway {
    /// A fresh gateway: the policy without rows, no pair, empty caches.
    pub fn new(address: u32, requests: Requests) -> Gateway {
        Gateway {
            requests,
            address,
            pairs: PairTable::default(),
            outbound: Side::default(),
            inbound: Side::default(),
        }
    }

    /// Takes a policy file, or refuses it and changes nothing. Pairs stay in either case.
    pub fn set_policy(&mut self, file: &[u8]) -> Answer {
        match self.sides_for(file) {
            Ok((outbound, inbound)) => {
                self.outbound = outbound;
                self.inbound = inbound;
                Answer::Done
            }
            Err(refusal) => refusal,
        }
    }

    fn sides_for(&self, file: &[u8]) -> Result<(Side, Side), Answer> {
        let policy = parse_policy(file, self.requests)?;
        let side = |direction| {
            Side::new(&policy, direction, self.requests.row_limit())
                .map_err(|OverLimit| Answer::NormalFormTooLong { direction })
        };
        Ok((side(Direction::Out)?, side(Direction::In)?))
    }

    pub fn add_pair(&mut self, proposed: &ProposedPair) -> Answer {
        self.pairs.add(proposed)
    }

    pub fn remove_pair(&mut self, protocol: u64, inbound_spi: u32) -> Answer {
        self.pairs.remove(protocol, inbound_spi)
    }

    /// A packet that may be looked at further, or the refusal that every packet can get.
    fn read<'a>(&self, bytes: &'a [u8]) -> Result<Packet<'a>, Answer> {
        let packet = Packet::read(bytes).ok_or(Answer::NotReadable)?;
        if self.requests.refuses_trimmed_tcp() && packet.is_trimmed_tcp() {
            return Err(Answer::TrimmedTcp);
        }
        Ok(packet)
    }

    /// A packet going out.
    pub fn outbound(&mut self, bytes: &[u8]) -> Answer {
        let packet = match self.read(bytes) {
            Ok(packet) => packet,
            Err(refusal) => return refusal,
        };
        let selectors = packet.selectors(Direction::Out, self.requests);
        match self.outbound.look_up(&selectors) {
            Action::Bypass => Answer::PassInClear,
            Action::Discard => Answer::PolicyDiscards,
            Action::Protect(number) => self.protect(number, &selectors),
        }
    }

    fn protect(&self, number: u8, selectors: &Selectors) -> Answer {
        match self.pairs.choose(number, &selectors.values()) {
            Some((name, pair)) => {
                Answer::Protect { number, protocol: name.protocol, outbound_spi: pair.outbound_spi }
            }
            None => Answer::AssociationWanted { number },
        }
    }

    /// A packet coming in from outside.
    pub fn inbound(&mut self, bytes: &[u8]) -> Answer {
        let packet = match self.read(bytes) {
            Ok(packet) => packet,
            Err(refusal) => return refusal,
        };
        if packet.destination == self.address && matches!(packet.protocol, ESP | AH) {
            return self.to_ah_or_esp(&packet);
        }
        let selectors = packet.selectors(Direction::In, self.requests);
        match self.inbound.look_up(&selectors) {
            Action::Bypass => Answer::PassInClear,
            Action::Discard => Answer::PolicyDiscards,
            Action::Protect(_) => Answer::ShouldBeProtected,
        }
    }

    /// A packet of AH or ESP for the gateway itself.
    fn to_ah_or_esp(&self, packet: &Packet) -> Answer {
        let (shortest, spi_start) = if packet.protocol == ESP { (8, 0) } else { (12, 4) };
        if packet.is_fragment() {
            return Answer::AhEspFragment;
        }
        if packet.upper.len() < shortest {
            return Answer::AhEspTooShort;
        }
        let inbound_spi = u32_at(packet.upper, spi_start);
        match self.pairs.get(packet.protocol.into(), inbound_spi) {
            Some(_) => Answer::ToAhEsp { protocol: packet.protocol, inbound_spi },
            None => Answer::NoSuchPair,
        }
    }

    /// A packet coming in from an SA, with AH or ESP already taken off.
    pub fn from_sa(&self, protocol: u64, inbound_spi: u32, bytes: &[u8]) -> Answer {
        let Some(pair) = self.pairs.get(protocol, inbound_spi) else {
            return Answer::NoSuchPair;
        };
        let packet = match self.read(bytes) {
            Ok(packet) => packet,
            Err(refusal) => return refusal,
        };
        let fits = |packet: &Packet, direction| {
            pair.holds(&packet.selectors(direction, self.requests).values())
        };
        if fits(&packet, Direction::In) {
            return Answer::Deliver;
        }
        if !packet.is_icmp_error(self.requests) {
            return Answer::DoesNotFitPair;
        }
        // The packet that triggered the error was ours, so it is read as going out.
        match Packet::read_triggering(packet.triggering_header()) {
            None => Answer::TriggeringHeaderUnreadable,
            Some(triggering) if fits(&triggering, Direction::Out) => Answer::Deliver,
            Some(_) => Answer::TriggeringHeaderDoesNotFit,
        }
    }

    pub fn cache(&self, direction: Direction) -> &Cache {
        match direction {
            Direction::Out => &self.outbound.cache,
            Direction::In => &self.inbound.cache,
        }
    }

    pub fn pairs(&self) -> &PairTable {
        &self.pairs
    }
}
