//! The gateway: a policy, SA pairs and two caches, and the calls on them.

use crate::ffi::{self, CacheWords, PolicyWords, Table};
use crate::ffi::{CACHE_WORDS, POLICY_WORDS, ROW_WORDS, TABLE_WORDS};
use crate::{pair, policy, Direction, Pair, Refusal, Verdict};
use std::fmt;
use std::net::Ipv4Addr;

/// The policy gate of an IPsec gateway with one address.
///
/// ```
/// use specksonne::{Gateway, Pair, Ranges, Verdict, ESP};
///
/// let mut gateway = Gateway::new("192.0.2.1".parse().unwrap());
/// let mut packet = [0; 28];
/// packet[0] = 0x45;
/// packet[3] = 28;
/// packet[9] = 17;
/// assert_eq!(gateway.outbound(&packet), Verdict::Discarded); // the policy has no rows yet
///
/// gateway.set_policy(b"policy\t1\nout\tprotect-7\tany\tany\t17\tany\tany\n").unwrap();
/// assert_eq!(gateway.outbound(&packet), Verdict::Wanted { number: 7 });
///
/// let pair =
///     Pair { protocol: ESP, inbound_spi: 256, outbound_spi: 300, number: 7, ranges: Ranges::ANY };
/// gateway.add(&pair).unwrap();
/// let verdict = gateway.outbound(&packet);
/// assert_eq!(verdict, Verdict::Protect { number: 7, protocol: 50, outbound_spi: 300 });
/// assert_eq!(format!("{} {verdict}", verdict.number()), "2 protect-7 by ESP SPI 300");
///
/// assert_eq!(gateway.from_sa(ESP, 256, &packet), Verdict::Deliver);
/// assert_eq!(gateway.from_sa(ESP, 257, &packet), Verdict::NoSuchPair);
/// assert_eq!(gateway.outbound(&packet[..19]), Verdict::NotReadable);
/// ```
#[derive(Clone)]
pub struct Gateway {
    policy: Box<PolicyWords>,
    table: Box<Table>,
    outbound: Box<CacheWords>,
    inbound: Box<CacheWords>,
}

impl Gateway {
    /// A fresh gateway: the policy without rows, no pair, empty caches.
    pub fn new(address: Ipv4Addr) -> Gateway {
        let mut gateway = Gateway {
            policy: Box::new([0; POLICY_WORDS]),
            table: Box::new([0; TABLE_WORDS]),
            outbound: Box::new([0; CACHE_WORDS]),
            inbound: Box::new([0; CACHE_WORDS]),
        };
        let Gateway { policy, table, outbound, inbound } = &mut gateway;
        ffi::fresh(policy, table, outbound, inbound, address.into());
        gateway
    }

    /// Takes a policy file and empties the caches, or refuses it and changes nothing. The pairs
    /// stay. It needs up to 1 MiB of stack; every other call less than 64 KiB.
    pub fn set_policy(&mut self, file: &[u8]) -> Result<(), Refusal> {
        let mut carries = 0;
        let Gateway { policy, outbound, inbound, .. } = self;
        let number = ffi::policy(policy, outbound, inbound, file, &mut carries);
        Refusal::check(number, carries).map(|_| ())
    }

    /// Adds an SA pair.
    pub fn add(&mut self, pair: &Pair) -> Result<(), Refusal> {
        let Pair { protocol, inbound_spi, outbound_spi, number, ranges } = *pair;
        let words = ranges.words();
        pair::answered(ffi::add(
            &mut self.table,
            protocol,
            inbound_spi,
            outbound_spi,
            number,
            &words,
        ))
    }

    /// Removes the pair of that protocol and inbound SPI.
    pub fn remove(&mut self, protocol: u64, inbound_spi: u32) -> Result<(), Refusal> {
        pair::answered(ffi::remove(&mut self.table, protocol, inbound_spi))
    }

    /// Whether the pair of that protocol and inbound SPI is live.
    pub fn is_live(&self, protocol: u64, inbound_spi: u32) -> bool {
        ffi::is_live(&self.table, protocol, inbound_spi)
    }

    /// The live pairs, in no order of meaning.
    pub fn pairs(&self) -> impl Iterator<Item = Pair> + '_ {
        pair::live(&self.table)
    }

    /// A packet going out.
    pub fn outbound(&mut self, packet: &[u8]) -> Verdict {
        let mut carries = [0; 3];
        let number =
            ffi::outbound(&self.policy, &self.table, &mut self.outbound, packet, &mut carries);
        Verdict::from_words(number, carries)
    }

    /// A packet coming in from outside.
    pub fn inbound(&mut self, packet: &[u8]) -> Verdict {
        let mut carries = [0; 3];
        let number =
            ffi::inbound(&self.policy, &self.table, &mut self.inbound, packet, &mut carries);
        Verdict::from_words(number, carries)
    }

    /// A packet coming in from an association, AH or ESP taken off.
    pub fn from_sa(&self, protocol: u64, inbound_spi: u32, packet: &[u8]) -> Verdict {
        let mut carries = [0; 3];
        let number = ffi::from_sa(&self.table, protocol, inbound_spi, packet, &mut carries);
        Verdict::from_words(number, carries)
    }

    /// How many rows the normal form of the policy has for one direction.
    ///
    /// ```
    /// use specksonne::{Direction, Gateway};
    ///
    /// let mut gateway = Gateway::new("192.0.2.1".parse().unwrap());
    /// gateway.set_policy(b"policy\t1\nout\tbypass\tany\tany\t17\tany\tany\n").unwrap();
    /// assert_eq!(gateway.normal_form_rows(Direction::Out), 1);
    /// assert_eq!(gateway.normal_form_rows(Direction::In), 0);
    /// ```
    pub fn normal_form_rows(&self, direction: Direction) -> usize {
        // Word 1 of the policy is the count for out, word 2 that for in.
        let word = match direction {
            Direction::Out => 1,
            Direction::In => 2,
        };
        self.policy[word] as usize
    }

    /// The slot that is written next in the cache of one direction.
    pub fn next_slot(&self, direction: Direction) -> usize {
        // A gateway that was made fresh has both words in range.
        self.cache(direction)[CACHE_WORDS - 1] as usize
    }

    /// The rows in the slots in use, as the printer writes them, without LF.
    pub fn cached_rows(&self, direction: Direction) -> Vec<String> {
        let used = self.slots_in_use(direction) * ROW_WORDS;
        let file = policy::print(&self.cache(direction)[..used], direction);
        let text = String::from_utf8(file).expect("the printer writes ASCII");
        text.lines().skip(1).map(str::to_string).collect()
    }

    fn slots_in_use(&self, direction: Direction) -> usize {
        self.cache(direction)[CACHE_WORDS - 2] as usize
    }

    fn cache(&self, direction: Direction) -> &CacheWords {
        match direction {
            Direction::Out => &self.outbound,
            Direction::In => &self.inbound,
        }
    }
}

/// The address and how much the gateway holds, not its words.
impl fmt::Debug for Gateway {
    fn fmt(&self, f: &mut fmt::Formatter) -> fmt::Result {
        let both = |count: &dyn Fn(Direction) -> usize| [Direction::Out, Direction::In].map(count);
        f.debug_struct("Gateway")
            .field("address", &Ipv4Addr::from(self.policy[0] as u32))
            .field("normal_form_rows", &both(&|direction| self.normal_form_rows(direction)))
            .field("pairs", &self.pairs().count())
            .field("slots_in_use", &both(&|direction| self.slots_in_use(direction)))
            .finish()
    }
}
