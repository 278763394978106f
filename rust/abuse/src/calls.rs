//! Random calls of every exported function, each held against what it may change.

use crate::array;
use crate::counts::Counts;
use crate::inputs::{packet, policy_file, protocol, spi, word, MOST_BYTES};
use crate::lent::{Given, Lent};
use crate::model::{self, IN, NEXT, OUT, PLACE_WORDS, USED};
use crate::packets::Packets;
use specksonne::ffi::{self, POLICY_WORDS, ROW_WORDS, TABLE_WORDS};
use specksonne::MOST_NORMAL_FORM_BYTES;
use testkit::Prng;

const MOST_ROWS: usize = 24;
const MOST_OUT: usize = 4096;

/// Everything that is lent, each in its own fence.
pub struct Abuse {
    prng: Prng,
    /// Whether words change between the calls; without, the state is that of a gateway.
    disturbs: bool,
    policy: Lent<u64>,
    table: Lent<u64>,
    packets: Packets,
    rows: Lent<u64>,
    /// Selectors, or ranges.
    words: Lent<u64>,
    carries: Lent<u64>,
    out: Lent<u8>,
    /// A policy file, or a packet.
    given: Given,
    /// The second file of two.
    second: Given,
    counts: Counts,
}

impl Abuse {
    pub fn new(seed: u64) -> Abuse {
        let mut abuse = Abuse {
            prng: Prng::new(seed),
            disturbs: true,
            policy: Lent::new(POLICY_WORDS, 0),
            table: Lent::new(TABLE_WORDS, 0),
            packets: Packets::new(),
            rows: Lent::new(MOST_ROWS * ROW_WORDS, 0),
            words: Lent::new(20, 0),
            carries: Lent::new(2, 0),
            out: Lent::new(MOST_OUT, 0),
            given: Given::new(MOST_BYTES),
            second: Given::new(MOST_BYTES),
            counts: Counts::default(),
        };
        abuse.refill();
        abuse
    }

    /// With the state of a gateway, at first.
    pub fn of_a_gateway(seed: u64) -> Abuse {
        let mut abuse = Abuse::new(seed);
        abuse.disturbs = false;
        abuse.fresh();
        abuse
    }

    /// Makes this many calls.
    pub fn run(&mut self, calls: u64) {
        for _ in 0..calls {
            if self.prng.one_in(20_000) {
                self.refill();
            }
            if self.disturbs {
                self.disturb();
            }
            self.place();
            self.call();
            self.check();
        }
    }

    /// How often each answer was given.
    pub fn counts(&self) -> Counts {
        let mut counts = self.counts.clone();
        counts += self.packets.counts.clone();
        counts
    }

    /// The policy and the table, for callers that only read them.
    pub fn policy_and_table(&mut self) -> (&[u64; POLICY_WORDS], &[u64; TABLE_WORDS]) {
        (array(self.policy.lent()), array(self.table.lent()))
    }

    /// Whether the policy has rows for both directions.
    pub fn has_rows(&self) -> bool {
        let policy = self.policy.expected();
        [OUT, IN].iter().all(|&direction| !model::rows(policy, direction).is_empty())
    }

    /// Holds all that is lent against what it must be.
    #[track_caller]
    pub fn check(&mut self) {
        self.policy.check("policy");
        self.table.check("table");
        self.packets.check();
        self.rows.check("list of rows");
        self.words.check("list of selectors or ranges");
        self.carries.check("room for what an answer carries");
        self.out.check("room for a file");
        self.given.check("file or packet");
        self.second.check("second file");
    }

    /// The words of a gateway's state.
    fn state(&mut self) -> [&mut Lent<u64>; 4] {
        let Packets { outbound, inbound, .. } = &mut self.packets;
        [&mut self.policy, &mut self.table, outbound, inbound]
    }

    /// New words everywhere, or a fresh gateway that nothing disturbs.
    fn refill(&mut self) {
        self.disturbs = !self.prng.one_in(3);
        let mut prng = Prng::new(self.prng.number());
        for words in self.state() {
            let kind = prng.below(4);
            words.fill_with(|| word(&mut prng, kind));
        }
        self.rows.fill_with(|| word(&mut prng, 3));
        self.out.fill_with(|| prng.byte());
        if !self.disturbs {
            self.fresh();
        }
    }

    /// New words in a few places of the state, among them those that say how much is in use.
    fn disturb(&mut self) {
        let mut prng = Prng::new(self.prng.number());
        let address = prng.number() as u32;
        let counts = [(0, 0), (0, 1), (0, 2), (2, USED), (2, NEXT), (3, USED), (3, NEXT)];
        let mut state = self.state();
        for words in &mut state {
            for _ in 0..prng.below(4) {
                let place = prng.below(words.expected().len() as u64) as usize;
                words.write(place, &[word(&mut prng, 3)]);
            }
        }
        let (list, place) = *prng.pick(&counts);
        if prng.one_in(4) {
            let (any, few) = (word(&mut prng, 3), prng.below(34));
            state[list].write(place, &[*prng.pick(&[any, few])]);
        } else if prng.one_in(8) {
            state[0].write(0, &[address.into()]);
        }
        let place = prng.below((MOST_ROWS * ROW_WORDS) as u64) as usize;
        self.rows.set_part(MOST_ROWS * ROW_WORDS, false).write(place, &[word(&mut prng, 3)]);
    }

    /// Moves what is lent to one guard page or the other, and writes any words to what is only
    /// written.
    fn place(&mut self) {
        let mut prng = Prng::new(self.prng.number());
        for words in self.state() {
            if prng.one_in(32) {
                words.move_over();
            }
        }
        self.carries.set_part(2, prng.one_in(2)).write(0, &[prng.number(), prng.number()]);
    }

    /// One call, of any function.
    fn call(&mut self) {
        match self.prng.below(64) {
            0 if self.prng.one_in(4) => {
                self.fresh();
                self.counts.answered(5, &[5]);
            }
            0..=3 => self.policy(),
            4..=5 => self.normalise(),
            6 => self.same(),
            7..=10 => self.parse(),
            11..=13 => self.print(),
            14..=17 => self.search(),
            18..=21 => self.read(),
            22..=27 => self.add(),
            28..=31 => self.remove(),
            _ => {
                let (policy, table) = (array(self.policy.lent()), array(self.table.lent()));
                self.packets.call(&mut self.prng, policy, table);
            }
        }
    }

    /// Counts an answer, which must be one of those allowed and carry something only where it is
    /// one of those listed, and says what it carries.
    #[track_caller]
    fn answered(&mut self, number: u64, allowed: &[u64], listed: &[u64]) -> u64 {
        self.counts.answered(number, allowed);
        let carried = self.carries.lent()[0];
        self.carries.accept(0..1);
        assert!(listed.contains(&number) || carried == 0, "answer {number} carries {carried}");
        carried
    }

    fn fresh(&mut self) {
        let address = self.prng.number() as u32;
        let Packets { outbound, inbound, .. } = &mut self.packets;
        let (outbound, inbound) = (array(outbound.lent()), array(inbound.lent()));
        let (policy, table) = (array(self.policy.lent()), array(self.table.lent()));
        ffi::fresh(policy, table, outbound, inbound, address);
        for words in self.state() {
            words.expect().fill(0);
        }
        self.policy.expect()[0] = address.into();
    }

    fn policy(&mut self) {
        self.give_file();
        let Packets { outbound, inbound, .. } = &mut self.packets;
        let (outbound, inbound) = (array(outbound.lent()), array(inbound.lent()));
        let (policy, carried) = (array(self.policy.lent()), &mut self.carries.lent()[0]);
        let number = ffi::policy(policy, outbound, inbound, self.given.lent(), carried);
        if number == 5 {
            self.packets.outbound.expect().fill(0);
            self.packets.inbound.expect().fill(0);
            self.accept_rows();
        }
        self.answered(number, &[5, 20, 21, 22, 23, 24], &[20, 22]);
    }

    /// Takes the rows that the policy has now, which must be the normal forms of the file, for what
    /// they must be.
    fn accept_rows(&mut self) {
        let file = self.given.bytes();
        for direction in [OUT, IN] {
            let [mut printed, mut form] = [(); 2].map(|()| vec![0; MOST_NORMAL_FORM_BYTES]);
            let (mut bytes, mut form_bytes) = (0, 0);
            let rows = model::rows(self.policy.lent(), direction);
            assert_eq!(ffi::print(rows, direction, &mut printed, &mut bytes), 5);
            assert_eq!(ffi::normalise(file, direction, &mut form, &mut form_bytes), 5);
            assert!(bytes == form_bytes && printed == form, "a row is not the normal form's");
        }
        self.policy.accept(1..POLICY_WORDS);
    }

    fn normalise(&mut self) {
        let direction = self.direction();
        self.give_file();
        self.out.set_part(self.prng.below(2000) as usize, self.prng.one_in(2));
        let carried = &mut self.carries.lent()[0];
        let number = ffi::normalise(self.given.lent(), direction, self.out.lent(), carried);
        let written = self.answered(number, &[5, 20, 21, 22, 23, 24, 31], &[5, 20, 22]);
        if number == 5 {
            self.out.accept(0..written as usize);
        }
    }

    fn same(&mut self) {
        let direction = self.direction();
        self.give_file();
        let another = policy_file(&mut self.prng);
        let second = if self.prng.one_in(3) { self.given.bytes().to_vec() } else { another };
        self.second.set(second, self.prng.one_in(2));
        let (first, second) = (self.given.lent(), self.second.lent());
        let number = ffi::same(first, second, direction, array(self.carries.lent()));
        let which = self.carries.lent()[1];
        self.carries.accept(1..2);
        let carried = self.answered(number, &[5, 20, 21, 23, 24], &[5, 20]);
        assert!(if number == 5 { which == 0 && carried < 2 } else { matches!(which, 1 | 2) });
        let itself = number == 5 && self.given.bytes() == self.second.bytes();
        assert!(!itself || carried == 1, "a file is not the same as itself");
    }

    fn parse(&mut self) {
        self.give_file();
        let words = self.prng.below((MOST_ROWS * ROW_WORDS) as u64 + 1) as usize;
        self.rows.set_part(words, self.prng.one_in(2));
        let carried = &mut self.carries.lent()[0];
        let number = ffi::parse(self.given.lent(), self.rows.lent(), carried);
        let rows = self.answered(number, &[5, 20, 21, 23, 24, 31], &[5, 20]);
        if number == 5 {
            self.rows.accept(0..rows as usize * ROW_WORDS);
        }
    }

    fn print(&mut self) {
        let direction = self.direction();
        self.rows.set_part(self.prng.below(300) as usize, self.prng.one_in(2));
        self.out.set_part(self.prng.below(4000) as usize, self.prng.one_in(2));
        let carried = &mut self.carries.lent()[0];
        let number = ffi::print(self.rows.lent(), direction, self.out.lent(), carried);
        let written = self.answered(number, &[5, 31], &[5]);
        if number == 5 {
            self.out.accept(0..written as usize);
        }
    }

    fn search(&mut self) {
        let direction = self.direction();
        let words = self.prng.below((MOST_ROWS * ROW_WORDS) as u64 + 1) as usize;
        self.rows.set_part(words, self.prng.one_in(2));
        let kind = self.prng.below(4);
        let selectors = [(); 10].map(|()| word(&mut self.prng, kind));
        self.words.set_part(10, self.prng.one_in(2)).write(0, &selectors);
        let (rows, selectors) = (self.rows.lent(), array(self.words.lent()));
        let carried = &mut self.carries.lent()[0];
        let found = model::first_match(rows, direction, selectors);
        let (place, action) = found.map_or((0, 0), |(place, row)| (place, model::action(row)));
        let (is_found, expected) = (found.is_some(), (action.min(2), action.saturating_sub(2)));
        assert_eq!((ffi::search(rows, direction, selectors, carried), *carried), expected);
        *carried = u64::MAX;
        let (records, _) = rows.as_chunks();
        let action = ffi::search_records(records, direction, selectors, carried);
        assert_eq!((action, *carried), expected);
        *carried = u64::MAX;
        assert_eq!(ffi::first_match(rows, direction, selectors, carried), is_found);
        assert_eq!(*carried, place as u64);
        self.answered(5, &[5], &[5]);
    }

    fn read(&mut self) {
        let direction = self.direction();
        self.given.set(packet(&mut self.prng), self.prng.one_in(2));
        self.words.set_part(10, self.prng.one_in(2));
        let readable = ffi::read(direction, self.given.lent(), array(self.words.lent()));
        let selectors = model::selectors(self.given.bytes(), direction);
        assert_eq!(readable, selectors.is_some());
        self.words.expect().copy_from_slice(&selectors.unwrap_or_default());
        let part = array(self.carries.lent());
        assert_eq!(ffi::trigger(self.given.lent(), part), readable);
        let expected = model::triggering_part(self.given.bytes()).unwrap_or_default();
        self.carries.expect().copy_from_slice(&expected);
        self.counts.answered(if readable { 5 } else { 10 }, &[5, 10]);
    }

    fn add(&mut self) {
        let (protocol, any_number) = (protocol(&mut self.prng), word(&mut self.prng, 3));
        let number = *self.prng.pick(&[7, 7, 255, any_number]);
        let (spi_in, spi_out) = (spi(&mut self.prng), spi(&mut self.prng));
        let kind = self.prng.below(4);
        let any = [0, 0, 0, 9, 0, 0, 0, 9, 0, 0, 0, 255, 0, 0, 0, 65_536, 0, 0, 0, 65_536];
        let sound = self.prng.one_in(2);
        let ranges = any.map(|end| if sound { end } else { word(&mut self.prng, kind) });
        self.words.set_part(20, self.prng.one_in(2)).write(0, &ranges);
        if self.disturbs && self.prng.one_in(200) {
            // Every place is taken.
            for place in (0..TABLE_WORDS).step_by(PLACE_WORDS) {
                self.table.write(place, &[50, 1 << 20]);
            }
        }
        let live = model::live_place(self.table.expected(), protocol, spi_in).is_some();
        let table = array(self.table.lent());
        let answer = ffi::add(table, protocol, spi_in, spi_out, number, array(self.words.lent()));
        assert_eq!(ffi::is_live(table, protocol, spi_in), live || answer == 5);
        if answer == 5 {
            let place = model::free_place(self.table.expected()).expect("a free place");
            let name = [protocol, spi_in.into(), spi_out.into(), number];
            self.table.expect()[place..place + 4].copy_from_slice(&name);
            self.table.expect()[place + 4..place + PLACE_WORDS].copy_from_slice(&ranges);
        }
        self.counts.answered(answer, &[5, 25, 26, 27, 28]);
    }

    fn remove(&mut self) {
        let (protocol, spi) = (protocol(&mut self.prng), spi(&mut self.prng));
        let place = model::live_place(self.table.expected(), protocol, spi);
        let table = array(self.table.lent());
        assert_eq!(ffi::is_live(table, protocol, spi), place.is_some());
        let answer = ffi::remove(table, protocol, spi);
        assert_eq!(answer == 5, place.is_some());
        if let Some(place) = place {
            self.table.accept(place..place + PLACE_WORDS);
            let next_free = model::free_place(&self.table.expected()[place..]);
            assert_eq!(next_free, Some(0), "the place is not free");
        }
        self.counts.answered(answer, &[5, 29]);
    }

    /// Gives another policy file.
    fn give_file(&mut self) {
        self.given.set(policy_file(&mut self.prng), self.prng.one_in(2));
    }

    fn direction(&mut self) -> u64 {
        word(&mut self.prng, 3)
    }
}
