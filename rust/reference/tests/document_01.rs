//! Document 01's own examples: the worked normal form, the list 'Measured against both sides',
//! and the list 'How it could go wrong at night'.

mod common;

use common::{normalised, policy, proposed_pair, search_ports, GATEWAY};
use reference::{
    Answer, Direction, Gateway, Packet, Range, Requests, Selectors, ABSENT_PORT, MOST_PAIRS,
};
use testkit::{address, icmp_error, ports, Ipv4};

const WORKED_EXAMPLE: &str = "\
policy\t1
out\tprotect-7\t10.1.0.0/255.255.255.0\t10.0.0.0-10.0.0.9\t6\tany\t22
both\tbypass\tany\tany\t17\t500\t500
";

#[test]
fn worked_example_out() {
    let expected = "\
policy\t1
out\tbypass\t0.0.0.0-10.0.255.255\tany\t17\t500\t500
out\tbypass\t10.1.0.0-10.1.0.255\t0.0.0.0-9.255.255.255\t17\t500\t500
out\tprotect-7\t10.1.0.0-10.1.0.255\t10.0.0.0-10.0.0.9\t6\tany\t22
out\tbypass\t10.1.0.0-10.1.0.255\t10.0.0.0-10.0.0.9\t17\t500\t500
out\tbypass\t10.1.0.0-10.1.0.255\t10.0.0.10-255.255.255.255\t17\t500\t500
out\tbypass\t10.1.1.0-255.255.255.255\tany\t17\t500\t500
";
    assert_eq!(normalised(WORKED_EXAMPLE, Direction::Out), expected);
    assert_eq!(normalised(expected, Direction::Out), expected);
}

#[test]
fn worked_example_in() {
    let expected = "policy\t1\nin\tbypass\tany\tany\t17\t500\t500\n";
    assert_eq!(normalised(WORKED_EXAMPLE, Direction::In), expected);
}

#[test]
fn absent_in_port_ranges() {
    let holds_absent = |range| search_ports(range, ABSENT_PORT);
    assert!(holds_absent("any"));
    assert!(!holds_absent("0-65535"));
    assert!(holds_absent("23-opaque"));
    assert!(!search_ports("opaque", 0));
    assert!(holds_absent("opaque"));
    assert!(Range::ANY_PORT.holds(ABSENT_PORT) && !Range::OPAQUE_PORT.holds(65_535));
}

#[test]
fn icmp_type_and_code_as_local_port() {
    let local_port = |icmp_type, code| {
        let packet = Ipv4::new(1, 1, 2, &icmp_error(icmp_type, code, &[])).bytes();
        let selectors = |direction| selectors_of(&packet, direction).unwrap();
        assert_eq!(selectors(Direction::Out).local_port, selectors(Direction::In).local_port);
        assert_eq!(selectors(Direction::Out).remote_port, None);
        selectors(Direction::In).local_port.unwrap()
    };
    assert_eq!(local_port(3, 1), 769);
    assert!(search_ports("768-1023", 769));
    assert_eq!(local_port(4, 0), 1024);
    assert!(!search_ports("768-1023", 1024));
}

fn selectors_of(bytes: &[u8], direction: Direction) -> Option<Selectors> {
    Packet::read(bytes).map(|packet| packet.selectors(direction, Requests::NONE))
}

/// The local and remote port going out.
fn ports_out(packet: &Ipv4) -> (Option<u16>, Option<u16>) {
    let selectors = selectors_of(&packet.bytes(), Direction::Out).unwrap();
    (selectors.local_port, selectors.remote_port)
}

#[test]
fn tcp_ports_by_total_length_and_offset() {
    let tcp = Ipv4::new(6, 1, 2, &ports(22, 80));
    assert_eq!(ports_out(&tcp.clone().total_length(23)), (None, None));
    assert_eq!(ports_out(&tcp.clone().total_length(24)), (Some(22), Some(80)));
    assert_eq!(ports_out(&tcp.total_length(24).flags_and_offset(1)), (None, None));
}

#[test]
fn shortest_readable_packet() {
    let bytes = Ipv4::new(6, 1, 2, &[]).bytes();
    assert_eq!(bytes.len(), 20);
    assert_eq!(Packet::read(&bytes[..19]), None);
    assert!(Packet::read(&bytes).is_some());
    let longer = Ipv4::new(6, 1, 2, &[]).total_length(21).bytes();
    assert_eq!(Packet::read(&longer), None);
    assert_eq!(gateway().outbound(&longer), Answer::NotReadable);
    assert_eq!(gateway().inbound(&bytes[..19]), Answer::NotReadable);
}

fn gateway() -> Gateway {
    Gateway::new(GATEWAY, Requests::NONE)
}

#[test]
fn policies_at_their_limits() {
    let mut gateway = gateway();
    let anything = Ipv4::new(17, 1, 2, &ports(500, 500)).bytes();
    assert_eq!(
        gateway.set_policy(&policy(&["both\tbypass\tany\tany\tany\tany\tany"])),
        Answer::Done
    );
    assert_eq!(gateway.outbound(&anything), Answer::PassInClear);
    assert_eq!(gateway.set_policy(b"policy\t1\n"), Answer::Done);
    assert_eq!(gateway.outbound(&anything), Answer::PolicyDiscards);
    assert_eq!(gateway.inbound(&anything), Answer::PolicyDiscards);
    assert_eq!(gateway.set_policy(b""), Answer::NoHeaderLine);
    let alike = ["both\tbypass\tany\tany\t17\t500\t500"; 257];
    assert_eq!(gateway.set_policy(&policy(&alike[..256])), Answer::Done);
    assert_eq!(gateway.outbound(&anything), Answer::PassInClear);
    assert_eq!(gateway.set_policy(&policy(&alike)), Answer::TooManyRows);
    for address in ["10.0.0.0/255.0.255.0", "10.0.0.1/255.0.0.0"] {
        let row = format!("out\tbypass\t{address}\tany\tany\tany\tany");
        assert_eq!(gateway.set_policy(&policy(&[&row])), Answer::BadRow { row: 1 });
    }
}

#[test]
fn pairs_at_their_limits() {
    let mut gateway = gateway();
    assert_eq!(gateway.add_pair(&proposed_pair(50, 255, 7)), Answer::SpiReserved);
    for spi in 256..256 + MOST_PAIRS as u32 {
        assert_eq!(gateway.add_pair(&proposed_pair(50, spi, 7)), Answer::Done);
    }
    assert_eq!(gateway.add_pair(&proposed_pair(50, 1000, 7)), Answer::PairTableFull);
    assert_eq!(gateway.remove_pair(50, 300), Answer::Done);
    assert_eq!(gateway.add_pair(&proposed_pair(50, 1000, 7)), Answer::Done);
}

/// `0-65535` printed as `any`: fragments slip in.
#[test]
fn at_night_numbers_alone_are_not_any() {
    let file = "policy\t1\nout\tbypass\tany\tany\t6\t0-65535\t0-opaque\n";
    let form = "policy\t1\nout\tbypass\tany\tany\t6\t0-65535\tany\n";
    assert_eq!(normalised(file, Direction::Out), form);
    let mut gateway = gateway();
    assert_eq!(gateway.set_policy(form.as_bytes()), Answer::Done);
    let first = Ipv4::new(6, 1, 2, &ports(22, 80));
    assert_eq!(gateway.outbound(&first.bytes()), Answer::PassInClear);
    let later = first.flags_and_offset(185);
    assert_eq!(gateway.outbound(&later.bytes()), Answer::PolicyDiscards);
}

/// Caching a row of the ordered policy itself: a later packet meets it before an earlier,
/// overlapping row.
#[test]
fn at_night_the_cache_holds_normal_form_rows() {
    let mut gateway = gateway();
    let rows = ["out\tdiscard\tany\tany\t6\tany\t23", "out\tbypass\tany\tany\t6\tany\tany"];
    assert_eq!(gateway.set_policy(&policy(&rows)), Answer::Done);
    let to_port = |port| Ipv4::new(6, 1, 2, &ports(1, port)).bytes();
    assert_eq!(gateway.outbound(&to_port(22)), Answer::PassInClear);
    assert_eq!(gateway.outbound(&to_port(23)), Answer::PolicyDiscards);
    assert_eq!(gateway.outbound(&to_port(24)), Answer::PassInClear);
}

/// Merging neighbours in the last field only, so that two equal policies print differently.
#[test]
fn at_night_neighbours_merge_in_every_field() {
    for field in 2..7 {
        let whole = ["out", "bypass", "0.0.0.4-0.0.0.9", "0.0.0.4-0.0.0.9", "4-9", "4-9", "4-9"];
        let (mut low, mut high) = (whole, whole);
        (low[field], high[field]) = match field {
            2 | 3 => ("0.0.0.4-0.0.0.6", "0.0.0.7-0.0.0.9"),
            _ => ("4-6", "7-9"),
        };
        let expected = String::from_utf8(policy(&[&whole.join("\t")])).unwrap();
        for rows in [[low, high], [high, low]] {
            let rows = rows.map(|row| row.join("\t"));
            let file = String::from_utf8(policy(&rows.each_ref().map(String::as_str))).unwrap();
            assert_eq!(normalised(&file, Direction::Out), expected, "field {field}");
        }
    }
}

/// Reading the returned header as coming in: local and remote change places.
#[test]
fn at_night_the_triggering_header_is_read_as_going_out() {
    let (ours, theirs) = (address(10, 1, 0, 5), address(10, 0, 0, 5));
    let mut gateway = gateway();
    let mut pair = proposed_pair(50, 256, 7);
    pair.ranges[0] = Range::single(ours.into());
    pair.ranges[1] = Range::single(theirs.into());
    pair.ranges[2] = Range::single(6);
    assert_eq!(gateway.add_pair(&pair), Answer::Done);
    let error_about = |source, destination| {
        let returned = Ipv4::new(6, source, destination, &ports(22, 80)).bytes();
        Ipv4::new(1, address(10, 0, 0, 1), ours, &icmp_error(3, 1, &returned)).bytes()
    };
    assert_eq!(gateway.from_sa(50, 256, &error_about(ours, theirs)), Answer::Deliver);
    let reversed = error_about(theirs, ours);
    assert_eq!(gateway.from_sa(50, 256, &reversed), Answer::TriggeringHeaderDoesNotFit);
}

/// Keeping the cache across a policy change.
#[test]
fn at_night_a_policy_change_empties_the_caches() {
    let mut gateway = gateway();
    let packet = Ipv4::new(6, 1, 2, &ports(1, 22)).bytes();
    let with_action = |action: &str| policy(&[&format!("both\t{action}\tany\tany\tany\tany\tany")]);
    gateway.set_policy(&with_action("bypass"));
    assert_eq!(gateway.outbound(&packet), Answer::PassInClear);
    assert_eq!(gateway.inbound(&packet), Answer::PassInClear);
    gateway.set_policy(&with_action("protect-3"));
    assert_eq!(gateway.outbound(&packet), Answer::AssociationWanted { number: 3 });
    assert_eq!(gateway.inbound(&packet), Answer::ShouldBeProtected);
    assert_eq!(gateway.cache(Direction::Out).next_slot(), 1);
}
