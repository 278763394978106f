//! The wrapper: sizes, refusals, and what a gateway shows of itself.

use specksonne::{
    normalise, normalise_into, read, same_policy, triggering_header, Action, Direction, Gateway,
    Pair, Policy, Ranges, Refusal, Refused, Selectors, Verdict, AH, ESP, MOST_NORMAL_FORM_BYTES,
};
use std::error::Error;
use std::net::Ipv4Addr;
use testkit::{address, captured_packets, icmp_error, ports, Ipv4};

const GATEWAY: Ipv4Addr = Ipv4Addr::new(192, 0, 2, 1);

fn file(rows: &[&str]) -> Vec<u8> {
    let rows = rows.iter().map(|row| format!("{row}\n"));
    format!("policy\t1\n{}", rows.collect::<String>()).into_bytes()
}

fn pair(protocol: u64, inbound_spi: u32, number: u64) -> Pair {
    let outbound_spi = inbound_spi + 1000;
    Pair { protocol, inbound_spi, outbound_spi, number, ranges: Ranges::ANY }
}

/// UDP from 10.0.0.1 to 10.0.0.2.
fn udp(source: u16, destination: u16) -> Vec<u8> {
    let (from, to) = (address(10, 0, 0, 1), address(10, 0, 0, 2));
    Ipv4::new(17, from, to, &ports(source, destination)).bytes()
}

#[test]
fn document_01s_worked_example() {
    let policy = file(&[
        "out\tprotect-7\t10.1.0.0/255.255.255.0\t10.0.0.0-10.0.0.9\t6\tany\t22",
        "both\tbypass\tany\tany\t17\t500\t500",
    ]);
    let form = normalise(&policy, Direction::In).unwrap();
    assert_eq!(form, file(&["in\tbypass\tany\tany\t17\t500\t500"]));
    let form = normalise(&policy, Direction::Out).unwrap();
    assert_eq!(form.iter().filter(|&&byte| byte == b'\n').count(), 7);
    assert_eq!(normalise(&form, Direction::Out).unwrap(), form);

    let mut gateway = Gateway::new(GATEWAY);
    gateway.set_policy(&policy).unwrap();
    let rows = [Direction::Out, Direction::In].map(|direction| gateway.normal_form_rows(direction));
    assert_eq!(rows, [6, 1]);
}

#[test]
fn a_gateway_is_shown_in_one_line() {
    let mut gateway = Gateway::new(GATEWAY);
    gateway.set_policy(&file(&["both\tbypass\tany\tany\t6-17\tany\tany"])).unwrap();
    gateway.add(&pair(ESP, 256, 1)).unwrap();
    assert_eq!(gateway.inbound(&udp(1, 2)), Verdict::Pass);
    assert_eq!(
        format!("{gateway:?}"),
        "Gateway { address: 192.0.2.1, normal_form_rows: [1, 1], pairs: 1, slots_in_use: [0, 1] }"
    );
}

/// What `?` makes of a refusal, with its sources.
fn chain(error: Box<dyn Error>) -> Vec<String> {
    let first: &dyn Error = error.as_ref();
    std::iter::successors(Some(first), |&error| error.source()).map(|e| e.to_string()).collect()
}

#[test]
fn refusals_are_errors() {
    let bad = file(&["out"]);
    let refused = same_policy(&file(&[]), &bad, Direction::Out).unwrap_err();
    assert_eq!(chain(refused.into()), ["the second policy is refused with 20", "bad row 1"]);
    let refused = same_policy(b"", &bad, Direction::Out).unwrap_err();
    assert_eq!(chain(refused.into())[0], "the first policy is refused with 23");
    assert_eq!(chain(Policy::parse(&bad).unwrap_err().into()), ["bad row 1"]);
    assert_eq!(chain(Ranges::parse("any").unwrap_err().into()).len(), 1);
}

#[test]
fn the_room_of_a_print() {
    let policy = file(&["both\tbypass\tany\tany\t17\t500\t500"]);
    let form = normalise(&policy, Direction::Out).unwrap();
    let mut room = vec![0xee; form.len() + 1];
    let short = normalise_into(&policy, Direction::Out, &mut room[..form.len() - 1]);
    assert_eq!(short, Err(Refusal::NoRoom));
    assert!(room.iter().all(|&byte| byte == 0xee));
    assert_eq!(normalise_into(&policy, Direction::Out, &mut room), Ok(form.len()));
    assert_eq!(room[form.len()], 0xee);
    assert_eq!(normalise_into(&policy, Direction::Out, &mut []), Err(Refusal::NoRoom));
}

#[test]
fn the_longest_normal_form_has_room() {
    let row = |n: u32| {
        let addresses = "100.100.100.100-200.200.200.200";
        format!(
            "out\tprotect-{}\t{addresses}\t{addresses}\t100-200\t10000-opaque\t{n}",
            100 + n % 2
        )
    };
    let rows: Vec<String> = (20000..20256).map(row).collect();
    let rows: Vec<&str> = rows.iter().map(String::as_str).collect();
    let form = normalise(&file(&rows), Direction::Out).unwrap();
    assert!(form.len() > 25_000 && form.len() <= MOST_NORMAL_FORM_BYTES);
}

#[test]
fn refusals_of_policies_change_nothing() {
    let mut gateway = Gateway::new(GATEWAY);
    gateway.set_policy(&file(&["out\tbypass\tany\tany\t17\tany\tany"])).unwrap();
    assert_eq!(gateway.outbound(&udp(1, 2)), Verdict::Pass);
    let before = gateway.cached_rows(Direction::Out);
    assert_eq!(before, ["out\tbypass\tany\tany\t17\tany\tany"]);
    let bad_mask = file(&["out\tbypass\t10.0.0.1/255.0.0.0\tany\tany\tany\tany"]);
    let alike = ["out\tbypass\tany\tany\t17\tany\tany"; 257];
    let refused: [(&[u8], Refusal); 5] = [
        (b"", Refusal::NotHeader),
        (b"policy\t1\nx", Refusal::NotEnded),
        (&file(&alike), Refusal::TooManyRows),
        (&bad_mask, Refusal::BadRow(1)),
        (&file(&["in\tdiscard\tany\tany\tany\tany\tany", "x"]), Refusal::BadRow(2)),
    ];
    for (policy, refusal) in refused {
        assert_eq!(gateway.set_policy(policy), Err(refusal));
        assert_eq!(gateway.cached_rows(Direction::Out), before);
    }
    assert_eq!(gateway.set_policy(&file(&alike[..256])), Ok(()));
    assert!(gateway.cached_rows(Direction::Out).is_empty());
}

#[test]
fn pairs() {
    let mut gateway = Gateway::new(GATEWAY);
    assert_eq!(gateway.add(&pair(ESP, 255, 1)), Err(Refusal::ReservedSpi));
    assert_eq!(gateway.add(&pair(49, 256, 1)), Err(Refusal::BadPair));
    let beyond = Pair { ranges: Ranges([(0, 1 << 64); 5]), ..pair(ESP, 256, 1) };
    assert_eq!(gateway.add(&beyond), Err(Refusal::BadPair));
    for n in 0..64 {
        assert_eq!(gateway.add(&pair(AH, 256 + n, 1)), Ok(()));
    }
    assert_eq!(gateway.add(&pair(AH, 256, 1)), Err(Refusal::AlreadyLive));
    assert_eq!(gateway.add(&pair(ESP, 256, 1)), Err(Refusal::TableFull));
    assert_eq!(gateway.remove(AH, 300), Ok(()));
    assert_eq!(gateway.remove(AH, 300), Err(Refusal::NothingToRemove));
    assert!(gateway.is_live(AH, 256) && !gateway.is_live(AH, 300));
    assert_eq!(gateway.add(&pair(ESP, 256, 9)), Ok(()));
    assert_eq!(gateway.pairs().count(), 64);
    assert!(gateway.pairs().any(|live| live == pair(ESP, 256, 9)));
}

#[test]
fn caches_fill_and_go_round() {
    let rows: Vec<String> =
        (0..40).map(|n| format!("out\tprotect-{}\tany\tany\t17\tany\t{}", 1 + n % 2, n)).collect();
    let rows: Vec<&str> = rows.iter().map(String::as_str).collect();
    let mut gateway = Gateway::new(GATEWAY);
    gateway.set_policy(&file(&rows)).unwrap();
    for n in 0..40 {
        assert_eq!(gateway.next_slot(Direction::Out), n % 32);
        let number = 1 + n as u64 % 2;
        assert_eq!(gateway.outbound(&udp(9, n as u16)), Verdict::Wanted { number });
    }
    let cached = gateway.cached_rows(Direction::Out);
    assert_eq!(cached.len(), 32);
    assert_eq!(cached[7], "out\tprotect-2\tany\tany\t17\tany\t39");
    assert!(gateway.cached_rows(Direction::In).is_empty());
}

#[test]
fn readers() {
    let packet = Ipv4::new(1, 1, 2, &icmp_error(3, 1, &udp(5, 6))).bytes();
    let seen = read(&packet, Direction::Out).unwrap();
    assert_eq!((seen.local_port, seen.remote_port), (Some(769), None));
    assert_eq!(triggering_header(&packet), Some(28..packet.len()));
    assert_eq!(triggering_header(&packet[..27]), None);
    assert_eq!(read(&[], Direction::In), None);
}

/// Policies that are hard to lay out, from the families that take longest.
fn hard_policies() -> Vec<Vec<u8>> {
    let slabs = |n: u32| format!("both\tbypass\t{n}.0.0.0-{}.0.0.0\tany\tany\tany\t{n}", n + 9);
    let nested = |n: u32| {
        let (low, high) = (120 - n, 130 + n);
        let addresses = format!("{low}.0.0.0-{high}.0.0.0");
        format!("both\tprotect-{}\t{addresses}\t{addresses}\t{low}-{high}\tany\tany", 1 + n)
    };
    let hidden = |n: u32| match n {
        0 => "both\tbypass\tany\tany\tany\tany\t0-30000".to_string(),
        1 => "both\tbypass\tany\tany\tany\tany\t30001-opaque".to_string(),
        _ => format!("both\tdiscard\t{n}.1.0.0-{n}.9.0.0\t1.{n}.0.0\t{n}\t{n}\t{n}-opaque"),
    };
    let rows = |row: &dyn Fn(u32) -> String, count: u32| {
        let rows: Vec<String> = (0..count).map(row).collect();
        file(&rows.iter().map(String::as_str).collect::<Vec<_>>())
    };
    vec![rows(&slabs, 240), rows(&nested, 40), rows(&hidden, 256)]
}

#[test]
fn every_call_fits_in_a_mebibyte_of_stack() {
    let calls = || {
        let mut gateway = Gateway::new(GATEWAY);
        for policy in hard_policies() {
            let accepted = gateway.set_policy(&policy);
            let form = normalise(&policy, Direction::Out);
            assert!(accepted.is_ok() || form.is_err());
            assert_eq!(same_policy(&policy, &policy, Direction::In), Ok(true));
            let _ = gateway.outbound(&udp(1, 2));
            let _ = gateway.inbound(&udp(1, 2));
        }
    };
    let thread = std::thread::Builder::new().stack_size(1 << 20).spawn(calls);
    thread.unwrap().join().unwrap();
}

/// Every packet of the captures, where their folder stands beside the repository.
#[test]
fn packets_from_captures() {
    let Some(text) = captured_packets() else {
        return;
    };
    for (number, line) in text.lines().enumerate() {
        let (packet, expected) = line.split_once('\t').unwrap();
        assert_eq!(shown(&from_hex(packet)), expected, "line {}", number + 1);
    }
}

/// What the reader sees going out, as the captures' list writes it.
fn shown(bytes: &[u8]) -> String {
    let Some(seen) = read(bytes, Direction::Out) else {
        return "10".to_string();
    };
    let port = |port: Option<u16>| port.map_or(65_536, u32::from);
    let Selectors { local, remote, protocol, local_port, remote_port } = seen;
    let (local, remote) = (u32::from(local), u32::from(remote));
    format!("{local} {remote} {protocol} {} {}", port(local_port), port(remote_port))
}

fn from_hex(text: &str) -> Vec<u8> {
    let digits = (0..text.len()).step_by(2).map(|at| &text[at..at + 2]);
    digits.map(|byte| u8::from_str_radix(byte, 16).unwrap()).collect()
}

#[test]
fn a_policy_shows_which_row_matches() {
    let policy = Policy::parse(&file(&[
        "in\tbypass\tany\tany\tany\tany\tany",
        "both\tprotect-255\tany\tany\tany\topaque\tany",
        "out\tdiscard\tany\tany\tany\tany\tany",
    ]))
    .unwrap();
    let mut selectors = read(&udp(1, 2), Direction::Out).unwrap();
    assert_eq!(policy.rows(), 3);
    assert_eq!(policy.first_match(Direction::Out, &selectors), Some(2));
    assert_eq!(policy.first_match(Direction::In, &selectors), Some(0));
    selectors.local_port = None;
    assert_eq!(policy.first_match(Direction::Out, &selectors), Some(1));
    assert_eq!(policy.search(Direction::Out, &selectors).to_string(), "protect-255");
    let empty = Policy::parse(b"policy\t1\n").unwrap();
    assert_eq!(empty.first_match(Direction::Out, &selectors), None);
}

/// An empty slice's pointer points to nothing, and a call does not go through it.
#[test]
fn empty_slices() {
    let mut gateway = Gateway::new(GATEWAY);
    gateway.add(&pair(ESP, 256, 1)).unwrap();
    assert_eq!(gateway.set_policy(&[]), Err(Refusal::NotHeader));
    assert_eq!(gateway.outbound(&[]), Verdict::NotReadable);
    assert_eq!(gateway.inbound(&[]), Verdict::NotReadable);
    assert_eq!(gateway.from_sa(ESP, 256, &[]), Verdict::NotReadable);
    assert_eq!((read(&[], Direction::In), triggering_header(&[])), (None, None));
    assert_eq!(normalise(&[], Direction::Out), Err(Refusal::NotHeader));
    assert_eq!(same_policy(&[], &[], Direction::In), Err(Refused::First(Refusal::NotHeader)));
    assert_eq!(gateway.cached_rows(Direction::Out), [""; 0]);
    let selectors = read(&udp(1, 2), Direction::Out).unwrap();
    let policy = Policy::parse(&file(&[])).unwrap();
    assert_eq!(policy.search(Direction::Out, &selectors), Action::Discard);
    assert_eq!(policy.search_records(Direction::Out, &selectors), Action::Discard);
    assert_eq!(policy.first_match(Direction::Out, &selectors), None);
}
