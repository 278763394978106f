//! Policy files: which rows are read, how ranges are printed, and the order of the refusals.

mod common;

use common::{normalised, policy};
use reference::{normalise, parse_policy, Answer, Direction, Requests};

/// A row with one field replaced, counted from 0.
fn row_with(field: usize, text: &str) -> String {
    let mut fields = ["out", "bypass", "1.2.3.4", "5.6.7.8", "6", "22", "80"];
    fields[field] = text;
    fields.join("\t")
}

fn refusal(file: &[u8]) -> Option<Answer> {
    parse_policy(file, Requests::NONE).err()
}

fn row_is_bad(row: &str) -> bool {
    match refusal(&policy(&[row])) {
        None => false,
        Some(answer) => {
            assert_eq!(answer, Answer::BadRow { row: 1 }, "{row:?}");
            true
        }
    }
}

/// How a range may be written, and how it is printed.
type Spellings<'a> = &'a [(&'a str, &'a str)];

/// Each field, what may stand in it, and how the normal form prints that.
#[test]
fn legal_fields_and_their_printed_form() {
    let cases: [(&[usize], Spellings); 4] = [
        (&[1], &[("bypass", "bypass"), ("protect-1", "protect-1"), ("protect-255", "protect-255")]),
        (
            &[2, 3],
            &[
                ("any", "any"),
                ("0.0.0.0-255.255.255.255", "any"),
                ("0.0.0.0/0.0.0.0", "any"),
                ("10.0.0.9/255.255.255.255", "10.0.0.9"),
                ("10.0.0.0/255.0.0.0", "10.0.0.0-10.255.255.255"),
                ("10.0.0.6/255.255.255.254", "10.0.0.6-10.0.0.7"),
                ("1.2.3.4-1.2.3.4", "1.2.3.4"),
                ("255.255.255.255", "255.255.255.255"),
                ("0.0.0.0", "0.0.0.0"),
            ],
        ),
        (&[4], &[("any", "any"), ("0-255", "any"), ("0", "0"), ("7-7", "7"), ("1-255", "1-255")]),
        (
            &[5, 6],
            &[
                ("any", "any"),
                ("0-opaque", "any"),
                ("0-65535", "0-65535"),
                ("opaque", "opaque"),
                ("65535-opaque", "65535-opaque"),
                ("1-opaque", "1-opaque"),
                ("0", "0"),
                ("65535", "65535"),
            ],
        ),
    ];
    for (fields, spellings) in cases {
        for &field in fields {
            for (written, printed) in spellings {
                let file = String::from_utf8(policy(&[&row_with(field, written)])).unwrap();
                let expected = String::from_utf8(policy(&[&row_with(field, printed)])).unwrap();
                assert_eq!(normalised(&file, Direction::Out), expected);
            }
        }
    }
}

const WORDS: &[&str] =
    &["", " ", "any ", "Any", "ANY", "any\r", "-", "any-5", "5-any", "x", "\0", "é"];
const NUMBERS: &[&str] =
    &["00", "01", "+1", "-1", "1-", "-1-2", "1--2", "2-1", "1-2-3", "1_0", "0x1"];
const LONG: &[&str] = &["99999999999999999999", "18446744073709551617", "4294967297"];
const ADDRESSES: &[&str] = &[
    "1.2.3",
    "1.2.3.4.5",
    "1.2.3.256",
    "1.2.3.04",
    "1..3.4",
    ".1.2.3.4",
    "1.2.3.4.",
    "1.2.3.4-",
    "1.2.3.4-1.2.3.3",
    "1.2.3.4/24",
    "1.2.3.4/255.255.255.254/255.255.255.254",
    "1.2.3.4/",
    "/255.255.255.255",
    "1.0.0.0/0.0.0.0",
    "10.0.0.1/255.0.0.0",
    "10.0.0.0/255.0.255.0",
    "10.0.0.0/0.255.255.255",
    "10.0.0.0/255.255.255.0-10.0.1.0",
    "10.0.0.0-10.0.1.0/255.255.255.0",
    "any/255.0.0.0",
    "opaque",
    "1.2.3.4-opaque",
    "1",
    "16909060",
];
const PROTOCOLS: &[&str] = &["256", "0-256", "opaque", "6-opaque", "tcp", "6.0"];
const PORTS: &[&str] =
    &["65536", "0-65536", "opaque-opaque", "opaque-5", "any-opaque", "-opaque", "Opaque"];
const DIRECTIONS: &[&str] = &["", "Out", "out ", "both,in", "any", "inn", "o"];
const ACTIONS: &[&str] = &[
    "",
    "protect",
    "protect-",
    "protect-0",
    "protect-256",
    "protect-07",
    "protect-1 ",
    "pass",
    "protect-1-2",
    "Bypass",
    "discard-1",
    "protect--1",
];

#[test]
fn bad_fields() {
    let per_field: [&[&[&str]]; 7] = [
        &[DIRECTIONS],
        &[ACTIONS, WORDS],
        &[ADDRESSES, WORDS, NUMBERS, LONG],
        &[ADDRESSES, WORDS, NUMBERS, LONG],
        &[PROTOCOLS, WORDS, NUMBERS, LONG],
        &[PORTS, WORDS, NUMBERS, LONG],
        &[PORTS, WORDS, NUMBERS, LONG],
    ];
    for (field, lists) in per_field.iter().enumerate() {
        for text in lists.iter().copied().flatten() {
            assert!(row_is_bad(&row_with(field, text)), "field {field}: {text:?}");
        }
    }
}

#[test]
fn bad_field_counts() {
    let row = row_with(0, "out");
    assert!(!row_is_bad(&row));
    assert!(row_is_bad(""));
    assert!(row_is_bad(&format!("{row}\t")));
    assert!(row_is_bad(&format!("\t{row}")));
    assert!(row_is_bad(&format!("{row}\tquiet")));
    assert!(row_is_bad(&row.replacen('\t', "\t\t", 1)));
    assert!(row_is_bad(&row.replacen('\t', " ", 1)));
    assert!(row_is_bad(row.rsplit_once('\t').unwrap().0));
}

#[test]
fn every_mask() {
    for mask in (0..=u32::MAX).step_by(65_521).chain((0..32).map(|bit| 1 << bit)) {
        let mut bits = (0..32).rev().map(|bit| mask >> bit & 1);
        let ones_then_zeros = bits.by_ref().skip_while(|&bit| bit == 1).all(|bit| bit == 0);
        let [a, b, c, d] = mask.to_be_bytes();
        let row = row_with(2, &format!("0.0.0.0/{a}.{b}.{c}.{d}"));
        assert_eq!(row_is_bad(&row), !ones_then_zeros, "{row:?}");
    }
    for ones in 0..=32 {
        let [a, b, c, d] = u32::MAX.checked_shl(32 - ones).unwrap_or(0).to_be_bytes();
        assert!(!row_is_bad(&row_with(3, &format!("0.0.0.0/{a}.{b}.{c}.{d}"))));
    }
}

#[test]
fn header_and_last_byte() {
    let cases: [(&[u8], Option<Answer>); 11] = [
        (b"policy\t1\n", None),
        (b"", Some(Answer::NoHeaderLine)),
        (b"policy\t1", Some(Answer::NoHeaderLine)),
        (b"policy\t1\r\n", Some(Answer::NoHeaderLine)),
        (b"policy 1\n", Some(Answer::NoHeaderLine)),
        (b"policy\t2\n", Some(Answer::NoHeaderLine)),
        (b"policy\t1 \n", Some(Answer::NoHeaderLine)),
        (b"\xef\xbb\xbfpolicy\t1\n", Some(Answer::NoHeaderLine)),
        (b"policy\t3\nx", Some(Answer::NoHeaderLine)),
        (b"policy\t1\nx", Some(Answer::LastByteNotLf)),
        (b"policy\t1\n\n", Some(Answer::BadRow { row: 1 })),
    ];
    for (file, expected) in cases {
        assert_eq!(refusal(file), expected, "{file:?}");
    }
}

#[test]
fn refusals_in_order() {
    let good = row_with(0, "in");
    let mut rows = vec![good.as_str(); 257];
    let without_last_lf = |rows: &[&str]| {
        let mut file = policy(rows);
        file.pop();
        file
    };
    rows[3] = "bad";
    rows[200] = "bad too";
    assert_eq!(refusal(&without_last_lf(&rows)), Some(Answer::LastByteNotLf));
    assert_eq!(refusal(&policy(&rows)), Some(Answer::TooManyRows));
    assert_eq!(refusal(&policy(&rows[..256])), Some(Answer::BadRow { row: 4 }));
    rows[3] = &good;
    assert_eq!(refusal(&policy(&rows[..256])), Some(Answer::BadRow { row: 201 }));
    assert_eq!(refusal(&policy(&[""; 257])), Some(Answer::TooManyRows));
    assert_eq!(refusal(&policy(&[""; 256])), Some(Answer::BadRow { row: 1 }));
}

/// `count` rows of the normal form out of `count` rows of the file.
fn disjoint_rows(direction: &str, count: usize) -> Vec<String> {
    (0..count)
        .map(|n| {
            format!("{direction}\tbypass\t0.0.{}.{}\tany\tany\tany\tany", n / 100, n % 100 * 2)
        })
        .collect()
}

/// One wide row cut in the middle by another makes three, so 128 of these make 256 and more.
fn nested_rows(direction: &str, count: usize) -> Vec<String> {
    let mut rows = Vec::new();
    for n in 0..count {
        rows.push(format!("{direction}\tprotect-1\t0.0.{n}.4\tany\tany\tany\tany"));
        rows.push(format!("{direction}\tbypass\t0.0.{n}.2-0.0.{n}.6\tany\tany\tany\tany"));
    }
    rows
}

fn file_of(rows: &[String]) -> Vec<u8> {
    policy(&rows.iter().map(String::as_str).collect::<Vec<_>>())
}

#[test]
fn normal_form_at_its_limit() {
    let mut room = vec![0xee; 60_000];
    let mut answer = |file: &[u8], direction| normalise(file, direction, &mut room, Requests::NONE);
    let over = |direction| Answer::NormalFormTooLong { direction };
    assert!(matches!(
        answer(&file_of(&disjoint_rows("both", 256)), Direction::Out),
        Answer::Printed { .. }
    ));
    // 85 nests are 255 rows, and a single one makes 256; 86 nests are 258.
    let mut rows = nested_rows("out", 85);
    rows.extend(disjoint_rows("in", 1));
    rows.push("out\tbypass\t1.1.1.1\tany\tany\tany\tany".into());
    assert!(matches!(answer(&file_of(&rows), Direction::Out), Answer::Printed { .. }));
    rows.push("out\tbypass\t1.1.1.3\tany\tany\tany\tany".into());
    assert_eq!(answer(&file_of(&rows), Direction::Out), over(Direction::Out));
    assert!(matches!(answer(&file_of(&rows), Direction::In), Answer::Printed { .. }));
    let both = file_of(&nested_rows("both", 100));
    assert_eq!(answer(&both, Direction::In), over(Direction::In));
}

#[test]
fn room_for_the_printed_file() {
    let file = policy(&[&row_with(2, "0.0.0.0-10.0.255.255")]);
    for room_bytes in [0, file.len() - 1, file.len(), file.len() + 7] {
        let mut room = vec![0xee; room_bytes];
        let answer = normalise(&file, Direction::Out, &mut room, Requests::NONE);
        let written = if room_bytes < file.len() { 0 } else { file.len() };
        if written == 0 {
            assert_eq!(answer, Answer::RoomTooShort);
        } else {
            assert_eq!(answer, Answer::Printed { bytes: written });
        }
        assert_eq!(room[..written], file[..written]);
        assert!(room[written..].iter().all(|&byte| byte == 0xee));
    }
    let mut room = [0xee; 9];
    assert_eq!(
        normalise(&file, Direction::In, &mut room, Requests::NONE),
        Answer::Printed { bytes: 9 }
    );
    assert_eq!(&room, b"policy\t1\n");
}
