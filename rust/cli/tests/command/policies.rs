//! Commands on policy files.

use crate::{check, file, specksonne, WORKED_EXAMPLE};

#[test]
fn a_policy_is_checked() {
    let output = specksonne(&["check", "-"], WORKED_EXAMPLE.as_bytes());
    check(&output, 0, "accepted: 2 rows; normal form: 6 rows out, 1 rows in\n", "");
    let output = specksonne(&["check", "-"], b"policy\t1\n");
    check(&output, 0, "accepted: 0 rows; normal form: 0 rows out, 0 rows in\n", "");
}

#[track_caller]
fn refused(policy: &[u8], words: &str) {
    let output = specksonne(&["check", "-"], policy);
    check(&output, 1, "", &format!("specksonne: -: {words}\n"));
}

#[test]
fn a_wrong_header_line_is_shown() {
    let shown: [(&[u8], &str); 9] = [
        (b"", r#""", expected "policy\t1\n" (the file is empty)"#),
        (b"policy\t1", r#""policy\t1", expected "policy\t1\n" (the file ends there)"#),
        (b"policy\t2\nout", r#""policy\t2\n", expected "policy\t1\n""#),
        (b"Policy\t1\n", r#""Policy\t1\n", expected "policy\t1\n""#),
        (
            b"policy\t1\r\nout",
            r#""policy\t1\r", expected "policy\t1\n" (lines end in CR LF, not in LF alone)"#,
        ),
        (
            b"\xef\xbb\xbfpolicy\t1\n",
            r#""\xef\xbb\xbfpolicy", expected "policy\t1\n" (a byte order mark stands before it)"#,
        ),
        (
            b"\xff\xfep\0o\0l\0i\0",
            r#""\xff\xfep\x00o\x00l\x00i", expected "policy\t1\n" (the file is UTF-16)"#,
        ),
        (
            b"policy 1\n",
            r#""policy 1\n", expected "policy\t1\n" (a space stands where a tab should)"#,
        ),
        (
            b"policy    1\n",
            r#""policy   ", expected "policy\t1\n" (a space stands where a tab should)"#,
        ),
    ];
    for (policy, words) in shown {
        refused(policy, &format!("23: first nine bytes aren't the header line: found {words}"));
    }
}

#[test]
fn a_wrong_last_byte_is_shown() {
    refused(b"policy\t1\nx", r#"24: last byte isn't LF: it is "x""#);
    refused(b"policy\t1\n\r", r#"24: last byte isn't LF: it is "\r""#);
    refused(b"policy\t1\n\xff", r#"24: last byte isn't LF: it is "\xff""#);
}

#[test]
fn a_bad_row_is_shown_with_the_field_and_the_reason() {
    let shown = [
        ("", r#""": 7 fields parted by one tab expected, 1 found"#),
        ("out discard\r", r#""out discard\r": CR at the end: lines end in LF alone"#),
        (
            "out discard any any any any any",
            "\"out discard any any any any any\": \
             7 fields parted by one tab expected, 1 found (spaces part no fields)",
        ),
        (
            "out\tbypass\t10.0.0.0/24\tany\tany\tany\tany",
            "\"out\\tbypass\\t10.0.0.0/24\\tany\\tany\\tany\\tany\": local address '10.0.0.0/24': \
             the mask is four decimals, not a length: 255.255.255.0",
        ),
        (
            "out\tbypass\tany\tany\t06\tany\tany",
            "\"out\\tbypass\\tany\\tany\\t06\\tany\\tany\": protocol '06': 06 has a leading zero",
        ),
        (
            "out\tbypass\tany\tany\t6\tany\t9-5",
            "\"out\\tbypass\\tany\\tany\\t6\\tany\\t9-5\": remote port '9-5': \
             the low end is above the high end",
        ),
    ];
    for (row, words) in shown {
        let policy = format!("policy\t1\nboth\tdiscard\tany\tany\tany\tany\tany\n{row}\n");
        refused(policy.as_bytes(), &format!("20: bad row 2: {words}"));
    }
    let long = format!("policy\t1\n{}\n", "x".repeat(500));
    let words = format!(
        "20: bad row 1: \"{}...\": 7 fields parted by one tab expected, 1 found",
        "x".repeat(120)
    );
    refused(long.as_bytes(), &words);
}

#[test]
fn a_policy_is_normalised() {
    let path = file("normalised.policy", WORKED_EXAMPLE.as_bytes());
    let name = path.to_str().unwrap();
    let output = specksonne(&["normalise", "in", name], b"");
    check(&output, 0, "policy\t1\nin\tbypass\tany\tany\t17\t500\t500\n", "");
    let output = specksonne(&["normalise", "out", name], b"");
    assert_eq!(output.stdout.iter().filter(|&&byte| byte == b'\n').count(), 7);
    let again = specksonne(&["normalise", "out", "-"], &output.stdout);
    assert_eq!(again.stdout, output.stdout);
}

/// A policy whose normal form for in is over the limit: each of its addresses parts the ports anew.
fn too_large() -> String {
    let rows = (0..128).map(|n| {
        let twice = 2 * n;
        format!(
            "in\tbypass\t0.0.0.{twice}\tany\tany\tany\tany\n\
             in\tprotect-1\tany\tany\tany\tany\t{twice}\n"
        )
    });
    format!("policy\t1\n{}", rows.collect::<String>())
}

#[test]
fn a_normal_form_that_is_too_large_is_refused() {
    let policy = too_large();
    let output = specksonne(&["normalise", "in", "-"], policy.as_bytes());
    check(&output, 1, "", "specksonne: -: 22: normal form over 256 rows (in)\n");
    let output = specksonne(&["normalise", "out", "-"], policy.as_bytes());
    check(&output, 0, "policy\t1\n", "");
    refused(policy.as_bytes(), "22: normal form over 256 rows (in)");
}

#[test]
fn policies_are_compared() {
    let one = file("same-one.policy", b"policy\t1\nboth\tbypass\tany\tany\t6\tany\tany\n");
    let other = file(
        "same-other.policy",
        b"policy\t1\nout\tbypass\tany\tany\t6\tany\t0-99\nout\tbypass\tany\tany\t6\tany\t7-opaque\n",
    );
    let (one, other) = (one.to_str().unwrap(), other.to_str().unwrap());
    check(&specksonne(&["same", "out", one, other], b""), 0, "same\n", "");
    check(&specksonne(&["same", "in", one, other], b""), 0, "different\n", "");
    let bad = specksonne(&["same", "in", one, "-"], b"policy\t1\nx");
    check(&bad, 1, "", "specksonne: -: 24: last byte isn't LF: it is \"x\"\n");
}

#[test]
fn the_deciding_row_is_shown() {
    let ssh = ["explain", "out", "-", "10.1.0.5", "10.0.0.9", "6", "40000", "22"];
    let expected = "action: protect-7\n\
        file: row 1 of 2: out\tprotect-7\t10.1.0.0/255.255.255.0\t10.0.0.0-10.0.0.9\t6\tany\t22\n\
        normal form: row 3 of 6: out\tprotect-7\t10.1.0.0-10.1.0.255\t10.0.0.0-10.0.0.9\t6\tany\t22\n";
    check(&specksonne(&ssh, WORKED_EXAMPLE.as_bytes()), 0, expected, "");
    let fragment = ["explain", "in", "-", "10.1.0.5", "10.0.0.9", "17", "opaque", "opaque"];
    let expected = "action: discard\nfile: none of 2 rows matches\n\
        normal form: none of 1 rows matches\n";
    check(&specksonne(&fragment, WORKED_EXAMPLE.as_bytes()), 0, expected, "");
}

/// A port that a packet does not show is not port 0.
#[test]
fn an_opaque_port_is_no_number() {
    let policy = b"policy\t1\n\
        in\tprotect-1\tany\tany\t17\t0-65535\tany\n\
        in\tprotect-2\tany\tany\t17\tany\t0-65535\n\
        in\tprotect-3\tany\tany\t17\topaque\topaque\n";
    let ports = [("0", "opaque", 1), ("opaque", "0", 2), ("opaque", "opaque", 3)];
    for (local_port, remote_port, number) in ports {
        let values = ["10.1.0.5", "10.0.0.9", "17", local_port, remote_port];
        let output = specksonne(&[&["explain", "in", "-"][..], &values].concat(), policy);
        let stdout = String::from_utf8_lossy(&output.stdout);
        assert!(stdout.starts_with(&format!("action: protect-{number}\n")), "{stdout}");
    }
}

#[test]
fn the_deciding_row_is_shown_where_the_normal_form_is_too_large() {
    let policy = too_large();
    let values = ["0.0.0.7", "10.0.0.9", "6", "0", "4"];
    let explain =
        |way| specksonne(&[&["explain", way, "-"][..], &values].concat(), policy.as_bytes());
    let expected = "action: protect-1\n\
        file: row 6 of 256: in\tprotect-1\tany\tany\tany\tany\t4\n\
        normal form: over 256 rows\n";
    check(&explain("in"), 0, expected, "");
    let expected = "action: discard\nfile: none of 256 rows matches\n\
        normal form: none of 0 rows matches\n";
    check(&explain("out"), 0, expected, "");
}
