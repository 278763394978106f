//! Files of SA pairs.

use crate::build::{classic, Frame, ETHERNET};
use crate::captures::{ethernet, packet};
use crate::{check, file, specksonne, WORKED_EXAMPLE};
use std::path::Path;
use std::process::Output;
use std::sync::atomic::{AtomicUsize, Ordering};

const LINE: &str = "esp\t256\t300\t7\tany\tany\tany\tany\tany\n";

fn with_pairs(name: &str, pairs: &str, capture: &[u8]) -> Output {
    let policy = file(&format!("{name}.policy"), WORKED_EXAMPLE.as_bytes());
    let pairs = file(&format!("{name}.pairs"), pairs.as_bytes());
    let (policy, pairs) = (policy.to_str().unwrap(), pairs.to_str().unwrap());
    let options = ["--address", "1.2.3.4", "--policy", policy, "--pairs", pairs];
    specksonne(&[&["decide"][..], &options, &["-"]].concat(), capture)
}

#[test]
fn spis_are_decimal_or_hexadecimal() {
    let ssh = ethernet(&[8, 0], &packet(6, 40000, 22));
    let capture = classic(false, ETHERNET, &[Frame::whole(&ssh)]);
    let spis = [
        ("256", "4294967295", 4294967295_u32),
        ("0x00000100", "0x0000012c", 300),
        ("0xffffffff", "0xC0DE", 0xc0de),
        ("0x100", "0x00000000000ffff", 0xffff),
    ];
    for (inbound, outbound, number) in spis {
        let pairs = LINE.replace("256", inbound).replace("300", outbound);
        let expected =
            format!("1\t2\tprotect-7 by ESP SPI {number}\n# 1 packets\n# 2 protect: 1\n");
        check(&with_pairs("spis", &pairs, &capture), 0, &expected, "");
    }
}

/// A file whose third line is this one is not read. (Tests run at once: each call has a file of its own.)
#[track_caller]
fn bad(line: &str, words: &str) {
    static CALLS: AtomicUsize = AtomicUsize::new(0);
    let file = format!("bad-line-{}", CALLS.fetch_add(1, Ordering::Relaxed));
    let output = with_pairs(&file, &format!("# a comment\n\n{line}"), b"");
    let name = Path::new(env!("CARGO_TARGET_TMPDIR")).join(file).with_extension("pairs");
    check(&output, 2, "", &format!("specksonne: {}: line 3: {words}\n", name.display()));
}

#[test]
fn a_bad_line_names_the_field_and_the_reason() {
    let fields = "9 fields parted by one tab expected";
    bad("esp 256", &format!("{fields}, 1 found (spaces part no fields)"));
    bad(&LINE.replace("\tany\n", "\n"), &format!("{fields}, 8 found"));
    bad(&LINE.replace("any\n", "any\tany\n"), &format!("{fields}, 10 found"));
    bad(&LINE.replace("esp", "ESP"), "protocol 'ESP': neither esp nor ah");
    bad(&LINE.replace("7", "07"), "number '07': 07 has a leading zero");
    bad(&LINE.replace("7", "p-7"), "number 'p-7': 'p-7' is no decimal number");
    bad(&LINE.replace("any\n", "0-65537\n"), "remote port '0-65537': 65537 is above 65535");
    let long = "5".repeat(99);
    let shown = format!("number '{0}...': {0}... is above 4294967295", "5".repeat(60));
    bad(&LINE.replace("7", &long), &shown);
    let mask = "local address '10.0.0.1/8': the mask is four decimals, not a length: 255.0.0.0";
    bad(&LINE.replace("7\tany", "7\t10.0.0.1/8"), mask);
}

#[test]
fn a_bad_spi_has_its_reason() {
    let inbound = |spi, words: &str| {
        bad(&LINE.replace("256", spi), &format!("inbound SPI '{spi}': {words}"));
    };
    inbound("0256", "0256 has a leading zero");
    inbound("+256", "'+256' is no decimal number");
    inbound(" 256", "' 256' is no decimal number");
    inbound("", "'' is no decimal number");
    inbound("4294967296", "4294967296 is above 4294967295");
    let outbound = |spi, words: &str| {
        bad(&LINE.replace("300", spi), &format!("outbound SPI '{spi}': {words}"));
    };
    outbound("0x", "hex digits are expected after 0x");
    outbound("0x+12c", "hex digits are expected after 0x");
    outbound("0x100000000", "above 0xffffffff");
    outbound("0X12c", "'0X12c' is no decimal number");
}

#[test]
fn pairs_that_are_refused() {
    let policy = file("pairs.policy", b"policy\t1\n");
    let policy = policy.to_str().unwrap();
    let bad = [
        (LINE.replace("256", "255"), "line 1: 25: either SPI below 256"),
        (LINE.replace("300", "0xff"), "line 1: 25: either SPI below 256"),
        (
            LINE.replace("7", "256"),
            "line 1: 28: protocol not 50 or 51, number not 1 to 255, a range value beyond its \
             field, or low above high",
        ),
        (format!("{LINE}{LINE}"), "line 2: 26: pair already live"),
    ];
    for (pairs, words) in bad {
        let arguments =
            ["decide", "--address", "1.2.3.4", "--policy", policy, "--pairs", "-", "/dev/null"];
        let output = specksonne(&arguments, pairs.as_bytes());
        check(&output, 1, "", &format!("specksonne: -: {words}\n"));
    }
}
