//! Captures that are decided: formats, link types, packets that were cut.

use crate::build::{classic, classic_with_magic, Frame, Pcapng, ETHERNET};
use crate::{check, decide, file, specksonne, WORKED_EXAMPLE};
use testkit::{address, ports, Ipv4};

pub fn packet(protocol: u8, source: u16, destination: u16) -> Vec<u8> {
    let (from, to) = (address(10, 1, 0, 5), address(10, 0, 0, 9));
    Ipv4::new(protocol, from, to, &ports(source, destination)).bytes()
}

/// What the worked example passes in clear.
pub fn ike() -> Vec<u8> {
    packet(17, 500, 500)
}

pub fn ipv6() -> Vec<u8> {
    [&[0x60, 0, 0, 0, 0, 0, 59, 64][..], &[1; 32]].concat()
}

pub fn ethernet(kind: &[u8], packet: &[u8]) -> Vec<u8> {
    [&[0; 12], kind, packet].concat()
}

#[test]
fn a_capture_is_decided() {
    let policy = file("decide.policy", WORKED_EXAMPLE.as_bytes());
    let pairs = file(
        "decide.pairs",
        b"# one pair\n\nesp\t256\t300\t7\t10.1.0.0-10.1.0.99\tany\t6\tany\tany\n",
    );
    let (ssh, short) = (packet(6, 40000, 22), packet(6, 1, 22)[..19].to_vec());
    let frames = [
        ethernet(&[8, 0], &ssh),
        ethernet(&[0x81, 0, 0, 5, 8, 0], &ike()),
        ethernet(&[8, 6], &[0; 28]),
        ethernet(&[8, 0], &short),
        ethernet(&[8, 0], &ssh),
    ];
    let frames = frames.map(|frame| Frame::whole(&frame));
    let (policy, pairs) = (policy.to_str().unwrap(), pairs.to_str().unwrap());
    let arguments = ["decide", "--address", "192.0.2.1", "--policy", policy, "--pairs", pairs, "-"];
    let expected = "1\t2\tprotect-7 by ESP SPI 300\n2\t0\tpass in clear\n3\t-\tno IPv4 packet\n\
        4\t10\tnot readable\n5\t2\tprotect-7 by ESP SPI 300\n\
        # 5 packets\n# 0 pass in clear: 1\n# 2 protect: 2\n# 10 not readable: 1\n\
        # no IPv4 packet: 1\n";
    for big_endian in [false, true] {
        for magic in [0xa1b2_c3d4, 0xa1b2_3c4d] {
            let capture = classic_with_magic(magic, big_endian, ETHERNET, &frames);
            check(&specksonne(&arguments, &capture), 0, expected, "");
        }
    }
}

#[test]
fn the_direction_is_named_first_or_as_an_option() {
    let policy = file("direction.policy", WORKED_EXAMPLE.as_bytes());
    let options = ["--address", "10.0.0.9", "--policy", policy.to_str().unwrap()];
    let frames = [packet(6, 40000, 22), packet(50, 0, 256)].map(|frame| Frame::whole(&frame));
    let capture = classic(true, 12, &frames);
    let decided = |arguments: &[&str]| {
        specksonne(&[&["decide"], arguments, &options, &["-"]].concat(), &capture)
    };
    let out = "1\t3\tassociation wanted for protect-7\n2\t11\tpolicy discards\n\
        # 2 packets\n# 3 association wanted: 1\n# 11 policy discards: 1\n";
    let into = "1\t11\tpolicy discards\n2\t13\tno such pair\n\
        # 2 packets\n# 11 policy discards: 1\n# 13 no such pair: 1\n";
    let ways: [(&[&str], &str); 7] = [
        (&[], out),
        (&["out"], out),
        (&["--direction", "out"], out),
        (&["--direction=out"], out),
        (&["in"], into),
        (&["--direction", "in"], into),
        (&["--direction=in"], into),
    ];
    for (way, expected) in ways {
        check(&decided(way), 0, expected, "");
    }
}

const PASS: &str = "0\tpass in clear";
const IPV6: &str = "-\tno IPv4 packet (IPv6)";
const OTHER: &str = "-\tno IPv4 packet";

/// Tries a frame in a capture of each format.
#[track_caller]
fn linked(link: u16, start: &[u8], packet: &[u8], holds: &str) {
    let frame = Frame::whole(&[start, packet].concat());
    decided_as(&Pcapng::new(true).interface(link, 0).enhanced(0, &frame).bytes, holds);
    decided_as(&Pcapng::new(false).interface(link, 0).simple(&frame).bytes, holds);
    decided_as(&classic(true, link, &[frame]), holds);
}

/// Ethernet types, and what a frame of each holds.
fn typed() -> [([u8; 2], Vec<u8>, &'static str); 3] {
    [([8, 0], ike(), PASS), ([0x86, 0xdd], ipv6(), IPV6), ([8, 6], ike(), OTHER)]
}

#[test]
fn ethernet_and_linux_cooked_are_read() {
    let tags: [&[u8]; 4] = [
        &[],
        &[0x81, 0, 0, 5],
        &[0x88, 0xa8, 0, 5, 0x91, 0, 0, 6],
        &[0x91, 0, 0, 5, 0x81, 0, 0, 6, 0x88, 0xa8, 0, 7, 0x81, 0, 0, 8],
    ];
    for (kind, packet, holds) in typed() {
        for tags in tags {
            linked(ETHERNET, &[&[0; 12], tags, &kind].concat(), &packet, holds);
            linked(113, &[&[0; 14], tags, &kind].concat(), &packet, holds);
        }
        linked(276, &[&kind[..], &[0; 18]].concat(), &packet, holds);
    }
}

/// The upper bits of the link type say that frames end in a checksum of four bytes.
#[test]
fn frames_may_end_in_a_checksum() {
    let frame = Frame::whole(&[ethernet(&[8, 0], &ike()), vec![7; 4]].concat());
    let mut capture = classic(true, ETHERNET, &[frame]);
    capture[20] = 0x24;
    decided_as(&capture, PASS);
}

#[test]
fn loopback_is_read() {
    for link in [0, 108] {
        for family in [2_u32, 24, 28, 30, 7] {
            let (packet, holds) = match family {
                2 => (ike(), PASS),
                7 => (ike(), OTHER),
                _ => (ipv6(), IPV6),
            };
            linked(link, &family.to_le_bytes(), &packet, holds);
            linked(link, &family.to_be_bytes(), &packet, holds);
        }
    }
}

#[test]
fn raw_ip_is_read() {
    for link in [12, 14, 101] {
        linked(link, &[], &ike(), PASS);
        linked(link, &[], &ipv6(), IPV6);
    }
    linked(228, &[], &ike(), PASS);
    linked(229, &[], &ipv6(), IPV6);
}

#[track_caller]
fn decided_as(capture: &[u8], holds: &str) {
    let output = decide(capture);
    let stdout = String::from_utf8_lossy(&output.stdout);
    let first = stdout.lines().next();
    assert_eq!(first, Some(format!("1\t{holds}").as_str()), "{stdout}");
    assert_eq!((output.status.code(), output.stderr.len()), (Some(0), 0));
}

/// A frame that ends before the packet holds none, and a packet of no version is not readable.
#[test]
fn short_frames() {
    for (link, bytes) in [(ETHERNET, 13), (ETHERNET, 0), (113, 15), (276, 19), (0, 3), (108, 0)] {
        decided_as(&classic(false, link, &[Frame::whole(&vec![0; bytes])]), OTHER);
    }
    let tagged = ethernet(&[0x81, 0, 0, 5, 8], &[]);
    decided_as(&classic(false, ETHERNET, &[Frame::whole(&tagged)]), OTHER);
    for (link, bytes) in [(12, &[][..]), (101, &[0x55; 60]), (228, &[0x66; 60])] {
        decided_as(&classic(false, link, &[Frame::whole(bytes)]), "10\tnot readable");
    }
}

#[test]
fn pcapng_is_read() {
    let (ike, ssh) = (ike(), packet(6, 40000, 22));
    let tagged = Frame::whole(&ethernet(&[0x81, 0, 0, 5, 8, 0], &ike));
    let (raw, other) = (Frame::whole(&ssh), Frame::whole(&[1; 7]));
    let expected = "1\t0\tpass in clear\n2\t3\tassociation wanted for protect-7\n\
        3\t0\tpass in clear\n4\t3\tassociation wanted for protect-7\n\
        5\t-\tlink type 127 is not read\n6\t3\tassociation wanted for protect-7\n\
        # 6 packets\n# 0 pass in clear: 2\n# 3 association wanted: 3\n\
        # link type 127 is not read: 1\n";
    for big_endian in [false, true] {
        let capture = Pcapng::new(big_endian)
            .block(0x8000_0001, b"anything")
            .interface(ETHERNET, 262144)
            .interface(101, 0)
            .block(4, &[0; 16])
            .enhanced(0, &tagged)
            .obsolete(1, &raw)
            .simple(&tagged)
            .interface(127, 0)
            .block(5, &[7; 20])
            .enhanced(1, &raw)
            .enhanced(2, &other)
            // Another section has its own byte order and interfaces.
            .section(!big_endian)
            .interface(12, 0)
            .enhanced(0, &raw)
            .block(0x0bad_cafe, &[]);
        check(&decide(&capture.bytes), 0, expected, "");
    }
    check(&decide(&Pcapng::new(false).bytes), 0, "# 0 packets\n", "");
}

/// A packet of 1,000 bytes, padded by the link to 1,050, whose ports are shown.
fn long_frame() -> Vec<u8> {
    let mut upper = ports(500, 500);
    upper.resize(980, 0);
    let (from, to) = (address(10, 1, 0, 5), address(10, 0, 0, 9));
    let mut frame = ethernet(&[8, 0], &Ipv4::new(17, from, to, &upper).bytes());
    frame.resize(frame.len() + 50, 0);
    frame
}

#[test]
fn a_packet_that_the_capture_cut_gets_no_verdict() {
    let frame = long_frame();
    let lines = [
        (14 + 1000, "0\tpass in clear"),
        (14 + 999, "-\tcut by the capture (999 of 1000 bytes)"),
        (14 + 40, "-\tcut by the capture (40 of 1000 bytes)"),
        (14 + 4, "-\tcut by the capture (4 of 1000 bytes)"),
        (14 + 3, "-\tcut by the capture (17 of 1064 bytes of the frame)"),
        (14, "-\tcut by the capture (14 of 1064 bytes of the frame)"),
        (13, "-\tcut by the capture (13 of 1064 bytes of the frame)"),
        (0, "-\tcut by the capture (0 of 1064 bytes of the frame)"),
    ];
    for (recorded, holds) in lines {
        let cut = Frame::cut(&frame, recorded);
        decided_as(&Pcapng::new(false).interface(ETHERNET, 0).enhanced(0, &cut).bytes, holds);
        decided_as(&Pcapng::new(true).interface(ETHERNET, 0).obsolete(0, &cut).bytes, holds);
        if recorded > 0 {
            let limited = Pcapng::new(true).interface(ETHERNET, recorded as u32).simple(&cut);
            decided_as(&limited.bytes, holds);
        }
        decided_as(&classic(true, ETHERNET, &[cut]), holds);
    }
}

/// What the sender wrote too short is not readable; only what the capture left out is cut.
#[test]
fn a_packet_that_is_short_on_the_wire_is_decided() {
    let short = Frame::whole(&long_frame()[..14 + 40]);
    let cut = Frame::cut(&long_frame(), 14 + 40);
    let arp = Frame::cut(&ethernet(&[8, 6], &[0; 46]), 30);
    let ipv6 = Frame::cut(&ethernet(&[0x86, 0xdd], &ipv6()), 20);
    let expected = "1\t10\tnot readable\n2\t-\tcut by the capture (40 of 1000 bytes)\n\
        3\t-\tno IPv4 packet\n4\t-\tno IPv4 packet (IPv6)\n\
        # 4 packets\n# 10 not readable: 1\n# cut by the capture: 1\n# no IPv4 packet: 1\n\
        # no IPv4 packet (IPv6): 1\n";
    check(&decide(&classic(false, ETHERNET, &[short, cut, arp, ipv6])), 0, expected, "");
}
