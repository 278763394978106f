//! One packet again and again, each time with one thing changed in its header.

use super::packets::packet_with;
use super::pairs::{PairSpec, ESP};
use super::rows::{FIELDS, TOPS};
use super::Generator;
use crate::operation::to_hex;
use testkit::{icmp_error, ports, Ipv4};

/// More bytes than any total length can name.
const MOST_BYTES: usize = 66_000;

impl Generator {
    pub fn header_lines(&mut self) {
        match self.prng.below(10) {
            0 => self.long_packets(),
            1..=3 => self.every_truncation(),
            4 | 5 => {
                self.every_address_bit();
                self.every_short_upper_part();
            }
            _ => self.every_flag_and_offset_bit(),
        }
    }

    /// One packet cut after each of its bytes.
    fn every_truncation(&mut self) {
        let direction = self.direction();
        let packet = self.error_about(&TOPS.map(|top| (0, top)));
        let bytes = packet.header_words(6).bytes();
        for length in 0..=bytes.len().min(60) {
            let hex = to_hex(&bytes[..length]);
            self.line(format!("{direction} {hex}"));
            // Again with the total length cut along, so that it stays readable.
            let mut cut = bytes[..length].to_vec();
            if length >= 4 {
                cut[2..4].copy_from_slice(&(length as u16).to_be_bytes());
            }
            let (protocol, inbound_spi) = self.pair_name();
            self.line(format!("from {protocol} {inbound_spi} {}", to_hex(&cut)));
        }
    }

    /// Each of the 16 bits of flags and fragment offset, alone: in a packet with ports, in AH or ESP
    /// for the gateway, and in the triggering header of an ICMP error from a pair that its ports
    /// fit.
    fn every_flag_and_offset_bit(&mut self) {
        let values = self.seen_values();
        let shown = packet_with(&mut self.prng, "out", &values);
        let pair = PairSpec {
            protocol: ESP,
            inbound_spi: self.prng.between(1 << 31, u32::MAX.into()),
            outbound_spi: 300,
            number: 7,
            ranges: values.map(|value| (value, value)),
        };
        self.add_line(&pair);
        for bit in 0..16 {
            let direction = self.direction();
            let shown = shown.clone().flags_and_offset(1 << bit);
            self.line(format!("read {direction} 4 {}", to_hex(&shown.bytes())));
            let own = self.gateway_packet().flags_and_offset(1 << bit);
            self.line(format!("in {}", to_hex(&own.bytes())));
            let error = icmp_error(3, 1, &shown.bytes());
            let error = Ipv4::new(1, self.gateway, shown.source, &error).bytes();
            self.line(format!("from {ESP} {} {}", pair.inbound_spi, to_hex(&error)));
        }
        self.line(format!("remove {ESP} {}", pair.inbound_spi));
    }

    /// AH or ESP for the gateway, but for each one bit of its address.
    fn every_address_bit(&mut self) {
        let mut packet = self.gateway_packet();
        packet.upper.resize(20, 0);
        for bit in 0..32 {
            packet.destination = self.gateway ^ 1 << bit;
            self.line(format!("in {}", to_hex(&packet.bytes())));
        }
        packet.destination = self.gateway;
        self.line(format!("in {}", to_hex(&packet.bytes())));
    }

    /// AH and ESP for the gateway with each count of upper bytes up to where the SPI is surely seen.
    fn every_short_upper_part(&mut self) {
        let packet = self.gateway_packet();
        for protocol in [50, 51] {
            for length in 0..=13 {
                let mut short = packet.clone();
                short.protocol = protocol;
                short.upper.truncate(length);
                self.line(format!("in {}", to_hex(&short.bytes())));
            }
        }
    }

    /// Values that a packet can mostly show, with ports of which no two bytes are alike, and none 0.
    fn seen_values(&mut self) -> [u64; FIELDS] {
        let mut bytes = [0; 4];
        for place in 0..bytes.len() {
            while bytes[..=place].contains(&0) || bytes[..place].contains(&bytes[place]) {
                bytes[place] = self.prng.byte();
            }
        }
        let [local_port, remote_port] =
            [[bytes[0], bytes[1]], [bytes[2], bytes[3]]].map(u16::from_be_bytes);
        let address = |number: u64| number & TOPS[0];
        [
            address(self.prng.number()),
            address(self.prng.number()),
            *self.prng.pick(&[6, 6, 17, 17, 132, 132, 33, 136]),
            local_port.into(),
            remote_port.into(),
        ]
    }

    /// Packets about as long as a total length can name, and longer.
    fn long_packets(&mut self) {
        let (direction, values) = (self.direction(), self.seen_values());
        let &[source, destination, protocol, first, second] = &values;
        let mut upper = ports(first as u16, second as u16);
        upper.resize(MOST_BYTES - 20, 0x55);
        let packet = Ipv4::new(protocol as u8, source as u32, destination as u32, &upper);
        for (total_length, kept) in [
            (65_535, 65_535),
            (65_535, 65_534),
            (65_535, MOST_BYTES),
            (20, 65_556),
            (24, MOST_BYTES),
        ] {
            let mut bytes = packet.clone().total_length(total_length).bytes();
            bytes.truncate(kept);
            self.line(format!("read {direction} 4 {}", to_hex(&bytes)));
        }
    }
}
