//! A builder of IPv4 packets, sound ones and broken ones.

/// The more-fragments bit in [`Ipv4::flags_and_offset`].
pub const MORE_FRAGMENTS: u16 = 0x2000;

#[derive(Clone, Debug)]
pub struct Ipv4 {
    pub version: u8,
    /// Header length in 32-bit words; words past the fifth are filled with option bytes.
    pub header_words: u8,
    /// Where this is none, the true length.
    pub total_length: Option<u16>,
    pub flags_and_offset: u16,
    pub protocol: u8,
    pub source: u32,
    pub destination: u32,
    pub upper: Vec<u8>,
}

impl Ipv4 {
    pub fn new(protocol: u8, source: u32, destination: u32, upper: &[u8]) -> Ipv4 {
        Ipv4 {
            version: 4,
            header_words: 5,
            total_length: None,
            flags_and_offset: 0,
            protocol,
            source,
            destination,
            upper: upper.to_vec(),
        }
    }

    pub fn flags_and_offset(mut self, flags_and_offset: u16) -> Ipv4 {
        self.flags_and_offset = flags_and_offset;
        self
    }

    pub fn header_words(mut self, header_words: u8) -> Ipv4 {
        self.header_words = header_words;
        self
    }

    pub fn total_length(mut self, total_length: u16) -> Ipv4 {
        self.total_length = Some(total_length);
        self
    }

    /// The packet's bytes. A header length field under 5 still gets 20 bytes of header.
    pub fn bytes(&self) -> Vec<u8> {
        let option_words = self.header_words.saturating_sub(5);
        let option_bytes = 4 * usize::from(option_words);
        let true_length = 20 + option_bytes + self.upper.len();
        let total_length = self.total_length.unwrap_or(true_length as u16);
        let mut bytes = vec![self.version << 4 | self.header_words, 0];
        bytes.extend(total_length.to_be_bytes());
        bytes.extend([0x12, 0x34]);
        bytes.extend(self.flags_and_offset.to_be_bytes());
        bytes.extend([64, self.protocol, 0, 0]);
        bytes.extend(self.source.to_be_bytes());
        bytes.extend(self.destination.to_be_bytes());
        bytes.resize(bytes.len() + option_bytes, 1);
        bytes.extend(&self.upper);
        bytes
    }
}

/// An upper part that begins with these ports, 20 bytes long.
pub fn ports(source: u16, destination: u16) -> Vec<u8> {
    let mut upper = source.to_be_bytes().to_vec();
    upper.extend(destination.to_be_bytes());
    upper.resize(20, 0x55);
    upper
}

/// An ICMP message that returns these bytes of the packet that triggered it.
pub fn icmp_error(icmp_type: u8, code: u8, returned: &[u8]) -> Vec<u8> {
    let mut upper = vec![icmp_type, code, 0, 0, 0, 0, 0, 0];
    upper.extend(returned);
    upper
}
