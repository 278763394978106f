//! Files of SA pairs.

use crate::{input, Failure};
use specksonne::{decimal, Gateway, Pair, Ranges, Reason, AH, ESP};
use std::ffi::OsStr;
use std::fmt::Display;

/// The fields of a line; the last five are ranges as in a policy file.
const FIELDS: usize = 9;

/// As much of a field as is shown.
const LONGEST_FIELD: usize = 60;

/// Adds the pairs of a file.
pub fn add_all(name: &OsStr, gateway: &mut Gateway) -> Result<(), Failure> {
    let file = input::read(name)?;
    let text = String::from_utf8_lossy(&file);
    for (index, line) in text.lines().enumerate() {
        if line.is_empty() || line.starts_with('#') {
            continue;
        }
        let place = format!("{}: line {}", name.display(), index + 1);
        let pair = pair(line).map_err(|fault| Failure::Usage(format!("{place}: {fault}")))?;
        gateway.add(&pair).map_err(|refusal| {
            Failure::Refused(format!("{place}: {}: {refusal}", refusal.number()))
        })?;
    }
    Ok(())
}

/// The pair in a line, or which field is none, and why.
fn pair(line: &str) -> Result<Pair, String> {
    let fields: Vec<&str> = line.split('\t').collect();
    let &[protocol, inbound_spi, outbound_spi, number, a, b, c, d, e] = fields.as_slice() else {
        let (found, spaces) = (fields.len(), line.contains(' '));
        return Err(Reason::Fields { expected: FIELDS, found, spaces }.to_string());
    };
    Ok(Pair {
        protocol: match protocol {
            "esp" => ESP,
            "ah" => AH,
            _ => return Err(fault("protocol", protocol, "neither esp nor ah")),
        },
        inbound_spi: spi("inbound SPI", inbound_spi)?,
        outbound_spi: spi("outbound SPI", outbound_spi)?,
        number: decimal(number, u32::MAX).map_err(|reason| fault("number", number, reason))?.into(),
        ranges: Ranges::parse(&[a, b, c, d, e].join("\t")).map_err(|fault| fault.to_string())?,
    })
}

/// An SPI, in decimals or as `ip xfrm` prints it.
fn spi(field: &str, text: &str) -> Result<u32, String> {
    let Some(digits) = text.strip_prefix("0x") else {
        return decimal(text, u32::MAX).map_err(|reason| fault(field, text, reason));
    };
    if digits.is_empty() || !digits.bytes().all(|byte| byte.is_ascii_hexdigit()) {
        return Err(fault(field, text, "hex digits are expected after 0x"));
    }
    u32::from_str_radix(digits, 16).map_err(|_| fault(field, text, "above 0xffffffff"))
}

fn fault(field: &str, text: &str, reason: impl Display) -> String {
    format!("{field} '{}': {reason}", input::shown(text.as_bytes(), LONGEST_FIELD))
}
