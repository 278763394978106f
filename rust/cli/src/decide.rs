//! Decides the packets of a capture.

use crate::arguments::Asked;
use crate::capture::{Capture, Record};
use crate::progress::{while_working, Packets};
use crate::{input, pairs, refusal, Failure};
use specksonne::{Direction, Gateway, Verdict};
use std::collections::BTreeMap;
use std::io::{self, Write};

/// How many packets had an answer, by the paper's number and words, without what it carries; and
/// how many frames had none, by the reason.
#[derive(Default)]
struct Summary {
    frames: u64,
    answers: BTreeMap<u8, (String, u64)>,
    others: BTreeMap<String, u64>,
}

pub fn decide(asked: &Asked, output: &mut impl Write) -> Result<(), Failure> {
    let mut gateway = gateway(asked)?;
    let input = input::open(&asked.capture)?;
    let mut capture =
        Capture::open(input.bytes).map_err(|error| input::unreadable(&asked.capture, &error))?;
    let (mut summary, mut progress) = (Summary::default(), Packets::new());
    let read = loop {
        match capture.next_record() {
            Ok(Some(record)) => summary.line(&record, asked.direction, &mut gateway, output)?,
            Ok(None) => break Ok(()),
            Err(error) => break Err(error),
        }
        if input.live {
            output.flush()?;
        }
        progress.show(summary.frames);
    };
    progress.end();
    summary.write(output)?;
    // Before a message on standard error.
    output.flush()?;
    read.map_err(|error| input::unreadable(&asked.capture, &error))
}

/// The gateway with its policy and pairs.
fn gateway(asked: &Asked) -> Result<Gateway, Failure> {
    let mut gateway = Gateway::new(asked.address);
    let policy = input::read(&asked.policy)?;
    let accepted = while_working(|| gateway.set_policy(&policy));
    accepted.map_err(|refusal| refusal::policy(&asked.policy, &policy, refusal))?;
    if let Some(pairs) = &asked.pairs {
        pairs::add_all(pairs, &mut gateway)?;
    }
    Ok(gateway)
}

impl Summary {
    /// Writes the line of a frame, and counts it.
    fn line(
        &mut self,
        record: &Record,
        direction: Direction,
        gateway: &mut Gateway,
        output: &mut impl Write,
    ) -> io::Result<()> {
        self.frames += 1;
        let frame = self.frames;
        let packet = match record.packet() {
            Ok(packet) => packet,
            Err(none) => {
                *self.others.entry(none.kind()).or_default() += 1;
                return writeln!(output, "{frame}\t-\t{none}");
            }
        };
        let verdict = match direction {
            Direction::Out => gateway.outbound(packet),
            Direction::In => gateway.inbound(packet),
        };
        self.count(verdict);
        writeln!(output, "{frame}\t{}\t{verdict}", verdict.number())
    }

    fn count(&mut self, verdict: Verdict) {
        let words = || match verdict {
            Verdict::Protect { .. } => "protect".to_string(),
            Verdict::Wanted { .. } => "association wanted".to_string(),
            Verdict::ToIpsec { .. } => "to AH/ESP".to_string(),
            _ => verdict.to_string(),
        };
        let entry = self.answers.entry(verdict.number()).or_insert_with(|| (words(), 0));
        entry.1 += 1;
    }

    fn write(&self, output: &mut impl Write) -> io::Result<()> {
        writeln!(output, "# {} packets", self.frames)?;
        for (number, (words, count)) in &self.answers {
            writeln!(output, "# {number} {words}: {count}")?;
        }
        for (reason, count) in &self.others {
            writeln!(output, "# {reason}: {count}")?;
        }
        Ok(())
    }
}
