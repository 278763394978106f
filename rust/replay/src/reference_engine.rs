//! The independent implementation as an engine.

use crate::engine::Engine;
use crate::operation::{Family, Operation};
use crate::reply::{AnswerLine, Comparison, Reply};
use reference::{
    normalise, parse_policy, print_action, print_row, same, Answer, Direction, Gateway, Packet,
    RefusedFile, Requests, Values,
};

pub struct ReferenceEngine {
    requests: Requests,
    gateway: Gateway,
}

impl ReferenceEngine {
    pub fn new() -> ReferenceEngine {
        let requests = Requests::NONE;
        ReferenceEngine { requests, gateway: Gateway::new(0, requests) }
    }

    /// Switches on exactly these requests, for later lines and for later gateways.
    fn items(&mut self, numbers: &[u64]) -> Reply {
        match Requests::from_numbers(numbers) {
            Some(requests) => {
                self.requests = requests;
                Reply::ok()
            }
            None => Reply::NotHere,
        }
    }

    fn gate(&mut self, address: u32) -> Reply {
        self.gateway = Gateway::new(address, self.requests);
        Reply::ok()
    }

    fn read(&self, direction: Direction, bytes: &[u8]) -> Reply {
        match Packet::read(bytes) {
            Some(packet) => Reply::values(&packet.selectors(direction, self.requests).values()),
            None => Reply::unreadable(),
        }
    }

    fn trigger(&self, bytes: &[u8]) -> Reply {
        match Packet::read(bytes) {
            Some(packet) => {
                let length = packet.triggering_header().len();
                Reply::Words(format!("{} {length}", packet.triggering_start()))
            }
            None => Reply::unreadable(),
        }
    }

    fn search(&self, direction: Direction, file: &[u8], values: &Values) -> Reply {
        match parse_policy(file, self.requests) {
            Ok(policy) => Reply::Words(print_action(policy.search(direction, values))),
            Err(refusal) => reply(refusal),
        }
    }

    fn show_cache(&self, direction: Direction) -> Reply {
        let cache = self.gateway.cache(direction);
        let rows = cache.entries().map(|(slot, entry)| (slot, print_row(direction, entry)));
        Reply::cache(cache.next_slot(), rows)
    }

    fn show_pairs(&self) -> Reply {
        let pairs = self.gateway.pairs().iter().map(|(name, pair)| {
            let (protocol, inbound_spi) = (name.protocol, name.inbound_spi);
            format!("{protocol}:{inbound_spi}:{}:{}", pair.outbound_spi, pair.number)
        });
        Reply::Words(pairs.collect::<Vec<_>>().join(" "))
    }
}

impl Default for ReferenceEngine {
    fn default() -> Self {
        ReferenceEngine::new()
    }
}

impl Engine for ReferenceEngine {
    fn run(&mut self, operation: &Operation) -> Reply {
        match operation {
            Operation::Items(numbers) => self.items(numbers),
            Operation::Gate { address4, .. } => self.gate(*address4),
            Operation::Policy { file } => reply(self.gateway.set_policy(file)),
            Operation::Add { family: Family::Ipv4, pair } => reply(self.gateway.add_pair(pair)),
            Operation::Remove { protocol, inbound_spi } => {
                reply(self.gateway.remove_pair(*protocol, *inbound_spi))
            }
            Operation::Outbound { packet } => reply(self.gateway.outbound(packet)),
            Operation::Inbound { packet } => reply(self.gateway.inbound(packet)),
            Operation::FromSa { protocol, inbound_spi, packet } => {
                reply(self.gateway.from_sa(*protocol, *inbound_spi, packet))
            }
            Operation::Normalise { direction, room, file } => Reply::from_print(*room, |lent| {
                print_reply(normalise(file, *direction, lent, self.requests))
            }),
            Operation::Same { direction, first, second } => {
                compared(same(first, second, *direction, self.requests))
            }
            Operation::Read { direction, family: Family::Ipv4, packet } => {
                self.read(*direction, packet)
            }
            Operation::Trigger { family: Family::Ipv4, packet } => self.trigger(packet),
            Operation::Search { direction, file, values } => self.search(*direction, file, values),
            Operation::ShowCache { direction } => self.show_cache(*direction),
            Operation::ShowPairs => self.show_pairs(),
            // Requests 1, 8, 9, 12 and 13.
            Operation::Add { family: Family::Ipv6, .. }
            | Operation::Read { family: Family::Ipv6, .. }
            | Operation::Trigger { family: Family::Ipv6, .. }
            | Operation::Report { .. }
            | Operation::List { .. }
            | Operation::Restart { .. }
            | Operation::EditAdd { .. }
            | Operation::EditDrop { .. }
            | Operation::ShowFragments { .. } => Reply::NotHere,
        }
    }
}

fn reply(answer: Answer) -> Reply {
    Reply::Answer(answer_line(answer))
}

fn compared(outcome: Result<bool, RefusedFile>) -> Reply {
    Reply::Comparison(match outcome {
        Ok(same) => Comparison::of(same),
        Err(RefusedFile::First(refusal)) => Comparison::First(answer_line(refusal)),
        Err(RefusedFile::Second(refusal)) => Comparison::Second(answer_line(refusal)),
    })
}

/// The answer of a call that prints, and the count of bytes it says it wrote.
fn print_reply(answer: Answer) -> (AnswerLine, Option<usize>) {
    let written = match answer {
        Answer::Printed { bytes } => Some(bytes),
        _ => None,
    };
    (answer_line(answer), written)
}

fn answer_line(answer: Answer) -> AnswerLine {
    let carried = match answer {
        Answer::Protect { number, protocol, outbound_spi } => {
            vec![number.to_string(), protocol.to_string(), outbound_spi.to_string()]
        }
        Answer::AssociationWanted { number } => vec![number.to_string()],
        Answer::ToAhEsp { protocol, inbound_spi } => {
            vec![protocol.to_string(), inbound_spi.to_string()]
        }
        Answer::Printed { bytes } => vec![bytes.to_string()],
        Answer::BadRow { row } => vec![row.to_string()],
        Answer::NormalFormTooLong { direction } => vec![direction.word().to_string()],
        _ => Vec::new(),
    };
    AnswerLine { number: answer.number(), carried, printed: None }
}
