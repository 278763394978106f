//! An implementation of the gateway that the protocol can drive.

use crate::core_engine::CoreEngine;
use crate::operation::Operation;
use crate::reference_engine::ReferenceEngine;
use crate::reply::Reply;

/// Keeps the state of one scenario. Before the first `gate` line there is a fresh gateway with
/// the address 0.
pub trait Engine {
    fn run(&mut self, operation: &Operation) -> Reply;
}

#[derive(Clone, Copy, Debug, PartialEq, Eq)]
pub enum EngineName {
    Core,
    Reference,
}

impl EngineName {
    pub fn parse(name: &str) -> Option<EngineName> {
        match name {
            "core" => Some(EngineName::Core),
            "reference" => Some(EngineName::Reference),
            _ => None,
        }
    }

    /// An engine at the start of a scenario.
    pub fn start(self) -> Box<dyn Engine> {
        match self {
            EngineName::Core => Box::new(CoreEngine::new()),
            EngineName::Reference => Box::new(ReferenceEngine::new()),
        }
    }
}
