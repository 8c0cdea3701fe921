use conn_table::ConnFault;
use std::alloc::AllocError;
use virt_ids::IdFault;

/// Why a trial came to no end.
#[derive(Clone, Copy, Debug, PartialEq, Eq)]
pub enum Fault {
    Memory,
    Start,
    Pair,
    /// The two answered differently.
    Answer,
    /// They gave different bytes.
    Bytes,
    /// The topic in which they differ.
    Processes,
    Descriptors,
    Descriptions,
    Files,
    Channels,
    Directions,
    Listeners,
}

impl From<AllocError> for Fault {
    fn from(_: AllocError) -> Fault {
        Fault::Memory
    }
}

impl From<IdFault> for Fault {
    fn from(fault: IdFault) -> Fault {
        match fault {
            IdFault::Memory => Fault::Memory,
            IdFault::Unknown | IdFault::Taken => Fault::Pair,
        }
    }
}

impl From<ConnFault> for Fault {
    fn from(fault: ConnFault) -> Fault {
        match fault {
            ConnFault::Memory => Fault::Memory,
            ConnFault::Taken => Fault::Pair,
        }
    }
}
