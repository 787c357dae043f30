//! Features of a controller.
use crate::hosts::Controller;
use vandrexu_wire::{Command, Status};

const ARBITRATION: u32 = 0x01;
const POWER: u32 = 0x02;
const TEMPERATURE: u32 = 0x04;
const ERROR_RECOVERY: u32 = 0x05;
pub(crate) const QUEUES: u32 = 0x07;
const ATOMICITY: u32 = 0x0A;
const EVENTS: u32 = 0x0B;
const KEEP_ALIVE: u32 = 0x0F;
const IDENTIFIER: u32 = 0x81;

/// What was set.
#[derive(Debug, Default)]
pub(crate) struct Features {
    arbitration: u32,
    atomicity: u32,
    events: u32,
    /// The keep alive timeout in milliseconds; 0 for none.
    pub keep_alive: u32,
}

/// A number and data, or why not.
pub(crate) type Told = Result<(u64, Vec<u8>), Status>;

/// Set Features, of all but the number of queues.
pub(crate) fn set(it: &mut Controller, command: &Command) -> Told {
    let (feature, value) = (command.dword(10), command.dword(11));
    if feature >> 31 == 1 {
        return Err(Status::NOT_SAVEABLE);
    }
    match feature & 0xFF {
        ARBITRATION if !it.is_discovery => it.features.arbitration = value,
        POWER if value & 0x1F == 0 => {}
        TEMPERATURE | ERROR_RECOVERY if !it.is_discovery => {}
        ATOMICITY if !it.is_discovery => it.features.atomicity = value & 1,
        EVENTS => it.features.events = value,
        KEEP_ALIVE => it.features.keep_alive = value,
        // (Connect says it)
        IDENTIFIER => return Err(Status::SEQUENCE),
        _ => return Err(Status::INVALID_FIELD),
    }
    Ok((0, vec![]))
}

/// How many queue pairs a host asks for, which it does before it makes one.
pub(crate) fn queues_wanted(it: &Controller, value: u32) -> Result<u16, Status> {
    let (submission, completion) = (value as u16, (value >> 16) as u16);
    if it.has_queues() {
        return Err(Status::SEQUENCE);
    }
    // (each 0's based; the number of 65,536 can't be asked for)
    submission.max(completion).checked_add(1).ok_or(Status::INVALID_FIELD)?;
    Ok(submission.min(completion) + 1)
}

/// Get Features.
pub(crate) fn get(it: &Controller, command: &Command) -> Told {
    let (feature, select) = (command.dword(10) & 0xFF, command.dword(10) >> 8 & 7);
    let now = match feature {
        ARBITRATION => it.features.arbitration,
        POWER | TEMPERATURE | ERROR_RECOVERY => 0,
        QUEUES if !it.is_discovery => {
            let number = u32::from(it.queues.max(1)) - 1;
            number << 16 | number
        }
        ATOMICITY => it.features.atomicity,
        EVENTS => it.features.events,
        KEEP_ALIVE => it.features.keep_alive,
        IDENTIFIER => return identifier(it, command),
        _ => return Err(Status::INVALID_FIELD),
    };
    match select {
        0 => Ok((now.into(), vec![])),
        1 | 2 => Ok((0, vec![])),
        // (changeable, and neither saveable nor of a namespace)
        3 => Ok((4, vec![])),
        _ => Err(Status::INVALID_FIELD),
    }
}

/// The Host Identifier, of 16 bytes alone.
fn identifier(it: &Controller, command: &Command) -> Told {
    if command.dword(11) & 1 == 1 { Ok((0, it.identifier.to_vec())) } else { Err(Status::INVALID_FIELD) }
}
