//! Properties of a controller.
use crate::hosts::Controller;
use vandrexu::Config;
use vandrexu_wire::{Command, Status, u64_at};

/// The version that is told: 1.4.
pub(crate) const VERSION: u32 = 0x0001_0400;

const CAPABILITIES: u32 = 0x00;
const VERSION_AT: u32 = 0x08;
const CONFIGURATION: u32 = 0x14;
const STATUS: u32 = 0x1C;

/// Shutdown is complete.
const IS_SHUT_DOWN: u32 = 2 << 2;

/// What a Property Set asks of the target besides.
#[derive(Clone, Copy, Debug, PartialEq, Eq)]
pub(crate) enum Change {
    /// Nothing.
    None,
    /// The controller was disabled: its I/O queues end.
    Disabled,
}

/// Capabilities: slots of a queue, contiguous queues, 10 seconds to get ready, the NVM command set.
fn capabilities(config: &Config) -> u64 {
    let slots = config.sq_size.min(config.cq_size);
    u64::from(slots - 1) | 1 << 16 | 20 << 24 | 1 << 37
}

/// Property Get.
pub(crate) fn get(it: &Controller, config: &Config, command: &Command) -> Result<u64, Status> {
    let is_wide = match command.0[40] & 7 {
        0 => false,
        1 => true,
        _ => return Err(Status::INVALID_FIELD),
    };
    match (command.dword(11), is_wide) {
        (CAPABILITIES, true) => Ok(capabilities(config)),
        (VERSION_AT, false) => Ok(VERSION.into()),
        (CONFIGURATION, false) => Ok(it.configuration.into()),
        (STATUS, false) => Ok(it.status.into()),
        _ => Err(Status::INVALID_FIELD),
    }
}

/// Property Set.
pub(crate) fn set(it: &mut Controller, command: &Command) -> Result<Change, Status> {
    if command.dword(11) != CONFIGURATION || command.0[40] & 7 != 0 {
        return Err(Status::INVALID_FIELD);
    }
    let was_enabled = it.is_enabled();
    it.configuration = u64_at(&command.0, 48) as u32;
    it.status = it.configuration & 1;
    if it.configuration >> 14 & 3 != 0 {
        it.status |= IS_SHUT_DOWN;
    }
    if it.is_enabled() {
        return Ok(Change::None);
    }
    it.events.clear();
    Ok(if was_enabled { Change::Disabled } else { Change::None })
}
