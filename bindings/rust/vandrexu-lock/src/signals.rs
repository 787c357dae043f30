//! Signals of a terminal, which go to the command and to this program alike.
use std::os::unix::process::CommandExt;
use std::process::Command;

const INTERRUPT: i32 = 2;
const QUIT: i32 = 3;
const DEFAULT: usize = 0;
const IGNORE: usize = 1;

unsafe extern "C" {
    /// signal(2), of the C library.
    fn signal(number: i32, action: usize) -> usize;
}

/// Sets what these signals do.
fn set(action: usize) {
    for number in [INTERRUPT, QUIT] {
        // SAFETY: signal may be called at any time, with these numbers and actions.
        unsafe { signal(number, action) };
    }
}

/// From now on Ctrl-C ends the command alone, so that this program is there to release the slot.
pub fn leave_to(command: &mut Command) {
    set(IGNORE);
    let defaults = || {
        set(DEFAULT);
        Ok(())
    };
    // SAFETY: between fork and exec it calls signal alone, which may be called there.
    unsafe { command.pre_exec(defaults) };
}
