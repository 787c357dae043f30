//! Iterators over the steps that are ready, the completions that are there, and the lines of a history.
use crate::answers::{Made, Reaped, Step};
use crate::controller::Controller;
use crate::error::{Error, Result, told};
use crate::hosts::Disk;
use crate::room::{resize, text as text_of, zeros};

/// Makes each step that is ready: [`Controller::steps`].
#[derive(Debug)]
#[must_use = "no step is made before it is asked for"]
pub struct Steps<'a> {
    controller: &'a mut Controller,
    failed: bool,
}

impl<'a> Steps<'a> {
    pub(crate) fn of(controller: &'a mut Controller) -> Steps<'a> {
        Steps { controller, failed: false }
    }
}

impl Iterator for Steps<'_> {
    type Item = Result<(Step, Made)>;

    /// Makes the step that is ready. After an error there is none.
    fn next(&mut self) -> Option<Self::Item> {
        let step = if self.failed { None } else { self.controller.ready() }?;
        let made = self.controller.step(step);
        self.failed = made.is_err();
        Some(made.map(|it| (step, it)))
    }
}

/// Takes completions of a completion queue: [`Controller::completions`].
#[derive(Debug)]
#[must_use = "no completion is reaped before it is asked for"]
pub struct Completions<'a> {
    controller: &'a mut Controller,
    queue: u16,
    failed: bool,
}

impl<'a> Completions<'a> {
    pub(crate) fn of(controller: &'a mut Controller, queue: u16) -> Completions<'a> {
        Completions { controller, queue, failed: false }
    }
}

impl Iterator for Completions<'_> {
    type Item = Result<Reaped>;

    /// Takes the next completion. After an error there is none.
    fn next(&mut self) -> Option<Self::Item> {
        if self.failed {
            return None;
        }
        match self.controller.reap(self.queue) {
            Err(Error::NoCompletion) => None,
            reaped => {
                self.failed = reaped.is_err();
                Some(reaped)
            }
        }
    }
}

/// Whose history lines are of.
#[derive(Debug)]
pub(crate) enum Source<'a> {
    Controller(&'a Controller),
    Disk(&'a Disk),
}

/// A piece of a history in this room, which grows where not one line fits: its length, and the place behind it. The call
/// is given the room, where the length goes and where the place goes.
pub(crate) fn piece(
    room: &mut Vec<u8>,
    call: impl Fn(*mut u8, usize, *mut usize, *mut u64) -> u32,
) -> Result<(usize, u64)> {
    loop {
        let (mut needed, mut next) = (0, 0);
        match told(call(room.as_mut_ptr(), room.len(), &mut needed, &mut next)) {
            Ok(()) => return Ok((needed, next)),
            Err(Error::TooSmall) => resize(room, needed)?,
            Err(other) => return Err(other),
        }
    }
}

/// The lines of a history: [`Controller::history`] and [`Disk::history`].
#[derive(Debug)]
#[must_use = "no line is had before it is asked for"]
pub struct HistoryLines<'a> {
    source: Source<'a>,
    // the place of the first line that isn't in the room, and what of the room wasn't given yet
    next: u64,
    room: Vec<u8>,
    left: std::ops::Range<usize>,
    failed: bool,
}

impl<'a> HistoryLines<'a> {
    pub(crate) fn of(source: Source<'a>, from: u64) -> HistoryLines<'a> {
        HistoryLines { source, next: from, room: Vec::new(), left: 0..0, failed: false }
    }

    // Fills the room with the next lines.
    fn fill(&mut self) -> Result<()> {
        if self.room.is_empty() {
            self.room = zeros(4096)?;
        }
        let (length, next) = match self.source {
            Source::Controller(controller) => controller.piece(self.next, &mut self.room)?,
            Source::Disk(disk) => disk.piece(self.next, &mut self.room)?,
        };
        (self.left, self.next) = (0..length, next);
        Ok(())
    }
}

impl Iterator for HistoryLines<'_> {
    type Item = Result<String>;

    /// The next line. After an error there is none.
    fn next(&mut self) -> Option<Self::Item> {
        if self.failed {
            return None;
        }
        if self.left.is_empty() {
            if let Err(error) = self.fill() {
                self.failed = true;
                return Some(Err(error));
            }
        }
        let text = &self.room[self.left.clone()];
        let length = text.iter().position(|byte| *byte == b'\n')?;
        let line = text_of(&text[..length]);
        self.left.start += length + 1;
        self.failed = line.is_err();
        Some(line)
    }
}
