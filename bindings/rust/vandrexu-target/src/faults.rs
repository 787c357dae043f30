//! What a target does wrong on purpose, for whoever tests a tester.
use crate::ring::Capsule;
use std::str::FromStr;
use vandrexu_wire::{Command, opcode, put16, put64, u64_at};

macro_rules! kinds {
    ($($kind:ident = $name:literal, $says:literal;)*) => {
        /// A kind of fault.
        #[derive(Clone, Copy, Debug, PartialEq, Eq)]
        pub enum FaultKind {
            $(#[doc = $says] $kind,)*
        }

        impl FaultKind {
            /// All kinds.
            pub const ALL: &'static [FaultKind] = &[$(FaultKind::$kind,)*];

            /// Its name on the command line.
            #[must_use]
            pub fn name(self) -> &'static str {
                match self { $(FaultKind::$kind => $name,)* }
            }

            /// What it does.
            #[must_use]
            pub fn says(self) -> &'static str {
                match self { $(FaultKind::$kind => $says,)* }
            }
        }
    };
}

kinds! {
    EarlyCompletion = "early-completion", "a Write is told as done before it takes effect";
    TornUnit = "torn-unit", "a Write of several blocks takes effect in two halves";
    LostWrite = "lost-write", "a Write is told as done and never takes effect";
    WrongBlock = "wrong-block", "a Write goes to the block beside its own";
    StaleRead = "stale-read", "a Read finds what was there before the last Write";
    FlippedBit = "flipped-bit", "a Read finds a bit that was never written";
    FalseEqual = "false-equal", "a pair that compared unequal is told as done";
    FalseDiffers = "false-differs", "a pair that was done is told as unequal";
    WriteDespite = "write-despite", "a pair that compared unequal writes all the same";
    SwappedPair = "swapped-pair", "the two statuses of a failed pair change places";
    WrongPhase = "wrong-phase", "a completion has the other phase tag";
    WrongHead = "wrong-head", "a completion has an SQHD that is one too many";
    LostCompletion = "lost-completion", "a command is done and never answered";
    DoubleCompletion = "double-completion", "a command is answered twice";
}

/// A fault, and how often it happens.
#[derive(Clone, Copy, Debug, PartialEq, Eq)]
pub struct Fault {
    /// What it does.
    pub kind: FaultKind,
    /// 1 if it happens each time that it could, 2 if every second time, and so on.
    pub every: u64,
}

impl FromStr for Fault {
    type Err = String;

    /// Reads `NAME` or `NAME:N`.
    fn from_str(text: &str) -> Result<Fault, String> {
        let (name, every) = text.split_once(':').unwrap_or((text, "5"));
        let kind = FaultKind::ALL.iter().find(|it| it.name() == name);
        let every = every.parse().ok().filter(|it| *it > 0);
        match (kind, every) {
            (Some(kind), Some(every)) => Ok(Fault { kind: *kind, every }),
            _ => Err(format!("--fault {text}: no such fault; --fault list lists them")),
        }
    }
}

/// What is done about the completion of a command.
#[derive(Clone, Debug)]
pub(crate) enum Plan {
    /// It goes to the host.
    Plain,
    /// It goes to the host with this wrong.
    Wrong(FaultKind),
    /// It goes to the host, if the command is its own; where it succeeded this capsule follows, and else the Write of the
    /// pair is told as failed.
    Then(Box<Capsule>),
    /// It goes nowhere, and this capsule follows.
    Half(Box<Capsule>),
    /// It goes to the host; where it didn't succeed this capsule follows, and nobody hears of it.
    Despite(Box<Capsule>),
    /// It goes nowhere.
    Silent,
}

/// What the controller is given in place of a group of capsules.
#[derive(Debug, Default)]
pub(crate) struct Planned {
    /// What it is given now.
    pub now: Vec<(Capsule, Plan)>,
    /// What it is given later, and what the host is told at once.
    pub later: Option<Capsule>,
}

/// Plans what goes wrong.
#[derive(Debug)]
pub(crate) struct Planner {
    naive: bool,
    fault: Option<Fault>,
    count: u64,
}

/// The CIDs that no host here uses: commands of the target's own.
pub(crate) const OWN: u16 = 0x8000;

impl Planner {
    /// Of a target with these options.
    pub(crate) fn new(naive: bool, fault: Option<Fault>) -> Planner {
        Planner { naive, fault, count: 0 }
    }

    /// Whether the heads of the controller's queues are those that hosts expect.
    pub(crate) fn keeps_heads(&self) -> bool {
        use FaultKind::{EarlyCompletion, TornUnit, WriteDespite};
        let kind = self.fault.map(|it| it.kind);
        !self.naive && !matches!(kind, Some(EarlyCompletion | TornUnit | WriteDespite))
    }

    /// Whether what was there before is wanted.
    pub(crate) fn wants_the_past(&self) -> bool {
        self.fault.is_some_and(|it| it.kind == FaultKind::StaleRead)
    }

    /// What the controller is given in place of these.
    pub(crate) fn plan(&mut self, mut group: Vec<Capsule>) -> Planned {
        if self.naive && group.len() == 2 {
            return split_pair(group);
        }
        let wrong = self.fault.filter(|it| can_happen(it.kind, &group)).filter(|it| {
            self.count += 1;
            self.count.is_multiple_of(it.every)
        });
        let plain = |it| (it, Plan::Plain);
        let Some(Fault { kind, .. }) = wrong else {
            return Planned { now: group.into_iter().map(plain).collect(), later: None };
        };
        match kind {
            FaultKind::EarlyCompletion => return Planned { now: vec![], later: group.pop() },
            FaultKind::TornUnit => return split_write(group.remove(0)),
            FaultKind::LostWrite => make_flush(&mut group[0]),
            FaultKind::WrongBlock => move_write(&mut group[0].command),
            FaultKind::WriteDespite => {
                let mut write = group[1].clone();
                write.command = own(&write.command);
                let second = group.remove(1);
                let now = vec![plain(group.remove(0)), (second, Plan::Despite(Box::new(write)))];
                return Planned { now, later: None };
            }
            _ => {}
        }
        Planned { now: group.into_iter().map(|it| (it, Plan::Wrong(kind))).collect(), later: None }
    }
}

/// Whether a fault can happen to these.
fn can_happen(kind: FaultKind, group: &[Capsule]) -> bool {
    use FaultKind::{EarlyCompletion, LostWrite, WrongBlock};
    use FaultKind::{FalseDiffers, FalseEqual, FlippedBit, StaleRead, SwappedPair, TornUnit, WriteDespite};
    let (first, is_pair) = (&group[0], group.len() == 2);
    let is_write = !is_pair && first.command.opcode() == opcode::WRITE && first.command.fuse() == 0;
    match kind {
        EarlyCompletion | LostWrite | WrongBlock => is_write,
        TornUnit => is_write && first.command.count() > 1 && first.data.len() > vandrexu_wire::BLOCK,
        StaleRead | FlippedBit => first.command.opcode() == opcode::READ,
        FalseEqual | FalseDiffers | WriteDespite | SwappedPair => is_pair,
        _ => true,
    }
}

/// The same as a command of the target's own, by itself.
pub(crate) fn own(command: &Command) -> Command {
    let mut it = command.fused(0);
    it.0[3] |= (OWN >> 8) as u8;
    it
}

/// A pair as its Compare, and its Write behind it.
fn split_pair(mut group: Vec<Capsule>) -> Planned {
    for it in &mut group {
        it.command = it.command.fused(0);
    }
    let write = group.remove(1);
    Planned { now: vec![(group.remove(0), Plan::Then(Box::new(write)))], later: None }
}

/// A Write as its first half, and the rest behind it.
fn split_write(mut write: Capsule) -> Planned {
    let half = write.command.count() / 2;
    let mut rest = write.clone();
    rest.data = write.data.split_off((half * vandrexu_wire::BLOCK).min(write.data.len()));
    let slba = u64_at(&write.command.0, 40) + half as u64;
    put64(&mut rest.command.0, 40, slba);
    put16(&mut rest.command.0, 48, (write.command.count() - half - 1) as u16);
    put16(&mut write.command.0, 48, (half - 1) as u16);
    Planned { now: vec![(write, Plan::Half(Box::new(rest)))], later: None }
}

fn make_flush(write: &mut Capsule) {
    let cid = write.command.cid();
    write.command = Command::blocks(opcode::FLUSH, 0, 0);
    put16(&mut write.command.0, 2, cid);
    write.data.clear();
}

fn move_write(command: &mut Command) {
    let slba = u64_at(&command.0, 40);
    put64(&mut command.0, 40, slba ^ 1);
}

#[cfg(test)]
mod tests {
    use super::{Command, Fault, FaultKind, own};

    #[test]
    fn a_command_of_the_targets_own_has_another_cid_and_no_fuse() {
        let mut command = Command::new(1).fused(2);
        command.0[2] = 7;
        assert_eq!((own(&command).cid(), own(&command).fuse()), (0x8007, 0));
    }

    #[test]
    fn a_fault_is_read_by_its_name_and_how_often_it_happens() {
        assert_eq!("torn-unit".parse(), Ok(Fault { kind: FaultKind::TornUnit, every: 5 }));
        assert_eq!("lost-write:2".parse(), Ok(Fault { kind: FaultKind::LostWrite, every: 2 }));
        assert!("lost-write:0".parse::<Fault>().is_err());
        assert!(FaultKind::ALL.len() >= 12);
    }
}
