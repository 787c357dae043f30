//! What tests of the program share.
#![allow(dead_code, reason = "no test uses all of it")]
use std::os::unix::process::CommandExt;
use std::path::{Path, PathBuf};
use std::process::{Child, Command, Output, Stdio};
use std::{env, fs, process};
use vandrexu_target::{Options, Target};

/// A target in a folder of its own, with slots in the blocks 64 to 67.
pub struct Scene {
    pub folder: PathBuf,
    pub target: Option<Target>,
    pub address: String,
}

impl Scene {
    /// One whose steps interleave.
    pub fn new(name: &str) -> Scene {
        Scene::with(name, |_, it| it)
    }

    /// One with other options, which may name files of its folder.
    pub fn with(name: &str, change: impl FnOnce(&Path, Options) -> Options) -> Scene {
        let folder = env::temp_dir().join(format!("vandrexu-lock-{name}-{}", process::id()));
        fs::create_dir_all(&folder).expect("a folder");
        let options = Options {
            listen: ([127, 0, 0, 1], 0).into(),
            seed: Some(11),
            history: Some(folder.join("history")),
            ..Options::default()
        };
        let target = Target::start(change(&folder, options)).expect("a target");
        Scene { folder, address: target.address().to_string(), target: Some(target) }
    }

    /// The program, with the words of its options.
    pub fn program(&self, words: &[&str]) -> Command {
        let mut it = Command::new(env!("CARGO_BIN_EXE_vandrexu-lock"));
        let first = words.iter().take_while(|it| ["status", "take-over"].contains(it)).count();
        it.args(&words[..first]).args(["--target", &self.address, "--area", "64,4"]).args(&words[first..]);
        it
    }

    /// Its exit status and what it says.
    pub fn ran(&self, words: &[&str]) -> (i32, String, String) {
        let Output { status, stdout, stderr } = self.program(words).output().expect("the program");
        let text = |it| String::from_utf8(it).expect("a text");
        (status.code().unwrap_or(-1), text(stdout), text(stderr))
    }

    /// A command that fails where another of its slot runs.
    pub fn alone(&self, slot: u32) -> String {
        let held = self.folder.join(format!("held-{slot}"));
        format!("mkdir {0} || exit 77; sleep 0.0$(($$ % 5)); rmdir {0}; exit 7", held.display())
    }

    /// A host with its command, in a process group of its own, so that killing it fences both.
    pub fn host(&self, slot: u32, host: u32, wait: &str) -> Child {
        let (script, slot, host) = (self.alone(slot), slot.to_string(), host.to_string());
        let words = ["--slot", &slot, "--host", &host, "--wait", wait, "--", "sh", "-c", &script];
        let mut program = self.program(&words);
        program.process_group(0).stdout(Stdio::null()).stderr(Stdio::piped()).spawn().expect("the program")
    }
}

impl Drop for Scene {
    fn drop(&mut self) {
        drop(self.target.take());
        let _ = fs::remove_dir_all(&self.folder);
    }
}

/// Whether a host was told that no queue is free: the target may not have seen yet that others left, on a slow machine.
pub fn is_busy(told: &str) -> bool {
    told.contains("status 1/81")
}

/// The history of a target that has ended is legal.
pub fn is_legal(history: &Path) {
    let said = vandrexu::check_text(fs::read(history).expect("a history"));
    assert!(said.is_ok(), "{said:?}");
}

/// Kills a host with all of its process group, and so its command, too.
pub fn kill(host: &mut Child) {
    let group = format!("-{}", host.id());
    Command::new("kill").args(["-9", "--", &group]).stderr(Stdio::null()).status().expect("kill");
    host.wait().expect("ended");
}

/// Numbers by chance, from a seed.
pub struct Random(pub u32);

impl Random {
    pub fn below(&mut self, count: u32) -> u32 {
        self.0 = self.0.wrapping_mul(1_664_525).wrapping_add(1_013_904_223);
        (self.0 >> 16) % count
    }
}
