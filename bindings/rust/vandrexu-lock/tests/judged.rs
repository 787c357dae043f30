//! Sixteen hosts race for four slots by the program, each on a queue pair of its own, and half of them are killed on the way.
//! What all did is judged by the discipline of slots, as `casdisk check --slots` does. VANDREXU_SECONDS says how long they race.
mod common;
use common::{Random, Scene, is_busy, is_legal, kill};
use std::collections::HashSet;
use std::os::unix::process::CommandExt;
use std::path::{Path, PathBuf};
use std::process::{Child, Output, Stdio};
use std::sync::Mutex;
use std::sync::atomic::{AtomicU32, Ordering};
use std::time::{Duration, Instant};
use std::{env, fs, thread};
use vandrexu::{Config, SlotChecker};
use vandrexu_target::Options;

const HOSTS: u32 = 16;

/// Hosts up to this one are killed.
const DOOMED: u32 = 8;

struct Race {
    scene: Scene,
    end: Instant,
    dead: Mutex<HashSet<u32>>,
    /// How many weren't killed yet of those that will be.
    doomed: AtomicU32,
    /// How many slots were taken over.
    buried: AtomicU32,
}

/// One that will be killed, until it is, or its test failed.
struct Counted<'a>(&'a AtomicU32);

impl Drop for Counted<'_> {
    fn drop(&mut self) {
        self.0.fetch_sub(1, Ordering::SeqCst);
    }
}

impl Race {
    /// Claims a slot and runs a command, and says whether it ran. From a dead host the slot is taken over.
    fn work(&self, slot: u32, me: u32) -> bool {
        let Output { status, stderr, .. } = self.scene.host(slot, me, "0.3").wait_with_output().expect("ended");
        let told = String::from_utf8_lossy(&stderr);
        let is_in_vain = match status.code() {
            Some(7) => false,
            Some(1) => true,
            Some(3) if is_busy(&told) => true,
            other => panic!("host {me}: {other:?}: {told}"),
        };
        let holder = told.split_once("now: host ").and_then(|it| it.1.split(',').next()?.parse().ok());
        if let Some(holder) = holder
            && self.dead.lock().expect("a lock").contains(&holder)
        {
            self.bury(slot, me, holder);
        }
        !is_in_vain
    }

    /// Takes over what a dead host holds, unless another survivor was first.
    fn bury(&self, slot: u32, me: u32, from: u32) {
        let tidy = format!("rmdir {} 2> /dev/null; exit 0", self.scene.folder.join(format!("held-{slot}")).display());
        let (slot, me, from) = (slot.to_string(), me.to_string(), from.to_string());
        let words = ["take-over", "--slot", &slot, "--host", &me, "--from", &from, "--fenced", "--", "sh", "-c", &tidy];
        let (status, _, told) = self.scene.ran(&words);
        let is_left = status == 1 && told.contains("doesn't hold") || status == 3 && is_busy(&told);
        assert!(status == 0 || is_left, "{status}: {told}");
        self.buried.fetch_add(u32::from(status == 0), Ordering::Relaxed);
    }

    /// How many commands a host runs until then; of a survivor, until all are killed that will be.
    fn live(&self, random: &mut Random, me: u32, end: Instant) -> u32 {
        let mut ran = 0;
        // (a survivor buries whom it finds, so those that wait for a slot of the dead get it, however slow this machine is)
        while Instant::now() < end || me > DOOMED && self.doomed.load(Ordering::SeqCst) > 0 {
            ran += u32::from(self.work(random.below(4), me));
        }
        ran
    }

    /// A host whose command doesn't end.
    fn holder(&self, slot: u32, me: u32) -> Child {
        let (held, begun) = (self.scene.folder.join(format!("held-{slot}")), self.begun(me));
        let script = format!("mkdir {} || exit 77; touch {}; exec sleep 600", held.display(), begun.display());
        let (slot, me) = (slot.to_string(), me.to_string());
        let words = ["--slot", &slot, "--host", &me, "--wait", "600", "--", "sh", "-c", &script];
        let mut program = self.scene.program(&words);
        program.process_group(0).stdout(Stdio::null()).stderr(Stdio::null()).spawn().expect("the program")
    }

    fn begun(&self, me: u32) -> PathBuf {
        self.scene.folder.join(format!("begun-{me}"))
    }

    /// A host that is killed: each second one while it holds a slot, the others while they claim, hold or release one. It is
    /// dead once nothing of it can come any more.
    fn die(&self, random: &mut Random, me: u32) {
        let slot = random.below(4);
        let mut host = if me % 2 == 0 { self.holder(slot, me) } else { self.scene.host(slot, me, "2") };
        while me % 2 == 0 && !self.begun(me).exists() {
            assert_eq!(host.try_wait().expect("a host"), None, "host {me} ended");
            thread::sleep(Duration::from_millis(5));
        }
        thread::sleep(Duration::from_millis(random.below(60).into()));
        kill(&mut host);
        let target = self.scene.target.as_ref().expect("a target");
        while target.has(&format!("nqn.2026-11.org.vandrexu:lock:{me}")) {
            thread::sleep(Duration::from_millis(5));
        }
        self.dead.lock().expect("a lock").insert(me);
    }

    /// One host; how many commands it ran.
    fn host(&self, me: u32, began: Instant) -> u32 {
        let mut random = Random(me * 77 + 1);
        if me > DOOMED {
            return self.live(&mut random, me, self.end);
        }
        let _counted = Counted(&self.doomed);
        let ran = self.live(&mut random, me, began + (self.end - began) * me / (DOOMED + 1));
        self.die(&mut random, me);
        ran
    }
}

/// Only claims, releases and takeovers touch the slots, as their discipline has it.
fn is_disciplined(history: &Path) {
    let text = fs::read_to_string(history).expect("a history");
    let mut lines = text.lines();
    let config = Config::of_line(lines.next().expect("a configuration")).expect("a configuration");
    let mut slots = SlotChecker::new(&config, 64, 4).expect("slots");
    for line in lines {
        let taken = slots.take_line(line);
        assert!(taken.is_ok(), "{taken:?}, {:?}: {line}", slots.why());
    }
}

#[test]
fn hosts_that_race_and_are_killed_keep_the_discipline_of_slots() {
    let seconds = env::var("VANDREXU_SECONDS").ok().and_then(|it| it.parse().ok()).unwrap_or(4);
    let scene = Scene::with("judged", |folder, it| Options { trace: Some(folder.join("trace")), ..it });
    let began = Instant::now();
    let end = began + Duration::from_secs(seconds);
    let mut race =
        Race { scene, end, dead: Mutex::default(), doomed: AtomicU32::new(DOOMED), buried: AtomicU32::new(0) };
    let ran: u32 = thread::scope(|scope| {
        let race = &race;
        let all: Vec<_> = (1..=HOSTS).map(|me| scope.spawn(move || race.host(me, began))).collect();
        all.into_iter().map(|it| it.join().expect("a host")).sum()
    });
    // each slot is free, or held by a dead host
    for slot in 0..4 {
        assert!(race.work(slot, HOSTS) || race.work(slot, HOSTS), "slot {slot}");
    }
    let buried = race.buried.load(Ordering::Relaxed);
    eprintln!("{ran} commands ran by {HOSTS} hosts, of which {DOOMED} were killed; {buried} slots were taken over");
    // (each that was killed while it held one)
    assert!(ran > 0 && buried >= DOOMED / 2);
    drop(race.scene.target.take());
    let (history, trace) = (race.scene.folder.join("history"), race.scene.folder.join("trace"));
    is_legal(&history);
    is_disciplined(&history);
    let told = vandrexu::certify_text(fs::read(&trace).expect("a trace"), fs::read(&history).expect("a history"));
    assert_eq!(told.expect("explained"), b"explained\n");
    assert_eq!(vandrexu::observe_text(fs::read(&trace).expect("a trace"), 50_000_000).map(|_| ()), Ok(()));
}
