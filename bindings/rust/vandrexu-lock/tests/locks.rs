//! The program against a target: commands of one slot never run at once, and a slot of a host that was killed is taken over.
mod common;
use common::{Random, Scene, is_busy, is_legal, kill};
use std::collections::HashSet;
use std::io::{Read, Write};
use std::net::{Shutdown, TcpListener, TcpStream};
use std::os::unix::process::CommandExt;
use std::path::PathBuf;
use std::process::{Child, Command, Output, Stdio};
use std::sync::atomic::{AtomicBool, AtomicU32, Ordering};
use std::sync::{Arc, Mutex};
use std::time::{Duration, Instant};
use std::{env, fs, thread};
use vandrexu_target::{Config, Options};

#[test]
fn commands_of_one_slot_never_run_at_once() {
    let mut scene = Scene::new("races");
    thread::scope(|scope| {
        for host in 1..=8u32 {
            let scene = &scene;
            scope.spawn(move || {
                for round in 0..4 {
                    let (slot, host) = (((host + round) % 3).to_string(), host.to_string());
                    let script = scene.alone((slot.parse::<u32>()).expect("a number"));
                    let words = ["--slot", &slot, "--host", &host, "--wait", "600", "--", "sh", "-c", &script];
                    let (status, _, told) = scene.ran(&words);
                    assert_eq!(status, 7, "host {host}, slot {slot}: {told}");
                }
            });
        }
    });
    let free = "slot 0: free\nslot 1: free\nslot 2: free\nslot 3: free\n";
    assert_eq!(scene.ran(&["status"]), (0, free.into(), String::new()));
    drop(scene.target.take());
    is_legal(&scene.folder.join("history"));
}

/// Host 5, which holds a slot while its command runs.
struct Holding {
    host: Child,
    go: PathBuf,
}

impl Holding {
    /// It has the slot, by the target at this address, and its command has begun.
    fn at(scene: &Scene, address: &str, slot: &str) -> Holding {
        let (begun, go) = (scene.folder.join(format!("begun-{slot}")), scene.folder.join(format!("go-{slot}")));
        // (it ends where the folder goes, too)
        let script = format!(
            "touch {0}; while [ -e {0} -a ! -e {1} ]; do sleep 0.02; done; exit 7",
            begun.display(),
            go.display()
        );
        let mut program = Command::new(env!("CARGO_BIN_EXE_vandrexu-lock"));
        program.args(["--target", address, "--area", "64,4", "--slot", slot, "--host", "5", "--", "sh", "-c", &script]);
        let host = program.process_group(0).stdout(Stdio::null()).spawn().expect("the program");
        let began = Instant::now();
        while !begun.exists() {
            assert!(began.elapsed() < Duration::from_secs(120), "the command doesn't begin");
            thread::sleep(Duration::from_millis(20));
        }
        Holding { host, go }
    }

    fn of(scene: &Scene, slot: &str) -> Holding {
        Holding::at(scene, &scene.address, slot)
    }

    /// Lets its command end; the status with which the program ends then.
    fn end(mut self) -> Option<i32> {
        fs::write(&self.go, "").expect("a file");
        self.host.wait().expect("ended").code()
    }
}

#[test]
fn a_slot_of_a_host_that_was_killed_is_taken_over() {
    let scene = Scene::new("takeover");
    kill(&mut Holding::of(&scene, "2").host);
    // (it stays held)
    let (status, _, told) = scene.ran(&["--slot", "2", "--host", "6", "--wait", "0.2", "--", "true"]);
    assert!(status == 1 && told.contains("now: host 5"), "{status}: {told}");
    let unfenced = scene.ran(&["take-over", "--slot", "2", "--host", "6", "--from", "5", "--", "true"]);
    assert!(unfenced.0 == 2 && unfenced.2.contains("--fenced"));
    let other = scene.ran(&["take-over", "--slot", "2", "--host", "6", "--from", "4", "--fenced"]);
    assert!(other.0 == 1 && other.2.contains("host 4 doesn't hold"), "{other:?}");
    let words = ["take-over", "--slot", "2", "--host", "6", "--from", "5", "--fenced", "--", "sh", "-c", "exit 9"];
    assert_eq!(scene.ran(&words).0, 9);
    assert!(scene.ran(&["status"]).1.contains("slot 2: free"));
}

#[test]
fn an_interrupt_ends_the_command_and_the_slot_is_released() {
    let scene = Scene::new("interrupt");
    let mut holding = Holding::of(&scene, "2");
    assert!(scene.ran(&["status"]).1.contains("slot 2: host 5,"));
    let group = format!("-{}", holding.host.id());
    assert!(Command::new("kill").args(["-INT", "--", &group]).status().expect("kill").success());
    assert_eq!(holding.host.wait().expect("ended").code(), Some(130));
    assert!(scene.ran(&["status"]).1.contains("slot 2: free"));
}

#[test]
fn where_no_queue_is_free_one_is_waited_for() {
    let one = |it: Options| Options { config: Config { pairs: 1, cqs: 1, ..it.config }, ..it };
    let scene = Scene::with("full", |_, it| one(it));
    let first = Holding::of(&scene, "2");
    let (status, _, told) = scene.ran(&["--slot", "0", "--host", "6", "--", "true"]);
    assert!(status == 3 && told.contains("status 1/81"), "{status}: {told}");
    let mut waits = scene.program(&["--slot", "0", "--host", "6", "--wait", "120", "--", "true"]).spawn().expect("it");
    thread::sleep(Duration::from_millis(300));
    assert_eq!(waits.try_wait().expect("it waits"), None);
    assert_eq!(first.end(), Some(7));
    assert_eq!(waits.wait().expect("ended").code(), Some(0));
}

#[test]
fn who_lost_its_slot_is_told() {
    let scene = Scene::new("lost");
    let slow = Holding::of(&scene, "2");
    // (host 5 isn't fenced at all: this is what must not be done)
    assert_eq!(scene.ran(&["take-over", "--slot", "2", "--host", "6", "--from", "5", "--fenced"]).0, 0);
    assert_eq!(slow.end(), Some(1));
}

/// Whoever of the dead holds a slot, told by `status`.
fn dead_holders(scene: &Scene, dead: &Mutex<HashSet<u32>>) -> Vec<(String, u32)> {
    let told = scene.ran(&["status"]).1;
    let holder = |line: &str| {
        let (slot, rest) = line.strip_prefix("slot ")?.split_once(": host ")?;
        let host = rest.split_once(',')?.0.parse().ok()?;
        dead.lock().expect("a lock").contains(&host).then(|| (slot.to_string(), host))
    };
    told.lines().filter_map(holder).collect()
}

/// Takes over what the dead hold; a slot that another survivor took first is left.
fn bury(scene: &Scene, dead: &Mutex<HashSet<u32>>, numbers: &AtomicU32) {
    for (slot, from) in dead_holders(scene, dead) {
        let (from, me) = (from.to_string(), numbers.fetch_add(1, Ordering::Relaxed).to_string());
        let tidy = format!("rmdir {} 2> /dev/null; exit 0", scene.folder.join(format!("held-{slot}")).display());
        let words = ["take-over", "--slot", &slot, "--host", &me, "--from", &from, "--fenced", "--", "sh", "-c", &tidy];
        let (status, _, told) = scene.ran(&words);
        let is_left = status == 1 && told.contains("doesn't hold") || status == 3 && is_busy(&told);
        assert!(status == 0 || is_left, "{status}: {told}");
    }
}

/// One machine, whose hosts claim slots and are killed now and then; how often a command ran, and how many were killed.
fn machine(scene: &Scene, seed: u32, end: Instant, dead: &Mutex<HashSet<u32>>, numbers: &AtomicU32) -> (u32, u32) {
    let (mut random, mut ran, mut killed) = (Random(seed * 77 + 1), 0, 0);
    // (each does both once at the least, however slow this machine is)
    while Instant::now() < end || ran == 0 || killed == 0 {
        let number = numbers.fetch_add(1, Ordering::Relaxed);
        let mut host = scene.host(random.below(4), number, "2");
        if random.below(4) == 0 {
            thread::sleep(Duration::from_millis(random.below(40).into()));
            kill(&mut host);
            dead.lock().expect("a lock").insert(number);
            killed += 1;
        } else {
            let Output { status, stderr, .. } = host.wait_with_output().expect("ended");
            let told = String::from_utf8_lossy(&stderr);
            match status.code() {
                Some(7) => ran += 1,
                // (it waited in vain: a dead host may hold the slot)
                Some(1) => {}
                Some(3) if is_busy(&told) => {}
                other => panic!("host {number}: {other:?}: {told}"),
            }
        }
        bury(scene, dead, numbers);
    }
    (ran, killed)
}

#[test]
fn hosts_race_while_others_are_killed_and_taken_over() {
    let seconds = env::var("VANDREXU_SECONDS").ok().and_then(|it| it.parse().ok()).unwrap_or(4);
    let scene = Scene::new("kills");
    let (dead, numbers) = (Mutex::new(HashSet::new()), AtomicU32::new(1));
    let end = Instant::now() + Duration::from_secs(seconds);
    let done: Vec<(u32, u32)> = thread::scope(|scope| {
        let (scene, dead, numbers) = (&scene, &dead, &numbers);
        let all: Vec<_> = (0..8).map(|it| scope.spawn(move || machine(scene, it, end, dead, numbers))).collect();
        all.into_iter().map(|it| it.join().expect("a machine")).collect()
    });
    let began = Instant::now();
    while scene.ran(&["status"]).1.contains("host") && began.elapsed() < Duration::from_secs(120) {
        bury(&scene, &dead, &numbers);
    }
    assert!(!scene.ran(&["status"]).1.contains("host"));
    let sum = |it: fn(&(u32, u32)) -> u32| done.iter().map(it).sum::<u32>();
    eprintln!("{} commands ran, {} hosts were killed", sum(|it| it.0), sum(|it| it.1));
    assert!(sum(|it| it.0) > 0 && sum(|it| it.1) > 0);
}

/// Stands between hosts and a target, and cuts their connections when it is told to.
struct Cutter {
    address: String,
    cut: Arc<Mutex<Vec<TcpStream>>>,
    mute: Arc<AtomicBool>,
}

impl Cutter {
    fn before(target: &str) -> Cutter {
        let listener = TcpListener::bind("127.0.0.1:0").expect("a port");
        let (address, target) = (listener.local_addr().expect("an address").to_string(), target.to_string());
        let (cut, mute) = (Arc::new(Mutex::new(vec![])), Arc::new(AtomicBool::new(false)));
        let (known, is_mute) = (cut.clone(), mute.clone());
        thread::spawn(move || {
            for host in listener.incoming().flatten() {
                let Ok(target) = TcpStream::connect(&target) else { break };
                for (from, to, is_answer) in [(&host, &target, false), (&target, &host, true)] {
                    let (from, to, is_mute) = (from.try_clone().unwrap(), to.try_clone().unwrap(), is_mute.clone());
                    thread::spawn(move || pass(from, to, is_answer.then_some(&is_mute)));
                }
                known.lock().expect("a lock").extend([host, target]);
            }
        });
        Cutter { address, cut, mute }
    }

    /// Cuts the connections that there are.
    fn cut(&self) {
        let all: Vec<TcpStream> = self.cut.lock().expect("a lock").drain(..).collect();
        for it in all {
            let _ = it.shutdown(Shutdown::Both);
        }
    }

    /// Cuts each connection in place of its next answer; once.
    fn cut_an_answer(&self) {
        self.mute.store(true, Ordering::SeqCst);
    }
}

/// Passes bytes on, until a connection is cut.
fn pass(mut from: TcpStream, mut to: TcpStream, mute: Option<&AtomicBool>) {
    let mut bytes = [0; 4096];
    while let Ok(count @ 1..) = from.read(&mut bytes) {
        if mute.is_some_and(|it| it.swap(false, Ordering::SeqCst)) || to.write_all(&bytes[..count]).is_err() {
            break;
        }
    }
    let _ = (from.shutdown(Shutdown::Both), to.shutdown(Shutdown::Both));
}

#[test]
fn a_release_whose_connection_is_lost_is_made_again_or_found_done() {
    let scene = Scene::new("cut");
    let cutter = Cutter::before(&scene.address);
    for (slot, is_served) in [("1", false), ("2", true)] {
        let holding = Holding::at(&scene, &cutter.address, slot);
        assert!(scene.ran(&["status"]).1.contains(&format!("slot {slot}: host 5,")));
        if is_served {
            cutter.cut_an_answer();
        } else {
            cutter.cut();
        }
        assert_eq!(holding.end(), Some(7), "slot {slot}");
        assert!(scene.ran(&["status"]).1.contains(&format!("slot {slot}: free")));
    }
}

#[test]
fn what_is_wrong_has_its_status() {
    let scene = Scene::new("wrong");
    assert_eq!(scene.ran(&["--slot", "9", "--host", "1", "--", "true"]).0, 2);
    // (no disk has such a slot)
    let beyond = ["status", "--target", &scene.address, "--area", "65535,2"];
    let Output { status, stderr, .. } =
        Command::new(env!("CARGO_BIN_EXE_vandrexu-lock")).args(beyond).output().unwrap();
    assert!(status.code() == Some(2) && String::from_utf8_lossy(&stderr).contains("behind block 65,535"));
    // (nor has this target)
    let small = Scene::with("small", |_, it| Options { config: Config { blocks: 66, ..it.config }, ..it });
    for (slot, due) in [("1", 0), ("2", 2)] {
        let (status, _, told) = small.ran(&["--slot", slot, "--host", "1", "--", "true"]);
        assert_eq!(status, due, "slot {slot}: {told}");
    }
    assert!(small.ran(&["status"]).0 == 2 && small.ran(&["status"]).2.contains("status 0/80"));
    assert_eq!(scene.ran(&["--slot", "0", "--host", "1", "--nqn", "nqn.none", "--", "true"]).0, 3);
    assert_eq!(scene.ran(&["--slot", "0", "--host", "1", "--", "/no/such/program"]).0, 3);
    assert!(scene.ran(&["status"]).1.starts_with("slot 0: free"));
}
