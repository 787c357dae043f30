//! The program and a target at its limit of memory, whose process is this test's.
mod common;
use common::Scene;
use std::process::Stdio;
use std::time::{Duration, Instant};
use std::{fs, thread};
use vandrexu_target::Options;

/// The resident memory of this process, in bytes.
fn resident() -> u64 {
    let now = fs::read_to_string("/proc/self/statm").expect("its memory");
    now.split(' ').nth(1).expect("a number").parse::<u64>().expect("pages") * 4096
}

/// The target has no memory for a command while this is there.
fn ballast() -> Vec<u8> {
    vec![1; 128 << 20]
}

#[test]
fn a_release_is_made_again_until_the_target_has_memory_for_it_and_a_claim_for_as_long_as_it_waits() {
    let scene = Scene::with("memory", |_, it| Options { memory: Some(resident() + (64 << 20)), ..it });
    let (begun, go) = (scene.folder.join("begun"), scene.folder.join("go"));
    let script =
        format!("touch {0}; while [ -e {0} -a ! -e {1} ]; do sleep 0.02; done; exit 7", begun.display(), go.display());
    let words = ["--slot", "2", "--host", "5", "--", "sh", "-c", &script];
    let mut holder = scene.program(&words).stderr(Stdio::null()).spawn().expect("the program");
    let began = Instant::now();
    while !begun.exists() {
        assert!(began.elapsed() < Duration::from_secs(120), "the command doesn't begin");
        thread::sleep(Duration::from_millis(20));
    }
    let heavy = ballast();
    // (the target asks the system once in a while)
    let refused = (0..100).map(|_| scene.ran(&["status"])).find(|it| it.0 != 0).expect("it is refused");
    assert!(refused.0 == 3 && refused.2.contains("status 0/06"), "{refused:?}");
    let now = scene.ran(&["--slot", "1", "--host", "6", "--", "true"]);
    assert!(now.0 == 3 && now.2.contains("status 0/06"), "{now:?}");
    fs::write(&go, "").expect("a file");
    let words = ["--slot", "1", "--host", "6", "--wait", "120", "--", "true"];
    let mut waits = scene.program(&words).stderr(Stdio::null()).spawn().expect("the program");
    thread::sleep(Duration::from_millis(500));
    assert_eq!((holder.try_wait().expect("it goes on"), waits.try_wait().expect("it goes on")), (None, None));
    assert_eq!(heavy[heavy.len() / 2], 1);
    drop(heavy);
    assert_eq!(holder.wait().expect("ended").code(), Some(7));
    assert_eq!(waits.wait().expect("ended").code(), Some(0));
    let free = "slot 0: free\nslot 1: free\nslot 2: free\nslot 3: free\n";
    assert_eq!(scene.ran(&["status"]).1, free);
}
