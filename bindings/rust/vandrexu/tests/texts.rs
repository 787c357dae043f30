//! Each call about a text, with each of its answers.
use vandrexu::{Error, Lines, TextError, certify_text, check_text, observe_text, refute_text, run_text};

const HEAD: &str = "config 8 1 1 0 0 1 4 4 8\n";
const REFUSED: &str = "config 8 1 1 0 0 17 4 4 8\n";

/// A Write of one block that is read back, and what hosts see of it.
fn script() -> String {
    format!(
        "{HEAD}publish 1 write 0 7 3 0 A1\nfetch 1\nsettle\nreap 1\npublish 1 read 0 8 3 0 -\nfetch 1\nsettle\nreap 1\n"
    )
}

fn history() -> Vec<u8> {
    run_text(script(), Lines::HISTORY).expect("a script runs")
}

/// The trace of the history, whose reaped Read read blocks of A1.
fn trace() -> String {
    let seen =
        String::from_utf8(run_text(script(), Lines::PUBLISH | Lines::REAP).expect("a script runs")).expect("text");
    let mut read = 0;
    seen.lines()
        .map(|line| {
            read += usize::from(line.starts_with("reap"));
            let data = if read == 2 && line.starts_with("reap") { " A1" } else { " -" };
            format!("{line}{}\n", if line.starts_with("reap") { data } else { "" })
        })
        .collect()
}

fn failed(answer: Result<Vec<u8>, TextError>) -> (Error, Option<u64>, String) {
    let it = answer.expect_err("it fails");
    (it.error, it.line, String::from_utf8(it.text).expect("text"))
}

#[test]
fn scripts() {
    assert!(String::from_utf8(history()).expect("text").ends_with("reap 1 00000000000000000200010008000100\n"));
    // more than the first room
    let many = format!("{}{}", script(), "medium 3\n".repeat(900));
    assert!(run_text(&many, Lines::ALL).expect("a script runs").len() > 8192);
    assert_eq!(run_text(script(), Lines::MEDIUM).expect("a script runs"), HEAD.as_bytes());
    let bad = failed(run_text(format!("{HEAD}fetch 1\nfetch it\n"), Lines::ALL));
    assert_eq!(bad, (Error::BadLine, Some(3), format!("{HEAD}refused 3\n")));
    assert_eq!(failed(run_text(REFUSED, Lines::ALL)), (Error::BadPairs, None, String::new()));
}

#[test]
fn histories() {
    assert_eq!(check_text(history()), Ok(b"legal\n".to_vec()));
    let text = String::from_utf8(history()).expect("text");
    let without: String =
        text.lines().filter(|line| !line.starts_with("grant 1")).map(|line| format!("{line}\n")).collect();
    assert_eq!(failed(check_text(without)), (Error::NotLegal, None, "bad at 3\n".to_owned()));
    assert_eq!(failed(check_text(format!("{HEAD}none\n"))), (Error::BadLine, Some(2), String::new()));
    assert_eq!(failed(check_text(REFUSED)), (Error::BadPairs, None, String::new()));
}

#[test]
fn traces_and_histories() {
    assert_eq!(certify_text(trace(), history()), Ok(b"explained\n".to_vec()));
    let other = trace().replace("A1\n", "B2\n");
    let (error, line, text) = failed(certify_text(&other, history()));
    assert_eq!((error, line), (Error::NotExplained, None));
    assert!(text.starts_with("seen "), "{text}");
    assert_eq!(failed(certify_text("none\n", history())).0, Error::BadLine);
    assert_eq!(failed(certify_text(trace(), format!("{HEAD}none\n"))), (Error::BadHistory, Some(2), String::new()));
    assert_eq!(failed(certify_text(trace(), REFUSED)), (Error::BadHistory, Some(1), String::new()));
    assert_eq!(failed(certify_text(trace(), "config 9 1 1 0 0 1 4 4 8\n")).0, Error::OtherConfig);
    assert_eq!(failed(certify_text(REFUSED, history())).0, Error::BadPairs);
}

#[test]
fn traces() {
    let found = observe_text(trace(), 1_000_000).expect("a history is found");
    assert_eq!(certify_text(trace(), &found), Ok(b"explained\n".to_vec()));
    // the Read found another block than the one that was written before it
    let other = format!("{}B2\n", trace().strip_suffix("A1\n").expect("a Read comes last"));
    let refutation = observe_text(&other, 1_000_000).expect_err("the trace is refuted").refutation;
    let (error, line, text) = failed(observe_text(&other, 1_000_000));
    assert_eq!((error, line), (Error::NotExplained, None));
    assert!(text.starts_with("refuted: "), "{text}");
    assert!(refutation.starts_with(b"refutation\nlines "), "{refutation:?}");
    assert!(refute_text(&other, &refutation).expect("it refutes the trace").starts_with(b"refuted: the first "));
    let (error, line, text) = failed(refute_text(trace(), &refutation));
    assert_eq!((error, line), (Error::NotRefuted, None));
    assert!(text.starts_with("not refuted: "), "{text}");
    assert_eq!(failed(refute_text("none\n", &refutation)).0, Error::BadLine);
    assert_eq!(failed(refute_text(trace(), "refutation\n")), (Error::BadHistory, Some(2), String::new()));
    assert_eq!(failed(refute_text(REFUSED, &refutation)).0, Error::BadPairs);
    assert_eq!(failed(observe_text(trace(), 0)), (Error::GaveUp, None, "gave up\n".to_owned()));
    assert_eq!(failed(observe_text("none\n", 1000)).0, Error::BadLine);
    assert_eq!(failed(observe_text(REFUSED, 1000)).0, Error::BadPairs);
    assert_eq!(
        TextError { error: Error::BadLine, line: Some(4), text: vec![], refutation: vec![] }.to_string(),
        "line 4: no line of a history"
    );
}
