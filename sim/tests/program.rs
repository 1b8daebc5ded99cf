//! How the program ends: its statuses, its errors and its help.

mod common;
use common::*;
use sim::check::{judged, Totals};
use sim::frames::{framed, packed_history};
use sim::generate::histories::{within, Style};
use sim::history::{Departure, Violation};
use sim::random::Random;
use sim::table::{encode, Kind, Table};
use sim::text::{hex, judgement_text, violation_text};
use std::process::Command;

/// Two subscriptions in full supply, with window 4.
fn pair() -> Table {
    full(vec![subscription(10, &[2]); 2])
}

/// A table that the reader takes and the analyser refuses with 15.
fn overloaded() -> Table {
    full(vec![subscription(1, &[2])])
}

/// A history of this table with these lines.
fn history(table: &Table, lines: &str) -> String {
    hex(&encode(table)) + "\n" + lines
}

/// The program ends with this status, and says this on standard output and nothing on the other.
fn says(words: &[&str], input: &[u8], status: i32, output: &str) {
    let ended = run(words, input);
    assert_eq!(
        (ended.status, &ended.output[..], &ended.error[..]),
        (Some(status), output, ""),
        "{words:?}"
    );
}

/// The program ends with this status, and says only this, on standard error.
fn complains(words: &[&str], input: &[u8], status: i32, error: &str) {
    let ended = run(words, input);
    assert_eq!(
        (ended.status, &ended.output[..], &ended.error[..]),
        (Some(status), "", &format!("{error}\n")[..]),
        "{words:?}"
    );
}

#[test]
fn status_of_sheets() {
    let bytes = encode(&pair());
    says(&["sheet"], &bytes, 0, "window 4\n1 4\n2 4\n");
    says(&["sheet"], &bytes[..40], 1, "refused 4 0\n");
    says(&["sheet"], &encode(&overloaded()), 1, "refused 15 0\n");
    let line = hex(&bytes) + "\n";
    says(&["sheets"], line.as_bytes(), 0, "window 4 4 4\n");
    says(&["sheets"], b"", 0, "");
    let lines = line.clone() + "\n" + &line;
    let expected = "window 4 4 4\nrefused 1 0\nwindow 4 4 4\n";
    says(&["sheets"], lines.as_bytes(), 1, expected);
}

#[test]
fn status_of_replays() {
    let text = history(&pair(), "1 1 1\n");
    let expected = "start accepted\n0 finished 1 1 1 1 1 0\n";
    says(&["replay"], text.as_bytes(), 0, expected);
    let refused = text.clone() + "4 1 1\n0 0 1\n";
    let expected = expected.to_string() + "1 refused 20 3\n2 nosupply 0 0 0 0 0 0\n";
    says(&["replay"], refused.as_bytes(), 1, &expected);
    says(&["replay"], b"", 1, "start refused 1 0\n");
    assert_eq!(run(&["replay", "states"], text.as_bytes()).status, Some(0));
    let states = run(&["replay", "states"], refused.as_bytes());
    assert_eq!(states.status, Some(1));
}

#[test]
fn status_of_within() {
    let text = history(&pair(), "3 1 2\n0 1 2\n0 1 2\n0 1 1\n");
    says(&["within"], text.as_bytes(), 0, "within\n1 4 2\n2 4 4\n");
    let text = history(&pair(), "1 1 1\n1 1 1\n");
    let expected = "outside arrivals 1 from 0 ticks 2\n1 4 1\n2 4 0\n";
    says(&["within"], text.as_bytes(), 1, expected);
    let text = history(&overloaded(), "1 1 1\n");
    says(&["within"], text.as_bytes(), 1, "refused 15 0\n");
    let text = history(&overloaded(), "set units 1\n");
    says(&["within"], text.as_bytes(), 1, "refused 15 0\n");
}

/// Demand 3 with a bound that is too small, which no sheet gives.
#[test]
fn broken_conclusions_are_told() {
    let table = full(vec![lone(Kind::Subscription, 10, 15, 2, &[4])]);
    let mut history = within(&mut Random::new(8), &table, &Style::greedy(&table), 60);
    let sound = judged(&table, &[7], &history);
    assert_eq!((sound.departure, sound.violation), (None, None));
    assert!(sound.in_order());
    assert_eq!(judgement_text(&[7], &sound), "within\n1 7 7\n");
    let late = judged(&table, &[5], &history);
    let expected = "within\n1 5 7\nbroken bound 1 activation 2 at 2 completed 8\n";
    assert!(!late.in_order());
    assert_eq!(judgement_text(&[5], &late), expected);
    // Outside the curves demand 3 asks for nothing.
    history.ticks[1].cost = 0;
    let outside = judged(&table, &[5], &history);
    assert_eq!(outside.departure, Some(Departure::CostRange { tick: 1 }));
    assert_eq!(judgement_text(&[5], &outside), "outside range 1\n1 5 7\n");
}

#[test]
fn each_conclusion_has_its_line() {
    let early = Violation::EarlyStart {
        callback: 2,
        instance: 3,
        time: 4,
    };
    let open = Violation::Late {
        callback: 2,
        k: 3,
        activation: 4,
        completion: None,
    };
    for (violation, line) in [
        (Violation::Refused { tick: 7 }, "broken refusal tick 7"),
        (early, "broken start 2 instance 3 at 4"),
        (open, "broken bound 2 activation 3 at 4 completed never"),
    ] {
        assert_eq!(violation_text(&violation), line);
    }
}

#[test]
fn status_of_frames() {
    let bytes = encode(&pair());
    let frames = [framed(&bytes), framed(&bytes)].concat();
    says(&["readings"], &frames, 0, "0 0\n0 0\n");
    says(&["readings"], b"", 0, "");
    let refused = [framed(&[]), frames].concat();
    says(&["readings"], &refused, 1, "1 0\n0 0\n0 0\n");
    let ticks = [(tick(1, 1), 1)];
    let input = packed_history(&bytes, &ticks);
    says(&["histories"], &input, 0, "0 4 1 1 1 1 1 0\n");
    let input = packed_history(&bytes, &[(tick(4, 1), 1)]);
    says(&["histories"], &input, 1, "0 refused 20 3\n");
    let input = packed_history(&[], &ticks);
    says(&["histories"], &input, 1, "refused 1 0\n0 refused 29 0\n");
    let two = [
        packed_history(&bytes, &ticks),
        packed_history(&bytes, &ticks),
    ]
    .concat();
    says(
        &["histories"],
        &two,
        0,
        "0 4 1 1 1 1 1 0\n0 4 1 1 1 1 1 0\n",
    );
    says(&["histories"], b"", 0, "");
}

/// What is whole is printed; the rest cannot be read.
#[test]
fn frames_cut_short() {
    let bytes = encode(&pair());
    let two = [framed(&bytes), framed(&bytes)].concat();
    let history = packed_history(&bytes, &[(tick(1, 1), 1), (tick(0, 1), 1)]);
    let more = [&packed_history(&bytes, &[]), &history[..84]].concat();
    for (words, input, output, error) in [
        ("readings", &two[..two.len() - 1], "0 0\n", "frame 2"),
        ("readings", &two[..1], "", "frame 1"),
        (
            "histories",
            &history[..history.len() - 1],
            "0 4 1 1 1 1 1 0\n",
            "history 1, tick 1",
        ),
        ("histories", &history[..20], "", "history 1"),
        ("histories", &history[..85], "", "history 1"),
        ("histories", &more, "", "history 2"),
    ] {
        let ended = run(&[words], input);
        assert_eq!((ended.status, &ended.output[..]), (Some(2), output));
        assert_eq!(ended.error, error.to_string() + ": cut short\n");
    }
}

#[test]
fn status_of_pictures() {
    let drawn = run(&["svg"], history(&pair(), "1 1 1\n4 1 1\n").as_bytes());
    assert_eq!((drawn.status, &drawn.error[..]), (Some(0), ""));
    assert!(drawn.output.contains(">refused 20<"));
    complains(&["svg"], b"00\n", 1, "refused 1 0");
    complains(&["svg", "--ticks", "5", "1"], b"00\n", 1, "refused 1 0");
    // A picture needs no sheet.
    let crowded = run(&["svg"], history(&overloaded(), "1 1 1\n").as_bytes());
    assert_eq!((crowded.status, &crowded.error[..]), (Some(0), ""));
}

#[test]
fn status_of_the_rest() {
    says(&["bytes"], b"31320a\n", 0, "12\n");
    says(&["bytes"], b"", 0, "");
    let checked = run(&["check", "1", "20", "100"], b"");
    assert_eq!((checked.status, &checked.error[..]), (Some(0), ""));
    let fault = || vec!["seed 1".to_string()];
    let found = |outside, violations| Totals {
        outside,
        violations,
        ..Totals::default()
    };
    assert!(found(Vec::new(), Vec::new()).in_order());
    assert!(!found(fault(), Vec::new()).in_order());
    assert!(!found(Vec::new(), fault()).in_order());
    for words in [
        vec!["generate", "tables", "1", "5"],
        vec!["generate", "history", "1", "outside"],
        vec!["generate", "readings"],
        vec!["generate", "histories"],
    ] {
        let ended = Command::new(env!("CARGO_BIN_EXE_sim"))
            .args(&words)
            .output();
        let ended = ended.unwrap();
        assert_eq!(ended.status.code(), Some(0), "{words:?}");
        assert!(!ended.stdout.is_empty() && ended.stderr.is_empty());
    }
}

/// Lines are counted in the text as given, from 1, with those that say nothing.
#[test]
fn errors_name_the_line() {
    let remarks = "# a remark\n\n".repeat(7) + "0 1 1\n";
    for (line, error) in [
        ("70000 1 1", "not sixteen bits: 70000"),
        ("1 2 1", "not 0 or 1: 2"),
        ("1 1 x", "not a number: x"),
        ("1 1", "not a line of a history: 1 1"),
        ("set waiting 17 1", "not 1 to 16: 17"),
        ("set table 0", "not hex: 0"),
        ("set clock 1", "no such change: clock 1"),
    ] {
        let text = history(&pair(), &format!("{remarks}{line}\n0 1 1\n"));
        for words in ["replay", "within", "svg"] {
            complains(&[words], text.as_bytes(), 2, &format!("line 17: {error}"));
        }
    }
    let text = history(&pair(), &(remarks + "set units 1\n"));
    for words in ["within", "svg"] {
        let error = "line 17: set lines are for replay only";
        complains(&[words], text.as_bytes(), 2, error);
    }
    complains(&["replay"], b"0g\n0 1 1\n", 2, "line 1: not hex: 0g");
    complains(&["within"], b"0\n", 2, "line 1: not hex: 0");
}

#[test]
fn errors_name_the_line_of_hex() {
    complains(&["sheets"], b"00\n\n+1\n", 2, "line 3: not hex: +1");
    complains(&["sheets"], b"00\n001\n", 2, "line 2: not hex: 001");
    complains(&["bytes"], b"\n\n3x\n", 2, "line 3: not hex: 3x");
    let error = "line 3: more than one line of hex";
    complains(&["bytes"], b"31\n\n32\n", 2, error);
    says(&["bytes"], b"\n 3132 \n\n", 0, "12");
    for words in ["bytes", "sheets", "replay", "within", "svg"] {
        complains(&[words], b"00\n0 1 1\n\xff\n", 2, "line 3: not text");
    }
}

#[test]
fn help() {
    let usage = program(&["help"], b"");
    assert!(usage.starts_with("usage:\n"));
    for words in [
        &[][..],
        &["sheet"],
        &["replay", "states"],
        &["svg"],
        &["generate"],
        &["generate", "history"],
        &["generate", "tables", "1"],
        &["check", "1", "1"],
    ] {
        for help in ["--help", "-h"] {
            says(&[words, &[help]].concat(), b"", 0, &usage);
        }
    }
    let behind = ["generate", "history", "help"];
    for words in [&["help", "sheet"][..], &["svg", "help"], &behind] {
        says(words, b"", 0, &usage);
    }
}

#[test]
fn wrong_words() {
    let usage = program(&["help"], b"");
    for words in [
        &[][..],
        &["sheeet"],
        &["sheet", "x"],
        &["replay", "state"],
        &["generate"],
        &["generate", "history"],
        &["generate", "history", "x"],
        &["generate", "history", "1", "inside"],
        &["generate", "history", "1", "within", "x"],
        &["generate", "history", "1", "within", "1", "-", "x"],
        &["generate", "tables", "1", "1", "tiny"],
        &["generate", "histories", "0"],
        &["generate", "histories", "3"],
        &["generate", "histories", "x"],
        &["generate", "histories", "2", "2"],
        &["check", "1"],
        &["check", "1", "-1"],
        &["check", "1", "1", "1", "1"],
        &["svg", "--ticks", "1"],
        &["svg", "--ticks", "a", "b"],
        &["svg", "--tick", "1", "2"],
    ] {
        let ended = run(words, &encode(&pair()));
        assert_eq!(
            (ended.status, &ended.output[..]),
            (Some(2), ""),
            "{words:?}"
        );
        let (first, rest) = ended.error.split_once('\n').unwrap();
        assert!(!first.is_empty() && rest == usage, "{words:?}");
    }
}

/// The program as a shell starts it, with streams that it does not get from `run`.
#[cfg(target_os = "linux")]
fn shell(line: &str) -> Ended {
    let program = env!("CARGO_BIN_EXE_sim");
    let output = Command::new("sh").args(["-c", line, program]).output();
    output.unwrap().into()
}

#[cfg(target_os = "linux")]
#[test]
fn streams_that_fail() {
    for (line, stream) in [
        ("$0 generate readings > /dev/full", "output"),
        ("$0 generate readings >&-", "output"),
        ("$0 generate readings 1< /dev/null", "output"),
        ("$0 help >&-", "output"),
        ("$0 sheet <&-", "input"),
        ("$0 sheet < /", "input"),
        ("$0 replay 0> /dev/null", "input"),
        ("$0 generate history 1 within 9 - <&-", "input"),
    ] {
        let ended = shell(line);
        assert_eq!((ended.status, &ended.output[..]), (Some(2), ""), "{line}");
        assert!(ended.error.starts_with(&format!("standard {stream}: ")));
        assert_eq!(ended.error.lines().count(), 1);
    }
    // A refusal that cannot be printed, with nowhere to complain.
    assert_eq!(
        shell("$0 sheet < /dev/null > /dev/full 2>&1").status,
        Some(2)
    );
    for line in [
        "$0 generate tables 1 1 <&- > /dev/null",
        "$0 readings < /dev/null >&-",
        "$0 sheets < /dev/null > /dev/full",
    ] {
        let ended = shell(line);
        assert_eq!((ended.status, &ended.error[..]), (Some(0), ""), "{line}");
    }
}

/// A pipe that nobody reads any more.
#[cfg(target_os = "linux")]
#[test]
fn closed_pipe() {
    let ended = shell("{ $0 generate tables 1 9000; echo $? >&2; } | :");
    assert!(ended.error.starts_with("standard output: ") && ended.error.ends_with("\n2\n"));
}
