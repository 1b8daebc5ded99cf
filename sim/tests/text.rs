//! The formats and the program.

mod common;
use common::*;
use sim::frames::{framed, packed_history, readings, replies};
use sim::generate::edges::{base, edges};
use sim::generate::histories::covering;
use sim::table::encode;
use sim::text::{from_hex, hex, script, script_text};
use std::ops::Range;

/// The program's print of P6, with the timer's bound of U5.
#[test]
fn sheet_of_p6() {
    let table = full(vec![timer(10, &[2]), subscription(20, &[3])]);
    let bytes = encode(&table);
    assert_eq!(program(&["sheet"], &bytes), "window 5\n1 4\n2 5\n");
    assert_eq!(program(&["sheet"], &bytes[3..]), "refused 2 0\n");
    let lines = format!("{}\n\n{}\n", hex(&bytes), hex(&bytes[..20]));
    assert_eq!(
        program(&["sheets"], lines.as_bytes()),
        "window 5 4 5\nrefused 1 0\nrefused 4 0\n"
    );
}

#[test]
fn replay_of_p10() {
    let table = full(vec![subscription(10, &[2]); 3]);
    let text =
        hex(&encode(&table)) + "\n6 1 2\n1 1 2\n# a remark\n\n0 0 2\n8 1 2\nset units 9\n0 1 2\n";
    let expected = "start accepted\n0 ran 2 1 1 1 2 0\n1 finished 2 1 0 0 0 0\n\
                    2 nosupply 0 0 0 0 0 0\n3 refused 20 4\n4 refused 29 0\n";
    assert_eq!(program(&["replay"], text.as_bytes()), expected);
    assert_eq!(
        program(&["replay"], b"\n1 1 1\n"),
        "start refused 1 0\n0 refused 29 0\n"
    );
}

#[test]
fn replay_with_states() {
    let text = hex(&encode(&chain())) + "\n1 1 2\n";
    let zeros = " 0".repeat(15);
    let expected = format!("start accepted\n0 ran 1 1 1 0 0 0\nstate 1 1 1 0 1{zeros} 0{zeros}\n");
    assert_eq!(program(&["replay", "states"], text.as_bytes()), expected);
}

#[test]
fn generated_text_reads_back() {
    for sort in ["within", "outside", "faulty"] {
        let text = program(&["generate", "history", "11", sort, "40"], b"");
        let read = script(&text).unwrap();
        assert_eq!(script_text(&read), text);
        assert!(program(&["replay"], text.as_bytes()).lines().count() == 41);
    }
    let text = program(&["generate", "tables", "11", "50"], b"");
    assert_eq!(text.lines().count(), 50);
    assert!(text.lines().all(|line| from_hex(line).is_ok()));
}

#[test]
fn picture_has_its_parts() {
    let text = program(&["generate", "history", "12", "within", "40"], b"");
    let picture = program(&["svg"], text.as_bytes());
    assert!(picture.starts_with("<svg ") && picture.ends_with("</svg>\n"));
    let named = program(&["svg", "a<b"], text.as_bytes());
    assert!(named.contains(">1 a&lt;b (") && !picture.contains("a&lt;b"));
}

#[test]
fn bad_text_is_named() {
    assert!(from_hex("0g").is_err() && from_hex("012").is_err() && from_hex("é").is_err());
    assert!(from_hex("+1").is_err() && from_hex("00-1").is_err() && from_hex("1 ").is_err());
    assert_eq!(from_hex(" aBf0 "), Ok(vec![0xab, 0xf0]));
    assert!(script("\n1 2 3\n").is_err() && script("\n1 1\n").is_err());
    assert!(script("\n65536 1 3\n").is_err() && script("\nset waiting 17 1\n").is_err());
}

#[test]
fn judgement_of_a_history() {
    let bytes = hex(&encode(&full(vec![subscription(10, &[2]); 2])));
    let within = format!("{bytes}\n3 1 2\n0 1 2\n0 1 2\n0 1 1\n");
    assert_eq!(
        program(&["within"], within.as_bytes()),
        "within\n1 4 2\n2 4 4\n"
    );
    for (ticks, departure) in [
        ("1 1 1\n1 1 1\n", "outside arrivals 1 from 0 ticks 2"),
        ("0 1 1\n0 0 1\n", "outside supply from 0 ticks 2"),
        ("1 1 3\n", "outside cost 1 from 1 instances 1"),
        ("0 1 1\n4 1 1\n", "outside mask 1"),
        ("0 1 0\n", "outside range 0"),
    ] {
        let text = program(&["within"], format!("{bytes}\n{ticks}").as_bytes());
        assert_eq!(text.lines().next(), Some(departure));
    }
    assert_eq!(program(&["within"], b"\n"), "refused 1 0\n");
}

/// Hex, frames and ticks in binary say what the texts say.
#[test]
fn binary_input() {
    let table = full(vec![subscription(10, &[2]); 3]);
    let bytes = encode(&table);
    assert_eq!(program(&["bytes"], b"31320a\n"), "12\n");
    let frames = [framed(&bytes), framed(&[]), framed(&bytes[..20])].concat();
    assert_eq!(program(&["readings"], &frames), "0 0\n1 0\n4 0\n");
    assert_eq!(
        program(&["readings"], &frames[..frames.len() - 1]),
        "0 0\n1 0\n"
    );
    let history = packed_history(&bytes, &[(tick(6, 2), 1), (tick(1, 65_537), 255)]);
    assert_eq!(
        program(&["histories"], &history),
        "0 3 2 1 1 1 2 0\n1 refused 19 0\n"
    );
}

/// What the programs of the gate are given has every number and answer.
#[test]
fn binary_input_covers() {
    let frames: Vec<u8> = edges().iter().flat_map(|bytes| framed(bytes)).collect();
    let text = readings(&frames);
    for number in (0..=14).chain([22, 24]) {
        assert!(text
            .lines()
            .any(|line| line.starts_with(&format!("{number} "))));
    }
    for edition in [1, 2] {
        let text = replies(&packed_history(&encode(&base(edition)), &covering(edition)));
        for said in [
            "1 0 0 0 0",
            "2 0 0 0 1",
            "3 2",
            "4 2",
            "refused 19",
            "refused 20",
            "refused 21",
        ] {
            assert!(text.contains(&format!(" {said} ")), "{edition}: {said}");
        }
    }
}

/// Each table at the edges stands in both editions. Other editions are refused with 2, a wrong count
/// or not, and with 1 where the header is cut short.
#[test]
fn edges_of_both_editions() {
    let tables = edges();
    let of = |edition: u8| tables.iter().filter(move |t| t.first() == Some(&edition));
    let twin = |table: &Vec<u8>| [&[2], &table[1..]].concat();
    assert!(of(1).count() > 400 && of(1).map(twin).eq(of(2).cloned()));
    let third = "2 0\n2 0\n2 0\n1 0\n2 0\n2 0\n";
    for (edition, text) in [(0, "2 0\n"), (3, third), (255, "2 0\n")] {
        let frames: Vec<u8> = of(edition).flat_map(|bytes| framed(bytes)).collect();
        assert_eq!(readings(&frames), text);
    }
}

/// The history of edition 1, as a digest of the hex of its table and its ticks, is what it was when
/// there was no other.
#[test]
fn history_of_edition_1_is_what_it_was() {
    let table = framed(&encode(&base(1)));
    let packed = packed_history(&encode(&base(1)), &covering(1));
    let ticks = &packed[table.len() + 4..];
    assert_eq!(digest([hex(&table) + &hex(ticks)]), 0xcd99_ef4e_de98_e981);
}

/// Ticks of the history of edition 2.
fn second_history(ticks: Range<usize>) -> Vec<String> {
    let text = replies(&packed_history(&encode(&base(2)), &covering(2)));
    let lines = text.lines().map(str::to_string);
    lines.take(ticks.end).skip(ticks.start).collect()
}

/// The history of edition 2 from its first poll to idleness, reckoned by hand from step 3, U1 and
/// U6. Timer 1 activates subscription 2; service 4 goes before client 3. Of the beats in ticks 30, 32
/// and 35 the first is kept and waits for the poll in tick 36, so that the others are folded.
#[test]
fn history_of_edition_2() {
    let polls = [
        "27 4 1 1 1 1 1 0",
        "28 3 1 2 1 1 4 0",
        "29 4 1 2 0 0 0 0",
        "30 1 0 0 0 0 0 0",
        "31 3 2 1 1 0 0 0",
        "32 3 2 1 0 0 0 1",
        "33 4 2 1 0 0 0 0",
        "34 4 4 1 1 0 0 0",
        "35 4 3 1 1 0 0 1",
        "36 4 1 3 1 1 2 0",
        "37 4 2 2 1 0 0 0",
        "38 4 2 3 1 1 1 0",
        "39 2 0 0 0 1 0 0",
    ];
    assert_eq!(second_history(27..40), polls);
}

/// From tick 302 on the timer beats without supply: one beat is kept. Two ticks are refused for the
/// full client. Then the timer runs once a poll, and folds a beat wherever one waits for that.
#[test]
fn folded_beats_of_edition_2() {
    let beats = [
        "299 1 0 0 0 0 0 0",
        "300 refused 21 3",
        "301 refused 21 3",
        "302 1 0 0 0 0 0 0",
        "303 1 0 0 0 0 0 1",
        "304 1 0 0 0 0 0 1",
        "305 refused 21 3",
        "306 refused 21 3",
        "307 4 1 4 1 1 2 1",
        "308 4 3 2 1 0 0 0",
        "309 4 1 5 1 1 3 0",
        "310 4 2 4 1 0 0 0",
        "311 4 3 3 1 0 0 0",
        "312 4 1 6 1 1 3 1",
        "313 4 2 5 1 0 0 0",
    ];
    assert_eq!(second_history(299..314), beats);
}

/// The end of the history of edition 1: the timer runs, keeps one of 256 beats without supply, and is
/// never refused itself. Then its full follower is refused.
#[test]
fn folded_beats_of_edition_1() {
    let text = replies(&packed_history(&encode(&base(1)), &covering(1)));
    let lines: Vec<&str> = text.lines().skip(554).collect();
    let folded = (557..812).map(|time| format!("{time} 1 0 0 0 0 0 1"));
    let refused = (812..817).map(|time| format!("{time} refused 21 2"));
    let begun = [
        "554 refused 21 2",
        "555 3 1 257 1 0 0 0",
        "556 1 0 0 0 0 0 0",
    ];
    let expected = begun.map(str::to_string).into_iter();
    assert!(lines.into_iter().eq(expected.chain(folded).chain(refused)));
}
