//! Histories drawn for a table, and those that seeds have always given.

mod common;
use common::*;
use sim::generate::beats::timers;
use sim::generate::histories::{span, within, Style};
use sim::generate::tables::{table, table_before_24, Shape};
use sim::generate::worst::{tries, worst};
use sim::history::{longest_response, play, within_curves, History};
use sim::random::Random;
use sim::sheet::{sheet as analysed, Sheet};
use sim::table::{encode, read, Kind, Table};
use sim::text::{hex, script, Line, Script};
use std::ops::RangeInclusive;

/// A chain and two lone callbacks in partial supply, all with room for bursts.
fn desk() -> Table {
    let mut callbacks = vec![
        lone(Kind::Timer, 40, 2, 38, &[2]),
        follower(Kind::Subscription, &[3]),
        lone(Kind::Service, 200, 150, 50, &[9, 14]),
        lone(Kind::Client, 100, 90, 10, &[2]),
    ];
    callbacks[0].next = 2;
    supplied(6, 10, callbacks)
}

fn plain(script: &Script) -> History {
    let ticks: Vec<_> = script
        .lines
        .iter()
        .map(|line| match line {
            Line::Tick(tick) => *tick,
            Line::Set(_) => panic!("a set line"),
        })
        .collect();
    play(&script.table, &ticks)
}

/// What seeds gave before the trackers, before edition 2 and before delays, as digests of what they
/// draw for tables of edition 1 without a delay. Drawn tables stay but for edition and delay;
/// without these they are compared. Where U5 changes bounds, the worst history and the checks are
/// others, and with U6 timers beat more often in all histories, so that of these only those of tables
/// without timers are compared. The tables are those of before U7, and only where none of them has
/// fault 24 are histories and checks what they were.
#[test]
fn seeds_give_what_they_gave() {
    let drawn = |sort: &str| digest(without_timers(histories_of_seeds(1..=200, sort, "300")));
    assert_eq!(drawn("within"), WITHIN);
    assert_eq!(drawn("outside"), OUTSIDE);
    let worst = without_timers(histories_of_seeds(1..=200, "worst", "40"));
    assert_eq!(digest(worst), WORST);
    let tables = |shape| {
        let mut random = Random::new(1);
        let tables = (0..300).map(|_| table_before_24(&mut random, shape));
        digest(tables.map(|table| without_edition_and_delay(&hex(&encode(&table)))))
    };
    let shapes = [Shape::Small, Shape::Long, Shape::Extreme];
    assert_eq!(shapes.map(tables), TABLES);
    let seeds = (1..=300).filter(|&seed| checked_without_faults_24(seed));
    let plain = seeds.filter(|&seed| !with_timers_first(&checked_table(seed)));
    let checks = plain.map(|seed| program(&["check", &seed.to_string(), "1"], b""));
    let first = checks.filter(|text| text.contains(NEITHER));
    assert_eq!(digest(first.map(|text| as_before(&text))), CHECK);
}

/// Those whose table has no timer.
fn without_timers(texts: Vec<String>) -> impl Iterator<Item = String> {
    let timers = |text: &String| timers(&read(&script(text).unwrap().table).unwrap());
    let texts = texts.into_iter();
    texts.filter(move |text| timers(text).is_empty())
}

/// What a check printed before U5 and its lines, without those about edition, delay and folded beats.
fn as_before(check: &str) -> String {
    let check = check.replace(NEITHER, "");
    let added = |line: &str| line.contains("U5") || line.contains("folded");
    let lines = check.lines().filter(|line| !added(line));
    lines.map(|line| line.to_string() + "\n").collect()
}

const WITHIN: u64 = 0xe3ed_ea11_fd2a_65c1;
const OUTSIDE: u64 = 0x8519_824a_7cc5_4981;
const WORST: u64 = 0xe478_6c51_f943_4ccc;
const TABLES: [u64; 3] = [
    0xa374_5eb6_8589_f093,
    0x105b_297a_ca2f_eb06,
    0x0462_703d_f5b7_4833,
];
const CHECK: u64 = 0x2203_b5cf_e46d_fbfa;
const NEITHER: &str = "accepted 1\nof these in edition 2 0\nof these with a delay 0\n";

/// What these seeds give of this sort, where the table is of edition 1 and none was drawn with a
/// delay or with fault 24.
fn histories_of_seeds(seeds: RangeInclusive<u64>, sort: &str, ticks: &str) -> Vec<String> {
    let seeds = seeds.filter(|&seed| without_faults_24(seed) && without_delays(seed));
    let texts = seeds.map(|seed| {
        let words = ["generate", "history", &seed.to_string(), sort, ticks];
        program(&words, b"")
    });
    texts.filter(|text| text.starts_with("01")).collect()
}

/// A table in hex, as a line, without bytes 0, 8 and 9.
fn without_edition_and_delay(line: &str) -> String {
    format!("{}{}\n", &line[2..16], &line[20..])
}

/// What seeds give since U6 for tables of edition 1 with timers and, before U7, without fault 24.
#[test]
fn seeds_give_what_they_give_for_timers() {
    let worst = histories_of_seeds(1..=60, "worst", "40").into_iter();
    let timed =
        worst.filter(|text| with_timers_first(&read(&script(text).unwrap().table).unwrap()));
    assert_eq!(digest(timed), TIMED_WORST);
    let seeds = (1..=60).filter(|&seed| checked_without_faults_24(seed));
    let seeds = seeds.filter(|&seed| with_timers_first(&checked_table(seed)));
    let checks = seeds.map(|seed| program(&["check", &seed.to_string(), "1"], b""));
    assert_eq!(digest(checks), TIMED_CHECK);
}

const TIMED_WORST: u64 = 0xc266_92d6_9d16_6dd9;
const TIMED_CHECK: u64 = 0x5fd7_df9f_d8b1_1fd2;

/// What seeds give since U7, damaged tables among it: these have one number more to be refused with.
#[test]
fn seeds_give_what_they_give() {
    let faulty = (1..=30).map(|seed: u64| {
        let words = ["generate", "history", &seed.to_string(), "faulty", "200"];
        program(&words, b"")
    });
    assert_eq!(digest(faulty), FAULTY);
    let tables = program(&["generate", "tables", "1", "300"], b"");
    assert_eq!(digest([tables]), ANY_TABLES);
}

const FAULTY: u64 = 0x6e74_fb06_3a12_addb;
const ANY_TABLES: u64 = 0x641a_af58_7145_76f8;

#[test]
fn histories_of_a_given_table() {
    for (edition, seed, length) in [
        (1, "1", 300),
        (1, "2", 300),
        (1, "3", 20),
        (1, "4", 3),
        (1, "5", 0),
        (1, "6", 400),
        (2, "1", 300),
        (2, "2", 20),
        (2, "3", 0),
        (2, "4", 400),
    ] {
        let bytes = encode(&in_edition(edition, &desk()));
        let ticks = length.to_string();
        for sort in ["within", "worst"] {
            let ended = run(&["generate", "history", seed, sort, &ticks, "-"], &bytes);
            assert_eq!((ended.status, &ended.error[..]), (Some(0), ""));
            let drawn = script(&ended.output).unwrap();
            assert_eq!((&drawn.table, drawn.lines.len()), (&bytes, length));
            assert_eq!(within_curves(&desk(), &plain(&drawn)), Ok(()));
            let judged = run(&["within"], ended.output.as_bytes());
            assert_eq!(judged.status, Some(0));
        }
        for sort in ["outside", "faulty"] {
            let ended = run(&["generate", "history", seed, sort, &ticks, "-"], &bytes);
            assert_eq!((ended.status, &ended.error[..]), (Some(0), ""));
            assert_eq!(script(&ended.output).unwrap().table, bytes);
        }
    }
}

/// A table in a file and on standard input is the same.
#[test]
fn table_in_a_file() {
    let file = std::env::temp_dir().join(format!("sim-{}.table", std::process::id()));
    std::fs::write(&file, encode(&desk())).unwrap();
    let name = file.to_str().unwrap();
    let words = ["generate", "history", "7", "within", "50"];
    let named = run(&[&words[..], &[name]].concat(), b"");
    let given = run(&[&words[..], &["-"]].concat(), &encode(&desk()));
    std::fs::remove_file(&file).unwrap();
    assert_eq!((named.status, named.output), (Some(0), given.output));
    let missing = run(&[&words[..], &[name]].concat(), b"");
    assert_eq!((missing.status, &missing.output[..]), (Some(2), ""));
    assert!(missing.error.starts_with(name) && missing.error.lines().count() == 1);
}

/// A table that the analyser refuses has no history within its curves or near its bounds, but
/// others; one that the reader refuses has none.
#[test]
fn refused_tables() {
    let crowded = encode(&full(vec![subscription(1, &[2])]));
    for (sort, reads_only) in [
        ("within", false),
        ("worst", false),
        ("outside", true),
        ("faulty", true),
    ] {
        let words = ["generate", "history", "1", sort, "9", "-"];
        let ended = run(&words, &crowded);
        if reads_only {
            assert_eq!((ended.status, &ended.error[..]), (Some(0), ""));
        } else {
            assert_eq!(
                (ended.status, &ended.error[..]),
                (Some(1), "refused 15 0\n")
            );
            assert!(ended.output.is_empty());
        }
        let ended = run(&words, &crowded[..47]);
        assert_eq!((ended.status, &ended.error[..]), (Some(1), "refused 4 0\n"));
        assert!(ended.output.is_empty());
    }
}

/// Phases and rests of a table with a long window leave room in a short history.
#[test]
fn short_histories_of_long_windows() {
    assert_eq!(
        [(72, 2_000), (72, 100), (60_000, 100), (5, 3)].map(|(w, n)| span(w, n)),
        [72, 25, 25, 1]
    );
    let table = supplied(
        30_000,
        50_000,
        vec![lone(Kind::Client, 60_000, 60_000, 5, &[900])],
    );
    assert!(analysed(&encode(&table)).unwrap().window > 20_000);
    for seed in 1..=20u64 {
        let words = [
            "generate",
            "history",
            &seed.to_string(),
            "within",
            "200",
            "-",
        ];
        let drawn = script(&run(&words, &encode(&table)).output).unwrap();
        assert!(!plain(&drawn).activations(&table, 1).is_empty());
    }
}

/// The largest part of a bound that a response takes. (parts of bounds up to 60,000 differ by far
/// more than the rounding)
fn nearness(sheet: &Sheet, history: &History) -> f64 {
    let part = |index: usize| {
        let longest = longest_response(&sheet.table, index, history);
        longest as f64 / sheet.bounds[index - 1] as f64
    };
    (1..=sheet.table.count()).map(part).fold(0.0, f64::max)
}

/// All that are tried for a sheet.
fn tried(random: &mut Random, sheet: &Sheet, length: u64) -> Vec<History> {
    let span = span(sheet.window, length);
    let mut drawn = |turn| {
        let style = Style::of_turn(random, &sheet.table, span, turn);
        within(random, &sheet.table, &style, length)
    };
    (0..tries(&sheet.table, length)).map(&mut drawn).collect()
}

/// The worst of the tried histories is the first that comes nearest to a bound. Often that is not
/// the one with the longest response.
#[test]
fn worst_of_all_that_are_tried() {
    let mut longest_elsewhere = 0;
    for seed in 1..=40 {
        let table = table(&mut Random::new(seed), Shape::Small);
        let Ok(sheet) = analysed(&encode(&table)) else {
            continue;
        };
        let mut randoms = [Random::new(seed), Random::new(seed)];
        let chosen = worst(&mut randoms[0], &sheet, 80);
        let tried = tried(&mut randoms[1], &sheet, 80);
        assert_eq!(randoms[0].bits(), randoms[1].bits());
        let nearest = |history: &History| nearness(&sheet, history);
        let most = tried.iter().map(nearest).fold(0.0, f64::max);
        let first = tried.iter().find(|history| nearest(history) == most);
        assert_eq!(Some(&chosen), first);
        let longest = |history: &History| {
            let callbacks = 1..=sheet.table.count();
            callbacks
                .map(|index| longest_response(&sheet.table, index, history))
                .max()
        };
        let longer = tried
            .iter()
            .any(|history| longest(history) > longest(&chosen));
        longest_elsewhere += u64::from(longer);
    }
    assert!(longest_elsewhere > 0);
    for (table, fewest) in [(in_edition(2, &desk()), 6), (delayed(3, &desk()), 7)] {
        assert_eq!(
            [0, 100, 2_500, 10_000, 10_000_000].map(|length| tries(&table, length)),
            [200, 200, 200, 50, fewest]
        );
    }
}

/// The sort needs no table, as the others do not.
#[test]
fn worst_of_a_drawn_table() {
    let drawn = |words: &[&str]| script(&program(words, b"")).unwrap();
    for seed in ["1", "2", "3"] {
        let any = drawn(&["generate", "history", seed, "within", "120"]);
        let near = drawn(&["generate", "history", seed, "worst", "120"]);
        assert_eq!(hex(&any.table), hex(&near.table));
        let sheet = analysed(&near.table).unwrap();
        assert!(nearness(&sheet, &plain(&near)) >= nearness(&sheet, &plain(&any)));
    }
}
