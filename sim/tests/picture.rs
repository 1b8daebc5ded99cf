//! Pictures: whole histories, and parts of them.

mod common;
use common::*;
use sim::history::{play, History};
use sim::machine::Answer;
use sim::picture::{svg, svg_part};
use sim::table::{encode, read, Kind, Table};
use sim::text::{hex, line_text, script, Line};

/// A client of cost 4 that activates a subscription of cost 1.
fn chain_of_two() -> Table {
    let mut callbacks = vec![
        lone(Kind::Client, 20, 0, 20, &[4]),
        follower(Kind::Subscription, &[1]),
    ];
    callbacks[0].next = 2;
    full(callbacks)
}

/// Arrivals at ticks 2 and 22; the first instance runs in ticks 2, 3, 6 and 7, its follower in 8.
fn played() -> History {
    let mut ticks = vec![tick(0, 4); 30];
    ticks[2].mask = 1;
    ticks[22].mask = 1;
    (ticks[4].supplied, ticks[5].supplied) = (false, false);
    ticks[8].cost = 1;
    ticks[26].cost = 1;
    play(&encode(&chain_of_two()), &ticks)
}

fn part(first: usize, last: usize) -> String {
    svg_part(&chain_of_two(), &played(), &[], first..last + 1)
}

/// The elements with all of these words.
fn count(picture: &str, words: &[&str]) -> usize {
    let has = |line: &&str| words.iter().all(|word| line.contains(word));
    picture.lines().filter(has).count()
}

/// What the rows show: run ticks, pauses, completions, arrivals, activations of followers, starts
/// and dues. The legend has signs of its own, which a picture of no ticks shows alone.
fn shown(first: usize, last: usize) -> [usize; 7] {
    let signs = |picture: &str| {
        [
            count(picture, &["<rect", "height=\"16\""]),
            count(picture, &["<rect", "height=\"2\""]),
            count(picture, &["<circle"]),
            count(picture, &["<polygon", "#222222"]),
            count(picture, &["<polygon", "#c0392b"]),
            count(picture, &["<line", "#222222", "stroke-width=\"2\""]),
            count(picture, &["<line", "#2e7d32"]) / 2,
        ]
    };
    let legend = signs(&svg_part(&chain_of_two(), &played(), &[], 0..0));
    let all = signs(&part(first, last));
    std::array::from_fn(|sign| all[sign] - legend[sign])
}

/// Where a number stands on the axis, if it does.
fn on_axis(picture: &str, number: usize) -> Option<usize> {
    let end = format!(" text-anchor=\"middle\">{number}</text>");
    let on_axis = |line: &&str| line.contains("y=\"130\"") && line.ends_with(&end);
    let line = picture.lines().find(on_axis)?;
    line.split('"').nth(1)?.parse().ok()
}

#[test]
fn whole_range_is_the_whole_picture() {
    let history = played();
    let whole = svg(&chain_of_two(), &history, &["a", "b"]);
    let part = svg_part(&chain_of_two(), &history, &["a", "b"], 0..30);
    assert_eq!(whole, part);
}

/// What pictures were before they had parts, before edition 2, before delays, before U5 and before U7,
/// as a digest of those that none of these changes.
#[test]
fn whole_pictures_are_what_they_were() {
    let seeds = (1..=300).filter(|&seed| without_faults_24(seed) && without_delays(seed));
    let histories = seeds.map(|seed: u64| {
        let sort = ["within", "outside"][seed as usize % 2];
        let ticks = [5, 60, 100, 400][seed as usize % 4].to_string();
        let words = ["generate", "history", &seed.to_string(), sort, &ticks];
        program(&words, b"")
    });
    let first = histories.filter(|text| text.starts_with("01"));
    let first =
        first.filter(|text| !with_timers_first(&read(&script(text).unwrap().table).unwrap()));
    let pictures = first.map(|text| program(&["svg", "a", "b"], text.as_bytes()));
    assert_eq!(digest(pictures), PICTURES);
}

const PICTURES: u64 = 0xa350_4451_2235_8439;

/// Histories of tables with timers in which no beat is folded have the pictures of before U6: a digest
/// of those of P6's callbacks and of the chain, in both editions, with and without a delay.
#[test]
fn pictures_without_folded_beats_are_what_they_were() {
    let pair = full(vec![timer(10, &[2]), subscription(20, &[3])]);
    let mut pictures = Vec::new();
    for (table, every) in [(pair, 10), (chain(), 20)] {
        for (edition, delay) in [(1, 0), (2, 0), (1, 3), (2, 3)] {
            let table = in_edition(edition, &delayed(delay, &table));
            let line = |time: usize| match time % every {
                0 => "1 1 2\n",
                1 if table.is_head(2) && time % 20 == 1 => "2 1 3\n",
                7 => "0 0 1\n",
                _ => "0 1 3\n",
            };
            let text = hex(&encode(&table)) + "\n" + &(0..45).map(line).collect::<String>();
            assert!(!program(&["replay"], text.as_bytes()).contains("refused"));
            pictures.push(program(&["svg", "a"], text.as_bytes()));
        }
    }
    assert!(pictures.iter().all(|picture| !picture.contains("folded")));
    assert_eq!(digest(pictures), UNFOLDED);
}

const UNFOLDED: u64 = 0x13c2_f54a_eec3_e9df;

/// A table without timers has the same picture in both editions, but for the words that say which.
#[test]
fn edition_2_is_told() {
    let lines = |edition| -> Vec<String> {
        let table = in_edition(edition, &chain_of_two());
        let history = play(&encode(&table), &played().ticks);
        let picture = svg(&table, &history, &[]);
        picture.lines().map(str::to_string).collect()
    };
    let (first, mut second) = (lines(1), lines(2));
    let told = second.iter().position(|line| line.contains(">edition 2"));
    second.remove(told.expect("a line that tells it"));
    assert_eq!(first, second);
}

/// U2: a table with a delay has the same picture, but for the words that say so and for the bounds.
#[test]
fn delay_is_told() {
    let told = |delay| -> Vec<String> {
        let table = delayed(delay, &chain_of_two());
        let picture = svg(&table, &play(&encode(&table), &played().ticks), &[]);
        let lines = picture.lines().filter(|line| line.contains("late"));
        lines.map(str::to_string).collect()
    };
    let line = |words: &str| format!(r#"<text x="180" y="146" text-anchor="end">{words}</text>"#);
    assert!(told(0).is_empty());
    assert_eq!(told(1), [line("supply late by up to 1 tick")]);
    assert_eq!(told(60_000), [line("supply late by up to 60000 ticks")]);
    let dues = |delay| {
        let table = delayed(delay, &chain_of_two());
        count(&svg(&table, &played(), &[]), &["<line", "#2e7d32"])
    };
    // Arrivals at 2 and 22, and 30 ticks: bounds of 5 and 8 end in them twice, that of 9 once, that
    // of 32 never. Each sign has two lines, and one stands in the legend.
    assert_eq!([0, 3, 4, 23].map(dues), [6, 6, 4, 2]);
}

/// The numbers above the polling points count timers in edition 2, and the line of such a point
/// goes through the rows where a timer alone is taken.
#[test]
fn polls_of_timers() {
    let table = full(vec![timer(20, &[1]), subscription(20, &[1])]);
    let drawn = |edition, mask| {
        let table = in_edition(edition, &table);
        let history = play(&encode(&table), &[tick(mask, 1)]);
        svg(&table, &history, &[])
    };
    let number = |picture: &str, number: &str| {
        count(picture, &["y=\"32\"", "middle", &format!(">{number}<")])
    };
    let through = |picture: &str| count(picture, &["#7f5fa0", "x1=\"190\"", "y2=\"114\""]);
    assert_eq!([1, 3].map(|mask| number(&drawn(2, mask), "1")), [1, 0]);
    assert_eq!([1, 3].map(|mask| number(&drawn(2, mask), "2")), [0, 1]);
    assert_eq!([1, 3].map(|mask| through(&drawn(2, mask))), [1, 1]);
    assert_eq!([1, 3].map(|mask| through(&drawn(1, mask))), [0, 0]);
}

#[test]
fn parts_show_what_falls_in_them() {
    // runs, pauses, completions, arrivals, activations, starts, dues
    assert_eq!(shown(0, 29), [10, 2, 4, 2, 2, 4, 2]);
    assert_eq!(shown(0, 1), [0; 7]);
    assert_eq!(shown(2, 2), [1, 0, 0, 1, 0, 1, 0]);
    assert_eq!(shown(3, 3), [1, 0, 0, 0, 0, 0, 0]);
    assert_eq!(shown(4, 5), [0, 2, 0, 0, 0, 0, 0]);
    assert_eq!(shown(5, 7), [2, 1, 1, 0, 1, 0, 1]);
    assert_eq!(shown(8, 9), [1, 0, 1, 0, 1, 1, 0]);
    assert_eq!(shown(0, 5), [2, 2, 0, 1, 0, 1, 0]);
}

/// U5: the timer of P6, activated at 0, is due at 4, in edition 2 at 5.
#[test]
fn timers_are_due_by_their_own_bound() {
    let pair = full(vec![timer(10, &[2]), subscription(20, &[3])]);
    let due = |edition, last: usize| {
        let table = in_edition(edition, &pair);
        let mut ticks = vec![tick(0, 2); 6];
        ticks[0].mask = 1;
        let history = play(&encode(&table), &ticks);
        let lines = |shown| {
            let picture = svg_part(&table, &history, &[], shown);
            count(&picture, &["<line", "#2e7d32"])
        };
        lines(0..last + 1) > lines(0..0)
    };
    assert_eq!([2, 3, 4].map(|last| due(1, last)), [false, true, true]);
    assert_eq!([2, 3, 4].map(|last| due(2, last)), [false, false, true]);
}

/// A bound falls on the moment at which a tick ends or begins; an arrival in the tick behind the
/// last one does not count.
#[test]
fn moments_at_the_edges() {
    let (_, bounds) = sheet(&chain_of_two()).unwrap();
    let due = 2 + bounds[1] as usize;
    for (first, last, dues) in [
        (0, due - 2, 0),
        (0, due - 1, 1),
        (due, 21, 1),
        (due + 1, 21, 0),
    ] {
        assert_eq!(shown(first, last)[6], dues, "{first} to {last}");
    }
    for (first, last, arrivals) in [(0, 1, 0), (0, 2, 1), (2, 21, 1), (3, 21, 0), (3, 22, 1)] {
        assert_eq!(shown(first, last)[3], arrivals, "{first} to {last}");
    }
}

#[test]
fn axis_has_true_numbers() {
    let picture = part(5, 9);
    let places = [5, 6, 9, 10].map(|number| on_axis(&picture, number));
    assert_eq!(places, [Some(190), Some(214), Some(286), Some(310)]);
    assert_eq!((on_axis(&picture, 4), on_axis(&picture, 11)), (None, None));
    let ticks = vec![tick(0, 1); 2_000];
    let long = play(&encode(&chain_of_two()), &ticks);
    let far = svg_part(&chain_of_two(), &long, &[], 1_203..1_213);
    let places = [1_203, 1_205, 1_210].map(|number| on_axis(&far, number));
    assert_eq!(places, [None, Some(238), Some(358)]);
}

/// An instance that is running at the left edge has no start there, but a pause or its bar, and its
/// number.
#[test]
fn instance_across_the_left_edge() {
    let number = |picture: &str| {
        let line = picture.lines().find(|line| line.ends_with(">1</text>"))?;
        line.split('"').nth(1)?.parse::<usize>().ok()
    };
    let named = |first| number(&part(first, first + 1));
    assert_eq!(named(3), Some(190 + 13));
    assert_eq!(named(5), Some(190 + 24 + 13));
    assert_eq!((named(4), named(9)), (None, None));
}

/// Numbers of up to three digits stand in the middle of a tick, longer ones go on from its left.
#[test]
fn numbers_of_instances() {
    let mut history = played();
    for (instance, at) in [
        (999, r#"x="251" y="76" text-anchor="middle""#),
        (1_000, r#"x="241" y="76" text-anchor="start""#),
    ] {
        history.replies[2].outcome = Ok(Answer::Ran {
            callback: 1,
            instance,
        });
        let picture = svg(&chain_of_two(), &history, &[]);
        assert_eq!(count(&picture, &[at, &format!(">{instance}<")]), 1);
    }
}

#[test]
fn ticks_of_the_program() {
    let ticks = played().ticks;
    let lines = ticks
        .iter()
        .map(|&tick| line_text(&Line::Tick(tick)) + "\n");
    let text = hex(&encode(&chain_of_two())) + "\n# a remark\n" + &lines.collect::<String>();
    let drawn = run(&["svg", "--ticks", "5", "9", "name"], text.as_bytes());
    let expected = svg_part(&chain_of_two(), &played(), &["name"], 5..10);
    assert_eq!((drawn.status, drawn.output), (Some(0), expected));
    let whole = program(&["svg"], text.as_bytes());
    assert_eq!(
        whole,
        program(&["svg", "--ticks", "0", "29"], text.as_bytes())
    );
    for (first, last, error) in [
        ("9", "5", "ticks 9 to 5: the first is above the last\n"),
        ("0", "30", "ticks 0 to 30: the history has 30, from 0 on\n"),
        (
            "30",
            "30",
            "ticks 30 to 30: the history has 30, from 0 on\n",
        ),
    ] {
        let ended = run(&["svg", "--ticks", first, last], text.as_bytes());
        assert_eq!((ended.status, &ended.output[..]), (Some(2), ""));
        assert_eq!(ended.error, error);
    }
}
