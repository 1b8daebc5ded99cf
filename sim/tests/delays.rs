//! A start delay (request U2 of document 02): that the generators reach it, what histories at its
//! limit look like, and that its bounds are met.

mod common;
use common::*;
use sim::frames::{framed, packed_history, readings, replies};
use sim::generate::damage::damaged;
use sim::generate::edges::{base, edges, late};
use sim::generate::histories::{covering, recovery, starved, within, Style};
use sim::generate::states::{sound, spoil};
use sim::generate::tables::{largest_delay, table, Shape};
use sim::generate::worst::worst;
use sim::history::{longest_response, play, within_curves, Departure, History};
use sim::machine::{bit, Tick};
use sim::random::Random;
use sim::sheet::{sheet as analysed, window, Sheet};
use sim::table::{encode, read, Kind, Table};
use sim::text::Line;
use std::process::Command;

/// Z + 2 × (P - Q): the longest time without supply.
fn longest(table: &Table) -> u64 {
    table.delay + 2 * (table.period - table.budget)
}

/// The runs of unsupplied ticks: where each begins, and its length.
fn unsupplied_runs(history: &History) -> Vec<(u64, u64)> {
    let mut runs: Vec<(u64, u64)> = Vec::new();
    let mut before = true;
    for (tick, time) in history.ticks.iter().zip(0..) {
        match (tick.supplied, before) {
            (false, true) => runs.push((time, 1)),
            (false, false) => runs.last_mut().expect("a run").1 += 1,
            (true, _) => {}
        }
        before = tick.supplied;
    }
    runs
}

/// A sheet of a drawn small table with a delay, and a window of at most `most`.
fn late_sheet(random: &mut Random, most: u64) -> Sheet {
    let drawn = (0..1_000).map(|_| table(random, Shape::Small));
    let mut sheets = drawn
        .filter(|table| table.delay > 0)
        .filter_map(|table| analysed(&encode(&table)).ok());
    let sheet = sheets.find(|sheet| sheet.window <= most);
    sheet.expect("a delay and a short window in a thousand tables")
}

/// A generator aside takes no number, gives the same again, and goes neither with the coin nor with
/// the numbers that come next.
#[test]
fn drawn_aside() {
    let (mut random, mut twin) = (Random::new(50), Random::new(50));
    let (mut with_coin, mut with_next) = (0, 0);
    for _ in 0..4_000 {
        let top = random.aside().bits() >> 63 == 1;
        assert_eq!(random.aside().bits(), random.aside().bits());
        with_coin += u64::from(random.coin() == top);
        let next = random.bits();
        assert_eq!(next, twin.bits());
        with_next += u64::from((next & 1 == 1) == top);
    }
    for agreements in [with_coin, with_next] {
        assert!((1_800..2_200).contains(&agreements), "{agreements}");
    }
}

/// Small and long tables have a delay in half of the draws, in each edition; many of these are
/// accepted.
#[test]
fn tables_with_delays() {
    let mut random = Random::new(51);
    for (shape, most) in [(Shape::Small, 100), (Shape::Long, 60_000)] {
        let (mut with, mut taken) = ([[0; 2]; 3], [0; 2]);
        for _ in 0..2_000 {
            let drawn = table(&mut random, shape);
            assert!(drawn.delay <= most);
            let has = usize::from(drawn.delay > 0);
            with[usize::from(drawn.edition)][has] += 1;
            taken[has] += u64::from(analysed(&encode(&drawn)).is_ok());
        }
        for count in [with[1][0], with[1][1], with[2][0], with[2][1]] {
            assert!((400..600).contains(&count), "{shape:?} {with:?}");
        }
        assert!(5 * taken[1] > 3 * taken[0], "{shape:?} {taken:?}");
    }
}

/// Extreme tables have each end of the range, and numbers between.
#[test]
fn extreme_delays() {
    let mut random = Random::new(52);
    let (mut ends, mut between, mut taken) = ([0; 4], 0, 0);
    for _ in 0..2_000 {
        let drawn = table(&mut random, Shape::Extreme);
        match [0, 1, 59_999, 60_000]
            .iter()
            .position(|&end| end == drawn.delay)
        {
            Some(place) => ends[place] += 1,
            None => between += 1,
        }
        taken += u64::from(drawn.delay > 0 && analysed(&encode(&drawn)).is_ok());
    }
    assert!(ends.iter().all(|&count| count > 100), "{ends:?}");
    assert!(between > 100 && taken > 60, "{between} {taken}");
}

/// Some accepted tables have the largest delay with which there is a window, others one less, and
/// some refused ones have one more; among them are such that fill the longest horizon. Small ones
/// have a short horizon there.
#[test]
fn delays_at_the_brink() {
    let mut random = Random::new(53);
    for (shape, draws, horizon) in [
        (Shape::Small, 12_000, 100),
        (Shape::Long, 1_000, 60_000),
        (Shape::Extreme, 2_500, 60_000),
    ] {
        let drawn = (0..draws).map(|_| table(&mut random, shape));
        let drawn = drawn.filter(|table| table.longest_window() <= horizon);
        let (mut beside, mut full) = ([0; 3], 0);
        for table in drawn {
            let largest = largest_delay(&table);
            assert!(window(&delayed(largest + 1, &table)).is_none());
            assert!(largest == 0 || window(&delayed(largest, &table)).is_some());
            if largest > 2 && (largest - 1..=largest + 1).contains(&table.delay) {
                beside[(table.delay + 1 - largest) as usize] += 1;
                full += u64::from(window(&table).is_some_and(|window| window > 59_900));
            }
        }
        assert!(
            beside.iter().all(|&count| count > 8),
            "{shape:?} {beside:?}"
        );
        assert_eq!(full > 20, horizon == 60_000, "{shape:?} {full}");
    }
}

/// Damaged tables are refused with 22 now and then, and have delays in range too.
#[test]
fn damaged_tables_with_delays() {
    let mut random = Random::new(54);
    let (mut refused, mut taken) = (0, 0);
    for _ in 0..4_000 {
        match read(&damaged(&mut random)) {
            Ok(table) => taken += u64::from(table.delay > 0),
            Err(refusal) => refused += u64::from(refusal.number == 22),
        }
    }
    assert!(refused > 30 && taken > 80, "{refused} {taken}");
}

/// Spoilt states have delays above 60,000, which the machine refuses with 29, and 60,000, which it
/// does not look at.
#[test]
fn spoilt_states_with_delays() {
    let mut random = Random::new(55);
    let mut seen = [0; 2];
    for _ in 0..20_000 {
        let table = table(&mut random, Shape::Small);
        let mut state = sound(&mut random, &table);
        spoil(&mut random, &table, &mut state);
        for (place, delays) in [&[60_000][..], &[60_001, 65_535]].iter().enumerate() {
            if delays
                .iter()
                .any(|&z| state.table == encode(&delayed(z, &table)))
            {
                seen[place] += 1;
                let outcome = state.clone().tick(unsupplied(0, 1)).reply.outcome;
                let number = outcome.err().map_or(0, |refusal| refusal.number);
                assert_eq!(number == 29, place == 1, "{state:?}");
            }
        }
    }
    assert!(seen[0] > 30 && seen[1] > 100, "{seen:?}");
}

/// The table of the edges with these words written, and its twin of edition 2; both are among the
/// edges. The readings of the two.
fn readings_at(words: &[(usize, u16)]) -> String {
    let mut bytes = encode(&base(1));
    for &(at, value) in words {
        bytes[at..at + 2].copy_from_slice(&value.to_le_bytes());
    }
    let twin = [&[2], &bytes[1..]].concat();
    let edges = edges();
    assert!(edges.contains(&bytes) && edges.contains(&twin), "{words:?}");
    readings(&[framed(&bytes), framed(&twin)].concat())
}

fn both(line: &str) -> String {
    format!("{line}\n{line}\n")
}

/// The readings at the edges: both ends of Z, and its bytes.
#[test]
fn edges_of_the_delay() {
    for value in [0, 1, 2, 255, 59_904, 59_999, 60_000, 24_810, 25_066] {
        assert_eq!(readings_at(&[(8, value)]), both("0 0"), "{value}");
    }
    for value in [60_001, 60_160, 65_280, 65_534, 65_535] {
        assert_eq!(readings_at(&[(8, value)]), both("22 0"), "{value}");
    }
    let bytes = encode(&base(1));
    let spares = (0..16).filter(|&at| {
        let mut other = bytes.clone();
        other[at] ^= 1;
        edges().contains(&other) && readings(&framed(&other)) == "5 0\n"
    });
    assert!(spares.eq(10..16));
}

/// The readings at the edges: 22 behind 5 and 6, before 7 and 8.
#[test]
fn edges_beside_22() {
    let (spare, budget, horizon, kind) = ((10, 1), (2, 0), (6, 60_001), (16, 0));
    for (faults, with_22, without) in [
        (&[kind][..], "22 0", "8 1"),
        (&[horizon, kind], "22 0", "7 0"),
        (&[horizon], "22 0", "7 0"),
        (&[budget, horizon], "6 0", "6 0"),
        (&[budget], "6 0", "6 0"),
        (&[spare], "5 0", "5 0"),
        (&[spare, budget, horizon, kind], "5 0", "5 0"),
    ] {
        let with = |z: u16| readings_at(&[&[(8, z)], faults].concat());
        assert_eq!(with(60_001), both(with_22), "{faults:?}");
        assert_eq!(with(60_000), both(without), "{faults:?}");
    }
}

/// A greedy history begins with the longest starvation; one tick more is outside the curves.
#[test]
fn longest_starvation() {
    let mut random = Random::new(56);
    for _ in 0..200 {
        let sheet = late_sheet(&mut random, 300);
        let (table, run) = (&sheet.table, longest(&sheet.table));
        let history = within(&mut random, table, &Style::greedy(table), 3 * sheet.window);
        assert_eq!(within_curves(table, &history), Ok(()));
        let runs = unsupplied_runs(&history);
        assert_eq!(runs[0], (0, run));
        assert!(runs.iter().all(|&(_, length)| length <= run));
        let mut ticks = history.ticks[..=run as usize].to_vec();
        ticks[run as usize].supplied = false;
        let length = run as usize + 1;
        assert_eq!(
            within_curves(table, &play(&encode(table), &ticks)),
            Err(Departure::Supply { from: 0, length })
        );
    }
}

/// The time of the first arrival.
fn first_arrival(history: &History) -> u64 {
    let mut times = history.ticks.iter().zip(0..);
    let first = times.find(|(tick, _)| tick.mask != 0);
    first.expect("an arrival").1
}

/// The heads as a mask.
fn all_heads(table: &Table) -> u16 {
    let heads = (1..=table.count()).filter(|&i| table.is_head(i));
    heads.fold(0, |mask, i| mask | bit(i))
}

/// The starving style: idle in full supply, then the heads in a tick or two, and the longest
/// starvation from the tick before on, from their tick or from the next one. After a whole rest all
/// heads are there again at once, and the starvation is as long again.
#[test]
fn starvation_at_the_worst_moment() {
    let mut random = Random::new(57);
    let (mut begun, mut again, mut rested, mut whole) = ([0; 3], 0, 0, 0);
    for _ in 0..300 {
        let sheet = late_sheet(&mut random, 200);
        let (table, run) = (&sheet.table, longest(&sheet.table));
        let style = Style::starving(&mut random, table, sheet.window);
        let cycle = style.busy + style.quiet;
        let history = within(&mut random, table, &style, style.lead + 2 * cycle);
        assert_eq!(within_curves(table, &history), Ok(()));
        let runs = unsupplied_runs(&history);
        let first = first_arrival(&history);
        assert!(first >= 1 && [style.lead, style.lead + 1].contains(&first));
        assert_eq!(runs[0], (style.starve_from, run));
        begun[(style.starve_from + 1 - style.lead) as usize] += 1;
        rested += u64::from(2 * style.lead > sheet.window);
        whole += u64::from(style.quiet == recovery(table));
        if style.quiet >= recovery(table) && table.budget < table.period {
            assert!(runs.contains(&(style.starve_from + cycle, run)));
            let mask = history.ticks[(style.lead + cycle) as usize].mask;
            assert_eq!(mask, all_heads(table));
            again += 1;
        }
    }
    assert!(begun.iter().all(|&count| count > 60), "{begun:?}");
    assert!(
        again > 60 && rested > 100 && whole > 100,
        "{again} {rested} {whole}"
    );
}

/// In half of the starving histories all heads arrive in one tick, in the others in two.
#[test]
fn heads_together_or_apart() {
    let mut random = Random::new(61);
    let (mut together, mut apart) = (0, 0);
    for _ in 0..400 {
        let sheet = late_sheet(&mut random, 200);
        let heads = all_heads(&sheet.table);
        if heads.count_ones() >= 3 {
            let style = Style::starving(&mut random, &sheet.table, sheet.window);
            let history = within(&mut random, &sheet.table, &style, style.lead + 2);
            match history.ticks[first_arrival(&history) as usize].mask == heads {
                true => together += 1,
                false => apart += 1,
            }
        }
    }
    assert!(apart > 20 && together > apart, "{together} {apart}");
}

/// The rest that gives the longest starvation back is as long as it must be.
#[test]
fn recovery_is_just_long_enough() {
    // Q = 2, P = 5: starvations of 12 and 13 ticks are made good by four and by five gaps of 3.
    for (delay, rest) in [(6, 8), (7, 10)] {
        let table = delayed(delay, &supplied(2, 5, vec![subscription(5, &[1])]));
        assert_eq!(recovery(&table), rest);
        assert_eq!(starved_twice(&table, rest), Ok(()));
        assert!(starved_twice(&table, rest - 1).is_err());
    }
    // In full supply a spent delay does not come back.
    assert_eq!(recovery(&delayed(7, &full(vec![subscription(5, &[1])]))), 5);
    // A burst takes J + T.
    let burst = lone(Kind::Client, 30, 50, 3, &[1]);
    assert_eq!(recovery(&delayed(7, &supplied(2, 5, vec![burst]))), 80);
}

/// Whether the longest starvation is within the curves twice, with a rest in full supply between.
fn starved_twice(table: &Table, rest: u64) -> Result<(), Departure> {
    let run = longest(table);
    let runs = [(run, false), (rest, true), (run, false)];
    let ticks = runs.iter().flat_map(|&(count, supplied)| {
        let tick = Tick {
            supplied,
            ..tick(0, 1)
        };
        vec![tick; count as usize]
    });
    within_curves(table, &play(&encode(table), &ticks.collect::<Vec<_>>()))
}

/// Every bound of a lone callback with one entry is met by the greedy history, and `worst` meets
/// those of many other tables, with and without idle ticks before.
#[test]
fn bounds_are_met() {
    let mut random = Random::new(58);
    let (mut met, mut many) = (0, 0);
    for _ in 0..60 {
        let sheet = late_sheet(&mut random, 120);
        let history = worst(&mut random, &sheet, 4 * sheet.window);
        assert_eq!(within_curves(&sheet.table, &history), Ok(()));
        let reached = |index: usize| {
            longest_response(&sheet.table, index, &history) == sheet.bounds[index - 1]
        };
        if (1..=sheet.table.count()).any(reached) {
            met += 1;
            many += u64::from(sheet.table.count() > 1);
        }
    }
    assert!(met > 25 && many > 10, "{met} {many}");
}

/// The starving style alone meets bounds, each in the middle of a history.
#[test]
fn starving_meets_bounds() {
    let mut random = Random::new(59);
    let mut met = 0;
    for _ in 0..100 {
        let sheet = late_sheet(&mut random, 120);
        let style = Style::starving(&mut random, &sheet.table, sheet.window);
        let length = style.lead + 2 * sheet.window;
        let history = within(&mut random, &sheet.table, &style, length);
        met += u64::from((1..=sheet.table.count()).any(|index| {
            longest_response(&sheet.table, index, &history) == sheet.bounds[index - 1]
        }));
    }
    assert!(met > 25, "{met}");
}

/// A long table, at its brink: the bound of 60,000 less what came before is met.
#[test]
fn long_delays_are_met() {
    let table = delayed(
        40_000,
        &supplied(30, 50, vec![subscription(60_000, &[9_000])]),
    );
    let sheet = analysed(&encode(&table)).unwrap();
    // 300 budgets, the last one whole: 40,000 + 2 × 20 + 299 × 50 + 30.
    assert_eq!((sheet.window, &sheet.bounds[..]), (55_020, &[55_020][..]));
    let history = within(&mut Random::new(60), &table, &Style::greedy(&table), 55_020);
    assert_eq!(within_curves(&table, &history), Ok(()));
    assert_eq!(longest_response(&table, 1, &history), 55_020);
    assert_eq!(unsupplied_runs(&history)[0], (0, 40_040));
}

/// `sim generate histories` has the starved history behind those of both editions. It is within the curves; one unsupplied
/// tick more, before, within or behind the starvation, is not; the follower completes at its bound.
#[test]
fn packed_history_with_a_delay() {
    let mut command = Command::new(env!("CARGO_BIN_EXE_sim"));
    let packed = command.args(["generate", "histories"]).output().unwrap();
    let covered = |edition| packed_history(&encode(&base(edition)), &covering(edition)).len();
    let third = packed_history(&encode(&late()), &starved());
    assert!(packed.stdout[covered(1) + covered(2)..].starts_with(&third) && starved().len() <= 60);
    let ticks: Vec<Tick> = starved().into_iter().map(|(tick, _)| tick).collect();
    let history = play(&encode(&late()), &ticks);
    assert_eq!(within_curves(&late(), &history), Ok(()));
    assert_eq!(sheet(&late()), Ok((27, vec![27; 4])));
    assert_eq!(longest_response(&late(), 2, &history), 27);
    assert_eq!(unsupplied_runs(&history)[0], (4, longest(&late())));
    for place in [3, 15] {
        let mut short = ticks.clone();
        short[place].supplied = false;
        let departure = within_curves(&late(), &play(&encode(&late()), &short)).err();
        assert!(matches!(departure, Some(Departure::Supply { .. })));
    }
}

/// The replies of that history to its supplied ticks, reckoned by hand from the steps and U1.
#[test]
fn replies_of_the_starved_history() {
    let text = replies(&packed_history(&encode(&late()), &starved()));
    let nothing = |line: &&str| line.ends_with(" 1 0 0 0 0 0 0");
    let (silent, said): (Vec<&str>, Vec<&str>) = text.lines().partition(nothing);
    assert_eq!(silent.len(), 11 + 4 * 2);
    let expected = [
        "0 2 0 0 0 1 0 0",
        "1 2 0 0 0 1 0 0",
        "2 2 0 0 0 1 0 0",
        "3 2 0 0 0 1 0 0",
        "15 3 1 1 1 1 3 0",
        "16 4 1 1 0 0 0 0",
        "17 4 4 1 1 0 0 0",
        "20 3 3 1 1 0 0 0",
        "21 3 3 1 0 0 0 0",
        "22 3 3 1 0 0 0 0",
        "25 4 3 1 0 0 0 0",
        "26 3 2 1 1 1 1 0",
        "27 3 2 1 0 0 0 0",
        "30 4 2 1 0 0 0 0",
        "31 2 0 0 0 1 0 0",
        "32 2 0 0 0 1 0 0",
    ];
    assert_eq!(said, expected);
}

/// `sim within` and `sim check` go by the delayed curve.
#[test]
fn program_with_delays() {
    let table = delayed(3, &supplied(1, 2, vec![subscription(30, &[2])]));
    let text = |starved: usize| {
        let bytes = sim::text::hex(&encode(&table));
        format!(
            "{bytes}\n1 0 1\n{}0 1 2\n0 0 1\n0 1 1\n",
            "0 0 1\n".repeat(starved - 1)
        )
    };
    assert_eq!(program(&["within"], text(5).as_bytes()), "within\n1 8 8\n");
    let outside = "outside supply from 0 ticks 6\n1 8 9\n";
    assert_eq!(program(&["within"], text(6).as_bytes()), outside);
}

/// The sheet that `sim check` tries for this seed, if there is one.
fn checked_sheet(seed: u64) -> Option<Sheet> {
    analysed(&encode(&checked_table(seed))).ok()
}

/// `sim check` counts the accepted tables with a delay, and tries two histories more on each, which
/// are longer by a rest. On tables of edition 1 it tries two more where they have a timer, and one
/// for each timer from the third on.
#[test]
fn check_counts_delays() {
    let sheets: Vec<Sheet> = (1..=60).filter_map(checked_sheet).collect();
    let late = sheets.iter().filter(|sheet| sheet.table.delay > 0);
    let (mut histories, mut ticks) = (0, 0);
    for Sheet { table, window, .. } in &sheets {
        let (late, rest) = match table.delay {
            0 => (0, 0),
            _ => (2, recovery(table)),
        };
        let blocking = match timers_first(table) {
            0 => 0,
            timers => timers.max(2),
        };
        let tried = 9 + late + blocking;
        histories += tried;
        ticks += tried * (8 * window + 20 + rest).min(300);
    }
    let text = program(&["check", "1", "60", "300"], b"");
    for line in [
        format!("accepted {}", sheets.len()),
        format!("of these with a delay {}", late.clone().count()),
        format!("histories {histories}"),
        format!("ticks {ticks}"),
        "violations 0".to_string(),
    ] {
        assert!(text.lines().any(|said| said == line), "{line}\n{text}");
    }
    assert!(late.clone().count() > 12 && late.clone().any(|sheet| sheet.table.delay == 1));
}

/// Drawn tables with a delay have phases and rests that fit into short histories, so that most have
/// arrivals.
#[test]
fn short_histories_with_delays() {
    let (mut late, mut silent) = (0, 0);
    for seed in (1..=120u64).filter(|&seed| !without_delays(seed)) {
        let words = ["generate", "history", &seed.to_string(), "within", "24"];
        let script = sim::text::script(&program(&words, b"")).unwrap();
        let arrives = |line: &Line| matches!(line, Line::Tick(tick) if tick.mask != 0);
        late += 1;
        silent += u64::from(!script.lines.iter().any(arrives));
    }
    assert!(late > 30 && silent < 4, "{late} {silent}");
}
