//! Cost curves that cannot be (request U7 of document 02): the program that lowers their entries, its
//! refusals, and what becomes of windows, bounds and histories.

mod common;
use common::*;
use sim::frames::{cut_readings, framed, normalisings};
use sim::generate::curves::{any_old_table, at_least_pairs, bend_some, old_table, LEAST_PAIRS};
use sim::generate::damage::{damaged, refused_with};
use sim::generate::histories::{outside, within, Style};
use sim::generate::normal_edges::normal_edges;
use sim::generate::tables::{any_shape, table, table_before_24, Shape};
use sim::history::{conclusions, play, within_curves};
use sim::machine::start;
use sim::normalise::{normal_entries, normal_table, normalise, splits};
use sim::random::Random;
use sim::sheet::{
    analyse, analyse_before_24, bound_literal, cost, first_bounds, own_window, second_bounds,
    sheet as analysed, sheet_before_24, window_literal,
};
use sim::table::{encode, exceeds_two, read, read_before_24, Kind, Refusal, Table};
use sim::text::{hex, hex_rows};
use std::collections::BTreeSet;
use std::io::Write;
use std::process::{Command, Output, Stdio};

/// A lone timer with these entries.
fn of(entries: &[u64]) -> Table {
    full(vec![timer(50_000, entries)])
}

/// The bytes of a table after the program.
fn normal(table: &Table) -> Vec<u8> {
    normalise(&encode(table)).unwrap()
}

#[test]
fn entries_3_and_9() {
    assert_eq!(normal_entries(&[3, 9]), [3, 6]);
    let mut bytes = encode(&of(&[3, 9]));
    assert_eq!(read(&bytes), Err(refusal(24, 1)));
    assert_eq!(bytes[28..32], [3, 0, 9, 0]);
    bytes[30] = 6;
    assert_eq!(normal(&of(&[3, 9])), bytes);
    assert_eq!(read(&bytes), Ok(of(&[3, 6])));
}

/// Sums of one part to eight, reckoned by hand.
#[test]
fn entries_by_hand() {
    let cases: [(&[u64], &[u64]); 14] = [
        (&[7], &[7]),
        (&[3, 4], &[3, 4]),
        (&[3, 6, 9], &[3, 6, 9]),
        // Three parts: thrice the first, and with the second.
        (&[1, 5, 20], &[1, 2, 3]),
        (&[2, 3, 20, 30, 40], &[2, 3, 5, 6, 8]),
        // 3 + 3 + 1 or 3 + 2 + 2, and 3 + 3 + 2.
        (
            &[5, 6, 7, 50, 60, 70, 80, 90],
            &[5, 6, 7, 12, 13, 14, 19, 20],
        ),
        // Four times the second.
        (
            &[10, 11, 100, 200, 300, 400, 500, 600],
            &[10, 11, 21, 22, 32, 33, 43, 44],
        ),
        // Eight parts.
        (&[1, 4, 9, 16, 25, 36, 49, 64], &[1, 2, 3, 4, 5, 6, 7, 8]),
        // The whole is the least again behind an entry that is lowered.
        (&[10, 25, 26, 27, 28], &[10, 20, 26, 27, 28]),
        // No two entries are less than the third, but what one of them becomes.
        (&[1, 3, 4], &[1, 2, 3]),
        (&[2, 5, 6, 8], &[2, 4, 6, 8]),
        // The second twice, and not the first with the third.
        (&[5, 6, 11, 13], &[5, 6, 11, 12]),
        (&[29_999, 60_000], &[29_999, 59_998]),
        (&[1, 60_000], &[1, 2]),
    ];
    for (old, new) in cases {
        assert_eq!(normal_entries(old), new);
        assert_eq!(normal(&of(old)), encode(&of(new)));
        assert_eq!(exceeds_two(old), old != new);
    }
}

/// Every way to write a number as a row of parts, from the first part on.
fn rows(number: usize) -> Vec<Vec<usize>> {
    let mut all = Vec::new();
    for first in 1..number {
        let behind = rows(number - first);
        all.extend(behind.iter().map(|rest| [&[first], &rest[..]].concat()));
    }
    all.push(vec![number]);
    all
}

#[test]
fn all_splits() {
    for position in 1..=8 {
        let splits = splits(position);
        let distinct: BTreeSet<Vec<usize>> = splits.iter().cloned().collect();
        assert_eq!(
            (splits.len(), distinct.len()),
            (1 << (position - 1), splits.len())
        );
        assert_eq!(distinct, rows(position).into_iter().collect());
        assert!(distinct.contains(&vec![position]));
        assert!(splits
            .iter()
            .all(|parts| parts.iter().sum::<usize>() == position));
    }
}

/// Another way to the new entries: from the first on, each is the least of the old one and the new
/// ones before it, two at a time.
fn two_at_a_time(entries: &[u64]) -> Vec<u64> {
    let mut new: Vec<u64> = Vec::new();
    for &entry in entries {
        let pairs = new.iter().zip(new.iter().rev());
        let least = pairs.map(|(one, other)| one + other).min();
        new.push(least.map_or(entry, |sum| sum.min(entry)));
    }
    new
}

/// All strictly rising lists of up to four entries, up to 12.
fn small_curves(largest: u64, most: usize) -> Vec<Vec<u64>> {
    let mut all: Vec<Vec<u64>> = vec![Vec::new()];
    let mut from = 0;
    for _ in 0..most {
        let longer: Vec<Vec<u64>> = all[from..]
            .iter()
            .flat_map(|list| {
                let next = list.last().map_or(1, |last| last + 1);
                (next..=largest).map(|entry| [&list[..], &[entry]].concat())
            })
            .collect();
        from = all.len();
        all.extend(longer);
    }
    all.split_off(1)
}

/// What holds of every list of entries.
fn holds(old: &[u64]) {
    let new = normal_entries(old);
    assert_eq!(new, two_at_a_time(old));
    assert!(new[0] == old[0] && new.windows(2).all(|pair| pair[0] < pair[1]));
    assert!(!exceeds_two(&new));
    assert_eq!(read(&encode(&of(&new))), Ok(of(&new)));
    assert_eq!(normal_entries(&new), new);
    assert_eq!(exceeds_two(old), new != old, "{old:?}");
    for instances in 0..=60 {
        assert!(cost(&new, instances) <= cost(old, instances));
    }
}

#[test]
fn all_small_curves() {
    let curves = small_curves(12, 4);
    assert_eq!(curves.len(), 12 + 66 + 220 + 495);
    for old in &curves {
        holds(old);
        let outcome = if exceeds_two(old) {
            Err(refusal(24, 1))
        } else {
            Ok(of(old))
        };
        assert_eq!(read(&encode(&of(old))), outcome);
    }
    let faulty = curves.iter().filter(|old| exceeds_two(old)).count();
    assert!(faulty > 200 && faulty < 600, "{faulty}");
}

/// Longer lists, drawn: from small numbers to the largest.
#[test]
fn drawn_curves() {
    let mut random = Random::new(201);
    let mut faulty = 0;
    for _ in 0..4_000 {
        let used = random.range(1, 8) as usize;
        let most = *random.pick(&[8, 20, 100, 2_000, 60_000]);
        let mut entries = BTreeSet::new();
        while entries.len() < used {
            entries.insert(random.range(1, most));
        }
        let entries: Vec<u64> = entries.into_iter().collect();
        holds(&entries);
        faulty += u64::from(exceeds_two(&entries));
    }
    assert!(faulty > 800 && faulty < 3_900, "{faulty}");
}

/// Whether any run of these costs comes to no more than its E.
fn permits(entries: &[u64], costs: &[u64]) -> bool {
    (0..costs.len()).all(|from| {
        let ends = from + 1..=costs.len();
        ends.into_iter()
            .all(|to| costs[from..to].iter().sum::<u64>() <= cost(entries, (to - from) as u64))
    })
}

/// Compares the two curves on all rows of costs up to `most` long that begin with these and are within
/// the old one; how many there are. A row that it does not permit has none behind it that it does.
fn compare(old: &[u64], new: &[u64], costs: &mut Vec<u64>, most: usize) -> u64 {
    let mut seen = 0;
    for next in 1..=old[0] + 1 {
        costs.push(next);
        let permitted = permits(old, costs);
        assert_eq!(permits(new, costs), permitted, "{old:?} {costs:?}");
        if permitted {
            seen += 1;
            if costs.len() < most {
                seen += compare(old, new, costs, most);
            }
        }
        costs.pop();
    }
    seen
}

/// U7, "within the old curve is within the new one": the two permit the same rows of costs. Short rows
/// of the curves above, and longer ones of smaller curves.
#[test]
fn same_costs_within() {
    let mut seen = 0;
    for (largest, most, length) in [(12, 4, 6), (8, 4, 8), (4, 4, 12)] {
        for old in small_curves(largest, most) {
            let new = normal_entries(&old);
            if new != old {
                seen += compare(&old, &new, &mut Vec::new(), length);
            }
        }
    }
    assert!(seen > 100_000, "{seen}");
}

/// What U7 leaves: behind the last entry a curve can be above what its parts come to. No entry stands
/// there that could be refused or replaced.
#[test]
fn behind_the_last_entry() {
    let entries = [5, 6, 11];
    assert!(!exceeds_two(&entries));
    assert_eq!(normal_entries(&entries), entries);
    assert_eq!((cost(&entries, 4), 2 * cost(&entries, 2)), (16, 12));
}

/// Each two positions have a list of which just they have the least sum.
#[test]
fn least_pairs() {
    let mut pairs = BTreeSet::new();
    for (first, position, before) in LEAST_PAIRS {
        assert!(pairs.insert((first, position)) && !exceeds_two(before));
        assert!(before.windows(2).all(|pair| pair[0] < pair[1]));
        let sum = |one: usize| before[one - 1] + before[position - one - 1];
        let others = (1..=position / 2).filter(|&one| one != first);
        assert!(others.into_iter().all(|one| sum(one) > sum(first)));
    }
    let all = (2..=8).flat_map(|position| (1..=position / 2).map(move |one| (one, position)));
    assert_eq!(pairs, all.collect());
    for (at, above) in at_least_pairs(0).into_iter().zip(at_least_pairs(1)) {
        assert!(!exceeds_two(&at) && exceeds_two(&above));
        assert_eq!(normal_entries(&above), at);
    }
}

/// The bytes of the used entries.
fn places_of_entries(table: &Table) -> BTreeSet<usize> {
    let records = table.callbacks.iter().enumerate();
    let bytes = |(place, used): (usize, usize)| {
        let first = 16 + 32 * place + 12;
        first..first + 2 * used
    };
    records
        .flat_map(|(place, callback)| bytes((place, callback.entries.len())))
        .collect()
}

/// U7 over drawn tables: other bytes stay, the reader takes the new table, a second run changes
/// nothing, and neither does a first one where no record has the fault.
#[test]
fn drawn_tables() {
    let mut random = Random::new(202);
    let mut counts = [0; 3];
    for _ in 0..3_000 {
        let old = any_old_table(&mut random);
        let bytes = encode(&old);
        let faulty: Vec<bool> = old
            .callbacks
            .iter()
            .map(|c| exceeds_two(&c.entries))
            .collect();
        let new = normalise(&bytes).unwrap();
        let entries = places_of_entries(&old);
        assert_eq!(new.len(), bytes.len());
        assert!((0..new.len()).all(|at| new[at] == bytes[at] || entries.contains(&at)));
        assert_eq!(read(&new), Ok(normal_table(&old)));
        assert_eq!(normalise(&new), Ok(new.clone()));
        // Just the records with the fault change; the first of them is told by the reader.
        let changed = |place: usize| {
            let record = 16 + 32 * place..48 + 32 * place;
            new[record.clone()] != bytes[record]
        };
        assert!(faulty
            .iter()
            .enumerate()
            .all(|(place, &fault)| changed(place) == fault));
        let outcome = match faulty.iter().position(|&fault| fault) {
            Some(place) => Err(refusal(24, place as u8 + 1)),
            None => Ok(old.clone()),
        };
        assert_eq!(read(&bytes), outcome);
        assert_eq!(read_before_24(&bytes), Ok(old));
        let sort = match faulty.iter().filter(|&&fault| fault).count() {
            0 => 0,
            some if some < faulty.len() => 1,
            _ => 2,
        };
        counts[sort] += 1;
    }
    assert!(counts.iter().all(|&count| count > 300), "{counts:?}");
}

/// What the program refuses is what the reader of before refuses, and never with 24.
#[test]
fn refusals_of_before() {
    let mut random = Random::new(203);
    let mut hidden = 0;
    for _ in 0..6_000 {
        let bytes = damaged(&mut random);
        let result = normalise(&bytes);
        assert_eq!(result.as_ref().err(), read_before_24(&bytes).as_ref().err());
        match (result, read(&bytes)) {
            (Ok(new), Ok(_)) => assert_eq!(new, bytes),
            (Ok(new), Err(now)) => assert!(now.number == 24 && new != bytes),
            (Err(_), Ok(_)) => panic!("refused, but read"),
            (Err(before), Err(now)) => {
                assert!(before.number != 24 && (now.number == 24 || now == before));
                hidden += u64::from(now.number == 24);
            }
        }
    }
    assert!(hidden > 100, "{hidden}");
    for number in (1..=14).chain([22]) {
        for _ in 0..30 {
            let bytes = refused_with(&mut random, number);
            assert_eq!(normalise(&bytes).unwrap_err().number, number);
        }
    }
}

/// The rows behind 24, from the last to the first, beside it: the program tells of each, the reader of
/// those before it alone.
#[test]
fn refusals_in_their_order() {
    let mut chained = chain();
    chained.callbacks[0].entries = vec![1, 3];
    chained.callbacks.push(timer(20, &[2, 5]));
    let mut bytes = encode(&chained);
    let mut write = |at: usize, value: u8| {
        bytes[at] = value;
        let refused = |refusal: Refusal| (refusal.number, refusal.index);
        [normalise(&bytes).err(), read(&bytes).err()].map(|refusal| refusal.map(refused))
    };
    let record = |index: usize| 16 + 32 * (index - 1);
    assert_eq!(write(record(1) + 6, 0), [None, Some((24, 1))]);
    assert_eq!(write(record(1) + 8, 0), [Some((14, 1)), Some((24, 1))]);
    assert_eq!(write(record(3) + 1, 4), [Some((12, 4)), Some((24, 1))]);
    assert_eq!(write(record(4) + 1, 3), [Some((11, 3)), Some((24, 1))]);
    // An entry beyond m, and a spare byte.
    assert_eq!(write(record(4) + 16, 9), [Some((5, 4)), Some((24, 1))]);
    assert_eq!(write(record(3) + 3, 9), [Some((5, 3)), Some((24, 1))]);
    assert_eq!(write(record(2) + 2, 2), [Some((10, 2)), Some((24, 1))]);
    assert_eq!(write(record(1) + 31, 1), [Some((5, 1)), Some((24, 1))]);
    assert_eq!(write(record(1) + 2, 3), [Some((10, 1)); 2]);
    assert_eq!(write(record(1) + 1, 9), [Some((9, 1)); 2]);
    assert_eq!(write(record(1), 9), [Some((8, 1)); 2]);
    assert_eq!(write(7, 255), [Some((7, 0)); 2]);
    assert_eq!(write(9, 255), [Some((22, 0)); 2]);
    assert_eq!(write(2, 0), [Some((6, 0)); 2]);
    assert_eq!(write(10, 1), [Some((5, 0)); 2]);
    assert_eq!(write(1, 5), [Some((4, 0)); 2]);
    assert_eq!(write(1, 0), [Some((3, 0)); 2]);
    assert_eq!(write(0, 3), [Some((2, 0)); 2]);
    for length in 0..16 {
        assert_eq!(normalise(&bytes[..length]), Err(refusal(1, 0)));
    }
}

/// Start, tick and analyser give 24 as the reader does; a state with such a table has fault 29.
#[test]
fn machine_and_analyser() {
    let mut table = chain();
    table.callbacks[2].entries = vec![3, 9];
    let bytes = encode(&table);
    let begun = start(&bytes);
    assert_eq!(begun.refusal, Some(refusal(24, 3)));
    assert_eq!(begun.state, start(&[]).state);
    let reply = begun.state.tick(tick(0, 1)).reply;
    assert_eq!(reply.outcome, Err(refusal(29, 0)));
    let mut row = [7; 16];
    assert_eq!(analyse(&bytes, &mut row), Err(refusal(24, 3)));
    assert_eq!(analyse(&bytes, &mut row[..15]), Err(refusal(17, 0)));
    assert_eq!(row, [7; 16]);
    let sound = start(&normalise(&bytes).unwrap());
    assert_eq!(sound.refusal, None);
    let mut state = sound.state;
    assert!(state.clone().tick(tick(1, 1)).reply.outcome.is_ok());
    state.table = bytes;
    let step = state.clone().tick(tick(1, 1));
    assert_eq!(step.reply.outcome, Err(refusal(29, 0)));
    assert_eq!((step.state, step.reply.started), (state, false));
}

/// P2's arrivals in full supply with entries 3 and 9, by hand. E at 1 to 3 is 3, 9 and 12, then 3, 6
/// and 9. So W is 12, then 9. At offsets 0, 2 and 5 the responses are 3, 7 and 7, then 3, 4 and 4.
#[test]
fn bound_by_hand() {
    let table = full(vec![lone(Kind::Subscription, 10, 15, 2, &[3, 9])]);
    let before = sheet_before_24(&encode(&table)).unwrap();
    assert_eq!((before.window, before.bounds), (12, vec![7]));
    let after = analysed(&normal(&table)).unwrap();
    assert_eq!((after.window, after.bounds), (9, vec![4]));
    assert_eq!(analysed(&encode(&table)), Err(refusal(24, 1)));
}

/// Each of these no more than the one before.
fn none_grows(before: &[u64], after: &[u64]) -> bool {
    before.len() == after.len() && before.iter().zip(after).all(|(b, a)| a <= b)
}

/// U7, "no bound grows", over drawn tables that the analyser took before: it takes the new one, and
/// the window, the bounds of the row, those of before U5 and U5's own windows and bounds are no longer.
/// Often they are shorter. Some tables that it refused with 15 or 16 it takes now.
#[test]
fn no_window_or_bound_grows() {
    let mut random = Random::new(204);
    let (mut same, mut less, mut timers, mut gained) = (0, 0, 0, 0);
    for _ in 0..4_000 {
        let shape = *random.pick(&[Shape::Small, Shape::Small, Shape::Small, Shape::Long]);
        let old = old_table(&mut random, shape);
        let new = normal_table(&old);
        let mut row = [7_777; 20];
        let (before, after) = (sheet_before_24(&encode(&old)), analysed(&normal(&old)));
        let Ok(before) = before else {
            let refused = analyse_before_24(&encode(&old), &mut row);
            assert!([15, 16].contains(&refused.unwrap_err().number) && row == [7_777; 20]);
            gained += u64::from(after.is_ok());
            continue;
        };
        let after = after.expect("a table that was accepted stays so");
        assert!(after.window <= before.window);
        assert!(none_grows(&before.bounds, &after.bounds));
        let firsts = [(&old, before.window), (&new, after.window)].map(|(t, w)| first_bounds(t, w));
        assert!(none_grows(&firsts[0], &firsts[1]));
        let seconds = [
            second_bounds(&old, before.window),
            second_bounds(&new, after.window),
        ];
        for index in 1..=old.count() {
            let [Some(second), Some(now)] = [0, 1].map(|at| seconds[at][index - 1]) else {
                assert_eq!(seconds[0][index - 1], seconds[1][index - 1]);
                continue;
            };
            assert!(now <= second);
            assert!(
                own_window(&new, index, after.window) <= own_window(&old, index, before.window)
            );
            timers += u64::from(now < second);
        }
        let shorter = after.window < before.window || after.bounds != before.bounds;
        less += u64::from(shorter);
        same += u64::from(!shorter && has_fault_24(&old));
        if before.window <= 60 {
            assert_eq!(window_literal(&old), Some(before.window));
            let literal = |index| bound_literal(&old, index, before.window);
            let literal: Vec<u64> = (1..=old.count()).map(literal).collect();
            assert_eq!(literal, before.bounds);
        }
    }
    assert!(less > 300 && same > 50 && timers > 50 && gained > 50);
}

/// Where no record has the fault, the analyser says what it said.
#[test]
fn sound_tables_keep_their_sheet() {
    let mut random = Random::new(205);
    for _ in 0..1_000 {
        let shape = any_shape(&mut random);
        let bytes = encode(&table(&mut random, shape));
        assert_eq!(analysed(&bytes), sheet_before_24(&bytes));
        assert_eq!(normalise(&bytes), Ok(bytes));
    }
}

/// U7, "every history": drawn within the curves of an old table, it is within those of the new one,
/// whose machine answers as said, and demand 3 holds with the new bounds.
#[test]
fn histories_of_old_tables() {
    let mut random = Random::new(206);
    let (mut played, mut repeated) = (0, 0);
    while played < 400 {
        let old = old_table(&mut random, Shape::Small);
        let Ok(before) = sheet_before_24(&encode(&old)) else {
            continue;
        };
        if !has_fault_24(&old) {
            continue;
        }
        let new = analysed(&normal(&old)).unwrap();
        let style = Style::any(&mut random, &old, before.window);
        let history = within(&mut random, &old, &style, 8 * before.window.min(100));
        assert_eq!(history, play(&normal(&old), &history.ticks));
        assert_eq!(within_curves(&old, &history), Ok(()));
        assert_eq!(within_curves(&new.table, &history), Ok(()));
        assert_eq!(conclusions(&new.table, &new.bounds, &history), Ok(()));
        let lowered = |&index: &usize| exceeds_two(&old.callback(index).entries);
        let often = |index: usize| history.starts(index).len() > 2;
        repeated += u64::from((1..=old.count()).filter(lowered).any(often));
        played += 1;
    }
    assert!(repeated > 200, "{repeated}");
}

/// Whatever a history is like, the old curves and the new ones agree on it; the way in which it leaves
/// them need not be the same.
#[test]
fn curves_agree_on_any_history() {
    let mut random = Random::new(207);
    let (mut inside, mut beyond) = (0, 0);
    for _ in 0..2_000 {
        let mut old = table_before_24(&mut random, Shape::Small);
        // Heads that may arrive in any tick, so that most histories fail by costs, if at all.
        for index in (1..=old.count())
            .filter(|&i| old.is_head(i))
            .collect::<Vec<_>>()
        {
            let head = &mut old.callbacks[index - 1];
            (head.period, head.jitter, head.distance) = (1, 0, 1);
        }
        bend_some(&mut random, &mut old);
        let new = normal_table(&old);
        let mut ticks = outside(&mut random, &new, 12);
        for tick in &mut ticks {
            tick.supplied = true;
            tick.cost = random.range(1, 3);
        }
        let history = play(&encode(&new), &ticks);
        let within = [&old, &new].map(|table| within_curves(table, &history).is_ok());
        assert_eq!(within[0], within[1]);
        inside += u64::from(within[0]);
        beyond += u64::from(!within[0]);
    }
    assert!(inside > 100 && beyond > 100, "{inside} {beyond}");
}

/// Tables of each sort are without fault 24, and but for entries and delay those of before; the other
/// generators have it.
#[test]
fn generators_with_and_without_the_fault() {
    for shape in [Shape::Small, Shape::Long, Shape::Extreme] {
        let mut randoms = [Random::new(208), Random::new(208)];
        let mut delays = 0;
        for _ in 0..1_000 {
            let drawn = table(&mut randoms[0], shape);
            let before = table_before_24(&mut randoms[1], shape);
            assert!(!has_fault_24(&drawn));
            let same = delayed(drawn.delay, &normal_table(&before));
            assert_eq!(drawn, same);
            if drawn.delay != before.delay {
                assert!(has_fault_24(&before));
                delays += 1;
            }
        }
        assert_eq!(randoms[0].bits(), randoms[1].bits());
        assert!(delays < 100);
        let mut old: Vec<Table> = (0..600)
            .map(|_| old_table(&mut randoms[0], shape))
            .collect();
        old.retain(|table| read_before_24(&encode(table)).as_ref() == Ok(table));
        let faulty = old.iter().filter(|table| has_fault_24(table)).count();
        assert!(old.len() == 600 && faulty > 200 && faulty < 550, "{faulty}");
    }
    let mut random = Random::new(209);
    for _ in 0..300 {
        let bytes = refused_with(&mut random, 24);
        assert_eq!(read(&bytes).unwrap_err().number, 24);
        assert!(has_fault_24(&read_before_24(&bytes).unwrap()));
    }
    let damaged = (0..4_000).filter(|_| {
        let refused = read(&damaged(&mut random)).err();
        refused.is_some_and(|refusal| refusal.number == 24)
    });
    assert!(damaged.count() > 150);
}

/// The program on these words and this input, with its output as bytes.
fn output(words: &[&str], input: &[u8]) -> Output {
    let mut child = Command::new(env!("CARGO_BIN_EXE_sim"))
        .args(words)
        .stdin(Stdio::piped())
        .stdout(Stdio::piped())
        .stderr(Stdio::piped())
        .spawn()
        .unwrap();
    let _ = child.stdin.take().unwrap().write_all(input);
    child.wait_with_output().unwrap()
}

/// `sim normalise`: the table on standard output, or the refusal there, and nothing on standard error.
#[test]
fn program_of_tables() {
    let ends = |input: &[u8], status: i32, printed: &[u8]| {
        let ended = output(&["normalise"], input);
        let said = (ended.status.code(), &ended.stdout[..], &ended.stderr[..]);
        assert_eq!(said, (Some(status), printed, &b""[..]));
    };
    let bytes = encode(&of(&[3, 9]));
    ends(&bytes, 0, &normal(&of(&[3, 9])));
    ends(&normal(&of(&[3, 9])), 0, &encode(&of(&[3, 6])));
    ends(&encode(&of(&[60_000])), 0, &encode(&of(&[60_000])));
    ends(b"", 1, b"refused 1 0\n");
    ends(&bytes[..47], 1, b"refused 4 0\n");
    ends(&[&bytes[..], b"\n"].concat(), 1, b"refused 4 0\n");
    let mut dirty = bytes.clone();
    dirty[34] = 1;
    ends(&dirty, 1, b"refused 5 1\n");
    dirty[30] = 3;
    ends(&dirty, 1, b"refused 10 1\n");
    let mut random = Random::new(210);
    for _ in 0..40 {
        let old = any_old_table(&mut random);
        ends(&encode(&old), 0, &normal(&old));
    }
    // Tables that no window serves are no matter of this program.
    let overloaded = full(vec![subscription(1, &[2, 9])]);
    ends(&encode(&overloaded), 0, &normal(&overloaded));
    // Elsewhere such a table is refused with 24.
    let line = hex(&bytes) + "\n";
    for (words, input, printed) in [
        (&["sheet"][..], &bytes[..], "refused 24 1\n"),
        (&["sheets"], line.as_bytes(), "refused 24 1\n"),
        (&["replay"], line.as_bytes(), "start refused 24 1\n"),
        (&["within"], line.as_bytes(), "refused 24 1\n"),
    ] {
        let ended = run(words, input);
        assert_eq!((ended.status, &ended.output[..]), (Some(1), printed));
    }
    let ended = run(&["generate", "history", "1", "outside", "9", "-"], &bytes);
    let said = (ended.status, &ended.output[..], &ended.error[..]);
    assert_eq!(said, (Some(1), "", "refused 24 1\n"));
}

/// Standard streams that are closed or full are told, and no table is lost without a word.
#[test]
fn streams_of_the_program() {
    let file = std::env::temp_dir().join(format!("sim-{}.old", std::process::id()));
    std::fs::write(&file, encode(&of(&[3, 9]))).unwrap();
    let shell = |line: &str| -> Ended {
        let program = env!("CARGO_BIN_EXE_sim");
        let script = format!("{program} normalise {line}").replace("FILE", file.to_str().unwrap());
        let ended = Command::new("sh").args(["-c", &script]).output();
        ended.unwrap().into()
    };
    let cases = ["< FILE >&-", "< FILE > /dev/full", "<&-", "< /"];
    let ends = cases.map(shell);
    std::fs::remove_file(&file).unwrap();
    for (ended, stream) in ends.iter().zip(["output", "output", "input", "input"]) {
        assert_eq!((ended.status, &ended.output[..]), (Some(2), ""));
        let told = format!("standard {stream}: ");
        assert!(ended.error.starts_with(&told), "{}", ended.error);
    }
}

/// The lines of `sim normalisings`, and how it ends.
#[test]
fn program_of_frames() {
    let (old, sound) = (encode(&of(&[3, 9])), encode(&of(&[3, 6])));
    let mut dirty = old.clone();
    dirty[47] = 1;
    let header = "1 1 1 0 1 0 0 0 0 0 0 0 0 0 0 0";
    let record = "1 0 2 0 80 195 0 0 80 195 0 0 3 0 6 0".to_string() + &" 0".repeat(16);
    let changed = format!("0 0 {header} {record}\n");
    assert_eq!(normalisings(&framed(&old)), changed);
    let ends = |input: &[u8], status: i32, printed: &str, error: &str| {
        let ended = run(&["normalisings"], input);
        let said = (ended.status, &ended.output[..], &ended.error[..]);
        assert_eq!(said, (Some(status), printed, error));
    };
    ends(b"", 0, "", "");
    ends(&framed(&old), 0, &changed, "");
    ends(&framed(&sound), 0, "0 0\n", "");
    ends(&framed(&[]), 1, "1 0\n", "");
    let all = [&old, &dirty, &sound].map(|bytes| framed(bytes)).concat();
    let text = format!("{changed}5 1\n0 0\n");
    ends(&all, 1, &text, "");
    let cut = &all[..all.len() - 1];
    ends(cut, 2, &format!("{changed}5 1\n"), "frame 3: cut short\n");
    ends(&[7], 2, "", "frame 1: cut short\n");
    let usage = program(&["help"], b"");
    for words in [
        &["normalise", "x"][..],
        &["normalisings", "1"],
        &["generate", "normalisings", "1"],
        &["generate", "normalise"],
    ] {
        let ended = run(words, b"");
        assert_eq!((ended.status, &ended.output[..]), (Some(2), ""));
        assert!(ended.error.ends_with(&usage));
    }
    for words in [
        "sim normalise ",
        "sim normalisings ",
        "sim generate normalisings\n",
    ] {
        assert!(usage.contains(words));
    }
}

/// `sim generate normalisings` is not too long and has every refusal of the program, alone and beside
/// fault 24, tables with and without it, each m, both editions, a delay and sixteen callbacks.
#[test]
fn generated_normalisings() {
    let drawn = output(&["generate", "normalisings"], b"");
    let contents = normal_edges();
    let frames: Vec<u8> = contents.iter().flat_map(|bytes| framed(bytes)).collect();
    assert_eq!((drawn.status.code(), &drawn.stdout), (Some(0), &frames));
    assert!(frames.len() < 150_000 && contents.len() < 400);
    assert_eq!(cut_readings(&frames), None);
    let text = normalisings(&frames);
    assert!(text.lines().count() == contents.len() && text.len() < 150_000);
    let (mut alone, mut beside, mut met) = (BTreeSet::new(), BTreeSet::new(), BTreeSet::new());
    let (mut used, mut kept) = ([0; 9], [0; 9]);
    for (line, bytes) in text.lines().zip(&contents) {
        let table = match read_before_24(bytes) {
            Ok(table) => table,
            Err(refusal) => {
                assert_eq!(line, format!("{} {}", refusal.number, refusal.index));
                let now = read(bytes).unwrap_err();
                let hides = now.number == 24;
                if hides { &mut beside } else { &mut alone }.insert(refusal.number);
                continue;
            }
        };
        let new = encode(&normal_table(&table));
        let numbers: Vec<String> = new.iter().map(|byte| format!(" {byte}")).collect();
        let all = if new == *bytes {
            String::new()
        } else {
            numbers.concat()
        };
        assert_eq!(line, format!("0 0{all}"));
        let faulty = table
            .callbacks
            .iter()
            .filter(|c| exceeds_two(&c.entries))
            .count();
        met.insert((table.count(), faulty, table.edition, table.delay > 0));
        for callback in &table.callbacks {
            let counts = if exceeds_two(&callback.entries) {
                &mut used
            } else {
                &mut kept
            };
            counts[callback.entries.len()] += 1;
        }
    }
    assert!(alone.into_iter().eq((1..=14).chain([22])));
    // All that a record, links and arrivals have; what is before the records hides 24.
    assert!(beside.into_iter().eq([5, 8, 9, 10, 11, 12, 13, 14]));
    for faulty in 0..=4 {
        for sort in [(1, false), (2, false), (2, true)] {
            assert!(
                met.contains(&(4, faulty, sort.0, sort.1)),
                "{faulty} {sort:?}"
            );
        }
    }
    for (faulty, edition) in [(0, 1), (1, 1), (1, 2), (4, 1), (16, 2)] {
        assert!(met.contains(&(16, faulty, edition, false)), "{faulty}");
    }
    assert!(
        used[2..].iter().all(|&count| count > 5) && used[1] == 0,
        "{used:?}"
    );
    assert!(kept[1..].iter().all(|&count| count > 5), "{kept:?}");
}

/// `sim generate tables SEED COUNT before`: tables that were read before, with and without the fault.
#[test]
fn generated_tables_of_before() {
    let text = program(&["generate", "tables", "1", "300", "before"], b"");
    let tables = hex_rows(&text).unwrap();
    assert!(tables.len() == 300 && tables.iter().all(|bytes| read_before_24(bytes).is_ok()));
    let refused = tables.iter().filter(|bytes| read(bytes).is_err()).count();
    assert!(refused > 100 && refused < 270, "{refused}");
    let any = program(&["generate", "tables", "1", "600"], b"");
    let refused = |bytes: &Vec<u8>| read(bytes).err().map(|refusal| refusal.number);
    let of_24 = hex_rows(&any)
        .unwrap()
        .iter()
        .filter(|bytes| refused(bytes) == Some(24))
        .count();
    assert!(of_24 > 30, "{of_24}");
}
