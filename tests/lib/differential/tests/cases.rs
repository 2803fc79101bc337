//! The cases by themselves: `second` prints the sheets written by hand.

use std::collections::HashSet;

use differential::{cases, lines, Chains, HandOvers, LevelOne, Releases, LAYOUTS};
use second::{sheet, sheet_level_one};

#[test]
fn second_prints_what_was_written_by_hand() {
    let mut by_hand = 0;
    for case in cases::all() {
        if let Some(written) = case.sheet {
            assert!(sheet(&case.script) == written.as_bytes(), "{}", case.name);
            by_hand += 1;
        }
    }
    println!("{by_hand}");
    assert!(by_hand > 11_000, "{by_hand}");
}

/// Level one's too. Most of them differ from the full box's.
#[test]
fn second_prints_what_was_written_by_hand_for_level_one() {
    let (mut by_hand, mut differ) = (0, 0);
    for case in cases::all() {
        if let Some(written) = case.level_one {
            assert!(sheet_level_one(&case.script) == written.as_bytes(), "{}", case.name);
            by_hand += 1;
            differ += usize::from(case.sheet != Some(written));
        }
    }
    println!("{by_hand}, {differ}");
    assert!(by_hand > 300 && differ > 300, "{by_hand}, {differ}");
}

/// The cases' level-one sheets have each sort that a paper reaches, and each answer
/// follows from what the records before it and their lines tell, in the sheets of
/// `second` and in those written by hand.
#[test]
fn level_one_calls_of_each_sort() {
    let (mut all, mut by_hand) = (LevelOne::default(), LevelOne::default());
    for case in cases::all() {
        let sheet = sheet_level_one(&case.script);
        assert!(all.count(&case.script, &sheet), "{}", case.name);
        if let Some(written) = &case.level_one {
            assert!(by_hand.count(&case.script, written.as_bytes()), "{}", case.name);
        }
    }
    println!("{all}\nby hand, {by_hand}");
    assert!(all.papers_above(10) && by_hand.papers_above(1), "{all}\n{by_hand}");
}

#[test]
fn names_differ() {
    let mut names = HashSet::new();
    for case in cases::all() {
        assert!(names.insert(case.name.clone()), "{}", case.name);
    }
}

/// The cases have hand overs of each sort, and 5, which is retired, stands in no
/// sheet: not in those of `second`, nor in those written by hand.
#[test]
fn hand_overs_of_each_sort_and_never_5() {
    let mut hand_overs = HandOvers::default();
    let mut left_running = 0;
    for case in cases::all() {
        let sheet = sheet(&case.script);
        left_running += hand_overs.count(&case.script, &sheet);
        assert!(lines(&case.script, &sheet).all(|line| line.code != 5), "{}", case.name);
        let by_hand = case.sheet.unwrap_or_default();
        assert!(by_hand.lines().all(|line| !line.starts_with("5 ")), "{}", case.name);
    }
    println!("{hand_overs}\nrefused and followed by a call of who runs: {left_running}");
    assert!(hand_overs.each_above(100) && left_running > 1_000, "{hand_overs}");
}

/// The cases have chains of each sort. Each answer follows from what the records
/// before it and their lines tell, in the sheets of `second` and in those written
/// by hand.
#[test]
fn chains_of_each_sort() {
    let mut chains = Chains::default();
    for case in cases::all() {
        assert!(chains.count(&case.script, &sheet(&case.script)), "{}", case.name);
        if let Some(written) = &case.sheet {
            let mut again = Chains::default();
            assert!(again.count(&case.script, written.as_bytes()), "{}", case.name);
        }
    }
    println!("{chains}");
    assert!(chains.each_above(20), "{chains}");
}

/// The cases have releases of each sort. Each answer follows from what the records
/// before it and their lines tell, in the sheets of `second` and in those written by
/// hand.
#[test]
fn releases_of_each_sort() {
    let (mut releases, mut by_hand) = (Releases::default(), Releases::default());
    for case in cases::all() {
        assert!(releases.count(&case.script, &sheet(&case.script)), "{}", case.name);
        if let Some(written) = &case.sheet {
            assert!(by_hand.count(&case.script, written.as_bytes()), "{}", case.name);
        }
    }
    println!("{releases}\nby hand, {by_hand}");
    assert!(releases.each_above(20) && by_hand.each_above(5), "{releases}\n{by_hand}");
}

/// Every field of every kind is cut at every byte, at the front of a script and
/// behind good records, and 1 is the only refusal with a number. Read off the
/// sheets written by hand.
#[test]
fn every_cut_is_among_the_cases() {
    let mut met = HashSet::new();
    let mut numbers = HashSet::new();
    for case in cases::all() {
        let sheet = case.sheet.unwrap_or_default();
        for (n, line) in lines(&case.script, sheet.as_bytes()).enumerate() {
            assert!(line.code == 0 || (line.code == 1) == (line.number != 0), "{}", case.name);
            if line.code == 1 {
                met.insert((n > 0, line.script.to_vec()));
                numbers.insert(line.number);
            }
        }
    }
    for behind in [false, true] {
        for layout in &LAYOUTS {
            for fill in [0x00, 0x11, 0xFF] {
                // No script has an empty record.
                for cut in layout.cuts(fill, 3).into_iter().skip(1) {
                    assert!(met.contains(&(behind, cut.record)), "kind {}", layout.kind);
                }
            }
        }
    }
    let contents = (1..=300).chain([65_535]);
    assert!(contents.into_iter().all(|number| numbers.contains(&number)));
}
