//! The damages break what they say, and `second` answers 15 to every call on a
//! damaged box, under either profile, and alters nothing.

use differential::calls::{attest, chain, create, hand_over, record_of, release};
use differential::records::{any, output_size, Known, WRONG_OUTPUT_SIZES};
use differential::{bases, broken, damages, pairs, play, scramble, Clause, Random};
use second::{call, call_level_one, is_sound, Answer, Call, Host, NONE_RUNS, OUTPUT_SIZE};

const REFUSED: Answer = Answer { code: 15, number: 0, used: 0, shown: 0 };

/// Malformed records, and good ones that would alter something.
fn records() -> Vec<Vec<u8>> {
    let bytes: [&[u8]; 7] = [&[], &[2], &[1], &[3, 2, 0], &[1, 14], &[0x67, 15, 1], &[7, 1, 0, 1]];
    let chain = chain(2, 77, 1, b"\x01\x00\x01");
    let release = release(77, 3 << 48);
    let calls = [Call::Report, hand_over(NONE_RUNS), Call::Exit, create(9, 1), attest(1, 2), chain];
    let calls = calls.iter().chain([&release]).map(record_of);
    bytes.iter().map(|bytes| bytes.to_vec()).chain(calls).collect()
}

/// The box isn't sound; each call on it answers 15 and alters nothing.
fn refused(mut host: Host, what: &str) {
    assert!(!is_sound(&host.lend()), "{what}: sound");
    let before = host.clone();
    for record in records() {
        let mut output = [7; OUTPUT_SIZE];
        let answer = call(&mut host.lend(), &mut output, &record);
        assert_eq!(answer, REFUSED, "{what}");
        let answer = call_level_one(&mut host.lend(), &mut output, &record);
        assert_eq!(answer, REFUSED, "{what}");
        assert!(host == before, "{what}: altered");
        assert!(output == [7; OUTPUT_SIZE], "{what}: output altered");
    }
}

fn random_boxes() -> Vec<Host> {
    (0..40).map(|seed| play(seed).host).collect()
}

#[test]
fn bases_are_sound() {
    for mut host in bases() {
        assert_eq!(broken(&host), []);
        assert!(is_sound(&host.lend()));
    }
    let [_, _, rows, bytes, released] = bases();
    assert_eq!((rows.record.log_rows, rows.record.escrow_rows), (64, 64));
    assert_eq!((bytes.record.log_bytes, bytes.record.escrow_bytes), (4_096, 4_096));
    let marks: Vec<u8> = released.escrow[..10].iter().map(|row| row.mark).collect();
    assert_eq!(marks, [1, 0, 0, 1, 0, 1, 1, 0, 1, 0]);
    assert_eq!((released.record.escrow_rows, released.record.escrow_bytes), (9, 8));
}

/// Each damage breaks its clause on every base that it fits, and on one of them
/// no other clause.
#[test]
fn each_damage_breaks_its_clause_alone() {
    let mut random = Random::new(3);
    for damage in damages() {
        let mut alone = false;
        for mut host in bases() {
            if (damage.apply)(&mut host, &mut random) {
                let clauses = broken(&host);
                assert!(clauses.contains(&damage.clause), "{}: {clauses:?}", damage.name);
                alone |= clauses.len() == 1;
                refused(host, damage.name);
            }
        }
        assert!(alone, "{}", damage.name);
    }
}

#[test]
fn every_clause_has_a_damage() {
    use Clause::*;
    #[rustfmt::skip]
    let clauses = [
        HeapsSize, SharedSize, LogSize, LogValuesSize, EscrowSize, EscrowValuesSize, Running,
        Identities, EmptyHeaps, Counts, LogFollows, EscrowFollows, LogLengths, EscrowLengths,
        LogIdentities, EscrowIdentities, Pairs, Tags, Handles, HandleLengths, Marks, SpentLengths,
        UnusedLogRows, UnusedEscrowRows, UnusedLogBytes, UnusedEscrowBytes,
    ];
    for clause in clauses {
        assert!(damages().iter().any(|damage| damage.clause == clause), "{clause:?}");
    }
}

#[test]
fn damaged_random_boxes_are_refused() {
    let mut random = Random::new(4);
    for host in random_boxes() {
        for damage in damages() {
            let mut host = host.clone();
            if (damage.apply)(&mut host, &mut random) {
                refused(host, damage.name);
            }
        }
    }
}

/// Two damages never make up for each other, and most often break two clauses.
#[test]
fn pairs_of_damages_are_refused() {
    let mut random = Random::new(5);
    let bases = bases();
    let (mut done, mut both) = (0, 0);
    for (first, second) in pairs() {
        for base in &bases {
            let mut host = base.clone();
            if (first.apply)(&mut host, &mut random) && (second.apply)(&mut host, &mut random) {
                done += 1;
                both += usize::from(broken(&host).len() > 1);
                refused(host, &format!("{}, {}", first.name, second.name));
            }
        }
    }
    println!("{both} of {done}");
    assert!(done > 4_000 && both > done / 10 * 9, "{both} of {done}");
}

#[test]
fn wrong_output_sizes_are_refused() {
    for mut host in bases() {
        let before = host.clone();
        for size in WRONG_OUTPUT_SIZES {
            for record in records() {
                let mut output = vec![7; size];
                assert_eq!(call(&mut host.lend(), &mut output, &record), REFUSED);
                assert_eq!(call_level_one(&mut host.lend(), &mut output, &record), REFUSED);
                assert!(host == before && output == vec![7; size]);
            }
        }
    }
}

/// The clauses say what `second` says, whatever the box.
#[test]
fn clauses_agree_with_second() {
    let mut random = Random::new(6);
    let boxes = random_boxes();
    let mut sound = 0;
    for n in 0..4_000 {
        let mut host = boxes[n % boxes.len()].clone();
        for _ in 0..=n % 3 {
            scramble(&mut host, &mut random);
        }
        let is_sound = is_sound(&host.lend());
        assert_eq!(broken(&host).is_empty(), is_sound, "{:?}", broken(&host));
        sound += usize::from(is_sound);
    }
    assert!((200..3_800).contains(&sound), "{sound}");
}

/// 15 is given exactly when the box isn't sound or the output buffer isn't of
/// its size.
#[test]
fn refusal_15_is_given_exactly_then() {
    let mut random = Random::new(7);
    let boxes = random_boxes();
    let mut codes = [0; 24];
    for n in 0..4_000 {
        let mut host = boxes[n % boxes.len()].clone();
        let record = any(&mut random, &Known::of(&host));
        if random.once_in(2) {
            scramble(&mut host, &mut random);
        }
        let size = output_size(&mut random);
        let unfit = size != OUTPUT_SIZE || !broken(&host).is_empty();
        let level_one = host.clone().call_level_one(&mut vec![0; size], &record);
        assert_eq!(level_one.code == 15, unfit);
        let answer = host.call(&mut vec![0; size], &record);
        assert_eq!(answer.code == 15, unfit);
        assert!(answer.code == 0 || (answer.code == 1) == (answer.number != 0), "{answer:?}");
        codes[usize::from(answer.code)] += 1;
    }
    println!("{codes:?}");
    assert_eq!(codes[21..], [0; 3]);
    assert!(codes[0] > 100 && codes[1] > 50 && codes[15] > 100 && codes[5] == 0, "{codes:?}");
}
