// The worked examples and the marked cases of document 01, and cases that its sentences and document 02's decide one by one.

use compare::bench::bench;
use compare::bytes::{encode_set, OUT_BYTES, VALUE_BYTES};
use compare::eval::evaluate;
use compare::graph::build;
use compare::machine::{Machine, RanByRounds};
use compare::memory::{self, Answer};
use compare::sheet::{read, write, Figures, Refusal, Sheet};
use compare::tally::Tally;
use compare::value::Float;
use compare::value::Value::{self, Real, Truth, Whole};

const E: Value = Value::E;
const Z: Value = Value::Z;
const V: Value = Value::V;

const LESSER: &str = "     1     0     0     0     0
     1     1     0     0     0
     4     1     2     0     0
     5     6     3     0     0
     1     0     0     0     0
     1     1     0     0     0
     7     4     5     6     0
";

/// "for i, y = n, 1 do if 1 < i then iter i - 1, y * i else y": i is 0, y is 1, n is 2.
const FACTORIAL: [[u32; 5]; 18] = [
    [1, 2, 0, 0, 0],
    [2, 1, 0, 0, 0],
    [4, 1, 2, 0, 0],
    [2, 1, 0, 0, 0],
    [1, 0, 0, 0, 0],
    [4, 4, 5, 0, 0],
    [5, 6, 6, 0, 0],
    [1, 0, 0, 0, 0],
    [2, 1, 0, 0, 0],
    [4, 8, 9, 0, 0],
    [5, 2, 10, 0, 0],
    [1, 1, 0, 0, 0],
    [1, 0, 0, 0, 0],
    [4, 12, 13, 0, 0],
    [5, 3, 14, 0, 0],
    [4, 11, 15, 0, 0],
    [9, 16, 0, 0, 0],
    [1, 1, 0, 0, 0],
];

fn factorial() -> Vec<[u32; 5]> {
    let mut rows = FACTORIAL.to_vec();
    rows.push([7, 7, 17, 18, 0]);
    rows.push([8, 0, 2, 3, 19]);
    rows
}

/// With the letters of its inputs.
fn accepted(rows: &[[u32; 5]], letters: &str) -> Sheet {
    read(&write(rows), format!("{letters}\n").as_bytes()).expect("an accepted sheet")
}

fn refused_with(rows: &[[u32; 5]], line: &[u8]) -> (u32, u32) {
    let Refusal { number, row } = read(&write(rows), line).expect_err("a refused sheet");
    (number, row)
}

/// By a test before the kinds line's.
fn refused(rows: &[[u32; 5]]) -> (u32, u32) {
    refused_with(rows, b"")
}

fn values(sheet: &Sheet, set: &[Value]) -> Vec<Value> {
    evaluate(sheet, set, 1000).expect("an evaluation that ends").set.used().to_vec()
}

/// The first result of a machine at capacity 1.
fn worked(sheet: &Sheet, set: &[Value]) -> Vec<Value> {
    let graph = build(sheet);
    let mut machine = Machine::start(&graph, 1).expect("a capacity in its range");
    machine.push(set).expect("an empty machine");
    assert_eq!(machine.run(100_000).refusal, 0);
    machine.take().expect("a whole result").used().to_vec()
}

/// Document 02, Job 6: "Sets with another kind are refused with 12, so the lesser-of-two example loses its fourth set."
#[test]
fn the_lesser_of_two_prints_as_on_the_page_but_for_its_fourth_set() {
    let print = |sets: &str| String::from_utf8(bench(LESSER.as_bytes(), b"WW\n", sets.as_bytes())).unwrap();
    let sets = "          3          5\n          7          7\n          E          2\n";
    assert_eq!(print(sets), "     2     1     3\n          3\n          7\n          E\n");
    assert_eq!(print(&format!("{sets}          T          1\n")), "    12     4\n");
}

#[test]
fn the_lesser_of_two_has_eight_operators_and_its_results() {
    let sheet = read(LESSER.as_bytes(), b"WW\n").expect("an accepted sheet");
    assert_eq!(sheet.figures, Figures { rows: 7, operators: 8, inputs: 2, results: 1 });
    assert_eq!(build(&sheet).operators.len(), 8);
    let sets = [([Whole(3), Whole(5)], Whole(3)), ([Whole(7), Whole(7)], Whole(7))];
    for (set, result) in sets.into_iter().chain([([E, Whole(2)], E)]) {
        assert_eq!(values(&sheet, &set), [result]);
        assert_eq!(worked(&sheet, &set), [result]);
    }
    let fourth = [Truth(true), Whole(1)];
    assert_eq!(evaluate(&sheet, &fourth, 0), refusal(12));
    let graph = build(&sheet);
    assert_eq!(Machine::start(&graph, 1).expect("a capacity in its range").push(&fourth), refusal(12));
}

#[test]
fn x_plus_x_has_two_operators() {
    let sheet = accepted(&[[1, 0, 0, 0, 0], [1, 0, 0, 0, 0], [4, 1, 2, 0, 0], [5, 1, 3, 0, 0]], "W");
    assert_eq!(sheet.figures, Figures { rows: 4, operators: 2, inputs: 1, results: 1 });
    assert_eq!(values(&sheet, &[Whole(21)]), [Whole(42)]);
}

#[test]
fn factorial_as_marked() {
    let sheet = accepted(&factorial(), "W");
    let five = evaluate(&sheet, &[Whole(5)], 5).expect("five rounds are enough");
    assert_eq!((five.set.used(), five.rounds), ([Whole(120)].as_slice(), 5));
    assert_eq!(evaluate(&sheet, &[Whole(5)], 4), Err(Refusal { number: 36, row: 0 }));
    let cases = [(Whole(0), Whole(1)), (Whole(12), Whole(479_001_600)), (Whole(13), V), (E, E), (Z, E)];
    for (set, result) in cases {
        assert_eq!(values(&sheet, &[set]), [result]);
        assert_eq!(worked(&sheet, &[set]), [result]);
    }
    assert_eq!(evaluate(&sheet, &[E], 1).expect("one round is enough").rounds, 1);
    assert_eq!(evaluate(&sheet, &[E], 0), Err(Refusal { number: 36, row: 0 }));
}

/// By hand: constants 1, 1, 1 and true, false; less, subtract, multiply: 8. T on i, y, trigger and F on y, trigger: 5.
/// IC, E: 2. FM on i, y and FS on trigger: 3, iter? to them: 2 copies. Copies of i in the arm: i twice 1, trigger of
/// 1 and true 1. The test's output to 5 gates and IC: 5. In the body i: test and T 1, y: T and F 1, trigger: test, T
/// and F 2. Outside, trigger: the constant 1 and FS 1.
#[test]
fn factorial_has_the_operators_counted_by_hand() {
    let sheet = accepted(&factorial(), "W");
    assert_eq!(sheet.figures.operators, 8 + 5 + 2 + 3 + 2 + 2 + 5 + 4 + 1);
    assert_eq!(build(&sheet).operators.len(), 32);
}

#[test]
fn iter_as_the_formula_gets_7() {
    assert_eq!(refused(&[[2, 1, 0, 0, 0], [9, 1, 0, 0, 0]]), (7, 2));
}

#[test]
fn let_x_be_1_in_2_gets_9() {
    assert_eq!(refused(&[[2, 1, 0, 0, 0], [2, 2, 0, 0, 0], [6, 0, 1, 1, 2]]), (9, 3));
}

fn negations(rows: u32) -> Vec<[u32; 5]> {
    let negation = |row| if row == 1 { [1, 0, 0, 0, 0] } else { [5, 11, row - 1, 0, 0] };
    (1..=rows).map(negation).collect()
}

#[test]
fn two_hundred_rows_pass_test_2() {
    assert_eq!(accepted(&negations(200), "W").figures.rows, 200);
    assert_eq!(refused(&negations(201)), (2, 0));
    // A stray byte behind 201 rows is test 1's.
    let mut bytes = write(&negations(201));
    bytes.push(b' ');
    assert_eq!(read(&bytes, b"W\n").expect_err("a stray byte").number, 1);
}

#[test]
fn sixteen_pushes_pass_and_the_seventeenth_gets_32() {
    for rows in [vec![[1, 0, 0, 0, 0]], negations(2)] {
        let sheet = accepted(&rows, "W");
        let graph = build(&sheet);
        let mut machine = Machine::start(&graph, 16).expect("a capacity in its range");
        for number in 0..16 {
            assert_eq!(machine.push(&[Whole(number)]), Ok(()));
        }
        assert_eq!(machine.push(&[Whole(16)]), refusal(32));
        assert_eq!(machine.push(&[]), refusal(12));
    }
}

fn refusal<T>(number: u32) -> Result<T, Refusal> {
    Err(Refusal { number, row: 0 })
}

#[test]
fn the_machines_refusals_in_a_small_case() {
    let sheet = accepted(&negations(2), "W");
    let graph = build(&sheet);
    assert!(Machine::start(&graph, 0).is_err() && Machine::start(&graph, 17).is_err());
    let mut machine = Machine::start(&graph, 1).expect("a capacity in its range");
    assert_eq!(machine.take(), refusal(35));
    assert_eq!(machine.fire(0), refusal(34));
    assert_eq!(machine.push(&[Whole(4)]), Ok(()));
    assert_eq!(machine.push(&[Whole(5)]), refusal(33));
    assert_eq!(machine.take(), refusal(35));
    assert_eq!(machine.fire(1), refusal(34));
    let none = machine.run(0);
    assert_eq!((none.refusal, none.count), (36, 0));
    assert_eq!(machine.fire(0), Ok(()));
    assert_eq!(machine.push(&[Whole(5)]), Ok(()));
    // The result's link is full.
    assert_eq!(machine.fire(0), refusal(34));
    assert_eq!(machine.run(7).count, 0);
    assert_eq!(machine.take().expect("a whole result").used(), [Whole(-4)]);
    let one = machine.run(1);
    assert_eq!((one.refusal, one.count), (0, 1));
    assert_eq!(machine.take().expect("a whole result").used(), [Whole(-5)]);
    assert_eq!(machine.untaken(), 0);
}

/// Document 02, "A tray of beacons at one go".
#[test]
fn a_tray_stops_at_the_first_refused_and_says_how_many_went_in() {
    let wholes: Vec<Value> = (0..20).map(Whole).collect();
    let sets = encode_set(&wholes);
    let tray = |capacity: u32, sets: &[u8], number: u32| {
        let (mut mem, mut tally) = (vec![0; memory::need(capacity as usize)], Tally::default());
        assert_eq!(memory::start(&write(&negations(2)), b"W\n", capacity, &mut mem, &mut tally).refusal, 0);
        let Answer { refusal, count } = memory::push_tray(&mut mem, sets, number, &mut tally);
        memory::run(&mut mem, 1000, &mut tally);
        let mut out = [0; OUT_BYTES];
        for negative in wholes.iter().take(count as usize).map(|value| negated(*value)) {
            assert_eq!(memory::take(&mut mem, &mut out, &mut tally).refusal, 0);
            assert_eq!(out[..VALUE_BYTES], encode_set(&[negative]));
            memory::run(&mut mem, 1000, &mut tally);
        }
        assert_eq!(memory::take(&mut mem, &mut out, &mut tally).refusal, 35);
        (refusal, count)
    };
    assert_eq!(tray(16, &sets, 16), (0, 16));
    assert_eq!(tray(16, &sets, 17), (32, 16));
    assert_eq!(tray(1, &sets, 2), (33, 1));
    assert_eq!(tray(16, &sets, 0), (0, 0));
    // not wholly lent; bytes past the last; a bad value in the middle
    assert_eq!(tray(16, &sets[..14], 3), (12, 2));
    assert_eq!(tray(16, &sets[..19], 3), (0, 3));
    assert_eq!(tray(16, &[&sets[..10], &[5; 5], &sets[15..]].concat(), u32::MAX), (12, 2));
    let mut none = vec![];
    assert_eq!(memory::push_tray(&mut none, &sets, 0, &mut Tally::default()).refusal, 11);
}

fn negated(value: Value) -> Value {
    match value {
        Whole(number) => Whole(-number),
        other => other,
    }
}

/// Document 02, Job 7: "operators rising, each that is able at its turn firing once", "counting only rounds in which something fired".
#[test]
fn a_round_fires_each_operator_that_is_able_at_its_turn() {
    let sheet = accepted(&negations(4), "W");
    // each operator before the one that takes its token
    let mut graph = build(&sheet);
    graph.operators.reverse();
    let mut machine = Machine::start(&graph, 2).expect("a capacity in its range");
    let ran = |refusal, rounds, firings| RanByRounds { refusal, rounds, firings };
    assert_eq!(machine.run_by_rounds(5), ran(0, 0, 0));
    for number in [4, 5] {
        machine.push(&[Whole(number)]).expect("free input links");
    }
    assert_eq!(machine.run_by_rounds(0), ran(36, 0, 0));
    // each of the three makes the next able in the same round
    assert_eq!(machine.run_by_rounds(1), ran(36, 1, 3));
    assert_eq!(machine.clone().run_by_rounds(1), ran(0, 1, 3));
    assert_eq!(machine.run_by_rounds(u32::MAX), ran(0, 1, 3));
    assert_eq!(machine.times(), [2, 2, 2]);
    // the other way round a token moves by one operator a round
    graph.operators.reverse();
    let mut machine = Machine::start(&graph, 2).expect("a capacity in its range");
    machine.push(&[Whole(4)]).expect("free input links");
    assert_eq!(machine.run_by_rounds(3), ran(0, 3, 3));
}

/// Document 02, Job 7: "One set with an unending loop can keep the least-numbered operators busy while an older verdict is pending."
#[test]
fn an_older_verdict_is_ready_beside_a_looping_set() {
    // not not (for x = x do if x then iter x else x): true loops without end, false ends at once
    let loops = [[1, 0, 0, 0, 0], [1, 0, 0, 0, 0], [1, 0, 0, 0, 0], [9, 3, 0, 0, 0], [1, 0, 0, 0, 0]];
    let rest = [[7, 2, 4, 5, 0], [8, 0, 1, 1, 6], [5, 10, 7, 0, 0], [5, 10, 8, 0, 0]];
    let sheet = accepted(&[&loops[..], &rest[..]].concat(), "T");
    // the loop's operators before the two that are behind it
    let mut graph = build(&sheet);
    graph.operators.reverse();
    let mut machine = Machine::start(&graph, 2).expect("a capacity in its range");
    machine.push(&[Truth(false)]).expect("a machine at rest");
    let alone = machine.clone().run(1000).count;
    machine.push(&[Truth(true)]).expect("a free place on each input link");
    let mut by_rounds = machine.clone();
    assert_eq!(machine.run(1_000_000).refusal, 36);
    assert_eq!(machine.take(), refusal(35));
    // nothing was made yet, so all the firings of the first set alone are owed
    assert_eq!(by_rounds.run_by_rounds(alone).refusal, 36);
    assert_eq!(by_rounds.take().expect("a whole result").used(), [Truth(false)]);
    // after the run something is left to make, and rounds make it
    machine.run_by_rounds(alone);
    assert_eq!(machine.take().expect("a whole result").used(), [Truth(false)]);
}

/// Document 02, Job 10: "The hatch shows firings, takes and refused pushes."
#[test]
fn the_record_shows_firings_takes_and_refused_pushes() {
    let (mut mem, mut out) = (vec![0; memory::need(1)], [0; OUT_BYTES]);
    let (sheet, five) = (write(&negations(3)), encode_set(&[Whole(5)]));
    let shown = |firings, takes, refused| Tally { firings, takes, refused };
    let mut tally = shown(7, 8, 9);
    // "It is set to zeros by an accepted start."
    assert_eq!(memory::start(&sheet, b"W\n", 0, &mut mem, &mut tally).refusal, 14);
    assert_eq!(tally, shown(7, 8, 9));
    assert_eq!(memory::start(&sheet, b"W\n", 1, &mut mem, &mut tally).refusal, 0);
    assert_eq!(tally, shown(0, 0, 0));
    // "A refused push is counted there", an accepted one is not; a tray stops at its one refused set
    assert_eq!(memory::push(&mut mem, &five, &mut tally).refusal, 0);
    assert_eq!(tally, shown(0, 0, 0));
    assert_eq!(memory::push(&mut mem, &five, &mut tally).refusal, 33);
    assert_eq!(memory::push(&mut mem, &[], &mut tally).refusal, 12);
    assert_eq!(memory::push_tray(&mut mem, &five.repeat(3), 3, &mut tally).refusal, 33);
    assert_eq!(memory::push_tray(&mut mem, &[], 0, &mut tally).refusal, 0);
    assert_eq!(tally, shown(0, 0, 3));
    // a run's firings count beside 36 too, and one without any adds none
    assert_eq!(memory::take(&mut mem, &mut out, &mut tally).refusal, 35);
    assert_eq!(memory::run(&mut mem, 1, &mut tally).refusal, 36);
    assert_eq!(tally, shown(1, 0, 3));
    assert_eq!(memory::fire(&mut mem, 2, &mut tally).refusal, 34);
    assert_eq!(memory::run_rounds(&mut mem, 9, &mut tally).refusal, 0);
    assert_eq!(memory::run(&mut mem, 9, &mut tally).refusal, 0);
    assert_eq!(memory::take(&mut mem, &mut out, &mut tally).refusal, 0);
    assert_eq!(tally, shown(2, 1, 3));
    memory::push(&mut mem, &five, &mut tally);
    let fired = [0, 1, 0, 1].map(|operator| memory::fire(&mut mem, operator, &mut tally).refusal);
    assert_eq!(fired.iter().filter(|&&refusal| refusal == 0).count(), 2);
    assert_eq!(tally, shown(4, 1, 3));
    // "Each number stops at 4,294,967,295."
    let last = u32::MAX;
    tally = shown(last - 1, last, last);
    assert_eq!(memory::take(&mut mem, &mut out, &mut tally).refusal, 0);
    memory::push(&mut mem, &five, &mut tally);
    assert_eq!(memory::run(&mut mem, 9, &mut tally).count, 2);
    assert_eq!(tally, shown(last, last, last));
    // a tray of none is a push that can be refused
    mem[7] = 17;
    tally = shown(1, 2, last - 1);
    assert_eq!(memory::push_tray(&mut mem, &[], 0, &mut tally).refusal, 31);
    assert_eq!(memory::push_tray(&mut [], &[], 0, &mut tally).refusal, 11);
    assert_eq!(memory::run(&mut mem, 9, &mut tally).refusal, 31);
    assert_eq!(memory::take(&mut mem, &mut out, &mut tally).refusal, 31);
    assert_eq!(tally, shown(1, 2, last));
}

/// A body if whose arms are both iters, on a test that is no truth: "each is a copy of that third output".
#[test]
fn an_if_of_two_iters_ends_with_errs_on_a_bad_test() {
    // for x = n do if x < 3 then (if t then iter x + 1 else iter x + 2) else x, x: n is 1, t is 2, x is 0.
    let rows = [
        [1, 1, 0, 0, 0],
        [1, 0, 0, 0, 0],
        [2, 3, 0, 0, 0],
        [4, 2, 3, 0, 0],
        [5, 6, 4, 0, 0],
        [1, 2, 0, 0, 0],
        [1, 0, 0, 0, 0],
        [2, 1, 0, 0, 0],
        [4, 7, 8, 0, 0],
        [5, 1, 9, 0, 0],
        [9, 10, 0, 0, 0],
        [1, 0, 0, 0, 0],
        [2, 2, 0, 0, 0],
        [4, 12, 13, 0, 0],
        [5, 1, 14, 0, 0],
        [9, 15, 0, 0, 0],
        [7, 6, 11, 16, 0],
        [1, 0, 0, 0, 0],
        [1, 0, 0, 0, 0],
        [4, 18, 19, 0, 0],
        [7, 5, 17, 20, 0],
        [8, 0, 1, 1, 21],
    ];
    let sheet = accepted(&rows, "WT");
    for (set, result) in [
        ([Whole(0), Truth(true)], [Whole(3), Whole(3)]),
        ([Whole(0), Truth(false)], [Whole(4), Whole(4)]),
        ([Whole(0), E], [E, E]),
        ([Whole(9), E], [Whole(9), Whole(9)]),
        ([E, Truth(true)], [E, E]),
        ([Whole(0), Z], [E, E]),
        ([V, Truth(true)], [E, E]),
    ] {
        assert_eq!(values(&sheet, &set), result);
        assert_eq!(worked(&sheet, &set), result);
    }
}

/// Document 02, Job 5: "A test that is no truth gives E, whatever reason it carried."
#[test]
fn a_test_that_is_an_err_gives_e_in_an_expression_too() {
    // if 1 / x0 < 2 then x1, 1 / x0 else 1, 2
    let rows = [
        [2, 1, 0, 0, 0],
        [1, 0, 0, 0, 0],
        [4, 1, 2, 0, 0],
        [5, 4, 3, 0, 0],
        [2, 2, 0, 0, 0],
        [4, 4, 5, 0, 0],
        [5, 6, 6, 0, 0],
        [1, 1, 0, 0, 0],
        [2, 1, 0, 0, 0],
        [1, 0, 0, 0, 0],
        [4, 9, 10, 0, 0],
        [5, 4, 11, 0, 0],
        [4, 8, 12, 0, 0],
        [2, 1, 0, 0, 0],
        [2, 2, 0, 0, 0],
        [4, 14, 15, 0, 0],
        [7, 7, 13, 16, 0],
    ];
    let sheet = accepted(&rows, "WW");
    for (set, result) in [
        ([Whole(0), Whole(7)], [E, E]),
        ([V, Whole(7)], [E, E]),
        ([Whole(1), Z], [Z, Whole(1)]),
        ([Whole(2), V], [V, Whole(0)]),
    ] {
        assert_eq!(values(&sheet, &set), result);
        assert_eq!(worked(&sheet, &set), result);
    }
}

/// "Set and result fields may hold Z and V": the quotient x0 / x1, their sum and x0 itself.
#[test]
fn bench_reads_and_prints_the_reasons() {
    let pair = [[1, 0, 0, 0, 0], [1, 1, 0, 0, 0]];
    let halves =
        [pair[0], pair[1], [4, 1, 2, 0, 0], [5, 4, 3, 0, 0], pair[0], pair[1], [4, 5, 6, 0, 0], [5, 1, 7, 0, 0]];
    let rows = [&halves[..], &[pair[0], [4, 8, 9, 0, 0], [4, 4, 10, 0, 0]]].concat();
    let line = |fields: &[&str]| fields.iter().map(|field| format!("{field:>11}")).collect::<String>() + "\n";
    let cases = [
        (["7", "0"], ["Z", "7", "7"]),
        (["-2147483648", "-1"], ["V", "V", "-2147483648"]),
        (["Z", "V"], ["Z", "Z", "Z"]),
        (["V", "Z"], ["V", "V", "V"]),
        (["E", "Z"], ["E", "E", "E"]),
    ];
    let sets: String = cases.iter().map(|(set, _)| line(set)).collect();
    let printed: String = cases.iter().map(|(_, results)| line(results)).collect();
    let got = String::from_utf8(bench(&write(&rows), b"WW\n", sets.as_bytes())).unwrap();
    assert_eq!(got, format!("     2     3     5\n{printed}"));
}

#[test]
fn a_for_that_never_iterates_breaks_a_width_rule() {
    assert_eq!(refused(&[[2, 1, 0, 0, 0], [1, 0, 0, 0, 0], [8, 0, 1, 1, 2]]), (8, 3));
    // And one that never returns.
    assert_eq!(refused(&[[2, 1, 0, 0, 0], [1, 0, 0, 0, 0], [9, 2, 0, 0, 0], [8, 0, 1, 1, 3]]), (8, 4));
}

#[test]
fn a_name_free_only_in_an_inner_row_c_is_free() {
    // let x = 1 in let x = x in x
    let rows = [[2, 1, 0, 0, 0], [1, 0, 0, 0, 0], [1, 0, 0, 0, 0], [6, 0, 1, 2, 3], [6, 0, 1, 1, 4]];
    let sheet = accepted(&rows, "");
    assert_eq!(sheet.figures, Figures { rows: 5, operators: 1, inputs: 0, results: 1 });
    assert_eq!(values(&sheet, &[]), [Whole(1)]);
}

#[test]
fn rounds_of_an_unused_loop_count() {
    // let a, b = factorial of 4 rounds, 7 in if true then b else a
    let mut rows = factorial();
    rows.extend([[2, 7, 0, 0, 0], [4, 20, 21, 0, 0], [3, 1, 0, 0, 0], [1, 6, 0, 0, 0], [1, 5, 0, 0, 0]]);
    rows.extend([[7, 23, 24, 25, 0], [6, 5, 2, 22, 26]]);
    let done = evaluate(&accepted(&rows, "W"), &[Whole(4)], 100).expect("an evaluation that ends");
    assert_eq!((done.set.used(), done.rounds), ([Whole(7)].as_slice(), 4));
}

#[test]
fn bench_refusals() {
    let print_with =
        |formula: &[u8], kinds: &[u8], sets: &[u8]| String::from_utf8(bench(formula, kinds, sets)).unwrap();
    let print = |formula: &[u8], sets: &[u8]| print_with(formula, b"W\n", sets);
    let identity = write(&[[1, 0, 0, 0, 0]]);
    assert_eq!(print(b"", b""), "     1     0\n");
    assert_eq!(print(&write(&[[1, 32, 0, 0, 0]]), b""), "     4     1\n");
    assert_eq!(print(&identity, b""), "     1     1     0\n");
    assert_eq!(print(&identity, &vec![b' '; 65_537]), "    13     0\n");
    assert_eq!(print(&identity, b"          1\n          2"), "    12     2\n");
    assert_eq!(print(&identity, b"-2147483648\n 2147483647\n"), "     1     1     2\n-2147483648\n 2147483647\n");
    for bad in ["-2147483649", " 2147483648", "         -0", "         01", "           ", "         1 "] {
        assert_eq!(
            print(&identity, format!("          1\n{bad}\n          1\n").as_bytes()),
            "    12     2\n",
            "{bad}"
        );
    }
    assert_eq!(print_with(&identity, b"T\n", b"          T\n          t\n"), "    12     2\n");
    for bad in ["          z", "          v", "         ZV", "         -Z", "Z          ", "         Z0"] {
        assert_eq!(print(&identity, format!("          Z\n{bad}\n").as_bytes()), "    12     2\n", "{bad}");
    }
    for bad in ["99999999999", "         +1", "-0000000001", "          -", "          1          1", "", "\n"] {
        assert_eq!(print(&identity, format!("{bad}\n").as_bytes()), "    12     1\n", "{bad}");
    }
    // A formula without inputs has empty set lines, and a kinds line without letters.
    let seven = write(&[[2, 7, 0, 0, 0]]);
    assert_eq!(print_with(&seven, b"\n", b"\n\n"), "     0     1     2\n          7\n          7\n");
    assert_eq!(print_with(&seven, b"\n", b"\n "), "    12     2\n");
    assert_eq!(print_with(&seven, b"", b"\n"), "    17     0\n");
}

/// Document 02, Job 6: 17, 18, "in this order after 9 and before 10", and the program's 13 and 12 behind them.
#[test]
fn bench_refusals_by_kinds() {
    let print =
        |rows: &[[u32; 5]], kinds: &[u8], sets: &[u8]| String::from_utf8(bench(&write(rows), kinds, sets)).unwrap();
    let identity = [[1, 0, 0, 0, 0]];
    for bad in ["", "W", "\n", "WW\n", "w\n", "F\n", "W\n\n", "W\r\n", " W\n"] {
        assert_eq!(print(&identity, bad.as_bytes(), &[b'x'; 70_000]), "    17     0\n", "{bad:?}");
    }
    let not = [[1, 0, 0, 0, 0], [5, 10, 1, 0, 0]];
    assert_eq!(print(&not, b"W\n", &[b'x'; 70_000]), "    18     2\n");
    assert_eq!(print(&not, b"T\n", &[b'x'; 70_000]), "    13     0\n");
    assert_eq!(print(&not, b"T\n", b"          T\n          Z\n          1\n"), "    12     3\n");
    assert_eq!(print(&not, b"T\n", b"          T\n          Z\n"), "     1     1     2\n          F\n          Z\n");
    // let x = 1 in 2 gets 9 whatever the line is.
    assert_eq!(print(&[[2, 1, 0, 0, 0], [2, 2, 0, 0, 0], [6, 0, 1, 1, 2]], b"", b""), "     9     3\n");
}

/// "A club compared a truth with a voltage": x0 = x1 with letters T and W.
#[test]
fn a_truth_compared_with_a_voltage_is_18() {
    let rows = [[1, 0, 0, 0, 0], [1, 1, 0, 0, 0], [4, 1, 2, 0, 0], [5, 7, 3, 0, 0]];
    assert_eq!(refused_with(&rows, b"TW\n"), (18, 4));
    assert_eq!(accepted(&rows, "WW").figures.inputs, 2);
}

/// An unending loop: what is ready before it is printed, and 36 stands last.
#[test]
fn bench_prints_36_last() {
    // for x = n do if x = 0 then x else iter x
    let rows = [
        [1, 1, 0, 0, 0],
        [1, 0, 0, 0, 0],
        [2, 0, 0, 0, 0],
        [4, 2, 3, 0, 0],
        [5, 7, 4, 0, 0],
        [1, 0, 0, 0, 0],
        [1, 0, 0, 0, 0],
        [9, 7, 0, 0, 0],
        [7, 5, 6, 8, 0],
        [8, 0, 1, 1, 9],
    ];
    let printed = bench(&write(&rows), b"W\n", b"          0\n          0\n          0\n          5\n          0\n");
    let printed = String::from_utf8(printed).unwrap();
    let lines: Vec<&str> = printed.lines().collect();
    assert_eq!(lines[0], "     1     1     5");
    assert_eq!(*lines.last().unwrap(), "    36     0");
    assert!(lines[1..lines.len() - 1].iter().all(|line| *line == "          0"));
    assert_eq!(lines.len(), 5);
}

/// Document 02, Job 9, from here on. A float by its pattern.
fn bits(pattern: u32) -> Value {
    Real(Float::of_bits(pattern).expect("a finite pattern"))
}

const PLUS_ZERO: u32 = 0;
const MINUS_ZERO: u32 = 2_147_483_648;
const ONE: u32 = 1_065_353_216;
const TWO: u32 = 1_073_741_824;
const GREATEST: u32 = 2_139_095_039;
const LEAST: u32 = 1;

/// A sheet of one operator over inputs.
fn one_operator(code: u32) -> Vec<[u32; 5]> {
    let (x, y) = ([1, 0, 0, 0, 0], [1, 1, 0, 0, 0]);
    match code {
        10 | 11 => vec![x, [5, code, 1, 0, 0]],
        _ => vec![x, y, [4, 1, 2, 0, 0], [5, code, 3, 0, 0]],
    }
}

/// "Codes 1 to 4, 6, 7 and 11 take two (or one) such values as IEEE 754 does, to nearest even, negate turning the sign; a zero divisor, also -0, gives Z,
/// and another result that is no finite number gives V."
#[test]
fn operators_on_floats() {
    let tenths = [1_036_831_949, 1_045_220_557];
    let cases = [
        (1, tenths, bits(1_050_253_722)),
        (1, [1_266_679_808, ONE], bits(1_266_679_808)),
        (1, [GREATEST, GREATEST], V),
        (1, [MINUS_ZERO, MINUS_ZERO], bits(MINUS_ZERO)),
        (2, [ONE, ONE], bits(PLUS_ZERO)),
        (2, [ONE, TWO], bits(ONE + MINUS_ZERO)),
        (3, [GREATEST, TWO], V),
        (3, [LEAST, LEAST], bits(PLUS_ZERO)),
        (4, [LEAST, TWO], bits(PLUS_ZERO)),
        (4, [ONE, MINUS_ZERO], Z),
        (4, [PLUS_ZERO, PLUS_ZERO], Z),
        (4, [PLUS_ZERO, MINUS_ZERO], Z),
        (4, [GREATEST, LEAST], V),
        (6, [MINUS_ZERO, PLUS_ZERO], Truth(false)),
        (6, [ONE, TWO], Truth(true)),
        (7, [MINUS_ZERO, PLUS_ZERO], Truth(true)),
        (7, [ONE, ONE + 1], Truth(false)),
    ];
    for (code, patterns, result) in cases {
        let (sheet, set) = (accepted(&one_operator(code), "RR"), patterns.map(bits));
        assert_eq!(values(&sheet, &set), [result], "code {code} of {patterns:?}");
        assert_eq!(worked(&sheet, &set), [result], "code {code} of {patterns:?}");
    }
    let negate = accepted(&one_operator(11), "R");
    for (value, result) in [(bits(PLUS_ZERO), bits(MINUS_ZERO)), (bits(ONE), bits(ONE + MINUS_ZERO)), (Z, Z), (V, V)] {
        assert_eq!(values(&negate, &[value]), [result]);
        assert_eq!(worked(&negate, &[value]), [result]);
    }
    // An err beside a float is handed on.
    for err in Value::ERRS {
        for code in [1, 2, 3, 4, 6, 7] {
            let sheet = accepted(&one_operator(code), "RR");
            assert_eq!(values(&sheet, &[bits(ONE), err]), [err]);
            assert_eq!(values(&sheet, &[err, bits(MINUS_ZERO)]), [err]);
        }
    }
}

/// "Row kind 10 is a constant: a, 0 to 999,999, divided by 1000 with one rounding."
#[test]
fn constants_with_a_fraction() {
    for (a, pattern) in [(0, 0), (1, 981_668_463), (100, 1_036_831_949), (1_000, ONE), (999_999, 1_148_846_064)] {
        let rows = [[10, a, 0, 0, 0]];
        let sheet = accepted(&rows, "");
        assert_eq!(sheet.figures, Figures { rows: 1, operators: 1, inputs: 0, results: 1 });
        assert_eq!(values(&sheet, &[]), [bits(pattern)]);
        assert_eq!(worked(&sheet, &[]), [bits(pattern)]);
        let printed = String::from_utf8(bench(&write(&rows), b"\n", b"\n")).unwrap();
        assert_eq!(printed, format!("     0     1     1\n{:>11}\n", format!("R{pattern}")));
    }
    for unlisted in [[10, 1, 1, 0, 0], [10, 1, 0, 1, 0], [10, 1, 0, 0, 1]] {
        assert_eq!(refused(&[unlisted]), (4, 1));
    }
    assert_eq!(refused(&[[11, 0, 0, 0, 0]]), (4, 1));
}

/// "In files the field is R and directly after it the bit pattern in decimal without leading zeros, right-justified together. Patterns that are not
/// finite are refused with 12".
#[test]
fn bench_reads_and_prints_floats() {
    let print = |kinds: &[u8], field: &str| {
        let sets = format!("          E\n{field}\n");
        String::from_utf8(bench(&write(&[[1, 0, 0, 0, 0]]), kinds, sets.as_bytes())).unwrap()
    };
    let good =
        ["         R0", "         R1", "R2147483648", "R2139095039", "R4286578687", "R1065353216", "  R16777216"];
    for field in good.into_iter().chain(["          Z", "          V"]) {
        assert_eq!(print(b"R\n", field), format!("     1     1     2\n          E\n{field}\n"));
    }
    for field in good {
        assert_eq!([b"W\n", b"T\n"].map(|kinds| print(kinds, field)), ["    12     2\n"; 2], "{field}");
    }
    for field in ["          1", "          0", "          T", "          F"] {
        assert_eq!(print(b"R\n", field), "    12     2\n", "{field}");
    }
    let not_finite = ["R2139095040", "R2139095041", "R2147483647", "R4286578688", "R4294967295"];
    let malformed =
        ["          R", "        R-1", "        R00", "        R01", "R0000000001", "        R1 ", "R         1"];
    let others =
        ["R4294967296", "R9999999999", "         r1", "         1R", "        R+1", "       R1.5", "        -R1"];
    for field in not_finite.into_iter().chain(malformed).chain(others) {
        for kinds in [b"R\n", b"W\n"] {
            assert_eq!(print(kinds, field), "    12     2\n", "{field}");
        }
    }
}

/// "Whole numbers and floats in one operator are a wrong kind; after any wrong kind a number's kind goes on as W."
#[test]
fn kinds_of_floats() {
    for code in [1, 2, 3, 4, 6, 7] {
        assert_eq!(accepted(&one_operator(code), "RR").figures.inputs, 2);
        for mixed in [b"RW\n", b"WR\n", b"RT\n", b"TR\n"] {
            assert_eq!(refused_with(&one_operator(code), mixed), (18, 4), "code {code}");
        }
    }
    for code in [5, 8, 9] {
        assert_eq!(refused_with(&one_operator(code), b"RR\n"), (18, 4), "code {code}");
    }
    assert_eq!(refused_with(&one_operator(10), b"R\n"), (18, 2));
    // let y = x + 1 in y + 1 with the second sum before the first: of a float x the first alone is at fault; with 1.0 for the last constant both are
    let behind = |constant: [u32; 5]| {
        let (x, y, one) = ([1, 0, 0, 0, 0], [1, 1, 0, 0, 0], [2, 1, 0, 0, 0]);
        let last = [y, constant, [4, 1, 2, 0, 0], [5, 1, 3, 0, 0]];
        [&last[..], &[x, one, [4, 5, 6, 0, 0], [5, 1, 7, 0, 0], [6, 1, 1, 8, 4]]].concat()
    };
    assert_eq!(refused_with(&behind([2, 1, 0, 0, 0]), b"R\n"), (18, 8));
    assert_eq!(refused_with(&behind([10, 1_000, 0, 0, 0]), b"R\n"), (18, 4));
}

/// Through a loop's gates: "for i, y = n, s do if 0 < i then iter i - 1, y / 2 else y" halves a float.
#[test]
fn floats_travel_through_loops() {
    let (i, y, n, s) = ([1, 0, 0, 0, 0], [1, 1, 0, 0, 0], [1, 2, 0, 0, 0], [1, 3, 0, 0, 0]);
    let start = [n, s, [4, 1, 2, 0, 0], [2, 0, 0, 0, 0], i, [4, 4, 5, 0, 0], [5, 6, 6, 0, 0]];
    let less = [i, [2, 1, 0, 0, 0], [4, 8, 9, 0, 0], [5, 2, 10, 0, 0]];
    let half = [y, [10, 2_000, 0, 0, 0], [4, 12, 13, 0, 0], [5, 4, 14, 0, 0]];
    let end = [[4, 11, 15, 0, 0], [9, 16, 0, 0, 0], y, [7, 7, 17, 18, 0], [8, 0, 2, 3, 19]];
    let sheet = accepted(&[&start[..], &less, &half, &end].concat(), "WR");
    for (set, result) in [
        ([Whole(0), bits(MINUS_ZERO)], bits(MINUS_ZERO)),
        ([Whole(2), bits(ONE)], bits(1_048_576_000)),
        ([Whole(149), bits(ONE)], bits(LEAST)),
        ([Whole(150), bits(ONE)], bits(PLUS_ZERO)),
        ([Whole(150), bits(ONE + MINUS_ZERO)], bits(MINUS_ZERO)),
        ([Whole(3), V], V),
        ([E, bits(ONE)], E),
    ] {
        assert_eq!(values(&sheet, &set), [result]);
        assert_eq!(worked(&sheet, &set), [result]);
    }
    assert_eq!(evaluate(&sheet, &[Whole(1), Whole(1)], 9), refusal(12));
    assert_eq!(evaluate(&sheet, &[bits(ONE), bits(ONE)], 9), refusal(12));
}

/// Patterns that are not finite "are refused with 12, in a stored token with 31". A set is lent as tag 4 and the four bytes, lowest first.
#[test]
fn bytes_of_floats_that_are_not_finite() {
    let rows = [[1, 0, 0, 0, 0], [10, 500, 0, 0, 0], [4, 1, 2, 0, 0], [5, 1, 3, 0, 0]];
    let (mut mem, mut tally) = (vec![0; memory::need(1)], Tally::default());
    assert_eq!(memory::start(&write(&rows), b"R\n", 1, &mut mem, &mut tally).refusal, 0);
    let started = mem.clone();
    let bytes = |pattern: u32| [&[4][..], &pattern.to_le_bytes()].concat();
    for pattern in [GREATEST + 1, GREATEST + 2, MINUS_ZERO - 1, GREATEST + 1 + MINUS_ZERO, u32::MAX] {
        assert_eq!(memory::push(&mut mem, &bytes(pattern), &mut tally).refusal, 12);
        assert_eq!(mem, started);
    }
    assert_eq!(memory::push(&mut mem, &bytes(ONE), &mut tally).refusal, 0);
    // The token on the input link, with every other pattern in its place.
    let link = usize::from(u16::from_le_bytes([mem[10], mem[11]]));
    let token = 21_760 + 6 * link;
    assert_eq!(mem[token..token + 6], [1, 4, 0, 0, 0x80, 0x3f]);
    let stored = |pattern: u32| {
        let mut copy = mem.clone();
        copy[token + 2..token + 6].copy_from_slice(&pattern.to_le_bytes());
        memory::run(&mut copy, 100, &mut Tally::default()).refusal
    };
    for pattern in [GREATEST + 1, MINUS_ZERO - 1, GREATEST + 1 + MINUS_ZERO, u32::MAX] {
        assert_eq!(stored(pattern), 31);
    }
    for pattern in [PLUS_ZERO, MINUS_ZERO, GREATEST, GREATEST + MINUS_ZERO, LEAST] {
        assert_eq!(stored(pattern), 0);
    }
    // What a constant's register may hold.
    let constant = (0..3).find(|i| mem[256 + 16 * i] == 12).expect("a constant");
    let register = 16_640 + 5 * constant;
    assert_eq!(mem[register..register + 5], [4, 0, 0, 0, 0x3f]);
    let held = |tag: u8, bits: u32| {
        let mut copy = mem.clone();
        copy[register] = tag;
        copy[register + 1..register + 5].copy_from_slice(&bits.to_le_bytes());
        memory::run(&mut copy, 100, &mut Tally::default()).refusal
    };
    for (tag, bits) in [(1, 0), (1, 999_999), (2, 0), (2, 1), (4, 0), (4, LEAST), (4, 1_148_846_064)] {
        assert_eq!(held(tag, bits), 0, "{tag} {bits}");
    }
    let beyond = [(4, 1_148_846_065), (4, GREATEST), (4, GREATEST + 1), (4, MINUS_ZERO), (1, 1_000_000), (1, u32::MAX)];
    for (tag, bits) in beyond.into_iter().chain([(2, 2), (3, 0), (3, 1), (3, 2), (0, 0), (5, 0)]) {
        assert_eq!(held(tag, bits), 31, "{tag} {bits}");
    }
    // A letter may be R; r is none.
    assert_eq!(mem[106], b'R');
    mem[106] = b'r';
    assert_eq!(memory::run(&mut mem, 100, &mut tally).refusal, 31);
}
