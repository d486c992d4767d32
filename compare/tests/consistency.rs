// Demand 3 on random sheets and sets: at every capacity, in any order of pushes, firings, runs of both sorts and takes, the machine
// gives what direct evaluation gives. And what the papers say of a machine at rest, of how often each operator fires, and of how long a set waits.

use compare::bench::{bench, write_set};
use compare::bytes::{encode_result, encode_set, OUT_BYTES};
use compare::eval::evaluate;
use compare::graph::{build, Graph, Kind};
use compare::machine::{Machine, RanByRounds};
use compare::memory::{self, RoundsAnswer};
use compare::random::{accepted_sheet, fitting_set, heavy_sheet, Made, Rng};
use compare::sheet::Sheet;
use compare::tally::Tally;
use compare::value::{ResultSet, Value};

/// More rounds than most evaluations here need; one that needs more counts as one that does not end.
const ROUNDS: u32 = 60;

/// A sheet, its graph with the operators in a random order, and sets with what evaluation gives for them.
struct Case {
    made: Made,
    sheet: Sheet,
    graph: Graph,
    sets: Vec<Vec<Value>>,
    expected: Vec<Option<ResultSet>>,
}

fn case(heavy: bool, rng: &mut Rng) -> Case {
    let made = if heavy { heavy_sheet(rng) } else { accepted_sheet(rng) };
    let sheet = made.sheet();
    let mut graph = build(&sheet);
    for last in (1..graph.operators.len()).rev() {
        graph.operators.swap(last, rng.below(last + 1));
    }
    let sets: Vec<Vec<Value>> = (0..rng.between(1, 20)).map(|_| fitting_set(&sheet, rng)).collect();
    let expected = sets.iter().map(|set| evaluate(&sheet, set, ROUNDS).ok().map(|done| done.set)).collect();
    Case { made, sheet, graph, sets, expected }
}

/// How many results of a list of calls were held to evaluation.
fn follow(case: &Case, capacity: usize, calls: usize, rng: &mut Rng) -> usize {
    let mut machine = Machine::start(&case.graph, capacity).expect("a capacity in its range");
    let (mut pushed, mut taken) = (0, 0);
    for _ in 0..calls {
        match rng.below(10) {
            0..=2 if pushed < case.sets.len() => pushed += usize::from(machine.push(&case.sets[pushed]).is_ok()),
            3 if rng.chance(50) => drop(machine.run(rng.below(60) as u32)),
            3 => drop(machine.run_by_rounds(rng.below(12) as u32)),
            4 | 5 => taken += usize::from(take(case, &mut machine, taken)),
            _ => drop(machine.fire(rng.below(case.graph.operators.len() + 1))),
        }
        assert_eq!(machine.untaken() as usize, pushed - taken);
        if !(0..case.graph.operators.len()).any(|number| machine.can_fire(number)) {
            rested(case, &machine, pushed - taken);
        }
    }
    drain(case, &mut machine, &mut taken);
    taken
}

/// Takes, and holds an accepted take to evaluation if it and every one before ends.
fn take(case: &Case, machine: &mut Machine, taken: usize) -> bool {
    let Ok(set) = machine.take() else {
        return false;
    };
    let ending = case.expected[..=taken].iter().all(Option::is_some);
    if ending {
        assert_eq!(Some(set), case.expected[taken], "{}", String::from_utf8_lossy(&case.made.bytes));
    }
    true
}

/// "when nothing can fire, either every pushed set has been taken, or the oldest untaken one has its whole result".
fn rested(case: &Case, machine: &Machine, untaken: usize) {
    assert!(untaken == 0 || machine.clone().take().is_ok(), "{}", String::from_utf8_lossy(&case.made.bytes));
    if untaken == 0 {
        only_loop_controls_wait(case, machine);
    }
}

/// At rest with all taken, a false waits at the control of each FM and FS that has fired, and nothing else anywhere.
fn only_loop_controls_wait(case: &Case, machine: &Machine) {
    let mut expected = vec![0; case.graph.links];
    for (number, operator) in case.graph.operators.iter().enumerate() {
        if matches!(operator.kind, Kind::FM | Kind::FS) && machine.has_fired(number) {
            expected[operator.inputs[0]] = 1;
        }
    }
    for (link, &count) in expected.iter().enumerate() {
        assert_eq!(machine.waiting(link), vec![Value::Truth(false); count]);
    }
}

/// Works what is pushed, as far as a number of firings allows.
fn drain(case: &Case, machine: &mut Machine, taken: &mut usize) {
    for _ in 0..40 {
        machine.run(5_000);
        while take(case, machine, *taken) {
            *taken += 1;
        }
    }
}

#[test]
fn every_order_of_calls_gives_what_evaluation_gives() {
    let mut rng = Rng::new(1978);
    let mut held = 0;
    let mut values = 0;
    for round in 0..1500 {
        let case = case(false, &mut rng);
        values += case.expected.iter().flatten().filter(|set| !set.values[0].is_err()).count();
        let capacity = round % 16 + 1;
        let calls = rng.pick(&[20, 200, 1000]);
        held += follow(&case, capacity, calls, &mut rng);
    }
    assert!(held > 5_000, "too few results were compared: {held}");
    assert!(values > 3_000, "too few results are no err: {values}");
}

#[test]
fn heavy_sheets_too() {
    let mut rng = Rng::new(120);
    let mut held = 0;
    for round in 0..60 {
        let case = case(true, &mut rng);
        assert!(case.sheet.figures.operators <= 1024);
        held += follow(&case, round % 16 + 1, 2_000, &mut rng);
    }
    assert!(held > 100, "too few results were compared: {held}");
}

/// Document 02, Job 10: "when nothing can fire and every pushed set is taken, each operator has fired a number of times that depends on the sheet and the
/// sets alone, in every order and at every capacity."
#[test]
fn each_operator_fires_as_often_in_every_order_and_at_every_capacity() {
    let mut rng = Rng::new(10);
    let (mut compared, mut fired) = (0, 0);
    for round in 0..800 {
        let case = case(round % 50 == 0, &mut rng);
        if case.expected.iter().any(Option::is_none) {
            continue;
        }
        let (one, other) = (round % 16 + 1, rng.between(1, 16));
        let times = work_all(&case, one, &mut rng);
        for capacity in [one, other, 1] {
            assert_eq!(work_all(&case, capacity, &mut rng), times, "{}", String::from_utf8_lossy(&case.made.bytes));
        }
        compared += 1;
        fired += times.iter().filter(|&&count| count > case.sets.len() as u64).count();
    }
    assert!(compared > 400 && fired > 1_000, "too few were compared: {compared}, and operators in loops: {fired}");
}

/// Works all sets by calls at random, until each is taken and nothing can fire: how often each operator has fired.
fn work_all(case: &Case, capacity: usize, rng: &mut Rng) -> Vec<u64> {
    let mut machine = Machine::start(&case.graph, capacity).expect("a capacity in its range");
    let operators = case.graph.operators.len();
    let (mut pushed, mut taken) = (0, 0);
    // Some orders are mostly of one sort of call.
    let (likely, percent) = (rng.below(5), rng.pick(&[0, 50, 90]));
    while taken < case.sets.len() || (0..operators).any(|number| machine.can_fire(number)) {
        match if rng.chance(percent) { likely } else { rng.below(5) } {
            0 if pushed < case.sets.len() => pushed += usize::from(machine.push(&case.sets[pushed]).is_ok()),
            1 => drop(machine.run(rng.below(40) as u32)),
            2 => drop(machine.run_by_rounds(rng.below(4) as u32)),
            3 => taken += usize::from(take(case, &mut machine, taken)),
            _ => drop(machine.fire(rng.below(operators + 1))),
        }
    }
    machine.times().to_vec()
}

/// The program's output is its first line and a line for each set as evaluation gives it.
#[test]
fn bench_prints_what_evaluation_gives() {
    let mut rng = Rng::new(36);
    let mut compared = 0;
    for _ in 0..300 {
        let case = case(false, &mut rng);
        if case.expected.iter().any(Option::is_none) {
            continue;
        }
        let sets: String = case.sets.iter().map(|set| write_set(set)).collect();
        let figures = case.sheet.figures;
        let mut printed = format!("{:6}{:6}{:6}\n", figures.inputs, figures.results, case.sets.len());
        printed.extend(case.expected.iter().flatten().map(|set| write_set(set.used())));
        assert_eq!(String::from_utf8(bench(&case.made.bytes, &case.made.kinds, sets.as_bytes())).unwrap(), printed);
        compared += 1;
    }
    assert!(compared > 150, "too few were compared: {compared}");
}

/// Run finds the least-numbered able operator as a search from the first one does.
#[test]
fn run_fires_the_least_numbered_able_operator() {
    let mut rng = Rng::new(7);
    for _ in 0..200 {
        let case = case(false, &mut rng);
        let mut quick = Machine::start(&case.graph, 2).expect("a capacity in its range");
        let mut plain = quick.clone();
        for set in case.sets.iter().take(3) {
            assert_eq!(quick.push(set), plain.push(set));
        }
        let count = quick.run(300).count;
        for _ in 0..count {
            let least = (0..case.graph.operators.len()).find(|&number| plain.can_fire(number));
            plain.fire(least.expect("something able")).expect("an able operator");
        }
        for link in 0..case.graph.links {
            assert_eq!(quick.waiting(link), plain.waiting(link));
        }
    }
}

/// How often a wait was held to its bound, how often a set behind it does not end, and how often one round less was too few.
#[derive(Default)]
struct Waits {
    held: u32,
    looping: u32,
    exact: u32,
}

/// Document 02, Job 7: where the oldest untaken set's evaluation and that of every set before it ends, "After at most that many rounds its whole
/// result is ready."
#[test]
fn nobody_waits_longer_than_what_is_owed() {
    let mut rng = Rng::new(7_007);
    let mut waits = Waits::default();
    for round in 0..3_000 {
        let case = case(round % 50 == 0, &mut rng);
        wait(&case, round % 16 + 1, &mut waits, &mut rng);
    }
    let Waits { held, looping, exact } = waits;
    assert!(held > 4_000 && looping > 200 && exact > 50, "too few: {held}, {looping}, {exact}");
}

fn wait(case: &Case, capacity: usize, waits: &mut Waits, rng: &mut Rng) {
    let mut machine = Machine::start(&case.graph, capacity).expect("a capacity in its range");
    let (mut pushed, mut taken) = (0, 0);
    for _ in 0..rng.pick(&[10, 60, 300]) {
        match rng.below(12) {
            0..=3 if pushed < case.sets.len() => pushed += usize::from(machine.push(&case.sets[pushed]).is_ok()),
            4 => drop(machine.run(rng.below(60) as u32)),
            5 => drop(machine.run_by_rounds(rng.below(6) as u32)),
            6 => taken += usize::from(take(case, &mut machine, taken)),
            7 if rng.chance(30) => ready_after_rounds(case, capacity, &machine, (pushed, taken), waits),
            _ => drop(machine.fire(rng.below(case.graph.operators.len() + 1))),
        }
    }
}

fn ready_after_rounds(
    case: &Case,
    capacity: usize,
    machine: &Machine,
    (pushed, taken): (usize, usize),
    waits: &mut Waits,
) {
    if taken == pushed || case.expected[..=taken].iter().any(Option::is_none) {
        return;
    }
    let owed = owed(case, capacity, machine, taken);
    let ready = |rounds: u32| {
        let mut copy = machine.clone();
        copy.run_by_rounds(rounds);
        take(case, &mut copy, taken)
    };
    assert!(ready(owed), "{owed} rounds\n{}", String::from_utf8_lossy(&case.made.bytes));
    waits.held += 1;
    waits.looping += u32::from(case.expected[taken + 1..pushed].iter().any(Option::is_none));
    waits.exact += u32::from(owed > 0 && !ready(owed - 1));
}

/// "Count the firings that working one set after another would make up to and including that set, less those of them already made": operator by
/// operator, by a second machine worked in turn.
fn owed(case: &Case, capacity: usize, machine: &Machine, taken: usize) -> u32 {
    let mut in_turn = Machine::start(&case.graph, capacity).expect("a capacity in its range");
    for set in &case.sets[..=taken] {
        in_turn.push(set).expect("a machine at rest");
        assert_eq!(in_turn.run(10_000_000).refusal, 0);
        in_turn.take().expect("a whole result");
    }
    let left = in_turn.times().iter().zip(machine.times()).map(|(there, here)| there.saturating_sub(*here));
    left.sum::<u64>() as u32
}

/// The two machines here run by the same rounds: the one over bytes and the one over queues.
#[test]
fn rounds_on_bytes_are_those_on_queues() {
    let mut rng = Rng::new(70);
    let mut fired = 0;
    for round in 0..600 {
        let mut case = case(round % 50 == 0, &mut rng);
        case.graph = build(&case.sheet);
        fired += rounds_on_both(&case, round % 16 + 1, &mut rng);
    }
    assert!(fired > 50_000, "too few firings were compared: {fired}");
}

fn rounds_on_both(case: &Case, capacity: usize, rng: &mut Rng) -> u64 {
    let mut machine = Machine::start(&case.graph, capacity).expect("a capacity in its range");
    let (mut mem, mut tally) = (vec![0; memory::need(capacity)], Tally::default());
    assert_eq!(memory::start(&case.made.bytes, &case.made.kinds, capacity as u32, &mut mem, &mut tally).refusal, 0);
    let (mut out, mut all) = ([0; OUT_BYTES], 0);
    for set in &case.sets {
        let pushed = machine.push(set).map_or_else(|refusal| refusal.number, |()| 0);
        assert_eq!(memory::push(&mut mem, &encode_set(set), &mut tally).refusal, pushed);
        let lent = rng.pick(&[0, 1, 2, 5, 40]);
        let RanByRounds { refusal, rounds, firings } = machine.run_by_rounds(lent);
        assert_eq!(memory::run_rounds(&mut mem, lent, &mut tally), RoundsAnswer { refusal, rounds, firings });
        assert!(if refusal == 36 { rounds == lent } else { rounds <= lent });
        all += firings;
        match machine.take() {
            Ok(result) => {
                assert_eq!(memory::take(&mut mem, &mut out, &mut tally).count, result.width as u32);
                assert_eq!(out, encode_result(&result)[..]);
            }
            Err(refusal) => assert_eq!(memory::take(&mut mem, &mut out, &mut tally).refusal, refusal.number),
        }
    }
    // "the firings shown are their sum"
    assert_eq!(u64::from(tally.firings), machine.times().iter().sum::<u64>());
    all
}
