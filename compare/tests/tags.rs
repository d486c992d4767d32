// The machine with tags (document 02, Job 12): the life of a tag, case by case, and random lists of calls held to evaluation, to the first machine and to a run
// that looks at every operator and tag.

use compare::eval::evaluate;
use compare::examples::{factorial, lesser, slow_sum};
use compare::graph::Kind;
use compare::machine::{Machine as First, Ran};
use compare::random::{fitting_set, loopless_sheet, quick_sheet, Made, Rng};
use compare::sheet::{self, refuse, Refusal, Sheet};
use compare::tags::{read, Machine, Tag, TAGS};
use compare::value::Value::{self, Truth, Whole};

fn machine(made: &Made) -> Machine {
    Machine::start(&read(&made.bytes, &made.kinds).expect("a sheet without for"))
}

/// Fires what is able under a tag, but for adds where these are to wait.
fn fire_under(machine: &mut Machine, tag: Tag, adds: bool) {
    let waits = |machine: &Machine, number: usize| !adds && machine.graph.operators[number].kind == Kind::Operator(1);
    while let Some((number, _)) =
        machine.able_pairs().into_iter().find(|&(number, other)| other == tag && !waits(machine, number))
    {
        machine.fire(number, tag).expect("an able operator");
    }
}

fn taken(machine: &mut Machine, tag: Tag) -> Result<Value, Refusal> {
    machine.take(tag).map(|set| set.values[0])
}

#[test]
fn a_quick_set_overtakes_a_slow_one() {
    let mut machine = machine(&slow_sum());
    assert_eq!(machine.push(&[Whole(20), Truth(false)]), Ok(0));
    assert_eq!(machine.push(&[Whole(40), Truth(true)]), Ok(1));
    fire_under(&mut machine, 1, true);
    assert_eq!(taken(&mut machine, 0), refuse(38, 0));
    assert_eq!(taken(&mut machine, 1), Ok(Whole(1)));
    assert_eq!(machine.push(&[Whole(50), Truth(true)]), Ok(1));
    assert_eq!(machine.run(u32::MAX).refusal, 0);
    assert_eq!((taken(&mut machine, 0), taken(&mut machine, 1)), (Ok(Whole(23)), Ok(Whole(1))));
}

#[test]
fn a_tag_is_free_once_its_last_token_is_absorbed() {
    let mut machine = machine(&slow_sum());
    assert_eq!(machine.push(&[Whole(20), Truth(true)]), Ok(0));
    fire_under(&mut machine, 0, false);
    assert_eq!(taken(&mut machine, 0), Ok(Whole(1)));
    assert!(machine.tokens_with(0) > 0 && !machine.is_free(0));
    assert_eq!(machine.push(&[Whole(20), Truth(false)]), Ok(1));
    assert_eq!(taken(&mut machine, 0), refuse(38, 0));
    fire_under(&mut machine, 0, true);
    assert!(machine.is_free(0));
    assert_eq!(machine.push(&[Whole(30), Truth(false)]), Ok(0));
    machine.run(u32::MAX);
    assert_eq!((taken(&mut machine, 0), taken(&mut machine, 1)), (Ok(Whole(33)), Ok(Whole(23))));
}

#[test]
fn there_is_no_seventeenth_tag() {
    let mut machine = machine(&lesser());
    for tag in 0..TAGS {
        assert_eq!(machine.push(&[Whole(100), Whole(tag as i32)]), Ok(tag));
    }
    assert_eq!(machine.push(&[Whole(1), Whole(2)]), refuse(37, 0));
    assert_eq!(machine.push(&[Whole(1)]), refuse(12, 0));
    machine.run(u32::MAX);
    assert_eq!(machine.push(&[Whole(1), Whole(2)]), refuse(37, 0));
    assert_eq!(taken(&mut machine, 5), Ok(Whole(5)));
    assert_eq!(machine.push(&[Whole(1), Whole(2)]), Ok(5));
    assert_eq!((machine.fire(0, TAGS), taken(&mut machine, TAGS)), (refuse(34, 0), refuse(38, 0)));
}

#[test]
fn an_identifier_is_taken_from_its_input_link() {
    let mut machine = machine(&Made { bytes: sheet::write(&[[1, 0, 0, 0, 0]]), kinds: b"W\n".to_vec() });
    assert_eq!(machine.push(&[Whole(7)]), Ok(0));
    assert_eq!(taken(&mut machine, 0), Ok(Whole(7)));
    assert_eq!(machine.push(&[Whole(8)]), Ok(0));
}

#[test]
fn a_for_is_refused_behind_all_else() {
    let Made { bytes, kinds } = factorial();
    let refusal = |kinds: &[u8]| read(&bytes, kinds).err();
    assert_eq!(refusal(&kinds), Some(Refusal { number: 19, row: 0 }));
    assert_eq!(refusal(b"WW\n"), Some(Refusal { number: 17, row: 0 }));
    assert_eq!(refusal(b"T\n"), Some(Refusal { number: 18, row: 7 }));
}

fn random_sheet(case: u64, rng: &mut Rng) -> Sheet {
    if case % 3 == 0 { loopless_sheet(rng) } else { quick_sheet(rng) }.sheet()
}

/// One set in a machine with tags is one set in a first machine of capacity 1, link by link, whatever its tag and whatever the other tags do.
#[test]
fn the_tokens_of_a_tag_are_a_first_machine() {
    let mut rng = Rng::new(12);
    for case in 0..100 {
        let sheet = random_sheet(case, &mut rng);
        let mut machine = Machine::start(&sheet);
        let graph = machine.graph.clone();
        let mut firsts: Vec<First<'_>> = vec![];
        for tag in 0..rng.between(1, TAGS as usize) as Tag {
            let set = fitting_set(&sheet, &mut rng);
            let mut first = First::start(&graph, 1).expect("a capacity in range");
            assert_eq!((machine.push(&set), first.push(&set)), (Ok(tag), Ok(())));
            firsts.push(first);
        }
        loop {
            let able = machine.able_pairs();
            let alone = firsts.iter().enumerate();
            let able_alone = |(tag, first): (usize, &First<'_>)| {
                (0..graph.operators.len()).filter(|&i| first.can_fire(i)).map(|i| (i, tag as Tag)).collect::<Vec<_>>()
            };
            let mut wanted: Vec<(usize, Tag)> = alone.flat_map(able_alone).collect();
            wanted.sort_unstable();
            assert_eq!(able, wanted);
            if able.is_empty() {
                break;
            }
            let (number, tag) = rng.pick(&able);
            assert_eq!((machine.fire(number, tag), firsts[tag as usize].fire(number)), (Ok(()), Ok(())));
        }
        for (tag, mut first) in (0..).zip(firsts) {
            assert_eq!(machine.take(tag), first.take());
            assert!(machine.is_free(tag));
        }
    }
}

/// "Run picks the least-numbered able operator and then its lowest able tag", by looking at all of them before each firing.
fn plain_run(machine: &mut Machine, firings: u32) -> Ran {
    for count in 0..=firings {
        match machine.able_pairs().into_iter().min() {
            None => return Ran { refusal: 0, count },
            Some(_) if count == firings => return Ran { refusal: 36, count },
            Some((number, tag)) => machine.fire(number, tag).expect("an able operator"),
        }
    }
    unreachable!("the last firing is looked at")
}

#[test]
fn a_run_fires_the_least_operator_under_its_lowest_tag() {
    let mut rng = Rng::new(13);
    for case in 0..120 {
        let sheet = random_sheet(case, &mut rng);
        let (mut machine, mut other) = (Machine::start(&sheet), Machine::start(&sheet));
        for _ in 0..rng.between(1, 4) {
            let set = fitting_set(&sheet, &mut rng);
            assert_eq!(machine.push(&set), other.push(&set));
            let firings = rng.below(30) as u32;
            assert_eq!(machine.run(firings), plain_run(&mut other, firings));
            assert_eq!((&machine.links, &machine.untaken), (&other.links, &other.untaken));
        }
    }
}

/// "each taken result is that of the set last pushed under its tag, and when nothing can fire every tag is free or has its whole result", in any order of calls.
#[test]
fn each_result_is_that_of_its_tags_last_set() {
    let mut rng = Rng::new(14);
    let (mut overtook, mut left) = (0, 0);
    for case in 0..600 {
        let sheet = random_sheet(case, &mut rng);
        let mut machine = Machine::start(&sheet);
        let (mut sets, mut pushes) = (vec![None; TAGS as usize], 0);
        for _ in 0..150 {
            match rng.below(10) {
                0 => {
                    let set = fitting_set(&sheet, &mut rng);
                    if let Ok(tag) = machine.push(&set) {
                        assert_eq!(sets[tag as usize].replace((set, pushes)), None);
                        pushes += 1;
                    }
                }
                1 => {
                    if machine.run(rng.below(40) as u32).refusal == 0 {
                        assert!((0..TAGS).all(|tag| machine.is_free(tag) || machine.has_result(tag)));
                    }
                }
                2..=4 => {
                    let tag = rng.below(TAGS as usize) as Tag;
                    if let Ok(result) = machine.take(tag) {
                        let (set, place) = sets[tag as usize].take().expect("a pushed set");
                        assert_eq!(evaluate(&sheet, &set, 0).map(|done| done.set), Ok(result));
                        overtook += u32::from(sets.iter().flatten().any(|&(_, other)| other < place));
                        left += u32::from(machine.tokens_with(tag) > 0);
                    }
                }
                _ => {
                    let able = machine.able_pairs();
                    if !able.is_empty() {
                        let (number, tag) = rng.pick(&able);
                        machine.fire(number, tag).expect("an able operator");
                    }
                }
            }
        }
    }
    assert!(overtook > 1_000 && left > 200, "{overtook}, {left}");
}
