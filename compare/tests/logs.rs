// The checker of logs (document 02, Job 3): cases written by hand, and random logs held to the machine that knows nothing of memory.

use compare::bytes::{decode_set, encode_result, encode_set, OUT_BYTES, VALUE_BYTES};
use compare::graph::build;
use compare::log::{check, room_for, write, LogAnswer, LINE_BYTES};
use compare::machine::Machine;
use compare::memory;
use compare::random::logs::{accepted_log, Lent, FAULTS};
use compare::random::{accepted_sheet, Made, Rng};
use compare::sheet;
use compare::value::Value;
use std::collections::BTreeMap;

const HELD: u8 = 0x5a;

/// "- x0": one operator.
fn negation() -> Made {
    Made { bytes: sheet::write(&[[1, 0, 0, 0, 0], [5, 11, 1, 0, 0]]), kinds: b"W\n".to_vec() }
}

/// A log on the negation of two sets, 7 and 8, at capacity 2.
fn lent(log: Vec<u8>) -> Lent {
    let sets = encode_set(&[Value::Whole(7), Value::Whole(8)]);
    Lent { made: negation(), capacity: 2, sets, number: 2, log, more: 0, more_room: 0 }
}

/// The answer, with the memory and the results it leaves.
fn checked(lent: &Lent) -> (LogAnswer, Vec<u8>, Vec<u8>) {
    let (mut mem, mut out) = (vec![HELD; lent.memory_bytes()], vec![HELD; lent.room_bytes()]);
    let answer = check(&lent.handed(), &mut mem, &mut out);
    (answer, mem, out)
}

fn gets(what: &str, lent: &Lent, refusal: u32, row: u32) {
    let (answer, mem, out) = checked(lent);
    assert_eq!((answer.refusal, answer.row), (refusal, row), "{what}");
    if !matches!(refusal, 0 | 16) {
        assert_eq!((answer.count, answer.width), (0, 0), "{what}");
        assert!(mem.iter().chain(&out).all(|&byte| byte == HELD), "{what}");
    }
}

#[test]
fn results_stand_one_behind_the_other() {
    let log = write(&[[1, 1], [2, 0], [1, 2], [3, 0], [2, 0], [3, 0]]);
    let mut lent = lent(log);
    lent.more_room = 5;
    let (answer, mem, out) = checked(&lent);
    assert_eq!(answer, LogAnswer { refusal: 0, row: 0, count: 2, width: 1 });
    assert_eq!(out.len(), 3 * OUT_BYTES + 5);
    assert_eq!(out[..VALUE_BYTES], [1, 0xf9, 0xff, 0xff, 0xff]);
    assert_eq!(out[OUT_BYTES..][..2 * VALUE_BYTES], [1, 0xf8, 0xff, 0xff, 0xff, 3, 0, 0, 0, 0]);
    assert!(out[2 * OUT_BYTES..].iter().all(|&byte| byte == HELD));
    assert_eq!((mem[0], mem[7]), (2, 0));
}

#[test]
fn a_log_of_no_bytes_is_accepted() {
    let (answer, mem, out) = checked(&lent(vec![]));
    assert_eq!(answer, LogAnswer::default());
    assert_eq!((mem[0], out.len()), (2, 0));
}

#[test]
fn a_refused_line_keeps_what_the_earlier_ones_did() {
    let lines = [[1, 1], [2, 0], [3, 0], [1, 2], [2, 0], [2, 0], [3, 0]];
    let (answer, mem, out) = checked(&lent(write(&lines)));
    assert_eq!(answer, LogAnswer { refusal: 16, row: 6, count: 1, width: 1 });
    let (earlier, same, results) = checked(&lent(write(&lines[..5])));
    assert_eq!(earlier, LogAnswer { refusal: 0, row: 0, count: 1, width: 1 });
    assert_eq!((mem, &out[..OUT_BYTES]), (same, &results[..OUT_BYTES]));
    for (what, lines, row) in [
        ("a take of nothing", &[[3, 0]][..], 1),
        ("an absent operator", &[[1, 1], [2, 1]], 2),
        ("the greatest number", &[[2, 999_999]], 1),
        ("a full link", &[[1, 1], [1, 1], [1, 2]], 3),
        ("a take too early", &[[1, 1], [3, 0]], 2),
    ] {
        gets(what, &lent(write(lines)), 16, row);
    }
}

#[test]
fn a_line_is_two_fields_and_a_line_feed() {
    let good = write(&[[1, 1], [2, 0], [3, 0]]);
    for (text, row) in [
        ("     1     0\n", 1),
        ("     1     3\n", 1),
        ("     0     0\n", 1),
        ("     4     0\n", 1),
        ("     3     1\n", 1),
        ("     1    01\n", 1),
        ("     1    1 \n", 1),
        ("     1      \n", 1),
        ("           1\n", 1),
        ("     1     1", 1),
        ("     1     1\r", 1),
        ("     1     1 \n", 1),
        ("     1    1\n", 1),
        ("\n", 1),
        ("     1     1\n\n", 2),
        ("     1     1\n     2     0\n3", 3),
    ] {
        gets(text, &lent(text.into()), 15, row);
        // The same behind three good lines, where a line before is refused by the machine: 15 is tested over the whole log first.
        let late = [&write(&[[2, 0]])[..], &good, text.as_bytes()].concat();
        gets(text, &lent(late), 15, row + 4);
    }
}

#[test]
fn up_to_4096_lines() {
    let turns: Vec<[u32; 2]> = [[1, 1], [2, 0], [3, 0]].iter().copied().cycle().take(4_097).collect();
    let (answer, ..) = checked(&lent(write(&turns[..4_096])));
    assert_eq!(answer, LogAnswer { refusal: 0, row: 0, count: 1_365, width: 1 });
    gets("line 4,097", &lent(write(&turns)), 15, 4_097);
    gets("a byte of it", &lent([&write(&turns[..4_096])[..], b"\n"].concat()), 15, 4_097);
    let mut refused = turns.clone();
    refused[9] = [3, 0];
    gets("line 4,097 before 16", &lent(write(&refused)), 15, 4_097);
    refused[9] = [3, 1];
    gets("a lower line", &lent(write(&refused)), 15, 10);
    assert_eq!((room_for(25), room_for(26), room_for(13 * 4_096), room_for(usize::MAX)), (0, 80, 163_840, 163_840));
}

/// 11, 14, 1 to 9, 17, 18, 10, 12, 15, 16: each with all that come later.
#[test]
fn refusals_in_their_order() {
    let mut lent = lent(write(&[[3, 0], [1, 3], [1, 1]]));
    (lent.more, lent.more_room, lent.capacity) = (-1, -1, 0);
    lent.made = Made { bytes: b"x".to_vec(), kinds: b"T\n".to_vec() };
    lent.sets.truncate(9);
    gets("short memory", &lent, 11, 0);
    lent.more = 0;
    gets("short room", &lent, 11, 0);
    lent.more_room = 0;
    gets("capacity 0", &lent, 14, 0);
    lent.capacity = 17;
    gets("capacity 17", &lent, 14, 0);
    lent.capacity = 1;
    gets("a bad sheet", &lent, 1, 0);
    lent.made.bytes = negation().bytes;
    lent.made.kinds = b"F\n".to_vec();
    gets("a bad line of kinds", &lent, 17, 0);
    lent.made.kinds = b"T\n".to_vec();
    gets("an operand of another kind", &lent, 18, 2);
    lent.made.kinds = b"W\n".to_vec();
    gets("a set not wholly lent", &lent, 12, 0);
    lent.sets = encode_set(&[Value::Whole(7), Value::Truth(true)]);
    gets("a set of another kind", &lent, 12, 0);
    lent.number = 3;
    lent.sets = encode_set(&[Value::Whole(7); 2]);
    gets("a set that no line names", &lent, 12, 0);
    lent.number = 2;
    lent.sets.push(0xff);
    gets("a set not in the list", &lent, 15, 2);
    lent.log = write(&[[3, 0], [1, 1]]);
    gets("a take of nothing", &lent, 16, 1);
    lent.log = write(&[[1, 1], [2, 0], [3, 0]]);
    gets("none", &lent, 0, 0);
}

#[test]
fn with_no_inputs_every_set_is_empty() {
    let made = Made { bytes: sheet::write(&[[2, 7, 0, 0, 0]]), kinds: b"\n".to_vec() };
    let log = write(&[[1, 999_999], [2, 0], [3, 0]]);
    let mut lent = Lent { made, capacity: 1, sets: vec![], number: u32::MAX, log, more: 0, more_room: 0 };
    gets("the largest number", &lent, 0, 0);
    lent.number = 999_998;
    gets("one fewer", &lent, 15, 1);
}

/// What the lines do on queues of values.
fn on_queues(lent: &Lent) -> (LogAnswer, Vec<u8>) {
    let sheet = lent.made.sheet();
    let graph = build(&sheet);
    let mut machine = Machine::start(&graph, lent.capacity as usize).expect("a capacity in its range");
    let set_bytes = VALUE_BYTES * sheet.sorts.len();
    let mut out = vec![];
    let mut answer = LogAnswer::default();
    for (row, line) in (1..).zip(lent.log.chunks(LINE_BYTES)) {
        let field = |text: &[u8]| std::str::from_utf8(text).ok()?.trim_start().parse::<usize>().ok();
        let number = field(&line[6..12]).expect("a number");
        let accepted = match line[5] {
            b'1' => {
                machine.push(&decode_set(&lent.sets[set_bytes * (number - 1)..][..set_bytes]).expect("a set")).is_ok()
            }
            b'2' => machine.fire(number).is_ok(),
            _ => machine.take().map(|result| out.extend(encode_result(&result))).is_ok(),
        };
        if !accepted {
            (answer.refusal, answer.row) = (16, row);
            break;
        }
    }
    answer.count = (out.len() / OUT_BYTES) as u32;
    answer.width = if answer.count > 0 { sheet.figures.results } else { 0 };
    (answer, out)
}

/// Random logs with a fault planted in each: where lines are followed, answer and results are those of the machine that has queues for links.
#[test]
fn logs_on_bytes_are_those_on_queues() {
    let mut rng = Rng::new(11);
    let mut seen: BTreeMap<u32, u32> = BTreeMap::new();
    for case in 0..1_500 {
        let most = rng.pick(&[1, 5, 30, 100]);
        let mut lent = accepted_log(memory::start, accepted_sheet(&mut rng), most, &mut rng);
        let (accepted, ..) = checked(&lent);
        assert_eq!(accepted.refusal, 0);
        let (name, plant) = FAULTS[case % FAULTS.len()];
        plant(&mut lent, &mut rng);
        let (answer, _, out) = checked(&lent);
        *seen.entry(answer.refusal).or_default() += 1;
        if matches!(answer.refusal, 0 | 16) {
            let (wanted, results) = on_queues(&lent);
            assert_eq!((answer, &out[..results.len()]), (wanted, &results[..]), "{name}");
            assert!(out[results.len()..].iter().all(|&byte| byte == HELD), "{name}");
        }
    }
    for refusal in [0, 11, 12, 14, 15, 16, 17, 18] {
        assert!(seen.get(&refusal).is_some_and(|&count| count > 5), "{refusal}: {seen:?}");
    }
}
