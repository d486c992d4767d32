// Logs with the checker's answer for each, as fixed test data (document 02, Job 3). Answers are written here by hand, but for those of random sheets, and the
// checker is held to them while the list is made. Operator numbers are those of docs/NUMBERING.md, so the machine is started by the product.

use crate::bench::{read_sets, write_set};
use crate::bytes::{decode_set, encode_set, OUT_BYTES, VALUE_BYTES};
use crate::examples::{endless, factorial, lesser, negations, range};
use crate::log::{check_started_by, write, write_line, Handed, LogAnswer, Start, LINE_BYTES};
use crate::memory::{need, Machine};
use crate::random::faults::{plant, Planted, PLANTABLE};
use crate::random::logs::Order;
use crate::random::{accepted_sheet, fitting_set, Made, Rng};
use crate::sheet;
use crate::tally::Tally;
use crate::value::{Sort, Value};

/// What the program that makes the cases lends to the machine and to the results.
const LENT: usize = 65_536;

/// The lines of a log, as pairs of its fields.
type Lines = Vec<[u32; 2]>;

#[derive(Clone)]
pub struct Case {
    pub name: String,
    pub made: Made,
    pub capacity: u32,
    pub number: u32,
    /// The list of sets as set lines.
    pub sets: Vec<u8>,
    pub log: Vec<u8>,
}

impl Case {
    /// The capacity asked and the number of sets told, in six-character fields.
    pub fn asked(&self) -> String {
        write_line(self.capacity, self.number)
    }

    /// The sets before the first line that is none, in bytes.
    fn lent_sets(&self) -> Vec<u8> {
        let letters = &self.made.kinds[..self.made.kinds.len().saturating_sub(1)];
        let sorts: Option<Vec<Sort>> = letters.iter().map(|&letter| Sort::of_letter(letter)).collect();
        let lines: Vec<&[u8]> = self.sets.split_inclusive(|&byte| byte == b'\n').collect();
        let set = |line: &&[u8]| sorts.as_ref().and_then(|sorts| read_sets(line, sorts).ok());
        lines.iter().map_while(set).flatten().flat_map(|set| encode_set(&set)).collect()
    }

    /// What the program writes of it: refusal, row, results and their width, in six-character fields, and a line for each result.
    pub fn expected(&self, start: Start) -> (LogAnswer, String) {
        let (mut mem, mut out, sets) = (vec![0; LENT], vec![0; LENT], self.lent_sets());
        let Case { made: Made { bytes: sheet, kinds }, capacity, number, log, .. } = self;
        let handed = Handed { sheet, kinds, capacity: *capacity, sets: &sets, number: *number, log };
        let answer = check_started_by(start, &handed, &mut mem, &mut out);
        let LogAnswer { refusal, row, count, width } = answer;
        let mut text = format!("{refusal:6}{row:6}{count:6}{width:6}\n");
        for result in out.chunks_exact(OUT_BYTES).take(count as usize) {
            let values = decode_set(&result[..VALUE_BYTES * width as usize]).expect("values");
            text.push_str(&write_set(&values));
        }
        (answer, text)
    }
}

struct List {
    start: Start,
    cases: Vec<Case>,
}

impl List {
    fn add(&mut self, name: &str, refusal: u32, row: u32, case: &Case) -> u32 {
        let (answer, _) = case.expected(self.start);
        assert_eq!((answer.refusal, answer.row), (refusal, row), "{name}");
        self.cases.push(Case { name: name.into(), ..case.clone() });
        answer.count
    }

    /// A log that is accepted and hands out so many results.
    fn accepted(&mut self, name: &str, count: u32, case: &Case) {
        assert_eq!(self.add(name, 0, 0, case), count, "{name}");
    }

    /// A log whose line `row` is refused by the machine, with so many results before it.
    fn refused(&mut self, name: &str, row: u32, count: u32, case: &Case) {
        assert_eq!(self.add(name, 16, row, case), count, "{name}");
    }
}

/// All cases, in a fixed order.
pub fn list(start: Start) -> Vec<Case> {
    let mut list = List { start, cases: vec![] };
    good_logs(&mut list);
    schedules(&mut list);
    refused_lines(&mut list);
    malformed_lines(&mut list);
    sets(&mut list);
    sheets(&mut list);
    random(&mut list);
    list.cases
}

/// A log at capacity 2, of a sheet and these sets.
fn case(made: Made, sets: &[Vec<Value>], lines: &[[u32; 2]]) -> Case {
    let text = sets.iter().map(|set| write_set(set)).collect::<String>().into_bytes();
    let (name, log) = (String::new(), write(lines));
    Case { name, made, capacity: 2, number: sets.len() as u32, sets: text, log }
}

fn wholes(numbers: &[i32]) -> Vec<Value> {
    numbers.iter().map(|&number| Value::Whole(number)).collect()
}

const PUSH: u32 = 1;
const FIRE: u32 = 2;
const TAKE: [u32; 2] = [3, 0];

/// One set's way through the lesser of two by rising operators.
fn way(set: u32) -> Lines {
    let firings = (0..8).map(|operator| [FIRE, operator]);
    [[PUSH, set]].into_iter().chain(firings).chain([TAKE]).collect()
}

/// Two sets on their way at once, in an order that no run takes.
fn interleaved() -> Lines {
    let operators = |numbers: &[u32]| numbers.iter().map(|&number| [FIRE, number]).collect::<Lines>();
    let first =
        [vec![[PUSH, 1]], operators(&[1, 0]), vec![[PUSH, 2]], operators(&[0, 1, 2, 2, 3, 5, 4, 6, 7])].concat();
    [first, vec![TAKE], operators(&[3, 4, 5, 6, 7]), vec![TAKE]].concat()
}

/// The sets of the worked example with the lesser of two.
fn lesser_case(lines: &[[u32; 2]]) -> Case {
    case(lesser(), &[wholes(&[3, 5]), wholes(&[7, 7]), vec![Value::E, Value::Whole(2)]], lines)
}

fn good_logs(list: &mut List) {
    list.accepted("no lines", 0, &lesser_case(&[]));
    list.accepted("one set by rising operators", 1, &lesser_case(&way(1)));
    list.accepted("three sets one after another", 3, &lesser_case(&[way(1), way(2), way(3)].concat()));
    list.accepted("the same set again", 2, &lesser_case(&[way(3), way(3)].concat()));
    list.accepted("two sets on their way at once", 2, &lesser_case(&interleaved()));
    list.accepted("pushes alone", 0, &lesser_case(&[[PUSH, 3], [PUSH, 1]]));
    list.accepted("without the take", 0, &lesser_case(&way(2)[..9]));
    let pair =
        Made { bytes: sheet::write(&[[1, 0, 0, 0, 0], [1, 1, 0, 0, 0], [4, 1, 2, 0, 0]]), kinds: b"WT\n".to_vec() };
    let sets = [vec![Value::Whole(-1), Value::Truth(true)], vec![Value::Z, Value::V]];
    list.accepted("no operators", 2, &case(pair, &sets, &[[PUSH, 2], TAKE, [PUSH, 1], TAKE]));
    let seven = Made { bytes: sheet::write(&[[2, 7, 0, 0, 0]]), kinds: b"\n".to_vec() };
    let mut constant = case(seven, &[], &[[PUSH, 999_999], [FIRE, 0], [PUSH, 1], TAKE]);
    constant.number = 999_999;
    list.accepted("no inputs and many sets", 1, &constant);
    let strengths = [[1.37, 0.02], [0.01, 0.02]].map(|set| set.map(Value::real).to_vec());
    let floats = case(range(), &strengths, &[]);
    list.accepted("floats", 2, &scheduled(list.start, floats, Order::Rising, 100));
}

/// The case with the log of a scheduler that pushes each set in turn as soon as there is room, fires in this order, and takes what is ready last; up to so
/// many lines.
fn scheduled(start: Start, mut case: Case, order: Order, most: usize) -> Case {
    let (sets, mut mem) = (case.lent_sets(), vec![0; need(case.capacity as usize)]);
    let started = start(&case.made.bytes, &case.made.kinds, case.capacity, &mut mem, &mut Tally::default());
    assert_eq!(started.refusal, 0);
    let set_bytes = VALUE_BYTES * started.inputs as usize;
    let (mut machine, mut lines, mut pushed) = (Machine::standing(&mut mem), Lines::new(), 0);
    while lines.len() < most {
        let operator = order.first_able(&machine);
        let room = pushed < case.number && machine.push(&sets[set_bytes * pushed as usize..][..set_bytes]).refusal == 0;
        match operator {
            _ if room => {
                pushed += 1;
                lines.push([PUSH, pushed]);
            }
            Some(operator) => {
                machine.fire(operator);
                lines.push([FIRE, operator as u32]);
            }
            None if machine.take(&mut [0; OUT_BYTES]).refusal == 0 => lines.push(TAKE),
            None => break,
        }
    }
    case.log = write(&lines);
    case
}

fn schedules(list: &mut List) {
    let (number, start) = (|values: &[Value]| values.iter().map(|&value| vec![value]).collect::<Vec<_>>(), list.start);
    let factorials = case(factorial(), &number(&[Value::Whole(5), Value::E, Value::Whole(0)]), &[]);
    list.accepted("factorials by rising operators", 3, &scheduled(start, factorials.clone(), Order::Rising, 400));
    list.accepted("factorials by falling operators", 3, &scheduled(start, factorials.clone(), Order::Falling, 400));
    let one_place = Case { capacity: 1, ..factorials };
    list.accepted("factorials at capacity 1", 3, &scheduled(start, one_place, Order::Falling, 400));
    let large = case(factorial(), &number(&[Value::Whole(13)]), &[]);
    list.accepted("factorial of 13", 1, &scheduled(start, large, Order::Rising, 600));
    let looping = case(endless(), &number(&[Value::Truth(false), Value::Truth(true)]), &[]);
    let rising = scheduled(start, looping.clone(), Order::Rising, 200);
    list.accepted("a set that loops without end", 0, &rising);
    list.refused("the set before it not ready", 201, 0, &with_line(&rising, 200, TAKE));
    let falling = scheduled(start, looping, Order::Falling, 200);
    list.accepted("the set before it ready", 1, &with_line(&falling, 200, TAKE));
    let names: Vec<[u32; 5]> = (0..16).map(|name| [1, name, 0, 0, 0]).collect();
    let pairs = (0..15).map(|place| [4, if place == 0 { 1 } else { 16 + place }, place + 2, 0, 0]);
    let sixteen = Made {
        bytes: sheet::write(&names.into_iter().chain(pairs).collect::<Vec<_>>()),
        kinds: b"WWWWWWWWWWWWWWWW\n".to_vec(),
    };
    let values: Vec<i32> = (0..16).map(|place| 1_000_000_000 - 200_000_000 * place).collect();
    list.accepted("sixteen results", 1, &case(sixteen, &[wholes(&values)], &[[PUSH, 1], TAKE]));
}

/// The case with a line put in.
fn with_line(case: &Case, before: usize, line: [u32; 2]) -> Case {
    let mut case = case.clone();
    let at = LINE_BYTES * before;
    case.log.splice(at..at, write(&[line]));
    case
}

fn refused_lines(list: &mut List) {
    let good = lesser_case(&[interleaved(), way(3)].concat());
    let lines = good.log.len() / LINE_BYTES;
    for (place, before, count) in [("first", 0, 0), ("in the middle", 16, 1), ("last", lines, 3)] {
        let row = before as u32 + 1;
        for operator in [8, 1_023, 1_024, 999_999] {
            let name = format!("operator {operator}, {place}");
            list.refused(&name, row, count, &with_line(&good, before, [FIRE, operator]));
        }
        list.refused(&format!("operator 2, not able, {place}"), row, count, &with_line(&good, before, [FIRE, 2]));
    }
    list.refused("a take first", 1, 0, &with_line(&good, 0, TAKE));
    list.refused("a take too early", 5, 0, &with_line(&good, 4, TAKE));
    list.refused("a take too many", lines as u32 + 1, 3, &with_line(&good, lines, TAKE));
    list.refused("the lowest of two", 3, 0, &lesser_case(&[[PUSH, 1], [FIRE, 0], [FIRE, 0], [FIRE, 9], TAKE]));
    list.refused("an input link full", 3, 0, &lesser_case(&[[PUSH, 1], [PUSH, 2], [PUSH, 3]]));
    list.refused("an output link full", 5, 0, &Case { capacity: 1, ..good });
    // At capacity 1 each set goes down a chain of 17 negations as far as the one before it lets it.
    let sets: Vec<Vec<Value>> = (1..=17).map(|number| wholes(&[number])).collect();
    let down = |set: u32| [[PUSH, set]].into_iter().chain((0..18 - set).map(|operator| [FIRE, operator]));
    let lines: Lines = (1..=16).flat_map(down).collect();
    let chain = Case { capacity: 1, ..case(negations(18), &sets, &lines) };
    list.accepted("sixteen sets untaken", 0, &chain);
    list.refused("a seventeenth", 169, 0, &with_line(&chain, 168, [PUSH, 17]));
}

/// A log of the three sets with a text in the place of one line.
fn with_text(place: usize, text: &str) -> Case {
    let mut case = lesser_case(&[interleaved(), way(3)].concat());
    case.log.splice(LINE_BYTES * place..LINE_BYTES * (place + 1), text.bytes());
    case
}

fn malformed_lines(list: &mut List) {
    let last = interleaved().len() + way(3).len() - 1;
    let places = [("first", 0), ("in the middle", 15), ("last", last)];
    let lines = [
        ("0 in the first field", "     0     1\n"),
        ("4 in the first field", "     4     0\n"),
        ("a take with a number", "     3     1\n"),
        ("set 0", "     1     0\n"),
        ("set 4 of three", "     1     4\n"),
        ("the greatest number as a set", "     1999999\n"),
        ("a leading zero", "     2    01\n"),
        ("a space behind", "     2    1 \n"),
        ("an empty field", "     2      \n"),
        ("a minus sign", "     2    -1\n"),
        ("a tab", "     2\t    1\n"),
        ("a carriage return", "     2     1\r\n"),
        ("a line feed too early", "     2    1\n"),
        ("an empty line", "\n"),
        ("no line feed", "     2     1 "),
    ];
    for ((name, text), (place, index)) in lines.into_iter().zip(places.into_iter().cycle()) {
        list.add(&format!("{name}, {place}"), 15, index as u32 + 1, &with_text(index, text));
    }
    list.add("the last line not whole", 15, last as u32 + 1, &with_text(last, "     3     0"));
    list.add("a byte behind the last line", 15, last as u32 + 2, &with_text(last, "     3     0\n "));
    list.add("15 before 16", 15, 3, &lesser_case(&[TAKE, [FIRE, 8], [PUSH, 4]]));
    list.add("the lowest line of two", 15, 2, &lesser_case(&[[PUSH, 1], [4, 0], [5, 0]]));
}

/// The case with other set lines, and told so many.
fn with_sets(sets: &str, number: u32, lines: &[[u32; 2]]) -> Case {
    Case { sets: sets.into(), number, ..lesser_case(lines) }
}

fn sets(list: &mut List) {
    let (one, two) = ("          3          5\n", "          7          7\n");
    let twice = format!("{one}{two}");
    list.accepted("fewer sets told than there are", 1, &with_sets(&twice, 1, &way(1)));
    list.add("more sets told than there are", 12, 0, &with_sets(&twice, 3, &way(1)));
    list.add("no sets", 12, 0, &with_sets("", 1, &[]));
    list.add("many sets told", 12, 0, &with_sets(&twice, 999_999, &[]));
    list.add("none told, one named", 15, 1, &with_sets(&twice, 0, &way(1)));
    list.accepted("none told, none named", 0, &with_sets("", 0, &[]));
    list.add(
        "a bad value in a set that no line names",
        12,
        0,
        &with_sets(&format!("{one}          x          5\n"), 2, &way(1)),
    );
    list.add("a truth for a whole number", 12, 0, &with_sets(&format!("          T          5\n{one}"), 2, &[]));
    list.add("12 before 15", 12, 0, &with_sets(one, 2, &[[4, 0]]));
    list.accepted(
        "errs of each reason",
        2,
        &with_sets("          Z          5\n          V          E\n", 2, &[way(1), way(2)].concat()),
    );
}

fn sheets(list: &mut List) {
    // A log that gets 15, with a set too few: all that comes before 12 is tested first.
    let later = with_sets("          3          5\n", 2, &[[4, 0]]);
    let with = |made: Made| Case { made, ..later.clone() };
    for fault in PLANTABLE {
        let Planted { made, .. } = plant(fault, &mut Rng::new(fault.into()));
        let row = sheet::read(&made.bytes, &made.kinds).expect_err("a planted fault").row;
        list.add(&format!("a sheet with fault {fault}"), fault, row, &with(made));
    }
    let rows = |bytes: Vec<u8>, kinds: &[u8]| Made { bytes, kinds: kinds.to_vec() };
    list.add("an empty sheet", 1, 0, &with(rows(vec![], b"WW\n")));
    list.add("no kinds line", 17, 0, &with(rows(lesser().bytes, b"")));
    list.add("a kinds line too long", 17, 0, &with(rows(lesser().bytes, b"WWW\n")));
    list.add("a number and a truth compared", 18, 4, &with(rows(lesser().bytes, b"WT\n")));
    for capacity in [0, 17, 999_999] {
        list.add(&format!("capacity {capacity}"), 14, 0, &Case { capacity, ..with(rows(vec![], b"")) });
    }
    list.add("a capacity for which too little is lent", 11, 0, &Case { capacity: 3, ..with(rows(vec![], b"")) });
    let long = lesser_case(&[TAKE].repeat(2 * (LENT / OUT_BYTES + 1)));
    list.add("results for which too little is lent", 11, 0, &Case { capacity: 0, ..long.clone() });
    list.refused("a line fewer", 1, 0, &Case { log: long.log[LINE_BYTES..].to_vec(), ..long });
}

/// Accepted sheets with logs of their own, and the same with a line left out; their answers are the checker's.
fn random(list: &mut List) {
    let mut rng = Rng::new(2025);
    for number in 1..=12 {
        let made = small_sheet(&mut rng);
        let sheet = made.sheet();
        let sets: Vec<Vec<Value>> = (0..4).map(|_| fitting_set(&sheet, &mut rng)).collect();
        let order = if number % 2 == 0 { Order::Rising } else { Order::Falling };
        let mut case = scheduled(list.start, case(made, &sets, &[]), order, 150);
        list.cases.push(Case { name: format!("random sheet {number}"), ..case.clone() });
        let line = LINE_BYTES * rng.below(case.log.len() / LINE_BYTES);
        case.log.drain(line..line + LINE_BYTES);
        list.cases.push(Case { name: format!("random sheet {number}, a line left out"), ..case });
    }
}

/// An accepted sheet with some operators.
fn small_sheet(rng: &mut Rng) -> Made {
    loop {
        let made = accepted_sheet(rng);
        if (1..=60).contains(&made.sheet().figures.operators) {
            return made;
        }
    }
}
