// The calls on a machine's memory, over the bytes that docs/MEMORY.md lays out: start, push, a tray, fire, run, a run by rounds and take, with the checks
// of refusals 11 and 31, each lent the record in which it counts. Plain code for the same memory as the product's, to compare every byte and to measure against. The graph and its numbering
// are those here.

use crate::bytes::{decode, encode, OUT_BYTES, VALUE_BYTES};
use crate::graph::{self, Graph, Kind};
use crate::sheet::{self, Refusal};
use crate::tally::Tally;
use crate::value::{operands, operate, Sort, Value};

/// Where the letters of the inputs' kinds stand.
pub const LETTERS: usize = 106;
pub const OPERATORS: usize = 256;
pub const REGISTERS: usize = 16_640;
pub const LINKS: usize = 21_760;
pub const MOST_OPERATORS: usize = 1_024;
pub const MOST_LINKS: usize = 3_105;
pub const NO_LINK: usize = 65_535;

/// The pattern of 999.999, the greatest constant of row kind 10.
pub const GREATEST_CONSTANT: u32 = 1_148_846_064;

/// What push, a tray, fire, run and take answer.
#[repr(C)]
#[derive(Clone, Copy, PartialEq, Eq, Debug, Default)]
pub struct Answer {
    pub refusal: u32,
    pub count: u32,
}

/// What a run by rounds answers: the rounds in which something fired, and their firings.
#[repr(C)]
#[derive(Clone, Copy, PartialEq, Eq, Debug, Default)]
pub struct RoundsAnswer {
    pub refusal: u32,
    pub rounds: u32,
    pub firings: u64,
}

/// What start answers.
#[repr(C)]
#[derive(Clone, Copy, PartialEq, Eq, Debug, Default)]
pub struct StartAnswer {
    pub refusal: u32,
    pub row: u32,
    pub operators: u32,
    pub inputs: u32,
    pub results: u32,
}

pub(crate) fn refuse(refusal: u32) -> Answer {
    Answer { refusal, count: 0 }
}

/// What a machine needs at a capacity, 1 where it is outside 1..16.
pub fn need(capacity: usize) -> usize {
    let capacity = if (1..=16).contains(&capacity) { capacity } else { 1 };
    LINKS + MOST_LINKS * stretch(capacity)
}

fn stretch(capacity: usize) -> usize {
    1 + VALUE_BYTES * capacity
}

pub(crate) fn number(mem: &[u8], at: usize) -> usize {
    usize::from(u16::from_le_bytes([mem[at], mem[at + 1]]))
}

fn write_number(mem: &mut [u8], at: usize, number: usize) {
    mem[at..at + 2].copy_from_slice(&(number as u16).to_le_bytes());
}

pub fn start(sheet: &[u8], kinds: &[u8], capacity: u32, mem: &mut [u8], tally: &mut Tally) -> StartAnswer {
    match started(sheet, kinds, capacity as usize, mem) {
        Ok(answer) => {
            tally.set_to_zeros();
            answer
        }
        Err(Refusal { number, row }) => StartAnswer { refusal: number, row, ..StartAnswer::default() },
    }
}

fn started(sheet: &[u8], kinds: &[u8], capacity: usize, mem: &mut [u8]) -> Result<StartAnswer, Refusal> {
    if mem.len() < need(capacity) {
        return sheet::refuse(11, 0);
    }
    if !(1..=16).contains(&capacity) {
        return sheet::refuse(14, 0);
    }
    let sheet = sheet::read(sheet, kinds)?;
    let graph = graph::build(&sheet);
    write_graph(&graph, capacity, mem);
    let sheet::Figures { operators, inputs, results, .. } = sheet.figures;
    Ok(StartAnswer { refusal: 0, row: 0, operators, inputs, results })
}

fn write_graph(graph: &Graph, capacity: usize, mem: &mut [u8]) {
    write_records(graph, capacity as u8, mem);
    (0..graph.links).for_each(|link| mem[LINKS + link * stretch(capacity)] = 0);
}

/// All that stands before the links.
pub(crate) fn write_records(graph: &Graph, first: u8, mem: &mut [u8]) {
    mem[0] = first;
    write_number(mem, 1, graph.operators.len());
    write_number(mem, 3, graph.links);
    mem[5] = graph.inputs.len() as u8;
    mem[6] = graph.results.len() as u8;
    mem[7] = 0;
    write_number(mem, 8, graph.trigger.unwrap_or(NO_LINK));
    graph.inputs.iter().enumerate().for_each(|(place, &link)| write_number(mem, 10 + 2 * place, link));
    graph.results.iter().enumerate().for_each(|(place, &link)| write_number(mem, 74 + 2 * place, link));
    graph.sorts.iter().enumerate().for_each(|(place, sort)| mem[LETTERS + place] = sort.letter());
    for (i, operator) in graph.operators.iter().enumerate() {
        let at = OPERATORS + 16 * i;
        mem[at..at + 16].copy_from_slice(&[0, 0, 255, 255, 255, 255, 255, 255, 255, 255, 255, 255, 255, 255, 0, 0]);
        mem[at] = kind_byte(operator.kind);
        operator.inputs.iter().enumerate().for_each(|(port, &link)| write_number(mem, at + 2 + 2 * port, link));
        for (port, output) in operator.outputs.iter().enumerate() {
            write_number(mem, at + 8 + 2 * port, output.unwrap_or(NO_LINK));
        }
        let register = if let Kind::Constant(value) = operator.kind { encode(value) } else { [0; VALUE_BYTES] };
        mem[REGISTERS + 5 * i..REGISTERS + 5 * i + 5].copy_from_slice(&register);
    }
}

fn kind_byte(kind: Kind) -> u8 {
    match kind {
        Kind::Operator(code) => code as u8,
        Kind::Constant(_) => 12,
        Kind::Copy => 13,
        Kind::T => 14,
        Kind::F => 15,
        Kind::M => 16,
        Kind::E => 17,
        Kind::IC => 18,
        Kind::FM => 19,
        Kind::FS => 20,
    }
}

/// How many inputs and outputs a kind has.
pub(crate) fn ports(kind: u8) -> (usize, usize) {
    match kind {
        1..=11 => (operands(kind.into()), 1),
        12 => (1, 1),
        13 => (1, 2),
        16 | 19 => (3, 1),
        18 => (3, 3),
        _ => (2, 1),
    }
}

fn has_port(kind: u8, port: usize) -> bool {
    let (inputs, outputs) = ports(kind);
    if port < 3 {
        port < inputs
    } else {
        port - 3 < outputs
    }
}

/// 11 and 31.
fn standing(mem: &[u8]) -> u32 {
    let capacity = mem.first().copied().unwrap_or(0).into();
    if mem.len() < need(capacity) {
        11
    } else if !valid(mem) {
        31
    } else {
        0
    }
}

fn valid(mem: &[u8]) -> bool {
    let (capacity, untaken, links) = (usize::from(mem[0]), mem[7], number(mem, 3));
    (1..=16).contains(&capacity)
        && untaken <= 16
        && graph_valid(mem)
        && (0..links).all(|link| link_valid(&mem[LINKS + link * stretch(capacity)..][..stretch(capacity)]))
}

/// The figures of the graph are within their ranges, and no operator, nor the inputs, nor the results, name a link twice.
pub(crate) fn graph_valid(mem: &[u8]) -> bool {
    let (operators, links) = (number(mem, 1), number(mem, 3));
    let (inputs, results) = (usize::from(mem[5]), usize::from(mem[6]));
    let in_range = operators <= MOST_OPERATORS && links <= MOST_LINKS && inputs <= 32 && (1..=16).contains(&results);
    in_range
        && (0..inputs).all(|place| stored_sort(mem, place).is_some())
        && (number(mem, 8) < links || number(mem, 8) == NO_LINK)
        && (0..operators).all(|i| operator_valid(mem, i, links))
        && (0..inputs).all(|place| number(mem, 10 + 2 * place) < links)
        && (0..results).all(|place| number(mem, 74 + 2 * place) < links)
        && all_differ(mem, 8, inputs + 1)
        && all_differ(mem, 74, results)
}

/// The kind of an input by its stored letter, none where another byte stands there.
pub(crate) fn stored_sort(mem: &[u8], place: usize) -> Option<Sort> {
    Sort::of_letter(mem[LETTERS + place])
}

/// No two of the links in a row are the same.
fn all_differ(mem: &[u8], at: usize, count: usize) -> bool {
    (0..count).all(|place| {
        let link = number(mem, at + 2 * place);
        link == NO_LINK || (0..place).all(|before| number(mem, at + 2 * before) != link)
    })
}

fn operator_valid(mem: &[u8], i: usize, links: usize) -> bool {
    let at = OPERATORS + 16 * i;
    let kind = mem[at];
    let port_valid = |port: usize| {
        let link = number(mem, at + 2 + 2 * port);
        match has_port(kind, port) {
            true => link < links || (kind == 18 && port == 4 && link == NO_LINK),
            false => link == NO_LINK,
        }
    };
    let register = &mem[REGISTERS + 5 * i..][..5];
    let register_valid = match kind {
        12 => decode(register).is_some_and(is_constant),
        19 | 20 => register == [0; 5] || decode(register).is_some(),
        _ => register == [0; 5],
    };
    (1..=20).contains(&kind) && (0..6).all(port_valid) && all_differ(mem, at + 2, 6) && register_valid
}

/// What a constant's register may hold: what row kinds 2, 3 and 10 and the constants of iter? can make. The patterns of floats not below zero rise
/// with the numbers.
fn is_constant(value: Value) -> bool {
    match value {
        Value::Whole(number) => (0..=999_999).contains(&number),
        Value::Truth(_) => true,
        Value::Real(float) => float.bits() <= GREATEST_CONSTANT,
        Value::Err(_) => false,
    }
}

pub(crate) fn link_valid(stretch: &[u8]) -> bool {
    let waiting = usize::from(stretch[0]);
    VALUE_BYTES * waiting < stretch.len()
        && stretch[1..][..VALUE_BYTES * waiting].chunks_exact(VALUE_BYTES).all(|token| decode(token).is_some())
}

/// A valid machine's memory with its stretch length.
pub struct Machine<'a> {
    mem: &'a mut [u8],
    stretch: usize,
}

/// The inputs that a firing takes, what it emits and the register it leaves.
struct Firing {
    takes: [bool; 3],
    emits: [Option<Value>; 3],
    register: Option<Value>,
}

fn passing(takes: [bool; 3], value: Value, register: Option<Value>) -> Option<Firing> {
    Some(Firing { takes, emits: [Some(value), None, None], register })
}

impl<'a> Machine<'a> {
    fn of(mem: &'a mut [u8]) -> Result<Machine<'a>, Answer> {
        match standing(mem) {
            0 => Ok(Machine::standing(mem)),
            refusal => Err(refuse(refusal)),
        }
    }

    /// For memory that needs no look at 11 and 31, since a start and nothing but calls wrote it.
    pub fn standing(mem: &'a mut [u8]) -> Machine<'a> {
        let stretch = stretch(mem[0].into());
        Machine { mem, stretch }
    }

    pub fn operators(&self) -> usize {
        number(self.mem, 1)
    }

    fn port(&self, i: usize, port: usize) -> usize {
        number(self.mem, OPERATORS + 16 * i + 2 + 2 * port)
    }

    fn queue(&self, link: usize) -> &[u8] {
        &self.mem[LINKS + link * self.stretch..][..self.stretch]
    }

    fn oldest(&self, link: usize) -> Option<Value> {
        let queue = self.queue(link);
        (queue[0] > 0).then(|| decode(&queue[1..6]))?
    }

    fn has_room(&self, link: usize) -> bool {
        VALUE_BYTES * usize::from(self.queue(link)[0]) + VALUE_BYTES < self.stretch
    }

    fn append(&mut self, link: usize, value: Value) {
        let at = LINKS + link * self.stretch;
        let place = at + 1 + VALUE_BYTES * usize::from(self.mem[at]);
        self.mem[place..place + VALUE_BYTES].copy_from_slice(&encode(value));
        self.mem[at] += 1;
    }

    fn remove(&mut self, link: usize) {
        let at = LINKS + link * self.stretch;
        let waiting = usize::from(self.mem[at]);
        self.mem.copy_within(at + 6..at + 1 + VALUE_BYTES * waiting, at + 1);
        self.mem[at] -= 1;
    }

    /// The firing of an operator, if "every token listed waits and each link it emits on has a free place".
    fn able(&self, i: usize) -> Option<Firing> {
        let firing = self.wanted(i)?;
        let room = (0..3).all(|port| firing.emits[port].is_none() || self.free(self.port(i, 3 + port)));
        room.then_some(firing)
    }

    pub fn can_fire(&self, i: usize) -> bool {
        i < self.operators() && self.able(i).is_some()
    }

    fn free(&self, link: usize) -> bool {
        link == NO_LINK || self.has_room(link)
    }

    fn wanted(&self, i: usize) -> Option<Firing> {
        let token = |port: usize| self.oldest(self.port(i, port));
        let register = decode(&self.mem[REGISTERS + 5 * i..][..5]);
        let kind = self.mem[OPERATORS + 16 * i];
        match kind {
            10 | 11 => passing([true, false, false], operate(kind.into(), &[token(0)?]), register),
            1..=9 => passing([true, true, false], operate(kind.into(), &[token(0)?, token(1)?]), register),
            12 => token(0).and(passing([true, false, false], register?, register)),
            13 => {
                let value = token(0);
                value.map(|_| Firing { takes: [true, false, false], emits: [value, value, None], register })
            }
            14 | 15 => {
                let (control, data) = (token(0)?, token(1)?);
                let passes = control == Value::Truth(kind == 14);
                Some(Firing { takes: [true, true, false], emits: [passes.then_some(data), None, None], register })
            }
            17 => match token(0)? {
                Value::Truth(_) => passing([true, true, false], token(1)?, register),
                _ => passing([true, false, false], Value::E, register),
            },
            18 => joined(token(0)?, token(1), token(2), register),
            19 if register.is_none() => passing([false, false, true], token(2)?, Some(Value::Truth(true))),
            19 => merged(token(0)?, token(1), token(2), Some(Value::Truth(true))),
            20 => match (register, register.and(token(0))) {
                (None, _) => token(1).and_then(|data| passing([false, true, false], data, Some(data))),
                (Some(_), None) => None,
                (Some(held), Some(Value::Truth(true))) => passing([true, false, false], held, register),
                _ => token(1).and_then(|data| passing([true, true, false], data, Some(data))),
            },
            _ => merged(token(0)?, token(1), token(2), register),
        }
    }

    fn perform(&mut self, i: usize, firing: &Firing) {
        for port in 0..3 {
            if firing.takes[port] {
                self.remove(self.port(i, port));
            }
        }
        for port in 0..3 {
            if let (Some(value), link) = (firing.emits[port], self.port(i, 3 + port)) {
                if link != NO_LINK {
                    self.append(link, value);
                }
            }
        }
        let register = firing.register.map_or([0; VALUE_BYTES], encode);
        self.mem[REGISTERS + 5 * i..][..5].copy_from_slice(&register);
    }

    /// 12, 32, 33.
    pub fn push(&mut self, set: &[u8]) -> Answer {
        let inputs = usize::from(self.mem[5]);
        let suits = |(place, value): (usize, &[u8])| {
            decode(value).zip(stored_sort(self.mem, place)).is_some_and(|(value, sort)| value.suits(sort))
        };
        if set.len() != VALUE_BYTES * inputs || !set.chunks_exact(VALUE_BYTES).enumerate().all(suits) {
            return refuse(12);
        }
        if self.mem[7] == 16 {
            return refuse(32);
        }
        let links: Vec<usize> = (0..=inputs).map(|place| number(self.mem, 8 + 2 * place)).collect();
        if !links.iter().all(|&link| self.free(link)) {
            return refuse(33);
        }
        for (value, &link) in set.chunks_exact(VALUE_BYTES).zip(&links[1..]) {
            self.append(link, decode(value).unwrap_or(Value::E));
        }
        if links[0] != NO_LINK {
            self.append(links[0], Value::Truth(true));
        }
        self.mem[7] += 1;
        Answer::default()
    }

    /// 34.
    pub fn fire(&mut self, i: usize) -> Answer {
        if i >= self.operators() {
            return refuse(34);
        }
        match self.able(i) {
            Some(firing) => {
                self.perform(i, &firing);
                Answer::default()
            }
            None => refuse(34),
        }
    }

    /// 35; `out` has the bytes of sixteen values.
    pub fn take(&mut self, out: &mut [u8]) -> Answer {
        let links: Vec<usize> = (0..self.mem[6].into()).map(|place| number(self.mem, 74 + 2 * place)).collect();
        if self.mem[7] == 0 || links.iter().any(|&link| self.queue(link)[0] == 0) {
            return refuse(35);
        }
        let tokens = links.iter().map(|&link| self.oldest(link)).chain(std::iter::repeat(None));
        for (place, token) in out.chunks_exact_mut(VALUE_BYTES).zip(tokens) {
            place.copy_from_slice(&encode(token.unwrap_or(Value::E)));
        }
        links.iter().for_each(|&link| self.remove(link));
        self.mem[7] -= 1;
        Answer { refusal: 0, count: links.len() as u32 }
    }

    /// Fires the least-numbered able operator again and again; a firing can only wake those that share a link with it.
    fn run(&mut self, firings: u32, mut each: impl FnMut(usize)) -> Answer {
        let users = self.users();
        let mut awake = Awake::all(self.operators());
        let mut count = 0;
        while let Some(i) = awake.least() {
            let Some(firing) = self.able(i) else {
                awake.sleep(i);
                continue;
            };
            if count == firings {
                return Answer { refusal: 36, count };
            }
            self.perform(i, &firing);
            each(i);
            count += 1;
            for port in 0..6 {
                if let Some(near) = users.get(self.port(i, port)) {
                    near.iter().for_each(|&user| awake.wake(user.into()));
                }
            }
        }
        Answer { refusal: 0, count }
    }

    /// At most so many rounds; one in which nothing fires is the last and does not count.
    fn run_rounds(&mut self, lent: u32, mut each: impl FnMut(usize)) -> RoundsAnswer {
        let (mut rounds, mut firings) = (0, 0);
        while rounds < lent {
            let fired = self.round(&mut each);
            if fired == 0 {
                return RoundsAnswer { refusal: 0, rounds, firings };
            }
            rounds += 1;
            firings += fired;
        }
        let able = (0..self.operators()).any(|i| self.able(i).is_some());
        RoundsAnswer { refusal: if able { 36 } else { 0 }, rounds, firings }
    }

    /// "operators rising, each that is able at its turn firing once": how many fired.
    fn round(&mut self, each: &mut impl FnMut(usize)) -> u64 {
        let mut fired = 0;
        for i in 0..self.operators() {
            if let Some(firing) = self.able(i) {
                self.perform(i, &firing);
                each(i);
                fired += 1;
            }
        }
        fired
    }

    fn users(&self) -> Vec<Vec<u16>> {
        let mut users = vec![Vec::with_capacity(2); number(self.mem, 3)];
        for i in 0..self.operators() {
            for port in 0..6 {
                if let Some(near) = users.get_mut(self.port(i, port)) {
                    near.push(i as u16);
                }
            }
        }
        users
    }
}

fn merged(control: Value, second: Option<Value>, third: Option<Value>, register: Option<Value>) -> Option<Firing> {
    match control {
        Value::Truth(true) => passing([true, true, false], second?, register),
        Value::Truth(false) => passing([true, false, true], third?, register),
        _ => passing([true, false, false], Value::E, register),
    }
}

fn joined(control: Value, yes: Option<Value>, no: Option<Value>, register: Option<Value>) -> Option<Firing> {
    let (takes, iter) = match control {
        Value::Truth(true) => ([true, true, false], yes?),
        Value::Truth(false) => ([true, false, true], no?),
        _ => {
            let emits = [Some(Value::Truth(false)), None, Some(Value::E)];
            return Some(Firing { takes: [true, false, false], emits, register });
        }
    };
    let emits = match iter {
        Value::Truth(true) => [Some(iter), Some(control), None],
        _ => [Some(Value::Truth(false)), None, Some(control)],
    };
    Some(Firing { takes, emits, register })
}

/// The operators that may be able, as bits.
struct Awake([u64; MOST_OPERATORS / 64]);

impl Awake {
    fn all(operators: usize) -> Awake {
        let mut awake = Awake([0; MOST_OPERATORS / 64]);
        (0..operators).for_each(|i| awake.wake(i));
        awake
    }

    fn wake(&mut self, i: usize) {
        self.0[i / 64] |= 1 << (i % 64);
    }

    fn sleep(&mut self, i: usize) {
        self.0[i / 64] &= !(1 << (i % 64));
    }

    fn least(&self) -> Option<usize> {
        self.0.iter().position(|&word| word != 0).map(|word| 64 * word + self.0[word].trailing_zeros() as usize)
    }
}

pub fn push(mem: &mut [u8], set: &[u8], tally: &mut Tally) -> Answer {
    let answer = match Machine::of(mem) {
        Ok(mut machine) => machine.push(set),
        Err(answer) => answer,
    };
    if answer.refusal != 0 {
        tally.count_refused_push();
    }
    answer
}

/// "a given number of sets lying behind each other, each as long as the inputs ask"
pub fn push_tray(mem: &mut [u8], sets: &[u8], number: u32, tally: &mut Tally) -> Answer {
    // "a tray of none tests 11 and 31 only": a refused push too
    let length = match Machine::of(mem) {
        Ok(machine) => VALUE_BYTES * usize::from(machine.mem[5]),
        Err(answer) => {
            tally.count_refused_push();
            return answer;
        }
    };
    // "bytes past the last are left aside"
    let mut rest = sets;
    for count in 0..number {
        // "A set not wholly lent gets 12": what there is of it is too short a set
        let (set, behind) = rest.split_at(length.min(rest.len()));
        // "It stops at the first that is refused, says how many went in and gives that refusal's number."
        match push(mem, set, tally).refusal {
            0 => rest = behind,
            refusal => return Answer { refusal, count },
        }
    }
    Answer { refusal: 0, count: number }
}

pub fn fire(mem: &mut [u8], operator: u32, tally: &mut Tally) -> Answer {
    let answer = match Machine::of(mem) {
        Ok(mut machine) => machine.fire(operator as usize),
        Err(answer) => answer,
    };
    if answer.refusal == 0 {
        tally.count_firings(1);
    }
    answer
}

pub fn run(mem: &mut [u8], firings: u32, tally: &mut Tally) -> Answer {
    run_telling(mem, firings, tally, |_| {})
}

/// A run that tells each operator it fires.
pub fn run_telling(mem: &mut [u8], firings: u32, tally: &mut Tally, each: impl FnMut(usize)) -> Answer {
    let answer = match Machine::of(mem) {
        Ok(mut machine) => machine.run(firings, each),
        Err(answer) => answer,
    };
    tally.count_firings(answer.count.into());
    answer
}

pub fn run_rounds(mem: &mut [u8], rounds: u32, tally: &mut Tally) -> RoundsAnswer {
    run_rounds_telling(mem, rounds, tally, |_| {})
}

/// A run by rounds that tells each operator it fires.
pub fn run_rounds_telling(mem: &mut [u8], rounds: u32, tally: &mut Tally, each: impl FnMut(usize)) -> RoundsAnswer {
    let answer = match Machine::of(mem) {
        Ok(mut machine) => machine.run_rounds(rounds, each),
        Err(answer) => RoundsAnswer { refusal: answer.refusal, ..RoundsAnswer::default() },
    };
    tally.count_firings(answer.firings);
    answer
}

pub fn take(mem: &mut [u8], out: &mut [u8], tally: &mut Tally) -> Answer {
    if out.len() < OUT_BYTES {
        return refuse(11);
    }
    let answer = match Machine::of(mem) {
        Ok(mut machine) => machine.take(&mut out[..OUT_BYTES]),
        Err(answer) => answer,
    };
    if answer.refusal == 0 {
        tally.count_take();
    }
    answer
}
