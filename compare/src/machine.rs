// The machine (document 01, "The graph", the rules, and "Running"; Brock, section 3.2).
// Links are queues with a capacity; push, fire, run, a run by rounds (document 02, Job 7) and take give refusals 32 to 36.
// Memory is never altered from outside here, so refusals 11 and 31 do not arise.

use crate::graph::{Graph, Kind, Link, Operator};
use crate::sheet::{refuse, Refusal};
use crate::value::{operate, set_suits, ResultSet, Value};

pub const MOST_CAPACITY: usize = 16;
pub const MOST_UNTAKEN: u32 = 16;

/// The tokens waiting on a link, oldest first.
#[derive(Clone)]
struct Queue {
    places: [Value; MOST_CAPACITY],
    first: usize,
    waiting: usize,
}

impl Queue {
    const EMPTY: Queue = Queue { places: [Value::E; MOST_CAPACITY], first: 0, waiting: 0 };

    fn oldest(&self) -> Option<Value> {
        (self.waiting > 0).then(|| self.places[self.first])
    }

    fn append(&mut self, value: Value) {
        self.places[(self.first + self.waiting) % MOST_CAPACITY] = value;
        self.waiting += 1;
    }

    fn remove(&mut self) -> Value {
        let value = self.places[self.first];
        self.first = (self.first + 1) % MOST_CAPACITY;
        self.waiting -= 1;
        value
    }
}

/// What an able operator does to its links: the inputs it takes from and the values it emits, by position.
pub struct Firing {
    pub takes: [bool; 3],
    pub emits: [Option<Value>; 3],
    /// What an FS remembers from now on.
    remembers: Option<Value>,
}

/// The machine over a graph. An operator's number is its place in the graph's list.
#[derive(Clone)]
pub struct Machine<'a> {
    graph: &'a Graph,
    capacity: usize,
    queues: Vec<Queue>,
    /// How often each operator has fired since the start.
    times: Vec<u64>,
    /// What each FS remembers.
    memory: Vec<Value>,
    /// The operator that emits on a link and the one that takes from it.
    putter: Vec<Option<usize>>,
    taker: Vec<Option<usize>>,
    untaken: u32,
}

/// The count of a run's firings, and 36 if something can still fire after the lent ones.
#[derive(Clone, Copy, PartialEq, Eq, Debug)]
pub struct Ran {
    pub refusal: u32,
    pub count: u32,
}

/// A run by rounds: the rounds in which something fired, their firings, and 36 if something can fire after the lent rounds.
#[derive(Clone, Copy, PartialEq, Eq, Debug)]
pub struct RanByRounds {
    pub refusal: u32,
    pub rounds: u32,
    pub firings: u64,
}

impl<'a> Machine<'a> {
    /// 14 "capacity outside 1..16".
    pub fn start(graph: &'a Graph, capacity: usize) -> Result<Machine<'a>, Refusal> {
        if !(1..=MOST_CAPACITY).contains(&capacity) {
            return refuse(14, 0);
        }
        let mut putter = vec![None; graph.links];
        let mut taker = vec![None; graph.links];
        for (number, operator) in graph.operators.iter().enumerate() {
            operator.outputs.iter().flatten().for_each(|&link| putter[link] = Some(number));
            operator.inputs.iter().for_each(|&link| taker[link] = Some(number));
        }
        Ok(Machine {
            graph,
            capacity,
            queues: vec![Queue::EMPTY; graph.links],
            times: vec![0; graph.operators.len()],
            memory: vec![Value::E; graph.operators.len()],
            putter,
            taker,
            untaken: 0,
        })
    }

    fn has_room(&self, link: Link) -> bool {
        self.queues[link].waiting < self.capacity
    }

    /// 12, 32 "sixteen sets untaken", 33 "an input link, or the trigger's link where it exists, full".
    pub fn push(&mut self, set: &[Value]) -> Result<(), Refusal> {
        let graph = self.graph;
        if !set_suits(set, &graph.sorts) {
            return refuse(12, 0);
        }
        if self.untaken == MOST_UNTAKEN {
            return refuse(32, 0);
        }
        if !graph.inputs.iter().chain(&graph.trigger).all(|&link| self.has_room(link)) {
            return refuse(33, 0);
        }
        for (&link, &value) in graph.inputs.iter().zip(set) {
            self.queues[link].append(value);
        }
        // Which value the trigger's token has makes no difference: only constants and gates take it.
        if let Some(link) = graph.trigger {
            self.queues[link].append(Value::Truth(true));
        }
        self.untaken += 1;
        Ok(())
    }

    /// 35 "a result port empty or no set untaken".
    pub fn take(&mut self) -> Result<ResultSet, Refusal> {
        let ready = self.graph.results.iter().all(|&link| self.queues[link].waiting > 0);
        if !ready || self.untaken == 0 {
            return refuse(35, 0);
        }
        self.untaken -= 1;
        let mut set = ResultSet::EMPTY;
        for &link in &self.graph.results {
            set.push(self.queues[link].remove());
        }
        Ok(set)
    }

    /// 34 "the operator is absent or not able".
    pub fn fire(&mut self, number: usize) -> Result<(), Refusal> {
        match self.able(number) {
            Some(firing) => {
                self.apply(number, &firing);
                Ok(())
            }
            None => refuse(34, 0),
        }
    }

    pub fn can_fire(&self, number: usize) -> bool {
        self.able(number).is_some()
    }

    /// Fires the least-numbered able operator, up to so many times.
    /// After a firing only its neighbours and itself may have become able, so the search goes on from the least of them.
    pub fn run(&mut self, firings: u32) -> Ran {
        let mut count = 0;
        let mut number = 0;
        while number < self.graph.operators.len() {
            let Some(firing) = self.able(number) else {
                number += 1;
                continue;
            };
            if count == firings {
                return Ran { refusal: 36, count };
            }
            self.apply(number, &firing);
            count += 1;
            number = self.least_neighbour(number);
        }
        Ran { refusal: 0, count }
    }

    /// "by rounds: operators rising, each that is able at its turn firing once", up to so many rounds.
    pub fn run_by_rounds(&mut self, lent: u32) -> RanByRounds {
        let (mut rounds, mut firings) = (0, 0);
        for _ in 0..lent {
            let fired = (0..self.graph.operators.len()).filter(|&number| self.fire(number).is_ok()).count();
            if fired == 0 {
                break;
            }
            rounds += 1;
            firings += fired as u64;
        }
        let able = (0..self.graph.operators.len()).any(|number| self.can_fire(number));
        RanByRounds { refusal: if able { 36 } else { 0 }, rounds, firings }
    }

    fn least_neighbour(&self, number: usize) -> usize {
        let operator = &self.graph.operators[number];
        let before = operator.inputs.iter().filter_map(|&link| self.putter[link]);
        let after = operator.outputs.iter().flatten().filter_map(|&link| self.taker[link]);
        before.chain(after).fold(number, usize::min)
    }

    fn apply(&mut self, number: usize, firing: &Firing) {
        let operator = &self.graph.operators[number];
        for (&link, takes) in operator.inputs.iter().zip(firing.takes) {
            if takes {
                self.queues[link].remove();
            }
        }
        for (output, emits) in operator.outputs.iter().zip(firing.emits) {
            if let (Some(link), Some(value)) = (*output, emits) {
                self.queues[link].append(value);
            }
        }
        if let Some(value) = firing.remembers {
            self.memory[number] = value;
        }
        self.times[number] += 1;
    }

    /// The firing of an operator, if "every token listed waits and each link it emits on has a free place".
    fn able(&self, number: usize) -> Option<Firing> {
        let firing = self.wanted(number)?;
        let outputs = &self.graph.operators[number].outputs;
        let room = outputs.iter().zip(firing.emits).all(|(output, emits)| match (*output, emits) {
            (Some(link), Some(_)) => self.has_room(link),
            _ => true,
        });
        room.then_some(firing)
    }

    /// The firing of an operator, if every token listed waits.
    fn wanted(&self, number: usize) -> Option<Firing> {
        let operator = self.graph.operators.get(number)?;
        let token = |input: usize| self.queues[operator.inputs[input]].oldest();
        match operator.kind {
            Kind::FM if !self.has_fired(number) => Some(emit([false, false, true], token(2)?)),
            Kind::FS if !self.has_fired(number) => Some(remember([false, true, false], token(1)?)),
            Kind::FS => match token(0)? {
                Value::Truth(true) => Some(emit([true, false, false], self.memory[number])),
                _ => Some(remember([true, true, false], token(1)?)),
            },
            _ => wanted_by(operator, token),
        }
    }

    /// The tokens waiting on each link, for looking at a machine at rest.
    pub fn waiting(&self, link: Link) -> Vec<Value> {
        let queue = &self.queues[link];
        (0..queue.waiting).map(|place| queue.places[(queue.first + place) % MOST_CAPACITY]).collect()
    }

    pub fn has_fired(&self, number: usize) -> bool {
        self.times[number] > 0
    }

    /// How often each operator has fired since the start.
    pub fn times(&self) -> &[u64] {
        &self.times
    }

    pub fn untaken(&self) -> u32 {
        self.untaken
    }
}

/// The firing of an operator for which only the tokens count that wait, if every token listed waits: any but an FS, and an FM after its first firing.
pub fn wanted_by(operator: &Operator, token: impl Fn(usize) -> Option<Value>) -> Option<Firing> {
    match operator.kind {
        Kind::Constant(value) => token(0).map(|_| takes_all(value)),
        Kind::Operator(code) => match operator.inputs.len() {
            1 => Some(takes_all(operate(code, &[token(0)?]))),
            _ => Some(takes_all(operate(code, &[token(0)?, token(1)?]))),
        },
        Kind::Copy => token(0).map(|value| firing([true, false, false], [Some(value), Some(value), None])),
        Kind::T => Some(pass_if(token(0)? == Value::Truth(true), token(1)?)),
        Kind::F => Some(pass_if(token(0)? == Value::Truth(false), token(1)?)),
        Kind::M | Kind::FM => merge(token(0)?, token(1), token(2)),
        Kind::E => match token(0)? {
            Value::Truth(_) => Some(emit([true, true, false], token(1)?)),
            _ => Some(emit([true, false, false], Value::E)),
        },
        Kind::IC => join_control(token(0)?, token(1), token(2)),
        Kind::FS => None,
    }
}

fn firing(takes: [bool; 3], emits: [Option<Value>; 3]) -> Firing {
    Firing { takes, emits, remembers: None }
}

fn emit(takes: [bool; 3], value: Value) -> Firing {
    firing(takes, [Some(value), None, None])
}

fn takes_all(value: Value) -> Firing {
    emit([true; 3], value)
}

fn remember(takes: [bool; 3], data: Value) -> Firing {
    Firing { remembers: Some(data), ..emit(takes, data) }
}

/// "T: takes control and data, passes data on true, nothing otherwise. F likewise on false."
fn pass_if(passes: bool, data: Value) -> Firing {
    firing([true, true, false], [passes.then_some(data), None, None])
}

/// "M: true takes and passes input 2, false input 3; another control takes only itself, gives err."
fn merge(control: Value, second: Option<Value>, third: Option<Value>) -> Option<Firing> {
    match control {
        Value::Truth(true) => Some(emit([true, true, false], second?)),
        Value::Truth(false) => Some(emit([true, false, true], third?)),
        _ => Some(emit([true, false, false], Value::E)),
    }
}

/// IC: the chosen arm's iter? decides whether the control goes to the second or to the third output.
fn join_control(control: Value, yes: Option<Value>, no: Option<Value>) -> Option<Firing> {
    let (takes, iter) = match control {
        Value::Truth(true) => ([true, true, false], yes?),
        Value::Truth(false) => ([true, false, true], no?),
        _ => {
            let emits = [Some(Value::Truth(false)), None, Some(Value::E)];
            return Some(firing([true, false, false], emits));
        }
    };
    let emits = match iter {
        Value::Truth(true) => [Some(iter), Some(control), None],
        _ => [Some(Value::Truth(false)), None, Some(control)],
    };
    Some(firing(takes, emits))
}

#[cfg(test)]
mod tests {
    use super::*;
    use crate::value::Sort;
    use Value::{Truth, Whole};

    const YES: Value = Truth(true);
    const NO: Value = Truth(false);
    const E: Value = Value::E;
    const Z: Value = Value::Z;
    const V: Value = Value::V;

    /// One operator with links of its own, the inputs first.
    fn alone(kind: Kind, inputs: usize, outputs: usize) -> Graph {
        let operator =
            Operator { kind, inputs: (0..inputs).collect(), outputs: (inputs..inputs + outputs).map(Some).collect() };
        let (links, results) = (inputs + outputs, (inputs..inputs + outputs).collect());
        let sorts = vec![Sort::Truth; inputs];
        Graph { operators: vec![operator], links, inputs: (0..inputs).collect(), sorts, trigger: None, results }
    }

    /// Fires an operator as often as it can with these tokens on its links; gives what is on each link then.
    fn fired(kind: Kind, inputs: &[&[Value]], outputs: usize) -> Vec<Vec<Value>> {
        let graph = alone(kind, inputs.len(), outputs);
        let mut machine = Machine::start(&graph, 16).expect("a capacity in its range");
        for (link, tokens) in inputs.iter().enumerate() {
            tokens.iter().for_each(|&token| machine.queues[link].append(token));
        }
        while machine.fire(0).is_ok() {}
        (0..graph.links).map(|link| machine.waiting(link)).collect()
    }

    fn wholes(numbers: &[i32]) -> Vec<Value> {
        numbers.iter().map(|&number| Whole(number)).collect()
    }

    #[test]
    fn t_and_f_take_control_and_data() {
        let (control, data) = ([YES, NO, E, Whole(1), Z, YES], [Whole(1), Whole(2), Whole(3), Whole(4), Whole(5), V]);
        assert_eq!(fired(Kind::T, &[&control, &data], 1), [vec![], vec![], vec![Whole(1), V]]);
        assert_eq!(fired(Kind::F, &[&control, &data], 1), [vec![], vec![], wholes(&[2])]);
        assert_eq!(fired(Kind::T, &[&[NO], &[]], 1), [vec![NO], vec![], vec![]]);
    }

    #[test]
    fn m_takes_the_chosen_input_or_only_its_control() {
        let control = [YES, NO, E, Z, NO, V, YES, YES];
        let got = fired(Kind::M, &[&control, &[Whole(1), Z], &wholes(&[11, 12, 13])], 1);
        let passed = vec![Whole(1), Whole(11), E, E, Whole(12), E, Z];
        assert_eq!(got, [vec![YES], vec![], wholes(&[13]), passed]);
    }

    #[test]
    fn e_takes_no_data_on_a_bad_test() {
        let got = fired(Kind::E, &[&[V, YES, Whole(0), Z, NO, NO], &[Whole(1), Z]], 1);
        assert_eq!(got, [vec![NO], vec![], vec![E, Whole(1), E, E, Z]]);
    }

    #[test]
    fn ic_goes_by_brocks_table() {
        let got = fired(Kind::IC, &[&[YES, YES, NO, NO, Z, V, YES], &[YES, NO], &[YES, NO, NO]], 3);
        let (iter, second, third) = (vec![YES, NO, YES, NO, NO, NO], vec![YES, NO], vec![YES, NO, E, E]);
        assert_eq!(got, [vec![YES], vec![], vec![NO], iter, second, third]);
    }

    #[test]
    fn fm_starts_with_its_third_input() {
        let got = fired(Kind::FM, &[&[YES, NO, NO], &[Z], &[Whole(11), V]], 1);
        assert_eq!(got, [vec![NO], vec![], vec![], vec![Whole(11), Z, V]]);
    }

    #[test]
    fn fs_remembers_on_every_false() {
        let got = fired(Kind::FS, &[&[YES, YES, NO, YES, NO], &[Whole(1), Z]], 1);
        assert_eq!(got, [vec![NO], vec![], vec![Whole(1), Whole(1), Whole(1), Z, Z]]);
    }

    /// Floats pass as data, whatever their bits; as a control one is no truth.
    #[test]
    fn a_float_passes_and_is_no_truth() {
        let (minus_zero, one) = (Value::real(-0.0), Value::real(1.0));
        assert_eq!(fired(Kind::Copy, &[&[minus_zero]], 2), [vec![], vec![minus_zero], vec![minus_zero]]);
        assert_eq!(fired(Kind::T, &[&[YES, one], &[minus_zero, one]], 1), [vec![], vec![], vec![minus_zero]]);
        assert_eq!(fired(Kind::M, &[&[one, NO], &[], &[minus_zero]], 1), [vec![], vec![], vec![], vec![E, minus_zero]]);
        assert_eq!(fired(Kind::E, &[&[one, YES], &[minus_zero]], 1), [vec![], vec![], vec![E, minus_zero]]);
        let got = fired(Kind::IC, &[&[one, YES], &[minus_zero], &[]], 3);
        assert_eq!(got, [vec![], vec![], vec![], vec![NO, NO], vec![], vec![E, YES]]);
        let got = fired(Kind::FS, &[&[YES, one], &[minus_zero, Whole(1)]], 1);
        assert_eq!(got, [vec![], vec![], vec![minus_zero, minus_zero, Whole(1)]]);
    }

    /// "each link it emits on has a free place": in this firing.
    #[test]
    fn a_dropping_gate_needs_no_free_place() {
        let graph = alone(Kind::T, 2, 1);
        let mut machine = Machine::start(&graph, 1).expect("a capacity in its range");
        for (control, answer) in [(YES, Ok(())), (NO, Ok(())), (YES, refuse(34, 0))] {
            machine.push(&[control, YES]).expect("free input links");
            assert_eq!(machine.fire(0), answer);
        }
        let graph = alone(Kind::IC, 3, 3);
        let mut machine = Machine::start(&graph, 1).expect("a capacity in its range");
        machine.queues[5].append(E);
        machine.push(&[YES, YES, NO]).expect("free input links");
        assert_eq!(machine.fire(0), Ok(()));
        machine.queues[0].append(NO);
        assert_eq!(machine.fire(0), refuse(34, 0));
    }
}
