// The translation of a sheet to operators and links (document 01, "The graph"; Brock, Figures 2.3 to 2.13).
// It is built from the links that are to be fed back to what feeds them: a part is handed the links of its
// outputs and gives back its uses, the links that each free name must feed. Assumes an accepted sheet.

use crate::sheet::Sheet;
use crate::value::{operands, Sort, Value};

pub type Link = usize;

/// The trigger's number among the names.
pub const TRIGGER_NAME: u32 = 32;

#[derive(Clone, Copy, PartialEq, Eq, Debug)]
pub enum Kind {
    Constant(Value),
    Operator(u32),
    Copy,
    T,
    F,
    M,
    E,
    IC,
    FM,
    FS,
}

/// An operator with its links, control first; `None` is IC's second output where it has no user.
#[derive(Clone, Debug)]
pub struct Operator {
    pub kind: Kind,
    pub inputs: Vec<Link>,
    pub outputs: Vec<Option<Link>>,
}

#[derive(Clone, Debug)]
pub struct Graph {
    pub operators: Vec<Operator>,
    pub links: usize,
    /// The input links, identifiers rising.
    pub inputs: Vec<Link>,
    /// The kind of each input.
    pub sorts: Vec<Sort>,
    /// The trigger's link, where it exists.
    pub trigger: Option<Link>,
    pub results: Vec<Link>,
}

/// A name and a link that it has to feed.
type Use = (u32, Link);

/// The links that a body emits on: its iter?, and its iterated and returned results, none where it has none.
struct Ports {
    iter: Link,
    iterated: Vec<Link>,
    returned: Vec<Link>,
}

struct Builder<'a> {
    sheet: &'a Sheet,
    operators: Vec<Operator>,
    links: usize,
}

pub fn build(sheet: &Sheet) -> Graph {
    let mut builder = Builder { sheet, operators: Vec::new(), links: 0 };
    let formula = sheet.last();
    let results = builder.fresh_links(sheet.line(formula).width.into());
    let uses = builder.expression(formula, &results);
    let mut inputs = Vec::new();
    let mut trigger = None;
    for name in names(&uses) {
        let link = builder.feed(&links_of(&uses, name));
        if name == TRIGGER_NAME {
            trigger = Some(link);
        } else {
            inputs.push(link);
        }
    }
    Graph { operators: builder.operators, links: builder.links, inputs, sorts: sheet.sorts.clone(), trigger, results }
}

/// The names used, rising.
fn names(uses: &[Use]) -> Vec<u32> {
    let mut names: Vec<u32> = uses.iter().map(|&(name, _)| name).collect();
    names.sort_unstable();
    names.dedup();
    names
}

fn links_of(uses: &[Use], name: u32) -> Vec<Link> {
    uses.iter().filter(|&&(used, _)| used == name).map(|&(_, link)| link).collect()
}

impl Builder<'_> {
    fn fresh(&mut self) -> Link {
        self.links += 1;
        self.links - 1
    }

    fn fresh_links(&mut self, count: usize) -> Vec<Link> {
        (0..count).map(|_| self.fresh()).collect()
    }

    fn add(&mut self, kind: Kind, inputs: &[Link], outputs: &[Link]) {
        let outputs = outputs.iter().map(|&link| Some(link)).collect();
        self.operators.push(Operator { kind, inputs: inputs.to_vec(), outputs });
    }

    /// One link that feeds all of these: "used k times, k above 1, passes k-1 two-way copies".
    fn feed(&mut self, users: &[Link]) -> Link {
        let (&last, others) = users.split_last().expect("an output with no user is not emitted");
        let mut head = last;
        for &user in others.iter().rev() {
            let link = self.fresh();
            self.add(Kind::Copy, &[link], &[user, head]);
            head = link;
        }
        head
    }

    fn constant(&mut self, value: Value, output: Link) -> Use {
        let trigger = self.fresh();
        self.add(Kind::Constant(value), &[trigger], &[output]);
        (TRIGGER_NAME, trigger)
    }

    /// A row in an expression place, emitting on these links.
    fn expression(&mut self, number: u32, outputs: &[Link]) -> Vec<Use> {
        let row = self.sheet.line(number).row;
        match row.kind {
            1 => vec![(row.a, outputs[0])],
            2 => vec![self.constant(Value::Whole(row.a as i32), outputs[0])],
            3 => vec![self.constant(Value::Truth(row.a == 1), outputs[0])],
            10 => vec![self.constant(Value::thousandths(row.a), outputs[0])],
            4 => {
                let (left, right) = outputs.split_at(self.sheet.line(row.a).width.into());
                let mut uses = self.expression(row.a, left);
                uses.extend(self.expression(row.b, right));
                uses
            }
            5 => {
                let inputs = self.fresh_links(operands(row.a));
                self.add(Kind::Operator(row.a), &inputs, outputs);
                self.expression(row.b, &inputs)
            }
            6 => {
                let uses = self.expression(row.d, outputs);
                self.bind(row.a, row.b, row.c, uses)
            }
            7 => self.expression_if(row.a, row.b, row.c, outputs),
            8 => self.loop_of(row.a, row.b, row.c, row.d, outputs),
            kind => unreachable!("kind {kind} in an expression place"),
        }
    }

    /// A let (Figure 2.7): row c's outputs feed the identifiers' uses; the other uses go on.
    fn bind(&mut self, a: u32, b: u32, c: u32, uses: Vec<Use>) -> Vec<Use> {
        let heads: Vec<Link> = (a..a + b).map(|name| self.feed(&links_of(&uses, name))).collect();
        let mut outer: Vec<Use> = uses.into_iter().filter(|&(name, _)| name < a || name >= a + b).collect();
        outer.extend(self.expression(c, &heads));
        outer
    }

    /// Puts a gate on each name used by an arm: gives the gates' data as uses, and adds their controls to the test's.
    fn gate_names(&mut self, kind: Kind, uses: &[Use], controls: &mut Vec<Link>) -> Vec<Use> {
        let mut outer = Vec::new();
        for name in names(uses) {
            let output = self.feed(&links_of(uses, name));
            let (control, data) = (self.fresh(), self.fresh());
            self.add(kind, &[control, data], &[output]);
            controls.push(control);
            outer.push((name, data));
        }
        outer
    }

    /// A gate with two data inputs on each output; gives the two arms' links and adds the controls.
    fn join(&mut self, outputs: &[Link], controls: &mut Vec<Link>) -> (Vec<Link>, Vec<Link>) {
        let mut arms = (Vec::new(), Vec::new());
        for &output in outputs {
            let (control, left, right) = (self.fresh(), self.fresh(), self.fresh());
            self.add(Kind::M, &[control, left, right], &[output]);
            controls.push(control);
            arms.0.push(left);
            arms.1.push(right);
        }
        arms
    }

    /// Figure 2.8.
    fn expression_if(&mut self, test: u32, yes: u32, no: u32, outputs: &[Link]) -> Vec<Use> {
        let mut controls = Vec::new();
        let (left, right) = self.join(outputs, &mut controls);
        let yes_uses = self.expression(yes, &left);
        let no_uses = self.expression(no, &right);
        let mut uses = self.gate_names(Kind::T, &yes_uses, &mut controls);
        uses.extend(self.gate_names(Kind::F, &no_uses, &mut controls));
        let control = self.feed(&controls);
        uses.extend(self.expression(test, &[control]));
        uses
    }

    /// Figure 2.13.
    fn loop_of(&mut self, a: u32, b: u32, c: u32, d: u32, outputs: &[Link]) -> Vec<Use> {
        let iterated = self.fresh_links(b as usize);
        let started = self.fresh_links(b as usize);
        let iter = self.fresh();
        let ports = Ports { iter, iterated: iterated.clone(), returned: outputs.to_vec() };
        let uses = self.body(d, &ports);
        let names = names(&uses);
        let controls = self.fan_out(iter, names.len());
        let mut outer = Vec::new();
        for (name, control) in names.into_iter().zip(controls) {
            let output = self.feed(&links_of(&uses, name));
            if (a..a + b).contains(&name) {
                let place = (name - a) as usize;
                self.add(Kind::FM, &[control, iterated[place], started[place]], &[output]);
            } else {
                let data = self.fresh();
                self.add(Kind::FS, &[control, data], &[output]);
                outer.push((name, data));
            }
        }
        outer.extend(self.expression(c, &started));
        outer
    }

    /// So many links fed by one, over copies as in `feed`.
    fn fan_out(&mut self, link: Link, count: usize) -> Vec<Link> {
        let mut users = Vec::new();
        let mut head = link;
        for _ in 1..count {
            let (user, rest) = (self.fresh(), self.fresh());
            self.add(Kind::Copy, &[head], &[user, rest]);
            users.push(user);
            head = rest;
        }
        users.push(head);
        users
    }

    /// A row in a body place.
    fn body(&mut self, number: u32, ports: &Ports) -> Vec<Use> {
        let row = self.sheet.line(number).row;
        match row.kind {
            6 => {
                let uses = self.body(row.d, ports);
                self.bind(row.a, row.b, row.c, uses)
            }
            7 => self.body_if(row.a, row.b, row.c, ports),
            9 => {
                let mut uses = vec![self.constant(Value::Truth(true), ports.iter)];
                uses.extend(self.expression(row.a, &ports.iterated));
                uses
            }
            _ => {
                let mut uses = vec![self.constant(Value::Truth(false), ports.iter)];
                uses.extend(self.expression(number, &ports.returned));
                uses
            }
        }
    }

    /// Figure 2.12, with the cases that document 01 completes.
    fn body_if(&mut self, test: u32, yes: u32, no: u32, ports: &Ports) -> Vec<Use> {
        let (yes_iter, no_iter) = (self.fresh(), self.fresh());
        let mut second = Vec::new();
        let mut third = Vec::new();
        let (yes_iterated, no_iterated) = match (self.iterates(yes), self.iterates(no)) {
            (true, true) => self.join(&ports.iterated, &mut second),
            (true, false) => (ports.iterated.clone(), Vec::new()),
            (false, true) => (Vec::new(), ports.iterated.clone()),
            (false, false) => (Vec::new(), Vec::new()),
        };
        let (yes_returned, no_returned) = match (self.returns(yes), self.returns(no)) {
            (true, true) => self.join(&ports.returned, &mut third),
            (true, false) => (self.guard(&ports.returned, &mut third), Vec::new()),
            (false, true) => (Vec::new(), self.guard(&ports.returned, &mut third)),
            (false, false) => {
                third.clone_from(&ports.returned);
                (Vec::new(), Vec::new())
            }
        };
        let yes_ports = Ports { iter: yes_iter, iterated: yes_iterated, returned: yes_returned };
        let no_ports = Ports { iter: no_iter, iterated: no_iterated, returned: no_returned };
        let yes_uses = self.body(yes, &yes_ports);
        let no_uses = self.body(no, &no_ports);
        let mut controls = Vec::new();
        let mut uses = self.gate_names(Kind::T, &yes_uses, &mut controls);
        uses.extend(self.gate_names(Kind::F, &no_uses, &mut controls));
        controls.push(self.fresh());
        self.add_join_control(controls[controls.len() - 1], [yes_iter, no_iter], ports.iter, &second, &third);
        let control = self.feed(&controls);
        uses.extend(self.expression(test, &[control]));
        uses
    }

    /// The IC gate; "an output with no user is not emitted".
    fn add_join_control(&mut self, control: Link, arms: [Link; 2], iter: Link, second: &[Link], third: &[Link]) {
        let second = if second.is_empty() { None } else { Some(self.feed(second)) };
        let third = Some(self.feed(third));
        let inputs = vec![control, arms[0], arms[1]];
        self.operators.push(Operator { kind: Kind::IC, inputs, outputs: vec![Some(iter), second, third] });
    }

    /// An E gate on each output; gives the links of the data and adds the controls.
    fn guard(&mut self, outputs: &[Link], controls: &mut Vec<Link>) -> Vec<Link> {
        let mut inside = Vec::new();
        for &output in outputs {
            let (control, data) = (self.fresh(), self.fresh());
            self.add(Kind::E, &[control, data], &[output]);
            controls.push(control);
            inside.push(data);
        }
        inside
    }

    /// Whether some ending of a body is an iter.
    fn iterates(&self, number: u32) -> bool {
        let row = self.sheet.line(number).row;
        match row.kind {
            6 => self.iterates(row.d),
            7 => self.iterates(row.b) || self.iterates(row.c),
            kind => kind == 9,
        }
    }

    /// "an arm that ends, behind any lets, in a body if always returns".
    fn returns(&self, number: u32) -> bool {
        let row = self.sheet.line(number).row;
        match row.kind {
            6 => self.returns(row.d),
            kind => kind != 9,
        }
    }
}

#[cfg(test)]
mod tests {
    use super::*;
    use crate::random::{accepted_sheet, heavy_sheet, Rng};
    use crate::sheet;

    fn graph_of(rows: &[[u32; 5]]) -> Graph {
        build(&sheet::read(&sheet::write(rows), b"W\n").expect("an accepted sheet"))
    }

    /// Every link has one putter, an operator or an input, and one taker, an operator or a result port.
    fn each_link_has_one_putter_and_one_taker(graph: &Graph) {
        let mut put = vec![0; graph.links];
        let mut taken = vec![0; graph.links];
        for operator in &graph.operators {
            operator.outputs.iter().flatten().for_each(|&link| put[link] += 1);
            operator.inputs.iter().for_each(|&link| taken[link] += 1);
        }
        graph.inputs.iter().chain(&graph.trigger).for_each(|&link| put[link] += 1);
        graph.results.iter().for_each(|&link| taken[link] += 1);
        assert!(put.iter().chain(&taken).all(|&times| times == 1));
    }

    #[test]
    fn an_identifier_is_a_bare_link() {
        let graph = graph_of(&[[1, 7, 0, 0, 0]]);
        assert_eq!((graph.operators.len(), graph.trigger), (0, None));
        assert_eq!(graph.inputs, graph.results);
    }

    #[test]
    fn twice_the_same_name_passes_one_copy() {
        let graph = graph_of(&[[1, 0, 0, 0, 0], [1, 0, 0, 0, 0], [4, 1, 2, 0, 0], [5, 1, 3, 0, 0]]);
        assert_eq!(graph.operators.len(), 2);
        each_link_has_one_putter_and_one_taker(&graph);
    }

    #[test]
    fn the_counting_formula_counts_the_graph_that_is_built() {
        let mut rng = Rng::new(11);
        for case in 0..3000 {
            let made = if case % 10 == 0 { heavy_sheet(&mut rng) } else { accepted_sheet(&mut rng) };
            let sheet = made.sheet();
            let graph = build(&sheet);
            assert_eq!(graph.operators.len(), sheet.figures.operators as usize);
            assert_eq!(graph.inputs.len(), sheet.figures.inputs as usize);
            assert_eq!(graph.results.len(), sheet.figures.results as usize);
            assert_eq!(graph.trigger.is_some(), sheet.line(sheet.last()).free & sheet::TRIGGER != 0);
            each_link_has_one_putter_and_one_taker(&graph);
        }
    }
}
