// The machine with tags (document 02, Job 12), for sheets without for: each set gets a tag, and its tokens carry it. Written from the papers alone; each link
// has its tokens by their tags, and the rules of the gates are those of machine.rs. Memory is never altered from outside here, so refusals 11 and 31 do not
// arise.

use crate::graph::{self, Graph, Link};
use crate::machine::{wanted_by, Firing, Ran};
use crate::sheet::{self, refuse, Refusal, Sheet};
use crate::value::{set_suits, ResultSet, Value};
use std::collections::{BTreeMap, BTreeSet};

/// "Each set gets the lowest free tag, 0 to 15".
pub const TAGS: u32 = 16;

pub type Tag = u32;

/// The row kind that the sheets of this machine have not got.
const FOR: u32 = 8;

/// A token that was put on a link.
pub struct Placed {
    pub link: Link,
    pub tag: Tag,
    pub value: Value,
}

/// The machine over a graph. An operator's number is its place in the graph's list.
pub struct Machine {
    pub graph: Graph,
    /// The tokens on each link by their tags: "one token a tag on each link".
    pub links: Vec<BTreeMap<Tag, Value>>,
    /// The tags of the sets that were pushed and not taken.
    pub untaken: BTreeSet<Tag>,
    /// Every token that was put on a link, one after the other.
    pub placed: Vec<Placed>,
}

/// 1 to 9, 17, 18, 10, and 19 "when the sheet has a for, after 10".
pub fn read(sheet: &[u8], kinds: &[u8]) -> Result<Sheet, Refusal> {
    let sheet = sheet::read(sheet, kinds)?;
    if sheet.lines.iter().any(|line| line.row.kind == FOR) {
        return refuse(19, 0);
    }
    Ok(sheet)
}

impl Machine {
    /// An empty machine for a sheet without for.
    pub fn start(sheet: &Sheet) -> Machine {
        Machine::empty(graph::build(sheet))
    }

    pub fn empty(graph: Graph) -> Machine {
        let links = vec![BTreeMap::new(); graph.links];
        Machine { graph, links, untaken: BTreeSet::new(), placed: vec![] }
    }

    /// "A tag is free again as soon as, and not before, its result is taken and no token with it is left on any link".
    pub fn is_free(&self, tag: Tag) -> bool {
        !self.untaken.contains(&tag) && self.tokens_with(tag) == 0
    }

    /// On how many links a token with this tag is left.
    pub fn tokens_with(&self, tag: Tag) -> usize {
        self.links.iter().filter(|tokens| tokens.contains_key(&tag)).count()
    }

    /// Whether a take of this tag would be accepted.
    pub fn has_result(&self, tag: Tag) -> bool {
        self.untaken.contains(&tag) && self.graph.results.iter().all(|&link| self.links[link].contains_key(&tag))
    }

    /// 12, 37 "when no tag is free"; gives the tag.
    pub fn push(&mut self, set: &[Value]) -> Result<Tag, Refusal> {
        if !set_suits(set, &self.graph.sorts) {
            return refuse(12, 0);
        }
        let Some(tag) = (0..TAGS).find(|&tag| self.is_free(tag)) else {
            return refuse(37, 0);
        };
        let inputs: Vec<Link> = self.graph.inputs.clone();
        for (link, &value) in inputs.into_iter().zip(set) {
            self.put(link, tag, value);
        }
        // Which value the trigger's token has makes no difference: only constants and gates take it.
        if let Some(link) = self.graph.trigger {
            self.put(link, tag, Value::Truth(true));
        }
        self.untaken.insert(tag);
        Ok(tag)
    }

    fn put(&mut self, link: Link, tag: Tag, value: Value) {
        self.links[link].insert(tag, value);
        self.placed.push(Placed { link, tag, value });
    }

    /// 38 "when take's tag has no whole result".
    pub fn take(&mut self, tag: Tag) -> Result<ResultSet, Refusal> {
        if !self.has_result(tag) {
            return refuse(38, 0);
        }
        let mut set = ResultSet::EMPTY;
        for &link in &self.graph.results {
            set.push(self.links[link].remove(&tag).unwrap_or(Value::E));
        }
        self.untaken.remove(&tag);
        Ok(set)
    }

    /// "34 covers an absent tag".
    pub fn fire(&mut self, number: usize, tag: Tag) -> Result<(), Refusal> {
        match self.able(number, tag) {
            Some(firing) => {
                self.apply(number, tag, &firing);
                Ok(())
            }
            None => refuse(34, 0),
        }
    }

    /// "Run picks the least-numbered able operator and then its lowest able tag", up to so many times. A firing takes and gives tokens of one tag, so it
    /// makes none able but the users of its links under this tag.
    pub fn run(&mut self, firings: u32) -> Ran {
        let users = self.users();
        let mut maybe_able = self.with_tokens();
        let mut count = 0;
        while let Some((number, tag)) = maybe_able.pop_first() {
            let Some(firing) = self.able(number, tag) else { continue };
            if count == firings {
                return Ran { refusal: 36, count };
            }
            self.apply(number, tag, &firing);
            count += 1;
            for link in self.ports(number) {
                maybe_able.extend(users[link].iter().map(|&user| (user, tag)));
            }
        }
        Ran { refusal: 0, count }
    }

    /// The operators that are able, each with its tag.
    pub fn able_pairs(&self) -> Vec<(usize, Tag)> {
        self.with_tokens().into_iter().filter(|&(number, tag)| self.able(number, tag).is_some()).collect()
    }

    /// The operators with a token on some input link, each with that token's tag.
    fn with_tokens(&self) -> BTreeSet<(usize, Tag)> {
        let operators = self.graph.operators.iter().enumerate();
        let tokens = operators.flat_map(|(number, operator)| operator.inputs.iter().map(move |&link| (number, link)));
        tokens.flat_map(|(number, link)| self.links[link].keys().map(move |&tag| (number, tag))).collect()
    }

    fn ports(&self, number: usize) -> Vec<Link> {
        let operator = &self.graph.operators[number];
        operator.inputs.iter().copied().chain(operator.outputs.iter().copied().flatten()).collect()
    }

    /// The operators that name a link.
    fn users(&self) -> Vec<Vec<usize>> {
        let mut users = vec![vec![]; self.graph.links];
        for number in 0..self.graph.operators.len() {
            self.ports(number).into_iter().for_each(|link| users[link].push(number));
        }
        users
    }

    /// The firing of an operator under a tag, if "every token listed waits and each link it emits on has a free place".
    fn able(&self, number: usize, tag: Tag) -> Option<Firing> {
        let operator = self.graph.operators.get(number)?;
        let firing = wanted_by(operator, |input| self.links[operator.inputs[input]].get(&tag).copied())?;
        let room = operator.outputs.iter().zip(firing.emits).all(|(output, emits)| match (*output, emits) {
            (Some(link), Some(_)) => !self.links[link].contains_key(&tag),
            _ => true,
        });
        room.then_some(firing)
    }

    fn apply(&mut self, number: usize, tag: Tag, firing: &Firing) {
        let operator = self.graph.operators[number].clone();
        for (&link, takes) in operator.inputs.iter().zip(firing.takes) {
            if takes {
                self.links[link].remove(&tag);
            }
        }
        for (output, emits) in operator.outputs.into_iter().zip(firing.emits) {
            if let (Some(link), Some(value)) = (output, emits) {
                self.put(link, tag, value);
            }
        }
    }
}
