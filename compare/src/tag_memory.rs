// The calls on the memory of a machine with tags, over the bytes that docs/MEMORY.md lays out: start, push, fire, run and take, with refusals 11 and 31. Of the
// bytes a call makes the machine of tags.rs, and writes back what that one did. Its writer knew the layout and what is 31.

use crate::bytes::{decode, decode_set, encode, encode_result, OUT_BYTES, VALUE_BYTES};
use crate::graph::{Graph, Kind, Operator};
use crate::memory::{
    graph_valid, link_valid, number, ports, refuse, stored_sort, write_records, Answer, StartAnswer, LINKS, MOST_LINKS,
    NO_LINK, OPERATORS, REGISTERS,
};
use crate::sheet::{self, Figures, Refusal};
use crate::tags::{self, Machine, Tag, TAGS};

/// What stands where the first machine has its capacity.
pub const MARK: u8 = 17;

/// A link's stretch: the count and one token.
pub const STRETCH: usize = 1 + VALUE_BYTES;

/// Where each tag has its byte: 1 where a set is pushed under it and not taken.
pub const TAGS_AT: usize = LINKS + TAGS as usize * MOST_LINKS * STRETCH;

/// What every call needs.
pub const NEED: usize = TAGS_AT + TAGS as usize;

/// The kinds that a graph without for has.
const LAST_KIND: u8 = 16;

/// Where the stretch of a link under a tag begins.
pub fn stretch_at(link: usize, tag: Tag) -> usize {
    LINKS + STRETCH * (MOST_LINKS * tag as usize + link)
}

pub fn start(sheet: &[u8], kinds: &[u8], mem: &mut [u8]) -> StartAnswer {
    match started(sheet, kinds, mem) {
        Ok(Figures { operators, inputs, results, .. }) => {
            StartAnswer { refusal: 0, row: 0, operators, inputs, results }
        }
        Err(Refusal { number, row }) => StartAnswer { refusal: number, row, ..StartAnswer::default() },
    }
}

fn started(sheet: &[u8], kinds: &[u8], mem: &mut [u8]) -> Result<Figures, Refusal> {
    if mem.len() < NEED {
        return sheet::refuse(11, 0);
    }
    let sheet = tags::read(sheet, kinds)?;
    let machine = Machine::start(&sheet);
    write_records(&machine.graph, MARK, mem);
    write_back(&machine, mem);
    Ok(sheet.figures)
}

pub fn push(mem: &mut [u8], set: &[u8]) -> Answer {
    on(mem, |machine| match decode_set(set) {
        Some(values) => machine.push(&values),
        None => sheet::refuse(12, 0),
    })
}

pub fn fire(mem: &mut [u8], operator: u32, tag: u32) -> Answer {
    on(mem, |machine| machine.fire(operator as usize, tag).map(|()| 0))
}

/// "A run's 36 keeps its firings and gives their count."
pub fn run(mem: &mut [u8], firings: u32) -> Answer {
    let mut refusal = 0;
    let answer = on(mem, |machine| {
        let ran = machine.run(firings);
        refusal = ran.refusal;
        Ok(ran.count)
    });
    Answer { refusal: answer.refusal.max(refusal), ..answer }
}

pub fn take(mem: &mut [u8], tag: u32, out: &mut [u8]) -> Answer {
    if out.len() < OUT_BYTES {
        return refuse(11);
    }
    on(mem, |machine| {
        let set = machine.take(tag)?;
        out[..OUT_BYTES].copy_from_slice(&encode_result(&set));
        Ok(set.width as u32)
    })
}

/// A call on the machine that the memory holds, and its count; what it did is written back where it is accepted.
fn on(mem: &mut [u8], call: impl FnOnce(&mut Machine) -> Result<u32, Refusal>) -> Answer {
    let mut machine = match stored(mem) {
        Ok(machine) => machine,
        Err(refusal) => return refuse(refusal),
    };
    match call(&mut machine) {
        Ok(count) => {
            write_back(&machine, mem);
            Answer { refusal: 0, count }
        }
        Err(Refusal { number, .. }) => refuse(number),
    }
}

/// The machine that a memory holds; 11 or 31 where it holds none.
pub fn stored(mem: &[u8]) -> Result<Machine, u32> {
    if mem.len() < NEED {
        return Err(11);
    }
    if !valid(mem) {
        return Err(31);
    }
    let mut machine = Machine::empty(stored_graph(mem));
    for tag in 0..TAGS {
        for (link, tokens) in machine.links.iter_mut().enumerate() {
            let stretch = &mem[stretch_at(link, tag)..][..STRETCH];
            if stretch[0] == 1 {
                tokens.extend(decode(&stretch[1..]).map(|value| (tag, value)));
            }
        }
    }
    machine.untaken = (0..TAGS).filter(|&tag| mem[TAGS_AT + tag as usize] == 1).collect();
    Ok(machine)
}

fn valid(mem: &[u8]) -> bool {
    let links = number(mem, 3);
    mem[0] == MARK
        && mem[7] == 0
        && graph_valid(mem)
        && (0..number(mem, 1)).all(|i| mem[OPERATORS + 16 * i] <= LAST_KIND)
        && mem[TAGS_AT..NEED].iter().all(|&byte| byte <= 1)
        && (0..TAGS).all(|tag| (0..links).all(|link| link_valid(&mem[stretch_at(link, tag)..][..STRETCH])))
}

/// The graph of a valid memory.
fn stored_graph(mem: &[u8]) -> Graph {
    let named = |at: usize| Some(number(mem, at)).filter(|&link| link != NO_LINK);
    let row = |at: usize, count: u8| (0..count.into()).map(|place: usize| number(mem, at + 2 * place)).collect();
    Graph {
        operators: (0..number(mem, 1)).map(|i| stored_operator(mem, i)).collect(),
        links: number(mem, 3),
        inputs: row(10, mem[5]),
        sorts: (0..mem[5].into()).filter_map(|place| stored_sort(mem, place)).collect(),
        trigger: named(8),
        results: row(74, mem[6]),
    }
}

fn stored_operator(mem: &[u8], i: usize) -> Operator {
    let at = OPERATORS + 16 * i;
    let (inputs, outputs) = ports(mem[at]);
    let kind = match mem[at] {
        12 => Kind::Constant(decode(&mem[REGISTERS + 5 * i..][..VALUE_BYTES]).expect("a constant's value")),
        13 => Kind::Copy,
        14 => Kind::T,
        15 => Kind::F,
        16 => Kind::M,
        code => Kind::Operator(code.into()),
    };
    Operator {
        kind,
        inputs: (0..inputs).map(|port| number(mem, at + 2 + 2 * port)).collect(),
        outputs: (0..outputs).map(|port| Some(number(mem, at + 8 + 2 * port))).collect(),
    }
}

/// The tokens and the tags' bytes of a machine. A token that is taken stays behind its count of 0, so that each one put on a link since is written.
fn write_back(machine: &Machine, mem: &mut [u8]) {
    for placed in &machine.placed {
        mem[stretch_at(placed.link, placed.tag) + 1..][..VALUE_BYTES].copy_from_slice(&encode(placed.value));
    }
    for tag in 0..TAGS {
        for (link, tokens) in machine.links.iter().enumerate() {
            mem[stretch_at(link, tag)] = tokens.contains_key(&tag).into();
        }
        mem[TAGS_AT + tag as usize] = machine.untaken.contains(&tag).into();
    }
}
