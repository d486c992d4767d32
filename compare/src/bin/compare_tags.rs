// Runs random lists of calls through the product's machine with tags and through the one here (document 02, Job 12), on the same bytes, and stops at the first
// difference, which it prints. After every call the answers and every byte must agree, and a refusal must leave all but what 36 keeps. Where nothing but calls
// wrote the memory, 31 must not come; each result taken must be what direct evaluation gives for the set last pushed under its tag; and when a run ends without
// 36 every tag is free or has its whole result. Each machine's memory is handed to the other's calls too.
// Usage: compare_tags CASES SEED [FIRST]. `compare_tags 1 SEED NUMBER` makes a case again.

use compare::arguments::{Cases, Counts};
use compare::bytes::{self, OUT_BYTES};
use compare::calls::{self, difference, Calls, TagCalls, PLAIN, PLAIN_TAGS};
use compare::memory::{self, Answer, LETTERS, OPERATORS};
use compare::random::altered::alter;
use compare::random::faults::{plant, PLANTABLE};
use compare::random::{
    accepted_sheet, heavy_loopless_sheet, heavy_sheet, lent_set, loopless_sheet, quick_sheet, random_set, Made, Rng,
};
use compare::sheet::{self, Sheet};
use compare::tag_memory::{self, stretch_at, NEED, TAGS_AT};
use compare::tags::{Machine, Tag, TAGS};
use compare::tally::Tally;
use compare::{eval, product};

/// Bytes behind the lent ones.
const MARGIN: usize = 32;

/// What stands in the room for a result.
const HELD: [u8; 90] = [0x55; 90];

/// What makes an absent tag of any.
const ABSENT: [Tag; 4] = [TAGS, 15 * TAGS, 256, 1 << 31];

/// The most firings lent where altered memory may go on without end.
const MANY_FIRINGS: u32 = 5_000;

/// A firing for each operator under each tag: without for none fires twice for a set.
const ENOUGH_FIRINGS: u32 = 1_024 * TAGS;

/// Before how many calls in a hundred one tag is hurried through, and the most firings of this.
const HURRIES: usize = 5;
const HURRY: usize = 80;

/// Before how many calls in a hundred one set more is pushed than there are tags.
const FLOODS: usize = 2;

/// After how many runs in a hundred that leave nothing to do the product is asked of each tag.
const ASKED: usize = 10;

fn main() {
    Cases::asked("compare_tags").compare(|number, counts, rng| {
        let made = random_sheet(number, rng);
        compare_case(number, &made, counts, rng).map_err(|difference| format!("{made}\n{difference}"))
    });
}

/// Mostly sheets without for; a few that 19 speaks of, or a refusal before it.
fn random_sheet(number: u64, rng: &mut Rng) -> Made {
    match number % 40 {
        0 => heavy_loopless_sheet(rng),
        1 if rng.chance(20) => heavy_sheet(rng),
        1 | 2 => plant(rng.pick(&PLANTABLE), rng).made,
        3 | 4 => accepted_sheet(rng),
        5..=16 => loopless_sheet(rng),
        _ => quick_sheet(rng),
    }
}

/// The set last pushed under a tag, not yet taken, and how many were pushed before it.
struct Pushed {
    set: Vec<u8>,
    place: u64,
}

/// A machine under comparison: its bytes in the product and here, and the sets under way while nothing else wrote it.
struct Run<'a> {
    sheet: &'a Sheet,
    mem: Vec<u8>,
    plain: Vec<u8>,
    /// The bytes before a call.
    before: Vec<u8>,
    pushed: [Option<Pushed>; TAGS as usize],
    pushes: u64,
    /// The tag of which the call before took the result and left tokens.
    left: Option<Tag>,
    altered: bool,
    counts: &'a mut Counts,
}

#[derive(Clone)]
enum Call {
    Push(Vec<u8>),
    Fire(u32, Tag),
    Run(u32),
    Take(Tag),
}

impl Call {
    fn name(&self) -> &'static str {
        match self {
            Call::Push(_) => "push",
            Call::Fire(..) => "fire",
            Call::Run(_) => "run",
            Call::Take(_) => "take",
        }
    }

    fn make(&self, calls: TagCalls, mem: &mut [u8], out: &mut [u8]) -> Answer {
        match *self {
            Call::Push(ref set) => (calls.push)(mem, set),
            Call::Fire(operator, tag) => (calls.fire)(mem, operator, tag),
            Call::Run(firings) => (calls.run)(mem, firings),
            Call::Take(tag) => (calls.take)(mem, tag, out),
        }
    }
}

fn product_calls() -> (Calls, TagCalls) {
    (calls::product().expect("the product"), calls::product_tags().expect("the product"))
}

fn compare_case(number: u64, made: &Made, counts: &mut Counts, rng: &mut Rng) -> Result<(), String> {
    let length = if rng.chance(96) { NEED + rng.below(3) } else { rng.pick(&[0, 1, 21_760, TAGS_AT, NEED - 1]) };
    let fill = rng.number() as u8;
    let held: Vec<u8> = (0..length + MARGIN).map(|at| (at as u8).wrapping_mul(31).wrapping_add(fill)).collect();
    if number % 20 == 19 {
        return foreign(made, &held, counts, rng);
    }
    let (mut plain, mut mem) = (held.clone(), held.clone());
    let ours = tag_memory::start(&made.bytes, &made.kinds, &mut plain[..length]);
    let theirs = product::tagged_start(&made.bytes, &made.kinds, &mut mem[..length]);
    *counts.entry(format!("start with {:2}", ours.refusal)).or_default() += 1;
    if ours != theirs || mem[length..] != held[length..] || (theirs.refusal != 0 && mem != held) {
        return Err(format!("start gives here {ours:?}, the product answers {theirs:?}"));
    }
    if ours.refusal != 0 {
        return Ok(());
    }
    if fixed_figures(&mem) != fixed_figures(&plain) {
        return Err("start stores other figures, letters or tags than here".into());
    }
    let sheet = sheet::read(&made.bytes, &made.kinds).map_err(|refusal| format!("{refusal:?}"))?;
    // The product's own graph, and now and then the one made here: the calls must do with both.
    let mem = if number % 4 == 3 { plain } else { mem };
    let (plain, before) = (mem.clone(), mem.clone());
    let pushed = std::array::from_fn(|_| None);
    let run = Run { sheet: &sheet, mem, plain, before, pushed, pushes: 0, left: None, altered: false, counts };
    run.list(length, rng)
}

/// What a start stores whatever the numbering is: the header's figures before the links, the letters and the tags' bytes.
fn fixed_figures(mem: &[u8]) -> [&[u8]; 3] {
    [&mem[..8], &mem[LETTERS..LETTERS + usize::from(mem[5])], &mem[TAGS_AT..NEED]]
}

/// A first machine's memory, with more bytes behind it or without, handed to the calls with tags.
fn foreign(made: &Made, held: &[u8], counts: &mut Counts, rng: &mut Rng) -> Result<(), String> {
    let (first, tags) = product_calls();
    let capacity = rng.between(1, 16) as u32;
    let need = memory::need(capacity as usize);
    let length = if rng.chance(50) { need } else { need.max(held.len()) };
    let mut mem = vec![held[0]; length];
    let mut tally = Tally::default();
    if (first.start)(&made.bytes, &made.kinds, capacity, &mut mem, &mut tally).refusal != 0 {
        return Ok(());
    }
    let sheet = made.sheet();
    let set = bytes::encode_set(&random_set(&sheet, rng));
    (first.push)(&mut mem, &set, &mut tally);
    (first.run)(&mut mem, rng.pick(&[0, 1, 5, 100]), &mut tally);
    let before = mem.clone();
    for call in [Call::Push(set), Call::Fire(0, 0), Call::Run(10), Call::Take(0), Call::Take(TAGS)] {
        let (mut ours_out, mut out) = (HELD, HELD);
        let ours = call.make(PLAIN_TAGS, &mut mem.clone(), &mut ours_out);
        let theirs = call.make(tags, &mut mem, &mut out);
        *counts.entry(format!("on a first machine's memory {} with {:2}", call.name(), ours.refusal)).or_default() += 1;
        let wanted = if length < NEED { 11 } else { 31 };
        if ours != theirs || theirs != (Answer { refusal: wanted, count: 0 }) || mem != before || out != HELD {
            return Err(format!(
                "{} on a first machine's memory gives here {ours:?}, the product answers {theirs:?}",
                call.name()
            ));
        }
    }
    Ok(())
}

impl Run<'_> {
    /// A random list of calls; where nothing else wrote the memory, what can still be taken is taken at the end.
    fn list(mut self, length: usize, rng: &mut Rng) -> Result<(), String> {
        let alters = rng.chance(35);
        for _ in 0..rng.between(10, 60) {
            if alters && rng.chance(15) {
                self.alter(length, rng);
            }
            if rng.chance(2) {
                self.other_machines_calls(length, rng)?;
            }
            if rng.chance(HURRIES) {
                self.hurry(length, rng)?;
            }
            if rng.chance(FLOODS) {
                self.flood(length, rng)?;
            }
            let call = self.random_call(rng);
            let lent = if rng.chance(98) { length } else { rng.pick(&[0, 1, 8, 40_390, 273_265, NEED - 1]) };
            let room = if rng.chance(97) { OUT_BYTES + rng.below(3) } else { rng.pick(&[0, 79]) };
            self.make(&call, lent, room)?;
            if rng.chance(ASKED) {
                self.look_at_rest(length)?;
            }
        }
        match self.altered {
            true => Ok(()),
            false => self.finish(length, rng),
        }
    }

    /// Alters a figure; where this is 31, it is taken back every other time.
    fn alter(&mut self, length: usize, rng: &mut Rng) {
        let any = rng.below(TAGS as usize) as Tag;
        let tag = rng.pick(&[0, any, any, TAGS - 1]);
        match rng.below(10) {
            0 | 1 => self.mem[TAGS_AT + tag as usize] = rng.pick(&[0, 0, 1, 1, 2, 255]),
            2 => self.mem[0] = rng.pick(&[0, 1, 16, 17, 18, 255]),
            3 => self.alter_kind(rng),
            _ => alter(&mut self.mem[..length], rng, |link, _| stretch_at(link, tag)),
        }
        self.altered = true;
        if tag_memory::stored(&self.mem[..length]).is_err() && rng.chance(50) {
            self.mem.copy_from_slice(&self.before);
        } else {
            self.before.copy_from_slice(&self.mem);
            self.plain.copy_from_slice(&self.mem);
        }
    }

    /// Another kind for an operator of two inputs: E, which no graph without for has, or one that may stand.
    fn alter_kind(&mut self, rng: &mut Rng) {
        let places = (0..self.sheet.figures.operators as usize).map(|operator| OPERATORS + 16 * operator);
        let of_two: Vec<usize> = places.filter(|&at| matches!(self.mem[at], 1..=9 | 14 | 15)).collect();
        if !of_two.is_empty() {
            self.mem[rng.pick(&of_two)] = rng.pick(&[1, 7, 14, 15, 17, 17, 17]);
        }
    }

    /// A call on both sides.
    fn make(&mut self, call: &Call, lent: usize, room: usize) -> Result<(), String> {
        let (mut ours_out, mut out) = (HELD, HELD);
        let ours = call.make(PLAIN_TAGS, &mut self.plain[..lent], &mut ours_out[..room]);
        let theirs = call.make(product_calls().1, &mut self.mem[..lent], &mut out[..room]);
        let name = call.name();
        *self.counts.entry(format!("{name} with {:2}", ours.refusal)).or_default() += 1;
        if ours != theirs || self.plain != self.mem || ours_out != out {
            return Err(format!("{name}: {}", difference(ours, theirs, &self.plain, &self.mem)));
        }
        let keeps = ours.refusal == 36 && ours.count > 0;
        let as_before = self.mem == self.before;
        if ours.refusal != 0 && !keeps && !(as_before && out == HELD) {
            return Err(format!("{name} refused with {} altered its memory", ours.refusal));
        }
        if ours.refusal == 31 && !self.altered {
            return Err(format!("{name} gives 31 for memory that only calls wrote"));
        }
        if !self.altered {
            self.follow(call, ours, &out)?;
        }
        if !as_before {
            self.before.copy_from_slice(&self.mem);
        }
        Ok(())
    }

    /// Fires the able operators of one tag alone, in some order, until its result is whole, takes it, and mostly pushes another set right behind.
    fn hurry(&mut self, length: usize, rng: &mut Rng) -> Result<(), String> {
        let order: fn(&[u32], &mut Rng) -> u32 = match rng.below(3) {
            0 => |able, _| able[0],
            1 => |able, _| able[able.len() - 1],
            _ => |able, rng| rng.pick(able),
        };
        let tag = rng.pick(&self.busy_tags().unwrap_or(vec![0]));
        for _ in 0..HURRY {
            let Ok(machine) = tag_memory::stored(&self.mem) else { return Ok(()) };
            if machine.has_result(tag) {
                self.make(&Call::Take(tag), length, OUT_BYTES)?;
                let set = lent_set(self.sheet, rng);
                return if rng.chance(70) { self.make(&Call::Push(set), length, OUT_BYTES) } else { Ok(()) };
            }
            let pairs = machine.able_pairs().into_iter().filter(|&(_, other)| other == tag);
            let able: Vec<u32> = pairs.map(|(operator, _)| operator as u32).collect();
            if able.is_empty() {
                return Ok(());
            }
            self.make(&Call::Fire(order(&able, rng), tag), length, OUT_BYTES)?;
        }
        Ok(())
    }

    fn flood(&mut self, length: usize, rng: &mut Rng) -> Result<(), String> {
        (0..=TAGS).try_for_each(|_| {
            let set = lent_set(self.sheet, rng);
            self.make(&Call::Push(set), length, OUT_BYTES)
        })
    }

    /// The tags of sets under way.
    fn busy_tags(&self) -> Option<Vec<Tag>> {
        let machine = tag_memory::stored(&self.mem).ok()?;
        let busy: Vec<Tag> = machine.untaken.iter().copied().filter(|&tag| !machine.has_result(tag)).collect();
        (!busy.is_empty()).then_some(busy)
    }

    /// What the papers say of a list of calls.
    fn follow(&mut self, call: &Call, answer: Answer, out: &[u8]) -> Result<(), String> {
        let left = self.left.take();
        match (call, answer.refusal) {
            (Call::Push(set), 0) => self.follow_push(set, answer.count, left),
            (&Call::Take(tag), 0) => self.follow_take(tag, answer.count, out),
            (Call::Run(_), 0) => match self.restless_tag() {
                None => Ok(()),
                Some(tag) => Err(format!("nothing can fire, and tag {tag} is neither free nor has its whole result")),
            },
            _ => Ok(()),
        }
    }

    /// The lowest free tag is what both sides look for; a tag under way is never given again.
    fn follow_push(&mut self, set: &[u8], tag: Tag, left: Option<Tag>) -> Result<(), String> {
        let Some(place) = self.pushed.get_mut(tag as usize) else {
            return Err(format!("a push gives tag {tag}"));
        };
        if place.is_some() || left == Some(tag) {
            return Err(format!("a push gives tag {tag}, which is not free"));
        }
        if left.is_some() {
            self.count("pushes right behind such a take");
        }
        self.pushed[tag as usize] = Some(Pushed { set: set.to_vec(), place: self.pushes });
        self.pushes += 1;
        Ok(())
    }

    /// "each taken result is that of the set last pushed under its tag"
    fn follow_take(&mut self, tag: Tag, width: u32, out: &[u8]) -> Result<(), String> {
        let taken = self.pushed.get_mut(tag as usize).and_then(Option::take);
        let Pushed { set, place } = taken.ok_or("a result was taken that no set was pushed for")?;
        let values = bytes::decode_set(&set).ok_or("a bad set was accepted")?;
        let done = eval::evaluate(self.sheet, &values, 0).map_err(|refusal| format!("{refusal:?}"))?;
        if bytes::encode_result(&done.set) != out[..OUT_BYTES] || done.set.width as u32 != width {
            return Err(format!("the result of {set:02x?} is {out:02x?}, evaluation gives {:?}", done.set));
        }
        self.count("results held to evaluation");
        let machine = self.machine()?;
        let earlier = |tag: &Tag| self.pushed[*tag as usize].as_ref().is_some_and(|other| other.place < place);
        let overtaken: Vec<Tag> = (0..TAGS).filter(earlier).collect();
        if !overtaken.is_empty() {
            self.count("results that overtook an earlier push");
        }
        if overtaken.iter().any(|&tag| !machine.has_result(tag)) {
            self.count("of these, one that was not ready");
        }
        if machine.tokens_with(tag) > 0 {
            self.count("takes that left tokens behind");
            self.left = Some(tag);
        }
        Ok(())
    }

    fn count(&mut self, what: &str) {
        *self.counts.entry(what.into()).or_default() += 1;
    }

    /// The machine that the memory holds, as it is read here.
    fn machine(&self) -> Result<Machine, String> {
        tag_memory::stored(&self.mem).map_err(|refusal| format!("the memory gets {refusal}"))
    }

    /// A tag that is neither free nor has its whole result.
    fn restless_tag(&self) -> Option<Tag> {
        let machine = tag_memory::stored(&self.mem).ok()?;
        (0..TAGS).find(|&tag| !machine.is_free(tag) && !machine.has_result(tag))
    }

    /// "when nothing can fire every tag is free or has its whole result": a run on a copy, then the product is asked of each tag. Those whose take is refused are
    /// given by pushes, one after another, and no others.
    fn look_at_rest(&mut self, length: usize) -> Result<(), String> {
        if self.altered {
            return Ok(());
        }
        let (tags, mut mem) = (product_calls().1, self.mem[..length].to_vec());
        if (tags.run)(&mut mem, ENOUGH_FIRINGS).refusal != 0 {
            return Err("a firing for each operator under each tag leaves something to do".into());
        }
        let taken = |tag: &Tag| (tags.take)(&mut mem.clone(), *tag, &mut [0; OUT_BYTES]).refusal == 0;
        let free: Vec<u32> = (0..TAGS).filter(|tag| !taken(tag)).collect();
        let set = bytes::encode_set(&self.sheet.sorts.iter().map(|_| compare::value::Value::E).collect::<Vec<_>>());
        let pushes: Vec<Answer> = free.iter().map(|_| (tags.push)(&mut mem, &set)).collect();
        let wanted: Vec<Answer> = free.iter().map(|&count| Answer { refusal: 0, count }).collect();
        let behind = (tags.push)(&mut mem, &set);
        self.count("machines at rest asked of each tag");
        match pushes == wanted && behind == (Answer { refusal: 37, count: 0 }) {
            true => Ok(()),
            false => Err(format!("at rest tags {free:?} have no result; pushes give {pushes:?}, then {behind:?}")),
        }
    }

    /// Runs until nothing can fire and takes every result, last tag first; then every tag is free.
    fn finish(&mut self, length: usize, rng: &mut Rng) -> Result<(), String> {
        self.make(&Call::Run(u32::MAX), length, OUT_BYTES)?;
        for tag in (0..TAGS).rev() {
            self.make(&Call::Take(tag), length, OUT_BYTES)?;
        }
        if self.pushed.iter().any(Option::is_some) {
            return Err("nothing can fire, and a pushed set has no result".into());
        }
        if rng.chance(ASKED) {
            self.look_at_rest(length)?;
        }
        let machine = self.machine()?;
        match (0..TAGS).find(|&tag| !machine.is_free(tag)) {
            Some(tag) => Err(format!("every result is taken, and tag {tag} is not free")),
            None => Ok(()),
        }
    }

    /// The first machine's calls on this memory: 31, or what the plain ones say where altered bytes make another machine of it.
    fn other_machines_calls(&mut self, length: usize, rng: &mut Rng) -> Result<(), String> {
        let set = lent_set(self.sheet, rng);
        let calls: [fn(Calls, &mut [u8], &[u8], &mut Tally) -> u32; 6] = [
            |calls, mem, set, tally| (calls.push)(mem, set, tally).refusal,
            |calls, mem, set, tally| (calls.push_tray)(mem, set, 1, tally).refusal,
            |calls, mem, _, tally| (calls.fire)(mem, 0, tally).refusal,
            |calls, mem, _, tally| (calls.run)(mem, 10, tally).refusal,
            |calls, mem, _, tally| (calls.run_rounds)(mem, 10, tally).refusal,
            |calls, mem, _, tally| (calls.take)(mem, &mut [0; OUT_BYTES], tally).refusal,
        ];
        for call in calls {
            let (mut plain, mut mem) = (self.mem.clone(), self.mem.clone());
            let (mut ours_tally, mut tally) = (Tally::default(), Tally::default());
            let ours = call(PLAIN, &mut plain[..length], &set, &mut ours_tally);
            let theirs = call(product_calls().0, &mut mem[..length], &set, &mut tally);
            *self.counts.entry(format!("first machine's calls with {ours:2}")).or_default() += 1;
            if ours != theirs || plain != mem || (!self.altered && (theirs != 31 || mem != self.mem)) {
                return Err(format!("the first machine's calls give here {ours}, the product's {theirs}"));
            }
        }
        Ok(())
    }

    fn random_call(&self, rng: &mut Rng) -> Call {
        match rng.below(20) {
            0..=5 => Call::Push(lent_set(self.sheet, rng)),
            6..=10 => self.random_fire(rng),
            11..=13 => Call::Run(self.random_firings(rng)),
            _ => Call::Take(self.random_take(rng)),
        }
    }

    /// Mostly an able operator under its tag.
    fn random_fire(&self, rng: &mut Rng) -> Call {
        let able = tag_memory::stored(&self.mem).map(|machine| machine.able_pairs()).unwrap_or_default();
        if !able.is_empty() && rng.chance(85) {
            let (operator, tag) = rng.pick(&able);
            return Call::Fire(operator as u32, if rng.chance(95) { tag } else { tag + rng.pick(&ABSENT) });
        }
        let operators = self.sheet.figures.operators.max(1);
        let operator =
            if rng.chance(85) { rng.below(operators as usize) as u32 } else { rng.pick(&[operators, u32::MAX]) };
        Call::Fire(operator, random_tag(rng))
    }

    /// Small numbers and large ones; the greatest only where the machine comes to rest.
    fn random_firings(&self, rng: &mut Rng) -> u32 {
        let most = if self.altered { MANY_FIRINGS } else { u32::MAX };
        let operators = self.sheet.figures.operators;
        match rng.below(10) {
            0..=3 => rng.pick(&[0, 1, 2, 3, 7]),
            4..=7 => rng.below(2 * operators as usize + 2) as u32,
            _ => rng.pick(&[50, 1000, most]),
        }
    }

    /// Mostly a tag whose result is whole, where there is one, the last rather than the first; any tag else.
    fn random_take(&self, rng: &mut Rng) -> Tag {
        let machine = tag_memory::stored(&self.mem).ok();
        let has_result = |tag: &Tag| machine.as_ref().is_some_and(|machine| machine.has_result(*tag));
        let whole: Vec<Tag> = (0..TAGS).filter(has_result).collect();
        match whole.last() {
            Some(&last) if rng.chance(30) => last,
            Some(_) if rng.chance(60) => rng.pick(&whole),
            Some(&last) if rng.chance(20) => last + rng.pick(&ABSENT),
            _ => random_tag(rng),
        }
    }
}

/// Mostly a tag that there is.
fn random_tag(rng: &mut Rng) -> Tag {
    let tag = rng.below(TAGS as usize) as Tag;
    if rng.chance(90) {
        tag
    } else {
        let absent = tag + rng.pick(&ABSENT);
        rng.pick(&[TAGS, absent, u32::MAX])
    }
}
