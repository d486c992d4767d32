// Direct evaluation (document 01, "The formula sheet", the meaning, and "Running", the rounds).
// The evaluator of expressions and the evaluator of bodies call each other; it knows nothing of graphs.
// A row leaves its values on a stack. Assumes an accepted sheet.

use crate::kinds::wanted_sorts;
use crate::sheet::{refuse, Refusal, Row, Sheet};
use crate::value::{operands, operate, set_suits, ResultSet, Sort, Value};

/// Whether wrong kinds are looked for: "In a passed sheet, given inputs of their kinds or errs, no err comes from a wrong kind or a test that is neither
/// truth nor err" (document 02, Job 6). Only in tests, since it takes time.
const WATCHED: bool = cfg!(test);

/// What an evaluation yields, with the rounds used.
#[derive(Clone, Copy, PartialEq, Eq, Debug)]
pub struct Evaluated {
    pub set: ResultSet,
    pub rounds: u32,
}

/// How one round through a loop's body ends; the values iterated or returned are on the stack.
enum Ending {
    Iterated,
    Returned,
}

/// Whether some kind that the code wants is that of all operands, an err being of any.
fn operands_suit(code: u32, operands: &[Value]) -> bool {
    wanted_sorts(code).iter().any(|&sort| operands.iter().all(|value| value.suits(sort)))
}

/// The evaluation needs more rounds than were lent.
struct OutOfRounds;

struct Evaluator<'a> {
    sheet: &'a Sheet,
    lent: u32,
    used: u32,
    /// What the 32 identifiers are bound to.
    bindings: [Value; 32],
    stack: Vec<Value>,
}

/// 12 a set with another number of values than inputs, or with another kind; 36 more rounds needed than lent.
pub fn evaluate(sheet: &Sheet, set: &[Value], rounds: u32) -> Result<Evaluated, Refusal> {
    if !set_suits(set, &sheet.sorts) {
        return refuse(12, 0);
    }
    let mut bindings = [Value::E; 32];
    for (name, &value) in sheet.inputs().zip(set) {
        bindings[name as usize] = value;
    }
    let mut evaluator = Evaluator { sheet, lent: rounds, used: 0, bindings, stack: Vec::with_capacity(64) };
    match evaluator.expression(sheet.last()) {
        Ok(()) => Ok(Evaluated { set: ResultSet::of(&evaluator.stack), rounds: evaluator.used }),
        Err(OutOfRounds) => refuse(36, 0),
    }
}

impl Evaluator<'_> {
    fn expression(&mut self, number: u32) -> Result<(), OutOfRounds> {
        let line = self.sheet.line(number);
        let Row { kind, a, b, c, d } = line.row;
        match kind {
            1 => self.stack.push(self.bindings[a as usize]),
            2 => self.stack.push(Value::Whole(a as i32)),
            3 => self.stack.push(Value::Truth(a == 1)),
            10 => self.stack.push(Value::thousandths(a)),
            4 => {
                self.expression(a)?;
                self.expression(b)?;
            }
            5 => {
                self.expression(b)?;
                let first = self.stack.len() - operands(a);
                assert!(!WATCHED || operands_suit(a, &self.stack[first..]));
                let value = operate(a, &self.stack[first..]);
                self.stack.truncate(first);
                self.stack.push(value);
            }
            6 => {
                self.expression(c)?;
                self.exchange(a, b);
                self.expression(d)?;
                self.restore(a, b, line.width);
            }
            7 => match self.test(a)? {
                Value::Truth(true) => self.expression(b)?,
                Value::Truth(false) => self.expression(c)?,
                _ => self.errs(line.width),
            },
            8 => {
                self.expression(c)?;
                self.exchange(a, b);
                self.repeat(a, b, d)?;
                self.restore(a, b, line.width);
            }
            _ => unreachable!("an iter in an expression place"),
        }
        Ok(())
    }

    /// "An iter starts the body again with its identifiers rebound; another ending returns its values."
    fn repeat(&mut self, first: u32, count: u32, body: u32) -> Result<(), OutOfRounds> {
        loop {
            if self.used == self.lent {
                return Err(OutOfRounds);
            }
            self.used += 1;
            match self.body(body)? {
                Ending::Iterated => {
                    self.exchange(first, count);
                    self.stack.truncate(self.stack.len() - count as usize);
                }
                Ending::Returned => return Ok(()),
            }
        }
    }

    fn body(&mut self, number: u32) -> Result<Ending, OutOfRounds> {
        let line = self.sheet.line(number);
        let Row { kind, a, b, c, d } = line.row;
        match kind {
            6 => {
                self.expression(c)?;
                self.exchange(a, b);
                let ending = self.body(d)?;
                let width = match ending {
                    Ending::Iterated => line.iterated,
                    Ending::Returned => line.loop_width,
                };
                self.restore(a, b, width);
                Ok(ending)
            }
            7 => match self.test(a)? {
                Value::Truth(true) => self.body(b),
                Value::Truth(false) => self.body(c),
                _ => {
                    self.errs(line.loop_width);
                    Ok(Ending::Returned)
                }
            },
            9 => {
                self.expression(a)?;
                Ok(Ending::Iterated)
            }
            _ => {
                self.expression(number)?;
                Ok(Ending::Returned)
            }
        }
    }

    fn test(&mut self, number: u32) -> Result<Value, OutOfRounds> {
        self.expression(number)?;
        let value = self.stack.pop().expect("a test has one value");
        assert!(!WATCHED || value.suits(Sort::Truth));
        Ok(value)
    }

    fn errs(&mut self, width: u8) {
        self.stack.resize(self.stack.len() + usize::from(width), Value::E);
    }

    /// Binds identifiers by position to the topmost values, which give their places to the former bindings.
    fn exchange(&mut self, first: u32, count: u32) {
        let (first, count) = (first as usize, count as usize);
        let top = self.stack.len() - count;
        self.bindings[first..first + count].swap_with_slice(&mut self.stack[top..]);
    }

    /// Takes the former bindings from under the topmost values.
    fn restore(&mut self, first: u32, count: u32, above: u8) {
        let (first, count) = (first as usize, count as usize);
        let former = self.stack.len() - usize::from(above) - count;
        self.bindings[first..first + count].copy_from_slice(&self.stack[former..former + count]);
        self.stack.copy_within(former + count.., former);
        self.stack.truncate(self.stack.len() - count);
    }
}

#[cfg(test)]
mod tests {
    use super::*;
    use crate::random::{accepted_sheet, fitting_set, heavy_sheet, Rng};

    #[test]
    fn no_wrong_kind_is_met_in_a_passed_sheet() {
        let mut rng = Rng::new(6);
        for case in 0..2_000 {
            let made = if case % 20 == 0 { heavy_sheet(&mut rng) } else { accepted_sheet(&mut rng) };
            let sheet = made.sheet();
            for _ in 0..10 {
                // An evaluation that does not end is looked at too, as far as it goes.
                let _ = evaluate(&sheet, &fitting_set(&sheet, &mut rng), 200);
            }
        }
    }
}
