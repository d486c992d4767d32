// The kinds of values (document 02, Job 6; floats: Job 9): 17, the kinds line, and 18, a row that breaks the kinds.
// Assumes rows that passed tests 1 to 9, so that the widths fit and each row is met once, from the one that names it.

use crate::sheet::{bound_names, refuse, Line, Refusal, Row, MOST_ROWS};
use crate::value::{operands, Sort};

/// The kinds of a row's values, the first lowest, or of the 32 identifiers, by their numbers: a bit where the value is a truth, one where it is a float.
/// A whole number has neither.
#[derive(Clone, Copy, PartialEq, Eq)]
struct Kinds {
    truths: u64,
    reals: u64,
}

/// The kinds of one value.
const WHOLE: Kinds = Kinds { truths: 0, reals: 0 };
const TRUTH: Kinds = Kinds { truths: 1, reals: 0 };
const REAL: Kinds = Kinds { truths: 0, reals: 1 };

impl Kinds {
    /// So many values of one kind.
    fn all(sort: Sort, count: usize) -> Kinds {
        let ones = (1 << count) - 1;
        match sort {
            Sort::Whole => WHOLE,
            Sort::Truth => Kinds { truths: ones, ..WHOLE },
            Sort::Real => Kinds { reals: ones, ..WHOLE },
        }
    }

    /// The kind of one identifier.
    fn at(self, name: u32) -> Kinds {
        Kinds { truths: self.truths >> name & 1, reals: self.reals >> name & 1 }
    }

    /// These and, from a place on, others; nothing stands there yet.
    fn and(self, others: Kinds, place: u32) -> Kinds {
        Kinds { truths: self.truths | others.truths << place, reals: self.reals | others.reals << place }
    }

    /// Those at the places of a mask.
    fn within(self, mask: u64) -> Kinds {
        Kinds { truths: self.truths & mask, reals: self.reals & mask }
    }
}

/// 17 "when the kinds line has another length or letter": one letter an input and a line feed.
pub fn read_line(line: &[u8], inputs: usize) -> Result<Vec<Sort>, Refusal> {
    let letters = line.strip_suffix(b"\n").filter(|letters| letters.len() == inputs);
    let sorts = letters.and_then(|letters| letters.iter().map(|&letter| Sort::of_letter(letter)).collect());
    sorts.map_or_else(|| refuse(17, 0), Ok)
}

/// A kinds line of these kinds.
pub fn write_line(sorts: &[Sort]) -> Vec<u8> {
    sorts.iter().map(|sort| sort.letter()).chain([b'\n']).collect()
}

/// 18 "when a row breaks the kinds, lowest row given"; the inputs by their identifiers.
pub fn test(lines: &[Line], inputs: impl Iterator<Item = (u32, Sort)>) -> Result<(), Refusal> {
    checked(lines, inputs).lowest.map_or(Ok(()), |row| refuse(18, row as usize))
}

/// Of each row whether all its values are of kind W, those of a body being what it returns and what it iterates (document 02, Job 13).
pub fn rows_of_wholes(lines: &[Line], inputs: impl Iterator<Item = (u32, Sort)>) -> [bool; MOST_ROWS] {
    checked(lines, inputs).whole
}

fn checked(lines: &[Line], inputs: impl Iterator<Item = (u32, Sort)>) -> Checker<'_> {
    let names = inputs.fold(WHOLE, |names, (name, sort)| names.and(Kinds::all(sort, 1), name));
    let mut checker = Checker { lines, lowest: None, whole: [true; MOST_ROWS] };
    checker.expression(lines.len() as u32, names);
    checker
}

/// The kinds that a body iterates and returns, none where it does not.
struct Ends {
    iterated: Option<Kinds>,
    returned: Option<Kinds>,
}

struct Checker<'a> {
    lines: &'a [Line],
    /// The lowest row at fault up to now.
    lowest: Option<u32>,
    /// Whether all values of each row are whole numbers, of those met up to now.
    whole: [bool; MOST_ROWS],
}

impl Checker<'_> {
    fn line(&self, number: u32) -> &Line {
        &self.lines[number as usize - 1]
    }

    /// The row is at fault unless this holds.
    fn demand(&mut self, number: u32, holds: bool) {
        if !holds {
            self.lowest = Some(self.lowest.map_or(number, |lowest| lowest.min(number)));
        }
    }

    /// The kinds of an expression's values, where the identifiers have these.
    fn expression(&mut self, number: u32, names: Kinds) -> Kinds {
        let values = self.values(number, names);
        self.note(number, values);
        values
    }

    fn note(&mut self, number: u32, values: Kinds) {
        self.whole[number as usize - 1] &= values == WHOLE;
    }

    fn values(&mut self, number: u32, names: Kinds) -> Kinds {
        let row = self.line(number).row;
        let Row { kind, a, b, c, d } = row;
        match kind {
            1 => names.at(a),
            2 => WHOLE,
            3 => TRUTH,
            10 => REAL,
            4 => {
                let left = self.expression(a, names);
                left.and(self.expression(b, names), self.line(a).width.into())
            }
            5 => {
                let values = self.expression(b, names);
                self.demand(number, wanted_sorts(a).iter().any(|&sort| values == Kinds::all(sort, operands(a))));
                given(a, values)
            }
            6 => {
                let inner = self.bound(&row, names);
                self.expression(d, inner)
            }
            7 => {
                let test = self.expression(a, names);
                let (yes, no) = (self.expression(b, names), self.expression(c, names));
                self.demand(number, test == TRUTH && yes == no);
                // "the first arm's [..] kinds hold"
                yes
            }
            8 => self.repeated(number, names),
            _ => unreachable!("an iter in an expression place"),
        }
    }

    /// What a for's body returns, whose rounds must agree with row c.
    fn repeated(&mut self, number: u32, names: Kinds) -> Kinds {
        let row = self.line(number).row;
        // "row c's kinds hold": the identifiers keep them, whatever the rounds iterate.
        let inner = self.bound(&row, names);
        let body = self.body(row.d, inner);
        let started = inner.within(bound_names(&row));
        self.demand(number, body.iterated.map(|values| WHOLE.and(values, row.a)) == Some(started));
        body.returned.expect("a for has a returned width")
    }

    /// The identifiers' kinds inside a let or a for: those bound have the kinds of row c.
    fn bound(&mut self, row: &Row, names: Kinds) -> Kinds {
        let values = self.expression(row.c, names);
        names.within(!bound_names(row)).and(values, row.a)
    }

    fn body(&mut self, number: u32, names: Kinds) -> Ends {
        let ends = self.ends(number, names);
        [ends.iterated, ends.returned].into_iter().flatten().for_each(|values| self.note(number, values));
        ends
    }

    fn ends(&mut self, number: u32, names: Kinds) -> Ends {
        let row = self.line(number).row;
        match row.kind {
            6 => {
                let inner = self.bound(&row, names);
                self.body(row.d, inner)
            }
            7 => {
                let test = self.expression(row.a, names);
                let (yes, no) = (self.body(row.b, names), self.body(row.c, names));
                let agree = agree(yes.iterated, no.iterated) && agree(yes.returned, no.returned);
                self.demand(number, test == TRUTH && agree);
                Ends { iterated: yes.iterated.or(no.iterated), returned: yes.returned.or(no.returned) }
            }
            9 => Ends { iterated: Some(self.expression(row.a, names)), returned: None },
            _ => Ends { iterated: None, returned: Some(self.expression(number, names)) },
        }
    }
}

/// Arms agree in what both have.
fn agree(yes: Option<Kinds>, no: Option<Kinds>) -> bool {
    yes.is_none() || no.is_none() || yes == no
}

/// "8 to 10 want truths, the others whole numbers"; document 02, Job 9: "Codes 1 to 4, 6, 7 and 11 take two (or one) such values", floats. All operands
/// are of one of these kinds.
pub fn wanted_sorts(code: u32) -> &'static [Sort] {
    match code {
        5 => &[Sort::Whole],
        8..=10 => &[Sort::Truth],
        _ => &[Sort::Whole, Sort::Real],
    }
}

/// The kind of an operator's value: 6 and 7 compare, 8 to 10 work on truths. Job 9: "after any wrong kind a number's kind goes on as W".
fn given(code: u32, values: Kinds) -> Kinds {
    match code {
        6..=10 => TRUTH,
        5 => WHOLE,
        _ if values == Kinds::all(Sort::Real, operands(code)) => REAL,
        _ => WHOLE,
    }
}
