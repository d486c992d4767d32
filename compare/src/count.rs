// Test 10: the number of operators of a sheet's graph, by a counting formula over the rows (document 01, "The graph").
// Each row adds its own gates and the copies that it causes; graph.rs counts the same from the graph really built.
// Assumes a sheet that passed tests 1 to 9.

use crate::sheet::{bound_names, is_returned, names_inside, Line, Place, Row, TRIGGER};

/// The operators of the whole sheet.
pub fn operators(lines: &[Line]) -> u32 {
    lines.iter().map(|line| own_operators(line, lines)).sum()
}

/// "A name [..] used k times, k above 1, passes k-1 two-way copies": one copy where two parts share a name.
fn shared(left: u64, right: u64) -> u32 {
    (left & right).count_ones()
}

fn own_operators(line: &Line, lines: &[Line]) -> u32 {
    let Row { kind, a, b, c, d } = line.row;
    let free = |number: u32| lines[number as usize - 1].free;
    let inside = match kind {
        1 => 0,
        2 | 3 | 5 | 10 => 1,
        4 => shared(free(a), free(b)),
        6 => shared(free(c), free(d) & !bound_names(&line.row)),
        7 => if_operators(line, lines),
        8 => {
            let others = free(d) & !bound_names(&line.row);
            // FM and FS on every name of the body, and the copies of iter? to them.
            let gates = free(d).count_ones();
            shared(free(c), others) + gates + (gates - 1)
        }
        _ => 1 + shared(free(a), TRIGGER),
    };
    inside + false_constant(line, lines)
}

/// "false at a returned expression": the constant, and a copy of the trigger where the expression wants one too.
fn false_constant(line: &Line, lines: &[Line]) -> u32 {
    if is_returned(line) {
        1 + shared(names_inside(&line.row, lines), TRIGGER)
    } else {
        0
    }
}

fn if_operators(line: &Line, lines: &[Line]) -> u32 {
    let Row { a, b, c, .. } = line.row;
    let free = |number: u32| lines[number as usize - 1].free;
    let gates = free(b).count_ones() + free(c).count_ones();
    let names = (free(a) | free(b) | free(c)).count_ones();
    let name_copies = free(a).count_ones() + gates - names;
    // The test's output goes to each T and F, and to the Ms of an expression or the IC of a body.
    let (joins, test_users) = match line.place {
        Place::Expression => (u32::from(line.width), u32::from(line.width)),
        Place::Body => (1 + body_joins(line, lines), 1),
    };
    gates + name_copies + joins + (gates + test_users - 1)
}

/// The gates behind an IC with the copies of its outputs.
fn body_joins(line: &Line, lines: &[Line]) -> u32 {
    let Row { b, c, .. } = line.row;
    let iterates = |number: u32| lines[number as usize - 1].iterated > 0;
    let iterated = u32::from(line.iterated);
    let returned = u32::from(line.loop_width);
    let second = if iterates(b) && iterates(c) { iterated + (iterated - 1) } else { 0 };
    let third = if returns(b, lines) || returns(c, lines) { returned } else { 0 };
    second + third + (returned - 1)
}

/// "an arm that ends, behind any lets, in a body if always returns"; only one that ends in an iter does not.
fn returns(number: u32, lines: &[Line]) -> bool {
    let row = &lines[number as usize - 1].row;
    match row.kind {
        6 => returns(row.d, lines),
        kind => kind != 9,
    }
}
