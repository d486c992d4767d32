// Walks the list of small sheets by the product's calls, from the empty sheet to its end, and holds each answer, each sheet and every byte of the lent memory to
// the list made here; bytes around it and the sheet handed in must be as they were. Then other sheets are handed in, small ones and others that are small but
// for one thing: 22 must come exactly where the list has not got them. Stops at the first difference, which it prints.
// Usage: compare_next CASES SEED [FIRST]. `compare_next 1 SEED NUMBER` makes a case again, behind the walk.

use compare::arguments::Cases;
use compare::product;
use compare::random::nearly_small::nearly_small_sheet;
use compare::random::{rows_text, Rng};
use compare::sheet::ROW_BYTES;
use compare::small::{is_small, Digest, NextAnswer, SmallSheets, MOST_ROWS, ROOM};
use compare::surrounded::Surrounded;
use std::process;

/// How many sheets are handed in in a case.
const SHEETS: u64 = 16;

fn main() {
    let cases = Cases::asked("compare_next");
    let sheets = SmallSheets::all();
    match walk(&sheets, &mut cases.rng(cases.first)) {
        Ok(line) => println!("{line}"),
        Err(difference) => {
            println!("{difference}");
            process::exit(1)
        }
    }
    cases.compare(|_, counts, rng| {
        (0..SHEETS).try_for_each(|way| {
            let (kind, sheet) = nearly_small_sheet(way, &sheets, rng);
            let refusal = compare_sheet(&sheet, &sheets, rng).map_err(|difference| format!("{kind}\n{difference}"))?;
            *counts.entry(kind.into()).or_default() += 1;
            *counts.entry(format!("answered with {refusal:2}")).or_default() += 1;
            Ok(())
        })
    });
}

/// Each call is lent what the one before wrote.
fn walk(sheets: &SmallSheets, rng: &mut Rng) -> Result<String, String> {
    let mut counts = [0; MOST_ROWS + 1];
    let mut digest = Digest::EMPTY;
    let mut given = Vec::new();
    for sheet in sheets.list() {
        let room = ROOM + rng.below(40);
        let (answer, out) = compare_next(&given, sheets, room, rng)?;
        given = out[..ROW_BYTES * answer.rows as usize].to_vec();
        if given != *sheet {
            return Err(format!(
                "the list here goes on with\n{}the call with\n{}",
                rows_text(sheet),
                rows_text(&given)
            ));
        }
        counts[answer.rows as usize] += 1;
        digest = digest.with(&given);
    }
    match compare_next(&given, sheets, ROOM, rng)?.0.refusal {
        23 => Ok(format!("listed by calls: {counts:?} of 0 to 5 rows, digest {:016x}", digest.0)),
        refusal => Err(format!("behind the last sheet comes {refusal}")),
    }
}

/// One sheet, mostly with memory enough: the refusal.
fn compare_sheet(sheet: &[u8], sheets: &SmallSheets, rng: &mut Rng) -> Result<u32, String> {
    let room = match rng.below(20) {
        0 => ROOM - 1,
        1 => rng.below(ROOM),
        2..=5 => ROOM + rng.between(1, 100),
        _ => ROOM,
    };
    let refusal = compare_next(sheet, sheets, room, rng)?.0.refusal;
    let small = is_small(sheet);
    if small != sheets.find(sheet).is_some() || (refusal == 22) != (room >= ROOM && !sheet.is_empty() && !small) {
        return Err(format!("answered with {refusal}, small: {small}\n{}", rows_text(sheet)));
    }
    Ok(refusal)
}

/// One call with memory of any contents: the answer, and the memory afterwards.
fn compare_next(
    sheet: &[u8],
    sheets: &SmallSheets,
    room: usize,
    rng: &mut Rng,
) -> Result<(NextAnswer, Vec<u8>), String> {
    let held: Vec<u8> = (0..room).map(|_| rng.number() as u8).collect();
    let mut out = held.clone();
    let answer = sheets.next(sheet, &mut out);
    let (lent, before) = (Surrounded::new(sheet, rng), Surrounded::new(&held, rng));
    let mut after = before.clone();
    let theirs = product::next(lent.middle(), after.middle_mut());
    let told = |difference: &str| Err(format!("{difference}, behind\n{}", rows_text(sheet)));
    if lent.middle() != sheet || !after.margins_equal(&before) {
        return told("the product altered memory that it may not write");
    }
    if answer != theirs || out != after.middle() {
        let (our_text, their_text) = (rows_text(&out), rows_text(after.middle()));
        return told(&format!("here {answer:?} with\n{our_text}\nthe product answers {theirs:?} with\n{their_text}"));
    }
    Ok((answer, out))
}
