// Tidies random sheets by the product and by the tidy here, and stops at the first difference, which it prints. Answers and every byte of the lent memory must
// agree; bytes around it and the sheet must be as they were. Then what document 02 and include/bench.h say of a new sheet: tidying again changes nothing
// more; the new sheet passes tests 1 to 5, and gets 6 exactly when two fields of kept rows name the same row; a sheet that passes 1 to 6 comes back as it is;
// and where the new sheet is accepted, it is evaluated as its formula written down in another order is.
// Usage: compare_tidy CASES SEED [FIRST]. `compare_tidy 1 SEED NUMBER` makes a case again.

use compare::arguments::{Cases, Counts};
use compare::bytes::{self, OUT_BYTES};
use compare::product;
use compare::random::dead::{littered_sheet, Littered};
use compare::random::faults::naming_fields;
use compare::random::lines::likely_line;
use compare::random::{random_set, rows_text, Made, Rng};
use compare::sheet::{self, read_lines, rows_of, ROW_BYTES};
use compare::surrounded::Surrounded;
use compare::tidy::{self, room_for, TidyAnswer};

/// How many sheets are tidied in a case.
const SHEETS: u64 = 10;

/// The rounds lent to an evaluation.
const ROUNDS: u32 = 500;

type Rows = Vec<[u32; 5]>;

fn main() {
    Cases::asked("compare_tidy").compare(|number, counts, rng| {
        (SHEETS * number..SHEETS * (number + 1)).try_for_each(|sheet| {
            let (kind, littered) = littered_sheet(sheet, rng);
            compare_sheet(&kind, &littered, counts, rng).map_err(|difference| format!("{kind}\n{difference}"))
        })
    });
}

fn compare_sheet(kind: &str, littered: &Littered, counts: &mut Counts, rng: &mut Rng) -> Result<(), String> {
    let Littered { made, known } = littered;
    let told =
        |difference: String| format!("sheet of {} bytes:\n{}{difference}", made.bytes.len(), rows_text(&made.bytes));
    let tidied = compare_tidy(&made.bytes, rng).map_err(told)?;
    *counts.entry(kind.into()).or_default() += 1;
    *counts.entry(format!("tidied with {:2}", tidied.answer.refusal)).or_default() += 1;
    if tidied.answer.refusal == 11 {
        return Ok(());
    }
    if known.as_ref().is_some_and(|(answer, left)| *answer != tidied.answer || left != tidied.sheet()) {
        return Err(told(format!("known is {known:?}, the answer {:?}\n{}", tidied.answer, rows_text(tidied.sheet()))));
    }
    match tidied.answer.refusal {
        0 => compare_left(made, &tidied, counts, rng).map_err(told),
        _ => Ok(()),
    }
}

/// What was answered, and the lent memory afterwards.
struct Tidied {
    answer: TidyAnswer,
    out: Vec<u8>,
}

impl Tidied {
    /// The new sheet; of a refused call no bytes.
    fn sheet(&self) -> &[u8] {
        &self.out[..ROW_BYTES * self.answer.rows as usize]
    }
}

/// One call with memory of a random length and contents.
fn compare_tidy(sheet: &[u8], rng: &mut Rng) -> Result<Tidied, String> {
    let need = room_for(sheet.len());
    let room = match rng.below(20) {
        0 => need.saturating_sub(1),
        1 => rng.below(need + 1),
        2..=5 => need + rng.between(1, 100),
        _ => need,
    };
    let held: Vec<u8> = (0..room).map(|_| rng.number() as u8).collect();
    let mut out = held.clone();
    let answer = tidy::tidy(sheet, &mut out);
    let (lent, before) = (Surrounded::new(sheet, rng), Surrounded::new(&held, rng));
    let mut after = before.clone();
    let theirs = product::tidy(lent.middle(), after.middle_mut());
    if lent.middle() != sheet || !after.margins_equal(&before) {
        return Err("the product altered memory that it may not write".into());
    }
    if answer != theirs || out != after.middle() {
        let (our_text, their_text) = (rows_text(&out), rows_text(after.middle()));
        return Err(format!("here {answer:?} with\n{our_text}\nthe product answers {theirs:?} with\n{their_text}"));
    }
    if answer.refusal != 0 && (out != held || answer.rows != 0) {
        return Err(format!("refused with {answer:?}, and not all left"));
    }
    Ok(Tidied { answer, out })
}

/// What holds of a sheet that was tidied.
fn compare_left(made: &Made, tidied: &Tidied, counts: &mut Counts, rng: &mut Rng) -> Result<(), String> {
    let rows = rows_of(&read_lines(&made.bytes).expect("tests 1 to 5 pass"));
    let left = tidied.sheet();
    let mut count = |kind: &str, found: bool| *counts.entry(kind.into()).or_default() += u64::from(found);
    let wrong = |what: &str| Err(format!("{what}; tidied to\n{}", rows_text(left)));
    count("of 200 rows", made.bytes.len() == room_for(usize::MAX));
    count("with rows dropped", left.len() < made.bytes.len());
    count("with a row or two left", left.len() <= 2 * ROW_BYTES);

    let mut out = tidied.out.clone();
    let again = product::tidy(left, &mut out);
    if again != tidied.answer || out != tidied.out {
        return wrong("tidying again changes more");
    }
    let kinds = likely_line(left, &made.kinds, rng);
    let read = bytes::read(left, &kinds);
    if product::read(left, &kinds) != read || (1..=5).contains(&read.refusal) {
        return wrong("the new sheet is not read as it should be");
    }
    if (read.refusal == 6) != named_twice(&rows) {
        return wrong("6, and fields that name the same row");
    }
    count("left with 6", read.refusal == 6);
    if !(1..=6).contains(&bytes::read(&made.bytes, &kinds).refusal) {
        count("back as they were", true);
        if left != made.bytes {
            return wrong("a sheet that passes tests 1 to 6 is another");
        }
    }
    count("left to be accepted", read.refusal == 0);
    match read.refusal {
        0 => compare_formula(&rows, Made { bytes: left.to_vec(), kinds }, counts, rng),
        _ => Ok(()),
    }
}

/// Whether two fields of kept rows name the same row. Rows are kept, again and again over the whole sheet, until no kept one names one that is not.
fn named_twice(rows: &[[u32; 5]]) -> bool {
    let mut times = vec![0; rows.len()];
    let mut kept = vec![false; rows.len()];
    kept[rows.len() - 1] = true;
    loop {
        let before = kept.clone();
        times.fill(0);
        for row in (0..rows.len()).filter(|&index| before[index]).map(|index| rows[index]) {
            for &field in naming_fields(row[0]) {
                let named = row[field] as usize - 1;
                kept[named] = true;
                times[named] += 1;
            }
        }
        if kept == before {
            return times.iter().any(|&times| times > 1);
        }
    }
}

/// The formula of the sheet as it was handed in, written down by a walk from its last row, and the new sheet are evaluated alike.
fn compare_formula(rows: &[[u32; 5]], left: Made, counts: &mut Counts, rng: &mut Rng) -> Result<(), String> {
    let mut walked = Rows::new();
    walk(rows, rows.len() as u32, &mut walked);
    let (walked, sheet) = (sheet::write(&walked), left.sheet());
    let set = bytes::encode_set(&random_set(&sheet, rng));
    let [mut here, mut by_walk, mut by_tidy] = [[0; OUT_BYTES]; 3];
    let answers = [
        bytes::evaluate(&left.bytes, &left.kinds, &set, ROUNDS, &mut here),
        product::evaluate(&walked, &left.kinds, &set, ROUNDS, &mut by_walk),
        product::evaluate(&left.bytes, &left.kinds, &set, ROUNDS, &mut by_tidy),
    ];
    *counts.entry(format!("evaluated with {:2}", answers[0].refusal)).or_default() += 1;
    *counts.entry("evaluated in another order of rows".into()).or_default() += u64::from(walked != left.bytes);
    if answers.iter().all(|answer| *answer == answers[0]) && here == by_walk && here == by_tidy {
        return Ok(());
    }
    Err(format!("evaluated as {answers:?} with {here:02x?}, {by_walk:02x?} and {by_tidy:02x?}"))
}

/// A row's formula, the rows that it names written before it, the last named first: its number among those written.
fn walk(rows: &[[u32; 5]], number: u32, walked: &mut Rows) -> u32 {
    let mut row = rows[number as usize - 1];
    for &field in naming_fields(row[0]).iter().rev() {
        row[field] = walk(rows, row[field], walked);
    }
    walked.push(row);
    walked.len() as u32
}
