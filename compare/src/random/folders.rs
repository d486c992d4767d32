// Random folders for the program bench: a formula file, a kinds file and a set file, each missing, sound, or at fault in one of the ways that the program
// tells apart. Sets that keep a loop going for long are dropped from most folders: a million firings cost more than everything else.

use super::faults::{plant, PLANTABLE};
use super::lines::{bad_line, likely_line, with_other_letter};
use super::turns::altered_sheet;
use super::{accepted_sheet, fitting_set, heavy_sheet, loose_sheet, renamed_sheet, value_of_another_kind, Made, Rng};
use crate::bench::{write_set, FIELD, MOST_SET_BYTES};
use crate::eval;
use crate::sheet::{self, Sheet, ROW_BYTES};
use crate::value::{Sort, Value};

/// A set that needs more rounds keeps a loop going for long.
const ROUNDS: u32 = 300;

/// How many folders in a hundred keep such sets.
const KEPT: usize = 30;

/// The bytes of the three files, none where a file is missing, and how each was made.
pub struct Folder {
    pub formula: Option<Vec<u8>>,
    pub kinds: Option<Vec<u8>>,
    pub sets: Option<Vec<u8>>,
    pub made: [&'static str; 3],
}

pub fn random_folder(rng: &mut Rng) -> Folder {
    let (mut formula_made, made) = random_formula(rng);
    let (sets_made, sets) = match sheet::read(&made.bytes, &made.kinds) {
        Ok(sheet) => {
            formula_made = if sheet.figures.inputs == 0 { "without inputs" } else { formula_made };
            random_sets(&sheet, rng)
        }
        Err(_) => ("of a refused sheet", loose_sets(rng)),
    };
    let (kinds_made, kinds) = random_kinds(&made.kinds, rng);
    let (no_formula, no_sets) = (rng.chance(1), rng.chance(2));
    Folder {
        made: [
            if no_formula { "missing" } else { formula_made },
            kinds_made,
            if no_sets { "missing" } else { sets_made },
        ],
        formula: (!no_formula).then_some(made.bytes),
        kinds,
        sets: (!no_sets).then_some(sets),
    }
}

fn random_kinds(good: &[u8], rng: &mut Rng) -> (&'static str, Option<Vec<u8>>) {
    match rng.below(100) {
        0 => ("missing", None),
        1 | 2 => ("at fault", Some(bad_line(good, rng))),
        3 | 4 => ("another letter", Some(with_other_letter(good, rng))),
        _ => ("of the sheet", Some(good.to_vec())),
    }
}

fn random_formula(rng: &mut Rng) -> (&'static str, Made) {
    match rng.below(100) {
        0..=2 => ("many operators", heavy_sheet(rng)),
        3..=13 => ("planted fault", plant(rng.pick(&PLANTABLE), rng).made),
        14..=16 => ("altered bytes", altered_sheet(rng)),
        17..=20 => ("over 6,200 bytes", long_sheet(rng)),
        21..=23 => ("other names", renamed_sheet(rng)),
        24..=26 => ("loose rows", loose_sheet(rng)),
        _ => ("accepted", accepted_sheet(rng)),
    }
}

/// Over 200 rows, so over 6,200 bytes; often with a line feed missing or a byte too many, anywhere.
fn long_sheet(rng: &mut Rng) -> Made {
    let rows = rng.pick(&[201, 202, 300, 2_315, 2_400, 4_500]);
    let mut bytes: Vec<u8> = accepted_sheet(rng).bytes.into_iter().cycle().take(rows * ROW_BYTES).collect();
    let place = rng.below(bytes.len());
    match rng.below(5) {
        0 => bytes[place / ROW_BYTES * ROW_BYTES + ROW_BYTES - 1] = rng.pick(b" 0\r"),
        1 => bytes.insert(place, rng.pick(b" 0\n")),
        2 => drop(bytes.pop()),
        3 => bytes[place] = rng.pick(b" 0\n\0"),
        _ => {}
    }
    Made { kinds: likely_line(&bytes, b"", rng), bytes }
}

fn random_sets(sheet: &Sheet, rng: &mut Rng) -> (&'static str, Vec<u8>) {
    let line = FIELD * sheet.figures.inputs as usize + 1;
    let (kind, lines) = match rng.below(100) {
        0 | 1 => ("none", 0),
        2..=82 => ("1 to 40", rng.between(1, 40)),
        83..=94 => ("100 to 900", rng.between(100, 900)),
        95 | 96 => ("as many as fit", MOST_SET_BYTES / line),
        _ => ("more than fit", MOST_SET_BYTES / line + rng.pick(&[1, 1, 2, 500])),
    };
    let mut sets: Vec<Vec<Value>> = (0..lines).map(|_| fitting_set(sheet, rng)).collect();
    if kind != "more than fit" {
        part_long(&mut sets, sheet, rng);
    }
    if rng.chance(5) {
        another_kind(&mut sets, sheet, rng);
        return ("another kind", text_of(&sets));
    }
    let mut text = text_of(&sets);
    (if rng.chance(25) { spoil(&mut text, &sheet.sorts, rng) } else { kind }, text)
}

fn text_of(sets: &[Vec<Value>]) -> Vec<u8> {
    sets.iter().flat_map(|set| write_set(set).into_bytes()).collect()
}

/// Puts a value of another kind, or an err, in the place of any.
fn another_kind(sets: &mut [Vec<Value>], sheet: &Sheet, rng: &mut Rng) {
    if !sets.is_empty() && !sheet.sorts.is_empty() {
        let (set, place) = (rng.below(sets.len()), rng.below(sheet.sorts.len()));
        sets[set][place] = value_of_another_kind(sheet.sorts[place], rng);
    }
}

/// Drops the sets that keep a loop going for long, or leaves them, or puts them last, so that results come before a 36.
fn part_long(sets: &mut Vec<Vec<Value>>, sheet: &Sheet, rng: &mut Rng) {
    if sheet.lines.iter().all(|line| line.row.kind != 8) {
        return;
    }
    let is_long = |set: &Vec<Value>| eval::evaluate(sheet, set, ROUNDS).is_err();
    if !rng.chance(KEPT) {
        sets.retain(|set| !is_long(set));
    } else if rng.chance(50) {
        sets.sort_by_cached_key(is_long);
    }
}

const BAD_FIELDS: [&[u8; FIELD]; 23] = [
    b"         -0",
    b"         +1",
    b"         01",
    b"        -01",
    b"          -",
    b"          t",
    b"         TT",
    b"         -T",
    b"          z",
    b"         ZV",
    b"         -V",
    b"1          ",
    b"\t         1",
    b"         1\t",
    b"           ",
    b"        1 2",
    b" 2147483648",
    b"-2147483649",
    b"99999999999",
    b"\0         1",
    b"        1.0",
    b"00000000000",
    b"         e1",
];

/// Fields that are nearly a float's.
const BAD_FLOATS: [&[u8; FIELD]; 21] = [
    b"R2139095040",
    b"R2139095041",
    b"R2147483647",
    b"R4286578688",
    b"R4294967295",
    b"R4294967296",
    b"R9999999999",
    b"          R",
    b"        R-1",
    b"        -R1",
    b"        R+1",
    b"        R00",
    b"        R01",
    b"R0000000001",
    b"        R0 ",
    b"        R 1",
    b"         r1",
    b"         RR",
    b"        R1R",
    b"       R1.5",
    b"         1R",
];

/// Fields that are good for an input of their kind.
const GOOD_FIELDS: [&[u8; FIELD]; 20] = [
    b"          0",
    b"          7",
    b"         -1",
    b" 2147483647",
    b"-2147483648",
    b"          T",
    b"          F",
    b"          E",
    b"          Z",
    b"          V",
    b"         R0",
    b"         R1",
    b"        R10",
    b"   R8388607",
    b"   R8388608",
    b"R1065353216",
    b"R2139095039",
    b"R2147483648",
    b"R2147483649",
    b"R4286578687",
];

/// Each field of these in the second of two sets, for an input of each kind, and random numbers behind an R: which of them are good shows there one by
/// one, as it seldom does in a random folder.
pub fn field_folders(rng: &mut Rng) -> Vec<Folder> {
    let numbers =
        (0..60).map(|_| format!("{:>FIELD$}", format!("R{}", rng.number() >> rng.between(31, 63))).into_bytes());
    let fixed = GOOD_FIELDS.iter().chain(&BAD_FIELDS).chain(&BAD_FLOATS).map(|field| field.to_vec());
    let fields: Vec<Vec<u8>> = fixed.chain(numbers).collect();
    let folder = |letter: u8, field: &Vec<u8>| Folder {
        formula: Some(sheet::write(&[[1, 0, 0, 0, 0]])),
        kinds: Some(vec![letter, b'\n']),
        sets: Some([&b"          E\n"[..], field, b"\n"].concat()),
        made: ["an identifier", "of one letter", "a field"],
    };
    b"WTR".iter().flat_map(|&letter| fields.iter().map(move |field| folder(letter, field))).collect()
}

const FAULTS: [&str; 9] = [
    "unended",
    "a byte changed",
    "a byte left out",
    "a byte too many",
    "filled up",
    "CR LF",
    "two lines in one",
    "something behind",
    "a bad field",
];

/// Makes one fault in the text of sets, where it has room for it, and says which; another byte may be as good as the one it replaces.
fn spoil(text: &mut Vec<u8>, sorts: &[Sort], rng: &mut Rng) -> &'static str {
    let line = FIELD * sorts.len() + 1;
    let lines = text.len() / line;
    if lines == 0 {
        *text = rng.pick(&[&b" "[..], b"x\n", b"\r\n", b"          1"]).to_vec();
        return "a stray line";
    }
    let place = rng.below(text.len());
    // Without inputs there is no field.
    let fault = rng.pick(&FAULTS[..if line > 1 { 9 } else { 8 }]);
    match fault {
        "unended" => drop(text.pop()),
        "a byte changed" => text[place] = rng.pick(b" 0123456789-TFEZVR\n\r\0x"),
        "a byte left out" => drop(text.remove(place)),
        "a byte too many" => text.insert(place, rng.pick(b" 019-TFEZVR\n")),
        "filled up" => text.resize(rng.pick(&[MOST_SET_BYTES, MOST_SET_BYTES + 1, 200_000]), b'\n'),
        "CR LF" => *text = String::from_utf8_lossy(text).replace('\n', "\r\n").into_bytes(),
        "two lines in one" => drop(text.remove(rng.below(lines) * line + line - 1)),
        "a bad field" => {
            let place = rng.below(sorts.len());
            let near: &[&[u8; FIELD]] = if sorts[place] == Sort::Real { &BAD_FLOATS } else { &BAD_FIELDS };
            let field = rng.below(lines) * line + place * FIELD;
            text[field..field + FIELD].copy_from_slice(rng.pick::<&[u8; FIELD]>(near));
        }
        _ => text.extend(rng.pick(&[&b"\n"[..], b" ", b"          1", b"\n\n"])),
    }
    fault
}

fn loose_sets(rng: &mut Rng) -> Vec<u8> {
    match rng.below(4) {
        0 => b"          1\n".to_vec(),
        1 => vec![b'x'; rng.pick(&[1, MOST_SET_BYTES, MOST_SET_BYTES + 1])],
        2 => Vec::new(),
        _ => vec![b'\n'; rng.pick(&[1, 40, MOST_SET_BYTES + 1])],
    }
}

#[cfg(test)]
mod tests {
    use super::*;
    use crate::bench::read_sets;
    use std::collections::BTreeMap;

    #[test]
    fn bad_fields_are_bad_and_good_ones_good_for_one_kind_or_all() {
        let good = |field: &[u8; FIELD], sort: Sort| read_sets(&[&field[..], b"\n"].concat(), &[sort]).is_ok();
        let kinds =
            |field| [Sort::Whole, Sort::Truth, Sort::Real].into_iter().filter(|&sort| good(field, sort)).count();
        assert!(BAD_FIELDS.iter().chain(&BAD_FLOATS).all(|field| kinds(field) == 0));
        assert!(GOOD_FIELDS.iter().all(|field| matches!(kinds(field), 1 | 3)));
        let folders = field_folders(&mut Rng::new(1));
        assert_eq!(folders.len(), 3 * (20 + 23 + 21 + 60));
        let length = |folder: &Folder| folder.sets.as_ref().map_or(0, Vec::len);
        assert!(folders.iter().all(|folder| length(folder) == 2 * (FIELD + 1)));
    }

    #[test]
    fn each_refusal_of_the_files_occurs_and_half_are_accepted() {
        let mut seen: BTreeMap<u32, u32> = BTreeMap::new();
        for case in 0..2_000 {
            let folder = random_folder(&mut Rng::new(case));
            let (formula, kinds) = (folder.formula.unwrap_or_default(), folder.kinds.unwrap_or_default());
            let sets = folder.sets.unwrap_or_default();
            let refusal = match sheet::read(&formula, &kinds) {
                Err(refusal) => refusal.number,
                Ok(_) if sets.len() > MOST_SET_BYTES => 13,
                Ok(sheet) => read_sets(&sets, &sheet.sorts).err().map_or(0, |refusal| refusal.number),
            };
            *seen.entry(refusal).or_default() += 1;
        }
        for refusal in [0, 1, 2, 3, 4, 5, 6, 7, 8, 9, 10, 12, 13, 17, 18] {
            assert!(seen.get(&refusal).is_some_and(|&count| count >= 10), "{refusal}: {seen:?}");
        }
        assert!(seen[&0] > 1_000, "{seen:?}");
    }
}
