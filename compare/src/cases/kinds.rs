// The cases of tests 17 and 18 (document 02, Job 6; kind R: Job 9). See ../cases.rs for how they are held to the reader.

use super::rules::nest;
use super::{lesser, List};
use crate::sheet::write;

type Row = [u32; 5];

const ONE: Row = [2, 1, 0, 0, 0];
const TRUE: Row = [3, 1, 0, 0, 0];
const HALF: Row = [10, 500, 0, 0, 0];

fn name(name: u32) -> Row {
    [1, name, 0, 0, 0]
}

/// 17 "when the kinds line has another length or letter".
pub fn lines(list: &mut List) {
    let bad: [(&str, &[u8]); 20] = [
        ("empty", b""),
        ("a line feed alone", b"\n"),
        ("one letter", b"W\n"),
        ("three letters", b"WWW\n"),
        ("no line feed", b"WW"),
        ("a third letter in the place of the line feed", b"WWW"),
        ("two line feeds", b"WW\n\n"),
        ("a line feed before", b"\nWW"),
        ("a line feed between", b"W\nW"),
        ("CR LF", b"WW\r\n"),
        ("a CR alone", b"WW\r"),
        ("a space behind", b"WW \n"),
        ("a byte behind the line feed", b"WW\nW"),
        ("small letters", b"ww\n"),
        ("the letter F", b"WF\n"),
        ("a small r", b"Rr\n"),
        ("the letter S, next to R", b"SR\n"),
        ("a byte 0xd2, an R but for its highest bit", b"R\xd2\n"),
        ("a byte 0x00", b"W\0\n"),
        ("a byte 0xd7, a W but for its highest bit", b"\xd7W\n"),
    ];
    for (what, line) in bad {
        list.refused_with(17, 0, &format!("kinds line: {what}"), write(&lesser()), line);
    }
    list.refused_with(17, 0, "kinds line: a bad letter beside one that breaks row 4", write(&lesser()), b"TX\n");
    list.refused_with(17, 0, "kinds line: too few letters, and over 1,024 operators", write(&nest(29, 24)), b"W\n");
    list.refused_with(9, 3, "let x = 1 in 2 with no kinds line", write(&[ONE, ONE, [6, 0, 1, 1, 2]]), b"");
    list.refused_with(17, 0, "no inputs: an empty line", write(&[ONE]), b"");
    list.refused_with(17, 0, "no inputs: a letter", write(&[ONE]), b"W\n");
    list.refused_with(17, 0, "no inputs: two line feeds", write(&[ONE]), b"\n\n");
    // x17 negated, x5 notted: the letters go by rising identifiers, not by rows.
    let rising = [name(17), [5, 11, 1, 0, 0], name(5), [5, 10, 3, 0, 0], [4, 2, 4, 0, 0]];
    list.accepted([5, 2, 2, 2], "letters by rising identifiers", write(&rising), "TW");
    list.refused_with(18, 2, "letters by rows", write(&rising), b"WT\n");
    let line = [&[b'W'; 16][..], b"\n"].concat();
    list.refused_with(10, 0, "1,025 operators of good kinds", write(&nest(29, 24)), &line);
    let mut broken = line.clone();
    broken[15] = b'T';
    list.refused_with(18, 46, "1,025 operators and a row that breaks the kinds", write(&nest(29, 24)), &broken);
}

/// Whether a code wants these letters: document 02, Job 9, "Codes 1 to 4, 6, 7 and 11 take two (or one) such values", floats.
fn wants(code: u32, letters: &str) -> bool {
    match code {
        5 => letters == "WW",
        8 | 9 => letters == "TT",
        10 => letters == "T",
        11 => letters == "W" || letters == "R",
        _ => letters == "WW" || letters == "RR",
    }
}

/// "Operators [..] must get the kinds they want": each code with each kinds of its operands.
pub fn operators(list: &mut List) {
    for code in 1..=9 {
        let rows = [name(0), name(1), [4, 1, 2, 0, 0], [5, code, 3, 0, 0]];
        for letters in ["WW", "WT", "WR", "TW", "TT", "TR", "RW", "RT", "RR"] {
            let what = format!("code {code} of {letters}");
            match wants(code, letters) {
                true => list.accepted([4, 1, 2, 1], &what, write(&rows), letters),
                false => list.refused_with(18, 4, &what, write(&rows), format!("{letters}\n").as_bytes()),
            }
        }
    }
    for code in [10, 11] {
        let rows = [name(0), [5, code, 1, 0, 0]];
        for letters in ["W", "T", "R"] {
            let what = format!("code {code} of {letters}");
            match wants(code, letters) {
                true => list.accepted([2, 1, 1, 1], &what, write(&rows), letters),
                false => list.refused_with(18, 2, &what, write(&rows), format!("{letters}\n").as_bytes()),
            }
        }
    }
    // not and negate of what each code gives
    for code in 1..=9 {
        let (letters, gives_truth) = (if code < 8 { "WW" } else { "TT" }, code > 5);
        for above in [10, 11] {
            let rows = [name(0), name(1), [4, 1, 2, 0, 0], [5, code, 3, 0, 0], [5, above, 4, 0, 0]];
            let what = format!("code {above} of code {code}");
            match gives_truth == (above == 10) {
                true => list.accepted([5, 2, 2, 1], &what, write(&rows), letters),
                false => list.refused_with(18, 5, &what, write(&rows), format!("{letters}\n").as_bytes()),
            }
        }
    }
    // What each code gives of floats, compared with a constant: a float for 1 to 4, a truth, which cannot be compared, for 6 and 7.
    for code in [1, 2, 3, 4, 6, 7] {
        for (what, constant, fits) in [("0.5", HALF, code < 5), ("1", ONE, false), ("true", TRUE, false)] {
            let operator = [name(0), name(1), [4, 1, 2, 0, 0], [5, code, 3, 0, 0]];
            let rows = [&operator[..], &[constant, [4, 4, 5, 0, 0], [5, 6, 6, 0, 0]]].concat();
            let what = format!("code {code} of floats, less than {what}");
            match fits {
                true => list.accepted([7, 3, 2, 1], &what, write(&rows), "RR"),
                false => list.refused_with(18, 7, &what, write(&rows), b"RR\n"),
            }
        }
    }
}

/// Document 02, Job 9: "Row kind 10 is a constant: a, 0 to 999,999", and has the kind R.
pub fn fractions(list: &mut List) {
    for a in [0, 1, 1_000, 999_999] {
        list.accepted([1, 1, 0, 1], &format!("{a} thousandths"), write(&[[10, a, 0, 0, 0]]), "");
    }
    for field in 2..5 {
        let mut row = HALF;
        row[field] = 1;
        list.refused(4, 1, &format!("kind 10 with 1 in unlisted field {field}"), write(&[row]));
    }
    list.refused(8, 2, "the sum of one constant with a fraction", write(&[HALF, [5, 1, 1, 0, 0]]));
    list.refused(8, 3, "a let of two identifiers to a fraction", write(&[HALF, name(0), [6, 0, 2, 1, 2]]));
    list.refused(9, 3, "let x = 0.5 in 0.5", write(&[HALF, HALF, [6, 0, 1, 1, 2]]));
    list.refused(6, 1, "two fractions, the first not named", write(&[HALF, HALF]));
    // Both constants take the trigger, which is copied once: 0.5 + 0.5 has 4 operators.
    list.accepted([4, 4, 0, 1], "0.5 + 0.5", write(&[HALF, HALF, [4, 1, 2, 0, 0], [5, 1, 3, 0, 0]]), "");
    list.refused_with(18, 4, "0.5 + 1", write(&[HALF, ONE, [4, 1, 2, 0, 0], [5, 1, 3, 0, 0]]), b"\n");
    list.refused_with(18, 4, "1 + 0.5", write(&[ONE, HALF, [4, 1, 2, 0, 0], [5, 1, 3, 0, 0]]), b"\n");
    list.refused_with(18, 2, "not 0.5", write(&[HALF, [5, 10, 1, 0, 0]]), b"\n");
    list.accepted([7, 8, 2, 1], "the lesser of two floats", write(&lesser()), "RR");
    list.refused_with(18, 4, "the lesser of a float and a number", write(&lesser()), b"RW\n");
    list.refused_with(18, 4, "the lesser of a number and a float", write(&lesser()), b"WR\n");
    let chosen = |yes: Row, no: Row| write(&[name(0), yes, no, [7, 1, 2, 3, 0]]);
    list.refused_with(18, 4, "a test of kind R", chosen(ONE, ONE), b"R\n");
    for (what, yes, no) in [("1 and 0.5", ONE, HALF), ("0.5 and 1", HALF, ONE), ("0.5 and true", HALF, TRUE)] {
        list.refused_with(18, 4, &format!("arms {what}"), chosen(yes, no), b"T\n");
    }
    // A T and an F on the trigger, an M, both constants, two copies of the test, one of the trigger: 8.
    list.accepted([4, 8, 1, 1], "arms 0.5 and 0.5", chosen(HALF, HALF), "T");
    // for x0 = x0 do if x1 then iter (row 3) else (row 5); its operators are counted among the loops below
    let looped =
        |next: Row, end: Row| write(&[name(0), name(1), next, [9, 3, 0, 0, 0], end, [7, 2, 4, 5, 0], [8, 0, 1, 1, 6]]);
    list.accepted([7, 18, 2, 1], "a loop over numbers that returns a float", looped(name(0), HALF), "WT");
    list.accepted([7, 18, 2, 1], "a loop over floats that returns a number", looped(name(0), ONE), "RT");
    list.refused_with(18, 7, "a loop that turns a number into a float", looped(HALF, name(0)), b"WT\n");
    list.refused_with(18, 7, "a loop that turns a float into a number", looped(ONE, name(0)), b"RT\n");
    list.refused_with(18, 7, "a loop that turns a float into a truth", looped(TRUE, name(0)), b"RT\n");
    list.refused_with(18, 6, "a body's test of kind R", looped(name(0), name(0)), b"RR\n");
    // x31, x30 and x29 as the results: the letters go by rising identifiers
    let three = [name(31), name(30), name(29), [5, 10, 2, 0, 0], [4, 1, 4, 0, 0], [4, 5, 3, 0, 0]];
    list.accepted([6, 1, 3, 3], "three inputs of three kinds", write(&three), "RTW");
    list.refused_with(18, 4, "three inputs of three kinds in another order", write(&three), b"TRW\n");
}

/// Document 02, Job 9: "after any wrong kind a number's kind goes on as W". It shows in a row below the fault: let x1 = (the part) in x1 + a constant,
/// that sum being row 4. It is at fault besides where the constant is not of the kind that goes on.
pub fn kinds_that_go_on(list: &mut List) {
    let behind = |constant: Row, part: &[Row]| {
        let last = part.len() as u32 + 4;
        let sum = [name(1), constant, [4, 1, 2, 0, 0], [5, 1, 3, 0, 0]];
        write(&[&sum[..], part, &[[6, 1, 1, last, 4]]].concat())
    };
    let on_two = |code: u32, left: Row, right: Row| vec![left, right, [4, 5, 6, 0, 0], [5, code, 7, 0, 0]];
    let test = |yes: Row, no: Row| vec![TRUE, yes, no, [7, 5, 6, 7, 0]];
    // The part with x0 of kind R, its row at fault, and whether a float goes on, as the first arm's and row c's kind does.
    let parts = [
        ("x + 1", on_two(1, name(0), ONE), 8, false),
        ("1 - x", on_two(2, ONE, name(0)), 8, false),
        ("x * true", on_two(3, name(0), TRUE), 8, false),
        ("true / x", on_two(4, TRUE, name(0)), 8, false),
        ("x remainder x", on_two(5, name(0), name(0)), 8, false),
        ("x remainder 1", on_two(5, name(0), ONE), 8, false),
        ("arms x and 1", test(name(0), ONE), 8, true),
        ("arms 1 and x", test(ONE, name(0)), 8, false),
        // for x1 = x0 do if true then iter 1 else x1
        (
            "a loop of two kinds",
            vec![name(0), TRUE, ONE, [9, 7, 0, 0, 0], name(1), [7, 6, 8, 9, 0], [8, 1, 1, 5, 10]],
            11,
            true,
        ),
        // x < 1 is a truth all the same, so that the test over it is sound
        (
            "if x < 1 then x else x",
            [&on_two(6, name(0), ONE)[..], &[name(0), name(0), [7, 8, 9, 10, 0]]].concat(),
            8,
            true,
        ),
    ];
    for (what, part, row, goes_on) in parts {
        for (constant, sound) in [(HALF, goes_on), (ONE, !goes_on)] {
            let number = if constant == HALF { "0.5" } else { "1" };
            let row = if sound { row } else { 4 };
            list.refused_with(18, row, &format!("{number} added to {what}"), behind(constant, &part), b"R\n");
        }
    }
    // A fault, and a sum of it with a whole number: the second row is sound, and with the first mended it is the one at fault.
    let sum = |first: Row, second: Row, third: Row| {
        let rows = [first, second, [4, 1, 2, 0, 0], [5, 1, 3, 0, 0], third, [4, 4, 5, 0, 0], [5, 1, 6, 0, 0]];
        write(&rows)
    };
    list.refused_with(18, 4, "x + 1 + 1 of a float x", sum(name(0), ONE, ONE), b"R\n");
    list.refused_with(18, 7, "x + 0.5 + 1 of a float x", sum(name(0), HALF, ONE), b"R\n");
    list.refused_with(18, 7, "x + 1 + 0.5 of a number x", sum(name(0), ONE, HALF), b"W\n");
}

/// "tests must get the kinds they want, arms [..] must agree; else the [..] if [..] itself is at fault".
pub fn choices(list: &mut List) {
    let chosen = |yes: Row, no: Row| write(&[name(0), yes, no, [7, 1, 2, 3, 0]]);
    list.refused_with(18, 4, "a test of kind W", chosen(ONE, ONE), b"W\n");
    list.refused_with(18, 4, "arms 1 and true", chosen(ONE, TRUE), b"T\n");
    list.refused_with(18, 4, "arms true and 1", chosen(TRUE, ONE), b"T\n");
    // if x0 then 1, true else true, 1
    let crossed = [name(0), ONE, TRUE, [4, 2, 3, 0, 0], TRUE, ONE, [4, 5, 6, 0, 0], [7, 1, 4, 7, 0]];
    list.refused_with(18, 8, "arms of the same kinds in another order", write(&crossed), b"T\n");
    // let x0 = true in not x0, beside x0 negated
    let shadowed = [TRUE, name(0), [5, 10, 2, 0, 0], [6, 0, 1, 1, 3], name(0), [5, 11, 5, 0, 0], [4, 4, 6, 0, 0]];
    list.accepted([7, 3, 1, 2], "a let whose identifier has another kind than the input", write(&shadowed), "W");
}

/// "loop rounds must agree; else the [..] for itself is at fault and [..] row c's kinds hold".
pub fn loops(list: &mut List) {
    // for x0 = x0 do if x1 then iter (row 3) else (row 5)
    let looped =
        |next: Row, end: Row| write(&[name(0), name(1), next, [9, 3, 0, 0, 0], end, [7, 2, 4, 5, 0], [8, 0, 1, 1, 6]]);
    list.refused_with(18, 7, "a loop that turns a number into a truth", looped(TRUE, name(0)), b"WT\n");
    list.refused_with(18, 7, "a loop that turns a truth into a number", looped(ONE, name(0)), b"TT\n");
    list.refused_with(18, 6, "a body's test of kind W", looped(name(0), name(0)), b"WW\n");
    list.refused_with(18, 6, "a body's test of kind W, and a loop of two kinds", looped(TRUE, name(0)), b"WW\n");
    // The if 13, the for 5.
    list.accepted([7, 18, 2, 1], "a loop over numbers that returns a truth", looped(name(0), TRUE), "WT");
    // for x0 = x0 do if x1 then (if x1 then iter (row 4) else iter (row 6)) else x0
    let two = |yes: Row, no: Row| {
        let inner = [name(1), yes, [9, 4, 0, 0, 0], no, [9, 6, 0, 0, 0], [7, 3, 5, 7, 0]];
        let outer = [name(0), [7, 2, 8, 9, 0], [8, 0, 1, 1, 10]];
        write(&[&[name(0), name(1)][..], &inner, &outer].concat())
    };
    list.refused_with(18, 8, "body arms that iterate 1 and true", two(ONE, TRUE), b"WT\n");
    list.refused_with(18, 8, "body arms that iterate true and 1", two(TRUE, ONE), b"WT\n");
    list.refused_with(18, 11, "body arms that both iterate true", two(TRUE, TRUE), b"WT\n");
    // for x0 = x0 do if x1 then iter x0 else if x1 then (row 6) else (row 7)
    let ends = |yes: Row, no: Row| {
        let inner = [name(1), yes, no, [7, 5, 6, 7, 0]];
        write(
            &[&[name(0), name(1), name(0), [9, 3, 0, 0, 0]][..], &inner, &[[7, 2, 4, 8, 0], [8, 0, 1, 1, 9]]].concat(),
        )
    };
    list.refused_with(18, 8, "body arms that return 1 and true", ends(ONE, TRUE), b"WT\n");
    // for x0, x1 = x0, x1 do if x1 then iter x1, x0 else x0
    let start = [name(0), name(1), [4, 1, 2, 0, 0]];
    let swap =
        [name(1), name(1), name(0), [4, 5, 6, 0, 0], [9, 7, 0, 0, 0], name(0), [7, 4, 8, 9, 0], [8, 0, 2, 3, 10]];
    list.refused_with(18, 11, "a loop that exchanges two kinds", write(&[&start[..], &swap].concat()), b"WT\n");
    // for x0 = x0 do if x1 then (let x0 = true in if x0 then iter 1 else 1) else x0: the let's identifier has its own kind.
    // Operators: the inner if 13, the let 2, the outer if 10, the for 5.
    let inner = [TRUE, name(0), ONE, [9, 5, 0, 0, 0], ONE, [7, 4, 6, 7, 0], [6, 0, 1, 3, 8]];
    let rebound = [&[name(0), name(1)][..], &inner, &[name(0), [7, 2, 9, 10, 0], [8, 0, 1, 1, 11]]].concat();
    list.accepted([12, 30, 2, 1], "a body's let of another kind than the loop's identifier", write(&rebound), "WT");
}

/// Which kinds hold behind a fault shows in a row below it: let x1 = (the part) in x1 notted or negated, that operator being row 2.
pub fn lower_rows(list: &mut List) {
    let behind = |code: u32, part: &[Row]| {
        let last = part.len() as u32 + 2;
        write(&[&[name(1), [5, code, 1, 0, 0]][..], part, &[[6, 1, 1, last, 2]]].concat())
    };
    let arms = |yes: Row, no: Row| [name(0), yes, no, [7, 3, 4, 5, 0]];
    let cases = [
        ("arms true and 1", arms(TRUE, ONE), 10),
        ("arms 1 and true", arms(ONE, TRUE), 11),
        // An operator at fault gives what its code always gives.
        ("true + 1", [name(0), ONE, [4, 3, 4, 0, 0], [5, 1, 5, 0, 0]], 11),
        ("true < 1", [name(0), ONE, [4, 3, 4, 0, 0], [5, 6, 5, 0, 0]], 10),
        ("true and 1", [name(0), ONE, [4, 3, 4, 0, 0], [5, 8, 5, 0, 0]], 10),
    ];
    for (what, part, fits) in cases {
        for code in [10, 11] {
            let row = if code == fits { 6 } else { 2 };
            list.refused_with(18, row, &format!("code {code} of {what}"), behind(code, &part), b"T\n");
        }
    }
    // for x1 = true do if x1 then iter 1 else x1: row c's kinds hold in the body and behind it
    let looped = [TRUE, name(1), ONE, [9, 5, 0, 0, 0], name(1), [7, 4, 6, 7, 0], [8, 1, 1, 3, 8]];
    list.refused_with(18, 9, "not of a loop of two kinds", behind(10, &looped), b"\n");
    list.refused_with(18, 2, "negate of a loop of two kinds", behind(11, &looped), b"\n");
    // for x1 = 1 do if x0 then (if x0 then 1 else true) else iter x1: the first arm's kinds hold for what is returned
    let returned = |yes: Row, no: Row| {
        let body = [name(0), name(0), yes, no, [7, 5, 6, 7, 0], name(1), [9, 9, 0, 0, 0], [7, 4, 8, 10, 0]];
        [&[ONE][..], &body, &[[8, 1, 1, 3, 11]]].concat()
    };
    list.refused_with(18, 8, "negate of a loop that returns 1 or true", behind(11, &returned(ONE, TRUE)), b"T\n");
    list.refused_with(18, 2, "not of a loop that returns 1 or true", behind(10, &returned(ONE, TRUE)), b"T\n");
}
