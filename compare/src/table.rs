// Tables in markdown, as docs/BENCHMARKS.md has them.

pub fn head(cells: &[&str]) {
    println!("\n| {} |\n|{}", cells.join(" | "), "---|".repeat(cells.len()));
}

pub fn row(cells: &[String]) {
    println!("| {} |", cells.join(" | "));
}

/// The product's speed over the plain one's, from their times.
pub fn speed(plain: f64, product: f64) -> String {
    format!("{:.2}", plain / product)
}

/// A whole number with a comma before every three digits.
pub fn grouped(number: f64) -> String {
    let digits = format!("{number:.0}");
    let mut text = String::new();
    for (place, digit) in digits.chars().enumerate() {
        if place > 0 && (digits.len() - place).is_multiple_of(3) {
            text.push(',');
        }
        text.push(digit);
    }
    text
}

#[cfg(test)]
mod tests {
    use super::*;

    #[test]
    fn commas_stand_before_every_three_digits() {
        let numbers = [0.4, 999.0, 1_000.0, 65_536.0, 1_234_567.0];
        assert_eq!(numbers.map(grouped), ["0", "999", "1,000", "65,536", "1,234,567"]);
    }
}
