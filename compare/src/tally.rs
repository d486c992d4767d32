// The record for the service hatch (document 02, Job 10): "The hatch shows firings, takes and refused pushes. They are one small record, which the
// firmware lends and which each call updates in place."

#[repr(C)]
#[derive(Clone, Copy, PartialEq, Eq, Debug, Default)]
pub struct Tally {
    pub firings: u32,
    pub takes: u32,
    pub refused: u32,
}

impl Tally {
    /// "It is set to zeros by an accepted start."
    pub fn set_to_zeros(&mut self) {
        *self = Tally::default();
    }

    pub fn count_firings(&mut self, firings: u64) {
        self.firings = stopping(self.firings, firings);
    }

    pub fn count_take(&mut self) {
        self.takes = stopping(self.takes, 1);
    }

    /// "A refused push is counted there".
    pub fn count_refused_push(&mut self) {
        self.refused = stopping(self.refused, 1);
    }
}

/// "Each number stops at 4,294,967,295."
fn stopping(number: u32, more: u64) -> u32 {
    let sum = u64::from(number).saturating_add(more);
    u32::try_from(sum).unwrap_or(u32::MAX)
}

#[cfg(test)]
mod tests {
    use super::*;

    #[test]
    fn each_number_stops() {
        let mut tally = Tally { firings: u32::MAX - 7, takes: u32::MAX - 1, refused: u32::MAX - 1 };
        tally.count_firings(6);
        assert_eq!(tally.firings, u32::MAX - 1);
        for firings in [1, 1, 1 << 33, u64::MAX] {
            tally.count_firings(firings);
            tally.count_take();
            tally.count_refused_push();
            assert_eq!(tally, Tally { firings: u32::MAX, takes: u32::MAX, refused: u32::MAX });
        }
        tally.set_to_zeros();
        assert_eq!(tally, Tally { firings: 0, takes: 0, refused: 0 });
    }
}
