//! One trail to be aged by the proved call and by plain Rust.

use std::hint::black_box;

use trails_tests::interface;

use crate::thinning::Thinned;
use crate::timing::{repeated, Run};

/// An aging changes its record, so copies are made before the clock starts: at most so many, to fit in a core's cache,
/// and no more than measure so many fixes, for the dearest trail takes long enough alone.
const COPIES: usize = 16;
const MEASURED: u32 = 500_000;

pub struct Aging<F> {
    fixes: Vec<F>,
    record: Vec<u8>,
    tolerance: u16,
    copies: usize,
}

impl<F: Thinned> Aging<F> {
    /// Both must do the same work, or comparing their times means nothing.
    pub fn new(name: &str, fixes: Vec<F>, tolerance: u16) -> Aging<F> {
        let record = trails::write(&fixes).expect("the trails are good");
        let mut aged = record.clone();
        let answer = interface::age(&mut aged, tolerance);
        let (kept, count) = F::thin(&fixes, tolerance);
        let kept = kept.iter().map(|fix| fix.any()).collect();
        let same = (answer.refusal, answer.value) == (0, count)
            && trails::fixes(&aged).map(|fixes| fixes.any()) == Ok(kept);
        assert!(
            same,
            "{name}, {} fixes: the two thinnings differ",
            fixes.len()
        );
        Aging {
            record,
            fixes,
            tolerance,
            copies: COPIES.min(1 + (MEASURED / (1 + answer.value)) as usize),
        }
    }

    pub fn proved(&self) -> Run<'_> {
        let mut copies = vec![self.record.clone(); self.copies];
        let afresh = |copies: &mut Vec<Vec<u8>>| {
            for record in copies {
                record.copy_from_slice(&self.record);
            }
        };
        let age = |copies: &mut Vec<Vec<u8>>| {
            for record in copies {
                black_box(interface::age(black_box(record), self.tolerance));
            }
        };
        Box::new(move || repeated(self.copies, &mut copies, afresh, age))
    }

    pub fn plain(&self) -> Run<'_> {
        let mut copies = vec![self.fixes.clone(); self.copies];
        let afresh = |copies: &mut Vec<Vec<F>>| {
            for fixes in copies {
                fixes.copy_from_slice(&self.fixes);
            }
        };
        let age = |copies: &mut Vec<Vec<F>>| {
            for fixes in copies {
                black_box(F::thin(black_box(fixes), self.tolerance));
            }
        };
        Box::new(move || repeated(self.copies, &mut copies, afresh, age))
    }
}
