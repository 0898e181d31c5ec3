//! Compares the proved leaves, all of their domain and some values beyond it, with the published
//! Rust in every bit. That drops the excess of a group code, which is the oracle's own. Ends with status 1
//! at the first difference.

use oracle::excess::excess;
use oracle::leaf::{self, QuantClass, SCALEFACTORS};
use std::process::ExitCode;

/// The functions of the crates `leaves` and `class_leaves`. All are total: they answer 0 beyond their domain.
mod proved {
    unsafe extern "C" {
        pub safe fn mc_leaf_scalefactor(index: u32) -> f64;
        pub safe fn mc_leaf_class_bits_per_sample(nb_steps: u32) -> u32;
        pub safe fn mc_leaf_class_bits_per_codeword(nb_steps: u32) -> u32;
        pub safe fn mc_leaf_class_grouping(nb_steps: u32) -> u32;
        pub safe fn mc_leaf_class_c(nb_steps: u32) -> f64;
        pub safe fn mc_leaf_class_d(nb_steps: u32) -> f64;
        pub safe fn mc_leaf_requantize_code(nb_steps: u32, code: u32) -> f64;
        pub safe fn mc_leaf_degroup(nb_steps: u32, combined: u32) -> u32;
        pub safe fn mc_leaf_requantize_lfe(allocation: u32, scalefactor: u32, code: u32) -> f64;
        pub safe fn mc_leaf_pred_coef(byte: u32) -> f64;
    }
}

/// A difference, in words.
type Compared = Result<(), String>;

/// How many values of one kind were compared.
struct Tally {
    kind: &'static str,
    inside: u64,
    beyond: u64,
}

impl Tally {
    fn of(kind: &'static str) -> Tally {
        Tally {
            kind,
            inside: 0,
            beyond: 0,
        }
    }

    /// A number; `wanted` is none beyond the domain, where the answer is 0.
    fn number(&mut self, place: &[u32], found: u32, wanted: Option<u32>) -> Compared {
        let same = found == wanted.unwrap_or(0);
        self.note(place, same, wanted.is_some(), || {
            format!("{found}, wanted {}", wanted.unwrap_or(0))
        })
    }

    /// A float, in all 64 bits; `wanted` is none beyond the domain, where the answer is +0.
    fn float(&mut self, place: &[u32], found: f64, wanted: Option<f64>) -> Compared {
        let value = wanted.unwrap_or(0.0);
        let same = found.to_bits() == value.to_bits();
        self.note(place, same, wanted.is_some(), || {
            let (found_bits, bits) = (found.to_bits(), value.to_bits());
            format!("{found:?} ({found_bits:#018x}), wanted {value:?} ({bits:#018x})")
        })
    }

    fn note(
        &mut self,
        place: &[u32],
        same: bool,
        inside: bool,
        words: impl Fn() -> String,
    ) -> Compared {
        match inside {
            true => self.inside += 1,
            false => self.beyond += 1,
        }
        match same {
            true => Ok(()),
            false => Err(format!("{} {place:?}: {}", self.kind, words())),
        }
    }
}

/// Numbers past a bound: the bound itself, some after it, and the ends of 16, 31 and 32 bits.
fn beyond(bound: u32) -> impl Iterator<Item = u32> {
    let far = [65_535, 65_536, 131_071, i32::MAX as u32, 1 << 31, u32::MAX];
    (bound..bound + 300).chain(far.into_iter().filter(move |&n| n >= bound + 300))
}

/// The classes by step count, as the published lookup knows them.
fn classes() -> Vec<QuantClass> {
    let known = (0..=70_000).filter_map(leaf::class_of_quantization);
    known.collect()
}

fn scalefactors(tally: &mut Tally) -> Compared {
    for index in (0..63).chain(beyond(63)) {
        let wanted = SCALEFACTORS.get(index as usize).copied();
        tally.float(&[index], proved::mc_leaf_scalefactor(index), wanted)?;
    }
    Ok(())
}

/// Each field of each class; step counts of no class answer 0 in all.
fn class_lookup(tally: &mut Tally) -> Compared {
    for steps in (0..=70_000).chain(beyond(70_001)) {
        let class = leaf::class_of_quantization(steps);
        let number = |field: fn(QuantClass) -> u32| class.map(field);
        let found = proved::mc_leaf_class_bits_per_sample(steps);
        tally.number(&[steps], found, number(QuantClass::bits_per_sample))?;
        let found = proved::mc_leaf_class_bits_per_codeword(steps);
        tally.number(&[steps], found, number(|class| class.bits_per_codeword))?;
        let found = proved::mc_leaf_class_grouping(steps);
        tally.number(&[steps], found, number(|class| u32::from(class.grouping)))?;
        let found = proved::mc_leaf_class_c(steps);
        tally.float(&[steps], found, class.map(|class| class.c))?;
        let found = proved::mc_leaf_class_d(steps);
        tally.float(&[steps], found, class.map(|class| class.d))?;
    }
    Ok(())
}

fn sample_codes(tally: &mut Tally) -> Compared {
    for class in classes() {
        let (steps, end) = (class.nb_steps, 1 << class.bits_per_sample());
        for code in (0..end).chain(beyond(end)) {
            let wanted = (code < end).then(|| leaf::requantize_code(&class, code));
            let found = proved::mc_leaf_requantize_code(steps, code);
            tally.float(&[steps, code], found, wanted)?;
        }
    }
    for (steps, code) in pairs_of_no_class() {
        let found = proved::mc_leaf_requantize_code(steps, code);
        tally.float(&[steps, code], found, None)?;
    }
    Ok(())
}

fn group_codes(tally: &mut Tally) -> Compared {
    for class in classes() {
        let (steps, end) = (class.nb_steps, 1 << class.bits_per_codeword);
        for code in (0..end).chain(beyond(end)) {
            let wanted = (class.grouping && code < end).then(|| packed_code(&class, code));
            let found = proved::mc_leaf_degroup(steps, code);
            tally.number(&[steps, code], found, wanted)?;
        }
    }
    for (steps, code) in pairs_of_no_class() {
        let found = proved::mc_leaf_degroup(steps, code);
        tally.number(&[steps, code], found, None)?;
    }
    Ok(())
}

/// The three digits of a group code in one number, the first lowest, and its excess from bit 20 on.
fn packed_code(class: &QuantClass, code: u32) -> u32 {
    let digits = leaf::degroup(class, code).expect("digits are below the steps");
    let excess = excess(class, code);
    digits[0] + 256 * digits[1] + 65_536 * digits[2] + 1_048_576 * excess
}

/// Step counts that no class has, with some codes.
fn pairs_of_no_class() -> impl Iterator<Item = (u32, u32)> {
    let steps = [0, 1, 2, 4, 6, 8, 10, 16, 65_534, 65_536, u32::MAX];
    let codes = [0, 1, 2, 7, 31, 1023, 65_535, u32::MAX];
    steps
        .into_iter()
        .flat_map(move |s| codes.map(|code| (s, code)))
}

/// Every allocation, scalefactor and code, and each of the three beyond its end.
fn lfe_samples(tally: &mut Tally) -> Compared {
    for allocation in 1..=15 {
        let end = 2u32 << allocation;
        for scalefactor in 0..63 {
            for code in 0..end {
                let wanted = leaf::lfe_sample(allocation as usize, scalefactor as usize, code);
                lfe_sample(tally, [allocation, scalefactor, code], Some(wanted))?;
            }
            for code in beyond(end) {
                lfe_sample(tally, [allocation, scalefactor, code], None)?;
            }
        }
        for scalefactor in beyond(63) {
            for code in [0, 1, end - 1] {
                lfe_sample(tally, [allocation, scalefactor, code], None)?;
            }
        }
    }
    for allocation in [0].into_iter().chain(beyond(16)) {
        for code in [0, 1, 2, 65_535, 65_536, u32::MAX] {
            lfe_sample(tally, [allocation, 0, code], None)?;
        }
    }
    Ok(())
}

fn lfe_sample(tally: &mut Tally, place: [u32; 3], wanted: Option<f64>) -> Compared {
    let found = proved::mc_leaf_requantize_lfe(place[0], place[1], place[2]);
    tally.float(&place, found, wanted)
}

fn coefficients(tally: &mut Tally) -> Compared {
    for byte in (0..256).chain(beyond(256)) {
        let wanted = (byte < 256).then(|| leaf::pred_coef(byte));
        tally.float(&[byte], proved::mc_leaf_pred_coef(byte), wanted)?;
    }
    Ok(())
}

fn main() -> ExitCode {
    let kinds: [(&str, fn(&mut Tally) -> Compared); 6] = [
        ("scalefactor", scalefactors),
        ("class", class_lookup),
        ("sample code", sample_codes),
        ("group code", group_codes),
        ("LFE sample", lfe_samples),
        ("coefficient", coefficients),
    ];
    let mut total = 0;
    for (kind, compare) in kinds {
        let mut tally = Tally::of(kind);
        if let Err(difference) = compare(&mut tally) {
            eprintln!("leaves: DIFFERENT at {difference}");
            return ExitCode::FAILURE;
        }
        let Tally { inside, beyond, .. } = tally;
        println!("{kind:12} {inside:10} equal, {beyond:8} beyond the domain 0");
        total += inside + beyond;
    }
    println!("{:12} {total:10} values compared, no difference", "total");
    ExitCode::SUCCESS
}
