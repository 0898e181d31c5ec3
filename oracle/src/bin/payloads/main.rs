//! Compares the proved unpacking with the published Rust, field by field: payloads of every layout,
//! rate and class, whole, cut, damaged and wrongly lent, each drawn and lent under readings at random.
//! Ends with status 1 at the first difference.

mod call;
mod case;
mod coverage;
mod record;
mod timing;

use call::Buffers;
use case::{Case, spoil};
use coverage::Coverage;
use oracle::excess::Excesses;
use oracle::generator::damage::{Part, cut};
use oracle::generator::{Made, Plan, Random};
use oracle::input::READINGS;
use oracle::scope::Refusal;
use record::{Record, judged, packed};
use std::process::ExitCode;
use std::time::Instant;

/// From so many payloads on, a cell that was not reached is a failure.
const LONG: u64 = 100_000;

/// Spoiled copies of each payload.
const SPOILED: usize = 6;

/// One payload in so many is cut at every bit, where it has at most [`SHORT`].
const CUT_ONE_IN: u64 = 64;
const SHORT: u64 = 1_500;

#[derive(Default)]
struct Run {
    buffers: Option<Buffers>,
    coverage: Coverage,
    payloads: u64,
}

impl Run {
    /// Calls the library on a case and compares all that it answers and leaves; the answer's number.
    fn compare(&mut self, case: &Case) -> Result<u64, String> {
        let answer = match case.wrong_length {
            Some(_) => Err(Refusal::plain(6)),
            None => judged(&case.input),
        };
        if let (Ok(frame), Some(written)) = (&answer, &case.written) {
            same_excesses(&frame.excesses, written)
                .map_err(|difference| format!("{}\n{difference}", words(case)))?;
        }
        let (flat, lengths) = case.flat();
        let buffers = self.buffers.get_or_insert_with(Buffers::new);
        let (found, wanted) = (buffers.call(&case.input, &flat, lengths), packed(&answer));
        if found != wanted {
            let words = words(case);
            return Err(format!(
                "{words}\nanswer: found {found:#x}, wanted {wanted:#x}"
            ));
        }
        let record = answer.as_ref().ok().map(Record::of);
        buffers
            .compare(record.as_ref())
            .map_err(|difference| format!("{}\n{difference}", words(case)))?;
        self.coverage.note(case, &answer);
        self.payloads += 1;
        Ok(found & 0xFF)
    }

    /// A payload whole, then under each reading that bars one of its step counts, then copies of it
    /// that are spoiled.
    fn piece(&mut self, seed: u64) -> Result<(), String> {
        let random = &mut Random::new(!seed);
        let made = Made::of(Plan::random_under(random.pick(&READINGS), seed));
        self.whole(&made, random)?;
        self.barred(&made)?;
        for _ in 0..SPOILED {
            let mut case = Case::of(&made, random.pick(&READINGS));
            spoil(random, &made, &mut case);
            self.compare(&case)?;
        }
        if seed.is_multiple_of(CUT_ONE_IN) && made.payload.bits <= SHORT {
            self.cut_at_every_bit(&made, random)?;
        }
        Ok(())
    }

    /// Compares a case: the answer is this one, or 13 where the centre code stops it.
    fn answered(&mut self, made: &Made, case: &Case, answer: u64) -> Result<(), String> {
        let wanted = if centre_stops(made, case) { 13 } else { answer };
        match self.compare(case)? {
            found if found == wanted => Ok(()),
            found => Err(format!("{}\nanswer {found}, not {wanted}", words(case))),
        }
    }

    /// A payload as it is, under a reading that bars none of its step counts.
    fn whole(&mut self, made: &Made, random: &mut Random) -> Result<(), String> {
        let reading = random.pick(&made.plan.readings());
        self.answered(made, &Case::of(made, reading), 0)
    }

    /// A payload as it is, under each reading that bars one of its step counts.
    fn barred(&mut self, made: &Made) -> Result<(), String> {
        for reading in READINGS {
            if made.plan.barred_under(reading) {
                let mut case = Case::of(made, reading);
                case.done.push("barred step count");
                self.answered(made, &case, 8)?;
            }
        }
        Ok(())
    }

    /// Both strings of a payload cut at every bit: each is short, unless the centre code stops it.
    fn cut_at_every_bit(&mut self, made: &Made, random: &mut Random) -> Result<(), String> {
        let readings = made.plan.readings();
        for (part, used) in [
            (Part::Head, made.head.bits),
            (Part::Payload, made.payload.bits),
        ] {
            for bits in 0..used {
                let mut case = Case::of(made, random.pick(&readings));
                cut(&mut case.input, part, bits, random.flag());
                case.done.push("cut at every bit");
                self.answered(made, &case, 1)?;
            }
        }
        Ok(())
    }

    /// The longest head and payload, whole and cut at every bit, one bit fewer of each among them.
    fn longest(&mut self, seed: u64) -> Result<String, String> {
        let made = Made::of(longest(seed));
        let (head, payload) = (made.head.bits, made.payload.bits);
        if (head, payload) != (232, 55_134) {
            return Err(format!("not the longest: {head} and {payload} bits"));
        }
        let random = &mut Random::new(seed);
        self.whole(&made, random)?;
        self.cut_at_every_bit(&made, random)?;
        Ok(format!(
            "head of {head} bits and payload of {payload} bits: accepted; {} head bits: refusal 1; \
             {} payload bits: refusal 1; so is every other cut",
            head - 1,
            payload - 1
        ))
    }

    /// An excess in every granule of every place.
    fn most_excesses(&mut self, seed: u64) -> Result<String, String> {
        let made = Made::of(Plan::most_excesses());
        let codes = made.plan.excesses().codes();
        if codes != 1080 {
            return Err(format!("not the most excesses: {codes}"));
        }
        self.whole(&made, &mut Random::new(seed))?;
        Ok(format!("{codes} excess codes: accepted"))
    }
}

/// The excesses that are read from a payload are those that its plan wrote.
fn same_excesses(read: &Excesses, written: &Excesses) -> Result<(), String> {
    match read == written {
        true => Ok(()),
        false => Err(format!(
            "excesses: read by the oracle {}\nwritten by its generator {}",
            read.words(),
            written.words()
        )),
    }
}

/// Whether reading 2 stops the payload of a plan at its head, of which the header is whole.
fn centre_stops(made: &Made, case: &Case) -> bool {
    let (head, input) = (&made.plan.head, &case.input);
    head.centre == 2 && input.reading == 2 && input.head_bits >= head.header_bits()
}

/// The longest head and payload with other codes; crosstalk is on with code 0 in every group.
fn longest(seed: u64) -> Plan {
    let random = Plan::of_shape(0, seed);
    let mut plan = Plan::longest();
    plan.head.crosstalk_on = true;
    plan.payload.delays = random.payload.delays;
    plan.payload.coefficients = random.payload.coefficients;
    plan.payload.scalefactors = random.payload.scalefactors;
    let random = &mut Random::new(!seed);
    for granule in &mut plan.payload.codes {
        *granule = [(); 3].map(|_| [(); 32].map(|_| [(); 3].map(|_| random.below(65_536))));
    }
    plan
}

/// A case in words.
fn words(case: &Case) -> String {
    let wrong = case
        .wrong_length
        .map(|(slice, length)| format!(", {} of length {length}", case::slice_name(slice)));
    let (wrong, input) = (wrong.unwrap_or_default(), case.input.words());
    format!("done: {:?}{wrong}; {input}", case.done)
}

/// The word of the command line at this place, or the number that stands in for it.
fn argument(place: usize, default: u64) -> u64 {
    let word = std::env::args().nth(place);
    word.and_then(|word| word.parse().ok()).unwrap_or(default)
}

/// Payloads until so many are compared, then the longest and that with the most excesses; what was reached
/// is printed.
fn compare_all(run: &mut Run, number: u64, seed: u64) -> Result<(), String> {
    // Consecutive seeds go through all shapes.
    let first = seed << 32;
    let mut piece = 0;
    while run.payloads < number {
        run.piece(first + piece)
            .map_err(|words| format!("piece {piece}\n{words}"))?;
        piece += 1;
    }
    for line in run.coverage.lines() {
        println!("{line}");
    }
    let missing = run.coverage.missing();
    if run.payloads >= LONG && !missing.is_empty() {
        return Err(format!("not reached: {}", missing.join(", ")));
    }
    println!("{}", run.longest(seed)?);
    println!("{}", run.most_excesses(seed)?);
    Ok(())
}

fn main() -> ExitCode {
    let (number, seed) = (argument(1, 1_000_000), argument(2, 1));
    let (begin, mut run) = (Instant::now(), Run::default());
    if let Err(words) = compare_all(&mut run, number, seed) {
        println!("payloads: FAILED, seed {seed}, {words}");
        return ExitCode::FAILURE;
    }
    let (payloads, seconds) = (run.payloads, begin.elapsed().as_secs_f64());
    println!("payloads, seed {seed}: {payloads} compared in {seconds:.0} s, no difference");
    let nothing = std::iter::once(Plan::plain(2, 0, 0));
    println!("{}", timing::line("nothing transmitted", nothing));
    let shapes = (0..Plan::SHAPES).map(Plan::random);
    println!("{}", timing::line("one of each shape", shapes));
    println!("{}", timing::line("longest", (0..8).map(longest)));
    ExitCode::SUCCESS
}
