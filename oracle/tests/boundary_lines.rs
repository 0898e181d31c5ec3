//! The lines of the program `boundary`, written once more from the reference: each line of
//! crates/boundary/stdout has to be what the published Rust answers to the same frame, or what the
//! scope says where the Rust has no such refusal, reading, desk, carrying or conversion.

mod lines;

use lines::desks::{conversions, desks};
use lines::{Lines, plan};
use oracle::generator::Plan;
use oracle::input::Slots;
use oracle::output::FrameOutput;
use oracle::scope::State;

/// 7 steps in one place, whose last scalefactor is `code`.
fn scalefactor(code: u32) -> Plan {
    let mut plan = plan(2, 1, 2, 0.25);
    plan.payload.steps[0][0] = 7;
    plan.payload.scalefactors[0][0][2] = code;
    plan
}

/// The longest head and payload at once: crosstalk on, with every place transmitted.
fn longest() -> Plan {
    let mut longest = Plan::longest();
    longest.head.crosstalk_on = true;
    longest.base = plan(2, 1, 2, 0.25).base;
    longest
}

/// Mono base, phantom centre, second stereo; 7 steps and the highest code in the first subbands. Its
/// ones begin with a byte: behind an odd number of scfsi codes and scalefactors four bits are 0.
fn phantom(reading: u32, subbands: usize) -> Plan {
    let mut plan = plan(1, 3, 3, 0.25);
    plan.reading = reading;
    plan.payload.steps[0][..subbands].fill(7);
    plan.payload.codes.fill([[[7; 3]; 32]; 3]);
    plan.payload.codes[0][0][0] = [[7, 7, 7], [0, 3, 7]][subbands % 2];
    plan
}

fn forbidden() -> Plan {
    let mut plan = plan(2, 1, 2, 0.25);
    plan.head.crosstalk_on = true;
    plan.head.codes[5] = 15;
    plan
}

fn layer_three() -> Plan {
    let mut plan = plan(2, 1, 2, 0.25);
    plan.head.layer_three = true;
    plan
}

fn lfe_scalefactor() -> Plan {
    let mut plan = plan(2, 1, 2, 0.25);
    plan.head.lfe = true;
    plan.payload.lfe_allocation = 1;
    plan.payload.lfe_scalefactor = 63;
    plan
}

fn barred(reading: u32) -> Plan {
    let mut plan = plan(2, 3, 2, 0.25);
    plan.reading = reading;
    plan.payload.steps[0][..13].fill(7);
    plan
}

/// 3 steps in one place, whose first group code is `code`.
fn group_code(code: u32) -> Plan {
    let mut plan = plan(2, 1, 2, 0.25);
    plan.payload.steps[0][0] = 3;
    plan.payload.codes[0][0][0][0] = code;
    plan
}

fn bits_equal(left: &[Slots], right: &[Slots]) -> bool {
    let bits = |channels: &[Slots]| -> Vec<u64> {
        let values = channels.iter().flatten().flatten();
        values.map(|value| value.to_bits()).collect()
    };
    bits(left) == bits(right)
}

fn strings(lines: &mut Lines) {
    let fresh = || State::fresh();
    let _ = lines.line("scalefactor 62", &scalefactor(62), &mut fresh());
    let _ = lines.line("scalefactor 63", &scalefactor(63), &mut fresh());
    let _ = lines.line("longest head and payload", &longest(), &mut fresh());
    let name = "one head bit fewer";
    let _ = lines.spoiled(name, &longest(), &mut fresh(), |input| input.head_bits -= 1);
    let name = "one payload bit fewer";
    let _ = lines.spoiled(name, &longest(), &mut fresh(), |input| {
        input.payload_bits -= 1
    });
}

fn layouts(lines: &mut Lines) {
    let state = &mut State::fresh();
    let _ = lines.line("3/1", &plan(2, 1, 1, 0.25), state);
    let _ = lines.line("then 2/2", &plan(2, 0, 2, 0.5), state);
    let _ = lines.line("then 3/2", &plan(2, 1, 2, 0.75), state);
}

/// What second left holds in all slots of a subband: +0, the base value or neither.
fn held(frame: &FrameOutput, base: &Slots, subband: usize) -> &'static str {
    let second = &frame.span.out_sub[1];
    let all = |wanted: &dyn Fn(usize) -> f64| {
        (0..36).all(|slot| second[slot][subband].to_bits() == wanted(slot).to_bits())
    };
    match () {
        _ if all(&|_| 0.0) => "+0",
        _ if all(&|slot| base[slot][subband]) => "base",
        _ => "transmitted",
    }
}

/// The line of an accepted frame that has second left, with what that holds.
fn second_left(lines: &mut Lines, name: &str, plan: &Plan) {
    let frame = lines.line(name, plan, &mut State::fresh()).unwrap();
    let mut subband = 0;
    let mut until = |what| {
        while subband < 32 && held(&frame, &plan.base.scaled[0], subband) == what {
            subband += 1;
        }
        subband
    };
    let [others, zeros, bases] = ["transmitted", "+0", "base"].map(&mut until);
    lines.add(&format!(
        "; second left transmitted below subband {others}, then +0 below {zeros}, then the base value below {bases}"
    ));
}

fn mono_bases(lines: &mut Lines) {
    let name = "mono base, phantom centre, second stereo";
    second_left(lines, name, &phantom(1, 12));
    let name = "the same with a step count in subband 12";
    let _ = lines.line(name, &phantom(1, 13), &mut State::fresh());
    surround(lines);
}

fn surround(lines: &mut Lines) {
    let name = "mono base, stereo surround";
    let plan = plan(1, 0, 2, 0.25);
    let frame = lines.line(name, &plan, &mut State::fresh()).unwrap();
    let out = frame.span.out_sub;
    assert_eq!(out.len(), 3);
    if bits_equal(&out[..1], &out[1..2]) {
        lines.add("; left surround equals left");
    }
    if bits_equal(&out[2..], &[vec![[0.0; 32]; 36]]) {
        lines.add(", right surround is +0");
    }
}

fn refusals(lines: &mut Lines) {
    let three_two = |left| plan(2, 1, 2, left);
    let mut state = State::fresh();
    let _ = lines.line("3/2", &three_two(0.125), &mut state);
    let state = || state.clone();
    let name = "head of no bits";
    let _ = lines.spoiled(name, &three_two(0.5), &mut state(), |input| {
        input.head_bits = 0
    });
    let _ = lines.line("crosstalk code 15 in group 5", &forbidden(), &mut state());
    let _ = lines.line("Layer III flag", &layer_three(), &mut state());
    let _ = lines.line("LFE scalefactor 63", &lfe_scalefactor(), &mut state());
    let _ = lines.line("3/1 after 3/2", &plan(2, 1, 1, 0.5), &mut state());
    let name = "24,000 Hz";
    let _ = lines.spoiled(name, &three_two(0.5), &mut state(), |input| {
        input.sample_rate = 24_000
    });
    let _ = lines.line("base value above 4", &three_two(2.876953125), &mut state());
    let _ = lines.line("step count in a barred subband", &barred(1), &mut state());
}

fn readings(lines: &mut Lines) {
    let mut state = State::fresh();
    let name = "centre code 2, reading 1";
    let _ = lines.line(name, &plan(2, 2, 0, 0.125), &mut state);
    let mut read = |name: &str, plan: Plan, reading: u32, head_bits: Option<u64>| {
        let _ = lines.spoiled(name, &plan, &mut state.clone(), |input| {
            input.reading = reading;
            input.head_bits = head_bits.unwrap_or(input.head_bits);
        });
    };
    let centre_2 = || plan(2, 2, 0, 0.5);
    let no_centre = || plan(2, 0, 0, 0.5);
    read("centre code 2, reading 2", centre_2(), 2, None);
    let name = "centre code 2 over one base channel, reading 2";
    read(name, plan(1, 2, 0, 0.5), 2, None);
    read("header alone, reading 1", centre_2(), 1, Some(16));
    read("header alone, reading 2", centre_2(), 2, Some(16));
    read("one header bit fewer, reading 2", centre_2(), 2, Some(15));
    read("no centre, reading 2", no_centre(), 2, None);
    read("reading 0", no_centre(), 0, None);
    read("reading 3", no_centre(), 3, None);
}

fn phantom_limits(lines: &mut Lines) {
    let name = "mono base, phantom centre, second stereo, step count in subband 12, reading 2";
    second_left(lines, name, &phantom(2, 13));
    let name = "step counts up to the subband limit, reading 2";
    second_left(lines, name, &phantom(2, 30));
    let name = "step count at the subband limit, reading 2";
    let _ = lines.line(name, &phantom(2, 31), &mut State::fresh());
    let name = "step count in a barred subband over two base channels, reading 2";
    let _ = lines.line(name, &barred(2), &mut State::fresh());
}

/// A layout's name, centre code and surround code.
type Named = (&'static str, u32, u32);

const THREE_ONE: Named = ("3/1", 1, 1);
const TWO_TWO: Named = ("2/2", 0, 2);
const THREE_TWO: Named = ("3/2", 1, 2);

/// The line of a frame under a reading; `then` goes before its name.
fn follow(lines: &mut Lines, then: &str, named: Named, reading: u32, left: f64, state: &mut State) {
    let (name, centre, surround) = named;
    let mut plan = plan(2, centre, surround, left);
    plan.reading = reading;
    let _ = lines.line(&format!("{then}{name}, reading {reading}"), &plan, state);
}

/// 3/1 and 2/2, of four channels each, under readings in turn, then carrying; `then` goes before the
/// first name.
fn chain(lines: &mut Lines, then: &str, state: &mut State) {
    follow(lines, then, THREE_ONE, 1, 0.25, state);
    for (named, reading, left) in [
        (TWO_TWO, 1, 0.5),
        (THREE_ONE, 2, 0.75),
        (TWO_TWO, 2, 0.125),
        (TWO_TWO, 1, 0.375),
        (TWO_TWO, 2, 0.625),
    ] {
        follow(lines, "then ", named, reading, left, state);
    }
    lines.carried("then carrying", state);
}

fn carryings(lines: &mut Lines) {
    let state = &mut State::fresh();
    chain(lines, "", state);
    follow(lines, "then ", THREE_TWO, 2, 0.875, state);
    chain(lines, "then ", state);
    follow(lines, "then ", TWO_TWO, 2, 0.875, state);
    lines.carried("fresh state, carrying", &mut State::fresh());
}

fn wrong_states(lines: &mut Lines) {
    for (name, count, layout) in [
        ("layout count 6", 6, 0),
        ("layout 34 of 4 channels", 4, 34),
        ("layout 31 of 5 channels", 5, 31),
    ] {
        let mut state = State::fresh();
        (state.count, state.layout) = (count, layout);
        let _ = lines.line(name, &plan(2, 1, 2, 0.5), &mut state);
        lines.carried(&format!("{name}, carrying"), &mut state);
    }
}

fn group_codes(lines: &mut Lines) {
    for code in [26, 27, 31] {
        let name = format!("group code {code} of 3 steps");
        let _ = lines.line(&name, &group_code(code), &mut State::fresh());
    }
}

#[test]
fn each_line_is_what_the_published_rust_answers() {
    let mut lines = Lines::default();
    strings(&mut lines);
    layouts(&mut lines);
    mono_bases(&mut lines);
    refusals(&mut lines);
    readings(&mut lines);
    phantom_limits(&mut lines);
    carryings(&mut lines);
    wrong_states(&mut lines);
    desks(&mut lines);
    conversions(&mut lines);
    group_codes(&mut lines);
    let expected = include_str!("../../crates/boundary/stdout");
    let expected: Vec<&str> = expected.lines().collect();
    assert_eq!(lines.0, expected);
}
