//! Lists of calls made at random, mostly to the point: a bay goes along and says what would be.

use second_bay::bay::{Bay, Held};
use second_bay::play::{Call, RECORD_BYTES, answer};
use second_bay::sheet::{Input, Kind, Row};

use super::random::Random;

/// A sheet and the domain that it is offered in.
#[derive(Clone)]
pub struct Offered {
    pub domain: u32,
    pub bytes: Vec<u8>,
}

/// A list of calls, and room for how many answers.
pub struct List {
    pub bytes: Vec<u8>,
    pub capacity: usize,
}

/// A list of some tens of calls over a few sheets; now and then one that breaks off, or with little room.
pub fn random_list(random: &mut Random, sheets: &[&Offered]) -> List {
    let count = 10 + random.below(70);
    let mut bay = Bay::default();
    let mut bytes = Vec::new();
    for _ in 0..count {
        let call = random_call(random, &bay, sheets);
        call.write([random.byte(), random.byte()], &mut bytes);
        answer(&mut bay, call);
    }
    let mut capacity = count + random.below(3);
    match random.below(20) {
        0 => bytes.truncate(random.below(bytes.len() + 1)),
        1 => capacity = random.below(count + 1),
        2 => break_off(random, &mut bytes),
        _ => {}
    }
    List { bytes, capacity }
}

/// Adds a record that is no call, with a call behind it.
fn break_off(random: &mut Random, bytes: &mut Vec<u8>) {
    bytes.push(6 + random.below(250) as u8);
    bytes.extend([0; RECORD_BYTES - 1]);
    Call::Show { variable: 0 }.write([0; 2], bytes);
}

fn random_call<'a>(random: &mut Random, bay: &Bay, sheets: &[&'a Offered]) -> Call<'a> {
    // Of a hundred: offer, start, set, step, stop; the rest is show.
    let weights = match bay.held() {
        None => [60, 8, 8, 8, 8],
        Some(held) if held.running => [4, 3, 9, 70, 3],
        Some(_) => [20, 45, 12, 6, 5],
    };
    let mut roll = random.below(100);
    for (kind, weight) in weights.into_iter().enumerate() {
        if roll < weight {
            return match kind {
                0 => random_offer(random, sheets),
                1 => Call::Start,
                2 => random_set(random, bay.held()),
                3 => random_step(random, bay.held()),
                _ => Call::Stop,
            };
        }
        roll -= weight;
    }
    random_show(random, bay.held())
}

fn random_offer<'a>(random: &mut Random, sheets: &[&'a Offered]) -> Call<'a> {
    let offered = random.pick(sheets);
    let domain = match random.below(100) {
        0..88 => offered.domain as u8,
        88..97 => random.below(11) as u8,
        _ => random.pick(&[11, 12, 128, 255]),
    };
    Call::Offer { domain, sheet: &offered.bytes }
}

/// An integer of the input's set, often an end; now and then one beside it.
fn random_value(random: &mut Random, input: &Input) -> i32 {
    match random.below(10) {
        0 => input.lo,
        1 => input.hi,
        2 => input.lo.wrapping_sub(1),
        3 => input.hi.wrapping_add(1),
        _ => random.between(input.lo, input.hi),
    }
}

fn random_set(random: &mut Random, held: Option<&Held>) -> Call<'static> {
    let inputs = held.map_or(&[][..], |held| &held.inputs);
    let settings: Vec<usize> =
        (0..inputs.len()).filter(|&input| inputs[input].kind == Kind::Setting).collect();
    if !settings.is_empty() && random.chance(75) {
        let input = random.pick(&settings);
        return Call::Set { input: input as u32, value: random_value(random, &inputs[input]) };
    }
    let input = random.pick(&[0, 1, 2, 7, 8, 255, 256, 1 << 16, u32::MAX]);
    Call::Set { input, value: random.integer() }
}

fn random_step(random: &mut Random, held: Option<&Held>) -> Call<'static> {
    let taken = held.and_then(|held| match held.rows[held.place] {
        Row::Take { input, .. } => Some(held.inputs[usize::from(input)]),
        _ => None,
    });
    let reading = match taken {
        Some(input) if random.chance(90) => random_value(random, &input),
        _ => random.integer(),
    };
    Call::Step { reading }
}

fn random_show(random: &mut Random, held: Option<&Held>) -> Call<'static> {
    let variable = match held {
        Some(held) if random.chance(85) => random.below(held.variables) as u32,
        Some(held) if random.chance(50) => held.variables as u32,
        _ => random.pick(&[0, 1, 15, 16, 17, 255, 256, 1 << 16, u32::MAX]),
    };
    Call::Show { variable }
}
