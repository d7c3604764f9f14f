//! Where a message is wrong (request 2026-09): the program and the model against places that come
//! from neither. Sound commands and items are written with the place of each item noted, a fault is
//! put at one of them, and it has to be found there.

mod common;

use common::{agree, hex};
use model::bench::Bench;
use model::packet::LONGEST;
use model::trial::breaches::{self, sound, Sound};
use model::trial::cases::Cases;
use model::trial::commands::{self, Command, GET_INFO};
use model::trial::faults::{self, Fault};
use model::trial::item;
use model::trial::random::Random;
use model::trial::run::seed_or;
use model::trial::tree::{Spot, Tree, Written, MAP};

/// Lines for each rule, at least.
const LINES: usize = 3_000;
/// How many items of one message are tried, at most.
const SPOTS: usize = 6;

/// Lines with the answers they have to get, and the furthest place among them.
#[derive(Default)]
struct Places {
    cases: Cases,
    furthest: usize,
}

impl Places {
    fn push(&mut self, words: &str, bytes: &[u8], answer: String) {
        let line = format!("{words} {}", hex(bytes));
        self.cases.push(line.trim_end().to_string(), answer);
    }

    /// Expects a fault. A command that its fault has made too long is left out.
    fn fault(&mut self, words: &str, bytes: &[u8], status: u8, place: usize) {
        if words != "check" || bytes.len() <= LONGEST {
            self.furthest = self.furthest.max(place);
            self.push(words, bytes, format!("status {status:02x} at {place}"));
        }
    }

    /// The model answers as expected, and the program as the model.
    fn hold(self) {
        assert_eq!(self.cases.wrong_answer::<Bench>(), None);
        agree(self.cases.lines);
    }

    /// The same, and the places go as far as the longest messages.
    fn hold_far(self) {
        assert!(self.furthest > 7_000, "only up to {}", self.furthest);
        self.hold();
    }
}

/// Cases of a rule, made one after another until there are enough lines. Each rule has a number, so
/// that no two have the same random numbers.
fn cases(rule: u64, lines: usize, mut more: impl FnMut(&mut Random, &mut Places)) -> Places {
    let mut random = Random::new(seed_or(0).wrapping_add(rule));
    let mut cases = Places::default();
    while cases.cases.lines.len() < lines {
        more(&mut random, &mut cases);
    }
    cases
}

#[test]
fn what_is_sound_is_taken() {
    let cases = cases(1, LINES, |random, cases| {
        let command = commands::good(random);
        let hash = faults::way_to_hash(&command).expect("a good command has a hash");
        let written = Sound::check(command.clone()).written;
        let at = written.spot(&hash).end - 32;
        cases.push("check", &written.bytes, format!("good hash {at}"));
        let item = Tree::Map(command.entries).encoded();
        let answer = format!("item {}", item.len());
        cases.push("item 4", &[item, random.bytes(2)].concat(), answer);
    });
    cases.hold();
}

/// Puts a breach of this class at one item of a message, then at another instead, and so on.
fn breach_somewhere(
    random: &mut Random,
    cases: &mut Places,
    sound: &Sound,
    plant: breaches::Plant,
) {
    let Written { bytes, spots } = &sound.written;
    for _ in 0..SPOTS.min(spots.len()) {
        let spot = &spots[random.below(spots.len())];
        if let Some((faulty, place)) = plant(random, sound, bytes, spot) {
            cases.fault(&sound.words, &faulty, 0x12, place);
        }
    }
}

/// One breach of this class in each line.
fn one_breach(rule: u64, plant: breaches::Plant) -> Places {
    cases(rule, LINES, |random, cases| {
        let sound = sound(random);
        breach_somewhere(random, cases, &sound, plant);
    })
}

#[test]
fn a_bad_head_is_at_its_item() {
    one_breach(2, breaches::bad_head).hold_far();
}

#[test]
fn bad_text_is_at_its_item() {
    one_breach(3, breaches::bad_text).hold_far();
}

#[test]
fn content_cut_short_is_at_its_item() {
    one_breach(4, breaches::cut_short).hold_far();
}

#[test]
fn a_head_cut_off_or_a_missing_item_is_where_the_item_begins() {
    one_breach(5, breaches::cut_off).hold_far();
}

#[test]
fn a_key_of_another_kind_is_at_the_key() {
    one_breach(6, breaches::key_of_another_kind).hold_far();
}

#[test]
fn a_level_too_many_is_at_the_item_of_that_level() {
    one_breach(7, breaches::level_too_many).hold_far();
}

#[test]
fn a_breach_of_order_is_at_the_later_key() {
    one_breach(8, breaches::order).hold_far();
}

/// Where bytes that are cut to this length are wrong: at the item that is cut, or at their length,
/// where the next item is missing.
fn place_of_cut(spots: &[Spot], length: usize) -> usize {
    let is_cut = |spot: &&Spot| spot.place < length && length < spot.own_end;
    let cut = spots.iter().find(is_cut);
    cut.map_or(length, |spot| spot.place)
}

#[test]
fn a_message_cut_anywhere_is_wrong_at_the_item_cut_or_at_its_length() {
    let cases = cases(9, 10 * LINES, |random, cases| {
        let Sound { words, written, .. } = sound(random);
        let Written { bytes, spots } = written;
        let mut lengths: Vec<usize> = (1..bytes.len()).collect();
        if lengths.len() > 500 {
            // Not all of a long message's lengths, but some at the ends of its items.
            let mut near_an_end = || {
                let spot = &spots[random.below(spots.len())];
                random.pick(&[spot.place, spot.place + 1, spot.own_end - 1, spot.own_end])
            };
            lengths = (0..50).map(|_| near_an_end()).collect();
            lengths.retain(|length| (1..bytes.len()).contains(length));
        }
        for length in lengths {
            let place = place_of_cut(&spots, length);
            cases.fault(&words, &bytes[..length], 0x12, place);
        }
    });
    cases.hold_far();
}

#[test]
fn bytes_after_the_map_are_at_the_first_of_them() {
    let cases = cases(10, LINES, |random, cases| {
        let mut bytes = Sound::check(commands::good(random)).written.bytes;
        let (place, more) = (bytes.len(), 1 + random.below(9));
        bytes.extend_from_slice(&random.bytes(more));
        cases.fault("check", &bytes, 0x12, place);
    });
    cases.hold_far();
}

#[test]
fn an_outer_item_that_is_not_a_map_is_at_1() {
    let cases = cases(11, LINES, |random, cases| {
        let outer = if random.once_in(2) {
            faults::of_another_kind(random, &[MAP])
        } else {
            Tree::Array(vec![item::canonical(random, 1), item::breach(random)])
        };
        let bytes = [vec![1 + random.below(2) as u8], outer.encoded()].concat();
        cases.fault("check", &bytes, 0x12, 1);
    });
    cases.hold();
}

#[test]
fn of_two_breaches_the_first_counts() {
    let cases = cases(12, LINES, |random, cases| {
        let sound = sound(random);
        let Written { bytes, spots } = &sound.written;
        for _ in 0..SPOTS {
            let mut any = || &spots[random.below(spots.len())];
            let (one, other) = (any(), any());
            if one.end > other.place {
                continue;
            }
            let Some((mut faulty, _)) = breaches::any(random, &sound, bytes, other) else {
                continue;
            };
            if random.once_in(4) {
                faulty.extend_from_slice(b"\x00\xFF");
            }
            if let Some((faulty, place)) = breaches::any(random, &sound, &faulty, one) {
                cases.fault(&sound.words, &faulty, 0x12, place);
            }
        }
    });
    cases.hold_far();
}

/// Expects this fault of a command.
fn expect(cases: &mut Places, command: Command, fault: &Fault) {
    let written = Sound::check(command).written;
    let place = written.spot(&fault.path).place;
    cases.fault("check", &written.bytes, fault.status, place);
}

/// One fault of this class in each line.
fn one_fault(rule: u64, plant: faults::Plant) -> Places {
    cases(rule, LINES, |random, cases| {
        let mut command = commands::good(random);
        if let Some(fault) = plant(random, &mut command) {
            expect(cases, command, &fault);
        }
    })
}

#[test]
fn a_wrong_kind_is_at_the_value() {
    one_fault(13, faults::wrong_kind).hold_far();
}

#[test]
fn a_hash_of_another_length_is_at_the_value() {
    one_fault(14, faults::wrong_length).hold_far();
}

#[test]
fn an_entry_that_is_not_a_map_is_at_the_entry() {
    one_fault(15, faults::entry_not_a_map).hold_far();
}

#[test]
fn an_absent_alg_or_type_is_at_the_entry() {
    one_fault(16, faults::absent_from_entry).hold_far();
}

#[test]
fn an_alg_or_type_of_a_wrong_kind_is_at_its_value() {
    one_fault(17, faults::wrong_kind_in_entry).hold_far();
}

#[test]
fn an_absent_required_key_is_at_1() {
    one_fault(18, faults::absent_key).hold();
}

#[test]
fn no_algorithm_that_the_key_has_is_at_key_4s_array() {
    one_fault(19, faults::unsupported).hold_far();
}

/// A command with several faults of its parameters, and the one that counts: the first of the
/// values, then an absent key, then key 4.
fn several_faults(random: &mut Random) -> Option<(Command, Fault)> {
    let mut command = commands::good(random);
    let mut last = None;
    if random.once_in(2) {
        last = faults::unsupported(random, &mut command);
    }
    if random.once_in(2) {
        last = faults::absent_key(random, &mut command);
    }
    let mut any = || random.pick(&faults::OF_VALUES)(random, &mut command);
    let (one, other) = (any(), any());
    let first = match (one, other) {
        (Some(one), Some(other)) => {
            // Of two faults in one value or in one entry, the second may have put an end to the first.
            let parts = one.path.len().min(other.path.len()).min(2);
            if one.path[..parts] == other.path[..parts] {
                return None;
            }
            Some(if one.path < other.path { one } else { other })
        }
        (one, other) => one.or(other),
    };
    Some((command, first.or(last)?))
}

#[test]
fn the_first_fault_of_the_values_comes_before_an_absent_key_and_that_before_key_4() {
    let cases = cases(20, LINES, |random, cases| {
        if let Some((command, fault)) = several_faults(random) {
            expect(cases, command, &fault);
        }
    });
    cases.hold_far();
}

#[test]
fn a_breach_comes_before_every_fault_of_the_parameters() {
    let cases = cases(21, LINES, |random, cases| {
        if let Some((command, _)) = several_faults(random) {
            breach_somewhere(random, cases, &Sound::check(command), breaches::any);
        }
    });
    cases.hold_far();
}

#[test]
fn a_wrong_size_or_command_is_at_0_and_what_follows_get_info_at_1() {
    let cases = cases(22, LINES, |random, cases| {
        let mut bytes = Sound::check(commands::good(random)).written.bytes;
        bytes[0] = GET_INFO;
        cases.fault("check", &bytes, 0x03, 1);
        bytes[0] = random.pick(&[0x00, 0x03, 0x05, 0x81, 0xFF]);
        cases.fault("check", &bytes, 0x01, 0);
        cases.fault("check", &bytes[..1], 0x01, 0);
        cases.fault("check", &[], 0x03, 0);
    });
    cases.hold();
}

#[test]
fn a_message_that_is_too_long_is_at_0() {
    let mut cases = Places::default();
    let mut random = Random::new(23);
    for size in [LONGEST + 1, LONGEST + 2, 8_192, 9_000] {
        for command in [0x00, 0x01, 0x02, GET_INFO, 0xFF] {
            let mut bytes = Sound::check(commands::good(&mut random)).written.bytes;
            bytes[0] = command;
            bytes.resize(size, 0);
            cases.push("check", &bytes, "status 03 at 0".to_string());
        }
    }
    cases.hold();
}
