//! Random text: good text, which is UTF-8, and bad text, which RFC 3629 rules out.

use super::random::Random;

/// The first and the last character of each row of RFC 3629's table of sequences.
pub const ROW_ENDS: [char; 18] = [
    '\0',
    '\u{7F}',
    '\u{80}',
    '\u{7FF}',
    '\u{800}',
    '\u{FFF}',
    '\u{1000}',
    '\u{CFFF}',
    '\u{D000}',
    '\u{D7FF}',
    '\u{E000}',
    '\u{FFFF}',
    '\u{10000}',
    '\u{3FFFF}',
    '\u{40000}',
    '\u{FFFFF}',
    '\u{100000}',
    '\u{10FFFF}',
];

/// Good text of this many bytes: letters, and few or many other characters between them. Runs of
/// letters are of any length, so that another character comes at every place of the eight or
/// sixteen bytes that a reader may take at a time.
pub fn good(random: &mut Random, length: usize) -> String {
    let rarity = random.pick(&[1, 8, 40]);
    let mut text = String::with_capacity(length);
    while text.len() < length {
        let next = if random.once_in(rarity) {
            character(random)
        } else {
            letter(random)
        };
        if text.len() + next.len_utf8() <= length {
            text.push(next);
        }
    }
    text
}

/// Bad text: a fault at the start, in the middle or at the end of good text.
pub fn bad(random: &mut Random) -> Vec<u8> {
    let before = around_a_fault(random);
    let fault = fault(random);
    let after = around_a_fault(random);
    [before, fault, after].concat()
}

/// Text that ends inside a character, and the bytes which that character misses.
pub fn cut(random: &mut Random) -> (Vec<u8>, Vec<u8>) {
    let mut text = around_a_fault(random);
    let (begun, missing) = cut_character(random);
    text.extend_from_slice(&begun);
    (text, missing)
}

fn letter(random: &mut Random) -> char {
    char::from(b'a' + random.below(26) as u8)
}

/// A character of one to four bytes, often one at the end of a row.
fn character(random: &mut Random) -> char {
    if random.once_in(2) {
        return random.pick(&ROW_ENDS);
    }
    let limit = random.pick(&[0x80, 0x800, 0x1_0000, 0x11_0000]);
    // The surrogates are no characters.
    char::from_u32(random.below(limit) as u32).unwrap_or('€')
}

/// A character of two to four bytes, in two parts.
fn cut_character(random: &mut Random) -> (Vec<u8>, Vec<u8>) {
    loop {
        let bytes = character(random).to_string().into_bytes();
        if bytes.len() > 1 {
            let (begun, missing) = bytes.split_at(1 + random.below(bytes.len() - 1));
            return (begun.to_vec(), missing.to_vec());
        }
    }
}

/// The good text on one side of a fault, often none.
fn around_a_fault(random: &mut Random) -> Vec<u8> {
    let length = match random.below(8) {
        0..=2 => 0,
        3 => random.below(300),
        _ => random.below(40),
    };
    good(random, length).into_bytes()
}

/// Bytes that are no part of any text, whatever good text stands around them.
fn fault(random: &mut Random) -> Vec<u8> {
    match random.below(5) {
        // an overlong form
        0 => {
            let (length, limit) = random.pick(&[(2, 0x80), (3, 0x800), (4, 0x1_0000)]);
            sequence(length, within(random, 0, limit))
        }
        // a surrogate
        1 => sequence(3, within(random, 0xD800, 0xE000)),
        // above 10FFFF
        2 => sequence(4, within(random, 0x11_0000, 0x20_0000)),
        // a byte that begins no character
        3 => {
            let (first, limit) = random.pick(&[(0x80, 0xC0), (0xC0, 0xC2), (0xF5, 0x100)]);
            vec![within(random, first, limit) as u8]
        }
        // a character that is not ended, often before a byte next to those that would go on with it
        _ => {
            let (mut begun, _) = cut_character(random);
            begun.extend_from_slice(random.pick(&[&[][..], &[0x7F], &[0xC0]]));
            begun
        }
    }
}

/// A number from `first` on and below `limit`, often the first or the last.
fn within(random: &mut Random, first: u32, limit: u32) -> u32 {
    let any = first + random.below((limit - first) as usize) as u32;
    random.pick(&[first, limit - 1, any])
}

/// The sequence of two to four bytes that would stand for this number.
fn sequence(length: u32, number: u32) -> Vec<u8> {
    let bits = |place: u32| (number >> (6 * place)) as u8;
    let first = 0xF0 << (4 - length) | bits(length - 1);
    let tails = (0..length - 1).rev().map(|place| 0x80 | bits(place) & 0x3F);
    [first].into_iter().chain(tails).collect()
}

#[cfg(test)]
mod tests {
    use super::*;

    #[test]
    fn only_bad_text_is_bad() {
        let mut random = Random::new(1);
        for length in 0..1_000 {
            assert_eq!(good(&mut random, length).len(), length);
            assert!(String::from_utf8(bad(&mut random)).is_err());
            let (text, missing) = cut(&mut random);
            assert!(String::from_utf8(text.clone()).is_err());
            assert!(String::from_utf8([text, missing].concat()).is_ok());
        }
    }

    #[test]
    fn sequences() {
        assert_eq!(sequence(2, 0), [0xC0, 0x80]);
        assert_eq!(sequence(3, 0xD800), [0xED, 0xA0, 0x80]);
        assert_eq!(sequence(4, 0x10_FFFF), "\u{10FFFF}".as_bytes());
        assert_eq!(sequence(4, 0x11_0000), [0xF4, 0x90, 0x80, 0x80]);
    }
}
