//! Random APDUs: good ones, and ones with faults. What each has to get is known from how it is
//! written, so that the model's own answer can be tried too.

use super::random::Random;
use super::LENGTHS;

/// Bytes before the data. What has fewer is no APDU.
pub const HEADER: usize = 7;

const CLASS: usize = 0;
const INSTRUCTION: usize = 1;
const FIFTH: usize = 4;

/// An APDU as it is written.
#[derive(Clone, Debug)]
pub struct Apdu {
    /// Class, instruction, two parameters and the fifth byte.
    pub header: [u8; 5],
    /// What the two length bytes say.
    pub length: u16,
    /// The data, and the reply length where there is one.
    pub rest: Vec<u8>,
}

impl Apdu {
    pub fn written(&self) -> Vec<u8> {
        [&self.header[..], &self.length.to_be_bytes(), &self.rest].concat()
    }
}

/// A good APDU, with a reply length or without.
pub fn good(random: &mut Random) -> Apdu {
    let reply_length = random.pick(&[0, 2]);
    let least = HEADER + reply_length;
    let size = match random.below(4) {
        0 | 1 => least + random.below(10),
        2 => least + random.below(300),
        _ => least.max(random.pick(&LENGTHS)),
    };
    good_of(random, size, reply_length)
}

/// A good APDU of `size` bytes, of which 2 or 0 are a reply length.
pub fn good_of(random: &mut Random, size: usize, reply_length: usize) -> Apdu {
    let rest = random.bytes(size - HEADER);
    let [one, other] = (random.number() as u16).to_be_bytes();
    Apdu {
        header: [0, random.pick(&[1, 2, 3]), one, other, 0],
        length: (rest.len() - reply_length) as u16,
        rest,
    }
}

/// Puts a fault of one kind into an APDU, whose size stays.
pub type Plant = fn(&mut Random, &mut Apdu);

/// The faults and what each gets, in the order in which they are looked for.
pub const FAULTS: [(Plant, u16); 4] = [
    (wrong_class, 0x6E00),
    (wrong_instruction, 0x6D00),
    (wrong_fifth_byte, 0x6700),
    (wrong_length, 0x6700),
];

/// Any APDU, in about half of the cases a good one, at times one of under seven bytes.
pub fn any(random: &mut Random) -> Vec<u8> {
    let mut apdu = good(random);
    match random.below(4) {
        0 => random.pick(&FAULTS).0(random, &mut apdu),
        1 => {
            for (plant, _) in FAULTS {
                if random.once_in(2) {
                    plant(random, &mut apdu);
                }
            }
        }
        _ => {}
    }
    let mut bytes = apdu.written();
    if random.once_in(10) {
        bytes.truncate(random.below(HEADER));
    }
    bytes
}

fn wrong_class(random: &mut Random, apdu: &mut Apdu) {
    let any = 1 + random.below(255) as u8;
    apdu.header[CLASS] = random.pick(&[1, 0x80, 0xFF, any]);
}

fn wrong_instruction(random: &mut Random, apdu: &mut Apdu) {
    let any = 4 + random.below(252) as u8;
    apdu.header[INSTRUCTION] = random.pick(&[0, 4, 0x81, 0xFF, any]);
}

fn wrong_fifth_byte(random: &mut Random, apdu: &mut Apdu) {
    let any = 1 + random.below(255) as u8;
    apdu.header[FIFTH] = random.pick(&[1, 0x80, 0xFF, any]);
}

/// The length bytes say neither as many bytes as follow them nor two fewer: they come close, are
/// the other way round, or would do if a sum were kept in 16 bits.
fn wrong_length(random: &mut Random, apdu: &mut Apdu) {
    let follow = apdu.rest.len();
    loop {
        let few = random.pick(&[1, 1, 2, 3, 3, 4, 7, 9]);
        let (fewer, more) = (follow.wrapping_sub(few), follow + few);
        let near = random.pick(&[fewer, fewer, more]) as u16;
        let (turned, any) = ((follow as u16).swap_bytes(), random.number() as u16);
        let wrapped = (follow as u16).wrapping_sub(2);
        let length = random.pick(&[near, near, near, turned, any, wrapped]);
        let said = usize::from(length);
        if follow != said && follow != said + 2 {
            apdu.length = length;
            return;
        }
    }
}
