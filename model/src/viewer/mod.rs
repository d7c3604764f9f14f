//! The viewer's own end (request 2026-04), the other half of the protocol: [`writer`] writes
//! commands from parts, [`cut`] cuts requests into packets, [`gathering`] puts replies together and
//! [`reply`] takes them apart. [`mod@bench`] is the line protocol of the program `viewer_bench`.

pub mod bench;
pub mod gathering;
pub mod line;
pub mod reply;
pub mod writer;

use crate::key::Refusal;
use crate::packet::{self, Channel, LONGEST, PACKET};

/// Cuts a request into its packets.
pub fn cut(
    channel: Channel,
    command: u8,
    request: &[u8],
) -> Result<impl Iterator<Item = [u8; PACKET]> + '_, Refusal> {
    if request.len() > LONGEST {
        return Err(Refusal::TooLong);
    }
    Ok(packet::cut(channel, command, request))
}

#[cfg(test)]
mod tests {
    use super::*;
    use crate::packet::CBOR;

    #[test]
    fn requests_and_packets() {
        let request: Vec<u8> = (0..=LONGEST).map(|n| n as u8).collect();
        for (length, packets) in [(0, 1), (57, 1), (58, 2), (116, 2), (117, 3), (7_609, 129)] {
            let cut = cut(Channel(7), CBOR, &request[..length]).expect("a request");
            assert_eq!(cut.count(), packets, "{length} bytes");
        }
        let too_long = cut(Channel(7), CBOR, &request[..7_610]);
        assert_eq!(too_long.err(), Some(Refusal::TooLong));
    }
}
