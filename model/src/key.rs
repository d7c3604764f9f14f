//! The key: its state and the four calls (document 01, "What an opening packet gets" and "When a
//! call is turned away"; request 2026-01 for MSG).

use crate::apdu;
use crate::command::{self, Status};
use crate::packet::{
    self, Channel, Continuation, ErrorCode, Opening, Packet, BROADCAST, CANCEL, CBOR, ERROR, INIT,
    LONGEST, MSG, PACKET, PING,
};

/// Channels are given as 1, 2, 3 and on, at most this many: the next number is broadcast.
pub const MOST_CHANNELS: u32 = 4_294_967_294;
/// Gathering has this many milliseconds from its opening.
pub const GATHERING_TIME: u32 = 3_000;

/// Bytes in an INIT request, all of them nonce.
const NONCE: usize = 8;
/// What an INIT reply ends with: protocol 2, device 1.0.0, flags CBOR and MSG.
const VERSIONS_AND_FLAGS: [u8; 5] = [0x02, 0x01, 0x00, 0x00, 0x04];

/// The number of a request that went to the core.
#[derive(Clone, Copy, Debug, PartialEq, Eq)]
pub struct Ticket(pub u32);

/// A message on its way in or a reply on its way out, and the channel that holds the key for it.
#[derive(Clone, Copy, Debug, PartialEq, Eq)]
pub struct Message {
    pub holder: Channel,
    pub command: u8,
    pub length: u16,
}

/// What the key is busy with.
#[derive(Clone, Copy, Debug, Default, PartialEq, Eq)]
pub enum Transaction {
    #[default]
    Idle,
    /// `done` packets of the message are here; `left` milliseconds remain for the others.
    Gathering {
        message: Message,
        done: u16,
        left: u32,
    },
    /// The core has the message.
    Waiting { message: Message },
    /// `done` packets of the reply are fetched.
    Answering { message: Message, done: u16 },
}

impl Transaction {
    /// The message or reply of a transaction; none with an idle key.
    pub fn message(&self) -> Option<&Message> {
        match self {
            Transaction::Idle => None,
            Transaction::Gathering { message, .. }
            | Transaction::Waiting { message }
            | Transaction::Answering { message, .. } => Some(message),
        }
    }
}

/// What a call that is not turned away tells its caller.
#[derive(Clone, Copy, Debug, PartialEq, Eq)]
pub enum Answer {
    /// No reply packet is written.
    Silent,
    /// The first 64 bytes of the reply buffer are a packet to send.
    Reply,
    /// The message is for the core, under this ticket.
    Request(Ticket),
}

/// Why a call is turned away; each has its number in document 01, and the last in request 2026-04.
#[derive(Clone, Copy, Debug, PartialEq, Eq)]
#[repr(u8)]
pub enum Refusal {
    Packet = 1,
    ReplyBuffer = 2,
    MessageBuffer = 3,
    Phase = 4,
    Ticket = 5,
    Delivery = 6,
    State = 7,
    TooLong = 8,
}

impl Refusal {
    pub fn number(self) -> u8 {
        self as u8
    }
}

/// The key's state. The fields are open to whoever keeps it; a call on a state that is out of
/// order is turned away.
#[derive(Clone, Copy, Debug, PartialEq, Eq)]
pub struct Key {
    /// How many channels are given.
    pub channels: u32,
    /// The last ticket given.
    pub ticket: Ticket,
    pub transaction: Transaction,
}

impl Default for Key {
    /// A fresh key: no channels, no transaction, last ticket 0.
    fn default() -> Self {
        Key {
            channels: 0,
            ticket: Ticket(0),
            transaction: Transaction::Idle,
        }
    }
}

impl Key {
    /// Whether the state is in order, which is the opposite of refusal 7.
    pub fn is_in_order(&self) -> bool {
        if self.channels > MOST_CHANNELS {
            return false;
        }
        let Some(message) = self.transaction.message() else {
            return true;
        };
        let length = usize::from(message.length);
        if !self.is_given(message.holder) || length > LONGEST {
            return false;
        }
        let needed = packet::packets_needed(length);
        match self.transaction {
            Transaction::Idle => true,
            Transaction::Gathering { done, left, .. } => {
                opens_transaction(message.command)
                    && (1..needed).contains(&usize::from(done))
                    && (1..=GATHERING_TIME).contains(&left)
            }
            Transaction::Waiting { .. } => goes_to_core(message.command),
            Transaction::Answering { done, .. } => {
                opens_transaction(message.command) && usize::from(done) < needed
            }
        }
    }

    /// A packet from the host.
    pub fn packet(
        &mut self,
        packet: &[u8],
        reply: &mut [u8],
        buffer: &mut [u8],
    ) -> Result<Answer, Refusal> {
        self.turn_away_out_of_order()?;
        let packet = packet.try_into().map_err(|_| Refusal::Packet)?;
        let reply = reply.first_chunk_mut().ok_or(Refusal::ReplyBuffer)?;
        let buffer = buffer.first_chunk_mut().ok_or(Refusal::MessageBuffer)?;
        Ok(match Packet::read(packet) {
            Packet::Opening(opening) => self.opening(opening, reply, buffer),
            Packet::Continuation(next) => self.continuation(next, reply, buffer),
        })
    }

    /// A time step of this many milliseconds.
    pub fn time_step(&mut self, elapsed: u32, reply: &mut [u8]) -> Result<Answer, Refusal> {
        self.turn_away_out_of_order()?;
        let reply = reply.first_chunk_mut().ok_or(Refusal::ReplyBuffer)?;
        let Transaction::Gathering { message, left, .. } = &mut self.transaction else {
            return Ok(Answer::Silent);
        };
        if elapsed < *left {
            *left -= elapsed;
            return Ok(Answer::Silent);
        }
        let holder = message.holder;
        self.transaction = Transaction::Idle;
        Ok(error(reply, holder, ErrorCode::Timeout))
    }

    /// The core's reply to the request of this ticket.
    pub fn deliver(
        &mut self,
        ticket: Ticket,
        bytes: &[u8],
        buffer: &mut [u8],
    ) -> Result<Answer, Refusal> {
        self.turn_away_out_of_order()?;
        let buffer: &mut [u8; LONGEST] = buffer.first_chunk_mut().ok_or(Refusal::MessageBuffer)?;
        let Transaction::Waiting { message } = self.transaction else {
            return Err(Refusal::Phase);
        };
        if ticket != self.ticket {
            return Err(Refusal::Ticket);
        }
        if !(shortest_delivery(message.command)..=LONGEST).contains(&bytes.len()) {
            return Err(Refusal::Delivery);
        }
        self.transaction = answering_with(message, bytes, buffer);
        Ok(Answer::Silent)
    }

    /// Writes the next reply packet; after the last the key is idle.
    pub fn fetch(&mut self, reply: &mut [u8], buffer: &[u8]) -> Result<Answer, Refusal> {
        self.turn_away_out_of_order()?;
        let reply = reply.first_chunk_mut().ok_or(Refusal::ReplyBuffer)?;
        let buffer: &[u8; LONGEST] = buffer.first_chunk().ok_or(Refusal::MessageBuffer)?;
        let Transaction::Answering { message, done } = &mut self.transaction else {
            return Err(Refusal::Phase);
        };
        let whole = &buffer[..usize::from(message.length)];
        let index = usize::from(*done);
        packet::write(reply, message.holder, message.command, whole, index);
        *done += 1;
        if usize::from(*done) == packet::packets_needed(whole.len()) {
            self.transaction = Transaction::Idle;
        }
        Ok(Answer::Reply)
    }

    fn turn_away_out_of_order(&self) -> Result<(), Refusal> {
        if self.is_in_order() {
            Ok(())
        } else {
            Err(Refusal::State)
        }
    }

    /// Channel 0 and numbers not yet given are unknown.
    fn is_given(&self, channel: Channel) -> bool {
        (1..=self.channels).contains(&channel.0)
    }

    /// The table of opening packets, row by row.
    fn opening(
        &mut self,
        opening: Opening,
        reply: &mut [u8; PACKET],
        buffer: &mut [u8; LONGEST],
    ) -> Answer {
        let Opening {
            channel,
            command,
            length,
            payload,
        } = opening;
        if channel == BROADCAST {
            return self.broadcast(opening, reply);
        }
        if !self.is_given(channel) {
            return error(reply, channel, ErrorCode::InvalidChannel);
        }
        if command == CANCEL {
            return self.cancel(channel, buffer);
        }
        if self.is_held_by_another(channel) {
            return error(reply, channel, ErrorCode::Busy);
        }
        if command == INIT && usize::from(length) != NONCE {
            return error(reply, channel, ErrorCode::InvalidLength);
        }
        if command == INIT {
            self.transaction = Transaction::Idle;
            return init_reply(reply, channel, payload, channel);
        }
        match self.transaction {
            Transaction::Gathering { .. } => {
                self.transaction = Transaction::Idle;
                return error(reply, channel, ErrorCode::InvalidSequence);
            }
            Transaction::Waiting { .. } | Transaction::Answering { .. } => {
                return error(reply, channel, ErrorCode::Busy);
            }
            Transaction::Idle => {}
        }
        if !opens_transaction(command) {
            return error(reply, channel, ErrorCode::InvalidCommand);
        }
        if usize::from(length) > LONGEST || goes_to_core(command) && length == 0 {
            return error(reply, channel, ErrorCode::InvalidLength);
        }
        let message = Message {
            holder: channel,
            command,
            length,
        };
        self.gather(message, 0, GATHERING_TIME, payload, buffer)
    }

    /// The rows of broadcast.
    fn broadcast(&mut self, opening: Opening, reply: &mut [u8; PACKET]) -> Answer {
        if opening.command != INIT {
            return error(reply, BROADCAST, ErrorCode::InvalidChannel);
        }
        if usize::from(opening.length) != NONCE {
            return error(reply, BROADCAST, ErrorCode::InvalidLength);
        }
        if self.channels == MOST_CHANNELS {
            return error(reply, BROADCAST, ErrorCode::Other);
        }
        self.channels += 1;
        init_reply(reply, BROADCAST, opening.payload, Channel(self.channels))
    }

    /// The rows of CANCEL: only the holder's, while CBOR waits, does anything.
    fn cancel(&mut self, channel: Channel, buffer: &mut [u8; LONGEST]) -> Answer {
        if let Transaction::Waiting { message } = self.transaction {
            if message.holder == channel && message.command == CBOR {
                self.transaction = answering_with(message, &[Status::Cancelled as u8], buffer);
            }
        }
        Answer::Silent
    }

    fn is_held_by_another(&self, channel: Channel) -> bool {
        self.transaction
            .message()
            .is_some_and(|message| message.holder != channel)
    }

    /// A continuation of the gathering holder adds its payload if its number is the one expected,
    /// and ends the gathering if not; every other continuation does nothing.
    fn continuation(
        &mut self,
        next: Continuation,
        reply: &mut [u8; PACKET],
        buffer: &mut [u8; LONGEST],
    ) -> Answer {
        match self.transaction {
            Transaction::Gathering {
                message,
                done,
                left,
            } if message.holder == next.channel => {
                if u16::from(next.number) + 1 != done {
                    self.transaction = Transaction::Idle;
                    return error(reply, next.channel, ErrorCode::InvalidSequence);
                }
                self.gather(message, done, left, next.payload, buffer)
            }
            _ => Answer::Silent,
        }
    }

    /// Takes the payload of packet `index` into its place in the buffer.
    fn gather(
        &mut self,
        message: Message,
        index: u16,
        left: u32,
        payload: &[u8],
        buffer: &mut [u8; LONGEST],
    ) -> Answer {
        let length = usize::from(message.length);
        let part = packet::part_carried(usize::from(index), length);
        let is_last = part.end == length;
        let taken = &payload[..part.len()];
        buffer[part].copy_from_slice(taken);
        if is_last {
            return self.complete(message, buffer);
        }
        self.transaction = Transaction::Gathering {
            message,
            done: index + 1,
            left,
        };
        Answer::Silent
    }

    /// PING is answering with its own bytes; CBOR and MSG are checked, and what is refused is
    /// answering with its status.
    fn complete(&mut self, message: Message, buffer: &mut [u8; LONGEST]) -> Answer {
        let whole = &buffer[..usize::from(message.length)];
        self.transaction = match message.command {
            PING => answering(message, message.length),
            MSG => match apdu::read(whole) {
                Err(status) => answering_with(message, &status.bytes(), buffer),
                Ok(_) => return self.hand_on(message),
            },
            _ => match command::check(whole) {
                // A packet carries the status alone.
                Err(fault) => answering_with(message, &[fault.status as u8], buffer),
                Ok(_) => return self.hand_on(message),
            },
        };
        Answer::Silent
    }

    /// The message is waiting for the core, with the next ticket.
    fn hand_on(&mut self, message: Message) -> Answer {
        self.transaction = Transaction::Waiting { message };
        self.ticket = Ticket(self.ticket.0.wrapping_add(1));
        Answer::Request(self.ticket)
    }
}

/// Whether an opening packet of this command can begin a transaction.
fn opens_transaction(command: u8) -> bool {
    command == PING || goes_to_core(command)
}

/// Whether a message of this command can be for the core.
fn goes_to_core(command: u8) -> bool {
    command == CBOR || command == MSG
}

/// The fewest bytes that the core can deliver: a status, which has two bytes for MSG.
fn shortest_delivery(command: u8) -> usize {
    match command {
        MSG => 2,
        _ => 1,
    }
}

/// The first `length` bytes of the buffer are the reply to `request`.
fn answering(request: Message, length: u16) -> Transaction {
    Transaction::Answering {
        message: Message { length, ..request },
        done: 0,
    }
}

/// These bytes become the first of the buffer and are the reply to `request`.
fn answering_with(request: Message, bytes: &[u8], buffer: &mut [u8; LONGEST]) -> Transaction {
    buffer[..bytes.len()].copy_from_slice(bytes);
    answering(request, bytes.len() as u16)
}

/// Error: length 1, the code.
fn error(reply: &mut [u8; PACKET], channel: Channel, code: ErrorCode) -> Answer {
    packet::write(reply, channel, ERROR, &[code as u8], 0);
    Answer::Reply
}

/// INIT reply: the nonce, the channel, then versions and flags.
fn init_reply(
    reply: &mut [u8; PACKET],
    channel: Channel,
    payload: &[u8],
    given: Channel,
) -> Answer {
    let mut message = [0; NONCE + 4 + VERSIONS_AND_FLAGS.len()];
    message[..NONCE].copy_from_slice(&payload[..NONCE]);
    message[NONCE..][..4].copy_from_slice(&given.0.to_be_bytes());
    message[NONCE + 4..].copy_from_slice(&VERSIONS_AND_FLAGS);
    packet::write(reply, channel, INIT, &message, 0);
    Answer::Reply
}

#[cfg(test)]
mod tests {
    use super::*;

    /// A key with its buffers, so that a test reads as a list of events.
    struct Host {
        key: Key,
        reply: [u8; PACKET],
        buffer: [u8; LONGEST],
    }

    impl Host {
        fn new(channels: u32) -> Self {
            Host {
                key: Key {
                    channels,
                    ..Key::default()
                },
                reply: [0xEE; PACKET],
                buffer: [0xEE; LONGEST],
            }
        }

        fn send(&mut self, packet: &[u8]) -> Result<Answer, Refusal> {
            self.key.packet(packet, &mut self.reply, &mut self.buffer)
        }

        fn open(&mut self, channel: u32, command: u8, message: &[u8]) -> Answer {
            let first = packet::cut(Channel(channel), command, message).next();
            self.send(&first.expect("a message has a packet"))
                .expect("buffers are long enough")
        }

        fn fetch(&mut self) -> Result<Answer, Refusal> {
            self.key.fetch(&mut self.reply, &self.buffer)
        }

        fn deliver(&mut self, ticket: u32, bytes: &[u8]) -> Result<Answer, Refusal> {
            self.key.deliver(Ticket(ticket), bytes, &mut self.buffer)
        }
    }

    fn padded(start: &[u8]) -> [u8; PACKET] {
        let mut packet = [0; PACKET];
        packet[..start.len()].copy_from_slice(start);
        packet
    }

    #[test]
    fn broadcast_init_on_a_fresh_key() {
        let mut host = Host::new(0);
        let nonce = [1, 2, 3, 4, 5, 6, 7, 8];
        assert_eq!(host.open(BROADCAST.0, INIT, &nonce), Answer::Reply);
        let expected = padded(&[
            0xFF, 0xFF, 0xFF, 0xFF, 0x86, 0x00, 0x11, 1, 2, 3, 4, 5, 6, 7, 8, 0, 0, 0, 1, 0x02,
            0x01, 0x00, 0x00, 0x04,
        ]);
        assert_eq!(host.reply, expected);
        assert_eq!(host.key.channels, 1);
    }

    #[test]
    fn the_last_channel_comes_before_broadcast() {
        let nonce = [1, 2, 3, 4, 5, 6, 7, 8];
        for (given, next) in [
            (65_535, [0x00, 0x01, 0x00, 0x00]),
            (4_294_967_293, [0xFF, 0xFF, 0xFF, 0xFE]),
        ] {
            let mut host = Host::new(given);
            assert_eq!(host.open(BROADCAST.0, INIT, &nonce), Answer::Reply);
            assert_eq!(host.reply[4], 0x86);
            assert_eq!(host.reply[15..19], next);
            assert_eq!(host.key.channels, given + 1);
        }
        let mut host = Host::new(4_294_967_294);
        let before = host.key;
        assert_eq!(host.open(BROADCAST.0, INIT, &nonce), Answer::Reply);
        let expected = padded(&[0xFF, 0xFF, 0xFF, 0xFF, 0xBF, 0x00, 0x01, 0x7F]);
        assert_eq!(host.reply, expected);
        assert_eq!(host.key, before);
        assert_eq!(host.open(0xFFFF_FFFE, PING, &[0x61]), Answer::Silent);
        assert_eq!(host.fetch(), Ok(Answer::Reply));
        let expected = padded(&[0xFF, 0xFF, 0xFF, 0xFE, 0x81, 0x00, 0x01, 0x61]);
        assert_eq!(host.reply, expected);
    }

    #[test]
    fn another_channel_is_busy_while_one_gathers() {
        let mut host = Host::new(2);
        assert_eq!(host.open(1, PING, &[0; 58]), Answer::Silent);
        let before = host.key;
        assert_eq!(host.open(2, PING, &[0x61]), Answer::Reply);
        let expected = padded(&[0x00, 0x00, 0x00, 0x02, 0xBF, 0x00, 0x01, 0x06]);
        assert_eq!(host.reply, expected);
        assert_eq!(host.key, before);
    }

    #[test]
    fn gathering_ends_at_3000_ms() {
        let mut host = Host::new(1);
        host.open(1, PING, &[0; 58]);
        let mut step = |ms| host.key.time_step(ms, &mut host.reply);
        assert_eq!(step(2_999), Ok(Answer::Silent));
        assert_eq!(step(1), Ok(Answer::Reply));
        let expected = padded(&[0x00, 0x00, 0x00, 0x01, 0xBF, 0x00, 0x01, 0x05]);
        assert_eq!(host.reply, expected);
        assert_eq!(host.key.transaction, Transaction::Idle);
    }

    #[test]
    fn a_late_delivery_is_not_for_the_next_request() {
        let mut host = Host::new(1);
        assert_eq!(host.open(1, CBOR, &[0x04]), Answer::Request(Ticket(1)));
        assert_eq!(host.open(1, CANCEL, &[]), Answer::Silent);
        assert_eq!(host.fetch(), Ok(Answer::Reply));
        let cancelled = padded(&[0x00, 0x00, 0x00, 0x01, 0x90, 0x00, 0x01, 0x2D]);
        assert_eq!(host.reply, cancelled);
        assert_eq!(host.open(1, CBOR, &[0x04]), Answer::Request(Ticket(2)));
        assert_eq!(host.deliver(1, &[0x00]), Err(Refusal::Ticket));
        assert_eq!(host.deliver(2, &[]), Err(Refusal::Delivery));
        assert_eq!(host.deliver(2, &[0x00]), Ok(Answer::Silent));
        assert_eq!(host.deliver(2, &[0x00]), Err(Refusal::Phase));
    }

    #[test]
    fn a_good_msg_waits_for_two_bytes_or_more() {
        let mut host = Host::new(1);
        let version = [0x00, 0x03, 0x00, 0x00, 0x00, 0x00, 0x00];
        assert_eq!(host.open(1, MSG, &version), Answer::Request(Ticket(1)));
        let (key, buffer) = (host.key, host.buffer);
        assert_eq!(host.open(1, CANCEL, &[]), Answer::Silent);
        assert_eq!(host.deliver(2, &[0x90]), Err(Refusal::Ticket));
        assert_eq!(host.deliver(1, &[0x90]), Err(Refusal::Delivery));
        assert_eq!(host.deliver(1, &[0; LONGEST + 1]), Err(Refusal::Delivery));
        assert_eq!((host.key, host.buffer), (key, buffer));
        assert_eq!(host.deliver(1, &[0x90, 0x00]), Ok(Answer::Silent));
        assert_eq!(host.fetch(), Ok(Answer::Reply));
        let expected = padded(&[0x00, 0x00, 0x00, 0x01, 0x83, 0x00, 0x02, 0x90, 0x00]);
        assert_eq!(host.reply, expected);
    }

    #[test]
    fn a_bad_msg_is_answered_with_two_bytes() {
        for (message, status) in [
            (&[0xFF][..], [0x67, 0x00]),
            (&[0x80, 0, 0, 0, 0, 0, 0], [0x6E, 0x00]),
            (&[0x00, 0, 0, 0, 0, 0, 0], [0x6D, 0x00]),
        ] {
            let mut host = Host::new(1);
            assert_eq!(host.open(1, MSG, message), Answer::Silent);
            assert_eq!(host.buffer[..2], status);
            assert_eq!(host.key.ticket, Ticket(0));
            assert_eq!(host.fetch(), Ok(Answer::Reply));
            let expected = [&[0x00, 0x00, 0x00, 0x01, 0x83, 0x00, 0x02][..], &status].concat();
            assert_eq!(host.reply, padded(&expected));
        }
    }

    #[test]
    fn a_msg_of_no_bytes_is_of_a_wrong_length() {
        let mut host = Host::new(1);
        assert_eq!(host.open(1, MSG, &[]), Answer::Reply);
        let expected = padded(&[0x00, 0x00, 0x00, 0x01, 0xBF, 0x00, 0x01, 0x03]);
        assert_eq!(host.reply, expected);
        assert_eq!(host.key.transaction, Transaction::Idle);
    }

    #[test]
    fn a_long_ping_comes_back_as_it_went() {
        let mut host = Host::new(1);
        let message: Vec<u8> = (0..LONGEST).map(|n| (n * 7) as u8).collect();
        let packets: Vec<_> = packet::cut(Channel(1), PING, &message).collect();
        for packet in &packets {
            assert_eq!(host.send(packet), Ok(Answer::Silent));
        }
        for packet in &packets {
            assert_eq!(host.fetch(), Ok(Answer::Reply));
            assert_eq!(host.reply, *packet);
        }
        assert_eq!(host.fetch(), Err(Refusal::Phase));
    }

    #[test]
    fn the_ticket_after_the_last_is_0() {
        let mut host = Host::new(1);
        host.key.ticket = Ticket(u32::MAX);
        assert_eq!(host.open(1, CBOR, &[0x04]), Answer::Request(Ticket(0)));
    }

    #[test]
    fn the_lowest_number_that_applies() {
        let mut host = Host::new(1);
        let (short_reply, short_buffer) = (&mut [0; PACKET - 1], &mut [0; LONGEST - 1]);
        let good = [0; PACKET];
        let mut key = host.key;
        assert_eq!(
            key.packet(&good[1..], short_reply, short_buffer),
            Err(Refusal::Packet)
        );
        assert_eq!(
            key.packet(&good, short_reply, short_buffer),
            Err(Refusal::ReplyBuffer)
        );
        assert_eq!(
            key.packet(&good, &mut host.reply, short_buffer),
            Err(Refusal::MessageBuffer)
        );
        assert_eq!(key.time_step(0, short_reply), Err(Refusal::ReplyBuffer));
        assert_eq!(
            key.fetch(short_reply, short_buffer),
            Err(Refusal::ReplyBuffer)
        );
        assert_eq!(
            key.fetch(&mut host.reply, short_buffer),
            Err(Refusal::MessageBuffer)
        );
        assert_eq!(
            key.deliver(Ticket(9), &[], short_buffer),
            Err(Refusal::MessageBuffer)
        );
        assert_eq!(host.deliver(9, &[]), Err(Refusal::Phase));
        key.channels = MOST_CHANNELS + 1;
        assert_eq!(
            key.packet(&[], short_reply, short_buffer),
            Err(Refusal::State)
        );
    }

    #[test]
    fn states_out_of_order() {
        let gathering = |holder, command, length, done, left| Transaction::Gathering {
            message: Message {
                holder: Channel(holder),
                command,
                length,
            },
            done,
            left,
        };
        let waiting = |holder, command, length| Transaction::Waiting {
            message: Message {
                holder: Channel(holder),
                command,
                length,
            },
        };
        let answering = |holder, command, length, done| Transaction::Answering {
            message: Message {
                holder: Channel(holder),
                command,
                length,
            },
            done,
        };
        let is_in_order = |transaction| {
            let key = Key {
                channels: 2,
                ticket: Ticket(0),
                transaction,
            };
            key.is_in_order()
        };
        for transaction in [
            gathering(1, PING, 58, 1, 1),
            gathering(2, CBOR, 7_609, 128, 3_000),
            gathering(1, MSG, 58, 1, 1),
            waiting(1, CBOR, 0),
            waiting(2, CBOR, 7_609),
            waiting(1, MSG, 0),
            answering(1, CBOR, 0, 0),
            answering(1, MSG, 1, 0),
            answering(2, PING, 7_609, 128),
        ] {
            assert!(is_in_order(transaction), "{transaction:?}");
        }
        for transaction in [
            gathering(0, PING, 58, 1, 1),
            gathering(3, PING, 58, 1, 1),
            gathering(1, INIT, 58, 1, 1),
            gathering(1, PING, 57, 1, 1),
            gathering(1, PING, 58, 0, 1),
            gathering(1, PING, 58, 2, 1),
            gathering(1, PING, 58, 1, 0),
            gathering(1, PING, 58, 1, 3_001),
            gathering(1, PING, 7_610, 1, 1),
            waiting(1, PING, 1),
            waiting(3, CBOR, 1),
            waiting(1, CBOR, 7_610),
            answering(1, PING, 0, 1),
            answering(1, ERROR, 1, 0),
            answering(1, CBOR, 7_610, 0),
            answering(1, CBOR, 7_609, 129),
        ] {
            assert!(!is_in_order(transaction), "{transaction:?}");
        }
    }

    #[test]
    fn counts_and_holders_out_of_order() {
        let is_in_order = |channels, holder| {
            let key = Key {
                channels,
                ticket: Ticket(0),
                transaction: Transaction::Waiting {
                    message: Message {
                        holder: Channel(holder),
                        command: CBOR,
                        length: 1,
                    },
                },
            };
            key.is_in_order()
        };
        assert!(is_in_order(65_536, 65_536));
        assert!(!is_in_order(65_535, 65_536));
        assert!(is_in_order(4_294_967_294, 4_294_967_294));
        assert!(!is_in_order(4_294_967_293, 4_294_967_294));
        assert!(!is_in_order(4_294_967_294, 4_294_967_295));
        assert!(!is_in_order(4_294_967_295, 1));
    }
}
