//! A routing node, call by call: include/lnlink.h, "A node", in Rust.

use crate::codec::{packed, sized2, sized8, tagged, Malformed, Wire};
use crate::command::Command;
use crate::config::{Config, Hash, Onion, OpenSpec, Point};
use crate::ffi::NodeHandle;
use crate::item::{Event, Item, Record};
use crate::question::Question;
use crate::refused::Refused;
use crate::view::{Commitment, Summary, View};

packed! {
    /// What a node asks for what it forwards (BOLT 7), and a secret that is the same over all restarts: by it the node
    /// knows the failures that it has made.
    pub struct Settings {
        /// For each payment.
        fee_base_msat: u32,
        /// Of the amount that is forwarded.
        fee_proportional_millionths: u32,
        /// Between the expiries, in blocks.
        cltv_expiry_delta: u16,
        /// The secret.
        mark: Hash,
    }
}

/// What a node hands out.
#[derive(Clone, Debug, PartialEq, Eq)]
pub enum NodeItem {
    /// Records of channels by their numbers, to be saved in one transaction: then `Node::saved` is told the batch.
    Batch {
        /// The batch.
        number: u64,
        /// A channel's number, and its record.
        records: Vec<(usize, Record)>,
    },
    /// A message of a channel: an `Item::Blank` for `Node::fill`, or an `Item::Send` for the peer and `Node::sent`.
    Message {
        /// The channel.
        channel: usize,
        /// The message's number.
        message: u64,
        /// What is to be done with it.
        item: Item,
    },
    /// An event of a channel, by its number: `Node::verdict` is told that.
    Event {
        /// The channel.
        channel: usize,
        /// The event's.
        number: u64,
        /// What has happened.
        event: Event,
    },
    /// A payment hash and an onion that a peer has offered: `Node::onion` is told what is in it. None: it is gone.
    Onion(Option<(Hash, Onion)>),
    /// A failure that leaves to the peer who has offered an HTLC: `Node::fill` is told how it is wrapped (BOLT 4,
    /// "Returning Errors").
    Wrap {
        /// The channel.
        channel: usize,
        /// The message's number.
        message: u64,
        /// The HTLC.
        id: u64,
        /// Its payment hash and its onion.
        incoming: Option<(Hash, Onion)>,
        /// Whether it comes from the next hop; else it is a failure message of the node's own.
        came_back: bool,
        /// The failure.
        failure: Vec<u8>,
    },
}

type Fields = (u64, u64);

fn split<const N: usize>(bytes: &[u8]) -> Result<(&[u8], &[u8]), Malformed> {
    if bytes.len() < N {
        return Err(Malformed);
    }
    Ok(bytes.split_at(N))
}

/// A number of eight bytes, and what follows.
fn number_at(bytes: &[u8]) -> Result<(u64, &[u8]), Malformed> {
    let (number, rest) = split::<8>(bytes)?;
    Ok((u64::from_bytes(number)?, rest))
}

/// A payment hash and an onion, where there are any, and what follows.
#[allow(clippy::type_complexity)]
fn incoming_at(bytes: &[u8]) -> Result<(Option<(Hash, Onion)>, &[u8]), Malformed> {
    match bytes.split_first() {
        Some((0, rest)) => Ok((None, rest)),
        Some((1, rest)) => {
            let (incoming, rest) = split::<{ 32 + 1366 }>(rest)?;
            Ok((Some(Wire::from_bytes(incoming)?), rest))
        }
        _ => Err(Malformed),
    }
}

fn batch(bytes: &[u8]) -> Result<NodeItem, Malformed> {
    let (number, rest) = number_at(bytes)?;
    let (count, mut rest) = number_at(rest)?;
    let mut records = Vec::new();
    for _ in 0..count {
        let ((channel, length), after): (Fields, _) = {
            let (fields, after) = split::<16>(rest)?;
            (Wire::from_bytes(fields)?, after)
        };
        let length = usize::try_from(length).map_err(|_| Malformed)?;
        if length > after.len() {
            return Err(Malformed);
        }
        let (record, after) = after.split_at(length);
        records.push((channel as usize, Record::from_bytes(record)?));
        rest = after;
    }
    Ok(NodeItem::Batch { number, records })
}

fn wrap(channel: usize, bytes: &[u8]) -> Result<NodeItem, Malformed> {
    let (message, rest) = number_at(bytes)?;
    let (id, rest) = number_at(rest)?;
    let (incoming, rest) = incoming_at(rest)?;
    let (came_back, failure) = rest.split_first().ok_or(Malformed)?;
    let (came_back, failure) = (*came_back == 1, failure.to_vec());
    Ok(NodeItem::Wrap { channel, message, id, incoming, came_back, failure })
}

impl NodeItem {
    /// The item of which these are the bytes.
    ///
    /// # Errors
    ///
    /// They are no item's.
    pub fn from_bytes(bytes: &[u8]) -> Result<NodeItem, Malformed> {
        let (kind, rest) = bytes.split_first().ok_or(Malformed)?;
        match kind {
            1 => return batch(rest),
            4 => return Ok(NodeItem::Onion(incoming_at(rest)?.0)),
            _ => {}
        }
        let (channel, rest) = number_at(rest)?;
        let channel = channel as usize;
        match kind {
            2 => {
                let (message, rest) = number_at(rest)?;
                Ok(NodeItem::Message { channel, message, item: Item::from_bytes(rest)? })
            }
            3 => match Item::from_bytes(rest)? {
                Item::Event(number, event) => Ok(NodeItem::Event { channel, number, event }),
                _ => Err(Malformed),
            },
            5 => wrap(channel, rest),
            _ => Err(Malformed),
        }
    }
}

/// What was found in an onion.
#[derive(Clone, Debug, PartialEq, Eq)]
pub enum OnionFound {
    /// This hop's payload, and the onion for the next one; none where this is the last hop.
    Opened(Vec<u8>, Option<Onion>),
    /// Its version isn't known.
    WrongVersion,
    /// Its HMAC is another one's.
    WrongHmac,
    /// Its key can't be read.
    WrongKey,
    /// Its payload can't be read.
    WrongPayload,
}

impl OnionFound {
    fn to_bytes(&self) -> Vec<u8> {
        match self {
            OnionFound::Opened(payload, next) => {
                let mut out = vec![0];
                sized2::write(payload, &mut out);
                if let Some(next) = next {
                    out.extend_from_slice(next.as_slice());
                }
                out
            }
            OnionFound::WrongVersion => vec![1],
            OnionFound::WrongHmac => vec![2],
            OnionFound::WrongKey => vec![3],
            OnionFound::WrongPayload => vec![4],
        }
    }
}

tagged! {
    /// What is to be done about an event: of all but an HTLC that a peer has offered it is `GoOn`.
    pub enum Verdict {
        /// The payment is forwarded or taken, as its onion says.
        0 => GoOn,
        /// The payment fails.
        1 => Fail {
            /// By this code (BOLT 4, "Failure Messages").
            failure_code: u16,
        },
        /// The payment is held until `Node::resume`.
        2 => Hold,
    }
}

packed! {
    /// An HTLC that is held.
    pub struct HeldHtlc {
        /// The number of its channel.
        channel: u64,
        /// That of its event: by this it is resumed.
        event: u64,
        /// The HTLC.
        id: u64,
        /// In msat.
        amount_msat: u64,
        /// What its preimage has to hash to.
        payment_hash: Hash,
        /// The block height at which it times out.
        cltv_expiry: u32,
    }
}

/// A routing node: many channels, told by their numbers 0, 1, .. in the order in which they were loaded, opened or
/// accepted, and one book of the payments that it forwards.
pub struct Node {
    handle: NodeHandle,
}

/// What the library hands out is read by this crate, or they are of two versions.
fn read<T>(value: Result<T, Malformed>) -> Result<T, Refused> {
    value.map_err(|_| Refused::Damaged)
}

impl Node {
    /// The node of the last record of each of its channels, all at once, each as `Record::to_bytes`. Without any it is a
    /// new node. Each onion that it then asks for is to be answered before `connect`.
    ///
    /// # Errors
    ///
    /// `Damaged`, `Version`, `Memory`.
    pub fn load(settings: &Settings, records: &[Vec<u8>]) -> Result<Node, Refused> {
        let mut saved = Vec::new();
        records.iter().for_each(|record| sized8::write(record, &mut saved));
        let handle = NodeHandle::load(&settings.to_bytes(), &saved)?;
        Ok(Node { handle })
    }

    /// A channel that this side asks for: its number.
    ///
    /// # Errors
    ///
    /// `NotReady`: the values don't fit; `Memory`.
    pub fn open(&mut self, spec: &OpenSpec, first_point: &Point) -> Result<usize, Refused> {
        self.handle.open(&spec.to_bytes(), first_point)
    }

    /// A channel that a peer may ask for: its number.
    ///
    /// # Errors
    ///
    /// `NotReady`: the values don't fit; `Memory`.
    pub fn accept(&mut self, config: &Config, first_point: &Point) -> Result<usize, Refused> {
        self.handle.accept(&config.to_bytes(), first_point)
    }

    /// Names the funding of a channel, until `accept_channel` is given.
    ///
    /// # Errors
    ///
    /// `NotReady`: after that, and at a fundee.
    pub fn fund(&mut self, channel: usize, txid: &Hash, output: u16) -> Result<(), Refused> {
        self.handle.fund(channel, txid, output)
    }

    /// There is a connection to the channel's peer, and `init` has passed.
    ///
    /// # Errors
    ///
    /// `Asks`: an onion that was asked for after the load isn't answered; `NotReady`, `Halted`, `Memory`.
    pub fn connect(&mut self, channel: usize) -> Result<(), Refused> {
        self.handle.connect(channel)
    }

    /// The connection is lost, and with it the messages that wait.
    ///
    /// # Errors
    ///
    /// `Memory`.
    pub fn disconnect(&mut self, channel: usize) -> Result<(), Refused> {
        self.handle.disconnect(channel)
    }

    /// What has to be answered before a message is taken.
    ///
    /// # Errors
    ///
    /// `Truncated` to `FieldLength`: it is no message; `NotReady`: there is no such channel; `Memory`.
    pub fn question(&self, channel: usize, message: &[u8]) -> Result<Option<Question>, Refused> {
        let bytes = self.handle.question(channel, message)?;
        if bytes.is_empty() {
            return Ok(None);
        }
        read(Question::from_bytes(&bytes)).map(Some)
    }

    /// A channel takes a message, with the answer to its question.
    ///
    /// # Errors
    ///
    /// As of `Link::message`.
    pub fn message(&mut self, channel: usize, message: &[u8], answer: &[u8]) -> Result<(), Refused> {
        self.handle.message(channel, message, answer)
    }

    /// A channel does what it is told: `Confirm`, `Add` without an origin, `Fee`, `Sign` or `Shutdown`.
    ///
    /// # Errors
    ///
    /// `NotReady` for others, which are the node's own; those of the command.
    pub fn command(&mut self, channel: usize, command: &Command) -> Result<(), Refused> {
        self.handle.command(channel, &command.to_bytes())
    }

    /// Each channel signs that owes a signature.
    ///
    /// # Errors
    ///
    /// None but of the handle.
    pub fn sign(&mut self) -> Result<(), Refused> {
        self.handle.sign()
    }

    /// The block height from now on.
    ///
    /// # Errors
    ///
    /// `NotReady`: it is above 400,000,000.
    pub fn set_height(&mut self, height: u32) -> Result<(), Refused> {
        self.handle.height(height)
    }

    /// A payment is waited for, which the node takes as its last hop.
    ///
    /// # Errors
    ///
    /// `Memory`.
    pub fn expect(&mut self, preimage: &Hash, secret: &Hash, amount_msat: u64) -> Result<(), Refused> {
        self.handle.expect(preimage, secret, amount_msat)
    }

    /// The next item, which is handed out once; none where there is none.
    ///
    /// # Errors
    ///
    /// `Memory`.
    pub fn next_item(&mut self) -> Result<Option<NodeItem>, Refused> {
        let bytes = self.handle.next()?;
        if bytes.is_empty() {
            return Ok(None);
        }
        read(NodeItem::from_bytes(&bytes)).map(Some)
    }

    /// The batch of this number is saved, and synced.
    ///
    /// # Errors
    ///
    /// `NotReady`: it isn't the last one.
    pub fn saved(&mut self, batch: u64) -> Result<(), Refused> {
        self.handle.saved(batch)
    }

    /// Fills a message that has a blank, or wraps its failure: it comes again to be sent.
    ///
    /// # Errors
    ///
    /// `NotReady`: it wasn't handed out to be filled, or its connection was lost; `Answer`.
    pub fn fill(&mut self, channel: usize, message: u64, filling: &[u8]) -> Result<(), Refused> {
        self.handle.fill(channel, message, filling)
    }

    /// A message was sent, or will be: nothing stands before it any more.
    ///
    /// # Errors
    ///
    /// `NotReady`: it wasn't handed out to be sent, or its connection was lost.
    pub fn sent(&mut self, channel: usize, message: u64) -> Result<(), Refused> {
        self.handle.sent(channel, message)
    }

    /// What was found in an onion that was asked for.
    ///
    /// # Errors
    ///
    /// `NotReady`: no HTLC has it.
    pub fn onion(&mut self, payment_hash: &Hash, onion: &Onion, found: &OnionFound) -> Result<(), Refused> {
        self.handle.onion(payment_hash, onion.as_slice(), &found.to_bytes())
    }

    /// What is to be done about an event.
    ///
    /// # Errors
    ///
    /// `Asks`: its onion isn't answered; `NotReady`: it isn't handed out, or was decided; `Answer`: no such code.
    pub fn verdict(&mut self, channel: usize, event: u64, verdict: &Verdict) -> Result<(), Refused> {
        self.handle.verdict(channel, event, &verdict.to_bytes())
    }

    /// What is to be done about an HTLC that a channel holds by the number of its event.
    ///
    /// # Errors
    ///
    /// `NotReady`: it holds none so; `Asks`, `Answer`.
    pub fn resume(&mut self, channel: usize, event: u64, verdict: &Verdict) -> Result<(), Refused> {
        self.handle.resume(channel, event, &verdict.to_bytes())
    }

    /// The HTLCs that are held.
    ///
    /// # Errors
    ///
    /// `Memory`.
    pub fn held(&self) -> Result<Vec<HeldHtlc>, Refused> {
        let bytes = self.handle.held()?;
        bytes.chunks(68).map(|one| read(HeldHtlc::from_bytes(one))).collect()
    }

    /// Where a channel is.
    ///
    /// # Errors
    ///
    /// `NotReady`: there is no such channel; `Memory`.
    pub fn look(&self, channel: usize) -> Result<Summary, Refused> {
        read(Summary::from_bytes(&self.handle.look(channel)?))
    }

    /// What a commitment of a channel is worth.
    ///
    /// # Errors
    ///
    /// `NotReady`: the channel isn't opened; `Memory`.
    pub fn view(&self, channel: usize, which: Commitment) -> Result<View, Refused> {
        read(View::from_bytes(&self.handle.view(channel, which as u8)?))
    }
}
