//! Messages of BOLT 1, and what a signer reads in messages of BOLT 2.

use crate::config::{Hash, Signature};
use crate::ffi;
use crate::refused::Refused;

const WARNING: u16 = 1;
const ERROR: u16 = 17;
const FUNDING_CREATED: u16 = 34;
const FUNDING_SIGNED: u16 = 35;
const CLOSING_SIGNED: u16 = 39;
const COMMITMENT_SIGNED: u16 = 132;
const REVOKE_AND_ACK: u16 = 133;

/// An `init` with these features, big-endian as in the message, and chain hashes.
///
/// # Errors
///
/// `TooLong`, `Memory`.
pub fn init(features: &[u8], chains: &[Hash]) -> Result<Vec<u8>, Refused> {
    ffi::init(features, &chains.concat())
}

/// Whether these are all even features that the peer's `init` asks for.
///
/// # Errors
///
/// `UnknownFeature`: they aren't. `OutOfPlace`: it is no `init`. `Truncated` to `FieldLength`: it is no message.
pub fn check_init(message: &[u8], known: &[u16]) -> Result<(), Refused> {
    ffi::check_init(message, known)
}

/// Whether the peer's `init` names no networks, or one of these chains.
///
/// # Errors
///
/// `OutOfPlace`: it names others alone, or it is no `init`. `Truncated` to `FieldLength`: it is no message.
pub fn check_chains(message: &[u8], chains: &[Hash]) -> Result<(), Refused> {
    ffi::shares_chain(message, &chains.concat())
}

/// The answer to a `ping`; none where none is wanted.
///
/// # Errors
///
/// `OutOfPlace`: it is no `ping`. `Truncated` to `FieldLength`: it is no message; `Memory`.
pub fn pong(message: &[u8]) -> Result<Option<Vec<u8>>, Refused> {
    Ok(Some(ffi::pong(message)?).filter(|bytes| !bytes.is_empty()))
}

/// The channel id that a message names, the temporary one in the first three of an opening; none where none.
///
/// # Errors
///
/// `Truncated` to `FieldLength`: it is no message; `Memory`.
pub fn channel_of(message: &[u8]) -> Result<Option<Hash>, Refused> {
    Ok(ffi::channel(message)?.try_into().ok())
}

/// A message as text, a field a line.
///
/// # Errors
///
/// `Truncated` to `FieldLength`: it is no message; `Memory`.
pub fn print_message(message: &[u8]) -> Result<String, Refused> {
    String::from_utf8(ffi::print(message)?).map_err(|_| Refused::Damaged)
}

/// The type of a message; 0 where it has none.
#[must_use]
pub fn message_type(message: &[u8]) -> u16 {
    match message {
        [high, low, ..] => u16::from_be_bytes([*high, *low]),
        _ => 0,
    }
}

/// An `error` for a channel: zero bytes for all.
#[must_use]
pub fn error(channel: &Hash, text: &str) -> Vec<u8> {
    told(ERROR, channel, text)
}

/// A `warning` for a channel: zero bytes for none of them.
#[must_use]
pub fn warning(channel: &Hash, text: &str) -> Vec<u8> {
    told(WARNING, channel, text)
}

fn told(kind: u16, channel: &Hash, text: &str) -> Vec<u8> {
    let mut message = kind.to_be_bytes().to_vec();
    message.extend_from_slice(channel);
    message.extend_from_slice(&(text.len() as u16).to_be_bytes());
    message.extend_from_slice(text.as_bytes());
    message
}

/// Bytes of a message from a place on.
fn at<const N: usize>(message: &[u8], place: usize) -> Option<[u8; N]> {
    message.get(place..place + N)?.try_into().ok()
}

/// The signature over a commitment, and those over its HTLCs: of `funding_created`, `funding_signed` or
/// `commitment_signed`.
#[must_use]
pub fn signatures_in(message: &[u8]) -> Option<(Signature, Vec<Signature>)> {
    match message_type(message) {
        FUNDING_CREATED => Some((at(message, 68)?, Vec::new())),
        FUNDING_SIGNED => Some((at(message, 34)?, Vec::new())),
        COMMITMENT_SIGNED => {
            let count = usize::from(u16::from_be_bytes(at(message, 98)?));
            let htlcs: Option<Vec<Signature>> = (0..count).map(|n| at(message, 100 + 64 * n)).collect();
            Some((at(message, 34)?, htlcs?))
        }
        _ => None,
    }
}

/// The per-commitment secret of a `revoke_and_ack`.
#[must_use]
pub fn secret_in(message: &[u8]) -> Option<Hash> {
    if message_type(message) == REVOKE_AND_ACK {
        at(message, 34)
    } else {
        None
    }
}

/// The signature of a `closing_signed`.
#[must_use]
pub fn closing_signature_in(message: &[u8]) -> Option<Signature> {
    if message_type(message) == CLOSING_SIGNED {
        at(message, 42)
    } else {
        None
    }
}
