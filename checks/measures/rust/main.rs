//! What `lnlink answer` and `lnlink decode` do, in plain Rust, to compare with (checks/measure program).
use std::fmt::Write as _;
use std::io::{self, Read, Write};
use std::process::exit;

/// A field: read from the front of bytes, and shown. Numbers are copied, all else is borrowed.
trait Field<'a>: Sized {
    fn read(rest: &mut &'a [u8]) -> Result<Self, u16>;
    fn show(&self, name: &str, text: &mut String);
}

/// So many bytes from the front, or fault 1.
fn cut<'a>(rest: &mut &'a [u8], count: usize) -> Result<&'a [u8], u16> {
    let (front, back) = rest.split_at_checked(count).ok_or(1u16)?;
    *rest = back;
    Ok(front)
}

fn show_bytes(name: &str, bytes: &[u8], text: &mut String) {
    let _ = write!(text, "{name} {}", if bytes.is_empty() { "-" } else { "" });
    for byte in bytes {
        let _ = write!(text, "{byte:02x}");
    }
    text.push('\n');
}

macro_rules! numbers {
    ($($number:ty)*) => { $(impl<'a> Field<'a> for $number {
        fn read(rest: &mut &'a [u8]) -> Result<Self, u16> {
            Ok(Self::from_be_bytes(cut(rest, size_of::<Self>())?.try_into().unwrap()))
        }
        fn show(&self, name: &str, text: &mut String) {
            let _ = writeln!(text, "{name} {self}");
        }
    })* };
}
numbers!(u8 u16 u32 u64);

impl<'a, const N: usize> Field<'a> for &'a [u8; N] {
    fn read(rest: &mut &'a [u8]) -> Result<Self, u16> {
        Ok(cut(rest, N)?.try_into().unwrap())
    }
    fn show(&self, name: &str, text: &mut String) {
        show_bytes(name, &self[..], text);
    }
}

impl<'a> Field<'a> for &'a [u8] {
    fn read(rest: &mut &'a [u8]) -> Result<Self, u16> {
        let count = u16::read(rest)?;
        cut(rest, count.into())
    }
    fn show(&self, name: &str, text: &mut String) {
        show_bytes(name, &self[..], text);
    }
}

impl<'a> Field<'a> for &'a [[u8; 64]] {
    fn read(rest: &mut &'a [u8]) -> Result<Self, u16> {
        let count = usize::from(u16::read(rest)?);
        Ok(cut(rest, 64 * count)?.as_chunks().0)
    }
    fn show(&self, _: &str, text: &mut String) {
        let _ = writeln!(text, "count {}", self.len());
        self.iter().for_each(|signature| show_bytes("htlc_signature", signature, text));
    }
}

fn bigsize(rest: &mut &[u8]) -> Result<u64, u16> {
    let (number, least) = match u8::read(rest)? {
        0xfd => (u64::from(u16::read(rest)?), 0xfd),
        0xfe => (u64::from(u32::read(rest)?), 0x1_0000),
        0xff => (u64::read(rest)?, 0x1_0000_0000),
        first => (u64::from(first), 0),
    };
    if number < least { Err(2) } else { Ok(number) }
}

fn value<'a>(rest: &mut &'a [u8]) -> Result<&'a [u8], u16> {
    let length = usize::try_from(bigsize(rest)?).map_err(|_| 5u16)?;
    cut(rest, length).map_err(|_| 5)
}

/// The bytes of the records after the fields. `lengths` are types of record whose value has one length.
fn records<'a>(all: &'a [u8], known_even: &[u64], lengths: &[(u64, usize)]) -> Result<&'a [u8], u16> {
    let (mut rest, mut last, mut fits) = (all, None, true);
    while !rest.is_empty() {
        let typ = bigsize(&mut rest)?;
        if last.is_some_and(|last| typ <= last) {
            return Err(3);
        }
        let value = value(&mut rest)?;
        if typ % 2 == 0 && !known_even.contains(&typ) {
            return Err(4);
        }
        fits &= lengths.iter().all(|one| one.0 != typ || one.1 == value.len());
        last = Some(typ);
    }
    if fits { Ok(all) } else { Err(8) }
}

fn show_records(mut rest: &[u8], text: &mut String) -> Result<(), u16> {
    while !rest.is_empty() {
        let typ = bigsize(&mut rest)?;
        show_bytes(&format!("tlv {typ}"), value(&mut rest)?, text);
    }
    Ok(())
}

macro_rules! messages {
    ($($typ:literal $variant:ident $name:literal { $($field:ident: $kind:ty),* } $even:expr, $lengths:expr;)*) => {
        enum Message<'a> { $($variant { $($field: $kind,)* records: &'a [u8] },)* Ignored(u16) }

        fn read(mut rest: &[u8]) -> Result<Message<'_>, u16> {
            match u16::read(&mut rest)? {
                $($typ => {
                    $(let $field = Field::read(&mut rest)?;)*
                    Ok(Message::$variant { $($field,)* records: records(rest, &$even, &$lengths)? })
                })*
                typ if typ % 2 == 1 || (256..266).contains(&typ) => Ok(Message::Ignored(typ)),
                _ => Err(6),
            }
        }

        fn show(message: &Message) -> Result<String, u16> {
            Ok(match message {
                $(Message::$variant { $($field,)* records } => {
                    let mut text = format!("type {} {}\n", $typ, $name);
                    $($field.show(stringify!($field), &mut text);)*
                    show_records(records, &mut text)?;
                    text
                })*
                Message::Ignored(typ) => format!("type {typ} ignored\n"),
            })
        }
    };
}
messages! {
    1 Warning "warning" { channel_id: &'a [u8; 32], data: &'a [u8] } [], [];
    16 Init "init" { global_features: &'a [u8], features: &'a [u8] } [], [];
    17 Error "error" { channel_id: &'a [u8; 32], data: &'a [u8] } [], [];
    18 Ping "ping" { num_pong_bytes: u16, ignored: &'a [u8] } [], [];
    19 Pong "pong" { ignored: &'a [u8] } [], [];
    32 OpenChannel "open_channel" { chain_hash: &'a [u8; 32], temporary_id: &'a [u8; 32], funding_satoshis: u64,
        push_msat: u64, dust_limit_satoshis: u64, max_htlc_value_in_flight_msat: u64, channel_reserve_satoshis: u64,
        htlc_minimum_msat: u64, feerate_per_kw: u32, to_self_delay: u16, max_accepted_htlcs: u16,
        funding_pubkey: &'a [u8; 33], revocation_basepoint: &'a [u8; 33], payment_basepoint: &'a [u8; 33],
        delayed_payment_basepoint: &'a [u8; 33], htlc_basepoint: &'a [u8; 33], first_per_commitment_point: &'a [u8; 33],
        channel_flags: u8 } [0], [];
    33 AcceptChannel "accept_channel" { temporary_id: &'a [u8; 32], dust_limit_satoshis: u64,
        max_htlc_value_in_flight_msat: u64, channel_reserve_satoshis: u64, htlc_minimum_msat: u64, minimum_depth: u32,
        to_self_delay: u16, max_accepted_htlcs: u16, funding_pubkey: &'a [u8; 33], revocation_basepoint: &'a [u8; 33],
        payment_basepoint: &'a [u8; 33], delayed_payment_basepoint: &'a [u8; 33], htlc_basepoint: &'a [u8; 33],
        first_per_commitment_point: &'a [u8; 33] } [0], [];
    34 FundingCreated "funding_created" { temporary_id: &'a [u8; 32], funding_txid: &'a [u8; 32], output_index: u16,
        signature: &'a [u8; 64] } [], [];
    35 FundingSigned "funding_signed" { channel_id: &'a [u8; 32], signature: &'a [u8; 64] } [], [];
    36 ChannelReady "channel_ready" { channel_id: &'a [u8; 32], second_point: &'a [u8; 33] } [], [(1, 8)];
    38 Shutdown "shutdown" { channel_id: &'a [u8; 32], script: &'a [u8] } [], [];
    39 ClosingSigned "closing_signed" { channel_id: &'a [u8; 32], fee_satoshis: u64,
        signature: &'a [u8; 64] } [], [(1, 16)];
    128 Add "update_add_htlc" { channel_id: &'a [u8; 32], id: u64, amount_msat: u64, payment_hash: &'a [u8; 32],
        cltv_expiry: u32, onion: &'a [u8; 1366] } [], [];
    130 Fulfill "update_fulfill_htlc" { channel_id: &'a [u8; 32], id: u64, preimage: &'a [u8; 32] } [], [];
    131 Fail "update_fail_htlc" { channel_id: &'a [u8; 32], id: u64, reason: &'a [u8] } [], [];
    132 CommitmentSigned "commitment_signed" { channel_id: &'a [u8; 32], signature: &'a [u8; 64],
        htlc_signatures: &'a [[u8; 64]] } [], [];
    133 RevokeAndAck "revoke_and_ack" { channel_id: &'a [u8; 32], secret: &'a [u8; 32],
        next_point: &'a [u8; 33] } [], [];
    134 Fee "update_fee" { channel_id: &'a [u8; 32], feerate_per_kw: u32 } [], [];
    135 FailMalformed "update_fail_malformed_htlc" { channel_id: &'a [u8; 32], id: u64, sha256_of_onion: &'a [u8; 32],
        failure_code: u16 } [], [];
    136 Reestablish "channel_reestablish" { channel_id: &'a [u8; 32], next_commitment_number: u64,
        next_revocation_number: u64, last_secret: &'a [u8; 32], current_point: &'a [u8; 33] } [], [];
}

/// Adds the pong's frame that a message asks for.
fn serve(message: &[u8], pongs: &mut Vec<u8>) -> Result<(), u16> {
    if let Message::Ping { num_pong_bytes: count @ ..65_532, .. } = read(message)? {
        pongs.extend_from_slice(&(count + 4).to_be_bytes());
        pongs.extend_from_slice(&[0, 19]);
        pongs.extend_from_slice(&count.to_be_bytes());
        pongs.resize(pongs.len() + usize::from(count), 0);
    }
    Ok(())
}

/// Serves whole frames until many bytes wait to be written; answers where it stopped.
fn serve_all(mut rest: &[u8], pongs: &mut Vec<u8>) -> (usize, Result<(), u16>) {
    let all = rest.len();
    while let Some((length, behind)) = rest.split_first_chunk() {
        let Some((message, behind)) = behind.split_at_checked(u16::from_be_bytes(*length).into()) else {
            break;
        };
        if pongs.len() >= 131_072 {
            break;
        }
        if let Err(fault) = serve(message, pongs) {
            return (all - rest.len(), Err(fault));
        }
        rest = behind;
    }
    (all - rest.len(), Ok(()))
}

fn answer() -> Result<(), u16> {
    let (mut input, mut output) = (io::stdin().lock(), io::stdout().lock());
    let (mut window, mut start, mut end) = (vec![0; 262_144], 0, 0);
    let mut pongs: Vec<u8> = Vec::with_capacity(196_609);
    loop {
        let (taken, served) = serve_all(&window[start..end], &mut pongs);
        start += taken;
        if !pongs.is_empty() {
            output.write_all(&pongs).and_then(|()| output.flush()).map_err(|_| 63u16)?;
            pongs.clear();
        }
        served?;
        if taken > 0 {
            continue;
        }
        window.copy_within(start..end, 0);
        (start, end) = (0, end - start);
        match input.read(&mut window[end..]).map_err(|_| 63u16)? {
            0 => return if end == 0 { Ok(()) } else { Err(1) },
            count => end += count,
        }
    }
}

fn decode(text: &str) -> Result<String, u16> {
    let byte = |at| u8::from_str_radix(text.get(at..at + 2)?, 16).ok();
    let Some(bytes) = (0..text.len()).step_by(2).map(byte).collect::<Option<Vec<u8>>>() else {
        eprintln!("not hex");
        exit(2)
    };
    if bytes.len() > 65_535 {
        return Err(7);
    }
    show(&read(&bytes)?)
}

fn main() {
    let words: Vec<String> = std::env::args().skip(1).collect();
    let result = match words.iter().map(String::as_str).collect::<Vec<_>>()[..] {
        ["answer"] => answer(),
        ["decode", text] => decode(text).map(|text| print!("{text}")),
        _ => {
            eprintln!("usage");
            exit(2)
        }
    };
    if let Err(number) = result {
        eprintln!("refused {number}");
        exit(1);
    }
}
