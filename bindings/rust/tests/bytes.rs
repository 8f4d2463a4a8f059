//! What values are as bytes: the forms of include/lnlink.h, told byte by byte; and the signer's own vectors.

mod common;

use common::secp256k1::Curve;
use common::sha256::sha256;
use common::signer::generate_from_seed;
use lnlink::{
    channel_id, short_channel_id, Blank, Command, Commitment, Connection, Event, HeldSignatures, How, Htlc, Item,
    LostData, Malformed, Mark, Question, Record, Role, Status, Summary, View, Wire,
};

const A: [u8; 32] = [0xa1; 32];
const S: [u8; 64] = [0x51; 64];

fn u(size: usize, value: u64) -> Vec<u8> {
    value.to_be_bytes()[8 - size..].to_vec()
}

fn view() -> View {
    let htlc = Htlc { owner: Role::Fundee, id: 1, amount_msat: 1000, payment_hash: A, cltv_expiry: 500 };
    View { funder_msat: 5, fundee_msat: 6, feerate_per_kw: 253, htlcs: vec![htlc] }
}

fn view_bytes() -> Vec<u8> {
    [u(8, 5), u(8, 6), u(4, 253), u(8, 1), vec![1], u(8, 1), u(8, 1000), A.to_vec(), u(4, 500)].concat()
}

/// It is written so, and read back.
fn is<T: Wire + PartialEq + std::fmt::Debug>(value: &T, bytes: &[Vec<u8>]) {
    let bytes = bytes.concat();
    assert_eq!(value.to_bytes(), bytes);
    assert_eq!(T::from_bytes(&bytes).as_ref(), Ok(value));
    assert_eq!(T::from_bytes(&[&bytes[..], &[0]].concat()), Err(Malformed));
    assert_eq!(T::from_bytes(&bytes[..bytes.len() - 1]), Err(Malformed));
}

#[test]
fn values() {
    is(&view(), &[view_bytes()]);
    is(&Command::Confirm { short_channel_id: short_channel_id(110, 1, 2) }, &[vec![0], u(3, 110), u(3, 1), u(2, 2)]);
    is(&Command::Fail { id: 1, reason: b"reason".to_vec() }, &[vec![3], u(8, 1), u(2, 6), b"reason".to_vec()]);
    is(&Command::Sign, &[vec![6]]);
    let add = |origin| Command::Add {
        amount_msat: 5000,
        payment_hash: A,
        cltv_expiry: 400,
        onion: Box::new([0; 1366]),
        origin,
    };
    let begin = [vec![1], u(8, 5000), A.to_vec(), u(4, 400), vec![0; 1366]].concat();
    is(&add(None), &[begin.clone(), vec![0]]);
    is(&add(Some((A, 7))), &[begin, vec![1], A.to_vec(), u(8, 7)]);
    let mark = Mark::Fail { reason: b"reason".to_vec() };
    is(&Command::Decide { event: 3, mark }, &[vec![8], u(8, 3), vec![2], u(8, 6), b"reason".to_vec()]);
    is(&Command::Decide { event: 3, mark: Mark::Nothing }, &[vec![8], u(8, 3), vec![0]]);
    let mark = Mark::Forward { channel: A, amount_msat: 1000, cltv_expiry: 400 };
    is(&Command::Resume { event: 3, mark }, &[vec![10], u(8, 3), vec![1], A.to_vec(), u(8, 1000), u(4, 400)]);
    is(&Question::Secret { number: 8, point: [2; 33] }, &[vec![2], u(8, 8), vec![2; 33]]);
    is(&Question::First { channel: A, view: view() }, &[vec![6], A.to_vec(), view_bytes()]);
    is(
        &Blank::Signatures { role: Role::Fundee, number: 9, point: [2; 33], view: view() },
        &[vec![1, 1], u(8, 9), vec![2; 33], view_bytes()],
    );
    let signatures = HeldSignatures { number: 4, signature: S, htlc_signatures: vec![S] };
    let record = Record { channel: A, signatures: Some(signatures), secrets: vec![(3, A)], record: b"record".to_vec() };
    let held = [vec![1], u(8, 4), S.to_vec(), u(8, 1), S.to_vec(), u(8, 1), u(8, 3), A.to_vec()].concat();
    is(&record, &[A.to_vec(), held, u(8, 6), b"record".to_vec()]);
    let saved = Item::from_bytes(&[vec![1], record.to_bytes()].concat());
    assert_eq!(saved, Ok(Item::Record(record)));
    let event = Event::Settled { own: true, id: 0, how: How::Failed { reason: b"no".to_vec() } };
    let bytes = [vec![4], u(8, 2), vec![1, 1], u(8, 0), vec![1], u(2, 2), b"no".to_vec()].concat();
    assert_eq!(Item::from_bytes(&bytes), Ok(Item::Event(2, event)));
    assert_eq!(Item::from_bytes(&[3, 0, 18]), Ok(Item::Send(vec![0, 18])));
    assert_eq!(Item::from_bytes(&[6]), Err(Malformed));
    assert_eq!(Command::from_bytes(&[11]), Err(Malformed));
    assert_eq!(Commitment::from_bytes(&[4]), Err(Malformed));
    let summary = Summary {
        connection: Connection::Down,
        halted: true,
        channel: None,
        status: Status::Failed,
        value: 34,
        lost_data: LostData::Own,
        commitment_number: 1,
        signed_number: 2,
        revoked_number: 3,
        own_msat: 4,
        peer_msat: 5,
        live_htlcs: 6,
        next_htlc_id: 7,
        removed_htlcs: vec![8],
    };
    let seen: Vec<u8> = [1, 2, 3, 4, 5, 6, 7, 1, 8].into_iter().flat_map(|number| u(8, number)).collect();
    is(&summary, &[vec![0, 1, 0, 4], u(8, 34), vec![1], seen]);
}

#[test]
fn ids() {
    let mut txid = [0; 32];
    txid[30..].copy_from_slice(&[0x12, 0x34]);
    assert_eq!(channel_id(&txid, 0x0102)[30..], [0x13, 0x36]);
}

fn hex(bytes: &[u8]) -> String {
    bytes.iter().map(|byte| format!("{byte:02x}")).collect()
}

#[test]
fn hashes_of_fips_180() {
    assert_eq!(hex(&sha256(b"abc")), "ba7816bf8f01cfea414140de5dae2223b00361a396177a9cb410ff61f20015ad");
    let text = b"abcdbcdecdefdefgefghfghighijhijkijkljklmklmnlmnomnopnopq";
    assert_eq!(hex(&sha256(text)), "248d6a61d20638b8e5c026930c3e6039a33ce45964ff2167f6ecedd419db06c1");
}

#[test]
fn secrets_of_bolt_3() {
    let seed = [1; 32];
    let expected = "915c75942a26bb3a433a8ce2cb0427c29ec6c1775cfc78328b57f6ba7bfeaa9c";
    assert_eq!(hex(&generate_from_seed(&seed, 1)), expected);
    let expected = "02a40c85b6f28da08dfdbe0926c53fab2de6d28c10301f8f7c4073d5e42e3148";
    assert_eq!(hex(&generate_from_seed(&[0; 32], (1 << 48) - 1)), expected);
}

#[test]
fn a_signature_is_of_one_digest_and_key() {
    let curve = Curve::new();
    let (key, digest) = (sha256(b"key"), sha256(b"digest"));
    let (point, signature) = (curve.point_of(&key).unwrap(), curve.sign(&key, &digest));
    assert!(curve.verify(&point, &digest, &signature));
    assert!(!curve.verify(&point, &key, &signature));
    assert_eq!(curve.point_of(&[0; 32]), None);
}
