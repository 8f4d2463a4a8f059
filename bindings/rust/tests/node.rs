//! A routing node without a peer, and three of them, with real signatures, that pay over the middle one.

mod common;

use common::nodes::{Line, AMOUNT, FEE};
use common::sha256::sha256;
use lnlink::{Config, How, Node, NodeItem, OnionFound, Refused, Settings, Verdict};

const SETTINGS: Settings =
    Settings { fee_base_msat: 1000, fee_proportional_millionths: 100, cltv_expiry_delta: 40, mark: [7; 32] };

fn config() -> Config {
    Config {
        htlc_minimum_msat: 1000,
        max_accepted_htlcs: 30,
        max_htlc_value_in_flight_msat: 500_000_000,
        channel_reserve_satoshis: 10_000,
        chain_hash: [6; 32],
        dust_limit_satoshis: 546,
        to_self_delay: 144,
        minimum_depth: 3,
        funding_pubkey: [2; 33],
        revocation_basepoint: [2; 33],
        payment_basepoint: [2; 33],
        delayed_payment_basepoint: [2; 33],
        htlc_basepoint: [2; 33],
        closing_fee_satoshis: 300,
        min_closing_fee_satoshis: 200,
        max_closing_fee_satoshis: 400,
        shutdown_scriptpubkey: Vec::new(),
    }
}

#[test]
fn channels_have_numbers() {
    let mut node = Node::load(&SETTINGS, &[]).unwrap();
    assert_eq!(node.connect(0), Err(Refused::NotReady));
    assert_eq!(node.accept(&config(), &[2; 33]), Ok(0));
    assert_eq!(node.accept(&config(), &[2; 33]), Ok(1));
    assert_eq!(node.connect(1), Ok(()));
    assert_eq!(node.connect(1), Err(Refused::NotReady));
    assert_eq!(node.look(0).unwrap().channel, None);
    assert_eq!(node.look(2), Err(Refused::NotReady));
    assert_eq!(node.disconnect(1), Ok(()));
    assert_eq!(node.next_item(), Ok(None));
    assert_eq!(node.sign(), Ok(()));
}

#[test]
fn what_was_not_handed_out_is_refused() {
    let mut node = Node::load(&SETTINGS, &[]).unwrap();
    node.accept(&config(), &[2; 33]).unwrap();
    assert_eq!(node.saved(1), Err(Refused::NotReady));
    assert_eq!(node.fill(0, 0, &[0; 64]), Err(Refused::NotReady));
    assert_eq!(node.sent(0, 0), Err(Refused::NotReady));
    assert_eq!(node.verdict(0, 0, &Verdict::GoOn), Err(Refused::NotReady));
    assert_eq!(node.verdict(0, 0, &Verdict::Fail { failure_code: 1 }), Err(Refused::Answer));
    assert_eq!(node.resume(0, 0, &Verdict::Hold), Err(Refused::NotReady));
    let onion = Box::new([0; 1366]);
    assert_eq!(node.onion(&[0; 32], &onion, &OnionFound::WrongHmac), Err(Refused::NotReady));
    assert_eq!(node.held(), Ok(Vec::new()));
    assert_eq!(node.set_height(400_000_001), Err(Refused::NotReady));
    assert_eq!(node.set_height(400_000_000), Ok(()));
    assert_eq!(node.expect(&[1; 32], &[2; 32], 1000), Ok(()));
}

#[test]
fn damaged_records_are_refused() {
    for records in [vec![Vec::new()], vec![vec![0; 100]]] {
        assert_eq!(Node::load(&SETTINGS, &records).err(), Some(Refused::Damaged));
    }
}

#[test]
fn items_are_read_from_their_bytes() {
    let mut wrap = vec![5];
    for number in [1u64, 2, 3] {
        wrap.extend_from_slice(&number.to_be_bytes());
    }
    wrap.extend_from_slice(&[0, 1, 9, 9]);
    let failure = vec![9, 9];
    let item = NodeItem::Wrap { channel: 1, message: 2, id: 3, incoming: None, came_back: true, failure };
    assert_eq!(NodeItem::from_bytes(&wrap), Ok(item));
    assert_eq!(NodeItem::from_bytes(&[4, 0]), Ok(NodeItem::Onion(None)));
    let batch = [&[1][..], &7u64.to_be_bytes(), &0u64.to_be_bytes()].concat();
    assert_eq!(NodeItem::from_bytes(&batch), Ok(NodeItem::Batch { number: 7, records: Vec::new() }));
    for bytes in [&[][..], &[9], &[2, 0, 0], &[5, 0]] {
        assert!(NodeItem::from_bytes(bytes).is_err());
    }
}

#[test]
fn forwards_and_passes_failures_back() {
    let mut line = Line::opened();
    let before = line.own_msat();
    line.pay([1; 32], true);
    line.pay([2; 32], false);
    let [paid, failed] = &line.hops[0].settled[..] else { panic!("{:?}", line.hops[0].settled) };
    assert_eq!(*paid, How::Fulfilled { payment_preimage: [1; 32] });
    let How::Failed { reason } = failed else { panic!("{failed:?}") };
    assert!(reason.starts_with(b"middle passes on: payee says: \x40\x0f"));
    assert_eq!(line.own_msat(), [before[0] - AMOUNT - FEE, before[1] + FEE, before[2] + AMOUNT]);
}

#[test]
fn holds_over_a_restart() {
    let mut line = Line::opened();
    line.hops[1].hold = true;
    line.pay([1; 32], true);
    line.hops[1].restart();
    line.cut();
    line.connect();
    assert!(line.hops[0].settled.is_empty());
    let held = line.hops[1].node.held().unwrap();
    assert_eq!((held.len(), held[0].payment_hash), (1, sha256(&[1; 32])));
    line.hops[1].node.resume(held[0].channel as usize, held[0].event, &Verdict::GoOn).unwrap();
    line.settle();
    assert_eq!(line.hops[0].settled, [How::Fulfilled { payment_preimage: [1; 32] }]);
}
