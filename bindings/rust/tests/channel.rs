//! Two channels in one process, with real signatures and files: what a wallet does with them, over lost connections,
//! restarts and failing disks.

mod common;

use common::ends::{add, channel, Break, Wire};
use lnlink::{Channel, Command, Commitment, Error, Event, LostData, Record, Refused, Signer, Status, Store, Wire as _};
use std::fs::OpenOptions;
use std::io::Write;

const ALL: usize = usize::MAX;

#[test]
fn opens() {
    let mut wire = Wire::opened();
    for (at, own_msat) in [(0, 600_000_000), (1, 400_000_000)] {
        let summary = wire.ends[at].channel().summary().unwrap();
        assert_eq!((summary.status, summary.channel), (Status::Ready, Some(channel())));
        assert_eq!(summary.own_msat, own_msat);
    }
}

#[test]
fn hundred_payments_both_ways() {
    let mut wire = Wire::opened();
    for done in (10..=100).step_by(10) {
        wire.ends.iter_mut().for_each(|end| end.to_pay = done);
        wire.run(ALL).unwrap();
    }
    wire.check_payments();
    for at in 0..2 {
        // Each of the peer's commitments but the last is revoked, and its secret is kept.
        let revoked = wire.ends[at].channel().summary().unwrap().revoked_number;
        let secrets = wire.ends[at].disk().files.secrets(&channel()).unwrap();
        assert_eq!(secrets.iter().map(|(number, _)| *number).collect::<Vec<_>>(), (0..revoked).collect::<Vec<_>>());
        for (number, secret) in secrets {
            assert_eq!(secret, wire.ends[1 - at].channel().parts().1.secret(number).unwrap());
        }
    }
}

/// Pays three payments each way; before the message `at` of that the connection is lost, and these ends restart.
fn play(at: usize, restarted: &[usize]) -> bool {
    let mut wire = Wire::opened();
    let until = wire.delivered + at;
    wire.ends.iter_mut().for_each(|end| end.to_pay = 3);
    let broken = wire.run(until) == Err(Break::Cut);
    if broken {
        wire.cut(restarted);
        wire.connect();
        wire.run(ALL).unwrap();
    }
    wire.check_payments();
    broken
}

#[test]
fn lost_connection_at_each_message() {
    assert!((0..).take_while(|at| play(*at, &[])).count() > 20);
}

#[test]
fn restarts_at_each_message() {
    for restarted in [&[0][..], &[1], &[0, 1]] {
        assert!((0..).take_while(|at| play(*at, restarted)).count() > 20);
    }
}

/// Pays while one save of an end fails, by which that end comes back from the record before.
fn play_with_bad_disk(end: usize, save: u32) -> bool {
    let mut wire = Wire::opened();
    let disk = wire.ends[end].disk();
    disk.fails_at = Some(disk.saves + save);
    wire.ends.iter_mut().for_each(|end| end.to_pay = 3);
    let failed = wire.run(ALL) == Err(Break::DiskFailed(end));
    if failed {
        wire.cut(&[end]);
        wire.connect();
        wire.run(ALL).unwrap();
    }
    wire.check_payments();
    failed
}

#[test]
fn disk_fails_at_each_save() {
    for end in 0..2 {
        assert!((1..).take_while(|save| play_with_bad_disk(end, *save)).count() > 10);
    }
}

#[test]
fn a_store_that_fails_lets_nothing_be_sent() {
    let mut wire = Wire::opened();
    wire.command(0, &add("funder", 0)).unwrap();
    let funder = wire.ends[0].channel();
    let before = funder.parts().2.load(&channel()).unwrap();
    let disk = funder.parts().2;
    disk.fails_at = Some(disk.saves + 1);
    assert!(matches!(funder.command(&Command::Sign), Err(Error::Host(_))));
    assert_eq!(funder.parts().2.load(&channel()).unwrap(), before);
    let sent = funder.flush().unwrap();
    assert_ne!(funder.parts().2.load(&channel()).unwrap(), before);
    assert_eq!(sent.iter().map(|message| message[..2].to_vec()).collect::<Vec<_>>(), [[0, 132]]);
}

#[test]
fn changes_the_feerate() {
    let mut wire = Wire::opened();
    wire.command(0, &Command::Fee { feerate_per_kw: 500 }).unwrap();
    wire.run(ALL).unwrap();
    for end in &mut wire.ends {
        assert_eq!(end.channel().view(Commitment::Own).unwrap().feerate_per_kw, 500);
    }
}

#[test]
fn closes() {
    for first in 0..2 {
        let mut wire = Wire::opened();
        wire.ends[0].to_pay = 3;
        wire.run(ALL).unwrap();
        wire.command(first, &Command::Shutdown { scriptpubkey: b"a script".to_vec() }).unwrap();
        wire.settle(ALL).unwrap();
        for end in &mut wire.ends {
            let summary = end.channel().summary().unwrap();
            assert_eq!((summary.status, summary.value), (Status::Closed, 300));
            let events = end.events.lock().unwrap();
            assert_eq!(events.values().last(), Some(&Event::Closed { fee_satoshis: 300 }));
        }
    }
}

fn refusal<T: std::fmt::Debug>(answer: Result<T, Error>) -> Refused {
    match answer {
        Err(Error::Refused(refused, _)) => refused,
        other => panic!("{other:?}"),
    }
}

#[test]
fn commands_are_refused() {
    let mut wire = Wire::opened();
    let [funder, fundee] = &mut wire.ends;
    let (funder, fundee) = (funder.channel(), fundee.channel());
    assert_eq!(refusal(funder.command(&Command::Sign)), Refused::NothingToSign);
    assert_eq!(refusal(fundee.command(&Command::Fee { feerate_per_kw: 1 })), Refused::PeerLimit(30));
    let none = Command::Fulfil { id: 0, payment_preimage: [0; 32] };
    assert_eq!(refusal(funder.command(&none)), Refused::PeerLimit(28));
    assert_eq!(refusal(funder.connect()), Refused::NotReady);
    funder.command(&add("funder", 0)).unwrap();
    let shutdown = Command::Shutdown { scriptpubkey: Vec::new() };
    assert_eq!(refusal(funder.command(&shutdown)), Refused::UpdatesPending);
    funder.command(&Command::Sign).unwrap();
    assert_eq!(refusal(funder.command(&Command::Sign)), Refused::SignatureOutstanding);
    funder.disconnect().unwrap();
    assert_eq!(refusal(funder.command(&add("funder", 1))), Refused::Disconnected);
}

#[test]
fn a_wrong_signature_fails_the_channel() {
    let mut wire = Wire::opened();
    wire.command(0, &add("funder", 0)).unwrap();
    wire.command(0, &Command::Sign).unwrap();
    wire.deliver(1).unwrap();
    let mut signed = wire.ends[1].inbox.pop_front().unwrap();
    signed[40] ^= 1;
    let fundee = wire.ends[1].channel();
    let Err(Error::Refused(refused, messages)) = fundee.receive(&signed) else {
        panic!("a wrong signature is taken");
    };
    assert_eq!(refused, Refused::SignatureWrong);
    assert_eq!(messages, [lnlink::message::error(&channel(), "refused 31")]);
    wire.ends[1].load();
    let summary = wire.ends[1].channel().summary().unwrap();
    assert_eq!((summary.status, summary.value), (Status::Failed, 31));
}

#[test]
fn a_channel_that_was_rolled_back_tells_whose_data_is_lost() {
    let mut wire = Wire::opened();
    let old = wire.ends[1].disk().load(&channel()).unwrap().unwrap();
    wire.ends[0].to_pay = 3;
    wire.run(ALL).unwrap();
    wire.cut(&[]);
    wire.ends[1].disk().save(&Record::from_bytes(&old).unwrap()).unwrap();
    wire.ends[1].load();
    wire.connect();
    for (at, lost_data) in [(1, LostData::Own), (0, LostData::Peer)] {
        let reestablish = wire.ends[at].inbox.pop_front().unwrap();
        let Err(Error::Refused(refused, _)) = wire.ends[at].channel().receive(&reestablish) else {
            panic!("an old record is served");
        };
        assert_eq!(refused, Refused::ReestablishNumber(lost_data));
        wire.ends[at].load();
        let summary = wire.ends[at].channel().summary().unwrap();
        assert_eq!((summary.status, summary.value, summary.lost_data), (Status::Failed, 34, lost_data));
    }
}

#[test]
fn calls_are_refused_without_change() {
    let mut wire = Wire::opened();
    wire.command(0, &add("funder", 0)).unwrap();
    wire.command(0, &Command::Sign).unwrap();
    wire.deliver(1).unwrap();
    let signed = wire.ends[1].inbox[0].clone();
    let link = wire.ends[1].channel().parts().0;
    let before = link.look().unwrap();
    assert_eq!(link.message(&signed, &[]), Err(Refused::Asks));
    assert_eq!(link.message(&signed, &[2]), Err(Refused::Answer));
    assert_eq!(link.message(&signed[..50], &[]), Err(Refused::Truncated));
    assert_eq!(link.done(&[]), Err(Refused::NotReady));
    assert_eq!(link.look().unwrap(), before);
    wire.settle(ALL).unwrap();
}

#[test]
fn records_are_refused() {
    let mut wire = Wire::opened();
    let saved = wire.ends[0].disk().load(&channel()).unwrap().unwrap();
    assert!(lnlink::Link::load(&saved).is_ok());
    let load = |bytes: &[u8]| lnlink::Link::load(bytes).err();
    assert_eq!(load(&saved[..saved.len() - 1]), Some(Refused::Damaged));
    let mut other = Record::from_bytes(&saved).unwrap();
    other.channel[0] ^= 1;
    let (signer, mut store, on_event) = wire.ends[0].channel.take().unwrap().into_parts();
    store.save(&other).unwrap();
    assert_eq!(refusal(Channel::load(&other.channel, signer, store, on_event).map(|_| ())), Refused::Damaged);
}

#[test]
fn a_torn_file_of_secrets_is_mended() {
    let mut wire = Wire::opened();
    wire.ends.iter_mut().for_each(|end| end.to_pay = 1);
    wire.run(ALL).unwrap();
    let before = wire.ends[0].disk().files.secrets(&channel()).unwrap();
    let name: String = channel().iter().map(|byte| format!("{byte:02x}")).collect();
    let path = wire.folder().join("funder").join(format!("{name}.secrets"));
    OpenOptions::new().append(true).open(path).unwrap().write_all(b"torn").unwrap();
    wire.ends.iter_mut().for_each(|end| end.to_pay = 2);
    wire.run(ALL).unwrap();
    let after = wire.ends[0].disk().files.secrets(&channel()).unwrap();
    assert!(after.starts_with(&before) && after.len() > before.len());
}

#[test]
fn a_channel_moves_between_threads() {
    let mut wire = Wire::opened();
    let mut channel = wire.ends[0].channel.take().unwrap();
    let (channel, sent) = std::thread::spawn(move || {
        let sent = channel.command(&add("funder", 0)).unwrap();
        (channel, sent)
    })
    .join()
    .unwrap();
    assert_eq!(sent.len(), 1);
    wire.ends[0].channel = Some(channel);
}
