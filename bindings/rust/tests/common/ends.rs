//! Two ends of a channel in one process, each with its keys and its files, and the wire between them.

use super::sha256::sha256;
use super::signer::RealSigner;
use lnlink::{
    channel_id, short_channel_id, BoxError, Channel, Command, Commitment, Config, Error, Event, FileStore, Hash, How,
    Mark, OnEvent, OpenSpec, Record, Refused, Role, Signer, Status, Store,
};
use std::collections::{BTreeMap, VecDeque};
use std::path::{Path, PathBuf};
use std::sync::atomic::{AtomicU32, Ordering};
use std::sync::{Arc, Mutex};
use std::{env, fs, process};

pub const FUNDING_SATOSHIS: u64 = 1_000_000;
pub const PUSH_MSAT: u64 = 400_000_000;
pub const TXID: Hash = [7; 32];

/// The channel that these tests open.
pub fn channel() -> Hash {
    channel_id(&TXID, 1)
}

/// A folder that goes with its value.
pub struct Folder(pub PathBuf);

impl Folder {
    pub fn new() -> Folder {
        static COUNT: AtomicU32 = AtomicU32::new(0);
        let name = format!("lnlink-{}-{}", process::id(), COUNT.fetch_add(1, Ordering::SeqCst));
        let path = env::temp_dir().join(name);
        fs::create_dir_all(&path).unwrap();
        Folder(path)
    }
}

impl Drop for Folder {
    fn drop(&mut self) {
        let _ = fs::remove_dir_all(&self.0);
    }
}

/// A store that counts its saves, and fails at one of them.
pub struct Disk {
    pub files: FileStore,
    pub saves: u32,
    pub fails_at: Option<u32>,
}

impl Store for Disk {
    fn save(&mut self, record: &Record) -> Result<(), BoxError> {
        self.saves += 1;
        if self.fails_at == Some(self.saves) {
            return Err("the disk is full".into());
        }
        self.files.save(record)
    }

    fn load(&mut self, channel: &Hash) -> Result<Option<Vec<u8>>, BoxError> {
        self.files.load(channel)
    }
}

pub fn config_of(signer: &mut RealSigner) -> Config {
    Config {
        htlc_minimum_msat: 1000,
        max_accepted_htlcs: 30,
        max_htlc_value_in_flight_msat: 500_000_000,
        channel_reserve_satoshis: 10_000,
        chain_hash: [6; 32],
        dust_limit_satoshis: 546,
        to_self_delay: 144,
        minimum_depth: 3,
        funding_pubkey: signer.funding_pubkey(),
        revocation_basepoint: signer.point(1 << 20).unwrap(),
        payment_basepoint: signer.point(1 << 21).unwrap(),
        delayed_payment_basepoint: signer.point(1 << 22).unwrap(),
        htlc_basepoint: signer.htlc_basepoint(),
        closing_fee_satoshis: 300,
        min_closing_fee_satoshis: 200,
        max_closing_fee_satoshis: 400,
        shutdown_scriptpubkey: b"script".to_vec(),
    }
}

pub fn spec_of(signer: &mut RealSigner) -> OpenSpec {
    OpenSpec {
        config: config_of(signer),
        funding_satoshis: FUNDING_SATOSHIS,
        push_msat: PUSH_MSAT,
        feerate_per_kw: 253,
        channel_flags: 0,
        temporary_channel_id: [9; 32],
        funding_txid: TXID,
        funding_output_index: 1,
        records: Vec::new(),
    }
}

pub fn preimage_of(payer: &str, number: u64) -> Hash {
    sha256(format!("{payer} {number}").as_bytes())
}

/// The amount of a payment, in msat.
pub fn amount_of(number: u64) -> u64 {
    10_000 + number
}

pub fn add(payer: &str, number: u64) -> Command {
    Command::Add {
        amount_msat: amount_of(number),
        payment_hash: sha256(&preimage_of(payer, number)),
        cltv_expiry: 500,
        onion: Box::new([0; 1366]),
        origin: None,
    }
}

/// What becomes of a payment: one is fulfilled, one failed, one malformed, and so on.
pub fn how_of(payer: &str, number: u64) -> How {
    match number % 3 {
        0 => How::Fulfilled { payment_preimage: preimage_of(payer, number) },
        1 => How::Failed { reason: b"no such payment".to_vec() },
        _ => How::Malformed { sha256_of_onion: sha256(&[0; 1366]), failure_code: 0xc005 },
    }
}

fn removal_of(payer: &str, id: u64) -> Command {
    match how_of(payer, id) {
        How::Fulfilled { payment_preimage } => Command::Fulfil { id, payment_preimage },
        How::Failed { reason } => Command::Fail { id, reason },
        How::Malformed { sha256_of_onion, failure_code } => Command::Malformed { id, sha256_of_onion, failure_code },
    }
}

type Events = Arc<Mutex<BTreeMap<u64, Event>>>;

/// Keeps each event; one is told again only where it is the same.
fn keeps(events: &Events) -> OnEvent {
    let events = Arc::clone(events);
    Box::new(move |number, event| {
        let mut events = events.lock().unwrap();
        assert_eq!(events.entry(number).or_insert_with(|| event.clone()), event);
        Ok(Mark::Nothing)
    })
}

/// An end with a wallet that pays `to_pay` payments of its own, and removes those of the peer's.
pub struct End {
    pub name: &'static str,
    role: Role,
    pub channel: Option<Channel<RealSigner, Disk>>,
    pub events: Events,
    pub inbox: VecDeque<Vec<u8>>,
    pub to_pay: u64,
}

impl End {
    pub fn channel(&mut self) -> &mut Channel<RealSigner, Disk> {
        self.channel.as_mut().unwrap()
    }

    pub fn disk(&mut self) -> &mut Disk {
        self.channel().parts().2
    }

    /// Takes the channel up from its record, as after a restart.
    pub fn load(&mut self) {
        let (signer, store, on_event) = self.channel.take().unwrap().into_parts();
        self.channel = Channel::load(&channel(), signer, store, on_event).unwrap();
    }

    pub fn settled(&self, of_own: bool) -> BTreeMap<u64, How> {
        let events = self.events.lock().unwrap();
        let of = |event: &Event| match event {
            Event::Settled { own, id, how } if *own == of_own => Some((*id, how.clone())),
            _ => None,
        };
        events.values().filter_map(of).collect()
    }

    fn has_added(&self, peers: u64) -> bool {
        let events = self.events.lock().unwrap();
        events.values().any(|event| matches!(event, Event::Added { own: false, id, .. } if *id == peers))
    }

    /// What its wallet has to command now: lost updates are given again.
    fn due(&mut self, peer: &str) -> Vec<Command> {
        let summary = self.channel().summary().unwrap();
        let htlcs = self.channel().view(Commitment::Own).unwrap().htlcs;
        let mut due: Vec<Command> = (summary.next_htlc_id..self.to_pay).map(|number| add(self.name, number)).collect();
        for htlc in htlcs.iter().filter(|htlc| htlc.owner != self.role && self.has_added(htlc.id)) {
            if !summary.removed_htlcs.contains(&htlc.id) {
                due.push(removal_of(peer, htlc.id));
            }
        }
        due
    }
}

/// Both ends, and how many messages were delivered.
pub struct Wire {
    pub ends: [End; 2],
    pub delivered: usize,
    folder: Folder,
}

/// What ends a run: the connection was broken off, or a disk failed.
#[derive(Debug, PartialEq)]
pub enum Break {
    Cut,
    DiskFailed(usize),
}

impl Wire {
    /// Two new ends, connected; `open_channel` is in flight.
    pub fn open() -> Wire {
        let folder = Folder::new();
        let mut signers = [RealSigner::new("funder", "fundee"), RealSigner::new("fundee", "funder")];
        let (spec, config) = (spec_of(&mut signers[0]), config_of(&mut signers[1]));
        let [a, b] = signers;
        let events = [Events::default(), Events::default()];
        let funder = Channel::open(&spec, a, disk(&folder.0, "funder"), keeps(&events[0])).unwrap();
        let fundee = Channel::accept(&config, b, disk(&folder.0, "fundee"), keeps(&events[1])).unwrap();
        let [of_funder, of_fundee] = events;
        let end = |name, role, channel, events| End {
            name,
            role,
            channel: Some(channel),
            events,
            inbox: VecDeque::new(),
            to_pay: 0,
        };
        let ends = [end("funder", Role::Funder, funder, of_funder), end("fundee", Role::Fundee, fundee, of_fundee)];
        let mut wire = Wire { ends, delivered: 0, folder };
        wire.connect();
        wire
    }

    /// A channel that is ready.
    pub fn opened() -> Wire {
        let mut wire = Wire::open();
        wire.settle(usize::MAX).unwrap();
        for at in 0..2 {
            wire.command(at, &Command::Confirm { short_channel_id: short_channel_id(110, 1, 1) }).unwrap();
        }
        wire.settle(usize::MAX).unwrap();
        wire
    }

    pub fn folder(&self) -> &Path {
        &self.folder.0
    }

    fn post(&mut self, from: usize, messages: Vec<Vec<u8>>) {
        self.ends[1 - from].inbox.extend(messages);
    }

    pub fn connect(&mut self) {
        for at in 0..2 {
            let messages = self.ends[at].channel().connect().unwrap();
            self.post(at, messages);
        }
    }

    /// The connection is lost, and what is in flight; these ends come back from their records.
    pub fn cut(&mut self, restarted: &[usize]) {
        for end in &mut self.ends {
            end.channel().disconnect().unwrap();
            end.inbox.clear();
        }
        for at in restarted {
            self.ends[*at].load();
        }
    }

    /// Gives a command. False where it can't be taken yet.
    pub fn command(&mut self, at: usize, command: &Command) -> Result<bool, Break> {
        match self.ends[at].channel().command(command) {
            Ok(messages) => {
                self.post(at, messages);
                Ok(true)
            }
            Err(Error::Refused(Refused::SignatureOutstanding | Refused::NothingToSign | Refused::NotCommitted, _)) => {
                Ok(false)
            }
            Err(Error::Host(_)) => Err(Break::DiskFailed(at)),
            Err(refused) => panic!("{command:?}: {refused}"),
        }
    }

    /// Delivers the oldest message in flight to an end.
    pub fn deliver(&mut self, to: usize) -> Result<(), Break> {
        self.delivered += 1;
        let message = self.ends[to].inbox.pop_front().expect("a message");
        match self.ends[to].channel().receive(&message) {
            Ok(messages) => self.post(to, messages),
            Err(Error::Host(_)) => return Err(Break::DiskFailed(to)),
            Err(refused) => panic!("{}: {refused}", self.ends[to].name),
        }
        Ok(())
    }

    /// Delivers all that is in flight, until so many messages were delivered.
    pub fn settle(&mut self, until: usize) -> Result<(), Break> {
        while let Some(to) = (0..2).find(|at| !self.ends[*at].inbox.is_empty()) {
            if self.delivered == until {
                return Err(Break::Cut);
            }
            self.deliver(to)?;
        }
        Ok(())
    }

    /// Plays until both wallets have nothing to do, or so many messages were delivered.
    pub fn run(&mut self, until: usize) -> Result<(), Break> {
        loop {
            self.settle(until)?;
            let mut worked = false;
            for at in 0..2 {
                let peer = self.ends[1 - at].name;
                for command in self.ends[at].due(peer) {
                    worked |= self.command(at, &command)?;
                }
                match self.ends[at].channel().sign_when_due() {
                    Ok(messages) => {
                        worked |= !messages.is_empty();
                        self.post(at, messages);
                    }
                    Err(Error::Host(_)) => return Err(Break::DiskFailed(at)),
                    Err(refused) => panic!("{refused}"),
                }
            }
            if !worked {
                return Ok(());
            }
        }
    }

    /// All payments are over, each as it should be, and both ends agree on the balances.
    pub fn check_payments(&mut self) {
        let mut funder_msat = 1000 * FUNDING_SATOSHIS - PUSH_MSAT;
        for at in 0..2 {
            let (payer, payee) = (&self.ends[at], &self.ends[1 - at]);
            let expected: BTreeMap<u64, How> = (0..payer.to_pay).map(|n| (n, how_of(payer.name, n))).collect();
            assert_eq!(payer.settled(true), expected);
            assert_eq!(payee.settled(false), expected);
            let paid: u64 = (0..payer.to_pay).filter(|n| n % 3 == 0).map(amount_of).sum();
            funder_msat = if at == 0 { funder_msat - paid } else { funder_msat + paid };
        }
        for end in &mut self.ends {
            for which in [Commitment::Own, Commitment::Peer, Commitment::ToSign, Commitment::ToAccept] {
                let view = end.channel().view(which).unwrap();
                assert_eq!((view.funder_msat, view.htlcs.len()), (funder_msat, 0));
                assert_eq!(view.fundee_msat, 1000 * FUNDING_SATOSHIS - funder_msat);
            }
            assert_eq!(end.channel().summary().unwrap().status, Status::Ready);
        }
    }
}

fn disk(folder: &Path, name: &str) -> Disk {
    Disk { files: FileStore::new(folder.join(name)).unwrap(), saves: 0, fails_at: None }
}
