//! Three routing nodes in one process: a payer, a middle node and a payee, with real signatures and records in memory.

use super::ends::{config_of, spec_of};
use super::sha256::sha256;
use super::signer::RealSigner;
use lnlink::message::secret_in;
use lnlink::{
    short_channel_id, Blank, Command, CommitmentTerms, Event, Hash, How, Item, Node, NodeItem, Onion, OnionFound,
    Question, Record, Refused, Settings, Signer, Verdict, Wire,
};
use std::collections::VecDeque;

pub const HEIGHT: u32 = 100;
pub const AMOUNT: u64 = 100_000;
pub const FEE: u64 = 1010;

const SETTINGS: Settings =
    Settings { fee_base_msat: 1000, fee_proportional_millionths: 100, cltv_expiry_delta: 40, mark: [7; 32] };

/// A node with its signers and its last records, by its channels' numbers.
pub struct Hop {
    pub name: &'static str,
    pub node: Node,
    pub signers: Vec<RealSigner>,
    pub records: Vec<Option<Record>>,
    pub inbox: VecDeque<(usize, Vec<u8>)>,
    pub outbox: Vec<(usize, Vec<u8>)>,
    pub settled: Vec<How>,
    pub hold: bool,
}

/// An onion that isn't encrypted: each payload after its length.
fn onion_of(payloads: &[Vec<u8>]) -> Onion {
    let mut onion = Box::new([0; 1366]);
    let layers: Vec<u8> =
        payloads.iter().flat_map(|one| [&(one.len() as u16).to_be_bytes(), &one[..]].concat()).collect();
    onion[..layers.len()].copy_from_slice(&layers);
    onion
}

fn open(onion: &Onion) -> OnionFound {
    let end = 2 + usize::from(u16::from_be_bytes([onion[0], onion[1]]));
    let mut next = Box::new([0; 1366]);
    next[..1366 - end].copy_from_slice(&onion[end..]);
    let payload = onion[2..end].to_vec();
    OnionFound::Opened(payload, if next[..2] == [0, 0] { None } else { Some(next) })
}

/// What a hop is asked for (BOLT 4, "`payload` Format"), and the record 6 or 8.
fn payload(amount: u64, record: &[u8]) -> Vec<u8> {
    let amount = &amount.to_be_bytes()[5..];
    [&[2, 3], amount, &[4, 1, HEIGHT as u8 + 100], record].concat()
}

impl Hop {
    fn new(name: &'static str) -> Hop {
        let mut node = Node::load(&SETTINGS, &[]).unwrap();
        node.set_height(HEIGHT).unwrap();
        let (inbox, outbox) = (VecDeque::new(), Vec::new());
        Hop { name, node, signers: Vec::new(), records: Vec::new(), inbox, outbox, settled: Vec::new(), hold: false }
    }

    fn add(&mut self, signer: RealSigner) {
        self.signers.push(signer);
        self.records.push(None);
    }

    /// As after a crash: the node of the records that were saved.
    pub fn restart(&mut self) {
        let saved: Vec<_> = self.records.iter().flatten().map(Wire::to_bytes).collect();
        self.node = Node::load(&SETTINGS, &saved).unwrap();
        self.node.set_height(HEIGHT).unwrap();
        self.outbox.clear();
        self.inbox.clear();
        self.hand_out();
    }

    fn fill(&mut self, channel: usize, blank: Blank) -> Vec<u8> {
        let signer = &mut self.signers[channel];
        match blank {
            Blank::Signatures { role, number, point, view } => {
                signer.sign(CommitmentTerms { owner: role.other(), number, point: &point, view: &view }).unwrap()
            }
            Blank::Revocation { secret_number, point_number } => {
                [&signer.secret(secret_number).unwrap()[..], &signer.point(point_number).unwrap()].concat()
            }
            Blank::Point { number } => signer.point(number).unwrap().to_vec(),
            Blank::Close { closing } => signer.sign_close(&closing).unwrap(),
        }
    }

    fn answer(&mut self, channel: usize, message: &[u8]) -> Vec<u8> {
        let signer = &mut self.signers[channel];
        match self.node.question(channel, message).unwrap() {
            None => Vec::new(),
            Some(Question::Signatures { role, number, view }) => {
                let point = signer.point(number).unwrap();
                let terms = CommitmentTerms { owner: role, number, point: &point, view: &view };
                vec![u8::from(signer.verify(terms, message).unwrap())]
            }
            Some(Question::Secret { number, point }) => {
                vec![u8::from(signer.fits(number, &point, &secret_in(message).unwrap()).unwrap())]
            }
            Some(Question::OwnSecret { number }) => signer.secret(number).unwrap().to_vec(),
            Some(question) => panic!("{question:?}"),
        }
    }

    fn take(&mut self, item: NodeItem) -> Result<(), Refused> {
        match item {
            NodeItem::Batch { number, records } => {
                for (channel, record) in records {
                    self.records[channel] = Some(record);
                }
                self.node.saved(number)
            }
            NodeItem::Message { channel, message, item: Item::Blank(blank) } => {
                let filling = self.fill(channel, blank);
                self.node.fill(channel, message, &filling)
            }
            NodeItem::Message { channel, message, item: Item::Send(bytes) } => {
                self.outbox.push((channel, bytes));
                self.node.sent(channel, message)
            }
            NodeItem::Onion(Some((hash, onion))) => self.node.onion(&hash, &onion, &open(&onion)),
            NodeItem::Wrap { channel, message, came_back, failure, .. } => {
                let says = if came_back { "passes on: " } else { "says: " };
                let wrapped = [self.name.as_bytes(), b" ", says.as_bytes(), &failure].concat();
                self.node.fill(channel, message, &wrapped)
            }
            NodeItem::Event { channel, number, event } => {
                let incoming = matches!(event, Event::Added { own: false, .. });
                if let Event::Settled { own: true, how, .. } = event {
                    self.settled.push(how);
                }
                let verdict = if incoming && self.hold { Verdict::Hold } else { Verdict::GoOn };
                self.node.verdict(channel, number, &verdict)
            }
            item => panic!("{item:?}"),
        }
    }

    pub fn hand_out(&mut self) {
        while let Some(item) = self.node.next_item().unwrap() {
            self.take(item).unwrap();
        }
    }

    fn receive(&mut self, channel: usize, message: &[u8]) {
        let answer = self.answer(channel, message);
        self.node.message(channel, message, &answer).unwrap();
        self.hand_out();
    }
}

/// The payer's node, the middle one and the payee's; channel 0 of the middle one is with the payer, 1 with the payee.
pub struct Line {
    pub hops: [Hop; 3],
}

/// Which channel of which node is at the other side.
fn peer(hop: usize, channel: usize) -> (usize, usize) {
    match (hop, channel) {
        (0, _) => (1, 0),
        (1, 0) => (0, 0),
        (1, _) => (2, 0),
        _ => (1, 1),
    }
}

impl Line {
    /// Both channels are ready.
    pub fn opened() -> Line {
        let mut line = Line { hops: ["payer", "middle", "payee"].map(Hop::new) };
        for (at, (funder, fundee)) in [(0, 1), (1, 2)].into_iter().enumerate() {
            let names = [format!("funder {at}"), format!("fundee {at}")];
            let mut mine = RealSigner::new(&names[0], &names[1]);
            let mut theirs = RealSigner::new(&names[1], &names[0]);
            let mut spec = spec_of(&mut mine);
            spec.temporary_channel_id = [at as u8 + 1; 32];
            spec.funding_txid = [at as u8 + 1; 32];
            let point = mine.point(0).unwrap();
            line.hops[funder].node.open(&spec, &point).unwrap();
            let (config, point) = (config_of(&mut theirs), theirs.point(0).unwrap());
            line.hops[fundee].node.accept(&config, &point).unwrap();
            line.hops[funder].add(mine);
            line.hops[fundee].add(theirs);
        }
        line.connect();
        for (hop, channel) in [(0, 0), (1, 0), (1, 1), (2, 0)] {
            let place = if (hop, channel) == (1, 1) || hop == 2 { 2 } else { 1 };
            let confirm = Command::Confirm { short_channel_id: short_channel_id(110, place, 1) };
            line.hops[hop].node.command(channel, &confirm).unwrap();
            line.hops[hop].hand_out();
        }
        line.settle();
        line
    }

    pub fn connect(&mut self) {
        for (hop, channel) in [(0, 0), (1, 0), (1, 1), (2, 0)] {
            self.hops[hop].node.connect(channel).unwrap();
            self.hops[hop].hand_out();
        }
        self.settle();
    }

    pub fn cut(&mut self) {
        for (hop, channel) in [(0, 0), (1, 0), (1, 1), (2, 0)] {
            self.hops[hop].node.disconnect(channel).unwrap();
            self.hops[hop].hand_out();
            self.hops[hop].outbox.clear();
            self.hops[hop].inbox.clear();
        }
    }

    /// Delivers and signs until nothing is to be done.
    pub fn settle(&mut self) {
        loop {
            for hop in 0..3 {
                self.hops[hop].node.sign().unwrap();
                self.hops[hop].hand_out();
                for (channel, message) in std::mem::take(&mut self.hops[hop].outbox) {
                    let (other, theirs) = peer(hop, channel);
                    self.hops[other].inbox.push_back((theirs, message));
                }
            }
            if self.hops.iter().all(|hop| hop.inbox.is_empty()) {
                return;
            }
            for hop in &mut self.hops {
                while let Some((channel, message)) = hop.inbox.pop_front() {
                    hop.receive(channel, &message);
                }
            }
        }
    }

    /// The payer pays the payee, who expects that or doesn't.
    pub fn pay(&mut self, preimage: Hash, expected: bool) {
        let secret = sha256(&preimage);
        if expected {
            self.hops[2].node.expect(&preimage, &secret, AMOUNT).unwrap();
        }
        let next = [&[6, 8][..], &short_channel_id(110, 2, 1)].concat();
        let data = [&[8, 35][..], &secret, &AMOUNT.to_be_bytes()[5..]].concat();
        let add = Command::Add {
            amount_msat: AMOUNT + FEE,
            payment_hash: sha256(&preimage),
            cltv_expiry: HEIGHT + 140,
            onion: onion_of(&[payload(AMOUNT, &next), payload(AMOUNT, &data)]),
            origin: None,
        };
        self.hops[0].node.command(0, &add).unwrap();
        self.settle();
    }

    /// What the three have in their channels, in msat.
    pub fn own_msat(&self) -> [u64; 3] {
        let of = |hop: usize, channel| self.hops[hop].node.look(channel).unwrap().own_msat;
        [of(0, 0), of(1, 0) + of(1, 1), of(2, 0)]
    }
}
