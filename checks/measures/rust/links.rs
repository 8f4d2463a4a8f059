//! Two links of one channel, each saving its record after each call, in plain Rust: what crates/ln_link_calls does for
//! lines of an opening, of HTLCs that are offered, signed, fulfilled and decided, and of `forget`, to compare with
//! (checks/measure program). It reads and checks each message, keeps a base and a window as a link does, writes the same
//! records and prints the same lines. Refusals are told by their numbers alone, and of updates it knows adds and
//! fulfilments.
use std::collections::{BTreeMap, HashMap, VecDeque};
use std::fmt::Write as _;
use std::io::{self, BufRead, Write};

type Id = [u8; 32];
type Point = [u8; 33];
type Signature = [u8; 64];
type Answer<T> = Result<T, u16>;

const ONION: usize = 1366;
const TEMPORARY: Id = [255; 32];
const TXID: Id = [9; 32];
const OUTPUT: u16 = 258;

// ---- SHA-256

const K: [u32; 64] = [
    0x428a2f98, 0x71374491, 0xb5c0fbcf, 0xe9b5dba5, 0x3956c25b, 0x59f111f1, 0x923f82a4, 0xab1c5ed5,
    0xd807aa98, 0x12835b01, 0x243185be, 0x550c7dc3, 0x72be5d74, 0x80deb1fe, 0x9bdc06a7, 0xc19bf174,
    0xe49b69c1, 0xefbe4786, 0x0fc19dc6, 0x240ca1cc, 0x2de92c6f, 0x4a7484aa, 0x5cb0a9dc, 0x76f988da,
    0x983e5152, 0xa831c66d, 0xb00327c8, 0xbf597fc7, 0xc6e00bf3, 0xd5a79147, 0x06ca6351, 0x14292967,
    0x27b70a85, 0x2e1b2138, 0x4d2c6dfc, 0x53380d13, 0x650a7354, 0x766a0abb, 0x81c2c92e, 0x92722c85,
    0xa2bfe8a1, 0xa81a664b, 0xc24b8b70, 0xc76c51a3, 0xd192e819, 0xd6990624, 0xf40e3585, 0x106aa070,
    0x19a4c116, 0x1e376c08, 0x2748774c, 0x34b0bcb5, 0x391c0cb3, 0x4ed8aa4a, 0x5b9cca4f, 0x682e6ff3,
    0x748f82ee, 0x78a5636f, 0x84c87814, 0x8cc70208, 0x90befffa, 0xa4506ceb, 0xbef9a3f7, 0xc67178f2,
];

fn block(state: &mut [u32; 8], bytes: &[u8; 64]) {
    let mut w = [0u32; 64];
    for (word, four) in w.iter_mut().zip(bytes.chunks_exact(4)) {
        *word = u32::from_be_bytes(four.try_into().unwrap());
    }
    for i in 16..64 {
        let a = w[i - 15].rotate_right(7) ^ w[i - 15].rotate_right(18) ^ (w[i - 15] >> 3);
        let b = w[i - 2].rotate_right(17) ^ w[i - 2].rotate_right(19) ^ (w[i - 2] >> 10);
        w[i] = w[i - 16].wrapping_add(a).wrapping_add(w[i - 7]).wrapping_add(b);
    }
    let [mut a, mut b, mut c, mut d, mut e, mut f, mut g, mut h] = *state;
    for i in 0..64 {
        let s = e.rotate_right(6) ^ e.rotate_right(11) ^ e.rotate_right(25);
        let x = h.wrapping_add(s).wrapping_add((e & f) ^ (!e & g)).wrapping_add(K[i]).wrapping_add(w[i]);
        let t = a.rotate_right(2) ^ a.rotate_right(13) ^ a.rotate_right(22);
        let y = t.wrapping_add((a & b) ^ (a & c) ^ (b & c));
        (h, g, f, e, d, c, b, a) = (g, f, e, d.wrapping_add(x), c, b, a, x.wrapping_add(y));
    }
    for (word, more) in state.iter_mut().zip([a, b, c, d, e, f, g, h]) {
        *word = word.wrapping_add(more);
    }
}

fn sha256(bytes: &[u8]) -> [u8; 32] {
    let mut state = [
        0x6a09e667, 0xbb67ae85, 0x3c6ef372, 0xa54ff53a, 0x510e527f, 0x9b05688c, 0x1f83d9ab, 0x5be0cd19,
    ];
    let (whole, rest) = bytes.as_chunks::<64>();
    for it in whole {
        block(&mut state, it);
    }
    let mut last = [0u8; 128];
    last[..rest.len()].copy_from_slice(rest);
    last[rest.len()] = 0x80;
    let end = if rest.len() < 56 { 64 } else { 128 };
    last[end - 8..end].copy_from_slice(&(8 * bytes.len() as u64).to_be_bytes());
    for it in last[..end].as_chunks::<64>().0 {
        block(&mut state, it);
    }
    let mut digest = [0; 32];
    for (four, word) in digest.chunks_exact_mut(4).zip(state) {
        four.copy_from_slice(&word.to_be_bytes());
    }
    digest
}

// ---- bytes

fn opt(out: &mut Vec<u8>, bytes: Option<&[u8]>) {
    out.push(bytes.is_some() as u8);
    out.extend_from_slice(bytes.unwrap_or(&[]));
}

fn u64s(out: &mut Vec<u8>, numbers: &[u64]) {
    for it in numbers {
        out.extend_from_slice(&it.to_be_bytes());
    }
}

struct Reader<'a>(&'a [u8]);

impl<'a> Reader<'a> {
    fn bytes(&mut self, count: usize) -> Answer<&'a [u8]> {
        let (part, rest) = self.0.split_at_checked(count).ok_or(1u16)?;
        self.0 = rest;
        Ok(part)
    }

    fn array<const N: usize>(&mut self) -> Answer<[u8; N]> {
        Ok(self.bytes(N)?.try_into().unwrap())
    }

    fn u16(&mut self) -> Answer<u16> {
        Ok(u16::from_be_bytes(self.array()?))
    }

    fn u32(&mut self) -> Answer<u32> {
        Ok(u32::from_be_bytes(self.array()?))
    }

    fn u64(&mut self) -> Answer<u64> {
        Ok(u64::from_be_bytes(self.array()?))
    }

    fn bigsize(&mut self) -> Answer<u64> {
        let (number, least) = match self.array::<1>()?[0] {
            253 => (self.u16()? as u64, 253),
            254 => (self.u32()? as u64, 1 << 16),
            255 => (self.u64()?, 1 << 32),
            small => (small as u64, 0),
        };
        if number < least { Err(2) } else { Ok(number) }
    }

    /// The records at the end; here none of an even type is known but 0 in an opening.
    fn records(&mut self, opening: bool) -> Answer<()> {
        let mut next = 0;
        while !self.0.is_empty() {
            let typ = self.bigsize()?;
            if typ < next {
                return Err(3);
            }
            let len = self.bigsize()?;
            self.bytes(usize::try_from(len).map_err(|_| 5u16)?).map_err(|_| 5u16)?;
            if typ % 2 == 0 && !(opening && typ == 0) {
                return Err(4);
            }
            next = typ + 1;
        }
        Ok(())
    }
}

// ---- keys

struct Keys {
    seed: Id,
    tag: Id,
    peer_tag: Id,
}

fn point_of(secret: &Id) -> Point {
    let mut point = [2; 33];
    point[1..].copy_from_slice(&sha256(secret));
    point
}

impl Keys {
    fn secret(&self, number: u64) -> Id {
        let mut bytes = [0; 40];
        bytes[..32].copy_from_slice(&self.seed);
        bytes[32..].copy_from_slice(&number.to_be_bytes());
        sha256(&bytes)
    }

    fn point(&self, number: u64) -> Point {
        point_of(&self.secret(number))
    }
}

/// What signs a view at a number and a point, by a tag.
fn signature(tag: &Id, number: u64, point: &Point, view: &[u8]) -> Signature {
    let mut bytes = Vec::with_capacity(74 + view.len());
    bytes.push(0);
    bytes.extend_from_slice(tag);
    bytes.extend_from_slice(&number.to_be_bytes());
    bytes.extend_from_slice(point);
    bytes.extend_from_slice(view);
    let digest = sha256(&bytes);
    let mut twice = [0; 64];
    twice[..32].copy_from_slice(&digest);
    twice[32..].copy_from_slice(&digest);
    twice
}

// ---- updates

struct Add {
    id: u64,
    amount: u64,
    hash: Id,
    expiry: u32,
    onion: Box<[u8; ONION]>,
}

enum Update {
    Add(Add),
    Fulfil { id: u64, preimage: Id },
}

enum Message {
    Open { satoshis: u64, push: u64, rate: u32, limits: Limits, first: Point },
    Accept { limits: Limits, first: Point },
    Created(Signature),
    Signed(Signature),
    Ready(Point),
    Update(Update),
    Commit(Signature, Vec<Signature>),
    Revoke(Id, Point),
}

fn add_bytes(out: &mut Vec<u8>, add: &Add) {
    u64s(out, &[add.id, add.amount]);
    out.extend_from_slice(&add.hash);
    out.extend_from_slice(&add.expiry.to_be_bytes());
    out.extend_from_slice(&add.onion[..]);
}

/// An update as a record has it.
fn put_update(out: &mut Vec<u8>, update: &Update) {
    match update {
        Update::Add(add) => put_add(out, add),
        Update::Fulfil { id, preimage } => {
            out.push(1);
            u64s(out, &[*id]);
            out.extend_from_slice(preimage);
        }
    }
}

fn put_add(out: &mut Vec<u8>, add: &Add) {
    out.push(0);
    add_bytes(out, add);
    out.push(0);
}

fn update_message(id: &Id, update: &Update) -> Vec<u8> {
    let mut out = Vec::with_capacity(36 + ONION + 52);
    match update {
        Update::Add(add) => {
            out.extend_from_slice(&[0, 128]);
            out.extend_from_slice(id);
            add_bytes(&mut out, add);
        }
        Update::Fulfil { id: htlc, preimage } => {
            out.extend_from_slice(&[0, 130]);
            out.extend_from_slice(id);
            u64s(&mut out, &[*htlc]);
            out.extend_from_slice(preimage);
        }
    }
    out
}

/// The message of these bytes, and the channel that it names.
fn decode(bytes: &[u8]) -> Answer<(Id, Message)> {
    let mut it = Reader(bytes);
    let typ = it.u16()?;
    let mut channel: Id = it.array()?;
    let message = match typ {
        32 => {
            channel = it.array()?;
            let (satoshis, push) = (it.u64()?, it.u64()?);
            let (limits, rate) = (Limits::read(&mut it)?, it.u32()?);
            it.u16()?;
            let limits = Limits { accepted: it.u16()?, ..limits };
            it.bytes(165)?;
            let first = it.array()?;
            it.bytes(1)?;
            Message::Open { satoshis, push, rate, limits, first }
        }
        33 => {
            let limits = Limits::read(&mut it)?;
            it.bytes(6)?;
            let limits = Limits { accepted: it.u16()?, ..limits };
            it.bytes(165)?;
            Message::Accept { limits, first: it.array()? }
        }
        34 => {
            it.bytes(34)?;
            Message::Created(it.array()?)
        }
        35 => Message::Signed(it.array()?),
        36 => Message::Ready(it.array()?),
        128 => {
            let (id, amount, hash, expiry) = (it.u64()?, it.u64()?, it.array()?, it.u32()?);
            let onion = Box::new(it.array()?);
            Message::Update(Update::Add(Add { id, amount, hash, expiry, onion }))
        }
        130 => Message::Update(Update::Fulfil { id: it.u64()?, preimage: it.array()? }),
        132 => {
            let (first, count) = (it.array()?, it.u16()?);
            let mut all = Vec::with_capacity(count as usize);
            for _ in 0..count {
                all.push(it.array()?);
            }
            Message::Commit(first, all)
        }
        133 => Message::Revoke(it.array()?, it.array()?),
        _ => return Err(6),
    };
    it.records(typ < 34)?;
    Ok((channel, message))
}

#[derive(Clone, Copy)]
struct Limits {
    minimum: u64,
    accepted: u16,
    in_flight: u64,
    reserve: u64,
}

impl Limits {
    /// As both messages of an opening have them, but for the count.
    fn read(it: &mut Reader) -> Answer<Limits> {
        it.u64()?;
        let (in_flight, reserve, minimum) = (it.u64()?, it.u64()?, it.u64()?);
        Ok(Limits { minimum, accepted: 0, in_flight, reserve })
    }
}

#[derive(Clone, Copy)]
struct Config {
    limits: Limits,
    fees: [u64; 3],
    script: u8,
}

// ---- one side of a channel

/// What a side's first updates come to, and its later ones.
#[derive(Default)]
struct Side {
    based: usize,
    next: u64,
    balance: u64,
    live: BTreeMap<u64, Add>,
    window: VecDeque<Update>,
    next_id: u64,
}

impl Side {
    fn len(&self) -> usize {
        self.based + self.window.len()
    }

    /// The updates of the window among the first so many.
    fn up_to(&self, count: usize) -> impl Iterator<Item = &Update> {
        self.window.iter().take(count - self.based)
    }

    /// The HTLCs that it removes there.
    fn removed(&self, count: usize) -> Vec<u64> {
        self.up_to(count)
            .filter_map(|it| match it {
                Update::Fulfil { id, .. } => Some(*id),
                Update::Add(_) => None,
            })
            .collect()
    }

    /// Its live HTLCs there, where the other side has removed some.
    fn live<'a>(&'a self, count: usize, removed: &'a [u64]) -> impl Iterator<Item = &'a Add> {
        let later = self.up_to(count).filter_map(|it| match it {
            Update::Add(add) => Some(add),
            Update::Fulfil { .. } => None,
        });
        self.live.values().chain(later).filter(|it| !removed.contains(&it.id))
    }

    fn find(&self, id: u64) -> Option<(usize, &Add)> {
        if let Some(add) = self.live.get(&id) {
            return Some((0, add));
        }
        self.window.iter().enumerate().find_map(|(place, it)| match it {
            Update::Add(add) if add.id == id => Some((self.based + place, add)),
            _ => None,
        })
    }

    /// Its balance there; what it fulfilled was the other side's.
    fn balance(&self, count: usize, other: &Side) -> u64 {
        let (mut spent, mut got) = (0, self.balance);
        for it in self.up_to(count) {
            match it {
                Update::Add(add) => spent += add.amount,
                Update::Fulfil { id, .. } => got += other.find(*id).map_or(0, |it| it.1.amount),
            }
        }
        got - spent
    }
}

type Counts = (usize, usize); // own updates, the peer's

#[derive(Clone, Copy)]
enum Event {
    Own(usize),
    Peer(usize),
}

struct Link {
    funder: bool,
    keys: Keys,
    config: Config,
    limits: Option<Limits>, // the peer's
    open: Vec<u8>,
    accept: Vec<u8>,
    satoshis: u64,
    push: u64,
    rate: u32,
    channel: Option<Id>,
    saved: bool,
    ready_sent: bool,
    ready_taken: bool,
    short_id: Option<[u8; 8]>,
    later_revocation: bool,
    own: Side,
    peer: Side,
    signed: Counts,
    acknowledged: Counts,
    current: Counts,
    commitment: u64,
    signatures: u64,
    revocations: u64,
    point: Point,
    next_point: Point,
    last_secret: Option<Id>,
    decided: u64,
    undecided: VecDeque<Event>,
    store: HashMap<Id, Vec<u8>>,
    inbox: VecDeque<Vec<u8>>,
}

/// What a call hands out.
#[derive(Default)]
struct Outputs {
    sent: Vec<Vec<u8>>,
    told: String,
}

impl Outputs {
    fn send(&mut self, bytes: Vec<u8>) {
        self.sent.push(bytes);
    }
}

impl Link {
    fn new(funder: bool, keys: Keys, config: Config) -> Link {
        Link {
            funder,
            keys,
            config,
            limits: None,
            open: Vec::new(),
            accept: Vec::new(),
            satoshis: 0,
            push: 0,
            rate: 253,
            channel: None,
            saved: false,
            ready_sent: false,
            ready_taken: false,
            short_id: None,
            later_revocation: false,
            own: Side::default(),
            peer: Side::default(),
            signed: (0, 0),
            acknowledged: (0, 0),
            current: (0, 0),
            commitment: 0,
            signatures: 0,
            revocations: 0,
            point: [0; 33],
            next_point: [0; 33],
            last_secret: None,
            decided: 0,
            undecided: VecDeque::new(),
            store: HashMap::new(),
            inbox: VecDeque::new(),
        }
    }

    fn id(&self) -> Id {
        self.channel.unwrap_or(TEMPORARY)
    }

    // ---- views

    /// The bytes of a view, and how many HTLCs are live in it.
    fn view(&self, count: Counts) -> (Vec<u8>, usize) {
        let own = (self.own.balance(count.0, &self.peer), self.peer.removed(count.1));
        let peer = (self.peer.balance(count.1, &self.own), self.own.removed(count.0));
        let mine = (0u8, &self.own, count.0, own);
        let yours = (1u8, &self.peer, count.1, peer);
        let both = if self.funder { [mine, yours] } else { [yours, mine] };
        let mut out = Vec::with_capacity(24 + 53 * (self.own.live.len() + self.peer.live.len() + 4));
        u64s(&mut out, &[both[0].3.0, both[1].3.0]);
        out.extend_from_slice(&self.rate.to_be_bytes());
        out.extend_from_slice(&[0; 4]);
        let mut live = 0;
        for (owner, (_, side, count, (_, removed))) in both.iter().enumerate() {
            for add in side.live(*count, removed) {
                out.push(owner as u8);
                u64s(&mut out, &[add.id, add.amount]);
                out.extend_from_slice(&add.hash);
                out.extend_from_slice(&add.expiry.to_be_bytes());
                live += 1;
            }
        }
        out[20..24].copy_from_slice(&(live as u32).to_be_bytes());
        (out, live)
    }

    /// By what number an add is refused by the side that takes it.
    fn limit(&self, side: &Side, other: &Side, count: Counts, limits: Limits, add: &Add) -> Answer<()> {
        let removed = other.removed(count.1);
        let (mut live, mut flight) = (0, 0);
        for it in side.live(count.0, &removed) {
            live += 1;
            flight += it.amount;
        }
        if add.amount == 0 || add.amount < limits.minimum {
            return Err(23);
        }
        if add.expiry >= 500_000_000 {
            return Err(27);
        }
        if live + 1 > limits.accepted as usize {
            return Err(24);
        }
        if flight + add.amount > limits.in_flight {
            return Err(25);
        }
        if side.balance(count.0, other) < add.amount + 1000 * limits.reserve {
            return Err(26);
        }
        Ok(())
    }

    fn is_ready(&self) -> bool {
        self.ready_sent && self.ready_taken
    }

    // ---- the opening

    fn common(&self, out: &mut Vec<u8>, minimum_depth: Option<u32>, rate: Option<u32>) {
        let limits = self.config.limits;
        u64s(out, &[546, limits.in_flight, limits.reserve, limits.minimum]);
        if let Some(number) = minimum_depth.or(rate) {
            out.extend_from_slice(&number.to_be_bytes());
        }
        out.extend_from_slice(&144u16.to_be_bytes());
        out.extend_from_slice(&limits.accepted.to_be_bytes());
        for byte in 3..8 {
            out.extend_from_slice(&[byte; 33]);
        }
        out.extend_from_slice(&self.keys.point(0));
    }

    fn open_message(&mut self) -> Vec<u8> {
        let mut out = vec![0, 32];
        out.extend_from_slice(&[0; 32]);
        out.extend_from_slice(&TEMPORARY);
        u64s(&mut out, &[self.satoshis, self.push]);
        self.common(&mut out, None, Some(self.rate));
        out.push(0);
        self.open = out[2..].to_vec();
        out
    }

    fn begin(&mut self, limits: Limits, first: Point) -> Answer<()> {
        let fits = 1 <= self.satoshis && self.satoshis <= 2_100_000_000_000_000;
        if !fits || self.push > 1000 * self.satoshis || limits.accepted > 483 {
            return Err(21);
        }
        self.limits = Some(limits);
        self.point = first;
        let mine = 1000 * self.satoshis - self.push;
        (self.own.balance, self.peer.balance) = if self.funder { (mine, self.push) } else { (self.push, mine) };
        Ok(())
    }

    fn first_signature(&self) -> Signature {
        signature(&self.keys.tag, 0, &self.point, &self.view((0, 0)).0)
    }

    fn test_first(&self, sig: &Signature) -> Answer<()> {
        let wanted = signature(&self.keys.peer_tag, 0, &self.keys.point(0), &self.view((0, 0)).0);
        if *sig == wanted { Ok(()) } else { Err(31) }
    }

    fn name(&mut self) {
        let mut id = TXID;
        let last = u16::from_be_bytes([id[30], id[31]]) ^ OUTPUT;
        id[30..].copy_from_slice(&last.to_be_bytes());
        self.channel = Some(id);
    }

    fn take_opening(&mut self, message: Message, bytes: &[u8], out: &mut Outputs) -> Answer<()> {
        match message {
            Message::Open { satoshis, push, rate, limits, first } if !self.funder && self.limits.is_none() => {
                (self.satoshis, self.push, self.rate) = (satoshis, push, rate);
                self.begin(limits, first)?;
                self.open = bytes[2..].to_vec();
                let mut accept = vec![0, 33];
                accept.extend_from_slice(&TEMPORARY);
                self.common(&mut accept, Some(3), None);
                self.accept = accept[2..].to_vec();
                out.send(accept);
            }
            Message::Accept { limits, first } if self.funder && self.limits.is_none() => {
                self.begin(limits, first)?;
                self.accept = bytes[2..].to_vec();
                self.name();
                let mut created = vec![0, 34];
                created.extend_from_slice(&TEMPORARY);
                created.extend_from_slice(&TXID);
                created.extend_from_slice(&OUTPUT.to_be_bytes());
                created.extend_from_slice(&self.first_signature());
                out.send(created);
            }
            Message::Created(sig) if !self.funder && self.limits.is_some() => {
                self.test_first(&sig)?;
                self.name();
                self.saved = true;
                let mut signed = vec![0, 35];
                signed.extend_from_slice(&self.id());
                signed.extend_from_slice(&self.first_signature());
                out.send(signed);
            }
            Message::Signed(sig) if self.funder && self.channel.is_some() => {
                self.test_first(&sig)?;
                self.saved = true;
            }
            _ => return Err(21),
        }
        Ok(())
    }

    // ---- messages

    fn handle(&mut self, bytes: &[u8], out: &mut Outputs) -> Answer<()> {
        let (channel, message) = decode(bytes)?;
        self.take(channel, message, bytes, out)
    }

    /// A message that was read of these bytes.
    fn take(&mut self, channel: Id, message: Message, bytes: &[u8], out: &mut Outputs) -> Answer<()> {
        if !self.saved {
            self.take_opening(message, bytes, out)?;
        } else if channel != self.id() {
            return Err(20);
        } else {
            match message {
                Message::Ready(point) => (self.ready_taken, self.next_point) = (true, point),
                // An update alone is no news: until a signature covers it no record has it.
                Message::Update(update) => return self.take_update(update),
                Message::Commit(first, all) => self.take_commit(first, all, out)?,
                Message::Revoke(secret, next) => self.take_revoke(secret, next, out)?,
                _ => return Err(21),
            }
        }
        self.save();
        Ok(())
    }

    fn take_update(&mut self, update: Update) -> Answer<()> {
        if !self.is_ready() {
            return Err(21);
        }
        match &update {
            Update::Add(add) => {
                if add.id != self.peer.next_id {
                    return Err(22);
                }
                let count = (self.peer.len(), self.acknowledged.0);
                self.limit(&self.peer, &self.own, count, self.config.limits, add)?;
                self.peer.next_id += 1;
            }
            Update::Fulfil { id, preimage } => {
                let (place, add) = self.own.find(*id).ok_or(28u16)?;
                if place >= self.current.0 || self.peer.removed(self.peer.len()).contains(id) {
                    return Err(28);
                }
                if sha256(preimage) != add.hash {
                    return Err(29);
                }
            }
        }
        self.peer.window.push_back(update);
        Ok(())
    }

    fn take_commit(&mut self, first: Signature, all: Vec<Signature>, out: &mut Outputs) -> Answer<()> {
        if !self.is_ready() {
            return Err(21);
        }
        let count = (self.acknowledged.0, self.peer.len());
        let (view, live) = self.view(count);
        let number = self.commitment + 1;
        let wanted = signature(&self.keys.peer_tag, number, &self.keys.point(number), &view);
        if first != wanted || all.len() != live || all.iter().any(|it| *it != wanted) {
            return Err(31);
        }
        let before = self.current.0;
        (self.current, self.commitment, self.later_revocation) = (count, number, true);
        let mut revoke = vec![0, 133];
        revoke.extend_from_slice(&self.id());
        revoke.extend_from_slice(&self.keys.secret(number - 1));
        revoke.extend_from_slice(&self.keys.point(number + 1));
        out.send(revoke);
        self.tell(true, before, self.current.0, out);
        Ok(())
    }

    fn take_revoke(&mut self, secret: Id, next: Point, out: &mut Outputs) -> Answer<()> {
        if self.signatures == self.revocations {
            return Err(33);
        }
        if point_of(&secret) != self.point {
            return Err(32);
        }
        let before = self.acknowledged.1;
        self.acknowledged = self.signed;
        self.revocations += 1;
        (self.point, self.next_point, self.last_secret) = (self.next_point, next, Some(secret));
        self.tell(false, before, self.acknowledged.1, out);
        Ok(())
    }

    /// Events of updates that are held from now on.
    fn tell(&mut self, own: bool, from: usize, to: usize, out: &mut Outputs) {
        let _ = write!(out.told, " committed {} {}", self.current.0, self.acknowledged.1);
        for n in from..to {
            let side = if own { &self.own } else { &self.peer };
            let number = self.decided + self.undecided.len() as u64;
            let words = ["peer", "own"];
            let _ = match &side.window[n - side.based] {
                Update::Add(add) => write!(out.told, " event {number} added {} {}", words[own as usize], add.id),
                Update::Fulfil { id, .. } => {
                    write!(out.told, " event {number} settled {} {id} fulfilled", words[!own as usize])
                }
            };
            self.undecided.push_back(if own { Event::Own(n) } else { Event::Peer(n) });
        }
    }

    // ---- commands

    fn command(&mut self, word: &str, numbers: &[u64], out: &mut Outputs) -> Answer<()> {
        if !self.saved {
            return Err(40);
        }
        match word {
            "forget" => {}
            "decide" => {
                if self.undecided.is_empty() || numbers[0] != self.decided {
                    return Err(40);
                }
                self.undecided.pop_front();
                self.decided += 1;
            }
            "confirm" if self.ready_sent => return Err(40),
            "confirm" => {
                (self.ready_sent, self.short_id) = (true, Some([0, 0, 1, 0, 0, 1, 0, 0]));
                let mut ready = vec![0, 36];
                ready.extend_from_slice(&self.id());
                ready.extend_from_slice(&self.keys.point(1));
                out.send(ready);
            }
            _ if !self.is_ready() => return Err(40),
            "sign" => self.sign(out)?,
            "add" => {
                let hash = sha256(&[numbers[2] as u8; 32]);
                return self.offer(numbers[0], numbers[1] as u32, hash, Box::new([0; ONION]), out);
            }
            _ => {
                let (id, preimage) = (numbers[0], [numbers[1] as u8; 32]);
                let (place, add) = self.peer.find(id).ok_or(44u16)?;
                if self.own.removed(self.own.len()).contains(&id) {
                    return Err(49);
                }
                if place >= self.acknowledged.1 {
                    return Err(48);
                }
                if sha256(&preimage) != add.hash {
                    return Err(44);
                }
                self.propose(Update::Fulfil { id, preimage }, out);
                return Ok(());
            }
        }
        self.save();
        Ok(())
    }

    fn offer(
        &mut self,
        amount: u64,
        expiry: u32,
        hash: Id,
        onion: Box<[u8; ONION]>,
        out: &mut Outputs,
    ) -> Answer<()> {
        let add = Add { id: self.own.next_id, amount, hash, expiry, onion };
        let count = (self.own.len(), self.current.1);
        self.limit(&self.own, &self.peer, count, self.limits.ok_or(40u16)?, &add).map_err(|_| 44u16)?;
        self.own.next_id += 1;
        self.propose(Update::Add(add), out);
        Ok(())
    }

    fn propose(&mut self, update: Update, out: &mut Outputs) {
        out.send(update_message(&self.id(), &update));
        self.own.window.push_back(update);
    }

    /// What a signature made now would cover.
    fn covered(&self) -> Counts {
        (self.own.len(), self.current.1)
    }

    /// Whether a signature can be made, and covers something new.
    fn owes(&self) -> bool {
        self.is_ready() && self.signatures == self.revocations && self.covered() != self.signed
    }

    fn sign(&mut self, out: &mut Outputs) -> Answer<()> {
        if self.signatures != self.revocations {
            return Err(41);
        }
        let covered = self.covered();
        if covered == self.signed {
            return Err(42);
        }
        (self.signed, self.later_revocation) = (covered, false);
        self.signatures += 1;
        let (view, live) = self.view(covered);
        let sig = signature(&self.keys.tag, self.signatures, &self.next_point, &view);
        let mut commit = Vec::with_capacity(100 + 64 * live);
        commit.extend_from_slice(&[0, 132]);
        commit.extend_from_slice(&self.id());
        commit.extend_from_slice(&sig);
        commit.extend_from_slice(&(live as u16).to_be_bytes());
        for _ in 0..live {
            commit.extend_from_slice(&sig);
        }
        out.send(commit);
        let _ = write!(out.told, " signed {}", covered.0);
        Ok(())
    }

    // ---- records

    /// What it holds as irrevocably committed enters the base, up to the first update whose event isn't decided.
    fn settle_base(&mut self) {
        let (mut own, mut peer) = (self.current.0, self.acknowledged.1);
        for it in &self.undecided {
            match it {
                Event::Own(n) => own = own.min(*n),
                Event::Peer(n) => peer = peer.min(*n),
            }
        }
        let mut fulfilled = [Vec::new(), Vec::new()];
        for (side, to, list) in [(&mut self.own, own, 0), (&mut self.peer, peer, 1)] {
            for update in side.window.drain(..to - side.based) {
                match update {
                    Update::Add(add) => {
                        side.balance -= add.amount;
                        side.next += 1;
                        side.live.insert(add.id, add);
                    }
                    Update::Fulfil { id, .. } => fulfilled[list].push(id),
                }
            }
            side.based = to;
        }
        let [by_own, by_peer] = fulfilled;
        for id in by_own {
            self.own.balance += self.peer.live.remove(&id).map_or(0, |it| it.amount);
        }
        for id in by_peer {
            self.peer.balance += self.own.live.remove(&id).map_or(0, |it| it.amount);
        }
    }

    fn save(&mut self) {
        if !self.saved {
            return;
        }
        self.settle_base();
        let record = self.record();
        self.store.insert(self.id(), record);
    }

    fn record(&self) -> Vec<u8> {
        let (funder, fundee) = if self.funder { (&self.own, &self.peer) } else { (&self.peer, &self.own) };
        let live = funder.live.len() + fundee.live.len() + self.own.window.len() + self.peer.window.len();
        let mut out = Vec::with_capacity(1200 + 1430 * live);
        out.extend_from_slice(b"LNLR\0\x01");
        u64s(&mut out, &[0]);
        out.extend_from_slice(&self.id());
        out.push(!self.funder as u8);
        out.push(self.ready_sent as u8 | (self.ready_taken as u8) << 1 | (self.later_revocation as u8) << 4);
        out.extend_from_slice(&[0; 2]);
        for payload in [&self.open, &self.accept] {
            out.extend_from_slice(&(payload.len() as u32).to_be_bytes());
            out.extend_from_slice(payload);
        }
        opt(&mut out, self.short_id.as_ref().map(|it| &it[..]));
        u64s(&mut out, &self.config.fees);
        out.extend_from_slice(&[0, 1, self.config.script]);
        opt(&mut out, None);
        u64s(&mut out, &[self.commitment, self.signatures, self.revocations]);
        out.extend_from_slice(&self.point);
        out.extend_from_slice(&self.next_point);
        opt(&mut out, self.last_secret.as_ref().map(|it| &it[..]));
        u64s(&mut out, &[funder.based as u64, fundee.based as u64]);
        u64s(&mut out, &[funder.next, fundee.next, funder.balance, fundee.balance]);
        out.extend_from_slice(&self.rate.to_be_bytes());
        u64s(&mut out, &[(funder.live.len() + fundee.live.len()) as u64]);
        for (role, side) in [(0, funder), (1, fundee)] {
            for add in side.live.values() {
                out.push(role);
                put_add(&mut out, add);
            }
        }
        let covered = if self.funder { (self.signed.0, self.current.1) } else { (self.current.1, self.signed.0) };
        for (side, to) in [(funder, covered.0), (fundee, covered.1)] {
            u64s(&mut out, &[(to - side.based) as u64]);
            for update in side.up_to(to) {
                put_update(&mut out, update);
            }
        }
        for count in [self.signed, self.acknowledged, (self.current.1, self.current.0)] {
            u64s(&mut out, &[count.0 as u64, count.1 as u64]);
        }
        u64s(&mut out, &[self.decided, self.undecided.len() as u64]);
        for it in &self.undecided {
            let (side, number) = match it {
                Event::Own(n) => (0, *n),
                Event::Peer(n) => (1, *n),
            };
            out.push(side);
            u64s(&mut out, &[number as u64]);
        }
        u64s(&mut out, &[0, 0]);
        out.extend_from_slice(&[0; 3]);
        let len = out.len() as u64 - 14;
        out[6..14].copy_from_slice(&len.to_be_bytes());
        let digest = sha256(&out);
        out.extend_from_slice(&digest);
        out
    }
}

// ---- lines

fn told(text: &mut String, answer: Answer<()>, out: Outputs, other: &mut Link) {
    const DIGITS: &[u8; 16] = b"0123456789abcdef";
    match answer {
        Ok(()) => text.push_str("ok"),
        Err(number) => {
            let _ = write!(text, "refused {number}");
            return;
        }
    }
    for bytes in out.sent {
        text.push_str(" sends ");
        text.reserve(2 * bytes.len());
        for byte in &bytes {
            text.push(DIGITS[(byte >> 4) as usize] as char);
            text.push(DIGITS[(byte & 15) as usize] as char);
        }
        other.inbox.push_back(bytes);
    }
    text.push_str(&out.told);
}

fn config(words: &[u64], script: u8) -> Config {
    let limits = Limits { minimum: words[0], accepted: words[1] as u16, in_flight: words[2], reserve: words[3] };
    Config { limits, fees: [words[4], words[5], words[6]], script }
}

fn keys(seed: u64, own: u8, other: u8) -> Keys {
    Keys { seed: [(seed as u8).wrapping_add(own); 32], tag: [own; 32], peer_tag: [other; 32] }
}

fn renew(words: &[u64], text: &mut String) -> Option<[Link; 2]> {
    let mut a = Link::new(true, keys(words[2], 1, 2), config(&words[4..], 65));
    let mut b = Link::new(false, keys(words[2], 2, 1), config(&words[11..], 66));
    (a.satoshis, a.push) = (words[0], words[1]);
    let mut out = Outputs::default();
    let open = a.open_message();
    out.send(open);
    told(text, Ok(()), out, &mut b);
    Some([a, b])
}

fn call(ends: &mut Option<[Link; 2]>, line: &str, text: &mut String) {
    // the names of values stand in one order
    let mut words = line.split(' ').map(|it| it.split_once('=').map_or(it, |pair| pair.1));
    let word = words.next().unwrap_or("");
    if word == "new" {
        let numbers: Vec<u64> = words.map(|it| it.parse().unwrap_or(0)).collect();
        *ends = renew(&numbers, text);
        return;
    }
    let Some([a, b]) = ends else {
        text.push_str("no channel");
        return;
    };
    let (x, y) = if words.next() == Some("A") { (a, b) } else { (b, a) };
    let mut out = Outputs::default();
    if word == "deliver" {
        let Some(bytes) = x.inbox.pop_front() else {
            text.push_str("nothing");
            return;
        };
        let answer = x.handle(&bytes, &mut out);
        return told(text, answer, out, y);
    }
    let numbers: Vec<u64> = words.map(|it| it.parse().unwrap_or(0)).collect();
    let answer = x.command(word, &numbers, &mut out);
    told(text, answer, out, y);
}

fn main() -> io::Result<()> {
    let mut out = io::BufWriter::new(io::stdout().lock());
    let (mut ends, mut text) = (None, String::new());
    for line in io::stdin().lock().lines() {
        text.clear();
        call(&mut ends, &line?, &mut text);
        text.push('\n');
        out.write_all(text.as_bytes())?;
    }
    if let (Some(path), Some(ends)) = (std::env::args().nth(1), &ends) {
        std::fs::write(path, ends.iter().flat_map(|it| it.store.values()).flatten().copied().collect::<Vec<u8>>())?;
    }
    out.flush()
}
