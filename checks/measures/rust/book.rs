//! What `payments` of ln_book_calls does, in plain Rust with the same tables, to compare with (checks/measure program).
use std::collections::HashMap;
use std::io::{self, BufRead};

type Id = [u8; 32];

#[derive(Clone, Copy, PartialEq)]
struct Key {
    channel: Id,
    id: u64,
}

#[derive(Clone)]
enum Mark {
    None,
    Forward { channel: Id, amount: u64, expiry: u32 },
}

enum How {
    Fulfilled([u8; 32]),
}

enum Way {
    Nowhere,
    Offered(Key),
    Over(Key, How),
}

#[derive(Clone, Copy, PartialEq)]
enum Back {
    Open,
    Sent,
    Settled,
}

#[derive(Clone, Copy)]
struct Offer {
    id: u64,
    amount: u64,
    hash: [u8; 32],
    expiry: u32,
    onion: [u8; 1366],
}

struct Htlc {
    key: Key,
    event: u64,
    offer: Offer,
    mark: Mark,
    decided: bool,
    way: Way,
    back: Back,
}

struct Queued {
    channel: Id,
    event: u64,
    mark: Mark,
}

#[derive(Clone, Copy)]
enum Out {
    Deciding(u64),
    Adding(Key),
    Removing(Key),
    Forgetting(Key),
}

#[derive(Clone, Copy)]
struct Line {
    channel: Id,
    base: u64,
    proportional: u64,
    delta: u32,
    minimum: u64,
}

#[allow(dead_code)]
enum Command {
    Decide(u64, Mark),
    Add { amount: u64, hash: [u8; 32], expiry: u32, onion: [u8; 1366], origin: Key },
    Fulfil(u64, [u8; 32]),
    Forget(u64),
}

struct Opened {
    payload: Vec<u8>,
    next: Option<Vec<u8>>,
}

const PAYLOAD: [u8; 18] = [2, 2, 0x13, 0x88, 4, 2, 0x01, 0x90, 6, 8, 0, 0, 0, 0, 0, 0, 0, 1];

/// An onion whose payload is known, and which goes on as it is.
struct KnownOnion {
    payload: Vec<u8>,
}

impl KnownOnion {
    #[inline(never)]
    fn open(&self, onion: &[u8; 1366]) -> Opened {
        Opened { payload: self.payload.clone(), next: Some(onion.to_vec()) }
    }
}

#[derive(Default)]
struct Hop {
    amount: Option<u64>,
    expiry: Option<u64>,
    next: Option<[u8; 8]>,
}

/// The records of a payload, in order and each once.
fn read(bytes: &[u8]) -> Option<Hop> {
    let (mut hop, mut rest, mut last) = (Hop::default(), bytes, -1i32);
    while let [typ, len, behind @ ..] = rest {
        let value = behind.get(..usize::from(*len))?;
        if i32::from(*typ) <= last {
            return None;
        }
        last = i32::from(*typ);
        let number = value.iter().fold(0u64, |all, byte| all << 8 | u64::from(*byte));
        match typ {
            2 => hop.amount = Some(number),
            4 => hop.expiry = Some(number),
            6 => hop.next = Some(value.try_into().ok()?),
            _ => return None,
        }
        rest = &behind[usize::from(*len)..];
    }
    rest.is_empty().then_some(hop)
}

#[derive(Default)]
struct Book {
    routes: HashMap<[u8; 8], Line>,
    used: HashMap<Id, bool>,
    height: u32,
    queue: Vec<Queued>,
    htlcs: Vec<Htlc>,
    desks: HashMap<Id, Out>,
}

impl Book {
    fn mark(&self, onion: &KnownOnion, offer: &Offer) -> Mark {
        let opened = onion.open(&offer.onion);
        let Some(Hop { amount: Some(amount), expiry: Some(expiry), next: Some(next) }) = read(&opened.payload) else {
            return Mark::None;
        };
        let Some(line) = self.routes.get(&next) else { return Mark::None };
        let expiry = expiry as u32;
        let fits = self.used.get(&line.channel) == Some(&true)
            && amount >= line.minimum.max(1)
            && offer.amount >= amount + line.base + amount * line.proportional / 1_000_000
            && offer.expiry >= expiry + line.delta
            && expiry > self.height + 3
            && expiry <= self.height + 2016
            && opened.next.is_some();
        if fits { Mark::Forward { channel: line.channel, amount, expiry } } else { Mark::None }
    }

    fn decide(&mut self, onion: &KnownOnion, channel: Id, event: u64, offer: &Offer) -> Mark {
        let mark = self.mark(onion, offer);
        self.queue.retain(|it| it.channel != channel || it.event != event);
        self.queue.push(Queued { channel, event, mark: mark.clone() });
        let key = Key { channel, id: offer.id };
        if !self.htlcs.iter().any(|it| it.key == key && it.decided) {
            self.htlcs.retain(|it| it.key != key);
            let (decided, way, back) = (false, Way::Nowhere, Back::Open);
            self.htlcs.push(Htlc { key, event, offer: *offer, mark: mark.clone(), decided, way, back });
        }
        mark
    }

    fn due(htlc: &Htlc, channel: &Id) -> Option<Out> {
        if !htlc.decided {
            return None;
        }
        match (&htlc.way, htlc.back, &htlc.mark) {
            (Way::Over(key, _), Back::Settled, _) if key.channel == *channel => Some(Out::Forgetting(htlc.key)),
            (_, Back::Settled, _) => None,
            (Way::Nowhere, _, Mark::Forward { channel: to, .. }) if to == channel => Some(Out::Adding(htlc.key)),
            (Way::Over(..), Back::Open, _) if htlc.key.channel == *channel => Some(Out::Removing(htlc.key)),
            _ => None,
        }
    }

    fn command(onion: &KnownOnion, htlc: &Htlc, out: Out) -> Option<Command> {
        match (out, &htlc.mark, &htlc.way) {
            (Out::Adding(origin), Mark::Forward { amount, expiry, .. }, _) => {
                let next = onion.open(&htlc.offer.onion).next?;
                let (amount, hash, expiry, onion) = (*amount, htlc.offer.hash, *expiry, next[..].try_into().ok()?);
                Some(Command::Add { amount, hash, expiry, onion, origin })
            }
            (Out::Removing(key), _, Way::Over(_, How::Fulfilled(preimage))) => Some(Command::Fulfil(key.id, *preimage)),
            (Out::Forgetting(_), _, Way::Over(key, _)) => Some(Command::Forget(key.id)),
            _ => None,
        }
    }

    fn take(&mut self, onion: &KnownOnion, channel: Id) -> Option<Command> {
        if self.desks.contains_key(&channel) {
            return None;
        }
        let (out, command) = match self.queue.iter().find(|it| it.channel == channel) {
            Some(it) => (Out::Deciding(it.event), Command::Decide(it.event, it.mark.clone())),
            None => self.htlcs.iter().find_map(|it| {
                let out = Self::due(it, &channel)?;
                Some((out, Self::command(onion, it, out)?))
            })?,
        };
        self.desks.insert(channel, out);
        Some(command)
    }

    fn answered(&mut self, channel: Id, id: u64) {
        match self.desks.remove(&channel) {
            Some(Out::Deciding(event)) => {
                self.queue.retain(|it| it.channel != channel || it.event != event);
                if let Some(it) = self.htlcs.iter_mut().find(|it| it.key.channel == channel && it.event == event) {
                    it.decided = true;
                }
            }
            Some(Out::Adding(key)) => {
                if let Some(it) = self.htlcs.iter_mut().find(|it| it.key == key) {
                    it.way = Way::Offered(Key { channel, id });
                }
            }
            Some(Out::Removing(key)) => {
                if let Some(it) = self.htlcs.iter_mut().find(|it| it.key == key) {
                    it.back = Back::Sent;
                }
            }
            Some(Out::Forgetting(key)) => self.htlcs.retain(|it| it.key != key),
            None => {}
        }
    }

    fn over(&mut self, key: Key, how: How) {
        let goes_by = |way: &Way| matches!(way, Way::Offered(it) | Way::Over(it, _) if *it == key);
        if let Some(it) = self.htlcs.iter_mut().find(|it| goes_by(&it.way)) {
            it.way = Way::Over(key, how);
        }
    }

    fn removed(&mut self, key: Key) {
        if let Some(it) = self.htlcs.iter_mut().find(|it| it.key == key) {
            it.back = Back::Settled;
        }
        self.htlcs.retain(|it| it.key != key || it.back != Back::Settled || !matches!(it.way, Way::Nowhere));
    }
}

const FROM: Id = [1; 32];
const TO: Id = [2; 32];

fn given(found: Option<Command>) -> u64 {
    u64::from(std::hint::black_box(found).is_some())
}

fn offer(book: &mut Book, onion: &KnownOnion, id: u64) -> u64 {
    let event = Box::new(Offer { id, amount: 5000, hash: [7; 32], expiry: 440, onion: [0; 1366] });
    std::hint::black_box(book.decide(onion, FROM, id, &event));
    let decided = given(book.take(onion, FROM));
    book.answered(FROM, id);
    let offered = given(book.take(onion, TO));
    book.answered(TO, id);
    decided + offered
}

fn settle(book: &mut Book, onion: &KnownOnion, id: u64) -> u64 {
    book.over(Key { channel: TO, id }, How::Fulfilled([7; 32]));
    let passed = given(book.take(onion, FROM));
    book.answered(FROM, 0);
    book.removed(Key { channel: FROM, id });
    let forgotten = given(book.take(onion, TO));
    book.answered(TO, 0);
    passed + forgotten
}

/// The lines that checks/measure program gives: a route, a use, a height, and `payments`.
fn main() {
    let mut book = Book::default();
    for line in io::stdin().lock().lines() {
        let line = line.unwrap();
        // the names of values stand in one order
        let words: Vec<&str> = line.split(' ').map(|it| it.split_once('=').map_or(it, |pair| pair.1)).collect();
        let n = |place: usize| words.get(place).and_then(|it| it.parse().ok()).unwrap_or(0u64);
        match words[0] {
            "route" => {
                let (base, proportional, delta, minimum) = (n(3), n(4), n(5) as u32, n(6));
                let line = Line { channel: [n(2) as u8; 32], base, proportional, delta, minimum };
                book.routes.insert(n(1).to_be_bytes(), line);
            }
            "use" => drop(book.used.insert([n(1) as u8; 32], n(2) == 1)),
            "height" => book.height = n(1) as u32,
            _ => {
                let onion = KnownOnion { payload: PAYLOAD.to_vec() };
                let mut all: u64 = (0..n(2)).map(|id| offer(&mut book, &onion, id)).sum();
                for _ in 0..n(1) {
                    all += offer(&mut book, &onion, n(2)) + settle(&mut book, &onion, n(2));
                }
                println!("given {all}");
                continue;
            }
        }
        println!("done");
    }
}
