// Two nodes with one channel, which the first pays over, in plain Rust: what main.rattle does, with the same threads, the
// same messages and the same records. `run` puts checks/measures/rust/links.rs in front, which has the links.
use std::io::Read;
use std::net::{TcpListener, TcpStream};
use std::sync::atomic::{AtomicBool, AtomicU64, Ordering};
use std::sync::mpsc::{Receiver, RecvTimeoutError, SyncSender, sync_channel};
use std::sync::{Arc, Mutex};
use std::thread;
use std::time::Duration;

const ITEMS: usize = 256;
const TASKS: usize = 1024;
const PAUSE: Duration = Duration::from_micros(50);
const AMOUNT: u64 = 1000;
const EXPIRY: u32 = 400;

/// What a worker is told to do.
enum Order {
    Confirm,
    Sign,
    Add { hash: Id, onion: Box<[u8; ONION]> },
}

/// What a worker takes; `Look` wakes it for a command of the book.
enum Item {
    Joined(TcpStream),
    Init,
    Ping(usize),
    Read(Id, Message, Vec<u8>),
    Broken,
    Order(Order),
    Look,
}

/// An event of the channel, by its number.
enum Event2 {
    Came { id: u64, hash: Id, amount: u64, onion: Box<[u8; ONION]> },
    Fulfilled,
    Other,
}

enum Command {
    Decide(u64),
    Fulfil(u64, Id),
}

#[derive(Default)]
struct Book {
    expected: HashMap<Id, Id>,
    commands: VecDeque<Command>,
}

type Hook = Box<dyn Fn(&Event2) + Send>;

// ---- onions

fn onion_of(hash: &Id) -> Box<[u8; ONION]> {
    let mut onion = Box::new([0; ONION]);
    onion[1] = 2;
    let payload = [44, 2, 2, 3, 232, 4, 2, 1, 0x90, 8, 34];
    onion[34..45].copy_from_slice(&payload);
    onion[45..77].fill(8);
    onion[77..79].copy_from_slice(&[3, 232]);
    let digest = digest_of(&onion, hash);
    onion[1334..].copy_from_slice(&digest);
    onion
}

fn digest_of(onion: &[u8; ONION], hash: &Id) -> Id {
    let mut bytes = [0; 1332];
    bytes[..1300].copy_from_slice(&onion[34..1334]);
    bytes[1300..].copy_from_slice(hash);
    sha256(&bytes)
}

/// Whether the payee finds its amount, expiry and secret there.
fn opens(onion: &[u8; ONION], hash: &Id) -> bool {
    onion[1334..] == digest_of(onion, hash) && onion[35..45] == [2, 2, 3, 232, 4, 2, 1, 0x90, 8, 34] && onion[45..77] == [8; 32]
}

fn preimage(number: u64) -> Id {
    let mut bytes = [7; 32];
    bytes[..8].copy_from_slice(&number.to_be_bytes());
    bytes
}

// ---- the reader

fn item_of(bytes: &[u8]) -> Answer<Item> {
    let mut it = Reader(bytes);
    match it.u16()? {
        16 => Ok(Item::Init),
        18 => {
            let count = it.u16()?;
            let ignored = it.u16()?;
            it.bytes(ignored as usize)?;
            Ok(Item::Ping(count as usize))
        }
        typ => {
            let (channel, message) = decode(bytes)?;
            Ok(Item::Read(channel, message, if typ < 34 { bytes.to_vec() } else { Vec::new() }))
        }
    }
}

fn read_all(mut stream: TcpStream, seat: SyncSender<Item>) {
    let (mut held, mut piece) = (Vec::new(), [0; 4096]);
    let _ = seat.send(Item::Joined(stream.try_clone().unwrap()));
    'connection: while let Ok(count @ 1..) = stream.read(&mut piece) {
        held.extend_from_slice(&piece[..count]);
        let mut at = 0;
        while held.len() - at >= 2 {
            let len = u16::from_be_bytes([held[at], held[at + 1]]) as usize;
            let Some(frame) = held.get(at + 2..at + 2 + len) else { break };
            match item_of(frame) {
                Ok(item) => seat.send(item).unwrap(),
                Err(_) => break 'connection,
            }
            at += 2 + len;
        }
        held.drain(..at);
    }
    let _ = seat.send(Item::Broken);
}

// ---- the worker

struct Worker {
    link: Link,
    line: Option<TcpStream>,
    /// Whether it signs where it has nothing else to do.
    idle: bool,
    ready: Arc<AtomicBool>,
    tasks: SyncSender<(u64, Event2)>,
    book: Arc<Mutex<Book>>,
}

impl Worker {
    /// Writes messages, in one piece.
    fn write(&mut self, messages: &[Vec<u8>]) {
        let mut bytes = Vec::new();
        for it in messages {
            bytes.extend_from_slice(&(it.len() as u16).to_be_bytes());
            bytes.extend_from_slice(it);
        }
        if let (Some(line), false) = (&mut self.line, bytes.is_empty()) {
            let _ = line.write_all(&bytes);
        }
    }

    /// The events among what was told.
    fn events(&self, told: &str) -> Vec<(u64, Event2)> {
        let words: Vec<&str> = told.split(' ').collect();
        let mut all = Vec::new();
        for (at, _) in words.iter().enumerate().filter(|it| *it.1 == "event") {
            let id = words[at + 4].parse().unwrap();
            let event = match (words[at + 2], words[at + 3]) {
                ("added", "peer") => {
                    let add = self.link.peer.find(id).unwrap().1;
                    Event2::Came { id, hash: add.hash, amount: add.amount, onion: add.onion.clone() }
                }
                ("settled", "own") => Event2::Fulfilled,
                _ => Event2::Other,
            };
            all.push((words[at + 1].parse().unwrap(), event));
        }
        all
    }

    fn finish(&mut self, answer: Answer<()>, out: Outputs) {
        if answer.is_err() {
            return;
        }
        self.write(&out.sent);
        for it in self.events(&out.told) {
            self.tasks.send(it).unwrap();
        }
        if self.link.is_ready() {
            self.ready.store(true, Ordering::SeqCst);
        }
    }

    fn serve(&mut self, item: Item) {
        let mut out = Outputs::default();
        let answer = match item {
            Item::Joined(line) => {
                self.line = Some(line);
                let mut messages = vec![vec![0, 16, 0, 0, 0, 0]];
                if self.link.funder {
                    messages.push(self.link.open_message());
                }
                return self.write(&messages);
            }
            Item::Ping(count) => {
                let mut pong = vec![0, 19];
                pong.extend_from_slice(&(count as u16).to_be_bytes());
                pong.resize(4 + count, 0);
                return self.write(&[pong]);
            }
            Item::Broken => return self.line = None,
            Item::Init | Item::Look => return,
            Item::Read(channel, message, bytes) => self.link.take(channel, message, &bytes, &mut out),
            Item::Order(Order::Confirm) => self.link.command("confirm", &[], &mut out),
            Item::Order(Order::Sign) => self.link.command("sign", &[], &mut out),
            Item::Order(Order::Add { hash, onion }) => self.link.offer(AMOUNT, EXPIRY, hash, onion, &mut out),
        };
        self.finish(answer, out);
    }

    fn obey(&mut self, command: Command) {
        let mut out = Outputs::default();
        let answer = match command {
            Command::Decide(number) => self.link.command("decide", &[number], &mut out),
            Command::Fulfil(id, preimage) => {
                let add = self.link.peer.find(id).map(|it| it.1.hash);
                if add == Some(sha256(&preimage)) {
                    self.link.propose(Update::Fulfil { id, preimage }, &mut out);
                    Ok(())
                } else {
                    Err(44)
                }
            }
        };
        self.finish(answer, out);
    }

    fn run(mut self, items: Receiver<Item>) {
        loop {
            let command = self.book.lock().unwrap().commands.pop_front();
            let mut busy = command.is_some();
            if let Some(command) = command {
                self.obey(command);
            }
            if let Ok(item) = items.try_recv() {
                busy = true;
                self.serve(item);
            }
            if !busy && self.idle && self.link.owes() {
                busy = true;
                self.serve(Item::Order(Order::Sign));
            }
            if busy {
                continue;
            }
            match items.recv_timeout(Duration::from_millis(100)) {
                Ok(item) => self.serve(item),
                Err(RecvTimeoutError::Timeout) => {}
                Err(RecvTimeoutError::Disconnected) => return,
            }
        }
    }
}

// ---- the dispatcher

fn dispatch(tasks: Receiver<(u64, Event2)>, hook: Hook, book: Arc<Mutex<Book>>, bell: SyncSender<Item>) {
    for (number, event) in tasks {
        hook(&event);
        let mut book = book.lock().unwrap();
        book.commands.push_back(Command::Decide(number));
        if let Event2::Came { id, hash, amount, onion } = &event {
            if let (Some(preimage), true) = (book.expected.get(hash).copied(), opens(onion, hash) && *amount >= AMOUNT) {
                book.expected.remove(hash);
                book.commands.push_back(Command::Fulfil(*id, preimage));
            }
        }
        drop(book);
        let _ = bell.try_send(Item::Look);
    }
}

// ---- the nodes

struct Node {
    orders: SyncSender<Item>,
    ready: Arc<AtomicBool>,
}

fn start(
    link: Link,
    idle: bool,
    stream: impl FnOnce() -> TcpStream + Send + 'static,
    hook: Hook,
    expected: HashMap<Id, Id>,
) -> Node {
    let (seat, items) = sync_channel(ITEMS);
    let (events, tasks) = sync_channel(TASKS);
    let book = Arc::new(Mutex::new(Book { expected, commands: VecDeque::new() }));
    let ready = Arc::new(AtomicBool::new(false));
    let worker = Worker { link, line: None, idle, ready: ready.clone(), tasks: events, book: book.clone() };
    thread::spawn(move || worker.run(items));
    let bell = seat.clone();
    thread::spawn(move || dispatch(tasks, hook, book, bell));
    let first = seat.clone();
    thread::spawn(move || {
        let stream = stream();
        stream.set_nodelay(true).unwrap();
        read_all(stream, first)
    });
    Node { orders: seat, ready }
}

impl Node {
    fn order(&self, order: Order) -> bool {
        self.orders.try_send(Item::Order(order)).is_ok()
    }

    fn open(&self) {
        while !self.ready.load(Ordering::SeqCst) {
            self.order(Order::Confirm);
            pause();
        }
    }
}

fn pause() {
    thread::sleep(PAUSE);
}

fn wait() {
    println!("usable");
    let _ = io::stdin().lock().lines().next();
}

fn settings(script: u8) -> Config {
    config(&[1, 30, 1_000_000_000_000, 0, 300, 200, 400], script)
}

fn pay(port: u16, count: u64, window: u64, idle: bool) {
    let mut link = Link::new(true, keys(1, 1, 2), settings(65));
    link.satoshis = 1_000_000;
    let done = Arc::new(AtomicU64::new(0));
    let (counted, payer) = (done.clone(), thread::current());
    let hook: Hook = Box::new(move |event| {
        if let Event2::Fulfilled = event {
            counted.fetch_add(1, Ordering::SeqCst);
            payer.unpark();
        }
    });
    let stream = move || TcpStream::connect(("127.0.0.1", port)).unwrap();
    let node = start(link, idle, stream, hook, HashMap::new());
    node.open();
    wait();
    let mut offered = 0;
    while done.load(Ordering::SeqCst) < count {
        if offered < count && offered < done.load(Ordering::SeqCst) + window {
            let hash = sha256(&preimage(offered));
            if node.order(Order::Add { hash, onion: onion_of(&hash) }) {
                offered += 1;
                continue;
            }
        }
        if idle {
            thread::park_timeout(Duration::from_millis(1));
        } else {
            node.order(Order::Sign);
            pause();
        }
    }
    println!("done");
    wait();
}

fn serve(count: u64, idle: bool) {
    let link = Link::new(false, keys(1, 2, 1), settings(66));
    let expected = (0..count).map(preimage).map(|it| (sha256(&it), it)).collect();
    let listener = TcpListener::bind("127.0.0.1:0").unwrap();
    println!("port {}", listener.local_addr().unwrap().port());
    let node = start(link, idle, move || listener.accept().unwrap().0, Box::new(|_| {}), expected);
    node.open();
    wait();
    loop {
        if idle {
            thread::park();
        } else {
            node.order(Order::Sign);
            pause();
        }
    }
}

fn main() {
    let words: Vec<String> = std::env::args().skip(1).collect();
    let number = |at: usize| words.get(at).and_then(|it| it.parse().ok()).unwrap_or(0u64);
    let idle = words.get(4).is_some_and(|it| it == "idle");
    match words.first().map(String::as_str) {
        Some("pay") => pay(number(1) as u16, number(2), number(3), idle),
        _ => serve(number(2), idle),
    }
}
