// Stands between two nodes, hands on each frame, and sends the second one a ping of its own each so many microseconds:
// PROGRAM PORT MICROSECONDS. Prints its own port, and, once either has gone, how many pings came back and the least, the
// median, the ninth decile and the greatest of their times, in microseconds.
use std::io::{self, Read, Write};
use std::net::{Shutdown, TcpListener, TcpStream};
use std::sync::atomic::{AtomicBool, Ordering};
use std::sync::mpsc::{RecvTimeoutError, Sender, channel};
use std::sync::{Arc, Mutex};
use std::thread;
use std::time::{Duration, Instant};

/// A ping that asks for 77 bytes, and its pong.
const PING: [u8; 8] = [0, 6, 0, 18, 0, 77, 0, 0];
const PONG: [u8; 4] = [0, 19, 0, 77];

fn frame(from: &mut TcpStream) -> io::Result<Vec<u8>> {
    let mut length = [0; 2];
    from.read_exact(&mut length)?;
    let mut bytes = vec![0; 2 + u16::from_be_bytes(length) as usize];
    bytes[..2].copy_from_slice(&length);
    from.read_exact(&mut bytes[2..])?;
    Ok(bytes)
}

/// Hands on what isn't a pong of ours, until one of both has gone.
fn hand_on(mut from: TcpStream, to: Arc<Mutex<TcpStream>>, pongs: Sender<Instant>) -> io::Result<()> {
    loop {
        let bytes = frame(&mut from)?;
        if bytes[2..].starts_with(&PONG) {
            let _ = pongs.send(Instant::now());
        } else {
            to.lock().unwrap().write_all(&bytes)?;
        }
    }
}

fn main() -> io::Result<()> {
    let words: Vec<u64> = std::env::args().skip(1).map(|it| it.parse().unwrap()).collect();
    let listener = TcpListener::bind("127.0.0.1:0")?;
    println!("port {}", listener.local_addr()?.port());
    let first = listener.accept()?.0;
    let second = TcpStream::connect(("127.0.0.1", words[0] as u16))?;
    let over = Arc::new(AtomicBool::new(false));
    let (sender, pongs) = channel();
    let ends = [first.try_clone()?, second.try_clone()?];
    let to_second = Arc::new(Mutex::new(second.try_clone()?));
    for (from, to) in [(ends[0].try_clone()?, to_second.clone()), (second, Arc::new(Mutex::new(first)))] {
        from.set_nodelay(true)?;
        let (over, sender, ends) = (over.clone(), sender.clone(), [ends[0].try_clone()?, ends[1].try_clone()?]);
        thread::spawn(move || {
            let _ = hand_on(from, to, sender);
            over.store(true, Ordering::SeqCst);
            for it in ends {
                let _ = it.shutdown(Shutdown::Both);
            }
        });
    }
    let mut times = Vec::new();
    // both have greeted by then
    thread::sleep(Duration::from_millis(500));
    while !over.load(Ordering::SeqCst) {
        let began = Instant::now();
        if to_second.lock().unwrap().write_all(&PING).is_err() {
            break;
        }
        match pongs.recv_timeout(Duration::from_secs(5)) {
            Ok(came) => times.push((came - began).as_micros()),
            Err(RecvTimeoutError::Timeout) => break,
            Err(RecvTimeoutError::Disconnected) => break,
        }
        thread::sleep(Duration::from_micros(words[1]));
    }
    times.sort();
    let at = |part: usize| times.get(times.len() * part / 100).or(times.last()).copied().unwrap_or(0);
    println!("{} {} {} {} {}", times.len(), at(0), at(50), at(90), at(100));
    Ok(())
}
