//! The calls of include/lnlink.h. This module alone is unsafe.

use crate::refused::Refused;
use std::cell::UnsafeCell;
use std::ffi::c_void;

/// `lnl_link`: one end of a channel, or {0}. It isn't `Sync`, so that one call is made at a time; it may move to
/// another thread between calls.
#[repr(transparent)]
pub(crate) struct Handle(UnsafeCell<*mut c_void>);

// The library has no thread of its own and no state outside its handles.
unsafe impl Send for Handle {}

/// `lnl_node`: a routing node, or {0}, as a `Handle`.
#[repr(transparent)]
pub(crate) struct NodeHandle(UnsafeCell<*mut c_void>);

unsafe impl Send for NodeHandle {}

type Link = *mut *mut c_void;

type Node = *mut *mut c_void;

extern "C" {
    fn lnl_open(out: Link, spec: *const u8, len: usize, first_point: *const u8, n: usize) -> i32;
    fn lnl_accept(out: Link, config: *const u8, len: usize, first_point: *const u8, n: usize) -> i32;
    fn lnl_load(out: Link, saved: *const u8, len: usize) -> i32;
    fn lnl_free(link: Link);
    fn lnl_fund(link: Link, txid: *const u8, n: usize, output: u16) -> i32;
    fn lnl_connect(link: Link) -> i32;
    fn lnl_disconnect(link: Link) -> i32;
    fn lnl_question(link: Link, message: *const u8, len: usize, out: *mut u8, room: usize, n: *mut usize) -> i32;
    fn lnl_message(link: Link, message: *const u8, len: usize, answer: *const u8, n: usize) -> i32;
    fn lnl_command(link: Link, command: *const u8, len: usize) -> i32;
    fn lnl_next(link: Link, out: *mut u8, room: usize, n: *mut usize) -> i32;
    fn lnl_done(link: Link, answer: *const u8, n: usize) -> i32;
    fn lnl_look(link: Link, out: *mut u8, room: usize, n: *mut usize) -> i32;
    fn lnl_view(link: Link, which: u8, out: *mut u8, room: usize, n: *mut usize) -> i32;
    fn lnl_init(
        features: *const u8,
        len: usize,
        chains: *const u8,
        m: usize,
        out: *mut u8,
        room: usize,
        n: *mut usize,
    ) -> i32;
    fn lnl_check_init(message: *const u8, len: usize, known: *const u16, m: usize) -> i32;
    fn lnl_shares_chain(message: *const u8, len: usize, chains: *const u8, m: usize) -> i32;
    fn lnl_pong(message: *const u8, len: usize, out: *mut u8, room: usize, n: *mut usize) -> i32;
    fn lnl_channel(message: *const u8, len: usize, out: *mut u8, room: usize, n: *mut usize) -> i32;
    fn lnl_print(message: *const u8, len: usize, out: *mut u8, room: usize, n: *mut usize) -> i32;
    fn lnl_node_load(out: Node, settings: *const u8, len: usize, records: *const u8, n: usize) -> i32;
    fn lnl_node_free(node: Node);
    fn lnl_node_open(
        node: Node,
        spec: *const u8,
        len: usize,
        first_point: *const u8,
        n: usize,
        channel: *mut usize,
    ) -> i32;
    fn lnl_node_accept(
        node: Node,
        config: *const u8,
        len: usize,
        first_point: *const u8,
        n: usize,
        channel: *mut usize,
    ) -> i32;
    fn lnl_node_fund(node: Node, channel: usize, txid: *const u8, n: usize, output: u16) -> i32;
    fn lnl_node_connect(node: Node, channel: usize) -> i32;
    fn lnl_node_disconnect(node: Node, channel: usize) -> i32;
    fn lnl_node_question(
        node: Node,
        channel: usize,
        message: *const u8,
        len: usize,
        out: *mut u8,
        room: usize,
        n: *mut usize,
    ) -> i32;
    fn lnl_node_message(node: Node, channel: usize, message: *const u8, len: usize, answer: *const u8, n: usize)
        -> i32;
    fn lnl_node_look(node: Node, channel: usize, out: *mut u8, room: usize, n: *mut usize) -> i32;
    fn lnl_node_view(node: Node, channel: usize, which: u8, out: *mut u8, room: usize, n: *mut usize) -> i32;
    fn lnl_node_command(node: Node, channel: usize, command: *const u8, len: usize) -> i32;
    fn lnl_node_sign(node: Node) -> i32;
    fn lnl_node_height(node: Node, height: u32) -> i32;
    fn lnl_node_expect(
        node: Node,
        preimage: *const u8,
        len: usize,
        secret: *const u8,
        n: usize,
        amount_msat: u64,
    ) -> i32;
    fn lnl_node_next(node: Node, out: *mut u8, room: usize, n: *mut usize) -> i32;
    fn lnl_node_saved(node: Node, batch: u64) -> i32;
    fn lnl_node_fill(node: Node, channel: usize, message: u64, filling: *const u8, len: usize) -> i32;
    fn lnl_node_sent(node: Node, channel: usize, message: u64) -> i32;
    fn lnl_node_onion(
        node: Node,
        payment_hash: *const u8,
        len: usize,
        onion: *const u8,
        n: usize,
        found: *const u8,
        m: usize,
    ) -> i32;
    fn lnl_node_verdict(node: Node, channel: usize, event: u64, verdict: *const u8, len: usize) -> i32;
    fn lnl_node_resume(node: Node, channel: usize, event: u64, verdict: *const u8, len: usize) -> i32;
    fn lnl_node_held(node: Node, out: *mut u8, room: usize, n: *mut usize) -> i32;
}

/// Holds all but records and views of many HTLCs.
const ROOM: usize = 70_000;

/// What a call writes: it is called again with more room where it needs that.
fn fetch(call: impl Fn(*mut u8, usize, *mut usize) -> i32) -> Result<Vec<u8>, Refused> {
    let mut out = vec![0; ROOM];
    loop {
        let mut count = 0;
        match Refused::check(call(out.as_mut_ptr(), out.len(), &mut count)) {
            Err(Refused::Short) if count > out.len() => out.resize(count, 0),
            Err(refused) => return Err(refused),
            Ok(()) => {
                out.truncate(count);
                return Ok(out);
            }
        }
    }
}

impl Handle {
    fn empty() -> Handle {
        Handle(UnsafeCell::new(std::ptr::null_mut()))
    }

    fn made(call: impl FnOnce(Link) -> i32) -> Result<Handle, Refused> {
        let handle = Handle::empty();
        Refused::check(call(handle.0.get()))?;
        Ok(handle)
    }

    pub(crate) fn open(spec: &[u8], first_point: &[u8]) -> Result<Handle, Refused> {
        Handle::made(|out| unsafe { lnl_open(out, spec.as_ptr(), spec.len(), first_point.as_ptr(), first_point.len()) })
    }

    pub(crate) fn accept(config: &[u8], first_point: &[u8]) -> Result<Handle, Refused> {
        Handle::made(|out| unsafe {
            lnl_accept(out, config.as_ptr(), config.len(), first_point.as_ptr(), first_point.len())
        })
    }

    pub(crate) fn load(saved: &[u8]) -> Result<Handle, Refused> {
        Handle::made(|out| unsafe { lnl_load(out, saved.as_ptr(), saved.len()) })
    }

    pub(crate) fn fund(&mut self, txid: &[u8], output: u16) -> Result<(), Refused> {
        Refused::check(unsafe { lnl_fund(self.0.get(), txid.as_ptr(), txid.len(), output) })
    }

    pub(crate) fn connect(&mut self) -> Result<(), Refused> {
        Refused::check(unsafe { lnl_connect(self.0.get()) })
    }

    pub(crate) fn disconnect(&mut self) -> Result<(), Refused> {
        Refused::check(unsafe { lnl_disconnect(self.0.get()) })
    }

    pub(crate) fn question(&self, message: &[u8]) -> Result<Vec<u8>, Refused> {
        fetch(|out, room, n| unsafe { lnl_question(self.0.get(), message.as_ptr(), message.len(), out, room, n) })
    }

    pub(crate) fn message(&mut self, message: &[u8], answer: &[u8]) -> Result<(), Refused> {
        Refused::check(unsafe {
            lnl_message(self.0.get(), message.as_ptr(), message.len(), answer.as_ptr(), answer.len())
        })
    }

    pub(crate) fn command(&mut self, command: &[u8]) -> Result<(), Refused> {
        Refused::check(unsafe { lnl_command(self.0.get(), command.as_ptr(), command.len()) })
    }

    pub(crate) fn next(&self) -> Result<Vec<u8>, Refused> {
        fetch(|out, room, n| unsafe { lnl_next(self.0.get(), out, room, n) })
    }

    pub(crate) fn done(&mut self, answer: &[u8]) -> Result<(), Refused> {
        Refused::check(unsafe { lnl_done(self.0.get(), answer.as_ptr(), answer.len()) })
    }

    pub(crate) fn look(&self) -> Result<Vec<u8>, Refused> {
        fetch(|out, room, n| unsafe { lnl_look(self.0.get(), out, room, n) })
    }

    pub(crate) fn view(&self, which: u8) -> Result<Vec<u8>, Refused> {
        fetch(|out, room, n| unsafe { lnl_view(self.0.get(), which, out, room, n) })
    }
}

impl Drop for Handle {
    fn drop(&mut self) {
        unsafe { lnl_free(self.0.get()) }
    }
}

impl NodeHandle {
    pub(crate) fn load(settings: &[u8], records: &[u8]) -> Result<NodeHandle, Refused> {
        let handle = NodeHandle(UnsafeCell::new(std::ptr::null_mut()));
        Refused::check(unsafe {
            lnl_node_load(handle.0.get(), settings.as_ptr(), settings.len(), records.as_ptr(), records.len())
        })?;
        Ok(handle)
    }

    pub(crate) fn open(&mut self, spec: &[u8], first_point: &[u8]) -> Result<usize, Refused> {
        let mut channel = 0;
        Refused::check(unsafe {
            lnl_node_open(
                self.0.get(),
                spec.as_ptr(),
                spec.len(),
                first_point.as_ptr(),
                first_point.len(),
                &mut channel,
            )
        })?;
        Ok(channel)
    }

    pub(crate) fn accept(&mut self, config: &[u8], first_point: &[u8]) -> Result<usize, Refused> {
        let mut channel = 0;
        Refused::check(unsafe {
            lnl_node_accept(
                self.0.get(),
                config.as_ptr(),
                config.len(),
                first_point.as_ptr(),
                first_point.len(),
                &mut channel,
            )
        })?;
        Ok(channel)
    }

    pub(crate) fn fund(&mut self, channel: usize, txid: &[u8], output: u16) -> Result<(), Refused> {
        Refused::check(unsafe { lnl_node_fund(self.0.get(), channel, txid.as_ptr(), txid.len(), output) })
    }

    pub(crate) fn connect(&mut self, channel: usize) -> Result<(), Refused> {
        Refused::check(unsafe { lnl_node_connect(self.0.get(), channel) })
    }

    pub(crate) fn disconnect(&mut self, channel: usize) -> Result<(), Refused> {
        Refused::check(unsafe { lnl_node_disconnect(self.0.get(), channel) })
    }

    pub(crate) fn question(&self, channel: usize, message: &[u8]) -> Result<Vec<u8>, Refused> {
        fetch(|out, room, n| unsafe {
            lnl_node_question(self.0.get(), channel, message.as_ptr(), message.len(), out, room, n)
        })
    }

    pub(crate) fn message(&mut self, channel: usize, message: &[u8], answer: &[u8]) -> Result<(), Refused> {
        Refused::check(unsafe {
            lnl_node_message(self.0.get(), channel, message.as_ptr(), message.len(), answer.as_ptr(), answer.len())
        })
    }

    pub(crate) fn look(&self, channel: usize) -> Result<Vec<u8>, Refused> {
        fetch(|out, room, n| unsafe { lnl_node_look(self.0.get(), channel, out, room, n) })
    }

    pub(crate) fn view(&self, channel: usize, which: u8) -> Result<Vec<u8>, Refused> {
        fetch(|out, room, n| unsafe { lnl_node_view(self.0.get(), channel, which, out, room, n) })
    }

    pub(crate) fn command(&mut self, channel: usize, command: &[u8]) -> Result<(), Refused> {
        Refused::check(unsafe { lnl_node_command(self.0.get(), channel, command.as_ptr(), command.len()) })
    }

    pub(crate) fn sign(&mut self) -> Result<(), Refused> {
        Refused::check(unsafe { lnl_node_sign(self.0.get()) })
    }

    pub(crate) fn height(&mut self, height: u32) -> Result<(), Refused> {
        Refused::check(unsafe { lnl_node_height(self.0.get(), height) })
    }

    pub(crate) fn expect(&mut self, preimage: &[u8], secret: &[u8], amount_msat: u64) -> Result<(), Refused> {
        Refused::check(unsafe {
            lnl_node_expect(self.0.get(), preimage.as_ptr(), preimage.len(), secret.as_ptr(), secret.len(), amount_msat)
        })
    }

    pub(crate) fn next(&mut self) -> Result<Vec<u8>, Refused> {
        fetch(|out, room, n| unsafe { lnl_node_next(self.0.get(), out, room, n) })
    }

    pub(crate) fn saved(&mut self, batch: u64) -> Result<(), Refused> {
        Refused::check(unsafe { lnl_node_saved(self.0.get(), batch) })
    }

    pub(crate) fn fill(&mut self, channel: usize, message: u64, filling: &[u8]) -> Result<(), Refused> {
        Refused::check(unsafe { lnl_node_fill(self.0.get(), channel, message, filling.as_ptr(), filling.len()) })
    }

    pub(crate) fn sent(&mut self, channel: usize, message: u64) -> Result<(), Refused> {
        Refused::check(unsafe { lnl_node_sent(self.0.get(), channel, message) })
    }

    pub(crate) fn onion(&mut self, payment_hash: &[u8], onion: &[u8], found: &[u8]) -> Result<(), Refused> {
        Refused::check(unsafe {
            lnl_node_onion(
                self.0.get(),
                payment_hash.as_ptr(),
                payment_hash.len(),
                onion.as_ptr(),
                onion.len(),
                found.as_ptr(),
                found.len(),
            )
        })
    }

    pub(crate) fn verdict(&mut self, channel: usize, event: u64, verdict: &[u8]) -> Result<(), Refused> {
        Refused::check(unsafe { lnl_node_verdict(self.0.get(), channel, event, verdict.as_ptr(), verdict.len()) })
    }

    pub(crate) fn resume(&mut self, channel: usize, event: u64, verdict: &[u8]) -> Result<(), Refused> {
        Refused::check(unsafe { lnl_node_resume(self.0.get(), channel, event, verdict.as_ptr(), verdict.len()) })
    }

    pub(crate) fn held(&self) -> Result<Vec<u8>, Refused> {
        fetch(|out, room, n| unsafe { lnl_node_held(self.0.get(), out, room, n) })
    }
}

impl Drop for NodeHandle {
    fn drop(&mut self) {
        unsafe { lnl_node_free(self.0.get()) }
    }
}

pub(crate) fn init(features: &[u8], chains: &[u8]) -> Result<Vec<u8>, Refused> {
    fetch(|out, room, n| unsafe {
        lnl_init(features.as_ptr(), features.len(), chains.as_ptr(), chains.len(), out, room, n)
    })
}

pub(crate) fn check_init(message: &[u8], known: &[u16]) -> Result<(), Refused> {
    Refused::check(unsafe { lnl_check_init(message.as_ptr(), message.len(), known.as_ptr(), known.len()) })
}

pub(crate) fn shares_chain(message: &[u8], chains: &[u8]) -> Result<(), Refused> {
    Refused::check(unsafe { lnl_shares_chain(message.as_ptr(), message.len(), chains.as_ptr(), chains.len()) })
}

pub(crate) fn pong(message: &[u8]) -> Result<Vec<u8>, Refused> {
    fetch(|out, room, n| unsafe { lnl_pong(message.as_ptr(), message.len(), out, room, n) })
}

pub(crate) fn channel(message: &[u8]) -> Result<Vec<u8>, Refused> {
    fetch(|out, room, n| unsafe { lnl_channel(message.as_ptr(), message.len(), out, room, n) })
}

pub(crate) fn print(message: &[u8]) -> Result<Vec<u8>, Refused> {
    fetch(|out, room, n| unsafe { lnl_print(message.as_ptr(), message.len(), out, room, n) })
}
