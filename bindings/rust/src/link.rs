//! One end of a channel, call by call: include/lnlink.h in Rust. `Channel` is the loop over it.

use crate::codec::{Malformed, Wire};
use crate::command::Command;
use crate::config::{Config, Hash, OpenSpec, Point};
use crate::ffi::Handle;
use crate::item::Item;
use crate::question::Question;
use crate::refused::Refused;
use crate::view::{Commitment, Summary, View};

/// One end of a channel, from its opening to its close.
///
/// By the refusals `Asks` to `Handle` nothing has changed.
pub struct Link {
    handle: Handle,
}

/// What the library hands out is read by this crate, or they are of two versions.
fn read<T>(value: Result<T, Malformed>) -> Result<T, Refused> {
    value.map_err(|_| Refused::Damaged)
}

impl Link {
    /// A funder's end; the point is the own one of commitment 0.
    ///
    /// # Errors
    ///
    /// `NotReady`: the values don't fit; `Memory`.
    pub fn open(spec: &OpenSpec, first_point: &Point) -> Result<Link, Refused> {
        let handle = Handle::open(&spec.to_bytes(), first_point)?;
        Ok(Link { handle })
    }

    /// A fundee's end; the point is the own one of commitment 0.
    ///
    /// # Errors
    ///
    /// `NotReady`: the values don't fit; `Memory`.
    pub fn accept(config: &Config, first_point: &Point) -> Result<Link, Refused> {
        let handle = Handle::accept(&config.to_bytes(), first_point)?;
        Ok(Link { handle })
    }

    /// The end that was saved: the bytes of a `Record`. Its events that aren't decided stand in its line.
    ///
    /// # Errors
    ///
    /// `Damaged`, `Version`, `Memory`.
    pub fn load(saved: &[u8]) -> Result<Link, Refused> {
        let handle = Handle::load(saved)?;
        Ok(Link { handle })
    }

    /// A funder names its funding, until `accept_channel` is given.
    ///
    /// # Errors
    ///
    /// `NotReady`: after that, and at a fundee.
    pub fn fund(&mut self, txid: &Hash, output: u16) -> Result<(), Refused> {
        self.handle.fund(txid, output)
    }

    /// There is a connection, and `init` has passed.
    ///
    /// # Errors
    ///
    /// `NotReady`: there was one already, or the opening was broken off; `Halted`, `Memory`.
    pub fn connect(&mut self) -> Result<(), Refused> {
        self.handle.connect()
    }

    /// The connection is lost: messages leave the line, records and events stay.
    ///
    /// # Errors
    ///
    /// None but of the handle.
    pub fn disconnect(&mut self) -> Result<(), Refused> {
        self.handle.disconnect()
    }

    /// What has to be answered before a message is taken.
    ///
    /// # Errors
    ///
    /// `Truncated` to `FieldLength`: it is no message; `Memory`.
    pub fn question(&self, message: &[u8]) -> Result<Option<Question>, Refused> {
        let bytes = self.handle.question(message)?;
        if bytes.is_empty() {
            return Ok(None);
        }
        read(Question::from_bytes(&bytes)).map(Some)
    }

    /// Takes a message, with the answer to its question.
    ///
    /// # Errors
    ///
    /// By `OutOfPlace` to `AddAfterShutdown` and `PeerError` the channel has failed; by `UnknownChannel` and
    /// `FeeOutside` nothing has changed. `Asks`, `Answer`, `Halted`, `Memory`.
    pub fn message(&mut self, message: &[u8], answer: &[u8]) -> Result<(), Refused> {
        self.handle.message(message, answer)
    }

    /// Does what it is told.
    ///
    /// # Errors
    ///
    /// Those of the command; nothing has changed.
    pub fn command(&mut self, command: &Command) -> Result<(), Refused> {
        self.handle.command(&command.to_bytes())
    }

    /// Shows the head of the line, which stays there; none where it is empty.
    ///
    /// # Errors
    ///
    /// `Memory`.
    pub fn next(&self) -> Result<Option<Item>, Refused> {
        let bytes = self.handle.next()?;
        if bytes.is_empty() {
            return Ok(None);
        }
        read(Item::from_bytes(&bytes)).map(Some)
    }

    /// Takes the head of the line off, or fills it where it is a blank.
    ///
    /// # Errors
    ///
    /// `NotReady`: the line is empty, or `next` didn't show its head since the last call; `Answer`: a filling of another
    /// length, or for what is no blank.
    pub fn done(&mut self, answer: &[u8]) -> Result<(), Refused> {
        self.handle.done(answer)
    }

    /// Where it is.
    ///
    /// # Errors
    ///
    /// `Memory`.
    pub fn look(&self) -> Result<Summary, Refused> {
        read(Summary::from_bytes(&self.handle.look()?))
    }

    /// What a commitment is worth.
    ///
    /// # Errors
    ///
    /// `NotReady`: the channel isn't opened; `Memory`.
    pub fn view(&self, which: Commitment) -> Result<View, Refused> {
        read(View::from_bytes(&self.handle.view(which as u8)?))
    }
}
