//! A channel of a wallet: its link, its signer, its store, and the loop over them.

use crate::command::{Command, Mark};
use crate::config::{Config, Hash, OpenSpec, Point};
use crate::item::{Blank, Event, Item};
use crate::link::Link;
use crate::message::secret_in;
use crate::question::Question;
use crate::refused::Refused;
use crate::store::{BoxError, Store};
use crate::view::{Closing, Commitment, Role, Summary, View};
use std::error::Error as StdError;
use std::fmt;
use std::mem;

/// A commitment that is signed or verified.
#[derive(Clone, Copy, Debug, PartialEq, Eq)]
pub struct CommitmentTerms<'a> {
    /// Whose it is.
    pub owner: Role,
    /// Its number, from 0.
    pub number: u64,
    /// Its owner's per-commitment point.
    pub point: &'a Point,
    /// What it is worth.
    pub view: &'a View,
}

/// The keys of one end of one channel (BOLT 3). `signatures_in` and `closing_signature_in` of `message` find what is to
/// be verified.
///
/// A signer that is somewhere else may fail: nothing that depends on its answer is sent then, and `Channel::flush`
/// tries again.
pub trait Signer {
    /// The own per-commitment point of this number.
    ///
    /// # Errors
    ///
    /// The signer's own, as in all calls below.
    fn point(&mut self, number: u64) -> Result<Point, BoxError>;

    /// The own per-commitment secret of this number. It is asked for once the commitment is revoked in a record that
    /// was saved, or once the peer tells of it.
    #[allow(clippy::missing_errors_doc)]
    fn secret(&mut self, number: u64) -> Result<Hash, BoxError>;

    /// Signs the peer's commitment and its untrimmed HTLCs, in the order of their outputs: 64 bytes each.
    #[allow(clippy::missing_errors_doc)]
    fn sign(&mut self, commitment: CommitmentTerms<'_>) -> Result<Vec<u8>, BoxError>;

    /// Whether the message's signatures are the peer's over the own commitment and its HTLCs.
    #[allow(clippy::missing_errors_doc)]
    fn verify(&mut self, commitment: CommitmentTerms<'_>, message: &[u8]) -> Result<bool, BoxError>;

    /// Whether this is the secret of the peer's commitment of this number, which has this point.
    #[allow(clippy::missing_errors_doc)]
    fn fits(&mut self, number: u64, point: &Point, secret: &Hash) -> Result<bool, BoxError>;

    /// Signs a closing transaction: 64 bytes.
    #[allow(clippy::missing_errors_doc)]
    fn sign_close(&mut self, closing: &Closing) -> Result<Vec<u8>, BoxError>;

    /// Whether the message's signature is the peer's over a closing transaction.
    #[allow(clippy::missing_errors_doc)]
    fn verify_close(&mut self, closing: &Closing, message: &[u8]) -> Result<bool, BoxError>;
}

/// Why a call of a channel has no answer.
#[derive(Debug)]
pub enum Error {
    /// The library refused it. These messages are to be sent even so, as an `error` or a `warning`.
    Refused(Refused, Messages),
    /// The store, the signer or the wallet's handler of events failed; `Channel::flush` tries again.
    Host(BoxError),
}

impl fmt::Display for Error {
    fn fmt(&self, f: &mut fmt::Formatter<'_>) -> fmt::Result {
        match self {
            Error::Refused(refused, _) => write!(f, "refused: {refused}"),
            Error::Host(error) => write!(f, "the host failed: {error}"),
        }
    }
}

impl StdError for Error {}

impl From<Refused> for Error {
    fn from(refused: Refused) -> Error {
        Error::Refused(refused, Messages::new())
    }
}

impl From<BoxError> for Error {
    fn from(error: BoxError) -> Error {
        Error::Host(error)
    }
}

/// What a wallet does with an event, by its number: it answers what the record keeps of that, as `Mark::Nothing`.
pub type OnEvent = Box<dyn FnMut(u64, &Event) -> Result<Mark, BoxError> + Send>;

/// Messages for the peer, in order.
pub type Messages = Vec<Vec<u8>>;

/// One end of a channel, which saves before it sends.
///
/// The handler is told of each event. Once it has answered, the event is decided, and isn't told again. An event is
/// told again where the handler fails, and after a restart where it wasn't decided yet. Commands are given after the
/// call.
pub struct Channel<S, T> {
    link: Link,
    signer: S,
    store: T,
    on_event: OnEvent,
    outbox: Messages,
}

impl<S: Signer, T: Store> Channel<S, T> {
    /// A funder's channel. `connect` sends `open_channel`.
    ///
    /// # Errors
    ///
    /// As `Link::open`; the signer's.
    pub fn open(spec: &OpenSpec, mut signer: S, store: T, on_event: OnEvent) -> Result<Self, Error> {
        let link = Link::open(spec, &signer.point(0)?)?;
        Ok(Channel::over(link, signer, store, on_event))
    }

    /// A fundee's channel, which awaits `open_channel` once it is connected.
    ///
    /// # Errors
    ///
    /// As `Link::accept`; the signer's.
    pub fn accept(config: &Config, mut signer: S, store: T, on_event: OnEvent) -> Result<Self, Error> {
        let link = Link::accept(config, &signer.point(0)?)?;
        Ok(Channel::over(link, signer, store, on_event))
    }

    /// A channel that was saved; none where the store hasn't it. The next call tells of events that weren't decided.
    ///
    /// # Errors
    ///
    /// As `Link::load`; `Damaged`: the store gives another channel's record; the store's.
    pub fn load(channel: &Hash, signer: S, mut store: T, on_event: OnEvent) -> Result<Option<Self>, Error> {
        let Some(saved) = store.load(channel)? else {
            return Ok(None);
        };
        let link = Link::load(&saved)?;
        if link.look()?.channel != Some(*channel) {
            return Err(Refused::Damaged.into());
        }
        Ok(Some(Channel::over(link, signer, store, on_event)))
    }

    fn over(link: Link, signer: S, store: T, on_event: OnEvent) -> Self {
        Channel { link, signer, store, on_event, outbox: Vec::new() }
    }

    /// Names the funding, before `accept_channel` is received.
    ///
    /// # Errors
    ///
    /// As `Link::fund`.
    pub fn fund(&mut self, txid: &Hash, output: u16) -> Result<(), Refused> {
        self.link.fund(txid, output)
    }

    /// There is a connection, and `init` has passed.
    ///
    /// # Errors
    ///
    /// As `Link::connect`; the host's.
    pub fn connect(&mut self) -> Result<Messages, Error> {
        let answer = self.link.connect();
        self.turn(answer)
    }

    /// The connection is lost. What wasn't sent is sent again, where BOLT 2 wants that, after the next `connect`.
    ///
    /// # Errors
    ///
    /// As `Link::disconnect`.
    pub fn disconnect(&mut self) -> Result<(), Refused> {
        self.outbox.clear();
        self.link.disconnect()
    }

    /// Takes a message of the peer's.
    ///
    /// # Errors
    ///
    /// As `Link::message`: its messages are to be sent, and by any number but 20 and 36 the connection is then closed.
    /// The host's.
    pub fn receive(&mut self, message: &[u8]) -> Result<Messages, Error> {
        let judged = self.answer(message)?;
        let answer = self.link.message(message, &judged);
        self.turn(answer)
    }

    /// Does what it is told.
    ///
    /// # Errors
    ///
    /// Those of the command: nothing has changed. The host's.
    pub fn command(&mut self, command: &Command) -> Result<Messages, Error> {
        let answer = self.link.command(command);
        self.turn(answer)
    }

    /// Signs the peer's next commitment, if there is anything new to sign and the last signature is revoked. No
    /// messages where it can't sign now.
    ///
    /// # Errors
    ///
    /// As of a command, but for `NotReady`, `SignatureOutstanding`, `NothingToSign` and `Disconnected`.
    pub fn sign_when_due(&mut self) -> Result<Messages, Error> {
        match self.command(&Command::Sign) {
            Err(Error::Refused(
                Refused::NotReady | Refused::SignatureOutstanding | Refused::NothingToSign | Refused::Disconnected,
                messages,
            )) => Ok(messages),
            answer => answer,
        }
    }

    /// Hands out what waits, after the host failed.
    ///
    /// # Errors
    ///
    /// The host's.
    pub fn flush(&mut self) -> Result<Messages, Error> {
        self.turn(Ok(()))
    }

    /// Where the channel is.
    ///
    /// # Errors
    ///
    /// `Memory`.
    pub fn summary(&self) -> Result<Summary, Refused> {
        self.link.look()
    }

    /// What a commitment is worth.
    ///
    /// # Errors
    ///
    /// As `Link::view`.
    pub fn view(&self, which: Commitment) -> Result<View, Refused> {
        self.link.view(which)
    }

    /// The link, the signer and the store, for a host's own calls.
    pub fn parts(&mut self) -> (&mut Link, &mut S, &mut T) {
        (&mut self.link, &mut self.signer, &mut self.store)
    }

    /// Frees the link: the channel is as it was saved, and `load` takes it up again.
    pub fn into_parts(self) -> (S, T, OnEvent) {
        (self.signer, self.store, self.on_event)
    }

    fn turn(&mut self, answer: Result<(), Refused>) -> Result<Messages, Error> {
        while let Some(item) = self.link.next()? {
            self.take(item)?;
        }
        let messages = mem::take(&mut self.outbox);
        match answer {
            Ok(()) => Ok(messages),
            Err(refused) => Err(Error::Refused(refused, messages)),
        }
    }

    fn take(&mut self, item: Item) -> Result<(), Error> {
        let filling = match item {
            Item::Record(record) => {
                self.store.save(&record)?;
                Vec::new()
            }
            Item::Blank(blank) => self.fill(blank)?,
            Item::Send(message) => {
                self.outbox.push(message);
                Vec::new()
            }
            Item::Event(number, event) => return self.tell(number, &event),
            Item::Closed(_) => Vec::new(),
        };
        Ok(self.link.done(&filling)?)
    }

    fn tell(&mut self, number: u64, event: &Event) -> Result<(), Error> {
        let mark = (self.on_event)(number, event)?;
        self.link.done(&[])?;
        Ok(self.link.command(&Command::Decide { event: number, mark })?)
    }

    fn fill(&mut self, blank: Blank) -> Result<Vec<u8>, BoxError> {
        match blank {
            Blank::Signatures { role, number, point, view } => {
                let owner = role.other();
                self.signer.sign(CommitmentTerms { owner, number, point: &point, view: &view })
            }
            Blank::Revocation { secret_number, point_number } => {
                let mut filling = self.signer.secret(secret_number)?.to_vec();
                filling.extend_from_slice(&self.signer.point(point_number)?);
                Ok(filling)
            }
            Blank::Point { number } => Ok(self.signer.point(number)?.to_vec()),
            Blank::Close { closing } => self.signer.sign_close(&closing),
        }
    }

    fn answer(&mut self, message: &[u8]) -> Result<Vec<u8>, Error> {
        Ok(match self.link.question(message)? {
            None => Vec::new(),
            Some(Question::Signatures { role, number, view }) => {
                vec![u8::from(self.verify(role, number, &view, message)?)]
            }
            Some(Question::Secret { number, point }) => {
                let secret = secret_in(message).unwrap_or_default();
                vec![u8::from(self.signer.fits(number, &point, &secret)?)]
            }
            Some(Question::Close { closing }) => vec![u8::from(self.signer.verify_close(&closing, message)?)],
            Some(Question::OwnSecret { number }) => self.signer.secret(number)?.to_vec(),
            Some(Question::New { channel }) => vec![u8::from(self.store.load(&channel)?.is_none())],
            Some(Question::First { channel, view }) => {
                if self.store.load(&channel)?.is_some() {
                    vec![2]
                } else {
                    vec![u8::from(self.verify(Role::Fundee, 0, &view, message)?)]
                }
            }
        })
    }

    fn verify(&mut self, owner: Role, number: u64, view: &View, message: &[u8]) -> Result<bool, BoxError> {
        let point = self.signer.point(number)?;
        self.signer.verify(CommitmentTerms { owner, number, point: &point, view }, message)
    }
}
