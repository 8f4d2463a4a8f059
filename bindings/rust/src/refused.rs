//! Refusals by name and number: docs/PROTOCOL.md, "Refusals", and the numbers of calls beside them.

use std::error::Error;
use std::fmt;

use crate::view::LostData;

macro_rules! refusals {
    ($($number:literal $name:ident $why:literal,)*) => {
        /// Why a call was refused.
        #[derive(Clone, Copy, Debug, PartialEq, Eq)]
        pub enum Refused {
            $(#[doc = $why] $name,)*
            /// `channel_reestablish` with a number that can't be served; whose data is lost, as far as it proves it.
            ReestablishNumber(LostData),
            /// The peer would refuse the command, by this rule: 7, 21 or 23 to 30.
            PeerLimit(u8),
            /// A number that this crate doesn't know.
            Unknown(i32),
        }

        impl Refused {
            /// Its number.
            #[must_use]
            pub fn number(self) -> i32 {
                match self {
                    $(Refused::$name => $number,)*
                    Refused::ReestablishNumber(_) => 34,
                    Refused::PeerLimit(_) => 44,
                    Refused::Unknown(number) => number,
                }
            }

            /// What a call answers: `Ok` is 0.
            pub(crate) fn check(answer: i32) -> Result<(), Refused> {
                let [detail, number] = [(answer >> 8) as u8, answer as u8];
                match (number, answer) {
                    (_, 0) => Ok(()),
                    (34, _) => Err(Refused::ReestablishNumber(LostData::of(detail))),
                    (44, _) => Err(Refused::PeerLimit(detail)),
                    $((_, $number) => Err(Refused::$name),)*
                    _ => Err(Refused::Unknown(answer)),
                }
            }
        }
    };
}

refusals! {
    1 Truncated "The bytes end inside a value.",
    2 NotMinimal "A number is written in a longer form than it needs.",
    3 TlvOrder "A record's type isn't above the one before it.",
    4 TlvUnknownEven "A record has an even type that isn't known.",
    5 TlvLength "A record's value passes the end of the stream.",
    6 UnknownEvenType "A message has an even type that isn't known.",
    7 TooLong "A message has more than 65,535 bytes.",
    8 FieldLength "A value with a fixed form has another length.",
    9 UnknownFeature "A peer asks for an even feature that isn't known.",
    20 UnknownChannel "A message names a channel that there isn't.",
    21 OutOfPlace "A message that may not come in this state.",
    22 BadId "An add hasn't the next id of its sender.",
    23 AmountBelowMinimum "An add's amount is 0 or below `htlc_minimum_msat`.",
    24 TooManyHtlcs "An add would pass `max_accepted_htlcs`.",
    25 InFlightOver "An add would pass `max_htlc_value_in_flight_msat`.",
    26 CannotAfford "An add would leave its sender less than `channel_reserve_satoshis`.",
    27 ExpiryRange "An add's `cltv_expiry` is 500,000,000 or more.",
    28 NoSuchHtlc "A removal names an HTLC that can't be removed.",
    29 PreimageWrong "A preimage hasn't the payment hash.",
    30 NotFunder "`update_fee` by the side that doesn't pay the fee.",
    31 SignatureWrong "A signature doesn't fit.",
    32 SecretWrong "A per commitment secret doesn't fit.",
    33 NothingToRevoke "A revocation that answers no signature.",
    35 AddAfterShutdown "An add after its sender's shutdown.",
    36 FeeOutside "A closing fee that can't be agreed to.",
    37 PeerError "The peer sent `error`.",
    40 NotReady "The channel isn't ready for this command.",
    41 SignatureOutstanding "The last signature isn't revoked yet.",
    42 NothingToSign "A signature would cover nothing new.",
    43 Shut "A shutdown has passed.",
    45 UpdatesPending "The peer hasn't acknowledged every own update.",
    46 NumbersSpent "There is no further number.",
    47 Disconnected "There is no connection.",
    48 NotCommitted "The HTLC to be removed isn't irrevocably committed yet.",
    49 AlreadyRemoved "The HTLC to be removed was removed.",
    60 Memory "An allocation failed.",
    61 Store "The store failed.",
    62 Halted "The end has halted: memory ran out.",
    63 Io "A read, a write or a flush failed.",
    64 BadScript "A line of a script isn't one.",
    65 GaveUp "What was waited for didn't come.",
    70 Damaged "Bytes are no spec, config, command or record.",
    71 Version "A record has an unknown version.",
    80 Asks "The message's answer depends on a question that came without one: nothing has changed.",
    81 Answer "An answer, or what is to fill a blank, has a wrong form: nothing has changed.",
    82 Short "A buffer is too short: nothing has changed.",
    83 Handle "A handle that may not be given: nothing has changed.",
}

impl fmt::Display for Refused {
    fn fmt(&self, f: &mut fmt::Formatter<'_>) -> fmt::Result {
        write!(f, "{} {self:?}", self.number())
    }
}

impl Error for Refused {}
