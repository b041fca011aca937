//! Why calls are refused: [`Refusal`] has all numbers, and each kind of call
//! has an error type with those that it can meet.

use std::error::Error;
use std::fmt;

/// Defines the refusals with their numbers and texts.
macro_rules! refusals {
    ($($name:ident = $number:literal, $text:literal;)*) => {
        /// A refusal's number and text, for its documentation.
        macro_rules! rule {
            $(($name) => { concat!("No. ", $number, ": ", $text, ".") };)*
            ($variant:ident $refusal:ident) => { rule!($refusal) };
        }

        /// All refusals, by their numbers.
        ///
        /// The methods of [`Card`](crate::Card), [`Switch`](crate::Switch) and
        /// [`Player`](crate::Player) have smaller error types, which name only
        /// what can occur. Each of them converts into a `Refusal`, so that `?`
        /// brings calls of several kinds together. The functions of
        /// [`raw`](crate::raw) return the number alone.
        ///
        /// A refused call changes nothing; only a player keeps that it met a
        /// wrong byte.
        #[derive(Clone, Copy, Debug, PartialEq, Eq, Hash)]
        #[non_exhaustive]
        #[repr(u8)]
        pub enum Refusal {
            $(#[doc = rule!($name)] $name = $number,)*
        }

        impl Refusal {
            /// All refusals.
            pub const ALL: &'static [Refusal] = &[$(Refusal::$name),*];

            /// The words of the rule that the refusal goes by.
            pub fn text(self) -> &'static str {
                match self {
                    $(Refusal::$name => $text,)*
                }
            }
        }
    };
}

refusals! {
    NotSound = 1, "card not sound";
    Event = 2, "event number E or more";
    ConfigAccess = 3, "configuration width not 1, 2, 4, offset not a multiple of it, or above 255";
    BarAccess = 4, "BAR above 5, width not 4 or 8, offset not a multiple, or outside table and pending array";
    MemorySpace = 5, "BAR access with Command bit 1 clear";
    Room = 6, "output shorter than this call's packets or image";
    PinInForce = 7, "withdrawal while the pin is in force";
    Header = 10, "byte 0Eh low seven bits not 0, or pin (3Dh) above 4";
    List = 11, "list broken";
    Twice = 12, "ID 05h or 11h listed twice";
    Structure = 13, "Multiple Message Capable above 5; or a structure runs past byte FFh, overlaps the other one, or has another listed header's first two bytes inside it";
    Region = 14, "a BIR above 5; table (16N bytes) or pending array past its BAR's size; or the two overlapping in one BAR";
    Events = 15, "E not 1 to 2,048, or MSI-X present and N not E";
    Requester = 16, "requester's low three bits not 0, or requester above FFFFh";
    Buffers = 17, "table buffer not 16N bytes, or pending buffer not 8 x (N/64 rounded up) bytes";
    Mark = 20, "image under 294 bytes or wrong mark";
    Version = 21, "version not 1";
    Image = 22, "any other image that no sound card saves";
    Log = 30, "wrong byte of mark, version, kind or line; or a player that no log leaves behind";
    PortPacket = 50, "port above 7, bytes that are no single packet, or a wire packet with a device number other than 0";
    Lengths = 60, "card, configuration, sizes, switch or player of another length than 289, 256, 6, 10 and 25; \
        bytes or requester that no switch has; first byte of a player, or flags of the card it plays on, above 3; \
        kind or value that no record has; or bytes that begin with no packet";
}

impl Refusal {
    /// The number of the refusal.
    pub fn number(self) -> u8 {
        self as u8
    }

    /// The refusal with this number.
    pub fn from_number(number: u8) -> Option<Refusal> {
        let mut all = Refusal::ALL.iter().copied();
        all.find(|refusal| refusal.number() == number)
    }
}

impl fmt::Display for Refusal {
    fn fmt(&self, f: &mut fmt::Formatter<'_>) -> fmt::Result {
        write!(f, "refused with {}: {}", self.number(), self.text())
    }
}

impl Error for Refusal {}

/// The refusal that a variant of an error type stands for: the one of its name,
/// or another one.
macro_rules! refusal {
    ($name:ident) => {
        Refusal::$name
    };
    ($name:ident $refusal:ident) => {
        Refusal::$refusal
    };
}

/// Defines error types, each with some of the refusals under their names, or
/// under other ones.
macro_rules! errors {
    ($($(#[$doc:meta])* $error:ident: $($name:ident $(= $refusal:ident)?),*;)*) => {$(
        $(#[$doc])*
        #[derive(Clone, Copy, Debug, PartialEq, Eq, Hash)]
        #[non_exhaustive]
        pub enum $error {
            $(#[doc = rule!($name $($refusal)?)] $name,)*
        }

        impl $error {
            /// The number of the refusal.
            pub fn number(self) -> u8 {
                Refusal::from(self).number()
            }
        }

        impl From<$error> for Refusal {
            fn from(error: $error) -> Refusal {
                match error {
                    $($error::$name => refusal!($name $($refusal)?),)*
                }
            }
        }

        impl TryFrom<Refusal> for $error {
            /// A refusal that is none of these.
            type Error = Refusal;

            fn try_from(refusal: Refusal) -> Result<$error, Refusal> {
                match refusal {
                    $(refusal!($name $($refusal)?) => Ok($error::$name),)*
                    other => Err(other),
                }
            }
        }

        impl fmt::Display for $error {
            fn fmt(&self, f: &mut fmt::Formatter<'_>) -> fmt::Result {
                Refusal::from(*self).fmt(f)
            }
        }

        impl Error for $error {}
    )*};
}

errors! {
    /// Why a start was refused.
    StartError: Header, List, Twice, Structure, Region, Events, Requester;
    /// Why a configuration access was refused.
    ConfigError: ConfigAccess;
    /// Why a BAR access was refused.
    BarError: BarAccess, MemorySpace;
    /// Why an event was refused.
    EventError: Event;
    /// Why a withdrawal was refused.
    WithdrawError: Pin = PinInForce, Vector = Event;
    /// Why an image gives no card.
    ImageError: Mark, Version, Image;
    /// Why a card was not restored: of the image, or of the card, which has
    /// another number of vectors.
    RestoreError: Mark, Version, Image, Buffers;
    /// Why a switch refused a packet, or a port's going down.
    PortError: PortPacket;
    /// Why a log is not played any further.
    LogError: Log;
    /// Why a card refused the call of a log's record.
    RecordError: Event, ConfigAccess, BarAccess, MemorySpace;
}

/// The result that the number returned by a call stands for.
pub(crate) fn accepted<E: TryFrom<Refusal>>(number: u8) -> Result<(), E> {
    if number == 0 {
        return Ok(());
    }
    let refusal = Refusal::from_number(number);
    match refusal.and_then(|refusal| E::try_from(refusal).ok()) {
        Some(error) => Err(error),
        None => unexpected(number),
    }
}

/// The same for a call that is never refused.
pub(crate) fn never_refused(number: u8) {
    if number != 0 {
        unexpected(number);
    }
}

/// A card, switch or player of this crate is sound, its buffers fit and its
/// output has room. The rules then give no other refusal than those in the error types.
#[cold]
fn unexpected(number: u8) -> ! {
    panic!("refusal {number} of a call that cannot meet it");
}

#[cfg(test)]
mod tests {
    use super::*;

    #[test]
    fn numbers_go_there_and_back() {
        for &refusal in Refusal::ALL {
            assert_eq!(Refusal::from_number(refusal.number()), Some(refusal));
        }
        let numbers: Vec<u8> = (0..=255)
            .filter(|&number| Refusal::from_number(number).is_some())
            .collect();
        assert_eq!(
            numbers,
            [1, 2, 3, 4, 5, 6, 7, 10, 11, 12, 13, 14, 15, 16, 17, 20, 21, 22, 30, 50, 60]
        );
    }

    /// The numbers of an error type's refusals.
    fn numbers<E: TryFrom<Refusal>>(number: fn(E) -> u8) -> Vec<u8> {
        let all = Refusal::ALL.iter();
        all.filter_map(|&refusal| E::try_from(refusal).ok().map(number))
            .collect()
    }

    #[test]
    fn refusals_of_each_kind_of_call() {
        assert_eq!(numbers(StartError::number), [10, 11, 12, 13, 14, 15, 16]);
        assert_eq!(numbers(ConfigError::number), [3]);
        assert_eq!(numbers(BarError::number), [4, 5]);
        assert_eq!(numbers(EventError::number), [2]);
        assert_eq!(numbers(WithdrawError::number), [2, 7]);
        assert_eq!(numbers(ImageError::number), [20, 21, 22]);
        assert_eq!(numbers(RestoreError::number), [17, 20, 21, 22]);
        assert_eq!(numbers(PortError::number), [50]);
        assert_eq!(numbers(LogError::number), [30]);
        assert_eq!(numbers(RecordError::number), [2, 3, 4, 5]);
    }

    #[test]
    fn text() {
        let text = "refused with 21: version not 1";
        assert_eq!(Refusal::Version.to_string(), text);
        assert_eq!(ImageError::Version.to_string(), text);
        let text = "refused with 7: withdrawal while the pin is in force";
        assert_eq!(Refusal::PinInForce.to_string(), text);
        assert_eq!(WithdrawError::Pin.to_string(), text);
        assert_eq!(
            WithdrawError::Vector.to_string(),
            Refusal::Event.to_string()
        );
    }
}
