//! What a start is given.

/// What a card is started from.
///
/// Every field has to be given: each shows in what the card answers or sends,
/// and none has a value that fits most cards.
///
/// ```
/// use musgarento::{Card, Start, StartError};
///
/// let start = Start {
///     config: [0; 256],
///     sizes: [0; 6],
///     events: 1,
///     requester: 0x0100, // bus 1, device 0, function 0
/// };
/// let card = Card::start(&start)?;
/// assert_eq!(card.vectors(), 0);
///
/// let function_1 = Start { requester: 0x0101, ..start };
/// assert_eq!(Card::start(&function_1), Err(StartError::Requester));
/// # Ok::<(), StartError>(())
/// ```
#[derive(Clone, Debug, PartialEq, Eq)]
pub struct Start {
    /// The configuration bytes.
    pub config: [u8; 256],
    /// The sizes of BAR 0 to BAR 5, in bytes.
    pub sizes: [u32; 6],
    /// E, the number of events: 1 to 2,048, and with MSI-X the number of its
    /// vectors.
    pub events: u16,
    /// The requester ID: bus in the high byte, device in bits 7:3, function 0.
    pub requester: u16,
}
