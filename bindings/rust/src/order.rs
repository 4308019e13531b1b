//! The two byte orders, and the letters that name them in a file.

/// A byte order: the one a file has, or the one it is to be written in.
#[derive(Clone, Copy, Debug, PartialEq, Eq, Hash)]
pub enum Order {
    /// The low byte first; the letter is L.
    Little,
    /// The high byte first; the letter is B.
    Big,
}

impl Order {
    /// The order that a letter names, if it names one.
    pub const fn from_letter(letter: u8) -> Option<Order> {
        match letter {
            b'L' => Some(Order::Little),
            b'B' => Some(Order::Big),
            _ => None,
        }
    }

    /// The letter in a file's header.
    pub const fn letter(self) -> u8 {
        match self {
            Order::Little => b'L',
            Order::Big => b'B',
        }
    }

    /// The order that turning gives.
    pub const fn other(self) -> Order {
        match self {
            Order::Little => Order::Big,
            Order::Big => Order::Little,
        }
    }
}
