//! The two byte orders, and numbers read and written in them.

#[derive(Clone, Copy, Debug, PartialEq, Eq)]
pub enum Order {
    Little,
    Big,
}

impl Order {
    pub fn from_letter(letter: u8) -> Option<Order> {
        match letter {
            b'L' => Some(Order::Little),
            b'B' => Some(Order::Big),
            _ => None,
        }
    }

    pub fn letter(self) -> u8 {
        match self {
            Order::Little => b'L',
            Order::Big => b'B',
        }
    }

    pub fn other(self) -> Order {
        match self {
            Order::Little => Order::Big,
            Order::Big => Order::Little,
        }
    }

    /// The signed number of `width` bytes (1 to 4) at `at`.
    pub fn signed_at(self, file: &[u8], at: usize, width: usize) -> i32 {
        let bytes = &file[at..at + width];
        let join = |bits: u32, byte: &u8| bits << 8 | u32::from(*byte);
        let bits = match self {
            Order::Little => bytes.iter().rev().fold(0, join),
            Order::Big => bytes.iter().fold(0, join),
        };
        // Up to the top and back again, so that the sign comes along.
        let spare = 32 - 8 * width as u32;
        ((bits << spare) as i32) >> spare
    }

    pub fn i32_at(self, file: &[u8], at: usize) -> i32 {
        self.signed_at(file, at, 4)
    }

    pub fn u16_at(self, file: &[u8], at: usize) -> u16 {
        self.signed_at(file, at, 2) as u16
    }

    /// Writes the low `width` bytes (1 to 4) of `value` at `at`.
    pub fn put(self, out: &mut [u8], at: usize, width: usize, value: i32) {
        let place = &mut out[at..at + width];
        place.copy_from_slice(&value.to_le_bytes()[..width]);
        if self == Order::Big {
            place.reverse();
        }
    }
}

#[cfg(test)]
mod tests {
    use super::*;

    #[test]
    fn worked_values_1_to_5() {
        assert_eq!(Order::Little.signed_at(&[0xff, 0x7f], 0, 2), 32_767);
        assert_eq!(Order::Little.signed_at(&[0x00, 0x80], 0, 2), -32_768);
        assert_eq!(Order::Little.signed_at(&[0, 0, 0x80], 0, 3), -8_388_608);
        assert_eq!(Order::Big.signed_at(&[0x80, 0, 0], 0, 3), -8_388_608);
        assert_eq!(Order::Little.signed_at(&[0xff; 3], 0, 3), -1);
        assert_eq!(Order::Big.signed_at(&[0xff; 3], 0, 3), -1);
    }

    #[test]
    fn what_is_put_is_read() {
        for order in [Order::Little, Order::Big] {
            for (width, value) in [(2, -2), (3, -8_388_608), (4, i32::MIN), (4, 145)] {
                let mut out = [0; 6];
                order.put(&mut out, 1, width, value);
                assert_eq!(order.signed_at(&out, 1, width), value);
                assert_eq!((out[0], out[5]), (0, 0));
            }
        }
    }

    #[test]
    fn clock_numbers_are_unsigned() {
        assert_eq!(Order::Big.u16_at(&[0xff, 0xfe], 0), 65_534);
    }
}
