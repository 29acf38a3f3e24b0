//! Numbers as they stand in messages: little-endian, each of the width of its type.

pub trait Number: Copy {
    const WIDTH: usize;

    fn worth(self) -> u64;

    fn of_worth(worth: u64) -> Self;

    fn written(self) -> Vec<u8> {
        self.worth().to_le_bytes()[..Self::WIDTH].to_vec()
    }

    fn read(bytes: &[u8]) -> Self {
        let larger = |worth, &byte| worth << 8 | u64::from(byte);
        Self::of_worth(bytes.iter().rev().fold(0, larger))
    }
}

macro_rules! numbers {
    ($($number:ty, $worth:ident => $of:expr;)*) => {
        $(impl Number for $number {
            const WIDTH: usize = std::mem::size_of::<$number>();

            fn worth(self) -> u64 {
                self.into()
            }

            fn of_worth($worth: u64) -> $number {
                $of
            }
        })*
    };
}

numbers! {
    bool, worth => worth != 0;
    u8, worth => worth as u8;
    u16, worth => worth as u16;
    u32, worth => worth as u32;
    u64, worth => worth;
}
