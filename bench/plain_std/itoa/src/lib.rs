//! Numbers as digits.

/// A number that has digits.
pub trait Integer: Copy {
    fn wide(self) -> i128;
}

macro_rules! integers {
    ($($name:ty),*) => {
        $(impl Integer for $name {
            fn wide(self) -> i128 {
                self as i128
            }
        })*
    };
}

integers!(u8, u16, u32, u64, usize, u128, i8, i16, i32, i64, isize, i128);

/// Where digits are written, from the last one on.
pub struct Buffer([u8; 40]);

impl Buffer {
    pub fn new() -> Buffer {
        Buffer([0; 40])
    }

    pub fn format<I: Integer>(&mut self, number: I) -> &str {
        let wide = number.wide();
        let mut left = wide.unsigned_abs();
        let mut at = self.0.len() - 1;
        self.0[at] = b'0' + (left % 10) as u8;
        left /= 10;
        while left > 0 {
            at -= 1;
            self.0[at] = b'0' + (left % 10) as u8;
            left /= 10;
        }
        if wide < 0 {
            at -= 1;
            self.0[at] = b'-';
        }
        std::str::from_utf8(&self.0[at..]).unwrap_or("")
    }
}
