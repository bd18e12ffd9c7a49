//! Numbers in decimal digits.

/// The digits of the numbers below 100, two each.
static PAIRS: [u8; 200] = *b"\
    0001020304050607080910111213141516171819202122232425262728293031323334353637383940414243444546474849\
    5051525354555657585960616263646566676869707172737475767778798081828384858687888990919293949596979899";

/// As many digits and a sign as a number of 128 bits has at most.
const ROOM: usize = 40;

/// How many digits at the end of a number of 128 bits are written at once, and the power of ten above them.
const CHUNK: usize = 19;
const PAST_CHUNK: u128 = 10u128.pow(CHUNK as u32);

/// 2^190 divided by that power and rounded up, which is too much by less than 1 in 2^128.
const INVERSE: u128 = 156_927_543_384_667_019_095_894_735_580_191_660_403;

/// A number of at most 128 bits.
pub trait Integer: Copy {
    /// Contract: writes the number at the end of the room, and answers where it begins.
    fn write(self, room: &mut [u8; ROOM]) -> usize;
}

/// Contract: writes the number in decimal digits, as [`Buffer`] does, before `end`, and answers where they begin.
#[inline(always)]
pub fn write_digits(number: u64, room: &mut [u8], end: usize) -> usize {
    let (mut rest, mut at) = (number, end);
    while rest >= 100 {
        let pair = (rest % 100) as usize * 2;
        at -= 2;
        room[at..at + 2].copy_from_slice(&PAIRS[pair..pair + 2]);
        rest /= 100;
    }
    at -= 1;
    room[at] = b'0' + (rest % 10) as u8;
    if rest >= 10 {
        at -= 1;
        room[at] = b'0' + (rest / 10) as u8;
    }
    at
}

/// The digits above the last chunk. The number is multiplied with the inverse, since a division of 128 bits is slow,
/// and the 190 lowest bits of the product are left away.
#[inline(always)]
fn above_chunk(number: u128) -> u128 {
    const LOW: u128 = u64::MAX as u128;
    let (low, high) = (number & LOW, number >> 64);
    let middle = high * (INVERSE & LOW) + ((low * (INVERSE & LOW)) >> 64);
    let other = low * (INVERSE >> 64) + (middle & LOW);
    (high * (INVERSE >> 64) + (middle >> 64) + (other >> 64)) >> 62
}

/// The same of a number of 128 bits: the last digits in chunks, with the zeros at their fronts.
fn write_wide(number: u128, room: &mut [u8; ROOM]) -> usize {
    let (mut rest, mut end) = (number, ROOM);
    while rest > u128::from(u64::MAX) {
        let front = above_chunk(rest);
        let at = write_digits((rest - front * PAST_CHUNK) as u64, room, end);
        end -= CHUNK;
        room[end..at].fill(b'0');
        rest = front;
    }
    write_digits(rest as u64, room, end)
}

/// Writes a `-` before a place where the number is negative, and answers where it begins then.
#[inline(always)]
fn with_sign(negative: bool, room: &mut [u8; ROOM], at: usize) -> usize {
    if negative {
        room[at - 1] = b'-';
    }
    at - usize::from(negative)
}

impl Integer for usize {
    #[inline(always)]
    fn write(self, room: &mut [u8; ROOM]) -> usize {
        write_digits(self as u64, room, ROOM)
    }
}

impl Integer for u64 {
    #[inline(always)]
    fn write(self, room: &mut [u8; ROOM]) -> usize {
        write_digits(self, room, ROOM)
    }
}

impl Integer for i64 {
    #[inline(always)]
    fn write(self, room: &mut [u8; ROOM]) -> usize {
        let at = write_digits(self.unsigned_abs(), room, ROOM);
        with_sign(self < 0, room, at)
    }
}

impl Integer for u128 {
    fn write(self, room: &mut [u8; ROOM]) -> usize {
        write_wide(self, room)
    }
}

impl Integer for i128 {
    fn write(self, room: &mut [u8; ROOM]) -> usize {
        let at = write_wide(self.unsigned_abs(), room);
        with_sign(self < 0, room, at)
    }
}

/// Room for the digits of a number and its sign.
pub struct Buffer {
    room: [u8; ROOM],
}

impl Buffer {
    /// Room for the digits of a number and its sign.
    #[allow(clippy::new_without_default)]
    #[inline(always)]
    pub fn new() -> Buffer {
        Buffer { room: [b'0'; ROOM] }
    }

    /// Contract: the number in decimal digits, without zeros at the front; 0 is `0`. A negative one has a `-` first.
    #[inline]
    pub fn format<I: Integer>(&mut self, number: I) -> &str {
        let at = number.write(&mut self.room);
        match core::str::from_utf8(&self.room[at..]) {
            Ok(text) => text,
            Err(_) => unreachable!("digits are ASCII"),
        }
    }
}

#[cfg(test)]
mod tests {
    #[test]
    fn a_number_has_its_decimal_digits() {
        let mut buffer = super::Buffer::new();
        for number in (0..20_000).chain([u32::MAX as u64, u64::MAX / 10, u64::MAX - 1, u64::MAX]) {
            assert_eq!(buffer.format(number), number.to_string());
            let negative = (number as i64).wrapping_neg();
            assert_eq!(buffer.format(negative), negative.to_string());
        }
        for shift in 0..128 {
            for number in [1u128 << shift, (1 << shift) - 1, u128::MAX >> shift, 10u128.pow(shift / 4) * 7] {
                assert_eq!(buffer.format(number), number.to_string());
                let negative = (number as i128).wrapping_neg();
                assert_eq!(buffer.format(negative), negative.to_string());
            }
        }
        assert_eq!(buffer.format(i128::MIN), i128::MIN.to_string());
        for multiple in (0..1000).chain((0..64).map(|shift| (u128::MAX / super::PAST_CHUNK) >> shift)) {
            for number in [multiple * super::PAST_CHUNK, (multiple * super::PAST_CHUNK).wrapping_sub(1)] {
                assert_eq!(super::above_chunk(number), number / super::PAST_CHUNK);
            }
        }
        assert_eq!(buffer.format(7usize), "7");
        let mut bytes = *b"abcdefgh";
        assert_eq!(super::write_digits(403, &mut bytes, 5), 2);
        assert_eq!(&bytes, b"ab403fgh");
        assert_eq!(buffer.format(i64::MIN), i64::MIN.to_string());
    }
}
