//! M32 codes (Req 01; G section 7), read and written.

/// Req 01: "one to five bytes of seven bits, high bits first, top bit set where more follow,
/// holding the magnitude less 127, 255, 16639, 2113791 or 270549247".
const BASES: [u64; 5] = [127, 255, 16_639, 2_113_791, 270_549_247];

/// Req 01: "-128 means -2147483648; 127 or -127 begins a positive or negative value".
const LOWEST: i8 = -128;
const POSITIVE: i8 = 127;
const NEGATIVE: i8 = -127;

/// The next number. `None` where the bytes end, at "a sixth byte of magnitude" and at "a magnitude
/// above 2147483647".
pub fn next_number(bytes: &mut impl Iterator<Item = u8>) -> Option<i32> {
    match bytes.next()? as i8 {
        LOWEST => Some(i32::MIN),
        POSITIVE => magnitude(bytes),
        NEGATIVE => magnitude(bytes).map(|magnitude| -magnitude),
        small => Some(i32::from(small)),
    }
}

fn magnitude(bytes: &mut impl Iterator<Item = u8>) -> Option<i32> {
    let mut held = 0;
    for base in BASES {
        let byte = bytes.next()?;
        held = held << 7 | u64::from(byte & 0x7f);
        if byte < 0x80 {
            return i32::try_from(held + base).ok();
        }
    }
    None
}

/// As many whole codes from the start as stand there, at most so many, and the bytes that they
/// take.
pub fn read(bytes: &[u8], most: usize) -> (Vec<i32>, usize) {
    let mut numbers = Vec::new();
    let mut taken = 0;
    while numbers.len() < most {
        let mut rest = bytes[taken..].iter().copied();
        let Some(number) = next_number(&mut rest) else {
            break;
        };
        numbers.push(number);
        taken = bytes.len() - rest.len();
    }
    (numbers, taken)
}

/// The codes of numbers, one behind the other.
pub fn write(numbers: &[i32]) -> Vec<u8> {
    let mut bytes = Vec::new();
    for number in numbers {
        put_code(*number, &mut bytes);
    }
    bytes
}

/// Req 01: "one signed byte from -126 to 126", and what the other first bytes begin.
fn put_code(number: i32, bytes: &mut Vec<u8>) {
    match number {
        i32::MIN => bytes.push(LOWEST as u8),
        -126..=126 => bytes.push(number as u8),
        127.. => put_magnitude(POSITIVE, number, bytes),
        _ => put_magnitude(NEGATIVE, number, bytes),
    }
}

/// As many bytes as the greatest base that the magnitude reaches.
fn put_magnitude(first: i8, number: i32, bytes: &mut Vec<u8>) {
    let magnitude = u64::from(number.unsigned_abs());
    let more = BASES.iter().filter(|base| **base <= magnitude).count() - 1;
    let held = magnitude - BASES[more];
    bytes.push(first as u8);
    for digit in (0..=more).rev() {
        let seven = (held >> (7 * digit)) as u8 & 0x7f;
        bytes.push(if digit > 0 { seven | 0x80 } else { seven });
    }
}
