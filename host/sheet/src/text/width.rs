//! How many columns of a terminal a text takes: two for a wide sign (East Asian, emoji), none for one that stands upon another.

/// Signs without a column of their own: marks upon letters, joiners, signs that choose a variant.
const NO_COLUMN: [(u32, u32); 18] = [
    (0x0300, 0x036f),
    (0x0483, 0x0489),
    (0x0591, 0x05bd),
    (0x0610, 0x061a),
    (0x064b, 0x065f),
    (0x0900, 0x0902),
    (0x093c, 0x093c),
    (0x0941, 0x0948),
    (0x094d, 0x094d),
    (0x0e31, 0x0e31),
    (0x0e34, 0x0e3a),
    (0x0e47, 0x0e4e),
    (0x1ab0, 0x1aff),
    (0x1dc0, 0x1dff),
    (0x200b, 0x200f),
    (0x20d0, 0x20ff),
    (0xfe00, 0xfe0f),
    (0xfe20, 0xfe2f),
];

/// Signs that take two columns.
const TWO_COLUMNS: [(u32, u32); 17] = [
    (0x1100, 0x115f),
    (0x231a, 0x231b),
    (0x23e9, 0x23ec),
    (0x25fd, 0x25fe),
    (0x2614, 0x2615),
    (0x2648, 0x2653),
    (0x26aa, 0x26ab),
    (0x2705, 0x2705),
    (0x274c, 0x274c),
    (0x2e80, 0x303e),
    (0x3041, 0xa4cf),
    (0xac00, 0xd7a3),
    (0xf900, 0xfaff),
    (0xfe30, 0xfe6f),
    (0xff00, 0xff60),
    (0x1f300, 0x1faff),
    (0x20000, 0x3fffd),
];

/// The columns of one character.
pub fn of_char(sign: char) -> usize {
    let within = |table: &[(u32, u32)]| table.iter().any(|&(from, to)| (from..=to).contains(&u32::from(sign)));
    match sign {
        ' '..='~' => 1,
        '\u{feff}' => 0,
        _ if within(&NO_COLUMN) => 0,
        _ if within(&TWO_COLUMNS) => 2,
        _ => 1,
    }
}

/// The columns of a text.
pub fn of(text: &str) -> usize {
    text.chars().map(of_char).sum()
}

/// A text with spaces behind it, so that it takes this many columns at least.
pub fn padded(text: &str, columns: usize) -> String {
    text.to_string() + &" ".repeat(columns.saturating_sub(of(text)))
}
