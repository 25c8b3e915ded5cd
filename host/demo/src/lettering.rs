//! A few letters, five by seven.

const WIDTH: usize = 5;
const HEIGHT: usize = 7;
/// From the start of a letter to that of the next.
const ADVANCE: usize = WIDTH + 1;

const TEXT: &[u8] = b"EDGE TO EDGE";

/// The sides of the line of letters.
pub const SIDES: (usize, usize) = (ADVANCE * TEXT.len() - 1, HEIGHT);

/// Whether there is ink at a place of the line.
pub fn ink(column: usize, row: usize) -> bool {
    let (place, inner) = (column / ADVANCE, column % ADVANCE);
    inner < WIDTH && letter(TEXT[place])[row] >> (WIDTH - 1 - inner) & 1 == 1
}

/// Rows of a letter, its left column the highest bit.
fn letter(letter: u8) -> [u8; HEIGHT] {
    match letter {
        b'D' => [
            0b11110, 0b10001, 0b10001, 0b10001, 0b10001, 0b10001, 0b11110,
        ],
        b'E' => [
            0b11111, 0b10000, 0b10000, 0b11110, 0b10000, 0b10000, 0b11111,
        ],
        b'G' => [
            0b01110, 0b10001, 0b10000, 0b10111, 0b10001, 0b10001, 0b01110,
        ],
        b'O' => [
            0b01110, 0b10001, 0b10001, 0b10001, 0b10001, 0b10001, 0b01110,
        ],
        b'T' => [
            0b11111, 0b00100, 0b00100, 0b00100, 0b00100, 0b00100, 0b00100,
        ],
        _ => [0; HEIGHT],
    }
}
