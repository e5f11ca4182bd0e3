//! Lines of request scripts, fine and malformed: the words, numbers and
//! lengths that they are made of.

/// Numbers as they may be written: fine ones, ones at the edges of widths and
/// limits, ones that would wrap round to fine ones, and malformed ones.
#[rustfmt::skip]
pub const NUMBERS: [&[u8]; 50] = [
    b"0", b"1", b"2", b"3", b"4", b"62", b"63", b"64", b"65", b"127", b"128", b"254", b"255",
    b"256", b"257", b"258", b"511", b"512", b"32767", b"32768", b"65534", b"65535", b"65536",
    b"65537", b"65538", b"65599", b"99999", b"100000", b"100001", b"131072", b"000000", b"00",
    b"01", b"00001", b"+1", b"-0", b"-1", b"1.0", b"0x1", b"1e0", b"1,", b"a", b"", b"1\r", b"1\t",
    b"\t1", b"1\0", b"\0", b"\xFF", b"\xC2\xB9",
];

/// The words that requests begin with. The leaves come last: after them the
/// others get other answers.
pub const REQUESTS: [&[u8]; 6] = [b"join", b"insert", b"grant", b"revoke", b"open", b"leave"];

/// Other words.
#[rustfmt::skip]
pub const WORDS: [&[u8]; 31] = [
    b"view", b"section", b"delta", b"full", b"leav", b"leaves", b"Leave", b"left", b"Join", b"JOIN", b"INSERT", b"joi",
    b"joinn", b"inser", b"inserts", b"gran", b"grants", b"revok", b"revokes", b"ope", b"opens",
    b"", b"0", b"ok", b"no", b"join\0", b"join\r", b"\0", b"\xFF", b"\xEF\xBB\xBFjoin",
    b"insert\xA0",
];

/// What may stand between two words, in the place of the one space.
#[rustfmt::skip]
pub const GAPS: [&[u8]; 12] = [
    b" ", b"  ", b"   ", b"\t", b"", b"\0", b"\r", b"\x0B", b"\x0C", b",", b"\xA0", b"\xC2\xA0",
];

/// What may come after a word.
#[rustfmt::skip]
pub const RESTS: [&[u8]; 9] = [
    b"", b" ", b" 0", b" 0 1", b" 1 0", b" 0 1 2", b" 0 1 ", b" 0  1", b"0 1",
];

/// Lists of an insert: in any order, with someone twice, with users that a
/// set can not hold.
#[rustfmt::skip]
pub const LISTS: [&str; 23] = [
    "0 0", "0 1 0", "2 1 0", "70 70", "0 70 0", "70 0 70", "70 71", "64", "0 64", "64 0", "63 64",
    "64 64", "99999 99999", "65536 0", "0 65536", "65536 65536", "0 0 100000", "100000 0 0",
    "0 1 2 3", "3", "70 01", "01 70", "0 1 2 0",
];

/// First lines; two are fine.
#[rustfmt::skip]
pub const FIRSTS: [&[u8]; 38] = [
    b"", b"delta", b"full", b"Delta", b"FULL", b"delta ", b" delta", b"full ", b"  full",
    b"delta\r", b"full\r", b"full\t", b"delta\0", b"\0delta", b"\0", b"delta\xFF",
    b"\xEF\xBB\xBFdelta", b"\xFF\xFE", b"delt", b"deltaa", b"ful", b"fulll", b"deltafull",
    b"delta full", b"delta 0", b"join", b"insert 0", b"0", b"1", b"no 14", b"d", b"f", b"\r", b" ",
    b"deltb", b"fulm", b"eelta", b"gull",
];

/// Last lines, for scripts that may end without a newline.
#[rustfmt::skip]
pub const LASTS: [&[u8]; 23] = [
    b"join", b"insert", b"insert 0", b"insert 2 0", b"grant 0 2", b"revoke 0 1", b"open 1 0",
    b"open 2 0", b"join ", b"join\r", b" ", b"x", b"", b"\0", b"insert ", b"grant 0", b"grant 0 ",
    b"open 100000 0", b"open 65536 0", b"leave 1", b"leave", b"leave 2 ", b"leave 65537",
];

/// Lengths of lines: around the longest one, and around the sizes of
/// buffers.
pub const LENGTHS: [usize; 18] = [
    8, 255, 256, 257, 509, 510, 511, 512, 513, 514, 1023, 1024, 1025, 4096, 4097, 65535, 65536,
    65537,
];

/// Lines of that length: an insert that is fine where it is not too long, and
/// others that begin fine.
pub fn lines_of(length: usize) -> Vec<Vec<u8>> {
    let filled = |start: &[u8], byte: u8| {
        let mut line = start.to_vec();
        line.resize(length, byte);
        line
    };
    vec![
        insert_of(length),
        filled(b"join", b' '),
        filled(b"join", 0),
        filled(b"open 0 0", b' '),
        filled(b"insert ", b'0'),
        filled(b"insert 0 1", b'9'),
        filled(b"", b'a'),
        filled(b"", b' '),
        filled(b"", b'\r'),
        filled(b"", 0xFF),
    ]
}

/// First lines of that length, none of them fine.
pub fn firsts_of(length: usize) -> Vec<Vec<u8>> {
    vec![
        vec![b'd'; length],
        [b"delta".to_vec(), vec![b' '; length - 5]].concat(),
        b"full".iter().copied().cycle().take(length).collect(),
    ]
}

/// An insert with numbers that all differ, of exactly that many bytes, at
/// least 8: numbers of five digits, and at the end shorter ones.
fn insert_of(length: usize) -> Vec<u8> {
    let mut line = b"insert".to_vec();
    // The next number with so many digits.
    let mut next = [0, 0, 10, 100, 1000, 10_000];
    while line.len() < length {
        let left = length - line.len();
        let digits = if left <= 6 {
            left - 1
        } else {
            (left - 3).min(5)
        };
        line.extend(format!(" {}", next[digits]).into_bytes());
        next[digits] += 1;
    }
    line
}

#[cfg(test)]
mod tests {
    use super::*;
    use fenstubble_reference::program;

    #[test]
    fn inserts_of_a_length() {
        for length in LENGTHS {
            let line = insert_of(length);
            assert_eq!(line.len(), length);
            assert!(program::request(&line).is_some());
        }
    }
}
