//! Texts made of bytes: edits of books and tables, other words for a carriage or an allowance, beginnings, any bytes, and texts beside the
//! longest length.

use crate::random::Random;

/// Bytes that occur in books or stand beside those that do.
pub const RELEVANT: &[u8] = b"0123456789 ()-\ndemandbidsegABDS/:+.,\t\r\x00\x7f\x80\xff";

pub fn deleted(text: &[u8], place: usize) -> Vec<u8> {
    [&text[..place], &text[place + 1..]].concat()
}

pub fn inserted(text: &[u8], place: usize, byte: u8) -> Vec<u8> {
    [&text[..place], &[byte], &text[place..]].concat()
}

pub fn replaced(text: &[u8], place: usize, byte: u8) -> Vec<u8> {
    [&text[..place], &[byte], &text[place + 1..]].concat()
}

/// Every deletion of one byte, and every insertion and replacement by one of `bytes`; each text once.
pub fn edits(text: &[u8], bytes: &[u8]) -> Vec<Vec<u8>> {
    let mut texts: Vec<Vec<u8>> = (0..text.len()).map(|place| deleted(text, place)).collect();
    for &byte in bytes {
        texts.extend((0..=text.len()).map(|place| inserted(text, place, byte)));
        texts.extend((0..text.len()).map(|place| replaced(text, place, byte)));
    }
    texts.sort();
    texts.dedup();
    texts
}

/// One to four edits at places drawn anew.
pub fn edited(random: &mut Random, text: &[u8]) -> Vec<u8> {
    let mut text = text.to_vec();
    for _ in 0..random.between(1, 4) {
        let byte = random.pick(RELEVANT);
        let place = random.below(text.len());
        text = match random.below(3) {
            0 if text.len() > 1 => deleted(&text, place),
            1 => inserted(&text, place, byte),
            _ => replaced(&text, place, byte),
        };
    }
    text
}

/// What is put where a carriage stands: at and around its limits, longer numbers, and what is no number of the shape.
const CARRIAGES: [&str; 24] = [
    "0",
    "1",
    "9",
    "9999",
    "10000",
    "10001",
    "65536",
    "99999",
    "100000",
    "4294967296",
    "4294967297",
    "9999999999999",
    "10000000000000",
    "99999999999999",
    "00",
    "07",
    "-1",
    "-0",
    "+1",
    "1.5",
    "",
    "1 2",
    "carriage",
    "(seg 1 5 1 0)",
];

/// The line of a bid with this word for its carriage; with none it has the old form.
fn with_carriage(line: &str, word: Option<&str>) -> String {
    let parts: Vec<&str> = line.splitn(4, ' ').collect();
    match word {
        Some(word) => [parts[0], parts[1], word, parts[3]].join(" "),
        None => [parts[0], parts[1], parts[3]].join(" "),
    }
}

/// A book with another word for the carriage, or the old form, in one bid or in all.
pub fn carriage_replaced(random: &mut Random, book: &[u8]) -> Vec<u8> {
    let book = std::str::from_utf8(book).expect("a book has ASCII alone");
    let mut lines: Vec<String> = book.split_inclusive('\n').map(String::from).collect();
    let word = if random.chance(70) { Some(random.pick(&CARRIAGES)) } else { None };
    let chosen = if random.chance(20) { 1..lines.len() } else { one_of(random, lines.len()) };
    lines[chosen].iter_mut().for_each(|line| *line = with_carriage(line, word));
    lines.concat().into_bytes()
}

/// What is put where an allowance stands: as for a carriage, with its own limits.
const ALLOWANCES: [&str; 26] = [
    "0",
    "1",
    "2",
    "10",
    "999999",
    "1000000",
    "1000001",
    "9999999",
    "10000000",
    "4294967296",
    "4294967297",
    "4295967296",
    "9999999999999",
    "10000000000000",
    "99999999999999",
    "00",
    "07",
    "-1",
    "-0",
    "+1",
    "1.5",
    "",
    " 5",
    "1 2",
    "allowance",
    "(seg 1 5 1 0)",
];

/// A book with another word for the allowance, or the old form, which has none.
pub fn allowance_replaced(random: &mut Random, book: &[u8]) -> Vec<u8> {
    let book = std::str::from_utf8(book).expect("a book has ASCII alone");
    let (first, bids) = book.split_once('\n').expect("a demand line");
    let (demand, _) = first.rsplit_once(' ').expect("a demand line");
    let word = if random.chance(80) { format!(" {}", random.pick(&ALLOWANCES)) } else { String::new() };
    format!("{demand}{word})\n{bids}").into_bytes()
}

/// One line, not the first.
fn one_of(random: &mut Random, lines: usize) -> std::ops::Range<usize> {
    let line = 1 + random.below(lines - 1);
    line..line + 1
}

/// Fewer than 60 bytes, of all values or of the relevant ones.
pub fn any_bytes(random: &mut Random) -> Vec<u8> {
    let length = random.below(60);
    let all = random.chance(50);
    let byte = |random: &mut Random| if all { random.next() as u8 } else { random.pick(RELEVANT) };
    (0..length).map(|_| byte(random)).collect()
}

const TOKENS: [&str; 30] = [
    "(",
    ")",
    " ",
    "\n",
    "demand",
    "bid",
    "seg",
    "(demand ",
    "(demand 5 2)\n",
    " 1000001",
    "(bid ",
    " (seg ",
    "0",
    "1",
    "-",
    "-1",
    "-0",
    "12",
    "00",
    "01",
    "9999999999999",
    "99999999999999",
    "-9999999999999",
    ")\n",
    "))\n",
    " 5",
    " 10001",
    " (seg 1 5 1 0)",
    "(bid 7 0 (seg 1 5 1 0))\n",
    "(bid 7 (seg 1 5 1 0))\n",
];

const BEGINNINGS: [&str; 9] = [
    "",
    "(demand ",
    "(demand 5",
    "(demand 5 ",
    "(demand 5 0)\n",
    "(demand 5 2)\n(bid 3",
    "(demand 5 0)\n(bid 3 0",
    "(demand 5 2)\n(bid 3 0 (seg 1 5 1 0)",
    "(demand 5 0)\n(bid 3 0 (seg 1 5 1 0))\n",
];

/// Words and signs of a book in any order, after a good beginning.
pub fn tokens(random: &mut Random) -> Vec<u8> {
    let mut text = random.pick(&BEGINNINGS).to_string();
    for _ in 0..random.between(1, 9) {
        text += random.pick(&TOKENS);
    }
    text.into_bytes()
}

/// A number of so many digits, at most thirteen.
fn of_digits(count: usize) -> String {
    "1".repeat(count)
}

/// Parts of the shape repeated up to a length, the rest made up by longer numbers. `head` opens the first form, each of `part` has one
/// number of one digit before its `tail`, and `close` ends the text.
fn filled(length: usize, head: &str, part: &str, tail: &str, close: &str) -> Vec<u8> {
    let each = part.len() + tail.len() + 1;
    let space = length - head.len() - close.len();
    let count = space / each;
    let mut spare = space % each;
    let mut text = head.to_string();
    for _ in 0..count {
        let more = spare.min(12);
        spare -= more;
        text += &format!("{part}{}{tail}", of_digits(1 + more));
    }
    assert!(spare == 0, "the numbers are long enough");
    (text + close).into_bytes()
}

/// Texts of the shape of exactly this length: many bids, made up by bidder numbers or by carriages, and many segments in one bid.
pub fn of_length(length: usize) -> [Vec<u8>; 3] {
    let bids = filled(length, "(demand 5 0)\n", "(bid ", " 0 (seg 1 1 1 0))\n", "");
    let carriages = filled(length, "(demand 5 2)\n", "(bid 1 ", " (seg 1 1 1 0))\n", "");
    let segments = filled(length, "(demand 5 0)\n(bid 1 0", " (seg 1 1 1 ", ")", ")\n");
    [bids, carriages, segments]
}

/// Tables of the shape of exactly this length, made up by highest quantities or by samples: far more bands than a table may have.
pub fn tables_of_length(length: usize) -> [Vec<u8>; 2] {
    [filled(length, "", "(band ", " 1)\n", ""), filled(length, "", "(band 1 ", ")\n", "")]
}
