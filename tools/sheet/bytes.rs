// The sheet bytes of documents 01 and 02: `encode` writes them, `decode` reads them or gives the refusal of the grounding table.

use super::model::{Entry, Half, Sheet, MOST_ENTRIES, MOST_HEARD, MOST_ITEMS};

pub const LETTERS: &[u8; 4] = b"SHT1";
pub const MOST_BYTES: usize = 34_446;

// The word of a refusal number in the grounding table. No refusal has the number 11.
pub fn refusal_word(number: u32) -> Option<&'static str> {
    let words = [
        "no sheet", "bad count", "short list", "bad pair", "bad record", "forward", "not listed", "past the log", "over budget", "no space", "",
        "wrong half",
    ];
    let place = usize::try_from(number).ok()?.checked_sub(1)?;
    words.get(place).copied().filter(|word| !word.is_empty())
}

// An atom's number in pieces of 2 bytes, the high one first: one in the short record, two in the long one.
fn pieces(number: u32, long: bool) -> Vec<usize> {
    let (high, low) = ((number >> 16) as usize, (number & 0xffff) as usize);
    if long || high > 0 { vec![high, low] } else { vec![low] }
}

fn record(entry: &Entry) -> Vec<u8> {
    let (kind, numbers): (u8, Vec<usize>) = match entry {
        Entry::Zero => (0, vec![]),
        Entry::Atom { number, long } => (1, pieces(*number, *long)),
        Entry::Pair(left, right) => (2, vec![*left, *right]),
        Entry::Seal(message, key) => (3, vec![*message, *key]),
        Entry::Sum(items) => (4, items.clone()),
        Entry::Half(half) => (if half.private { 5 } else { 6 }, vec![usize::from(half.number)]),
        Entry::Lock(message, key) => (7, vec![*message, *key]),
    };
    let mut bytes = vec![kind];
    numbers.iter().for_each(|n| put(&mut bytes, *n));
    bytes
}

// Appends a number in 2 bytes, high byte first. Every number of a good sheet fits, an atom's in its pieces.
fn put(bytes: &mut Vec<u8>, number: usize) {
    bytes.extend((number as u16).to_be_bytes());
}

pub fn encode(sheet: &Sheet) -> Vec<u8> {
    let records: Vec<Vec<u8>> = sheet.entries.iter().map(record).collect();
    let mut bytes = LETTERS.to_vec();
    put(&mut bytes, sheet.entries.len());
    put(&mut bytes, sheet.heard.len());
    put(&mut bytes, sheet.goal);
    let mut offset = 10 + 4 * sheet.entries.len() + 2 * sheet.heard.len();
    for record in &records {
        put(&mut bytes, offset);
        put(&mut bytes, record.len());
        offset += record.len();
    }
    sheet.heard.iter().for_each(|entry| put(&mut bytes, *entry));
    bytes.extend(records.concat());
    bytes
}

// The number at an offset. Callers have checked that it is there; past the end it is zero.
fn number(bytes: &[u8], at: usize) -> usize {
    match bytes.get(at..at + 2) {
        Some(two) => usize::from(two[0]) * 256 + usize::from(two[1]),
        None => 0,
    }
}

// The records' slices, or refusal 4.
fn slices(bytes: &[u8], n: usize, start: usize) -> Result<Vec<&[u8]>, u32> {
    let mut end = start;
    let mut records = Vec::new();
    for i in 0..n {
        let (offset, length) = (number(bytes, 10 + 4 * i), number(bytes, 12 + 4 * i));
        if length == 0 || offset != end {
            return Err(4);
        }
        end = offset + length;
        records.push(bytes.get(offset..end).ok_or(4u32)?);
    }
    if end == bytes.len() { Ok(records) } else { Err(4) }
}

// One record behind these entries, or refusal 5, 6 or 12.
fn entry(record: &[u8], above: &[Entry]) -> Result<Entry, u32> {
    let numbers: Vec<usize> = (1..record.len().saturating_sub(1)).step_by(2).map(|at| number(record, at)).collect();
    let entry = match (record.first(), record.len(), numbers.as_slice()) {
        (Some(0), 1, _) => Entry::Zero,
        (Some(1), 3, [number]) => return Ok(Entry::Atom { number: *number as u32, long: false }),
        (Some(1), 5, [high, low]) => return Ok(Entry::Atom { number: (high << 16 | low) as u32, long: true }),
        (Some(2), 5, [left, right]) => Entry::Pair(*left, *right),
        (Some(3), 5, [message, key]) => Entry::Seal(*message, *key),
        (Some(4), length, items) if length % 2 == 1 && items.len() <= MOST_ITEMS => Entry::Sum(items.to_vec()),
        (Some(kind @ (5 | 6)), 3, [number]) => return Ok(Entry::Half(Half { private: *kind == 5, number: *number as u16 })),
        (Some(7), 5, [message, key]) => Entry::Lock(*message, *key),
        _ => return Err(5),
    };
    if !numbers.iter().all(|n| *n < above.len()) {
        return Err(6);
    }
    match entry {
        Entry::Lock(_, key) if above[key].half().is_none() => Err(12),
        entry => Ok(entry),
    }
}

// The sheet, or its refusal number, in the table's order.
pub fn decode(bytes: &[u8]) -> Result<Sheet, u32> {
    if bytes.len() < 10 || bytes.len() > MOST_BYTES || !bytes.starts_with(LETTERS) {
        return Err(1);
    }
    let (n, h, goal) = (number(bytes, 4), number(bytes, 6), number(bytes, 8));
    if n == 0 || n > MOST_ENTRIES || h > MOST_HEARD || goal >= n {
        return Err(2);
    }
    let start = 10 + 4 * n + 2 * h;
    if bytes.len() < start {
        return Err(3);
    }
    let records = slices(bytes, n, start)?;
    let mut entries = Vec::new();
    for record in records {
        entries.push(entry(record, &entries)?);
    }
    let heard: Vec<usize> = (0..h).map(|i| number(bytes, 10 + 4 * n + 2 * i)).collect();
    if heard.iter().any(|entry| *entry >= n) {
        return Err(7);
    }
    Ok(Sheet { names: vec![None; n], entries, heard, goal })
}
