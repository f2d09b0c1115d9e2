// Random good sheets with and without public atoms, key pairs and locks, and the card of a sheet by the simple verdict. Shared by the tests of the tool and
// by the brute-force test.

use super::sheets::{random_entries, sheet, Entry, Random, FRONT};
use super::simple;

// One rung of the output buffer as a line of the card.
pub fn rung_line(rung: &[u8]) -> String {
    let number = |at: usize| u16::from_be_bytes([rung[at], rung[at + 1]]);
    let words = ["", "left", "right", "open", "join", "seal", "sum", "unlock", "lock"];
    let rule = usize::from(number(2));
    let sources: Vec<u16> = match rule {
        1 | 2 => vec![number(4)],
        3..=5 | 7 | 8 => vec![number(4), number(6)],
        _ => (0..256u16).filter(|e| rung[8 + usize::from(e / 8)] >> (e % 8) & 1 == 1).collect(),
    };
    let list: String = sources.iter().map(|source| format!(" {source}")).collect();
    format!("rung {} {}{list}\n", number(0), words[rule])
}

// The card of a good sheet, by the simple verdict.
pub fn card_of(sheet: &[u8]) -> String {
    let number = |at: usize| u32::from(u16::from_be_bytes([sheet[at], sheet[at + 1]]));
    let mut text = format!("goal {} heard {}\n", number(8), number(6));
    let mut buffer = vec![0; FRONT + 40 * 256];
    for cut in 0..=number(6) {
        let answer = simple::verdict(sheet, cut, 256, &mut buffer);
        if answer >= 2000 {
            let known: u32 = buffer[..32].iter().map(|byte| byte.count_ones()).sum();
            text += &format!("cut {cut} out of reach known {known}\n");
            continue;
        }
        text += &format!("cut {cut} reached rungs {}\n", answer - 1000);
        buffer[FRONT..].chunks(40).take(answer as usize - 1000).for_each(|rung| text += &rung_line(rung));
        break;
    }
    text
}

// An atom on the hull label, one whose other number fits the short record, or one whose number doesn't. Those that fit it have the long one now and then.
fn any_atom(r: &mut Random) -> Entry {
    let number = match r.below(8) {
        0 => r.below(256),
        1..=4 => 256 + r.below(65536 - 256),
        _ => 65536 + r.below((1 << 32) - 65536),
    } as u32;
    if r.below(4) == 0 { Entry::Long(number) } else { Entry::Atom(number) }
}

// A good sheet with many entries, long sums, halves of 16 key pairs, locks under the first half and others, and many heard messages.
pub fn large(r: &mut Random) -> Vec<u8> {
    let n = 200 + r.below(57);
    let mut halves: Vec<u16> = vec![];
    let mut entry = |i: u64| match (i, r.below(6)) {
        (0, _) | (_, 0) => {
            halves.push(i as u16);
            let number = r.below(16) as u16 * 4369;
            if r.below(2) == 0 { Entry::Private(number) } else { Entry::Public(number) }
        }
        (_, 1) => any_atom(r),
        (_, 2) => Entry::Pair(r.below(i) as u16, r.below(i) as u16),
        (_, 3) => Entry::Seal(r.below(i) as u16, r.below(i) as u16),
        (_, 4) => Entry::Lock(r.below(i) as u16, halves[r.below(halves.len() as u64) as usize]),
        _ => Entry::Sum((0..r.below(65)).map(|_| r.below(i) as u16).collect()),
    };
    let entries: Vec<Entry> = (0..n).map(&mut entry).collect();
    let heard: Vec<u16> = (0..r.below(257)).map(|_| r.below(n) as u16).collect();
    sheet(&entries, &heard, r.below(n) as u16)
}

pub fn random_sheet(r: &mut Random) -> Vec<u8> {
    let most = [3, 9, 20, 60][r.below(4) as usize];
    let (entries, heard, goal) = random_entries(r, most);
    sheet(&entries, &heard, goal)
}
