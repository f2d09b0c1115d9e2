// Texts cut to a width, in a font of equal widths.

// How many columns a text takes. Letters of the far east take two.
pub fn columns(text: &str) -> usize {
    text.chars().map(width).sum()
}

fn width(c: char) -> usize {
    if (c as u32) >= 0x1100 && !(0x2000..0x2e80).contains(&(c as u32)) { 2 } else { 1 }
}

// The longest beginning of some letters that takes at most so many columns.
fn start(letters: impl Iterator<Item = char>, most: usize) -> Vec<char> {
    let mut used = 0;
    letters.take_while(|c| {
        used += width(*c);
        used <= most
    }).collect()
}

// The text, or its beginning with three dots.
pub fn clipped(text: &str, most: usize) -> String {
    if columns(text) <= most {
        return text.to_string();
    }
    let mut out: String = start(text.chars(), most - 1).iter().collect();
    out.push('…');
    out
}

// The text, or its beginning and its end with three dots between: names often differ at their ends.
pub fn cut(text: &str, most: usize) -> String {
    if columns(text) <= most {
        return text.to_string();
    }
    let first: String = start(text.chars(), most / 2).iter().collect();
    let last: String = start(text.chars().rev(), most - 1 - most / 2).iter().rev().collect();
    format!("{first}…{last}")
}
