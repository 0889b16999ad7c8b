//! How much room words take.
//!
//! Which letters a viewer has nobody knows here: these widths are those of wide ones, so that words are rather shorter
//! than this.

/// The size of all words but the picture's name, and what to reckon with for that, which has 17 and is bold: bold letters are
/// wider.
pub const SIZE: f64 = 12.0;
pub const NAME_SIZE: f64 = 19.0;

/// How wide a letter is, as a part of its size.
fn letter(c: char) -> f64 {
    match c {
        '\u{300}'..='\u{36f}' => 0.0,
        'i' | 'j' | 'l' | ' ' | '.' | ',' | ':' | ';' | '!' | '|' | '\'' | 'I' | '/' | '\\' => 0.34,
        'f' | 't' | 'r' | '-' | '(' | ')' | '[' | ']' => 0.42,
        'm' | 'w' | 'M' | 'W' | '@' | '%' | '…' => 1.0,
        '+' | '=' | '<' | '>' | '#' | '~' | '^' | 'A'..='Z' => 0.84,
        c if c.is_ascii() => 0.64,
        '\u{80}'..='\u{24f}' => 0.9,
        '\u{1f000}'.. => 1.4,
        _ => 1.1,
    }
}

/// How wide words of this size are.
pub fn width(words: &str, size: f64) -> f64 {
    size * words.chars().map(letter).sum::<f64>()
}

/// The words, or as much of their end as there is room for: names differ at their ends.
pub fn end_of(words: &str, size: f64, room: f64) -> String {
    const CUT: &str = "…";
    if width(words, size) <= room {
        return words.into();
    }
    let mut left = room - width(CUT, size);
    let fits = |c: &char| {
        left -= size * letter(*c);
        left >= 0.0
    };
    let end: Vec<char> = words.chars().rev().take_while(fits).collect();
    // a mark above a letter that is gone would stand above the cut
    let letters = end.into_iter().rev().skip_while(|c| letter(*c) == 0.0);
    CUT.chars().chain(letters).collect()
}

/// Words in lines, each as long as there is room for, and a word that is longer alone.
pub fn lines(words: &str, room: f64) -> Vec<String> {
    let mut lines: Vec<String> = Vec::new();
    for word in words.split(' ') {
        match lines.last_mut() {
            Some(line) if width(&format!("{line} {word}"), SIZE) <= room => {
                line.push(' ');
                line.push_str(word);
            }
            _ => lines.push(word.into()),
        }
    }
    lines
}

#[cfg(test)]
mod tests {
    use super::*;

    #[test]
    fn long_names_keep_their_end() {
        assert_eq!(end_of("cart-1.trail", SIZE, 200.0), "cart-1.trail");
        let long = format!("{}/cart-1.trail", "shift".repeat(40));
        let cut = end_of(&long, SIZE, 100.0);
        assert!(
            cut.starts_with('…') && cut.ends_with("cart-1.trail"),
            "{cut}"
        );
        assert!(width(&cut, SIZE) <= 100.0);
        assert_eq!(end_of("ae\u{301}", SIZE, 12.5), "…");
        assert_eq!(end_of("wagen", SIZE, 0.0), "…");
    }

    #[test]
    fn lines_have_as_many_words_as_fit() {
        let words = "one two three";
        assert_eq!(lines(words, 1_000.0), [words]);
        assert_eq!(lines(words, 60.0), ["one two", "three"]);
        assert_eq!(lines(words, 0.0), ["one", "two", "three"]);
    }
}
