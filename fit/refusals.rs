// What a refused line is told, in the words of docs/REFUSALS.md: that page is read when this is built.

const PAGE: &str = include_str!("../docs/REFUSALS.md");

pub struct Words {
    pub name: &'static str,
    pub when: &'static str,
    pub mend: &'static str,
}

/// The page's row of a number: `| No. | Name | When | An example | How to mend it | Calls |`.
pub fn words(number: u8) -> Words {
    for line in PAGE.lines() {
        let cells: Vec<&str> = line.split('|').map(str::trim).collect();
        if let [_, first, name, when, _, mend, ..] = cells[..] {
            if first.parse() == Ok(number) {
                return Words { name, when, mend };
            }
        }
    }
    Words { name: "UNKNOWN", when: "a number that docs/REFUSALS.md has not", mend: "look whether this program is of the same version as its library" }
}

#[cfg(test)]
mod tests {
    use super::*;

    #[test]
    fn every_refusal_of_a_line_has_its_words() {
        for (number, name) in [(8, "LONG"), (9, "BYTE"), (10, "FIELD"), (11, "PLACE"), (12, "SIDE"), (13, "RESULT")] {
            let words = words(number);
            assert!(words.name == name && !words.when.is_empty() && !words.mend.is_empty(), "{number}");
        }
        assert_eq!(words(200).name, "UNKNOWN");
    }
}
