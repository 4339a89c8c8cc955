//! docs/FORMATS.md: its example, the first trial tray, is as the files have it. What is read are
//! its blocks of code.

use crate::markdown::code;
use crate::{Finding, Repository};

/// The document.
const FILE: &str = "docs/FORMATS.md";

/// The station file of the example, and what the program prints for it.
const STATION: &str = "examples/trays/tray-1.station";
const LISTING: &str = "examples/trays/tray-1.txt";

/// The blocks that are read, by how their first lines begin.
const BLOCKS: [&str; 4] = ["0000 ", "byte     0:", "0b ", "A "];

/// What the document says of its example and the files do not.
pub fn check(repository: &Repository) -> Vec<Finding> {
    let station = repository.bytes(STATION);
    let listing: Vec<&str> = repository.text(LISTING).lines().collect();
    let mut findings = Vec::new();
    let blocks = code(repository.text(FILE));
    for (i, begins) in BLOCKS.iter().enumerate() {
        let Some(lines) = blocks.iter().find(|block| block[0].1.starts_with(begins)) else {
            let what = format!("no block of code begins with {begins:?}");
            findings.push(Finding::new(FILE, 0, what));
            continue;
        };
        let wrong = match i {
            0 => image(lines, dumped, station),
            1 => image(lines, entry, &tables(station)),
            2 => records(lines, &listing),
            _ => areas(lines, &listing),
        };
        findings.extend(wrong.map(|(line, what)| Finding::new(FILE, line, what)));
    }
    findings
}

/// What is wrong in a block, with its line.
type Wrong = Option<(usize, String)>;

/// The bytes that a line begins with.
fn hex(text: &str) -> Vec<u8> {
    let words = text.split_whitespace().take_while(|word| word.len() == 2);
    let bytes = words.map_while(|word| u8::from_str_radix(word, 16).ok());
    bytes.collect()
}

/// Lines that give bytes with their offsets.
type Read = fn(&str) -> Option<(usize, Vec<u8>)>;

/// The bytes that the lines give, all others being zero, are those wanted.
fn image(lines: &[(usize, &str)], read: Read, wanted: &[u8]) -> Wrong {
    let mut given = vec![(lines[0].0, 0); wanted.len()];
    for (line, text) in lines {
        let read = read(text).filter(|(at, bytes)| at + bytes.len() <= wanted.len());
        let Some((at, bytes)) = read else {
            return Some((*line, "this line gives no bytes of the file".to_string()));
        };
        for (i, byte) in bytes.into_iter().enumerate() {
            given[at + i] = (*line, byte);
        }
    }
    let mut places = given.iter().zip(wanted).enumerate();
    let (at, ((line, byte), there)) = places.find(|(_, (given, there))| given.1 != **there)?;
    let what = format!("byte {at} (0x{at:04x}) is {there:02x}, not {byte:02x}");
    Some((*line, what))
}

/// A line of sixteen bytes: an offset, then bytes, with `…` before or behind them for zeros.
fn dumped(line: &str) -> Option<(usize, Vec<u8>)> {
    let (offset, rest) = line.split_once("  ")?;
    let mut bytes = hex(rest.trim_start_matches('…'));
    if bytes.is_empty() || bytes.len() > 16 {
        return None;
    }
    let zeros = vec![0; 16 - bytes.len()];
    let at = if rest.starts_with('…') {
        0
    } else {
        bytes.len()
    };
    bytes.splice(at..at, zeros);
    Some((usize::from_str_radix(offset, 16).ok()?, bytes))
}

/// A line `byte N: …`.
fn entry(line: &str) -> Option<(usize, Vec<u8>)> {
    let (at, rest) = line.strip_prefix("byte ")?.split_once(':')?;
    Some((at.trim().parse().ok()?, hex(rest)))
}

/// The tables that the first five blocks of a station file hold.
fn tables(station: &[u8]) -> Vec<u8> {
    let count = |block: &[u8]| usize::from(block[4]) + 256 * usize::from(block[5]);
    let held = |block: &[u8]| block[6..].iter().take(count(block)).copied().collect();
    let blocks = station.chunks_exact(512).take(5);
    blocks.flat_map::<Vec<u8>, _>(held).collect()
}

/// The records are those of the lines that the program prints.
fn records(lines: &[(usize, &str)], listing: &[&str]) -> Wrong {
    let record = |step: &&str| {
        let (law, place) = step.split_once(' ')?;
        let (law, place): (u8, u16) = (law.parse().ok()?, place.parse().ok()?);
        let [low, high] = place.to_le_bytes();
        let bytes = format!("{law:02x} {low:02x} {high:02x}");
        Some(format!("{bytes} law {law} at place {place}"))
    };
    let wanted: Vec<String> = listing.iter().skip(2).filter_map(record).collect();
    let mut pairs = lines.iter().zip(&wanted);
    let right = pairs.all(|(l, w)| l.1.split_whitespace().take(8).eq(w.split(' ')));
    let wrong = !right || lines.len() != wanted.len();
    wrong.then(|| (lines[0].0, format!("the records are {wanted:?}")))
}

/// The plan reached stands in A after an even number of steps, else in B, with zeros behind.
fn areas(lines: &[(usize, &str)], listing: &[&str]) -> Wrong {
    let words = listing.get(1).unwrap_or(&"").split(' ');
    let plan: Vec<u8> = words.filter_map(|word| word.parse().ok()).collect();
    let steps = listing.len().saturating_sub(2);
    let (line, text) = lines.get(steps % 2).unwrap_or(&lines[0]);
    let bytes = hex(&text[1..]);
    let zeros = bytes.iter().skip(plan.len()).all(|byte| *byte == 0);
    let right = text.starts_with(["A", "B"][steps % 2]) && bytes.starts_with(&plan) && zeros;
    let what = format!("the plan reached is {plan:02x?}, with zeros behind");
    (!right).then_some((*line, what))
}

#[cfg(test)]
mod tests {
    use super::*;

    const TRUE: &str = "\
```text
0000  00 00 01 00 02 00 04 03 …    block 0
01f0  … 00 05                      sum
0200  01 00 01 00 00 00 00 00 00 00 00 00 00 00 00 00
```

```text
byte     0: 04 03     n
```

```text
0b 02 00   law 11 at place 2    x
```

```text
A   01 02 42 00
B   01 02 40 00    reached
```
";

    /// What is right, what is written for it, and what is then found.
    #[rustfmt::skip]
    const WRONG: [(&str, &str, &str); 10] = [
        ("04 03 …", "04 02 …", "2: byte 7 (0x0007) is 03, not 02"),
        ("… 00 05", "… 05 00", "3: byte 510 (0x01fe) is 00, not 05"),
        ("01f0  …", "01e0  …", "3: byte 495 (0x01ef) is 00, not 05"),
        ("01f0  … 00 05", "01f0  x", "3: this line gives no bytes of the file"),
        ("0: 04 03", "0: 04", "8: byte 1 (0x0001) is 03, not 00"),
        ("0b 02 00", "0b 03 00", "12: the records are [\"0b 02 00 law 11 at place 2\"]"),
        ("place 2 ", "place 3 ", "12: the records are [\"0b 02 00 law 11 at place 2\"]"),
        ("02 40 00", "02 41 00", "17: the plan reached is [01, 02, 40], with zeros behind"),
        ("02 40 00", "02 40 01", "17: the plan reached is [01, 02, 40], with zeros behind"),
        ("0000  00", "zero  00", "0: no block of code begins with \"0000 \""),
    ];

    #[test]
    fn a_true_example_and_wrong_ones() {
        let zeros = |count| "\0".repeat(count);
        let first = format!("\0\0\u{1}\0\u{2}\0\u{4}\u{3}{}\u{5}", zeros(503));
        let station = format!("{first}\u{1}\0\u{1}{}", zeros(509));
        let listing = "end 0 steps 1 size 3 orders 2 stuck 0\n1 2 64\n11 2\n";
        let found = |text: &str| {
            let files = [(FILE, text), (STATION, &station), (LISTING, listing)];
            crate::printed(check(&Repository::of(&files)))
        };
        assert_eq!(found(TRUE), Vec::<String>::new());
        for (right, wrong, what) in WRONG {
            assert!(TRUE.contains(right), "{right}");
            let text = TRUE.replacen(right, wrong, 1);
            assert_eq!(found(&text), [format!("{FILE}:{what}")]);
        }
    }
}
