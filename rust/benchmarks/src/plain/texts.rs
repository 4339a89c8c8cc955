//! The reader of texts: three readers, for a sum, a product and a unit, that call each other. The
//! words go into an array of as many as a plan may have; those past it are counted alone.

use reference::plans::{
    CHOICE, COMMUNICATION_MERGE, ENCAPSULATION, LEFT_MERGE, LONGEST_PLAN, MERGE, PRODUCT, THETA,
    UNLESS,
};
use reference::runs::set;
use reference::tables::{actions, judge_tables};
use reference::texts::DEEPEST;
use reference::Refusal;

/// Reads a text; the answer and the lent bytes are those of the library.
pub fn read_text(tables: &[u8], text: &[u8], plan_area: &mut [u8]) -> Result<usize, Refusal> {
    judge_tables(tables)?;
    let mut reader = Reader {
        n: actions(tables),
        text,
        at: 0,
        words: [0; LONGEST_PLAN],
        size: 0,
    };
    reader.sum(0)?;
    if reader.at < text.len() {
        return Err(reader.wrong());
    }
    let size = reader.size;
    if size > plan_area.len() || size > LONGEST_PLAN {
        return Err(Refusal::nowhere(63));
    }
    set(plan_area, &reader.words[..size]);
    Ok(size)
}

/// A text read up to a place, with the words so far.
struct Reader<'t> {
    n: u8,
    text: &'t [u8],
    at: usize,
    words: [u8; LONGEST_PLAN],
    size: usize,
}

impl Reader<'_> {
    /// Reads products with `+` between them, in so many brackets.
    fn sum(&mut self, depth: usize) -> Result<(), Refusal> {
        self.product(depth)?;
        while self.next() == Some(b'+') {
            self.at += 1;
            self.product(depth)?;
            self.put(CHOICE);
        }
        Ok(())
    }

    /// Reads units with `.` between them.
    fn product(&mut self, depth: usize) -> Result<(), Refusal> {
        self.unit(depth)?;
        while self.next() == Some(b'.') {
            self.at += 1;
            self.unit(depth)?;
            self.put(PRODUCT);
        }
        Ok(())
    }

    /// Reads an action, or one or two sums in a bracket.
    fn unit(&mut self, depth: usize) -> Result<(), Refusal> {
        let mut word = None;
        match self.next() {
            Some(digit @ b'0'..=b'9') => return self.action(digit),
            Some(b'T') => {
                self.at += 1;
                word = Some(THETA);
            }
            Some(b'H') => {
                self.at += 1;
                let Some(set @ b'0'..=b'7') = self.next() else {
                    return Err(self.wrong());
                };
                self.at += 1;
                word = Some(ENCAPSULATION + set - b'0');
            }
            _ => {}
        }
        if self.next() == Some(b'(') && depth == DEEPEST {
            return Err(Refusal::at_byte(62, self.at));
        }
        self.skip(b'(')?;
        self.sum(depth + 1)?;
        if word.is_none() && self.next() == Some(b' ') {
            word = Some(self.sign()?);
            self.sum(depth + 1)?;
        }
        self.skip(b')')?;
        if let Some(word) = word {
            self.put(word);
        }
        Ok(())
    }

    /// Reads an action that begins with this digit. A number above n is not read further, so it
    /// stays small.
    fn action(&mut self, digit: u8) -> Result<(), Refusal> {
        let above = Refusal::at_byte(61, self.at);
        let mut action = usize::from(digit - b'0');
        loop {
            if action > self.n.into() {
                return Err(above);
            }
            self.at += 1;
            match self.next() {
                Some(b'0'..=b'9') if action == 0 => return Err(self.wrong()),
                Some(digit @ b'0'..=b'9') => action = 10 * action + usize::from(digit - b'0'),
                _ => break,
            }
        }
        self.put(action as u8);
        Ok(())
    }

    /// Reads a sign with its blanks.
    fn sign(&mut self) -> Result<u8, Refusal> {
        self.skip(b' ')?;
        let word = match self.next() {
            Some(b'#') => MERGE,
            Some(b'[') => LEFT_MERGE,
            Some(b'|') => COMMUNICATION_MERGE,
            Some(b'<') => UNLESS,
            _ => return Err(self.wrong()),
        };
        self.at += 1;
        self.skip(b' ')?;
        Ok(word)
    }

    fn next(&self) -> Option<u8> {
        self.text.get(self.at).copied()
    }

    fn skip(&mut self, character: u8) -> Result<(), Refusal> {
        if self.next() != Some(character) {
            return Err(self.wrong());
        }
        self.at += 1;
        Ok(())
    }

    fn put(&mut self, word: u8) {
        if let Some(free) = self.words.get_mut(self.size) {
            *free = word;
        }
        self.size += 1;
    }

    /// What stands here cannot go on, or the text ends here too early.
    fn wrong(&self) -> Refusal {
        Refusal::at_byte(61, self.at)
    }
}
