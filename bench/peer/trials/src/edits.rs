//! Histories, right and wrong.

use crate::lists::Random;
use std::collections::HashMap;

/// The lines of a history, of what a script printed.
pub fn history_of(output: &[u8]) -> Vec<Vec<u8>> {
    output
        .split_inclusive(|byte| *byte == b'\n')
        .filter(|line| !line.starts_with(b"refused") && !line.starts_with(b"medium"))
        .map(|line| line.to_vec())
        .collect()
}

/// What may be done to a history.
#[derive(Clone, Copy)]
pub enum Edit {
    /// A line left out.
    LeftOut,
    /// A line that stands twice.
    Doubled,
    /// Two lines that change places: neighbours, or any two.
    Swapped,
    /// A line with another word in the place of one.
    Changed,
    /// The marks of some units on others of their blocks, which is legal; in half of the histories one mark more or
    /// less.
    Marks,
    /// Up to three of all these.
    Several,
}

impl Edit {
    pub const ALL: [Edit; 6] = [Edit::LeftOut, Edit::Doubled, Edit::Swapped, Edit::Changed, Edit::Marks, Edit::Several];

    pub fn name(self) -> &'static str {
        match self {
            Edit::LeftOut => "a line left out",
            Edit::Doubled => "a line doubled",
            Edit::Swapped => "two lines swapped",
            Edit::Changed => "a line changed",
            Edit::Marks => "marks moved",
            Edit::Several => "several of these",
        }
    }
}

const FOUND: [&[u8]; 4] = [b"read", b"equal", b"differs", b"written"];
const DIGITS: &[u8; 16] = b"0123456789ABCDEF";

// The same text with another digit in one place.
fn other_digit(text: &[u8], random: &Random) -> Vec<u8> {
    let mut other = text.to_vec();
    let byte = &mut other[random.up_to(text.len() as u64) as usize];
    let old = DIGITS.iter().position(|digit| digit == byte).unwrap_or(0);
    *byte = DIGITS[(old + 1 + random.up_to(15) as usize) % 16];
    other
}

// Another word in the place of one of this line: of its kind mostly, so that few lines are none.
fn other_word(word: &[u8], line: &[u8], random: &Random) -> Vec<u8> {
    if let Some(place) = FOUND.iter().position(|found| *found == word) {
        return FOUND[(place + 1 + random.up_to(3) as usize) % 4].to_vec();
    }
    let number = if word.len() < 8 { str::from_utf8(word).ok().and_then(|word| word.parse::<u64>().ok()) } else { None };
    match (word, number) {
        (b"*", _) => b"-".to_vec(),
        (b"-", _) if line.starts_with(b"block") => b"*".to_vec(),
        (b"-", _) => b"A1".to_vec(),
        (b"r", _) => b"w".to_vec(),
        (b"w", _) => b"r".to_vec(),
        (b"ok", _) if line.ends_with(b" 2 ok\n") => b"0/02 0/09".to_vec(),
        (b"ok", _) => b"0/02".to_vec(),
        (_, Some(number)) if number > 0 && random.one_in(2) => (number - 1).to_string().into_bytes(),
        (_, Some(number)) => (number + 1).to_string().into_bytes(),
        _ => other_digit(word, random),
    }
}

// Another line, with one word changed, which isn't the first.
fn other_line(line: &[u8], random: &Random) -> Vec<u8> {
    let mut words: Vec<Vec<u8>> = line[..line.len() - 1].split(|byte| *byte == b' ').map(|word| word.to_vec()).collect();
    let place = 1 + random.up_to(words.len() as u64 - 1) as usize;
    words[place] = other_word(&words[place], line, random);
    let mut other = words.join(&b' ');
    other.push(b'\n');
    other
}

// With a mark where there was none, or none where there was one.
fn other_mark(line: &mut [u8]) {
    let place = line.len() - 2;
    line[place] = if line[place] == b'*' { b'-' } else { b'*' };
}

// The ticket and the unit of a Block's line.
fn unit_of(line: &[u8]) -> Option<Vec<u8>> {
    let mut spaces = (0..line.len()).filter(|at| line[*at] == b' ');
    if line.starts_with(b"block") { Some(line[..spaces.nth(2)?].to_vec()) } else { None }
}

fn move_marks(history: &mut [Vec<u8>], random: &Random) {
    let mut units: HashMap<Vec<u8>, Vec<usize>> = HashMap::new();
    for (place, line) in history.iter().enumerate() {
        if let Some(unit) = unit_of(line) {
            units.entry(unit).or_default().push(place);
        }
    }
    let blocks: Vec<usize> = (0..history.len()).filter(|place| unit_of(&history[*place]).is_some()).collect();
    for place in &blocks {
        if !history[*place].ends_with(b"*\n") || random.one_in(3) {
            continue;
        }
        let same = &units[&unit_of(&history[*place]).unwrap()];
        let to = same[random.up_to(same.len() as u64) as usize];
        other_mark(&mut history[*place]);
        other_mark(&mut history[to]);
    }
    if random.one_in(2) && !blocks.is_empty() {
        other_mark(&mut history[blocks[random.up_to(blocks.len() as u64) as usize]]);
    }
}

// One edit of a history of at least two lines behind the first.
fn make(edit: Edit, history: &mut Vec<Vec<u8>>, random: &Random) {
    let any = || 1 + random.up_to(history.len() as u64 - 1) as usize;
    let (place, second) = (any(), any());
    match edit {
        Edit::LeftOut => drop(history.remove(place)),
        Edit::Doubled => history.insert(place, history[place].clone()),
        Edit::Swapped if random.one_in(2) && place + 1 < history.len() => history.swap(place, place + 1),
        Edit::Swapped => history.swap(place, second),
        Edit::Changed => history[place] = other_line(&history[place], random),
        Edit::Marks => move_marks(history, random),
        Edit::Several => {
            for _ in 0..1 + random.up_to(3) {
                if history.len() > 2 {
                    make(Edit::ALL[random.up_to(5) as usize], history, random);
                }
            }
        }
    }
}

/// A history that is edited, where it has two lines behind the first and the edit makes another one of it.
pub fn edited(edit: Edit, history: &[Vec<u8>], random: &Random) -> Option<Vec<Vec<u8>>> {
    if history.len() < 3 {
        return None;
    }
    let mut other = history.to_vec();
    make(edit, &mut other, random);
    (other != history).then_some(other)
}
