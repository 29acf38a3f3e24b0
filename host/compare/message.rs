//! A message of a program: its fields one after another, each with a name, so that a message is written as bytes, told in words,
//! held to other bytes and made smaller from one list.

use crate::number::Number;
use crate::shown::shown;
use crate::smaller;
use std::ops::Range;

#[derive(Default)]
pub struct Message {
    pub bytes: Vec<u8>,
    fields: Vec<Field>,
    /// the places in which 0 and 1 alone may stand
    pub marks: Vec<usize>,
    /// in how many ways each of its parts can be made smaller
    pub ways: Vec<usize>,
    /// the parts that are made smaller while the message is written, and in which of their ways
    change: Option<(Range<usize>, usize)>,
}

struct Field {
    name: &'static str,
    /// of which row, board or place, where a name stands for several
    of: Option<usize>,
    shape: Shape,
    place: Range<usize>,
}

#[derive(Clone, Copy, PartialEq)]
enum Shape {
    Number,
    Bytes,
    Text,
}

/// What a request is made of: its parts can be made smaller, and then what they are lent from is smaller.
impl Message {
    pub fn changing(parts: Range<usize>, way: usize) -> Message {
        Message {
            change: Some((parts, way)),
            ..Message::default()
        }
    }

    pub fn part<N: Number>(&mut self, name: &'static str, number: &mut N) -> &mut Message {
        self.part_of(None, name, number)
    }

    /// One of each row, board or place.
    pub fn each<N: Number>(&mut self, name: &'static str, numbers: &mut [N]) -> &mut Message {
        for (of, number) in numbers.iter_mut().enumerate() {
            self.part_of(Some(of), name, number);
        }
        self
    }

    pub fn part_of<N: Number>(
        &mut self,
        of: Option<usize>,
        name: &'static str,
        number: &mut N,
    ) -> &mut Message {
        if let Some(way) = self.turn(smaller::ways_of_number(number.worth())) {
            *number = N::of_worth(smaller::number(number.worth(), way));
        }
        if N::of_worth(2).worth() == 1 {
            self.marks.push(self.bytes.len());
        }
        self.field(name, of, Shape::Number, &number.written())
    }

    /// Bytes after their length (4).
    pub fn counted(&mut self, name: &'static str, bytes: &mut Vec<u8>) -> &mut Message {
        let length = self.shrunk(bytes);
        self.number("length", length as u32).fixed(name, bytes)
    }

    /// Bytes that are not yet written; their length.
    pub fn shrunk(&mut self, bytes: &mut Vec<u8>) -> usize {
        if let Some(way) = self.turn(smaller::ways_of_bytes(bytes)) {
            *bytes = smaller::bytes(bytes, way);
        }
        bytes.len()
    }

    /// Counts a part, of which several fields may be made; the way in which it has to be made smaller, if it is the one.
    pub fn turn(&mut self, ways: usize) -> Option<usize> {
        let here = self.ways.len();
        self.ways.push(ways);
        let (parts, way) = self.change.as_ref()?;
        Some(*way).filter(|_| parts.contains(&here) && *way < ways)
    }
}

/// What stays as it is.
impl Message {
    pub fn letter(&mut self, letter: u8) -> &mut Message {
        self.text("request", &[letter])
    }

    pub fn text(&mut self, name: &'static str, text: &[u8]) -> &mut Message {
        self.field(name, None, Shape::Text, text)
    }

    pub fn number<N: Number>(&mut self, name: &'static str, number: N) -> &mut Message {
        self.field(name, None, Shape::Number, &number.written())
    }

    pub fn fixed(&mut self, name: &'static str, bytes: &[u8]) -> &mut Message {
        self.field(name, None, Shape::Bytes, bytes)
    }

    /// The last bytes are lost.
    pub fn cut(&mut self, count: usize) {
        let length = self.bytes.len().saturating_sub(count);
        self.bytes.truncate(length);
        for field in &mut self.fields {
            field.place = field.place.start.min(length)..field.place.end.min(length);
        }
    }

    fn field(
        &mut self,
        name: &'static str,
        of: Option<usize>,
        shape: Shape,
        bytes: &[u8],
    ) -> &mut Message {
        let begin = self.bytes.len();
        self.bytes.extend_from_slice(bytes);
        let place = begin..self.bytes.len();
        self.fields.push(Field {
            name,
            of,
            shape,
            place,
        });
        self
    }
}

/// What is told of it.
impl Message {
    /// Every field that is not 0.
    pub fn words(&self) -> String {
        let mut words = Vec::new();
        for field in &self.fields {
            let bytes = &self.bytes[field.place.clone()];
            if bytes.iter().any(|&byte| byte != 0) {
                words.push(format!("{} = {}", field.title(), field.told(bytes)));
            }
        }
        words.join(", ")
    }

    /// What these bytes have in the place of each field that they do not agree with. The last field gets all that is left.
    pub fn unlike(&self, bytes: &[u8]) -> Vec<String> {
        let mut found = Vec::new();
        for (turn, field) in self.fields.iter().enumerate() {
            let last = turn + 1 == self.fields.len();
            let end = if last { bytes.len() } else { field.place.end };
            let here = &bytes[field.place.start.min(bytes.len())..end.min(bytes.len())];
            let right = &self.bytes[field.place.clone()];
            if right != here {
                let (wrong, right) = (field.told(here), field.told(right));
                found.push(format!("{}: {}, not {}", field.title(), wrong, right));
            }
        }
        found
    }
}

impl Field {
    fn title(&self) -> String {
        let of = self.of.map_or(String::new(), |of| format!(" {}", of));
        format!("{}{}", self.name, of)
    }

    /// These bytes as the field would be told; those of a number may be too few or too many.
    fn told(&self, bytes: &[u8]) -> String {
        let whole = bytes.len() == self.place.len();
        match self.shape {
            Shape::Number if whole => u64::read(bytes).to_string(),
            Shape::Text => format!("{:?}", String::from_utf8_lossy(bytes)),
            _ => shown(bytes),
        }
    }
}
