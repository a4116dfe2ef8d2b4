//! What the text of a comparison says of the records at a position.
use crate::fields::{after_id, differing, DIRECTION, FIRST, REFUSAL_NUMBER};
use crate::positions::Position;
use crate::readings::Reading;
use crate::shapes::Shape;
use std::iter::{self, Peekable};
use std::str::Lines;

/// A field that differs, with what stands for its contents.
pub struct Shown<'a> {
    pub field: &'static str,
    pub left: &'a str,
    pub right: &'a str,
}

impl<'a> Shown<'a> {
    /// None if it is no line of a field.
    fn new(text: &'a str) -> Option<Self> {
        let (name, contents) = text.split_once(": left ")?;
        let (left, right) = contents.split_once(", right ")?;
        let mut fields = FIRST.into_iter().chain(after_id(1)).chain(after_id(2));
        let field = fields.find(|field| *field == name)?;
        Some(Shown { field, left, right })
    }
}

pub enum Verdict<'a> {
    SameOctets,
    SameReading,
    Different(Vec<Shown<'a>>),
}
use Verdict::{Different, SameOctets, SameReading};

/// A position with what the proved library says of its records.
pub struct Known {
    pub position: Position,
    pub left: Reading,
    pub right: Reading,
}

impl Known {
    pub fn new(position: Position) -> Self {
        Known {
            left: Reading::of(&position.left),
            right: Reading::of(&position.right),
            position,
        }
    }

    /// The normal forms of two accepted messages.
    pub fn shapes(&self) -> Option<(Shape, Shape)> {
        self.left.shape().zip(self.right.shape())
    }

    /// The fields that differ.
    fn differing(&self) -> Vec<&'static str> {
        let (left, right) = (&self.left, &self.right);
        let directions = (left.from_tag != right.from_tag).then_some(DIRECTION);
        let numbers = (left.answer.number() != right.answer.number()).then_some(REFUSAL_NUMBER);
        let of_messages = self.shapes().map_or(vec![], |(left, right)| differing(&left, &right));
        directions.into_iter().chain(numbers).chain(of_messages).collect()
    }
}

impl<'a> Verdict<'a> {
    /// Takes the lines with this number; `None` if they say nothing of two records.
    pub fn take(lines: &mut Peekable<Lines<'a>>, number: usize) -> Option<Self> {
        let start = format!("{number} ");
        let line = || lines.next_if(|line| line.starts_with(&start));
        let mut rests = iter::from_fn(line).map(|line| &line[start.len()..]);
        match rests.next()? {
            "same octets" => Some(SameOctets),
            "same reading" => Some(SameReading),
            first => {
                let shown: Option<_> = iter::once(first).chain(rests).map(Shown::new).collect();
                shown.map(Different)
            }
        }
    }

    /// Whether it says what follows from octets, directions, refusal numbers and normal forms.
    pub fn fits(&self, known: &Known) -> bool {
        let position = &known.position;
        match self {
            SameOctets => position.left == position.right,
            SameReading => position.left != position.right && known.left == known.right,
            Different(shown) => {
                let fields: Vec<_> = shown.iter().map(|shown| shown.field).collect();
                position.disguise.is_none() && fields == known.differing()
            }
        }
    }
}
