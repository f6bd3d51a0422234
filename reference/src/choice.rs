//! One choice and its bytes (document 01, "Choices and moves", refusals 12
//! and 13).

/// One choice. Positions and preorder nodes count from 0. The derived order goes
/// by kind first; the order of suggestions is in [`crate::suggestion`].
#[derive(Clone, Copy, Debug, PartialEq, Eq, PartialOrd, Ord)]
pub enum Choice {
    /// Kind 1: the station acts.
    Act {
        /// Which station.
        position: u8,
    },
    /// Kind 2: a move inside an attempt.
    Inside {
        /// Which station.
        position: u8,
        /// Which node of its attempt.
        node: u8,
    },
}

impl Choice {
    /// Its kind and its body.
    pub fn bytes(self) -> Vec<u8> {
        match self {
            Choice::Act { position } => vec![1, position],
            Choice::Inside { position, node } => vec![2, position, node],
        }
    }

    /// How many bytes it takes.
    pub fn size(self) -> usize {
        match self {
            Choice::Act { .. } => 2,
            Choice::Inside { .. } => 3,
        }
    }
}

/// The choice at the front of these bytes. Where there is no byte at all, it
/// counts as cut short.
///
/// # Errors
///
/// The number of the refusal, 12 or 13.
pub fn first_choice(bytes: &[u8]) -> Result<Choice, u8> {
    match *bytes {
        [1, position, ..] => Ok(Choice::Act { position }),
        [2, position, node, ..] => Ok(Choice::Inside { position, node }),
        [] | [1 | 2, ..] => Err(13),
        _ => Err(12),
    }
}

/// The choices at the front of these bytes, up to their end or to the first one
/// that is cut short or of another kind.
pub fn whole_choices(bytes: &[u8]) -> Vec<Choice> {
    let mut choices = Vec::new();
    let mut at = 0;
    while let Ok(choice) = first_choice(&bytes[at..]) {
        choices.push(choice);
        at += choice.size();
    }
    choices
}
