//! Choice lists.

use std::cmp::Ordering;
use std::error::Error;
use std::fmt;
use std::hash::{Hash, Hasher};
use std::ops::Deref;
use std::str::FromStr;

/// A choice list: up to 64 entries, ordered as in a dictionary. It prints, and is read, as in the walk print.
///
/// ```
/// # use sheets::List;
/// let list = List::from([0, 12, 3]);
/// assert_eq!(list.to_string(), "0,12,3");
/// assert_eq!("0,12,3".parse(), Ok(list));
/// assert_eq!(List::EMPTY.to_string(), "-");
/// assert_eq!(list[1], 12);
/// assert!(List::EMPTY < list && list < List::from([1]));
/// assert!(List::try_from(&[0; 65][..]).is_err());
/// ```
#[derive(Clone, Copy)]
pub struct List {
    /// Zeros follow the list's end.
    pub(crate) entries: [u8; List::MAX_LENGTH],
    pub(crate) length: usize,
}

impl List {
    /// The most choices of a run.
    pub const MAX_LENGTH: usize = 64;

    /// The list without entries.
    pub const EMPTY: List = List {
        entries: [0; List::MAX_LENGTH],
        length: 0,
    };

    /// The entries of the list.
    pub fn entries(&self) -> &[u8] {
        &self.entries[..self.length]
    }
}

/// A list that is written out; more than 64 entries do not compile.
impl<const N: usize> From<[u8; N]> for List {
    fn from(written: [u8; N]) -> List {
        const { assert!(N <= List::MAX_LENGTH, "a list has at most 64 entries") };
        let mut entries = [0; List::MAX_LENGTH];
        entries[..N].copy_from_slice(&written);
        List { entries, length: N }
    }
}

impl TryFrom<&[u8]> for List {
    type Error = NotAList;

    fn try_from(slice: &[u8]) -> Result<List, NotAList> {
        let mut list = List::EMPTY;
        let entries = list.entries.get_mut(..slice.len()).ok_or(NotAList)?;
        entries.copy_from_slice(slice);
        list.length = slice.len();
        Ok(list)
    }
}

impl FromStr for List {
    type Err = NotAList;

    fn from_str(text: &str) -> Result<List, NotAList> {
        if text == "-" {
            return Ok(List::EMPTY);
        }
        let entries: Result<Vec<u8>, _> = text.split(',').map(str::parse).collect();
        List::try_from(entries.map_err(|_| NotAList)?.as_slice())
    }
}

impl Deref for List {
    type Target = [u8];

    fn deref(&self) -> &[u8] {
        self.entries()
    }
}

impl Default for List {
    fn default() -> List {
        List::EMPTY
    }
}

impl fmt::Display for List {
    fn fmt(&self, f: &mut fmt::Formatter) -> fmt::Result {
        let Some((first, others)) = self.split_first() else {
            return write!(f, "-");
        };
        write!(f, "{first}")?;
        others.iter().try_for_each(|entry| write!(f, ",{entry}"))
    }
}

impl fmt::Debug for List {
    fn fmt(&self, f: &mut fmt::Formatter) -> fmt::Result {
        write!(f, "{:?}", self.entries())
    }
}

impl PartialEq for List {
    fn eq(&self, other: &List) -> bool {
        self.entries() == other.entries()
    }
}

impl Eq for List {}

impl PartialOrd for List {
    fn partial_cmp(&self, other: &List) -> Option<Ordering> {
        Some(self.cmp(other))
    }
}

impl Ord for List {
    fn cmp(&self, other: &List) -> Ordering {
        self.entries().cmp(other.entries())
    }
}

impl Hash for List {
    fn hash<H: Hasher>(&self, state: &mut H) {
        self.entries().hash(state);
    }
}

/// Over 64 entries, or a text that is not `-` or numbers up to 255 joined by commas.
#[derive(Clone, Copy, Debug, PartialEq, Eq)]
pub struct NotAList;

impl fmt::Display for NotAList {
    fn fmt(&self, f: &mut fmt::Formatter) -> fmt::Result {
        let most = List::MAX_LENGTH;
        write!(f, "no choice list of up to {most} entries from 0 to 255")
    }
}

impl Error for NotAList {}
