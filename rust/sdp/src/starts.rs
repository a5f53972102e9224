//! When a session starts: the list that [`Session::starts`](crate::Session::starts) gives.
use crate::{ffi, Error};
use std::borrow::Borrow;
use std::fmt;
use std::iter::FusedIterator;
use std::ops::Range;

/// One start of a session, and the lines that it comes from. The numbers count from 1, as the archive does.
#[derive(Debug, Clone, Copy, PartialEq, Eq)]
pub struct Start {
    /// The instant, in seconds since 1900, with the zone's offset in it.
    pub at: u64,
    /// The number of its t line: [`Session::time`](crate::Session::time) has it, as has
    /// [`times`](crate::Session::times) at `time - 1`.
    pub time: usize,
    /// The number of its r line, which [`Session::repeat`](crate::Session::repeat) has; `None` for a time without
    /// repeats. The r lines are numbered through all times: the first one of the second time follows the last one of
    /// the first.
    pub repeat: Option<usize>,
}

/// The starts within a window: by instant, then by time, then by repeat. What is found twice is there twice.
///
/// It needs no heap. It is 6 KB, so think before moving it about.
#[derive(Clone, PartialEq, Eq)]
pub struct Starts(ffi::Starts);

impl Starts {
    /// The answer of [`ffi::starts`], with its refusal as an error.
    #[inline]
    pub(crate) fn check(list: ffi::Starts) -> Result<Self, Error> {
        Error::check_number(list.number)?;
        Ok(Starts(list))
    }

    /// How many there are: at most [`MOST_STARTS`](crate::MOST_STARTS).
    pub fn len(&self) -> usize {
        self.0.count as usize
    }

    /// Whether nothing starts within the window.
    pub fn is_empty(&self) -> bool {
        self.len() == 0
    }

    /// The start at this place, from 0.
    pub fn get(&self, place: usize) -> Option<Start> {
        (place < self.len()).then(|| Start {
            at: self.0.at[place],
            time: self.0.time[place] as usize,
            repeat: Some(self.0.repeat[place] as usize).filter(|number| *number > 0),
        })
    }

    /// All of them, in their order.
    pub fn iter(&self) -> StartsIter<&Starts> {
        self.into_iter()
    }
}

impl fmt::Debug for Starts {
    fn fmt(&self, f: &mut fmt::Formatter<'_>) -> fmt::Result {
        f.debug_list().entries(self).finish()
    }
}

/// The iterator over [`Starts`], lent or owned.
#[derive(Debug, Clone)]
pub struct StartsIter<S> {
    starts: S,
    left: Range<usize>,
}

impl<S: Borrow<Starts>> StartsIter<S> {
    fn new(starts: S) -> Self {
        let left = 0..starts.borrow().len();
        StartsIter { starts, left }
    }
}

impl<S: Borrow<Starts>> Iterator for StartsIter<S> {
    type Item = Start;

    fn next(&mut self) -> Option<Start> {
        self.left.next().and_then(|place| self.starts.borrow().get(place))
    }

    fn size_hint(&self) -> (usize, Option<usize>) {
        self.left.size_hint()
    }
}

impl<S: Borrow<Starts>> DoubleEndedIterator for StartsIter<S> {
    fn next_back(&mut self) -> Option<Start> {
        self.left.next_back().and_then(|place| self.starts.borrow().get(place))
    }
}

impl<S: Borrow<Starts>> ExactSizeIterator for StartsIter<S> {}

impl<S: Borrow<Starts>> FusedIterator for StartsIter<S> {}

impl IntoIterator for Starts {
    type Item = Start;
    type IntoIter = StartsIter<Starts>;

    fn into_iter(self) -> Self::IntoIter {
        StartsIter::new(self)
    }
}

impl<'a> IntoIterator for &'a Starts {
    type Item = Start;
    type IntoIter = StartsIter<&'a Starts>;

    fn into_iter(self) -> Self::IntoIter {
        StartsIter::new(self)
    }
}
