//! The bytes that a session is read into.
use crate::{ffi, Counts, Error};
use std::fmt;

/// Room for one session: [`Area::SIZE`] bytes, lent to [`read`](crate::read). It may be used again for the next text.
///
/// It needs no heap: it can stand on the stack or in a struct. It is 17 KB, so think before moving it about.
#[derive(Clone)]
pub struct Area([u8; Area::SIZE]);

impl Area {
    /// Bytes of an area, which the archive's `sdp_area_size` answers too. docs/AREA.md has the layout.
    pub const SIZE: usize = 16_938;

    /// Bytes of an area of a release before records carried their lines. An area of today begins with the same ones.
    pub const EARLIER: usize = 14_558;

    /// An area that holds no session yet.
    pub const fn new() -> Self {
        Area([0; Area::SIZE])
    }

    /// An area of bytes that were kept. [`kept`](crate::kept) judges them.
    pub const fn from_bytes(bytes: [u8; Area::SIZE]) -> Self {
        Area(bytes)
    }

    /// An area of bytes that were kept by a release before records carried their lines. Every line is 0: nobody noted it.
    /// [`kept`](crate::kept) judges the bytes, and the session is written as before.
    ///
    /// ```
    /// let text = b"v=0\ns=one\n";
    /// # let mut area = sdp::Area::new();
    /// # sdp::read(text, &mut area)?;
    /// # let file = &area.as_bytes()[..sdp::Area::EARLIER];
    /// let bytes: &[u8; sdp::Area::EARLIER] = file.try_into().expect("14,558 bytes");
    /// let area = sdp::Area::from_earlier(bytes);
    /// let session = sdp::kept(text, &area)?;
    /// assert_eq!((session.session_name(), session.line_of_session_name()), ("one", 0));
    /// # Ok::<(), sdp::Error>(())
    /// ```
    pub fn from_earlier(bytes: &[u8; Area::EARLIER]) -> Self {
        let mut area = Area::new();
        area.0[..Area::EARLIER].copy_from_slice(bytes);
        area
    }

    /// The bytes, for a caller who walks them by docs/AREA.md, or keeps them.
    pub fn as_bytes(&self) -> &[u8; Area::SIZE] {
        &self.0
    }

    #[inline]
    pub(crate) fn read(&mut self, text: &[u8]) -> Result<Counts, Error> {
        let told = ffi::read(text, &mut self.0);
        Error::check_in(told.answer, text).map(|_| told.counts)
    }
}

impl Default for Area {
    fn default() -> Self {
        Area::new()
    }
}

impl fmt::Debug for Area {
    fn fmt(&self, f: &mut fmt::Formatter<'_>) -> fmt::Result {
        f.debug_struct("Area").finish_non_exhaustive() // 16,938 numbers help nobody
    }
}
