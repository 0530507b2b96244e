//! Tidy image sets: one form for all of as many slots with the same image in each.
use crate::{raw, ImageSet, Refusal};

/// The tidy form of an image set's bytes. Equal sets, and no others, have the same.
///
/// Two sets are equal if their slot counts agree, and each slot has the same bytes in both or is absent in both. An empty image is not absent. The form is an
/// image set itself, with as many slots as the set: the data in slot order, each present image's bytes once for its slot, also where slots share them, without
/// gaps; an empty image starts where the bytes before it end; absent slots are marked, those behind the last present one too. Tidied again it stays as it is. A
/// device gets the same answers and image bytes from a set and from its tidy form, in any session, if each step is lent all else alike: only where an image starts
/// in its set may be another number.
///
/// Refused: 28 where the set is malformed; else 29 where there are more than 2^32 - 2 data bytes. Since shared bytes are written for each slot, the form may be
/// far longer than the set. Where there is no memory for it, the process ends, as with each `Vec`: who wants to bear that asks [`tidy_len`], and lends a buffer
/// of his own to [`tidy_into`].
///
/// ```
/// use worgesli::{tidy, ImageSet};
/// let words = |words: &[u32]| words.iter().flat_map(|w| w.to_le_bytes()).collect::<Vec<u8>>();
/// // four slots over the same four bytes: "abcd", "cd", an empty image, none
/// let set = [words(&[4, 4, 0, 2, 1, u32::MAX, 4, 2, 0, 0]), b"abcd".to_vec()].concat();
/// let tidied = tidy(&set)?;
/// assert_eq!(tidied, [words(&[4, 6, 0, 4, 6, u32::MAX, 4, 2, 0, 0]), b"abcdcd".to_vec()].concat());
/// assert_eq!(tidy(&tidied)?, tidied);
/// // as this crate writes it
/// let images = [Some("abcd"), Some("cd"), Some(""), None].map(|image| image.map(Into::into));
/// assert_eq!(ImageSet::new(&images)?.bytes(), tidied);
/// // an image alone is served under every ID; with an absent slot behind it, under its own
/// let image = || Some(b"loader".to_vec());
/// let (one, two) = (ImageSet::new(&[image()])?.tidied()?, ImageSet::new(&[image(), None])?.tidied()?);
/// assert_eq!((one.image_range(1, 0, 6)?, two.image_range(0, 0, 6)?), (&b"loader"[..], &b"loader"[..]));
/// assert_eq!(two.image_range(1, 0, 6).unwrap_err().number(), 12);
/// # Ok::<(), worgesli::Refusal>(())
/// ```
pub fn tidy(set: &[u8]) -> Result<Vec<u8>, Refusal> {
    // zeros that the system has: they are written only once, by the form
    let mut to = vec![0; tidy_len(set)?];
    let len = tidy_into(set, &mut to)?;
    assert_eq!(len, to.len(), "the form is as long as was told");
    Ok(to)
}

/// The same in the first bytes of a buffer, whose rest stays as it was; gives how many they are. Refused: 28; else 29 also where the buffer is too short.
/// Then all of it is as it was.
pub fn tidy_into(set: &[u8], to: &mut [u8]) -> Result<usize, Refusal> {
    let raw::Tidied { len, refused } = raw::tidy(set, to);
    Refusal::check(refused).map(|()| len)
}

/// How long the tidy form of an image set's bytes is. Refused: 28; else 29 where it has more than 2^32 - 2 data bytes.
pub fn tidy_len(set: &[u8]) -> Result<usize, Refusal> {
    let raw::Tidied { len, refused } = raw::tidy_len(set);
    Refusal::check(refused).map(|()| len)
}

impl ImageSet {
    /// The set's [tidy](tidy()) form. For a moment it is held twice. Refused: 29.
    pub fn tidied(&self) -> Result<ImageSet, Refusal> {
        ImageSet::from_bytes(tidy(self.bytes())?)
    }
}
