//! Bundles: image sets and name lists as one run of bytes.
//!
//! Slot count and data size, the slots' starts, their lengths (4 bytes each, little-endian), the data.
use crate::{raw, Refusal};
use std::fmt;
use std::sync::Arc;

/// The most slots of a bundle.
pub const SLOTS: usize = 64;

const ABSENT: u32 = u32::MAX;

/// The most data bytes of a bundle that is written: an empty slot behind them does not start at the mark of an absent one.
const MOST: u32 = ABSENT - 1;

/// Slots of these lengths, one behind the other: the bytes of all of them. None where they are too many.
fn data_len(mut lens: impl Iterator<Item = usize>) -> Option<u32> {
    lens.try_fold(0u32, |sum, len| sum.checked_add(len.try_into().ok()?)).filter(|sum| *sum <= MOST)
}

/// Slots one behind the other: an empty one starts where the bytes before it end. None where they are too many or too long to be written.
fn bundle<'a>(slots: impl ExactSizeIterator<Item = Option<&'a [u8]>> + Clone) -> Option<Vec<u8>> {
    let n = slots.len();
    if n > SLOTS {
        return None;
    }
    let data = data_len(slots.clone().flatten().map(<[u8]>::len))?;
    let mut starts = Vec::with_capacity(8 + 8 * n + data as usize);
    let mut lengths = Vec::with_capacity(4 * n);
    starts.extend((n as u32).to_le_bytes());
    starts.extend(data.to_le_bytes());
    let mut at = 0u32;
    for slot in slots.clone() {
        let (start, len) = slot.map_or((ABSENT, 0), |s| (at, s.len() as u32));
        starts.extend(start.to_le_bytes());
        lengths.extend(len.to_le_bytes());
        at += len;
    }
    starts.extend(lengths);
    slots.flatten().for_each(|s| starts.extend(s));
    Some(starts)
}

/// A well-formed bundle.
#[derive(Clone)]
struct Bundle {
    bytes: Arc<[u8]>,
    /// by this crate, and not elsewhere: version 0.4.0 may have written it otherwise
    written: bool,
}

/// By the bytes alone, whoever made them.
impl PartialEq for Bundle {
    fn eq(&self, other: &Bundle) -> bool {
        self.bytes == other.bytes
    }
}

impl Eq for Bundle {}

impl Bundle {
    /// Numbers and data as version 0.4.0 wrote them: an empty slot started at 0.
    fn before(&self) -> (Vec<u8>, &[u8]) {
        let n = usize::from(self.bytes[0]);
        let (head, data) = self.bytes.split_at(8 + 8 * n);
        let mut head = head.to_vec();
        let (starts, lengths) = head[8..].split_at_mut(4 * n);
        if self.written {
            let empty = starts.chunks_exact_mut(4).zip(lengths.chunks_exact(4)).filter(|(_, len)| **len == [0; 4]);
            empty.filter(|(start, _)| **start != ABSENT.to_le_bytes()).for_each(|(start, _)| start.fill(0));
        }
        (head, data)
    }
}

/// An image set: for each slot an image, or none. A clone shares the bytes.
#[derive(Clone, PartialEq, Eq)]
pub struct ImageSet(Bundle);

impl ImageSet {
    /// Refused (1) above 64 slots or 2^32 - 2 bytes.
    pub fn new(images: &[Option<Vec<u8>>]) -> Result<ImageSet, Refusal> {
        let set = bundle(images.iter().map(|i| i.as_deref())).ok_or(Refusal::new(1))?;
        ImageSet::checked(set, true)
    }

    /// A bundle made elsewhere. Refused (1) where it is malformed.
    pub fn from_bytes(set: Vec<u8>) -> Result<ImageSet, Refusal> {
        ImageSet::checked(set, false)
    }

    fn checked(set: Vec<u8>, written: bool) -> Result<ImageSet, Refusal> {
        Refusal::check(raw::check_images(&set))?;
        Ok(ImageSet(Bundle { bytes: set.into(), written }))
    }

    /// The bundle.
    #[inline]
    pub fn bytes(&self) -> &[u8] {
        &self.0.bytes
    }

    /// The bundle in two parts, as version 0.4.0 would have made it.
    pub(crate) fn before(&self) -> (Vec<u8>, &[u8]) {
        self.0.before()
    }

    /// The bytes offset..offset+len of the image that a device means by `id`. Refused: 12, 13.
    pub fn image_range(&self, id: u64, offset: u64, len: u64) -> Result<&[u8], Refusal> {
        let r = raw::image_range(self.bytes(), id, offset, len);
        Refusal::check(r.refused)?;
        Ok(&self.bytes()[r.start..r.start + r.len])
    }
}

/// The names of the regions to dump. With no names, the device's preference decides.
#[derive(Clone, PartialEq, Eq)]
pub struct NameList(Bundle);

impl NameList {
    /// Refused (2) above 64 names or 2^32 - 2 bytes.
    pub fn new<N: AsRef<[u8]>>(names: &[N]) -> Result<NameList, Refusal> {
        let list = bundle(names.iter().map(|n| Some(n.as_ref()))).ok_or(Refusal::new(2))?;
        NameList::checked(list, true)
    }

    /// A bundle made elsewhere. Refused (2) where it is malformed.
    pub fn from_bytes(list: Vec<u8>) -> Result<NameList, Refusal> {
        NameList::checked(list, false)
    }

    fn checked(list: Vec<u8>, written: bool) -> Result<NameList, Refusal> {
        Refusal::check(raw::check_names(&list))?;
        Ok(NameList(Bundle { bytes: list.into(), written }))
    }

    /// The bundle.
    #[inline]
    pub fn bytes(&self) -> &[u8] {
        &self.0.bytes
    }

    /// The bundle in two parts, as version 0.4.0 would have made it.
    pub(crate) fn before(&self) -> (Vec<u8>, &[u8]) {
        self.0.before()
    }
}

impl fmt::Debug for ImageSet {
    fn fmt(&self, f: &mut fmt::Formatter<'_>) -> fmt::Result {
        write!(f, "ImageSet({} bytes)", self.bytes().len())
    }
}

impl fmt::Debug for NameList {
    fn fmt(&self, f: &mut fmt::Formatter<'_>) -> fmt::Result {
        write!(f, "NameList({} bytes)", self.bytes().len())
    }
}

#[cfg(test)]
mod tests {
    use super::*;

    const HALF: usize = 1 << 31;

    /// 2^32 - 2 bytes are the most, in any number of slots.
    #[test]
    fn the_most_data() {
        for (lens, due) in [
            (&[][..], Some(0)),
            (&[0, 0], Some(0)),
            (&[0xffff_fffe], Some(0xffff_fffe)),
            (&[0xffff_fffe, 0], Some(0xffff_fffe)),
            (&[HALF, HALF - 2], Some(0xffff_fffe)),
            (&[0xffff_ffff], None),
            (&[0xffff_fffe, 1], None),
            (&[HALF, HALF - 1], None),
            (&[HALF, HALF], None),
            (&[HALF, HALF, 5], None),
            (&[1 << 32], None),
            (&[usize::MAX, 2], None),
            (&[1 << 26; 64], None),
            (&[0xffff_ffff; 64], None),
        ] {
            assert_eq!(data_len(lens.iter().copied()), due, "{lens:?}");
        }
    }

    /// And slots of more are refused before a byte of them is copied.
    #[test]
    fn more_data() {
        let large = vec![0; 1 << 26];
        let mut names = [&large[..]; SLOTS];
        assert_eq!(NameList::new(&names).unwrap_err().number(), 2);
        names[7] = &large[1..];
        assert_eq!(NameList::new(&names).unwrap_err().number(), 2);
    }

    fn words(words: &[u32]) -> Vec<u8> {
        words.iter().flat_map(|w| w.to_le_bytes()).collect()
    }

    /// Empty slots start where the bytes before them end; in version 0.4.0 they started at 0. What was made elsewhere is as it is.
    #[test]
    fn empty_slots() {
        let images = ["", "ab", "", "c", ""].map(|image| (image != "c").then(|| image.into()));
        let set = ImageSet::new(&images).unwrap();
        let now = [words(&[5, 2, 0, 0, 2, ABSENT, 2, 0, 2, 0, 0, 0]), b"ab".to_vec()].concat();
        assert_eq!(set.bytes(), now);
        let before = words(&[5, 2, 0, 0, 0, ABSENT, 0, 0, 2, 0, 0, 0]);
        assert_eq!(set.before(), (before, &b"ab"[..]));
        let elsewhere = ImageSet::from_bytes(now.clone()).unwrap();
        assert_eq!((elsewhere.before().0, &elsewhere), (now[..48].to_vec(), &set));
        let names = NameList::new(&["ab", "", "c"]).unwrap();
        assert_eq!(names.bytes(), [words(&[3, 3, 0, 2, 2, 2, 0, 1]), b"abc".to_vec()].concat());
        assert_eq!(names.before(), (words(&[3, 3, 0, 0, 2, 2, 0, 1]), &b"abc"[..]));
        let none = NameList::new::<&str>(&[]).unwrap();
        assert_eq!(none.before(), (vec![0; 8], &[][..]));
    }

    /// Slots at random, with lengths and starts in each byte of their numbers: `before` is what version 0.4.0 wrote, by its rule.
    #[test]
    fn as_0_4_0_wrote_them() {
        let mut rng = device::Rng::new(9);
        for n in (0..=SLOTS).chain([SLOTS; 20]) {
            let images: Vec<Option<Vec<u8>>> = (0..n)
                .map(|_| {
                    (!rng.chance(200)).then(|| vec![7; [0, 0, 1, 256, 65_536, rng.below(70_000) as usize][rng.below(6) as usize]])
                })
                .collect();
            let (mut starts, mut lens, mut data) = (vec![], vec![], vec![]);
            for image in &images {
                starts.push(match image.as_deref() {
                    None => ABSENT,
                    Some([]) => 0,
                    Some(_) => data.len() as u32,
                });
                lens.push(image.as_ref().map_or(0, |i| i.len() as u32));
                data.extend(image.iter().flatten());
            }
            let head = words(&[&[n as u32, data.len() as u32][..], &starts, &lens].concat());
            let set = ImageSet::new(&images).unwrap();
            assert_eq!(set.before(), (head, &data[..]));
            if images.iter().all(Option::is_some) {
                let list: Vec<_> = images.iter().flatten().collect();
                assert_eq!(NameList::new(&list).unwrap().before(), set.before());
            }
            let elsewhere = set.bytes()[..8 + 8 * n].to_vec();
            assert_eq!(ImageSet::from_bytes(set.bytes().to_vec()).unwrap().before().0, elsewhere);
            if let Ok(list) = NameList::from_bytes(set.bytes().to_vec()) {
                assert_eq!(list.before().0, elsewhere);
            }
        }
    }
}
