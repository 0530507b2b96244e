//! Tidy image sets: the function beside forms written out, a model of the requests and this crate's own bundles, on sets at random.
use crate::bad_input::{well_formed, word};
use crate::guard::{Beginning, Guarded, Side};
use device::Rng;
use std::collections::BTreeMap;
use worgesli::{raw, tidy, tidy_into, tidy_len, ImageSet, NameList, SLOTS};

/// A slot's start and length.
pub type Slot = (u32, u32);

pub const ABSENT: Slot = (u32::MAX, 0);
const SIDES: [Side; 2] = [Side::Behind, Side::Before];

/// A bundle's numbers: the size of its data, and the slots.
fn head(data: u32, slots: &[Slot]) -> Vec<u8> {
    let numbers = [slots.len() as u32, data].into_iter().chain(slots.iter().map(|s| s.0)).chain(slots.iter().map(|s| s.1));
    numbers.flat_map(u32::to_le_bytes).collect()
}

pub fn set(slots: &[Slot], data: &[u8]) -> Vec<u8> {
    [&head(data.len() as u32, slots)[..], data].concat()
}

// ---- the requests' words

/// What each slot of a well-formed set has: bytes, or None where it is absent.
pub fn slots(set: &[u8]) -> Vec<Option<&[u8]>> {
    let n = set[0] as usize;
    let slot = |i| match (word(set, 8 + 4 * i), word(set, 8 + 4 * (n + i))) {
        (0xffff_ffff, 0) => None,
        (start, len) => Some(&set[8 + 8 * n..][start as usize..(start + len) as usize]),
    };
    (0..n).map(slot).collect()
}

/// Whether each ID below 64, looked up as a plain slot, has the same bytes in both or is absent in both.
fn alike(a: &[Option<&[u8]>], b: &[Option<&[u8]>]) -> bool {
    let looked_up = |slots: &[Option<&[u8]>], id: usize| slots.get(id).copied().flatten().map(<[u8]>::to_vec);
    (0..64).all(|id| looked_up(a, id) == looked_up(b, id))
}

/// Whether their slot counts agree too.
fn equal(a: &[Option<&[u8]>], b: &[Option<&[u8]>]) -> bool {
    a.len() == b.len() && alike(a, b)
}

/// Data in slot order, each present image's bytes once for its slot, no gaps, an empty image starting where the bytes before it end, absent slots marked, as many
/// slots as there were.
fn form(slots: &[Option<&[u8]>]) -> Vec<u8> {
    form_with(slots, ABSENT)
}

/// The same with another mark of absent slots.
pub fn form_with(slots: &[Option<&[u8]>], mark: Slot) -> Vec<u8> {
    let (mut data, mut ranges) = (Vec::new(), Vec::new());
    for slot in slots {
        ranges.push(slot.map_or(mark, |image| (data.len() as u32, image.len() as u32)));
        data.extend(slot.unwrap_or_default());
    }
    set(&ranges, &data)
}

/// What tidying it comes to in a buffer of so many bytes: 28 first, then 29.
fn model(set: &[u8], room: usize) -> Result<Vec<u8>, u32> {
    if !well_formed(set, true) {
        return Err(28);
    }
    let slots = slots(set);
    let data: u64 = slots.iter().flatten().map(|image| image.len() as u64).sum();
    // no form is made of more data than it may have
    if data > (1 << 32) - 2 {
        return Err(29);
    }
    Some(form(&slots)).filter(|form| form.len() <= room).ok_or(29)
}

/// Tidies a set in a guarded buffer of so many bytes, and holds all that comes of it to the model.
fn held(set: &Guarded, room: usize, side: Side) -> Result<Vec<u8>, u32> {
    let mut to = Guarded::new(&vec![0xee; room], side);
    let (told, due) = (raw::tidy(set, &mut to), model(set, room));
    to.check();
    let (len, refused) = due.as_ref().map_or_else(|why| (0, *why), |form| (form.len(), 0));
    assert_eq!(told, raw::Tidied { len, refused }, "{room} bytes for {:?}", &set[..]);
    assert!(to[..len] == due.as_deref().unwrap_or_default()[..len], "{room} bytes for {:?}", &set[..]);
    assert!(to[len..].iter().all(|b| *b == 0xee), "{room} bytes for {:?}", &set[..]);
    due
}

// ---- by hand

#[test]
fn forms_by_hand() {
    let rows: [(&[Slot], &str, &[Slot], &str); 19] = [
        // nothing, and none that is there
        (&[], "", &[], ""),
        (&[], "gap", &[], ""),
        (&[ABSENT], "", &[ABSENT], ""),
        (&[ABSENT; 3], "gap", &[ABSENT; 3], ""),
        // an empty image is not absent, wherever it starts
        (&[(0, 0)], "", &[(0, 0)], ""),
        (&[(3, 0)], "abc", &[(0, 0)], ""),
        (&[(3, 0), (1, 2), (0, 0)], "abc", &[(0, 0), (0, 2), (2, 0)], "bc"),
        (&[ABSENT, (0, 0), ABSENT], "", &[ABSENT, (0, 0), ABSENT], ""),
        (&[(0, 3), (3, 0), (3, 0)], "abc", &[(0, 3), (3, 0), (3, 0)], "abc"),
        // gaps at each end and between
        (&[(1, 2), (4, 1)], "-ab-c-", &[(0, 2), (2, 1)], "abc"),
        // in slot order
        (&[(2, 2), (0, 2)], "abcd", &[(0, 2), (2, 2)], "cdab"),
        // shared, in part and all
        (&[(0, 3), (1, 3), (0, 4)], "abcd", &[(0, 3), (3, 3), (6, 4)], "abcbcdabcd"),
        (&[(0, 2), (0, 2)], "ab", &[(0, 2), (2, 2)], "abab"),
        // the same bytes twice in the data
        (&[(0, 2), (2, 2)], "abab", &[(0, 2), (2, 2)], "abab"),
        // absent before, between and behind
        (&[ABSENT, (0, 1), ABSENT, ABSENT, (0, 1), ABSENT], "a", &[ABSENT, (0, 1), ABSENT, ABSENT, (1, 1), ABSENT], "aa"),
        (&[(0, 1), ABSENT], "a", &[(0, 1), ABSENT], "a"),
        (&[(1, 1), ABSENT, ABSENT], "ab", &[(0, 1), ABSENT, ABSENT], "b"),
        (&[(0, 1), ABSENT, (1, 0), ABSENT], "ab", &[(0, 1), ABSENT, (1, 0), ABSENT], "a"),
        // tidy already
        (&[(0, 1), (1, 0), ABSENT, (1, 2)], "abc", &[(0, 1), (1, 0), ABSENT, (1, 2)], "abc"),
    ];
    for (slots, data, tidied, bytes) in rows {
        let (set, due) = (self::set(slots, data.as_bytes()), self::set(tidied, bytes.as_bytes()));
        assert_eq!(form(&self::slots(&set)), due, "the model, of {slots:?}");
        assert_eq!((tidy(&set), tidy_len(&set)), (Ok(due.clone()), Ok(due.len())), "{slots:?}");
        assert_eq!(tidy(&due), Ok(due));
    }
    assert_eq!(tidy(&[0; 8]).unwrap(), [0; 8]);
}

/// n slots without an image: n, 0, n marks, n zeros.
#[test]
fn absent_slots_alone() {
    for n in 0..=SLOTS {
        let due = [&[n as u8, 0, 0, 0, 0, 0, 0, 0][..], &vec![0xff; 4 * n], &vec![0; 4 * n]].concat();
        assert_eq!(ImageSet::new(&vec![None; n]).unwrap().tidied().unwrap().bytes(), due);
        assert_eq!(tidy(&set(&vec![ABSENT; n], b"gap")), Ok(due));
    }
}

// ---- at random

/// A set at random: gaps, ranges that are shared or overlap, empty images wherever they start, absent slots between others and at the end.
pub fn random(rng: &mut Rng) -> Vec<u8> {
    let n = [0, 1, 2, 3, 63, 64, rng.below(65), rng.below(65)][rng.below(8) as usize] as usize;
    let mut data = vec![0; [0, 1, rng.below(8), rng.below(40), rng.below(500)][rng.below(5) as usize] as usize];
    rng.fill(&mut data);
    let (size, absent, empty) =
        (data.len() as u64, [0, 100, 500, 1000][rng.below(4) as usize], [0, 200, 800][rng.below(3) as usize]);
    let mut slots: Vec<Slot> = Vec::new();
    for i in 0..n {
        let start = rng.below(size + 1);
        slots.push(match rng.below(6) {
            _ if rng.chance(absent) => ABSENT,
            _ if rng.chance(empty) => (start as u32, 0),
            0 if i > 0 => slots[rng.below(i as u64) as usize],
            1 => (0, size as u32),
            2 => (start as u32, (size - start) as u32),
            _ => (start as u32, rng.below(size - start + 1) as u32),
        });
    }
    let behind = if rng.chance(300) { rng.below(n as u64 + 1) as usize } else { n };
    slots[behind..].fill(ABSENT);
    set(&slots, &data)
}

/// The same, malformed in some way or, by luck, still well formed.
fn spoiled(rng: &mut Rng, mut set: Vec<u8>) -> Vec<u8> {
    let (n, data) = (word(&set, 0), word(&set, 4));
    let slot = rng.below(n.max(1)) as usize;
    let number = |set: &mut [u8], at: usize, number: u64| set[at..at + 4].copy_from_slice(&(number as u32).to_le_bytes());
    let range = |set: &mut [u8], start: u64, len: u64| {
        if n > 0 {
            number(set, 8 + 4 * slot, start);
            number(set, 8 + 4 * (n as usize + slot), len);
        }
    };
    match rng.below(12) {
        0 => set.truncate(rng.below(9) as usize),
        1 => set.truncate(rng.below(set.len() as u64 + 1) as usize),
        2 => set.push(0),
        // more slots than there may be, with room for them
        3 => set = [&head(data as u32, &vec![(0, 0); 65 + rng.below(3) as usize])[..], &vec![0; data as usize]].concat(),
        4 => number(&mut set, 0, [65, n + 1, n.wrapping_sub(1), 1 << 31, u64::MAX][rng.below(5) as usize]),
        5 => number(&mut set, 4, [data + 1, data.wrapping_sub(1), 1 << 31, u64::MAX][rng.below(4) as usize]),
        // a range that ends behind the data, an empty one that starts there, and those that end at 2^32 or behind it
        6 => range(&mut set, 0, data + 1),
        7 => range(&mut set, data + 1, 0),
        8 => range(&mut set, u64::MAX, 1 + rng.below(4)),
        9 => range(&mut set, data, u64::MAX),
        10 => range(&mut set, u64::MAX - 1, 2),
        _ => {
            let at = rng.below(set.len() as u64) as usize;
            set[at] = rng.number() as u8;
        }
    }
    set
}

/// Each set in buffers around the length of its form, on either side of a guard.
#[test]
fn sets_at_random() {
    let mut rng = Rng::new(61);
    let (mut seen, mut counts) = ([0; 3], BTreeMap::new());
    for round in 0..20_000 {
        let mut set = random(&mut rng);
        if round % 4 == 0 {
            set = spoiled(&mut rng, set);
        }
        let set = Guarded::new(&set, SIDES[round % 2]);
        let due = model(&set, usize::MAX);
        assert_eq!(tidy(&set).map_err(|why| why.number().into()), due);
        assert_eq!(tidy_len(&set).map_err(|why| why.number().into()), due.as_ref().map(Vec::len).map_err(|why| *why));
        let len = due.as_ref().map_or(0, Vec::len);
        for room in [0, len.saturating_sub(1), len, len + 1, rng.below(len as u64 + 1) as usize, len + rng.below(600) as usize] {
            match held(&set, room, SIDES[round / 2 % 2]) {
                Ok(_) => seen[0] += 1,
                Err(why) => seen[why as usize - 27] += 1,
            }
        }
        if due.is_ok() {
            *counts.entry(set[0]).or_insert(0) += 1;
        }
        // the safe function says the same
        let mut to = vec![0xee; len + 3];
        assert_eq!(tidy_into(&set, &mut to).map_err(|why| why.number().into()), due.as_ref().map(Vec::len).map_err(|why| *why));
        assert!(to[len..] == [0xee; 3] && to[..len] == due.unwrap_or_default());
    }
    assert!(seen[0] > 40_000 && seen[1] > 10_000 && seen[2] > 20_000, "{seen:?}");
    assert!(counts.len() == SLOTS + 1 && counts.values().all(|n| *n > 20), "{counts:?}");
}

/// The form is what this crate's bundles are, of the images as they are looked up; so these are tidy, absent slots at their end too. Tidied again it is the same,
/// and each ID is looked up in it as before.
#[test]
fn as_bundles_are_written() {
    let mut rng = Rng::new(62);
    let mut served = [0; 3];
    for _ in 0..6000 {
        let set = ImageSet::from_bytes(random(&mut rng)).unwrap();
        let images: Vec<Option<Vec<u8>>> = slots(set.bytes()).into_iter().map(|image| image.map(Vec::from)).collect();
        let (tidied, written) = (set.tidied().unwrap(), ImageSet::new(&images).unwrap());
        assert_eq!((tidied.bytes(), tidied.bytes()[0]), (written.bytes(), set.bytes()[0]));
        assert_eq!(written.tidied().unwrap().bytes(), written.bytes());
        assert_eq!((tidied.tidied().unwrap(), raw::check_images(tidied.bytes())), (tidied.clone(), 0));
        if images.iter().all(Option::is_some) {
            assert_eq!(NameList::new(&images.into_iter().flatten().collect::<Vec<_>>()).unwrap().bytes(), tidied.bytes());
        }
        for _ in 0..20 {
            let id = [rng.below(u64::from(set.bytes()[0]) + 2), rng.number()][rng.below(8) as usize / 7];
            let mut some = || [0, 0, rng.below(4), rng.below(set.bytes().len() as u64)][rng.below(4) as usize];
            let (offset, len) = (some(), some());
            let range = tidied.image_range(id, offset, len);
            assert_eq!(range, set.image_range(id, offset, len), "{id}, {offset}, {len} of {:?}", set.bytes());
            served[range.map_or_else(|why| why.number() as usize - 11, |_| 0)] += 1;
        }
    }
    assert!(served.into_iter().all(|n| n > 10_000), "{served:?}");
}

// ---- equal sets

/// Images, laid out at random: in any order, with gaps, sharing what is the same; with absent slots behind them.
fn laid_out(rng: &mut Rng, images: &[Option<Vec<u8>>]) -> Vec<u8> {
    let mut order: Vec<usize> = (0..images.len()).collect();
    (1..order.len()).rev().for_each(|i| order.swap(i, rng.below(i as u64 + 1) as usize));
    let (mut data, mut slots) = (Vec::new(), vec![ABSENT; images.len()]);
    for i in order {
        let Some(image) = &images[i] else { continue };
        let there = data.windows(image.len().max(1)).position(|w| w == image);
        let start = there.filter(|_| rng.chance(500)).unwrap_or_else(|| {
            data.extend(vec![0xaa; rng.below(4) as usize]);
            data.extend(image);
            data.len() - image.len()
        });
        // an empty image may start anywhere
        let start = if image.is_empty() { rng.below(data.len() as u64 + 1) as usize } else { start };
        slots[i] = (start as u32, image.len() as u32);
    }
    data.extend(vec![0xaa; rng.below(4) as usize]);
    if rng.chance(300) {
        slots.resize(images.len() + rng.below((SLOTS - images.len()) as u64 + 1) as usize, ABSENT);
    }
    set(&slots, &data)
}

/// The same images, or nearly the same.
fn changed(rng: &mut Rng, images: &[Option<Vec<u8>>]) -> Vec<Option<Vec<u8>>> {
    let mut other = images.to_vec();
    let Some(last) = other.len().checked_sub(1) else {
        return [vec![], vec![None], vec![Some(vec![])]][rng.below(3) as usize].clone();
    };
    let i = rng.below(other.len() as u64) as usize;
    match (rng.below(8), &mut other[i]) {
        (0, image @ None) => *image = Some(vec![]),
        (0, Some(image)) if image.is_empty() => other[i] = None,
        (1, Some(image)) if !image.is_empty() => {
            let at = rng.below(image.len() as u64) as usize;
            image[at] ^= 1;
        }
        (2, Some(image)) => image.push(1),
        (3, Some(image)) => image.truncate(image.len().saturating_sub(1)),
        // the last byte of one is the first of the next
        (4, Some(image)) if i < last && !image.is_empty() => {
            let moved = image.pop().unwrap();
            if let Some(next) = &mut other[i + 1] {
                next.insert(0, moved);
            }
        }
        (5, _) => other.swap(i, last),
        (6, _) if last + 1 < SLOTS => other.insert(i, None),
        _ => {}
    }
    other
}

/// Two sets have the same form if and only if they are equal, however they are laid out.
#[test]
fn equal_sets() {
    let mut rng = Rng::new(63);
    let mut seen = BTreeMap::new();
    for _ in 0..30_000 {
        let images: Vec<Option<Vec<u8>>> = (0..[rng.below(4), rng.below(65)][rng.below(8) as usize / 7])
            .map(|_| (!rng.chance(250)).then(|| (0..rng.below(4)).map(|_| rng.below(2) as u8).collect()))
            .collect();
        let mut other = changed(&mut rng, &images);
        if rng.chance(300) {
            other = changed(&mut rng, &other);
        }
        let (a, b) = (laid_out(&mut rng, &images), laid_out(&mut rng, &other));
        let (of_a, of_b) = (slots(&a), slots(&b));
        let equal = equal(&of_a, &of_b);
        assert_eq!(tidy(&a).unwrap() == tidy(&b).unwrap(), equal, "{a:?} {b:?}");
        *seen.entry((equal, a == b, of_a.len() == of_b.len(), alike(&of_a, &of_b))).or_insert(0) += 1;
    }
    // equal, of the same bytes and of others
    let equal = [(true, true, true, true), (true, false, true, true)];
    // not equal, for the images, for the slot counts alone, and for both
    let unequal = [(true, false), (false, true), (false, false)].map(|(counts, alike)| (false, false, counts, alike));
    for what in equal.into_iter().chain(unequal) {
        assert!(seen.get(&what).is_some_and(|n| *n > 400), "{what:?}: {seen:?}");
    }
}

// ---- how long

/// What the length of a form is said to be, of a set whose data no one may look at; and tidied into little room it is refused, the buffer not even looked at.
fn lengths(data: u32, slots: &[Slot]) -> Result<usize, u32> {
    let head = head(data, slots);
    let (set, to) = (Beginning::new(&head, head.len() + data as usize), Beginning::new(&[], 519));
    let ((at, len), (room, room_len)) = (set.parts(), to.parts());
    // Safe: what it may read is there, and what it must not touch ends the test.
    let both = |len| unsafe { (raw::worgesli_tidy_len(at, len), raw::worgesli_tidy(at, len, room.cast_mut(), room_len)) };
    let refused = |refused| raw::Tidied { len: 0, refused };
    let (told, into) = both(len);
    assert_eq!(into, refused(29));
    assert_eq!(both(len - 1), (refused(28), refused(28)));
    assert!(told.refused == 0 || told.len == 0);
    if told.refused == 0 {
        Ok(told.len)
    } else {
        Err(told.refused)
    }
}

/// Sums around the most data that a form may have, of ranges that are shared.
#[test]
fn sums() {
    const MOST: u32 = u32::MAX;
    let all = |n, range| vec![(0, range); n];
    let with = |mut slots: Vec<Slot>, last: &[Slot]| {
        slots.extend(last);
        slots
    };
    let (range, half) = (1 << 26, 1 << 31);
    let rows: [(u32, Vec<Slot>, Option<u64>); 27] = [
        (MOST, all(1, MOST - 2), Some((1 << 32) - 3)),
        (MOST, all(1, MOST - 1), Some((1 << 32) - 2)),
        (MOST, all(1, MOST), None),
        (MOST - 1, all(1, MOST - 1), Some((1 << 32) - 2)),
        // an empty image behind the most of all data starts before the mark; at the end of these data there is none, but an absent one
        (MOST, vec![(1, MOST - 1), (5, 0)], Some((1 << 32) - 2)),
        (MOST, vec![(1, MOST - 1), (MOST, 0)], Some((1 << 32) - 2)),
        (MOST, vec![(0, MOST), (5, 0)], None),
        (MOST, vec![(5, 0), (0, MOST)], None),
        (MOST, vec![(1, MOST - 1), ABSENT, (0, 0), ABSENT], Some((1 << 32) - 2)),
        (MOST, with(vec![(1, MOST - 1)], &[ABSENT; 63]), Some((1 << 32) - 2)),
        (MOST, with(vec![(0, MOST)], &[ABSENT; 63]), None),
        (MOST, vec![ABSENT; 64], Some(0)),
        (MOST, vec![(1, MOST - 1), (MOST - 1, 1)], None),
        (half, vec![(0, half), (0, half - 2)], Some((1 << 32) - 2)),
        (half, vec![(0, half), (0, half - 1)], None),
        (half, vec![(0, half), (0, half)], None),
        (half, vec![(0, half), (0, half), (0, 5)], None),
        (range, all(64, range), None),
        (range, with(all(63, range), &[(0, range - 1)]), None),
        (range, with(all(63, range), &[(2, range - 2)]), Some((1 << 32) - 2)),
        (range, with(all(62, range), &[(1, range - 1), (0, range - 1)]), Some((1 << 32) - 2)),
        (range, all(63, range), Some(63 << 26)),
        (range + 1, all(63, range + 1), Some((63 << 26) + 63)),
        // such sums come to few where they wrap
        (MOST, all(64, MOST), None),
        (MOST, all(2, MOST), None),
        (MOST, all(64, half), None),
        (MOST, with(all(2, half), &[(0, 0)]), None),
    ];
    for (data, slots, due) in rows {
        let due = due.map(|sum| 8 + 8 * slots.len() + sum as usize).ok_or(29);
        assert_eq!(lengths(data, &slots), due, "{} slots, the last {:?}, of {data} bytes", slots.len(), slots.last());
    }
}

/// As many data bytes as can be copied in a moment: slots that share one range, and slots one behind the other.
#[test]
fn long_forms() {
    let mut data = vec![0; 1 << 20];
    Rng::new(64).fill(&mut data);
    let shared = set(&[(0, 1 << 20); 16], &data);
    let parts: Vec<Slot> = (0..64).rev().map(|i| (i << 14, 1 << 14)).collect();
    for set in [shared, set(&parts, &data), set(&[(1, (1 << 20) - 1)], &data)] {
        let set = Guarded::new(&set, Side::Behind);
        let due = form(&slots(&set));
        assert!(held(&set, due.len(), Side::Behind) == Ok(due.clone()));
        assert!(held(&set, due.len() - 1, Side::Before) == Err(29));
        assert!(tidy(&due) == Ok(due));
    }
}
