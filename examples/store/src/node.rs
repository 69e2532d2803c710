// SPDX-License-Identifier: Apache-2.0
//! A node of a tree, in the body of a page.
//!
//! | Bytes of the body | What stands there |
//! |---|---|
//! | 0 to 7 | where in the log the last change of this page ends |
//! | 8 | the height: 0 of a leaf, and one more for each level above |
//! | 9 | 1 in a node; 0 in a page that never was one |
//! | 10, 11 | how many entries there are |
//! | 12, 13 | where the first cell begins: cells lie at the body's end |
//! | 14, 15 | how many bytes between the cells no entry uses any more |
//! | 16 to 19 | the page of the tree's root |
//! | 24 on | for each entry, by rising keys, two bytes: where its cell begins |
//!
//! A cell has the lengths of key and value, two bytes each, then the key, then the value. In an
//! inner node the value is the page of a child, which has the keys from that of its entry on, up to
//! that of the next entry; whatever its key is, the first child has all keys below the second one's.

use crate::numbers::{middle, set_large, set_middle, set_small, small};

const LOG_END: usize = 0;
const HEIGHT: usize = 8;
const IS_NODE: usize = 9;
const COUNT: usize = 10;
const CELLS: usize = 12;
const LOOSE: usize = 14;
const ROOT: usize = 16;
/// Where the places of the entries begin.
const HEADER: usize = 24;
/// The bytes of an entry's place, and of a cell's lengths.
const PLACE: usize = 2;
const LENGTHS: usize = 4;

/// Where in the log the last change of this page ends.
pub fn log_end(body: &[u8]) -> u64 {
    crate::numbers::large(body, LOG_END)
}

/// Notes where in the log a change ends.
pub fn set_log_end(body: &mut [u8], end: u64) {
    set_large(body, LOG_END, end);
}

/// Whether the page is a node, or was one.
pub fn is_node(body: &[u8]) -> bool {
    body[IS_NODE] == 1
}

/// The height of the node: 0 of a leaf.
pub fn height(body: &[u8]) -> usize {
    usize::from(body[HEIGHT])
}

/// The page of the tree's root.
pub fn root(body: &[u8]) -> u32 {
    middle(body, ROOT)
}

/// How many entries the node has.
pub fn count(body: &[u8]) -> usize {
    small(body, COUNT)
}

/// Makes the body a node without an entry.
pub fn make(body: &mut [u8], height: usize, root: u32) {
    let length = body.len();
    body[HEIGHT..].fill(0);
    body[HEIGHT] = height as u8;
    body[IS_NODE] = 1;
    set_small(body, CELLS, length);
    set_middle(body, ROOT, root);
}

/// Where the cell of an entry begins.
fn cell(body: &[u8], index: usize) -> usize {
    small(body, HEADER + PLACE * index)
}

/// How many bytes an entry of these lengths takes.
fn size_of(key: usize, value: usize) -> usize {
    PLACE + LENGTHS + key + value
}

/// The key of an entry.
pub fn key(body: &[u8], index: usize) -> &[u8] {
    let at = cell(body, index);
    &body[at + LENGTHS..][..small(body, at)]
}

/// The value of an entry.
pub fn value(body: &[u8], index: usize) -> &[u8] {
    let at = cell(body, index);
    &body[at + LENGTHS + small(body, at)..][..small(body, at + 2)]
}

/// The page of a child.
pub fn child(body: &[u8], index: usize) -> u32 {
    value(body, index).try_into().map_or(0, u32::from_le_bytes)
}

/// The number of the entry with this key, or that which such an entry would have.
pub fn find(body: &[u8], wanted: &[u8]) -> Result<usize, usize> {
    let (mut low, mut high) = (0, count(body));
    while low < high {
        let between = (low + high) / 2;
        match key(body, between).cmp(wanted) {
            std::cmp::Ordering::Less => low = between + 1,
            std::cmp::Ordering::Greater => high = between,
            std::cmp::Ordering::Equal => return Ok(between),
        }
    }
    Err(low)
}

/// The number of the entry whose child has the key.
pub fn find_child(body: &[u8], wanted: &[u8]) -> usize {
    match find(body, wanted) {
        Ok(index) => index,
        Err(index) => index.saturating_sub(1),
    }
}

/// How many bytes are free, together.
pub fn room(body: &[u8]) -> usize {
    small(body, CELLS) + small(body, LOOSE) - HEADER - PLACE * count(body)
}

/// Puts an entry before that of this number. Answers whether it had room.
pub fn insert(body: &mut [u8], index: usize, key: &[u8], value: &[u8]) -> bool {
    if room(body) < size_of(key.len(), value.len()) {
        return false;
    }
    let count = count(body);
    let places_end = HEADER + PLACE * count;
    let length = LENGTHS + key.len() + value.len();
    if small(body, CELLS) < places_end + PLACE + length {
        move_together(body);
    }
    let at = small(body, CELLS) - length;
    write_cell(body, at, key, value);
    let place = HEADER + PLACE * index;
    body.copy_within(place..places_end, place + PLACE);
    set_small(body, place, at);
    set_small(body, COUNT, count + 1);
    set_small(body, CELLS, at);
    true
}

fn write_cell(body: &mut [u8], at: usize, key: &[u8], value: &[u8]) {
    set_small(body, at, key.len());
    set_small(body, at + 2, value.len());
    body[at + LENGTHS..][..key.len()].copy_from_slice(key);
    body[at + LENGTHS + key.len()..][..value.len()].copy_from_slice(value);
}

/// Takes an entry out.
pub fn remove(body: &mut [u8], index: usize) {
    let (at, count) = (cell(body, index), count(body));
    let length = LENGTHS + small(body, at) + small(body, at + 2);
    let place = HEADER + PLACE * index;
    body.copy_within(place + PLACE..HEADER + PLACE * count, place);
    set_small(body, COUNT, count - 1);
    let loose = small(body, LOOSE) + length;
    set_small(body, LOOSE, loose);
}

/// The first child has all keys below the second one's: its own key is made empty.
pub fn clear_first_key(body: &mut [u8]) {
    let page = value(body, 0).to_vec();
    remove(body, 0);
    insert(body, 0, &[], &page);
}

/// Gives an entry another value. Answers whether that had room; where it hadn't, the entry is
/// taken out.
pub fn replace(body: &mut [u8], index: usize, new: &[u8]) -> bool {
    let at = cell(body, index);
    let (key_length, value_length) = (small(body, at), small(body, at + 2));
    if value_length == new.len() {
        body[at + LENGTHS + key_length..][..value_length].copy_from_slice(new);
        return true;
    }
    let key = key(body, index).to_vec();
    remove(body, index);
    insert(body, index, &key, new)
}

/// Moves the cells together at the body's end.
fn move_together(body: &mut [u8]) {
    let old = body.to_vec();
    let mut at = body.len();
    for index in 0..count(&old) {
        let (key, value) = (key(&old, index), value(&old, index));
        at -= LENGTHS + key.len() + value.len();
        write_cell(body, at, key, value);
        set_small(body, HEADER + PLACE * index, at);
    }
    set_small(body, CELLS, at);
    set_small(body, LOOSE, 0);
}

/// Where each cell begins and ends; none where one doesn't lie between the places and the end.
pub fn ranges(body: &[u8]) -> Option<Vec<(usize, usize)>> {
    let cells = small(body, CELLS).max(HEADER + PLACE * count(body));
    let range = |index| {
        let at = small(body.get(HEADER + PLACE * index..)?.get(..PLACE)?, 0);
        let lengths = body.get(at..at + LENGTHS)?;
        let end = at + LENGTHS + small(lengths, 0) + small(lengths, 2);
        (at >= cells && end <= body.len()).then_some((at, end))
    };
    (0..count(body)).map(range).collect()
}

/// Copies the entries from one number up to another to the end of another node.
pub fn copy(from: &[u8], numbers: std::ops::Range<usize>, to: &mut [u8]) {
    for index in numbers {
        let end = count(to);
        insert(to, end, key(from, index), value(from, index));
    }
}

/// Makes the body `right` a node beside `left`, with the upper part of its entries and of a new one
/// that belongs before that of this number and has no room. Answers the key that separates the two:
/// all keys on the right are it or greater, and all on the left are less.
pub fn split(left: &mut [u8], right: &mut [u8], index: usize, key: &[u8], value: &[u8]) -> Vec<u8> {
    let (old, height, root) = (left.to_vec(), height(left), root(left));
    let cut = cut_of(&old, index, size_of(key.len(), value.len()));
    make(left, height, root);
    make(right, height, root);
    for number in 0..=count(&old) {
        let (key, value) = match number {
            _ if number == index => (key, value),
            _ => {
                let number = number - usize::from(number > index);
                (self::key(&old, number), self::value(&old, number))
            }
        };
        let side: &mut [u8] = if number < cut { left } else { right };
        let end = count(side);
        insert(side, end, key, value);
    }
    if height > 0 {
        return self::key(right, 0).to_vec();
    }
    let (below, above) = (self::key(left, cut - 1), self::key(right, 0));
    let same = below.iter().zip(above).take_while(|(a, b)| a == b).count();
    above[..same + 1].to_vec()
}

/// How many of the entries, the new one counted, stay on the left: so many that both sides are as
/// equal as they can be. But where a leaf's new key comes behind all others, all these stay, since
/// keys that come by rising order would else leave half of each leaf empty.
fn cut_of(old: &[u8], index: usize, new: usize) -> usize {
    let count = count(old);
    if height(old) == 0 && index == count {
        return count;
    }
    let size = |number: usize| match number {
        _ if number == index => new,
        _ => {
            let number = number - usize::from(number > index);
            size_of(key(old, number).len(), value(old, number).len())
        }
    };
    let all: usize = (0..=count).map(size).sum();
    let (mut below, mut best, mut least) = (0, 1, usize::MAX);
    for cut in 1..=count {
        below += size(cut - 1);
        let larger = below.max(all - below);
        if larger < least {
            (best, least) = (cut, larger);
        }
    }
    best
}

#[cfg(test)]
mod tests {
    use super::*;

    fn filled() -> Vec<u8> {
        let mut body = vec![0; 1008];
        make(&mut body, 0, 7);
        for number in 0..20u8 {
            let index = find(&body, &[number * 7 % 20]).unwrap_err();
            assert!(insert(&mut body, index, &[number * 7 % 20], &[number; 30]));
        }
        body
    }

    #[test]
    fn entries_are_found_replaced_and_removed() {
        let mut body = filled();
        assert_eq!(count(&body), 20);
        let at = find(&body, &[14]).unwrap();
        assert_eq!((at, value(&body, at)), (14, &[2; 30][..]));
        assert!(replace(&mut body, at, &[9; 100]));
        assert_eq!(value(&body, 14), [9; 100]);
        remove(&mut body, 3);
        assert_eq!(find(&body, &[3]), Err(3));
        assert_eq!(find(&body, &[14]), Ok(13));
        let before = room(&body);
        assert!(
            !insert(&mut body, 0, &[0; 100], &[0; 200]),
            "it has no room"
        );
        assert_eq!(room(&body), before);
        assert!(
            insert(&mut body, 3, &[3], &vec![1; before - 7]),
            "all the room there is"
        );
        assert_eq!((room(&body), value(&body, 4)), (0, filled_value(4)));
    }

    fn filled_value(key: u8) -> &'static [u8] {
        let number = (0..20u8).find(|it| it * 7 % 20 == key).unwrap();
        Box::leak(vec![number; 30].into())
    }

    #[test]
    fn a_split_keeps_all_and_separates() {
        let (mut left, mut right) = (filled(), vec![0; 1008]);
        let separator = split(&mut left, &mut right, 5, &[4, 1], &[7; 250]);
        assert_eq!(count(&left) + count(&right), 21);
        assert!(key(&left, count(&left) - 1) < &separator[..]);
        assert!(key(&right, 0) >= &separator[..]);
        assert_eq!(separator.len(), 1);
        assert!(find(&left, &[4, 1]).is_ok());
        assert!(room(&left).abs_diff(room(&right)) < 280);
        assert_eq!(root(&right), 7);
    }

    #[test]
    fn rising_keys_leave_full_leaves() {
        let (mut left, mut right) = (filled(), vec![0; 1008]);
        let separator = split(&mut left, &mut right, 20, &[200, 1], &[7; 250]);
        assert_eq!((count(&left), count(&right), separator), (20, 1, vec![200]));
    }
}
