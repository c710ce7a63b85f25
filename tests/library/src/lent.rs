//! Buffers to lend, of bytes or of serials, with others about them that no call may
//! touch.

use std::cell::Cell;

/// The least count of items on each side.
const MARGIN: usize = 64;

/// Each buffer is moved by less than this. It is prime, so that all buffers of a
/// call that is lent several come to start at every place within a word.
const PLACES: usize = 31;

thread_local! {
    /// The place of the next buffer.
    static TURN: Cell<usize> = const { Cell::new(0) };
}

/// What is lent.
pub struct Lent<T> {
    held: Vec<T>,
    start: usize,
    length: usize,
}

/// A margin's item.
fn filling<T: From<u8>>(place: usize) -> T {
    T::from((place * 37 + 11) as u8)
}

impl<T: Copy + PartialEq + From<u8>> Lent<T> {
    /// At the next place.
    pub fn new(items: &[T]) -> Lent<T> {
        let place = TURN.with(|turn| turn.replace((turn.get() + 1) % PLACES));
        Lent::at(items, place)
    }

    /// So many items past a boundary of eight bytes.
    pub fn at(items: &[T], place: usize) -> Lent<T> {
        let length = items.len();
        let most = MARGIN + 7 + place;
        let mut held: Vec<T> = (0..most + length + MARGIN).map(filling).collect();
        let start = MARGIN + held.as_ptr().align_offset(8) + place;
        held[start..start + length].copy_from_slice(items);
        Lent {
            held,
            start,
            length,
        }
    }

    pub fn items(&self) -> &[T] {
        &self.held[self.start..self.start + self.length]
    }

    pub fn items_mut(&mut self) -> &mut [T] {
        &mut self.held[self.start..self.start + self.length]
    }

    fn test_margins(&self) {
        let end = self.start + self.length;
        let mut margins = (0..self.start).chain(end..self.held.len());
        let kept = margins.all(|place| self.held[place] == filling(place));
        assert!(kept, "something beside a buffer was written");
    }

    /// Ends a loan for reading.
    pub fn test_unchanged(self, items: &[T]) {
        self.test_margins();
        assert!(
            self.items() == items,
            "a buffer that is only read was written"
        );
    }

    /// Ends a loan for writing.
    pub fn give_back(self, items: &mut [T]) {
        self.test_margins();
        items.copy_from_slice(self.items());
    }
}
