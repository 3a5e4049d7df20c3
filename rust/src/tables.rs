//! The four tables, and each call of the library over them.

use crate::{ENTRIES_PER_TASK, ENTRY_WIDTH, MOST_RECORDS, MOST_TASKS, MOST_WORDS, PLACE_WIDTH};

/// The sizes of a board.
#[derive(Clone, Copy, Debug, PartialEq, Eq, Hash)]
#[repr(C)]
pub struct Sizes {
    /// Words of 32 bits: 1 to 4,096.
    pub words: usize,
    /// Ownership records: 1 to 1,024. Address `a` belongs to record `a % records`.
    pub records: usize,
    /// Tasks: 1 to 32.
    pub tasks: usize,
}

impl Sizes {
    fn in_range(&self) -> bool {
        (1..=MOST_WORDS).contains(&self.words)
            && (1..=MOST_RECORDS).contains(&self.records)
            && (1..=MOST_TASKS).contains(&self.tasks)
    }
}

/// What a request answers: one of the specification's numbers, and the value.
/// The value is 0 except for a read that answers 0 as its number.
#[must_use = "a request may have been refused"]
#[derive(Clone, Copy, Debug, PartialEq, Eq)]
#[repr(C)]
pub struct Answer {
    pub number: u32,
    pub value: u32,
}

/// What a look-up answers: the number, and the logical value and version of the address.
#[must_use = "a look-up may have been refused"]
#[derive(Clone, Copy, Debug, PartialEq, Eq)]
#[repr(C)]
pub struct Looked {
    pub number: u32,
    pub value: u32,
    pub version: u32,
}

/// A task's row: number of entries, phase code, position, and the set of the sleepers on whose lists the
/// task is (bit t for task t).
pub type PlaceRow = [u32; PLACE_WIDTH];

/// An entry's row: address, old value, new value, old version, new version.
pub type EntryRow = [u32; ENTRY_WIDTH];

/// The four tables as plain numbers, open to everyone.
///
/// This is the raw layer under [`Board`](crate::Board): each method is one call of the library and
/// answers its number. A program that saves and restores a game, or tests the library, uses it.
/// Whatever the tables hold and however long they are, a call is safe: it checks them first and
/// answers 1 if they are not the tables of a board with these sizes.
#[derive(Clone, Debug, PartialEq, Eq, Default)]
pub struct Tables {
    /// The board's words.
    pub words: Vec<u32>,
    /// A version, or 2,147,483,648 plus the owning task.
    pub records: Vec<u32>,
    /// A row for each task.
    pub places: Vec<PlaceRow>,
    /// [`ENTRIES_PER_TASK`] rows for each task.
    pub entries: Vec<EntryRow>,
}

impl Tables {
    /// Tables of the lengths that a board of these sizes asks, all zeros, ready for an opening.
    /// Sizes out of range ask for no memory: the tables are empty, and an opening answers 2.
    pub fn for_sizes(sizes: Sizes) -> Tables {
        if !sizes.in_range() {
            return Tables::default();
        }
        Tables {
            words: vec![0; sizes.words],
            records: vec![0; sizes.records],
            places: vec![[0; PLACE_WIDTH]; sizes.tasks],
            entries: vec![[0; ENTRY_WIDTH]; sizes.tasks * ENTRIES_PER_TASK],
        }
    }
}

// Every call below is safe for one reason. The library reads and writes only inside the tables that
// it is lent, by their pointers and lengths: that is proved of it for every length and every content.
// Pointer and length come from a vector that is borrowed for the call, to be written where the
// library writes.

#[rustfmt::skip]
mod library {
    use super::{Answer, EntryRow, Looked, PlaceRow, Sizes};

    extern "C" {
        pub fn chezumobari_open(
            sizes: Sizes, first: u32,
            words: *mut u32, words_length: usize, records: *mut u32, records_length: usize,
            places: *mut PlaceRow, places_length: usize, entries: *mut EntryRow, entries_length: usize,
        ) -> Answer;
        pub fn chezumobari_start(
            sizes: Sizes,
            words: *const u32, words_length: usize, records: *const u32, records_length: usize,
            places: *mut PlaceRow, places_length: usize, entries: *const EntryRow, entries_length: usize,
            task: usize,
        ) -> Answer;
        pub fn chezumobari_abort(
            sizes: Sizes,
            words: *const u32, words_length: usize, records: *const u32, records_length: usize,
            places: *mut PlaceRow, places_length: usize, entries: *const EntryRow, entries_length: usize,
            task: usize,
        ) -> Answer;
        pub fn chezumobari_commit(
            sizes: Sizes,
            words: *const u32, words_length: usize, records: *const u32, records_length: usize,
            places: *mut PlaceRow, places_length: usize, entries: *const EntryRow, entries_length: usize,
            task: usize,
        ) -> Answer;
        pub fn chezumobari_wait(
            sizes: Sizes,
            words: *const u32, words_length: usize, records: *const u32, records_length: usize,
            places: *mut PlaceRow, places_length: usize, entries: *const EntryRow, entries_length: usize,
            task: usize,
        ) -> Answer;
        pub fn chezumobari_read(
            sizes: Sizes,
            words: *const u32, words_length: usize, records: *const u32, records_length: usize,
            places: *mut PlaceRow, places_length: usize, entries: *mut EntryRow, entries_length: usize,
            task: usize, address: usize,
        ) -> Answer;
        pub fn chezumobari_write(
            sizes: Sizes,
            words: *const u32, words_length: usize, records: *const u32, records_length: usize,
            places: *mut PlaceRow, places_length: usize, entries: *mut EntryRow, entries_length: usize,
            task: usize, address: usize, value: u32,
        ) -> Answer;
        pub fn chezumobari_step(
            sizes: Sizes,
            words: *mut u32, words_length: usize, records: *mut u32, records_length: usize,
            places: *mut PlaceRow, places_length: usize, entries: *const EntryRow, entries_length: usize,
            task: usize,
        ) -> Answer;
        pub fn chezumobari_look(
            sizes: Sizes,
            words: *const u32, words_length: usize, records: *const u32, records_length: usize,
            places: *const PlaceRow, places_length: usize, entries: *const EntryRow, entries_length: usize,
            address: usize,
        ) -> Looked;
    }
}

/// Makes the methods whose call writes only a task's place.
macro_rules! on_a_place {
    ($($(#[$about:meta])* $name:ident = $call:ident;)*) => {$(
        $(#[$about])*
        pub fn $name(&mut self, sizes: Sizes, task: usize) -> Answer {
            // SAFETY: the tables are borrowed for the call (see above).
            unsafe {
                library::$call(
                    sizes,
                    self.words.as_ptr(), self.words.len(),
                    self.records.as_ptr(), self.records.len(),
                    self.places.as_mut_ptr(), self.places.len(),
                    self.entries.as_ptr(), self.entries.len(),
                    task,
                )
            }
        }
    )*};
}

// Each table's pointer and length stand on one line.
#[rustfmt::skip]
impl Tables {
    /// Opens a board: words and entries 0, every record at the first version, every task idle and on no list.
    /// Looks only at the sizes and the first version (2) and then at the lengths (1).
    pub fn open(&mut self, sizes: Sizes, first_version: u32) -> Answer {
        // SAFETY: the tables are borrowed for the call (see above).
        unsafe {
            library::chezumobari_open(
                sizes, first_version,
                self.words.as_mut_ptr(), self.words.len(),
                self.records.as_mut_ptr(), self.records.len(),
                self.places.as_mut_ptr(), self.places.len(),
                self.entries.as_mut_ptr(), self.entries.len(),
            )
        }
    }

    on_a_place! {
        /// Idle to Open, with no entries.
        start = chezumobari_start;
        /// Open to Idle. The entries are dropped.
        abort = chezumobari_abort;
        /// Open to taking records for a commit. No entries is allowed.
        commit = chezumobari_commit;
        /// Open to taking records for sleep.
        wait = chezumobari_wait;
    }

    /// Reads a word in a task's transaction.
    pub fn read(&mut self, sizes: Sizes, task: usize, address: usize) -> Answer {
        // SAFETY: the tables are borrowed for the call (see above).
        unsafe {
            library::chezumobari_read(
                sizes,
                self.words.as_ptr(), self.words.len(),
                self.records.as_ptr(), self.records.len(),
                self.places.as_mut_ptr(), self.places.len(),
                self.entries.as_mut_ptr(), self.entries.len(),
                task, address,
            )
        }
    }

    /// Writes a word in a task's transaction. The board gets it after the commit.
    pub fn write(&mut self, sizes: Sizes, task: usize, address: usize, value: u32) -> Answer {
        // SAFETY: the tables are borrowed for the call (see above).
        unsafe {
            library::chezumobari_write(
                sizes,
                self.words.as_ptr(), self.words.len(),
                self.records.as_ptr(), self.records.len(),
                self.places.as_mut_ptr(), self.places.len(),
                self.entries.as_mut_ptr(), self.entries.len(),
                task, address, value,
            )
        }
    }

    /// One step of a task that commits, sleeps or ends.
    pub fn step(&mut self, sizes: Sizes, task: usize) -> Answer {
        // SAFETY: the tables are borrowed for the call (see above).
        unsafe {
            library::chezumobari_step(
                sizes,
                self.words.as_mut_ptr(), self.words.len(),
                self.records.as_mut_ptr(), self.records.len(),
                self.places.as_mut_ptr(), self.places.len(),
                self.entries.as_ptr(), self.entries.len(),
                task,
            )
        }
    }

    /// The logical value and version of an address. It changes nothing.
    pub fn look(&self, sizes: Sizes, address: usize) -> Looked {
        // SAFETY: the tables are borrowed for the call (see above).
        unsafe {
            library::chezumobari_look(
                sizes,
                self.words.as_ptr(), self.words.len(),
                self.records.as_ptr(), self.records.len(),
                self.places.as_ptr(), self.places.len(),
                self.entries.as_ptr(), self.entries.len(),
                address,
            )
        }
    }
}
