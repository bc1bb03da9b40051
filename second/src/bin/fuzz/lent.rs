//! The runs that a call is lent: what they are made of, and how they are lent. Cases are drawn of them (`draw.rs`) and told of
//! them (`case.rs`).

/// From so many elements on a room is huge.
pub const HUGE: usize = 1 << 32;

/// What a run is made of.
pub trait Element: Copy + Default {
    fn put(self, bytes: &mut Vec<u8>);
}

macro_rules! elements {
    ($($element:ty),*) => {
        $(impl Element for $element {
            fn put(self, bytes: &mut Vec<u8>) {
                bytes.extend(self.to_le_bytes());
            }
        })*
    };
}

elements!(u8, i32, u32, i64);

/// A run that is read. It is never huge: a call may look at all of it before it refuses its length. NULL goes with length
/// 0 only.
pub struct Held<T> {
    pub run: Vec<T>,
    pub null: bool,
    pub place: u8,
}

/// A run that may be written. It may be huge: nobody looks at what it holds, so no memory need stand behind it.
pub struct Room {
    pub length: usize,
    pub null: bool,
    pub place: u8,
}
