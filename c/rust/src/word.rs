//! What cells hold.

/// What a cell can hold: what two words of 64 bits keep.
pub trait Word: Copy {
    /// The words that keep it.
    fn to_words(self) -> (u64, u64);
    /// What such words keep. It is called with any two words that a cell holds, also such as no `to_words` of this type
    /// has made: those of a cell that was given back to its pool, or that another type has named.
    fn from_words(low: u64, high: u64) -> Self;
}

/// What one word of 64 bits keeps: a cell can hold a pair of such.
pub trait Single: Copy {
    /// The word that keeps it.
    fn to_word(self) -> u64;
    /// What such a word keeps. It is called with any word, as `Word::from_words` is.
    fn from_word(word: u64) -> Self;
}

// What one word keeps, the low one of a cell keeps.
macro_rules! alone {
    ($($t:ty)*) => {$(
        impl Word for $t {
            fn to_words(self) -> (u64, u64) { (self.to_word(), 0) }
            fn from_words(low: u64, _: u64) -> Self { Self::from_word(low) }
        }
    )*};
}
alone!(u8 u16 u32 u64 usize i8 i16 i32 i64 isize bool char f32 f64);

macro_rules! numbers {
    ($($t:ty)*) => {$(
        impl Single for $t {
            fn to_word(self) -> u64 { self as u64 }
            fn from_word(word: u64) -> Self { word as $t }
        }
    )*};
}
numbers!(u8 u16 u32 u64 usize i8 i16 i32 i64 isize);

impl Single for bool {
    fn to_word(self) -> u64 {
        self.into()
    }
    fn from_word(word: u64) -> Self {
        word != 0
    }
}

// A word that is no character is U+FFFD.
impl Single for char {
    fn to_word(self) -> u64 {
        u32::from(self).into()
    }
    fn from_word(word: u64) -> Self {
        u32::try_from(word).ok().and_then(char::from_u32).unwrap_or(char::REPLACEMENT_CHARACTER)
    }
}

impl Single for f32 {
    fn to_word(self) -> u64 {
        self.to_bits().into()
    }
    fn from_word(word: u64) -> Self {
        f32::from_bits(word as u32)
    }
}

impl Single for f64 {
    fn to_word(self) -> u64 {
        self.to_bits()
    }
    fn from_word(word: u64) -> Self {
        f64::from_bits(word)
    }
}

impl<A: Single, B: Single> Word for (A, B) {
    fn to_words(self) -> (u64, u64) {
        (self.0.to_word(), self.1.to_word())
    }
    fn from_words(low: u64, high: u64) -> Self {
        (A::from_word(low), B::from_word(high))
    }
}

// Two numbers of 32 bits in one word.
fn packed(low: u32, high: u32) -> u64 {
    u64::from(high) << 32 | u64::from(low)
}

impl Word for (u32, u32, u32) {
    fn to_words(self) -> (u64, u64) {
        (packed(self.0, self.1), self.2.into())
    }
    fn from_words(low: u64, high: u64) -> Self {
        (low as u32, (low >> 32) as u32, high as u32)
    }
}

impl Word for (u32, u32, u32, u32) {
    fn to_words(self) -> (u64, u64) {
        (packed(self.0, self.1), packed(self.2, self.3))
    }
    fn from_words(low: u64, high: u64) -> Self {
        (low as u32, (low >> 32) as u32, high as u32, (high >> 32) as u32)
    }
}

impl Word for () {
    fn to_words(self) -> (u64, u64) {
        (0, 0)
    }
    fn from_words(_: u64, _: u64) -> Self {}
}

impl Word for u128 {
    fn to_words(self) -> (u64, u64) {
        (self as u64, (self >> 64) as u64)
    }
    fn from_words(low: u64, high: u64) -> Self {
        u128::from(high) << 64 | u128::from(low)
    }
}

impl Word for i128 {
    fn to_words(self) -> (u64, u64) {
        (self as u128).to_words()
    }
    fn from_words(low: u64, high: u64) -> Self {
        u128::from_words(low, high) as i128
    }
}

impl Word for Option<u64> {
    fn to_words(self) -> (u64, u64) {
        self.map_or((0, 0), |low| (low, 1))
    }
    fn from_words(low: u64, high: u64) -> Self {
        (high == 1).then_some(low)
    }
}
