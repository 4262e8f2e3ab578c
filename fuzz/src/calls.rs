//! The further C functions of the archive, each with the feature of its name, and the safe calls over them.

use wimplejade::MOST_ASKS;

/// A row of a lent table: a line, the number of a name in order of first spelling, and the cause: the line of the
/// supplier, or the sort. The C struct has these three words.
pub type Row = [u32; 3];

/// The answer of the reasons as the library gives it.
#[repr(C)]
#[derive(Clone, Copy, Debug, PartialEq, Eq)]
pub struct Reasons {
    /// The number of the refusal, 0 if the call is accepted.
    pub refusal: u32,
    pub place: u32,
    /// How many of the numbered names are met.
    pub met: usize,
    /// How many rows are filled.
    pub rows: usize,
}

/// The answer of the second engine as the library gives it, its counts by position.
#[repr(C)]
#[derive(Clone, Copy, Debug, PartialEq, Eq)]
pub struct Swept {
    /// The number of the refusal, 0 if the call is accepted.
    pub refusal: u32,
    pub place: u32,
    pub kept: [u32; MOST_ASKS],
    pub passes: [u32; MOST_ASKS],
}

/// The answer of the order check as the library gives it.
#[repr(C)]
#[derive(Clone, Copy, Debug, PartialEq, Eq)]
pub struct Ordered {
    /// The number of the refusal, 0 if the call is accepted.
    pub refusal: u32,
    pub place: u32,
    /// How many rows are listed.
    pub rows: usize,
}

/// The reasons at a position, over lent slices and a lent table.
pub type Why = fn(&[u8], usize, [&mut [u32]; 6], &mut [Row]) -> Reasons;

/// The second engine over lent slices.
pub type Sweep = fn(&[u8], [&mut [u32]; 6], &mut [u32]) -> Swept;

/// The order check over lent slices and a lent table.
pub type Order = fn(&[u8], [&mut [u32]; 6], &mut [Row]) -> Ordered;

/// Declares a C function that takes a file, what is given, the six working slices and one more lent slice, and defines
/// the safe call over it.
#[cfg(any(feature = "why", feature = "sweep", feature = "order"))]
macro_rules! c_call {
    ($name:ident, $symbol:ident, ($($argument:ident: $sort:ty),*), $element:ty, $answer:ty) => {
        /// The call of the archive.
        pub fn $name(file: &[u8], $($argument: $sort,)* working: [&mut [u32]; 6], lent: &mut [$element]) -> $answer {
            extern "C" {
                fn $symbol(
                    file: *const u8,
                    file_length: usize,
                    $($argument: $sort,)*
                    working0: *mut u32,
                    length0: usize,
                    working1: *mut u32,
                    length1: usize,
                    working2: *mut u32,
                    length2: usize,
                    working3: *mut u32,
                    length3: usize,
                    working4: *mut u32,
                    length4: usize,
                    working5: *mut u32,
                    length5: usize,
                    lent: *mut $element,
                    lent_length: usize,
                ) -> $answer;
            }
            let [w0, w1, w2, w3, w4, w5] = working;
            // SAFETY: each pointer and length are those of a slice, of which no two overlap, since all but the file are
            // borrowed to be written.
            unsafe {
                $symbol(
                    file.as_ptr(),
                    file.len(),
                    $($argument,)*
                    w0.as_mut_ptr(),
                    w0.len(),
                    w1.as_mut_ptr(),
                    w1.len(),
                    w2.as_mut_ptr(),
                    w2.len(),
                    w3.as_mut_ptr(),
                    w3.len(),
                    w4.as_mut_ptr(),
                    w4.len(),
                    w5.as_mut_ptr(),
                    w5.len(),
                    lent.as_mut_ptr(),
                    lent.len(),
                )
            }
        }
    };
}

#[cfg(feature = "why")]
c_call!(why, wimplejade_why, (position: usize), Row, Reasons);
#[cfg(feature = "sweep")]
c_call!(sweep, wimplejade_sweep, (), u32, Swept);
#[cfg(feature = "order")]
c_call!(order, wimplejade_order, (), Row, Ordered);

/// The calls that the archive has, by the features.
#[cfg(feature = "why")]
pub const WHY: Option<Why> = Some(why);
#[cfg(not(feature = "why"))]
pub const WHY: Option<Why> = None;
#[cfg(feature = "sweep")]
pub const SWEEP: Option<Sweep> = Some(sweep);
#[cfg(not(feature = "sweep"))]
pub const SWEEP: Option<Sweep> = None;
#[cfg(feature = "order")]
pub const ORDER: Option<Order> = Some(order);
#[cfg(not(feature = "order"))]
pub const ORDER: Option<Order> = None;
