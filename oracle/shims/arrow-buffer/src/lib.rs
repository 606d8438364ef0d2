//! The trait of native numbers, as far as `parse.rs` names it.
pub trait ArrowNativeType: Copy {
    fn usize_as(i: usize) -> Self;
}

macro_rules! native {
    ($($t:ty),*) => {
        $(impl ArrowNativeType for $t {
            fn usize_as(i: usize) -> Self {
                i as _
            }
        })*
    };
}
native!(i8, i16, i32, i64, i128, u8, u16, u32, u64);
