//! What `yuv_support.rs` names of the crate num-traits. The sharp path never calls it.

pub trait AsPrimitive<T: Copy + 'static>: Copy + 'static {
    fn as_(self) -> T;
}
