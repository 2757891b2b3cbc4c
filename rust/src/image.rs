//! The planes of a frame.

use crate::YuvChromaSubsampling;
use std::fmt::Debug;

/// Mutable storage for data buffers.
#[derive(Debug)]
pub enum BufferStoreMut<'a, T: Copy + Debug> {
    Borrowed(&'a mut [T]),
    Owned(Vec<T>),
}

impl<T: Copy + Debug> BufferStoreMut<'_, T> {
    #[allow(clippy::should_implement_trait)]
    #[must_use]
    pub fn borrow(&self) -> &[T] {
        match self {
            Self::Borrowed(p_ref) => p_ref,
            Self::Owned(vec) => vec,
        }
    }

    #[allow(clippy::should_implement_trait)]
    pub fn borrow_mut(&mut self) -> &mut [T] {
        match self {
            Self::Borrowed(p_ref) => p_ref,
            Self::Owned(vec) => vec,
        }
    }
}

/// Mutable representation of Planar YUV image. Strides are in components, which here are bytes.
#[derive(Debug)]
pub struct YuvPlanarImageMut<'a, T: Copy + Debug> {
    pub y_plane: BufferStoreMut<'a, T>,
    pub y_stride: u32,
    pub u_plane: BufferStoreMut<'a, T>,
    pub u_stride: u32,
    pub v_plane: BufferStoreMut<'a, T>,
    pub v_stride: u32,
    pub width: u32,
    pub height: u32,
}

impl<T: Default + Copy + Debug> YuvPlanarImageMut<'_, T> {
    /// Allocates mutable target planar image with required chroma subsampling. Of a size that every call refuses the planes are empty.
    #[must_use]
    pub fn alloc(width: u32, height: u32, subsampling: YuvChromaSubsampling) -> Self {
        let chroma_width = width.div_ceil(2);
        let chroma_height = match subsampling {
            YuvChromaSubsampling::Yuv420 => height.div_ceil(2),
            YuvChromaSubsampling::Yuv422 => height,
        };
        let plane = |stride: u32, rows: u32| {
            let size = if width > 16_384 || height > 16_384 {
                0
            } else {
                stride as usize * rows as usize
            };
            BufferStoreMut::Owned(vec![T::default(); size])
        };
        YuvPlanarImageMut {
            y_plane: plane(width, height),
            y_stride: width,
            u_plane: plane(chroma_width, chroma_height),
            u_stride: chroma_width,
            v_plane: plane(chroma_width, chroma_height),
            v_stride: chroma_width,
            width,
            height,
        }
    }
}
