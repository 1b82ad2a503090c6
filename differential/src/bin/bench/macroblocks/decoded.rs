//! The picture that the libraries' functions write to.

use oracle::frame_assembly::FrameBuffer;

use crate::aligned::Aligned;

/// A plane, its width, and the sides of what a macroblock has of it.
struct Component {
    plane: Aligned,
    plane_width: usize,
    width: usize,
    height: usize,
}

pub struct Decoded([Component; 3]);

impl Decoded {
    /// With planes of the same sides.
    pub fn like(picture: &FrameBuffer) -> Self {
        let columns = picture.width / 16;
        let rows = picture.height / 16;
        Self(
            [&picture.y, &picture.cb, &picture.cr].map(|plane| Component {
                plane: Aligned::new(plane.width() * plane.height()),
                plane_width: plane.width(),
                width: plane.width() / columns,
                height: plane.height() / rows,
            }),
        )
    }

    pub fn planes(&mut self) -> [*mut u8; 3] {
        self.0
            .each_mut()
            .map(|component| component.plane.bytes().as_mut_ptr())
    }

    /// A macroblock's samples: luminance, Cb, Cr, each row after row.
    pub fn macroblock(&mut self, column: usize, row: usize) -> impl Iterator<Item = &mut u8> {
        self.0.iter_mut().flat_map(move |component| {
            let Component { width, height, .. } = *component;
            let lines = component.plane.bytes().chunks_mut(component.plane_width);
            let lines = lines.skip(row * height).take(height);
            lines.flat_map(move |line| &mut line[column * width..][..width])
        })
    }
}
