//! What the port's entry points are lent.

/// What the calls take for a reference: whether there is one, what it declares, and its planes.
pub struct Reference {
    pub present: u32,
    pub width: usize,
    pub height: usize,
    pub format: u32,
    pub planes: [Plane; 3],
}

/// A plane that is lent.
#[derive(Clone, Copy)]
pub struct Plane {
    pub width: usize,
    pub height: usize,
    pub samples: *mut u8,
    pub length: usize,
}
