//! What the driver's modules of indexes name.

/// A range of gb18030.
#[derive(Clone, Copy, Default)]
pub struct Range {
    pub pointer: u16,
    pub scalar: u16,
}

/// A run of an index.
#[derive(Clone, Copy)]
pub struct Run {
    pub pointer: u16,
    pub scalar: u32,
    pub length: u16,
}
