//! Big-endian numbers, read from the front of a slice or written over it.

/// A slice that ended before the number did.
#[derive(Clone, Copy, PartialEq, Eq, Debug)]
pub struct Short;

/// The octets still to be read.
pub struct Reader<'a>(&'a [u8]);

impl<'a> Reader<'a> {
    pub fn new(octets: &'a [u8]) -> Reader<'a> {
        Reader(octets)
    }

    pub fn octets<const N: usize>(&mut self) -> Result<[u8; N], Short> {
        let (first, rest) = self.0.split_first_chunk().ok_or(Short)?;
        self.0 = rest;
        Ok(*first)
    }

    pub fn u8(&mut self) -> Result<u8, Short> {
        self.octets().map(u8::from_be_bytes)
    }

    pub fn i8(&mut self) -> Result<i8, Short> {
        self.octets().map(i8::from_be_bytes)
    }

    pub fn u16(&mut self) -> Result<u16, Short> {
        self.octets().map(u16::from_be_bytes)
    }

    pub fn u32(&mut self) -> Result<u32, Short> {
        self.octets().map(u32::from_be_bytes)
    }

    pub fn i32(&mut self) -> Result<i32, Short> {
        self.octets().map(i32::from_be_bytes)
    }

    pub fn u64(&mut self) -> Result<u64, Short> {
        self.octets().map(u64::from_be_bytes)
    }

    pub fn i64(&mut self) -> Result<i64, Short> {
        self.octets().map(i64::from_be_bytes)
    }

    /// So many octets.
    pub fn slice(&mut self, count: usize) -> Result<&'a [u8], Short> {
        let (first, rest) = self.0.split_at_checked(count).ok_or(Short)?;
        self.0 = rest;
        Ok(first)
    }

    /// All that is left.
    pub fn rest(&self) -> &'a [u8] {
        self.0
    }
}

/// The octets still to be written.
pub struct Writer<'a>(&'a mut [u8]);

impl<'a> Writer<'a> {
    pub fn new(octets: &'a mut [u8]) -> Writer<'a> {
        Writer(octets)
    }

    pub fn put<const N: usize>(&mut self, octets: [u8; N]) -> Result<(), Short> {
        let left = std::mem::take(&mut self.0);
        let (first, rest) = left.split_first_chunk_mut().ok_or(Short)?;
        *first = octets;
        self.0 = rest;
        Ok(())
    }
}
