//! Places for moved code.

use crate::error::{taken, Error};
use crate::sys::{self, Library};
use alloc::vec;
use alloc::vec::Vec;

/// A live block of a [`Region`].
///
/// ```
/// use feddurzai::{LiveBlock, Region};
///
/// let mut region = Region::new(0x10000, 64, 4)?;
/// region.reserve(17)?;
/// assert!(region.live().eq([LiveBlock { place: 0x10000, len: 32 }]));
/// # Ok::<(), feddurzai::Error>(())
/// ```
#[derive(Clone, Copy, Debug, PartialEq, Eq, Hash)]
pub struct LiveBlock {
    /// Its first address.
    pub place: u64,
    /// Its size in bytes.
    pub len: u64,
}

/// A fixed range of addresses from which blocks of code are allocated, first fit. Its image has the bytes of the range, CC
/// (INT3) outside the code of live blocks. Blocks never overlap; this is proved.
///
/// ```
/// use feddurzai::Region;
///
/// let mut region = Region::new(0x10000, 64, 4)?;
/// let place = region.reserve(2)?;
/// region.fill(place, b"\x90\xC3")?;
/// assert_eq!((place, &region.image()[..4]), (0x10000, &b"\x90\xC3\xCC\xCC"[..]));
/// region.release(place)?;
/// assert_eq!(region.image(), [0xCC; 64]);
/// # Ok::<(), feddurzai::Error>(())
/// ```
#[derive(Clone, Debug)]
pub struct Region {
    raw: sys::Region,
    live: Vec<sys::Live>,
    image: Vec<u8>,
}

/// The most live blocks of a region.
const MOST: usize = 65536;

impl Region {
    /// A region of `size` bytes, a multiple of 16 from 16 to 1048576, for at most `most` live blocks, 1 to 65536. It ends
    /// at 2^64 or before.
    ///
    /// # Errors
    ///
    /// [`Error::BadRegion`] for other numbers, and [`Error::Interface`].
    ///
    /// ```
    /// use feddurzai::{Error, Region};
    ///
    /// assert_eq!(Region::new(0, 17, 4).err(), Some(Error::BadRegion));
    /// ```
    pub fn new(base: u64, size: u64, most: usize) -> Result<Region, Error> {
        let library = Library::get()?;
        if most == 0 || most > MOST {
            return Err(Error::BadRegion);
        }
        let mut raw = sys::Region { base, size, count: 0 };
        let mut live = vec![sys::Live::default(); most];
        // the library checks the numbers: in a region without blocks, none is live
        match taken(library.region_release(&mut raw, &mut live, base)) {
            Err(Error::NotLive) | Ok(_) => {}
            Err(refused) => return Err(refused),
        }
        let image = vec![0xCC; usize::try_from(size).map_err(|_| Error::BadRegion)?];
        Ok(Region { raw, live, image })
    }

    /// The first address.
    #[must_use]
    pub const fn base(&self) -> u64 {
        self.raw.base
    }

    /// The size in bytes.
    #[must_use]
    pub const fn size(&self) -> u64 {
        self.raw.size
    }

    /// The bytes of the range.
    #[must_use]
    pub fn image(&self) -> &[u8] {
        &self.image
    }

    /// The live blocks, by address.
    pub fn live(&self) -> impl Iterator<Item = LiveBlock> + '_ {
        let count = usize::try_from(self.raw.count).unwrap_or(0);
        self.live.iter().take(count).map(|block| LiveBlock { place: block.place, len: block.len })
    }

    /// Allocates a block of `len` bytes, rounded up to a multiple of 16, in the lowest gap that is long enough. Returns its
    /// address.
    ///
    /// # Errors
    ///
    /// [`Error::Empty`] if `len` is 0, [`Error::NoRoom`] if the maximum number of blocks is live, or [`Error::Full`].
    pub fn reserve(&mut self, len: u64) -> Result<u64, Error> {
        let mut place = 0;
        taken(Library::get()?.region_reserve(&mut self.raw, &mut self.live, len, &mut place))?;
        Ok(place)
    }

    /// Writes code to the front of the live block that starts at `place`, and CC to the rest of the block.
    ///
    /// # Errors
    ///
    /// [`Error::NotLive`], or [`Error::NoRoom`] if the block has fewer bytes.
    pub fn fill(&mut self, place: u64, code: &[u8]) -> Result<(), Error> {
        taken(Library::get()?.region_fill(&self.raw, &self.live, place, code, &mut self.image))?;
        Ok(())
    }

    /// Frees the live block that starts at `place`, and sets its bytes to CC.
    ///
    /// # Errors
    ///
    /// [`Error::NotLive`].
    pub fn release(&mut self, place: u64) -> Result<(), Error> {
        self.fill(place, &[])?;
        taken(Library::get()?.region_release(&mut self.raw, &mut self.live, place))?;
        Ok(())
    }
}
