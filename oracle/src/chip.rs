//! The modelled chips, by 01's rules: 'Chips and buffering'.
//!
//! Every call of the flash traits takes the next number. A call told to fail, and a call out of
//! range, errs and does nothing. Asking for geometry or capacity is no call.

use std::cell::RefCell;
use std::rc::Rc;

use embedded_storage::nor_flash::{
    ErrorType, NorFlash, NorFlashError, NorFlashErrorKind, ReadNorFlash,
};

use crate::spi_flash::{NandGeometry, RawNandFlash};

/// A chip's bytes and what is known about it from outside while the storage owns the flash.
pub struct Chip {
    pub bytes: Vec<u8>,
    /// Calls made since the opening.
    pub calls: u64,
    /// The address of the sector or page that the storage holds and hasn't written yet. The chip
    /// sees a NOR sector's arrival and every departure; a NAND page's arrival is told by `Wrapped`.
    pub held: Option<u64>,
    /// Call n fails if byte n is not 0; the last byte stands for every later call.
    pub faults: Vec<u8>,
    /// One byte for each block; other than 0xFF is bad.
    pub marks: Vec<u8>,
    pub page: usize,
    pub pages: usize,
    pub blocks: usize,
    /// Set while a storage with another capacity than the Rust's own is being made.
    pub figure: Option<u64>,
    /// Where the NOR storage's lent sector buffer lies.
    pub sector: usize,
}

pub type Shared = Rc<RefCell<Chip>>;

/// A chip call that failed, whatever the reason.
#[derive(Debug)]
pub struct Failed;

impl NorFlashError for Failed {
    fn kind(&self) -> NorFlashErrorKind {
        NorFlashErrorKind::Other
    }
}

impl Chip {
    /// Takes the next number.
    fn call(&mut self) -> Result<(), Failed> {
        let number = self.calls;
        self.calls += 1;
        let fault = match self.faults.last() {
            Some(&last) => *self.faults.get(number as usize).unwrap_or(&last),
            None => 0,
        };
        if fault == 0 { Ok(()) } else { Err(Failed) }
    }

    fn range(&mut self, offset: usize, len: usize) -> Result<&mut [u8], Failed> {
        let end = offset.checked_add(len).ok_or(Failed)?;
        self.bytes.get_mut(offset..end).ok_or(Failed)
    }
}

/// The handle that a NOR storage owns.
pub struct Nor(pub Shared);

impl ErrorType for Nor {
    type Error = Failed;
}

impl ReadNorFlash for Nor {
    const READ_SIZE: usize = 1;

    fn read(&mut self, offset: u32, bytes: &mut [u8]) -> Result<(), Failed> {
        let mut chip = self.0.borrow_mut();
        chip.call()?;
        bytes.copy_from_slice(chip.range(offset as usize, bytes.len())?);
        if bytes.as_ptr() as usize == chip.sector {
            chip.held = Some(offset as u64);
        }
        Ok(())
    }

    fn capacity(&self) -> usize {
        self.0.borrow().bytes.len()
    }
}

impl NorFlash for Nor {
    const WRITE_SIZE: usize = 1;
    const ERASE_SIZE: usize = 4096;

    fn erase(&mut self, from: u32, to: u32) -> Result<(), Failed> {
        let mut chip = self.0.borrow_mut();
        chip.call()?;
        let len = to.checked_sub(from).ok_or(Failed)?;
        chip.range(from as usize, len as usize)?.fill(0xFF);
        Ok(())
    }

    fn write(&mut self, offset: u32, bytes: &[u8]) -> Result<(), Failed> {
        let mut chip = self.0.borrow_mut();
        chip.call()?;
        chip.range(offset as usize, bytes.len())?
            .copy_from_slice(bytes);
        chip.held = None;
        Ok(())
    }
}

/// The handle that a NAND storage owns.
pub struct Nand(pub Shared);

impl RawNandFlash for Nand {
    type Error = Failed;

    fn geometry(&self) -> NandGeometry {
        let chip = self.0.borrow();
        match chip.figure {
            Some(figure) => NandGeometry {
                page_size: 1,
                oob_size: 0,
                pages_per_block: 1,
                block_count: figure as usize,
            },
            None => NandGeometry {
                page_size: chip.page,
                oob_size: 0,
                pages_per_block: chip.pages,
                block_count: chip.blocks,
            },
        }
    }

    fn read(&mut self, offset: usize, buf: &mut [u8]) -> Result<(), Failed> {
        let mut chip = self.0.borrow_mut();
        chip.call()?;
        buf.copy_from_slice(chip.range(offset, buf.len())?);
        Ok(())
    }

    fn write_page(&mut self, page: usize, data: &[u8]) -> Result<(), Failed> {
        let mut chip = self.0.borrow_mut();
        chip.call()?;
        assert_eq!(data.len(), chip.page, "storage.rs programs whole pages");
        let offset = page.checked_mul(data.len()).ok_or(Failed)?;
        let old = chip.range(offset, data.len())?;
        for (old, new) in old.iter_mut().zip(data) {
            *old &= new;
        }
        if old != data {
            return Err(Failed);
        }
        chip.held = None;
        Ok(())
    }

    fn erase_block(&mut self, block: usize) -> Result<(), Failed> {
        let mut chip = self.0.borrow_mut();
        chip.call()?;
        let len = chip.page * chip.pages;
        let offset = block.checked_mul(len).ok_or(Failed)?;
        chip.range(offset, len)?.fill(0xFF);
        Ok(())
    }

    fn is_bad_block(&mut self, block: usize) -> Result<bool, Failed> {
        let mut chip = self.0.borrow_mut();
        chip.call()?;
        let mark = chip.marks.get(block).ok_or(Failed)?;
        Ok(*mark != 0xFF)
    }

    fn read_page(&mut self, _page: usize, _buf: &mut [u8]) -> Result<(), Failed> {
        unreachable!("storage.rs reads by offset")
    }

    fn unprotect(&mut self) -> Result<(), Failed> {
        unreachable!("storage.rs leaves protection alone")
    }
}
