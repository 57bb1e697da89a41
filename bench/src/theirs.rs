//! The Rust's engine, built unchanged, over a NOR in memory that never fails.

use std::cell::RefCell;
use std::rc::Rc;

use embedded_storage::nor_flash::{
    ErrorType, NorFlash, NorFlashError, NorFlashErrorKind, ReadNorFlash,
};
use harness::aic_upg::protocol::{Engine, crc32_update};
use harness::aic_upg::storage::{NorUpgStorage, Partition};
use harness::scratch::Scratch;

use crate::{BASE, CHIP, Side};

#[derive(Debug)]
pub struct Failed;

impl NorFlashError for Failed {
    fn kind(&self) -> NorFlashErrorKind {
        NorFlashErrorKind::OutOfBounds
    }
}

/// The chip's bytes, which the driver looks at afterwards.
struct Nor(Rc<RefCell<Vec<u8>>>);

impl ErrorType for Nor {
    type Error = Failed;
}

impl ReadNorFlash for Nor {
    const READ_SIZE: usize = 1;

    fn read(&mut self, offset: u32, bytes: &mut [u8]) -> Result<(), Failed> {
        let from = offset as usize;
        let chip = self.0.borrow();
        bytes.copy_from_slice(chip.get(from..from + bytes.len()).ok_or(Failed)?);
        Ok(())
    }

    fn capacity(&self) -> usize {
        self.0.borrow().len()
    }
}

impl NorFlash for Nor {
    const WRITE_SIZE: usize = 1;
    const ERASE_SIZE: usize = 4096;

    fn erase(&mut self, from: u32, to: u32) -> Result<(), Failed> {
        let mut chip = self.0.borrow_mut();
        chip.get_mut(from as usize..to as usize)
            .ok_or(Failed)?
            .fill(0xFF);
        Ok(())
    }

    fn write(&mut self, offset: u32, bytes: &[u8]) -> Result<(), Failed> {
        let from = offset as usize;
        let mut chip = self.0.borrow_mut();
        chip.get_mut(from..from + bytes.len())
            .ok_or(Failed)?
            .copy_from_slice(bytes);
        Ok(())
    }
}

/// An engine over a NOR with the partition `app`.
pub struct Theirs {
    engine: Engine<'static>,
    chip: Rc<RefCell<Vec<u8>>>,
}

impl Theirs {
    /// What the engine borrows is never given back: the driver opens a few dozen.
    pub fn open(scratch: &'static Scratch) -> Self {
        let chip = Rc::new(RefCell::new(vec![0xFF; CHIP]));
        let buffer = Vec::leak(vec![0; 4096]);
        let partitions = Box::leak(Box::new([Partition {
            name: "app",
            offset: 0,
            size: CHIP as u64,
        }]));
        // One engine at a time has the scratch, and none of them looks at it.
        let lent = unsafe { scratch.lend() };
        let storage = NorUpgStorage::new(Nor(chip.clone()), buffer, lent, partitions);
        let engine = Engine::new(Box::leak(Box::new(storage)), "");
        Theirs { engine, chip }
    }
}

impl Side for Theirs {
    fn write(&mut self, bytes: &[u8]) -> u8 {
        self.engine.transport_write(bytes)
    }

    fn read(&mut self, room: &mut [u8]) -> usize {
        self.engine.transport_read(room)
    }

    fn flash(&self) -> Vec<u8> {
        self.chip.borrow().clone()
    }
}

/// Memory for the scratch, below 4 GiB as the Rust wants it.
pub fn scratch() -> &'static Scratch {
    Box::leak(Box::new(
        Scratch::new(BASE, 4096).expect("no memory for the scratch"),
    ))
}

/// The Rust's CRC-32.
pub fn crc32(bytes: &[u8]) -> u32 {
    crc32_update(0, bytes)
}
