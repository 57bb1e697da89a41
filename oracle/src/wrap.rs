//! A storage of the Rust, wrapped so that it reports the opening's boot stage and device id.

use crate::aic_upg::storage::{NandUpgStorage, NorUpgStorage, StorageBackend};
use crate::chip::{Nand, Nor, Shared};

/// Forwards everything to `inner` but the two numbers of the opening, where it has others than the
/// Rust.
pub struct Wrapped<'a, S> {
    pub inner: S,
    pub chip: Shared,
    pub boot_stage: Option<u8>,
    pub media_dev_id: Option<u32>,
    /// A NAND's page size, to tell the chip which page is held; 0 for NOR.
    pub page: u64,
    /// Answers the lookups in place of `inner`, which was then made without partitions.
    pub lookup: Option<Box<dyn StorageBackend + 'a>>,
}

/// A storage whose private fields tell the held address, with the feature `peek`.
pub trait Peek {
    fn peeked(&self) -> Option<u64>;
}

impl Peek for NorUpgStorage<'_, Nor> {
    fn peeked(&self) -> Option<u64> {
        #[cfg(feature = "peek")]
        return self.peek();
        #[cfg(not(feature = "peek"))]
        unreachable!()
    }
}

impl Peek for NandUpgStorage<'_, Nand> {
    fn peeked(&self) -> Option<u64> {
        #[cfg(feature = "peek")]
        return self.peek();
        #[cfg(not(feature = "peek"))]
        unreachable!()
    }
}

impl<S: Peek> Wrapped<'_, S> {
    /// After a NAND write of `count` bytes its last byte's page is held: the storage writes a page
    /// only on leaving it. A write of 0 bytes leaves what was held, and a page that left was seen
    /// by the chip.
    fn wrote(&mut self, offset: u64, count: usize) -> usize {
        if self.page > 0 && count > 0 {
            let last = offset + count as u64 - 1;
            self.chip.borrow_mut().held = Some(last & !(self.page - 1));
        }
        self.done(count)
    }

    fn done<T>(&self, answer: T) -> T {
        if cfg!(feature = "peek") {
            assert_eq!(self.chip.borrow().held, self.inner.peeked());
        }
        answer
    }
}

impl<S: StorageBackend + Peek> StorageBackend for Wrapped<'_, S> {
    fn media_type(&self) -> &'static str {
        self.inner.media_type()
    }

    fn media_dev_id(&self) -> u32 {
        self.media_dev_id
            .unwrap_or_else(|| self.inner.media_dev_id())
    }

    fn block_size(&self) -> u32 {
        self.inner.block_size()
    }

    fn capacity(&self) -> u64 {
        self.inner.capacity()
    }

    fn erase(&mut self, start: u64, size: u64) -> bool {
        let ok = self.inner.erase(start, size);
        self.done(ok)
    }

    fn write(&mut self, offset: u64, data: &[u8]) -> usize {
        let count = self.inner.write(offset, data);
        self.wrote(offset, count)
    }

    fn read(&mut self, offset: u64, out: &mut [u8]) -> usize {
        let count = self.inner.read(offset, out);
        self.done(count)
    }

    fn scratch_addr(&self) -> u32 {
        self.inner.scratch_addr()
    }

    fn scratch_len(&self) -> usize {
        self.inner.scratch_len()
    }

    fn scratch(&mut self) -> &mut [u8] {
        self.inner.scratch()
    }

    fn write_from_scratch(&mut self, offset: u64, scratch_off: usize, len: usize) -> usize {
        let count = self.inner.write_from_scratch(offset, scratch_off, len);
        self.wrote(offset, count)
    }

    fn read_into_scratch(&mut self, offset: u64, scratch_off: usize, len: usize) -> usize {
        let count = self.inner.read_into_scratch(offset, scratch_off, len);
        self.done(count)
    }

    fn partition_offset(&self, name: &str) -> Option<u64> {
        match &self.lookup {
            Some(lookup) => lookup.partition_offset(name),
            None => self.inner.partition_offset(name),
        }
    }

    fn flush(&mut self) -> bool {
        let ok = self.inner.flush();
        self.done(ok)
    }

    fn boot_stage(&self) -> u8 {
        self.boot_stage.unwrap_or_else(|| self.inner.boot_stage())
    }
}
