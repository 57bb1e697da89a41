// Lamjhotu for Rust: what lamjhotu.h declares, as functions over slices, to be taken into a module by
// include!. The program links the static library; bench/build.rs shows how. lamjhotu.h says what the
// record, the rooms and the partitions are. A slice is never null, and one that is written overlaps no
// other: that is all that a caller owes, so the functions are safe.

pub const RECORD_LEN: usize = 652;
pub const REQUEST_LEN: usize = 8208;
pub const REPLY_LEN: usize = 4112;
pub const BUFFER_LEN: usize = 4096;

// The answers of a call. An opening has the numbers 10 to 14 besides.
pub const DONE: u8 = 0;
pub const FAILED: u8 = 1;
pub const REFUSED: u8 = 9;
// The answer of a read that is refused; every count is less.
pub const NO_COUNT: u32 = 0xFFFF_FFFF;

unsafe extern "C" {
    fn lamjhotu_crc32(crc: u32, bytes: *const u8, bytes_len: usize) -> u32;
    fn lamjhotu_record_len() -> usize;
    fn lamjhotu_open_nor(
        record: *mut u8,
        record_len: usize,
        request: *const u8,
        request_len: usize,
        reply: *const u8,
        reply_len: usize,
        chip: *const u8,
        chip_len: usize,
        buffer: *const u8,
        buffer_len: usize,
        offsets: *const u64,
        offsets_len: usize,
        sizes: *const u64,
        sizes_len: usize,
        lens: *const u64,
        lens_len: usize,
        names: *const u8,
        names_len: usize,
        base: u32,
        scratch: *const u8,
        scratch_len: usize,
        stage: u8,
        device: u32,
    ) -> u8;
    fn lamjhotu_open_nand(
        record: *mut u8,
        record_len: usize,
        request: *const u8,
        request_len: usize,
        reply: *const u8,
        reply_len: usize,
        chip: *const u8,
        chip_len: usize,
        page: u64,
        pages: u64,
        blocks: u64,
        marks: *const u8,
        marks_len: usize,
        capacity: u64,
        offsets: *const u64,
        offsets_len: usize,
        sizes: *const u64,
        sizes_len: usize,
        lens: *const u64,
        lens_len: usize,
        names: *const u8,
        names_len: usize,
        base: u32,
        scratch: *const u8,
        scratch_len: usize,
        stage: u8,
        device: u32,
    ) -> u8;
    fn lamjhotu_write(
        record: *mut u8,
        record_len: usize,
        request: *mut u8,
        request_len: usize,
        faults: *const u8,
        faults_len: usize,
        marks: *const u8,
        marks_len: usize,
        offsets: *const u64,
        offsets_len: usize,
        sizes: *const u64,
        sizes_len: usize,
        lens: *const u64,
        lens_len: usize,
        names: *const u8,
        names_len: usize,
        table: *const u8,
        table_len: usize,
        chip: *mut u8,
        chip_len: usize,
        buffer: *mut u8,
        buffer_len: usize,
        scratch: *mut u8,
        scratch_len: usize,
        reply: *mut u8,
        reply_len: usize,
        bytes: *const u8,
        bytes_len: usize,
    ) -> u8;
    fn lamjhotu_read(
        record: *mut u8,
        record_len: usize,
        request: *const u8,
        request_len: usize,
        reply: *const u8,
        reply_len: usize,
        chip: *const u8,
        chip_len: usize,
        buffer: *const u8,
        buffer_len: usize,
        scratch: *const u8,
        scratch_len: usize,
        marks: *const u8,
        marks_len: usize,
        offsets: *const u64,
        offsets_len: usize,
        sizes: *const u64,
        sizes_len: usize,
        lens: *const u64,
        lens_len: usize,
        names: *const u8,
        names_len: usize,
        room: *mut u8,
        room_len: usize,
    ) -> u32;
    fn lamjhotu_reset(record: *mut u8, record_len: usize) -> u8;
    fn lamjhotu_host_upgrading(record: *const u8, record_len: usize) -> u8;
    fn lamjhotu_reset_requested(record: *const u8, record_len: usize) -> u8;
}

// The CRC-32 (ITU-T V.42) of bytes behind others that have the checksum `crc`; 0 where there are none.
#[inline]
pub fn crc32(crc: u32, bytes: &[u8]) -> u32 {
    unsafe { lamjhotu_crc32(crc, bytes.as_ptr(), bytes.len()) }
}

// How many bytes a record has: RECORD_LEN.
#[inline]
pub fn record_len() -> usize {
    unsafe { lamjhotu_record_len() }
}

// Opens an engine over a NOR and writes its record: 0, or a refusal, 9 to 12 or 14.
#[inline]
pub fn open_nor(
    record: &mut [u8],
    request: &[u8],
    reply: &[u8],
    chip: &[u8],
    buffer: &[u8],
    offsets: &[u64],
    sizes: &[u64],
    lens: &[u64],
    names: &[u8],
    base: u32,
    scratch: &[u8],
    stage: u8,
    device: u32,
) -> u8 {
    unsafe {
        lamjhotu_open_nor(
            record.as_mut_ptr(),
            record.len(),
            request.as_ptr(),
            request.len(),
            reply.as_ptr(),
            reply.len(),
            chip.as_ptr(),
            chip.len(),
            buffer.as_ptr(),
            buffer.len(),
            offsets.as_ptr(),
            offsets.len(),
            sizes.as_ptr(),
            sizes.len(),
            lens.as_ptr(),
            lens.len(),
            names.as_ptr(),
            names.len(),
            base,
            scratch.as_ptr(),
            scratch.len(),
            stage,
            device,
        )
    }
}

// The same over a NAND: 0, or a refusal, 9 or 12 to 14.
#[inline]
pub fn open_nand(
    record: &mut [u8],
    request: &[u8],
    reply: &[u8],
    chip: &[u8],
    page: u64,
    pages: u64,
    blocks: u64,
    marks: &[u8],
    capacity: u64,
    offsets: &[u64],
    sizes: &[u64],
    lens: &[u64],
    names: &[u8],
    base: u32,
    scratch: &[u8],
    stage: u8,
    device: u32,
) -> u8 {
    unsafe {
        lamjhotu_open_nand(
            record.as_mut_ptr(),
            record.len(),
            request.as_ptr(),
            request.len(),
            reply.as_ptr(),
            reply.len(),
            chip.as_ptr(),
            chip.len(),
            page,
            pages,
            blocks,
            marks.as_ptr(),
            marks.len(),
            capacity,
            offsets.as_ptr(),
            offsets.len(),
            sizes.as_ptr(),
            sizes.len(),
            lens.as_ptr(),
            lens.len(),
            names.as_ptr(),
            names.len(),
            base,
            scratch.as_ptr(),
            scratch.len(),
            stage,
            device,
        )
    }
}

// Takes bytes from the host, cut where they like: DONE, FAILED, or REFUSED and no byte is changed.
#[inline]
pub fn write(
    record: &mut [u8],
    request: &mut [u8],
    faults: &[u8],
    marks: &[u8],
    offsets: &[u64],
    sizes: &[u64],
    lens: &[u64],
    names: &[u8],
    table: &[u8],
    chip: &mut [u8],
    buffer: &mut [u8],
    scratch: &mut [u8],
    reply: &mut [u8],
    bytes: &[u8],
) -> u8 {
    unsafe {
        lamjhotu_write(
            record.as_mut_ptr(),
            record.len(),
            request.as_mut_ptr(),
            request.len(),
            faults.as_ptr(),
            faults.len(),
            marks.as_ptr(),
            marks.len(),
            offsets.as_ptr(),
            offsets.len(),
            sizes.as_ptr(),
            sizes.len(),
            lens.as_ptr(),
            lens.len(),
            names.as_ptr(),
            names.len(),
            table.as_ptr(),
            table.len(),
            chip.as_mut_ptr(),
            chip.len(),
            buffer.as_mut_ptr(),
            buffer.len(),
            scratch.as_mut_ptr(),
            scratch.len(),
            reply.as_mut_ptr(),
            reply.len(),
            bytes.as_ptr(),
            bytes.len(),
        )
    }
}

// Copies the next bytes of the reply to the front of `room`: their number, or NO_COUNT and no byte is changed.
#[inline]
pub fn read(
    record: &mut [u8],
    request: &[u8],
    reply: &[u8],
    chip: &[u8],
    buffer: &[u8],
    scratch: &[u8],
    marks: &[u8],
    offsets: &[u64],
    sizes: &[u64],
    lens: &[u64],
    names: &[u8],
    room: &mut [u8],
) -> u32 {
    unsafe {
        lamjhotu_read(
            record.as_mut_ptr(),
            record.len(),
            request.as_ptr(),
            request.len(),
            reply.as_ptr(),
            reply.len(),
            chip.as_ptr(),
            chip.len(),
            buffer.as_ptr(),
            buffer.len(),
            scratch.as_ptr(),
            scratch.len(),
            marks.as_ptr(),
            marks.len(),
            offsets.as_ptr(),
            offsets.len(),
            sizes.as_ptr(),
            sizes.len(),
            lens.as_ptr(),
            lens.len(),
            names.as_ptr(),
            names.len(),
            room.as_mut_ptr(),
            room.len(),
        )
    }
}

// Empties request, reply, update record and stream; flags, scratch and storage stay. DONE or REFUSED.
#[inline]
pub fn reset(record: &mut [u8]) -> u8 {
    unsafe { lamjhotu_reset(record.as_mut_ptr(), record.len()) }
}

// Has the host started an upgrade: 1 or 0, or REFUSED.
#[inline]
pub fn host_upgrading(record: &[u8]) -> u8 {
    unsafe { lamjhotu_host_upgrading(record.as_ptr(), record.len()) }
}

// Did the host ask for a reset of the device: 1 or 0, or REFUSED.
#[inline]
pub fn reset_requested(record: &[u8]) -> u8 {
    unsafe { lamjhotu_reset_requested(record.as_ptr(), record.len()) }
}
