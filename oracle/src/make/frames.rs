//! Requests as a host builds them.

/// SEND_FWC_DATA.
pub const SEND: u8 = 0x12;

/// A header with the right checksum, whatever its bytes 4 and 5.
pub fn header(command: u8, status: u8, len: u32, four: u8, five: u8) -> [u8; 16] {
    let mut header = *b"UPGC\0\0\0\0\0\0\0\0\0\0\0\0";
    let field = u32::from_le_bytes([1, 1, command, status]);
    let sum = 0x4347_5055u32.wrapping_add(field).wrapping_add(len);
    header[4..8].copy_from_slice(&[four, five, command, status]);
    header[8..12].copy_from_slice(&len.to_le_bytes());
    header[12..].copy_from_slice(&sum.to_le_bytes());
    header
}

/// A whole frame.
pub fn frame(command: u8, data: &[u8]) -> Vec<u8> {
    [&header(command, 0, data.len() as u32, 1, 1), data].concat()
}

/// The 512 bytes of metadata with a partition field.
pub fn meta(partition: &[u8]) -> Vec<u8> {
    let mut meta = vec![0; 512];
    meta[..4].copy_from_slice(b"META");
    meta[0x08..0x0C].copy_from_slice(b"name");
    let len = partition.len().min(64);
    meta[0x48..0x48 + len].copy_from_slice(&partition[..len]);
    meta
}

/// A frame with a shell line.
pub fn shell(line: &str) -> Vec<u8> {
    let len = line.len() as u32;
    frame(0x05, &[&len.to_le_bytes(), line.as_bytes()].concat())
}

/// A CBW.
pub fn cbw(tag: u32, len: u32, command: u8) -> Vec<u8> {
    let mut cbw = vec![0; 31];
    cbw[..4].copy_from_slice(b"USBC");
    cbw[4..8].copy_from_slice(&tag.to_le_bytes());
    cbw[8..12].copy_from_slice(&len.to_le_bytes());
    cbw[12] = if command == 2 { 0x80 } else { 0 };
    cbw[14] = 1;
    cbw[15] = command;
    cbw
}
