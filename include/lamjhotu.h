/*
 * Lamjhotu for C: the proved upgrade engine as a static library, target/staticlib/liblamjhotu.a, which
 * ./library proves, builds and puts there (x86-64 Linux). examples/c has a program that links it.
 *
 * A SLICE is two arguments, a pointer and the number of elements behind it. The pointer is not null,
 * not even where the number is 0, and aligned for its type. What is passed through a pointer that is not
 * const overlaps nothing else of the same call. That is all that a caller owes: every call answers for
 * all numbers and all bytes, and touches no byte outside of the slices. The contracts in
 * crates/lamjhotu_c/src/lib.rt determine the answer and every byte that is left.
 *
 * THE RECORD of an engine lies in LAMJHOTU_RECORD_LEN bytes of the caller's. An opening writes it; every
 * later call takes it and writes it back. It holds no pointer, so it may be copied and moved. Bytes that
 * no opening wrote are taken for the record that they spell; a write or a read refuses one that is out of
 * bounds, as zeros are.
 *
 * THE ROOMS belong to the engine from its opening on, and go to every call with the bytes that the call
 * before left in them:
 *   request   LAMJHOTU_REQUEST_LEN bytes, where a frame is gathered
 *   reply     LAMJHOTU_REPLY_LEN bytes, where a reply waits
 *   chip      the flash as bytes. A NOR has a multiple of 4,096 bytes, at most 16 MiB; a NAND exactly
 *             page * pages * blocks
 *   buffer    at least LAMJHOTU_BUFFER_LEN bytes, where a sector or page is held
 *   scratch   the memory that the host may read and write, at the address `base` for the host
 *
 * THE PARTITIONS are lent to every call, and stay: `offsets`, `sizes` and `lens` have an element for each
 * partition, at most 32; `names` has their names one after the other, each of as many bytes as `lens` says.
 *
 * ALSO LENT: `marks`, a byte for each block of a NAND, not 0 where it is bad (none for a NOR); `faults`, a
 * byte for each chip call, not 0 where it fails (the last stands for all later ones; none: no call
 * fails); `table`, the text of the partition table that a host may ask for.
 */
#ifndef LAMJHOTU_H
#define LAMJHOTU_H

#include <stddef.h>
#include <stdint.h>

#define LAMJHOTU_RECORD_LEN 652
#define LAMJHOTU_REQUEST_LEN 8208
#define LAMJHOTU_REPLY_LEN 4112
#define LAMJHOTU_BUFFER_LEN 4096

/* The answers of a call. An opening has the numbers 10 to 14 besides. */
#define LAMJHOTU_DONE 0
#define LAMJHOTU_FAILED 1
#define LAMJHOTU_REFUSED 9
/* The answer of a read that is refused; every count is less. */
#define LAMJHOTU_NO_COUNT UINT32_C(0xFFFFFFFF)

#ifdef __cplusplus
extern "C" {
#endif

/*
 * The CRC-32 (ITU-T V.42) of bytes behind others that have the checksum `crc`; 0 where there are none. What
 * the engine answers to a CRC query is this of the payload.
 */
uint32_t lamjhotu_crc32(uint32_t crc, const uint8_t *bytes, size_t bytes_len);

/* How many bytes a record has: LAMJHOTU_RECORD_LEN, for a program that was built with another header. */
size_t lamjhotu_record_len(void);

/*
 * Opens an engine over a NOR and writes its record. 0, or the number of the refusal, and then no byte is
 * changed: 9 rooms of another size or a record of under LAMJHOTU_RECORD_LEN bytes, 10 a buffer that is too
 * short, 11 a flash of a size that no NOR has, 12 a partition list out of bounds, 14 scratch past 2^32.
 * Nothing but the record is written. `stage` is the boot stage and `device` the id that a host may ask for.
 */
uint8_t lamjhotu_open_nor(
    uint8_t *record, size_t record_len,
    const uint8_t *request, size_t request_len,
    const uint8_t *reply, size_t reply_len,
    const uint8_t *chip, size_t chip_len,
    const uint8_t *buffer, size_t buffer_len,
    const uint64_t *offsets, size_t offsets_len,
    const uint64_t *sizes, size_t sizes_len,
    const uint64_t *lens, size_t lens_len,
    const uint8_t *names, size_t names_len,
    uint32_t base,
    const uint8_t *scratch, size_t scratch_len,
    uint8_t stage,
    uint32_t device);

/*
 * The same over a NAND of `blocks` blocks of `pages` pages of `page` bytes, of which `capacity` bytes are
 * used. 13 in the place of 10 and 11: a geometry, a flash or marks of another size, or a capacity past 2^31.
 */
uint8_t lamjhotu_open_nand(
    uint8_t *record, size_t record_len,
    const uint8_t *request, size_t request_len,
    const uint8_t *reply, size_t reply_len,
    const uint8_t *chip, size_t chip_len,
    uint64_t page,
    uint64_t pages,
    uint64_t blocks,
    const uint8_t *marks, size_t marks_len,
    uint64_t capacity,
    const uint64_t *offsets, size_t offsets_len,
    const uint64_t *sizes, size_t sizes_len,
    const uint64_t *lens, size_t lens_len,
    const uint8_t *names, size_t names_len,
    uint32_t base,
    const uint8_t *scratch, size_t scratch_len,
    uint8_t stage,
    uint32_t device);

/*
 * Takes bytes from the host, cut where they like. 0 done; 1 a header was refused or a step failed; 9 the
 * record, a room or a list is out of bounds, and no byte is changed. A reply waits for lamjhotu_read.
 */
uint8_t lamjhotu_write(
    uint8_t *record, size_t record_len,
    uint8_t *request, size_t request_len,
    const uint8_t *faults, size_t faults_len,
    const uint8_t *marks, size_t marks_len,
    const uint64_t *offsets, size_t offsets_len,
    const uint64_t *sizes, size_t sizes_len,
    const uint64_t *lens, size_t lens_len,
    const uint8_t *names, size_t names_len,
    const uint8_t *table, size_t table_len,
    uint8_t *chip, size_t chip_len,
    uint8_t *buffer, size_t buffer_len,
    uint8_t *scratch, size_t scratch_len,
    uint8_t *reply, size_t reply_len,
    const uint8_t *bytes, size_t bytes_len);

/*
 * Copies the next bytes of the reply to the front of `room`, as many as wait and fit, and answers how many.
 * LAMJHOTU_NO_COUNT where a write would answer 9; then no byte is changed.
 */
uint32_t lamjhotu_read(
    uint8_t *record, size_t record_len,
    const uint8_t *request, size_t request_len,
    const uint8_t *reply, size_t reply_len,
    const uint8_t *chip, size_t chip_len,
    const uint8_t *buffer, size_t buffer_len,
    const uint8_t *scratch, size_t scratch_len,
    const uint8_t *marks, size_t marks_len,
    const uint64_t *offsets, size_t offsets_len,
    const uint64_t *sizes, size_t sizes_len,
    const uint64_t *lens, size_t lens_len,
    const uint8_t *names, size_t names_len,
    uint8_t *room, size_t room_len);

/*
 * Empties request, reply, update record and stream, as after a failed transfer; flags, scratch and storage
 * stay. 0, or 9 where the record has under LAMJHOTU_RECORD_LEN bytes, as in the two questions below.
 */
uint8_t lamjhotu_reset(uint8_t *record, size_t record_len);

/* Has the host started an upgrade: 1 or 0, or 9. */
uint8_t lamjhotu_host_upgrading(const uint8_t *record, size_t record_len);

/* Did the host ask for a reset of the device: 1 or 0, or 9. */
uint8_t lamjhotu_reset_requested(const uint8_t *record, size_t record_len);

#ifdef __cplusplus
}
#endif

#endif
