/* Sorted tables of a log-structured store, for callers in C, C++ and languages that call C.
 *
 *     sst_handle table = {0};
 *     sst_entry entry;
 *     sst_lent lent;
 *     if (sst_table_open(file, len, 0, true, true, &table) == 0 &&
 *         sst_table_get(&table, key, key_len, SST_NEWEST, &entry) == 0 &&
 *         entry.kind == SST_VALUE && sst_found_lend(&table, &lent) == 0) {
 *       fwrite(lent.value, 1, lent.value_len, stdout);
 *     }
 *     sst_close(&table);
 *
 * A handle is two words in the caller's memory, zeros at first (`sst_handle table = {0};`). A call
 * fills it, and `sst_close` empties it. A handle may be closed twice, and handles may be closed in
 * any order: a range, for example, has a share of its table. A handle may be moved in memory, but
 * two copies of it must not both be used.
 *
 * If a call gets the same handle to read from and to fill, it does nothing. It returns SST_OPEN if
 * the handle is in use, else SST_CLOSED. Never pass one handle as both arguments of `sst_runs_add`.
 *
 * Threads: one thread uses a handle at a time. Threads that use different handles need no
 * synchronization, whatever the handles share. A table's bytes and blocks are never written.
 * Reference counts and the verified-block cache are updated atomically. So several threads read one
 * table at once through a handle each, which `sst_table_share` makes, or through its ranges and
 * lists of runs. Passing a handle to another thread, even one made for it, needs memory ordering: a
 * lock, or the thread's start or join.
 *
 * Results: each call returns 0 or an error code. `sst_version`, `sst_close`, `sst_options_default`
 * and `sst_strerror_copy` have no errors. Codes 1 to 24, from SST_OUT_OF_MEMORY to
 * SST_SOURCE_ERROR, are the library's. Codes from 100 on are those of the calls below.
 * `sst_strerror` has a sentence for each.
 *
 * If several errors apply, a call returns the first in this order: SST_OPEN, SST_CLOSED,
 * SST_OTHER_KIND, SST_NO_SUCH, SST_NO_ROOM, any other. A call that opens, reads, verifies, adds,
 * packs, writes or compacts may return SST_OUT_OF_MEMORY. The comments below do not repeat this.
 *
 * After an error, the content of handles and all outputs stay as they were, unless the call's
 * comment states otherwise. There are three exceptions:
 *
 * - `sst_table_get`, `sst_runs_get`, `sst_range_next` and `sst_scan_next` set their outputs to
 *   zeros and keep no entry.
 * - `sst_table_verify`, `sst_table_verify_with` and `sst_verification_step` set `verified` to
 *   zeros, unless the error is SST_FAULTY. `sst_verification_step` also sets `progress`. This is
 *   zeros if the handle is closed or of another kind.
 * - `sst_range_take`, `sst_scan_take` and `sst_writer_add_many` set `count` to the number of
 *   entries that were read or written before the error.
 *
 * Pointers: no pointer may be NULL, and each is aligned for its type. Bytes and other arrays are a
 * pointer and a length, in this order. If the length is 0, any pointer other than NULL will do. A
 * call reads its arguments until it returns and keeps none, except for the bytes of
 * `sst_table_open_kept`. An output must not overlap another argument, except for one handle that is
 * passed twice, as above.
 *
 * The library's contracts prove the result, the outputs and the effect of each call. docs/C.md
 * lists what is not proved. The proofs rely on these conditions:
 *
 * - Pointers are as described above.
 * - Only these calls write to the words of a handle.
 * - The bytes of `sst_table_open_kept` stay in place and unchanged.
 * - `malloc` aligns to 16 bytes.
 *
 * Two things are tested, and not proved: where borrowed pointers point, and the effect of one
 * handle that is passed twice.
 */
#ifndef SST_H
#define SST_H

#include <stdbool.h>
#include <stddef.h>
#include <stdint.h>

#ifdef __cplusplus
extern "C" {
#endif

/* The version of these calls, the first number of the release's version. `sst_version` returns that
 * of the library. */
#define SST_VERSION 4

/* Error codes of the library. A call that succeeds returns 0. */
enum {
  SST_OUT_OF_MEMORY = 1,
  SST_TRUNCATED = 2,         /* A block reaches past the sections. */
  SST_INVALID_HEADER = 3,    /* A block's header is invalid. */
  SST_INVALID_TAG = 4,       /* A block is of another kind than required. */
  SST_CHECKSUM_MISMATCH = 5, /* A block was damaged. */
  SST_INVALID_BLOCK = 6,     /* A block's payload is invalid. */
  SST_KEY_TOO_LONG = 7,
  SST_VALUE_TOO_LONG = 8,
  SST_BLOCK_TOO_LARGE = 9,
  SST_SECTION_TOO_LARGE = 10,
  SST_INVALID_TRAILER = 11, /* The bytes do not end as a table does. */
  SST_MISSING_SECTION = 12,
  SST_META_KEY_MISSING = 13,          /* An item of the meta block is missing. */
  SST_INVALID_META_VALUE = 14,        /* The value of an item of the meta block is too short. */
  SST_UNSUPPORTED_TABLE_VERSION = 15, /* The version is not 3 or 4. */
  SST_UNSUPPORTED_HASH_TYPE = 16,
  SST_UNSUPPORTED_CHECKSUM_TYPE = 17,
  SST_UNSUPPORTED_INDEX_INTERVAL = 18,
  SST_UNSUPPORTED_COMPRESSION = 19,
  SST_GLOBAL_SEQNO_TOO_LARGE = 20, /* Highest stored seqno plus global seqno overflows. */
  SST_SEQNO_OVERFLOW = 21,         /* An entry's seqno plus global seqno overflows. */
  SST_TABLE_IDS_SPENT = 22,
  SST_WRITER_FAILED = 23, /* The writer has failed before. */
  SST_SOURCE_ERROR = 24   /* A source of entries failed; none of these calls has one. */
};

/* Error codes of the calls themselves, and another name of SST_OUT_OF_MEMORY. */
enum {
  SST_NO_MEMORY = SST_OUT_OF_MEMORY,
  SST_CLOSED = 100,       /* The handle holds nothing. */
  SST_OPEN = 101,         /* The handle to fill holds something. */
  SST_OTHER_KIND = 102,   /* The handle holds something of another kind. */
  SST_NO_ROOM = 103,      /* The buffer is too small for the bytes to copy. */
  SST_OUT_OF_ORDER = 104, /* An entry or a key does not follow the one before it. */
  SST_NO_SUCH = 105,      /* An index, a length, a kind or an option is invalid. */
  SST_NOTHING = 106,      /* The last read by the handle found nothing. */
  SST_FAULTY = 107        /* A verification found a fault. */
};

/* Kinds of entries. */
enum {
  SST_NO_ENTRY = 0,
  SST_VALUE = 1,
  SST_TOMBSTONE = 2,      /* A deletion of every older version of the key. */
  SST_WEAK_TOMBSTONE = 3, /* A deletion of only the next older version. */
  SST_INDIRECTION = 5     /* A value that is stored elsewhere. */
};

/* Bounds of a range. */
enum { SST_UNBOUNDED = 0, SST_INCLUDED = 1, SST_EXCLUDED = 2 };

/* The largest sequence number. A read at it sees every version with a smaller sequence number, and
 * `sst_writer_add` takes no other. An entry has it only if the global sequence number raises it so
 * far, or in bytes of another writer. Only a range or a scan of one table yields such an entry.
 */
#define SST_NEWEST UINT64_MAX

typedef struct sst_handle {
  uint64_t words[2];
} sst_handle;

/* The kind, the sequence number and the lengths of an entry, in bytes; zeros if there is none. */
typedef struct sst_entry {
  uint64_t kind;
  uint64_t seqno;
  uint64_t key_len;
  uint64_t value_len;
} sst_entry;

/* The addresses and the lengths of an entry's key and value, in bytes. */
typedef struct sst_lent {
  const uint8_t *key;
  uint64_t key_len;
  const uint8_t *value;
  uint64_t value_len;
} sst_lent;

/* Returns the SST_VERSION of the header that the library was built with. */
uint32_t sst_version(void);

/* Closes a handle of any kind. A handle that holds nothing stays as it is. */
void sst_close(sst_handle *handle);

/* The found entry. A handle keeps the entry that its last read found, until its next read. The
 * reads are `sst_table_get`, `sst_runs_get`, `sst_range_next`, `sst_range_take`,
 * `sst_scan_next` and `sst_scan_take`. Point reads, scans of one table or of several, and ranges of
 * one table borrow the entry from the table's memory. They copy no bytes and count no reference to
 * the entry. Ranges of several tables hold a counted reference. The two calls below return
 * SST_NOTHING, for a handle of any kind, unless its last read found an entry.
 */

/* Copies the key and the value of the entry that the handle's last read found. The `sst_entry` of
 * that read has both lengths.
 *
 * Errors: SST_NOTHING if that read found nothing; SST_NO_ROOM if the key or the value is longer
 * than its buffer. Nothing is copied then, and the call may be repeated with larger buffers.
 */
uint32_t sst_found_copy(sst_handle *handle, uint8_t *key, size_t key_room, uint8_t *value,
                        size_t value_room);

/* Returns pointers to the key and the value of the entry that the handle's last read found. They
 * are valid until the next read through the handle, or its close. Copy a borrowed key before
 * passing it to that read.
 *
 * Errors: SST_NOTHING if that read found nothing.
 */
uint32_t sst_found_lend(sst_handle *handle, sst_lent *lent);

/* Tables. */

/* Opens a table from a copy of its bytes, into a handle that holds nothing. `global_seqno` is added
 * to every stored sequence number. `pin_filter` keeps a filter of one block loaded, and `pin_index`
 * an index of one block. Otherwise each read loads it. The top level of a partitioned index is kept
 * loaded in any case.
 *
 * Errors: the first fault of the bytes; the handle stays as it is. Bytes with damaged blocks may
 * open: reads that meet the damage fail, and `sst_table_verify` finds it.
 */
uint32_t sst_table_open(const uint8_t *file, size_t len, uint64_t global_seqno, bool pin_filter,
                        bool pin_index, sst_handle *table);

/* Opens a table as `sst_table_open` does, over the bytes themselves, without a copy. The bytes must
 * stay in place and unchanged until this handle and all that was opened from its content are
 * closed. These are its shares, ranges, scans, answers and verifications, and the lists of runs
 * that it was added to. The same goes for handles opened from these. No process may write to the
 * bytes meanwhile, for example to a mapped file.
 */
uint32_t sst_table_open_kept(const uint8_t *file, size_t len, uint64_t global_seqno,
                             bool pin_filter, bool pin_index, sst_handle *table);

/* Finds the newest version of a key with a sequence number below `seqno`, and keeps it as the
 * handle's found entry. The version may be a deletion. If there is none, the call returns 0 and the
 * kind is SST_NO_ENTRY.
 *
 * Errors: the first fault of the blocks that it loads; `entry` is all zeros then.
 */
uint32_t sst_table_get(sst_handle *table, const uint8_t *key, size_t key_len, uint64_t seqno,
                       sst_entry *entry);

/* The metadata that a table claims. Sequence numbers are as stored, without the global one. */
typedef struct sst_facts {
  uint64_t id;
  uint64_t version; /* The format's: 3 or 4. */
  uint64_t global_seqno;
  uint64_t lowest_seqno;
  uint64_t highest_seqno;
  uint64_t item_count;
  uint64_t tombstone_count; /* Of either kind. */
  uint64_t weak_tombstone_count;
  uint64_t data_block_count;
  uint64_t index_block_count;
  uint64_t data_size; /* Size of the data blocks in bytes. */
} sst_facts;

/* Reports the metadata that a table claims. Bytes of another writer may have wrong metadata. */
uint32_t sst_table_facts(sst_handle *table, sst_facts *facts);

/* The memory of a table, in bytes. It counts once for all handles of the table and for what was
 * opened from them.
 */
typedef struct sst_memory {
  uint64_t file_len;           /* The file; the caller's memory after `sst_table_open_kept`. */
  uint64_t pinned_index_size;  /* Part of the file: the pinned index, or the top level of a
                                  partitioned one; 0 if none is pinned. */
  uint64_t pinned_filter_size; /* Part of the file: the pinned filter; 0 if none is pinned, and for
                                  a partitioned filter. */
  uint64_t marks_size;         /* Beside the file, the verified-block cache: 8 for each 2,048 bytes
                                  of the file and 8 more, or 0 if its allocation failed. */
} sst_memory;

/* Reports the memory of a table, without that of found entries and of the handles themselves. */
uint32_t sst_table_memory(sst_handle *table, sst_memory *memory);

/* Makes another handle of a table, in one that holds nothing. Both handles read the same bytes, and
 * no bytes are copied. Each has its own found entry, so one may go to another thread.
 */
uint32_t sst_table_share(sst_handle *table, sst_handle *other);

/* Many reads at once. */

/* Finds for each of several keys what `sst_table_get` finds. It stores the results in a handle that
 * holds nothing, until that is closed. The keys are one after another in `keys`. `key_lens` has the
 * length of each in bytes, and `keys_len` is their sum. The keys may be in any order and may
 * repeat. Several checksums of blocks are compared in one loop, which is faster than in single
 * reads. The answers hold one reference to the table, and none for each entry.
 *
 * `entries` receives what `sst_table_get` reports for each key, in the order of the keys. The rest
 * of `entries` stays as it was.
 *
 * Errors: SST_NO_SUCH if the lengths do not add up to `keys_len`. SST_NO_ROOM if `entry_room` is
 * below `key_count`. Else the error of the first key whose read fails. After an error `entries`
 * stays, and `answers` holds nothing.
 */
uint32_t sst_table_get_many(sst_handle *table, const uint8_t *keys, size_t keys_len,
                            const uint64_t *key_lens, size_t key_count, uint64_t seqno,
                            sst_entry *entries, size_t entry_room, sst_handle *answers);

/* Returns pointers to the entry found for the key at `index`, from 0 on, as `sst_found_lend` does.
 * They are valid until the answers are closed.
 *
 * Errors: SST_NO_SUCH if there is no key at `index`. SST_NOTHING if nothing was found for it.
 */
uint32_t sst_answers_lend(sst_handle *answers, uint64_t index, sst_lent *lent);

/* Copies the entry found for the key at `index`, from 0 on, as `sst_found_copy` does.
 *
 * Errors: SST_NO_SUCH if there is no key at `index`. SST_NOTHING if nothing was found for it.
 * SST_NO_ROOM if its key or its value is longer than the buffer. Nothing is copied then.
 */
uint32_t sst_answers_copy(sst_handle *answers, uint64_t index, uint8_t *key, size_t key_room,
                          uint8_t *value, size_t value_room);

/* Copies the entries found for the keys from index `first` on to the front of `bytes`, one after
 * another: key, value, key, value, and so on. It stops at the first that does not fit. `count` is
 * set to the number of keys that were done. A key without an entry counts, and takes no bytes. The
 * lengths are those in the `entries` of `sst_table_get_many`. If the first entry does not fit,
 * `count` may be 0: use `sst_answers_copy` or `sst_answers_lend` for it.
 *
 * Errors: SST_NO_SUCH if there are fewer than `first` keys.
 */
uint32_t sst_answers_take(sst_handle *answers, uint64_t first, uint8_t *bytes, size_t byte_room,
                          uint64_t *count);

/* Sections of a table. */
enum {
  SST_SECTION_DATA = 1,
  SST_SECTION_INDEX = 2,      /* The partitions of a partitioned index. */
  SST_SECTION_TLI = 3,        /* The top level of the index, or the whole of it. */
  SST_SECTION_FILTER = 4,     /* The full filter, or the partitions of a partitioned one. */
  SST_SECTION_FILTER_TLI = 5, /* The top level of a partitioned filter. */
  SST_SECTION_TABLE_VERSION = 6,
  SST_SECTION_META = 7
};

/* Faults of a block, and of a whole file. Only `sst_table_verify_with` reports the last one. */
enum {
  SST_FAULT_UNLOADED = 1,       /* It does not load. */
  SST_FAULT_HOLLOW = 2,         /* It is empty. */
  SST_FAULT_MISPLACED = 3,      /* It does not start where the one before it ends. */
  SST_FAULT_TOO_HIGH = 4,       /* An entry is stored with the largest seqno. */
  SST_FAULT_UNORDERED = 5,      /* An entry does not follow the one before it. */
  SST_FAULT_DENIED = 6,         /* A filter false negative for a key of the table. */
  SST_FAULT_UNFILTERED = 7,     /* A block of the filter does not load. */
  SST_FAULT_OTHER_KEY = 8,      /* It does not end with the key of its index entry. */
  SST_FAULT_OTHER_NUMBER = 9,   /* It does not end with the seqno of its index entry. */
  SST_FAULT_UNBORNE = 10,       /* The entries do not match an item of the meta block. */
  SST_FAULT_UNNAMED = 11,       /* A data block is not in the index. */
  SST_FAULT_OTHER_CHECKSUM = 12 /* The file has another checksum than the given one. */
};

/* The result of a verification: the two counts of a valid table, or the position of its fault. */
typedef struct sst_verified {
  uint64_t item_count;
  uint64_t data_block_count;
  uint64_t offset;  /* Of the block with the fault, in bytes; 0 for SST_FAULT_OTHER_CHECKSUM. */
  uint32_t section; /* One of the sections above. */
  uint32_t fault;   /* One of the faults above. */
  uint32_t detail;  /* SST_FAULT_UNLOADED, SST_FAULT_UNFILTERED: error code of the load. */
  uint32_t unused;
} sst_verified;

/* Reads all blocks of a table once, and verifies that its bytes store a list of entries in order,
 * whoever wrote them.
 *
 * Errors: SST_FAULTY if they do not: `verified` has the first fault and its position.
 * SST_OUT_OF_MEMORY does not mean that the table is invalid.
 *
 * Bytes that no read uses are not checked. These are the byte of the version section, and some
 * positions in the trailer: those of the version section, of the data blocks and of the partitions.
 * A file with damage only there may open and pass. `sst_table_verify_with` compares a checksum of
 * every byte.
 */
uint32_t sst_table_verify(sst_handle *table, sst_verified *verified);

/* Compares the checksum of the whole file, then verifies the table as `sst_table_verify` does.
 * `checksum` is the 64-bit FNV-1a hash of all bytes that the table was opened from, as in an
 * `sst_file`. It is no protection against deliberate changes.
 *
 * Errors: SST_FAULTY if the bytes have another checksum. `verified` then has
 * SST_FAULT_OTHER_CHECKSUM, in SST_SECTION_DATA at offset 0. This is found before a block is read
 * or memory is allocated. Otherwise the results and errors are those of `sst_table_verify`.
 */
uint32_t sst_table_verify_with(sst_handle *table, uint64_t checksum, sst_verified *verified);

/* Opens a verification by steps, into a handle that holds nothing. The caller can show its
 * progress, and stop it. This call reads nothing yet.
 */
uint32_t sst_verification_open(sst_handle *table, sst_handle *verification);

/* The progress of a verification. */
typedef struct sst_progress {
  uint64_t bytes_read; /* Bytes of data blocks read so far. */
  uint64_t data_size;  /* Bytes of data blocks that the table claims to have. */
  uint64_t at_end;     /* 1 if all was read and is valid, else 0. */
} sst_progress;

/* Reads the next block of the filter, of the index or of the data, and reports the progress:
 *
 *     sst_progress progress = {0};
 *     while (progress.at_end == 0 && code == 0) {
 *       code = sst_verification_step(&verification, &progress, &verified);
 *     }
 *
 * `verified` is all zeros before the end. At the end, the call returns and reports what
 * `sst_table_verify` does; a further step changes nothing.
 *
 * Errors: those of `sst_table_verify`. A failed step does not change the verification, so it may be
 * repeated. After SST_FAULTY it then reports the same fault again. A fault is found in the next
 * unread block, or at the end if all blocks were read.
 */
uint32_t sst_verification_step(sst_handle *verification, sst_progress *progress,
                               sst_verified *verified);

/* Ranges. */

/* Opens a range of the entries of a table whose keys are within two bounds, into a handle that
 * holds nothing. No block is loaded yet. The key of an SST_UNBOUNDED bound is ignored. If no key is
 * between the bounds, or the lower bound is above the upper one, the range is empty.
 *
 * To read the keys that begin with a prefix, pass the prefix as the lower bound, included. For the
 * upper bound, excluded, remove all bytes 255 from the end of the prefix, and raise its last byte
 * by 1. If no byte is left, pass no upper bound.
 *
 * Errors: SST_NO_SUCH if a bound's kind does not exist.
 */
uint32_t sst_range_open(sst_handle *table, uint32_t lower_kind, const uint8_t *lower,
                        size_t lower_len, uint32_t upper_kind, const uint8_t *upper,
                        size_t upper_len, sst_handle *range);

/* Takes the next entry of a range from the front, or from the back if `back` is set, and keeps it.
 * Keys ascend, and sequence numbers of one key descend. A range of a table yields every version, a
 * range of a list of runs one version of each key. At the end, the call returns 0 and the kind is
 * SST_NO_ENTRY.
 *
 * Errors: the first fault of the blocks that it loads. The range is at its end then, from both
 * sides.
 */
uint32_t sst_range_next(sst_handle *range, bool back, sst_entry *entry);

/* Takes the next entries as `sst_range_next` does, and copies them to the front of `bytes`, one
 * after another: key, value, key, value, and so on. `entries` receives what `sst_range_next`
 * reports of each, and `count` the number of copied entries. It stops
 *
 * - when `entry_room` entries are copied, and returns 0;
 * - at the end, and returns 0;
 * - at an error, and returns it: the entries before it are copied, and no further entry follows;
 * - at an entry that does not fit into the rest of `bytes`, and returns 0.
 *
 * An entry that does not fit is not lost. The handle has found it, so `sst_found_lend` and
 * `sst_found_copy` return it. `found` has its kind, sequence number and lengths, and the next call
 * continues after it.
 *
 * In the other cases the handle has found nothing, and `found` is all zeros. So the range is at its
 * end if the call returns 0, `count` is below `entry_room` and `found` is all zeros. The rest of
 * `entries` and of `bytes` stays as it was. `count` is 0 if the handle is closed or holds no range.
 */
uint32_t sst_range_take(sst_handle *range, bool back, sst_entry *entries, size_t entry_room,
                        uint8_t *bytes, size_t byte_room, uint64_t *count, sst_entry *found);

/* Scans. */

/* Opens a scan of all entries of a table, into a handle that holds nothing. It reads the data
 * blocks in file order, each once, as many as the table claims to have. It reads no index. If the
 * table stores a list of entries, as a table of a writer does, the scan yields all of them in
 * order. This call reads the first block.
 *
 * Errors: the first fault of that block; the handle stays as it is.
 */
uint32_t sst_scan_open(sst_handle *table, sst_handle *scan);

/* Takes the next entry of a scan, and keeps it. Keys ascend, and sequence numbers of one key
 * descend. A scan of a table yields every version, a scan of a list of runs one version of each
 * key. At the end, the call returns 0 and the kind is SST_NO_ENTRY.
 *
 * Errors: the first fault of the blocks that it loads. The scan is at its end then.
 */
uint32_t sst_scan_next(sst_handle *scan, sst_entry *entry);

/* Takes the next entries as `sst_scan_next` does, and copies them to the front of `bytes`, one
 * after another: key, value, key, value, and so on. It stops and reports as `sst_range_take` does.
 */
uint32_t sst_scan_take(sst_handle *scan, sst_entry *entries, size_t entry_room, uint8_t *bytes,
                       size_t byte_room, uint64_t *count, sst_entry *found);

/* Several tables as one. */

/* Opens an empty list of runs, into a handle that holds nothing. */
uint32_t sst_runs_open(sst_handle *runs);

/* Adds a table to a list of runs, as a run of its own after those that are there. Add the newest
 * table first. The list has a share of the table. `sst_runs_pack` puts tables that do not overlap
 * into one run.
 *
 * Errors: SST_OUT_OF_ORDER if the table claims a least key above its greatest, as only damaged
 * bytes do. The runs stay as they are then.
 */
uint32_t sst_runs_add(sst_handle *runs, sst_handle *table);

/* Finds the newest version of a key in all tables of a list of runs together, among those whose
 * sequence number is below `seqno`, and keeps it. Results and errors are those of `sst_table_get`.
 */
uint32_t sst_runs_get(sst_handle *runs, const uint8_t *key, size_t key_len, uint64_t seqno,
                      sst_entry *entry);

/* Opens a range of all tables of a list of runs together, within two bounds, into a handle that
 * holds nothing. For each key the range has the newest version whose sequence number is below
 * `seqno`, deletions too. No block is loaded yet. `sst_range_next` takes the entries, from both
 * ends. The range has shares of the tables: it does not include tables that are added to the list
 * later. Bounds and errors are those of `sst_range_open`.
 */
uint32_t sst_runs_range_open(sst_handle *runs, uint32_t lower_kind, const uint8_t *lower,
                             size_t lower_len, uint32_t upper_kind, const uint8_t *upper,
                             size_t upper_len, uint64_t seqno, sst_handle *range);

/* Opens a scan that yields the same entries as `sst_runs_range_open`, from the front only, into a
 * handle that holds nothing. `sst_scan_next` takes them. The scan borrows each entry from the
 * memory of its table, but a range holds a counted reference to it. So threads that scan the same
 * tables change no common counter for each entry, and a scan is faster than a range. Bounds and
 * errors are those of `sst_range_open`.
 */
uint32_t sst_runs_scan_open(sst_handle *runs, uint32_t lower_kind, const uint8_t *lower,
                            size_t lower_len, uint32_t upper_kind, const uint8_t *upper,
                            size_t upper_len, uint64_t seqno, sst_handle *scan);

/* Packing puts the tables of a list into as few runs as possible. Tables that overlap stay in their
 * order. Each table goes into the run after the last one that has a table overlapping it. If there
 * is none, it goes into the first run.
 */

/* Makes a list of the packed runs, in a handle that holds nothing. The new list has shares of the
 * tables; the first list stays as it is. If each table stores a list of entries, reads of both
 * lists find the same. The packed list never has more runs than the first.
 */
uint32_t sst_runs_pack(sst_handle *runs, sst_handle *packed);

/* Finds the runs that packing makes, and a chain of tables that shows why there cannot be fewer. It
 * stores the result in a handle that holds nothing, for the calls below. These report a table as
 * its index in the list, from 0 on, in the order in which the tables were added. In a list of
 * packed runs, tables are counted run by run.
 */
uint32_t sst_packing_open(sst_handle *runs, sst_handle *packing);

/* Reports the number of runs that packing makes. */
uint32_t sst_packing_count(sst_handle *packing, uint64_t *runs);

/* Reports the number of tables of a run.
 *
 * Errors: SST_NO_SUCH if there is no such run.
 */
uint32_t sst_packing_run(sst_handle *packing, uint64_t run, uint64_t *tables);

/* Reports which table is at index `place` of a run. The tables of a run are in key order.
 *
 * Errors: SST_NO_SUCH if there is no table at that index.
 */
uint32_t sst_packing_table(sst_handle *packing, uint64_t run, uint64_t place, uint64_t *table);

/* Reports which table is at index `place` of a chain. The chain has one table for each run. Each
 * table overlaps the next one, which is older, so there cannot be fewer runs.
 *
 * Errors: SST_NO_SUCH if there is no table at that index.
 */
uint32_t sst_packing_chain(sst_handle *packing, uint64_t place, uint64_t *table);

/* Writing a table. */

/* The options of a writer. */
typedef struct sst_options {
  uint64_t id;
  uint64_t created_at; /* In nanoseconds since 1970. */
  uint32_t level;      /* At most 255. */
  uint32_t data_block_size;             /* In bytes of keys and values, at most 4 MiB. */
  uint32_t data_block_restart_interval; /* 1 to 255. Only stored in the meta block. */
  uint32_t data_block_hash_ratio;       /* Only stored in the meta block. */
  uint32_t index_partition_size;        /* In bytes, at most 4 MiB; 0 for one block. */
  uint32_t filter_partition_size;       /* In bytes, at most 4 MiB; 0 for one block. */
  uint32_t filter_bits_per_key;         /* In tenths of a bit; 0 for no filter. */
  uint32_t unused;
} sst_options;

/* Fills in the defaults: blocks of 4,096 bytes, an index and a filter of one block each, and ten
 * bits a key. The id, the timestamp and the level are 0, the restart interval is 16, the hash ratio
 * 0. The last two are only stored in the meta block.
 */
void sst_options_default(sst_options *options);

/* Opens a writer of a table, into a handle that holds nothing. Options without a stated range may
 * have any value.
 *
 * Errors: SST_NO_SUCH if an option is out of range. `level` is at most 255, and
 * `data_block_restart_interval` at least 1 and at most 255. `data_block_size`,
 * `index_partition_size` and `filter_partition_size` are at most 4,194,304 each.
 */
uint32_t sst_writer_open(const sst_options *options, sst_handle *writer);

/* Writes an entry and copies its key and value. Keys ascend, and sequence numbers of one key
 * descend. An entry of any kind may have a value.
 *
 * These errors leave the writer as it is:
 *
 * - SST_OUT_OF_ORDER if the entry does not follow the one before it, or if its sequence number is
 *   UINT64_MAX;
 * - SST_NO_SUCH if `kind` does not exist.
 *
 * After these errors the writer has failed. The first that applies is returned:
 *
 * - SST_KEY_TOO_LONG if the key has more than 1,048,576 bytes;
 * - SST_VALUE_TOO_LONG if the value has 2^32 bytes or more;
 * - SST_BLOCK_TOO_LARGE if the current data block would have 2^32 bytes or more;
 * - SST_OUT_OF_MEMORY.
 *
 * A data block has 28 bytes, and for each entry 17 plus the lengths of its key and value.
 *
 * A failed writer returns SST_WRITER_FAILED for each further entry, unless SST_OUT_OF_ORDER or
 * SST_NO_SUCH applies. A fault of the entry is found before any memory is allocated.
 */
uint32_t sst_writer_add(sst_handle *writer, const uint8_t *key, size_t key_len, uint64_t seqno,
                        uint32_t kind, const uint8_t *value, size_t value_len);

/* Writes entries as `sst_writer_add` does, one after another, up to the first that fails, and
 * returns its error. `count` is set to the number of entries that were written. Each `sst_entry`
 * has the kind, the sequence number and the lengths of one entry. The keys and values are one after
 * another in `bytes`: key, value, key, value, and so on.
 *
 * Errors: those of `sst_writer_add`. If the lengths do not add up to `byte_len`, the call returns
 * SST_NO_SUCH and writes nothing.
 */
uint32_t sst_writer_add_many(sst_handle *writer, const sst_entry *entries, size_t entry_count,
                             const uint8_t *bytes, size_t byte_len, uint64_t *count);

/* Finishes the table. The handle then holds the finished table in place of the writer, or no table
 * if nothing was written.
 *
 * Errors:
 *
 * - SST_WRITER_FAILED if the writer has failed, as `sst_writer_add` describes. This is found before
 *   any memory is allocated;
 * - SST_BLOCK_TOO_LARGE or SST_SECTION_TOO_LARGE if the index or the filter is too large, as
 *   docs/FORMAT.md describes.
 *
 * A writer that has not failed, and to which nothing was written, has no error. After one of these
 * errors, or out of memory, what was written is dropped: the handle then holds no table, and no
 * writer either.
 */
uint32_t sst_writer_finish(sst_handle *writer);

/* Writing several tables, one after another. */

/* Opens a writer that starts a new table when the current one is full, into a handle that holds
 * nothing. A new table starts at the next key once the data blocks of the current one have
 * `target_size` bytes. With UINT64_MAX there is one table, with 0 each key has a table of its own.
 * No key is in two tables.
 *
 * The tables are written with `options`. The first one has the id `options->id`, or the id after it
 * if `target_size` is 0. Each further table has the next id. `options->id` counts as used even if
 * no table is written.
 *
 * Errors: SST_NO_SUCH if an option is out of range, as for `sst_writer_open`.
 */
uint32_t sst_multi_writer_open(const sst_options *options, uint64_t target_size,
                               sst_handle *writer);

/* Writes an entry as `sst_writer_add` does. If the next table is due, the call first finishes the
 * current one and uses the id of the next.
 *
 * SST_OUT_OF_ORDER and SST_NO_SUCH leave the writer as it is, as for `sst_writer_add`. After these
 * errors the writer has failed:
 *
 * - SST_TABLE_IDS_SPENT if a table is due and no id is left;
 * - the errors of `sst_writer_finish` for the current table, if a table is due;
 * - the errors of `sst_writer_add`.
 *
 * The entries of the unfinished table are lost then. The finished tables can still be taken by
 * `sst_multi_writer_take`. A failed writer returns SST_WRITER_FAILED for each further entry, unless
 * SST_NO_SUCH applies or the sequence number is UINT64_MAX.
 */
uint32_t sst_multi_writer_add(sst_handle *writer, const uint8_t *key, size_t key_len,
                              uint64_t seqno, uint32_t kind, const uint8_t *value,
                              size_t value_len);

/* Stores the oldest finished table that was not taken in `files`, a handle that holds nothing.
 * `next_id` is set to the first unused id, or to 0 if none is left. The table that is being written
 * has used its id. Tables can be taken between any two calls, also after an error of
 * `sst_multi_writer_add`. The taken tables, followed by those of `sst_multi_writer_finish`, are the
 * tables of a writer from which none is taken.
 *
 * Errors: SST_NOTHING if every finished table was taken. No error loses a table.
 */
uint32_t sst_multi_writer_take(sst_handle *writer, sst_handle *files, uint64_t *next_id);

/* Finishes the current table, and stores all tables that were not taken in `files`, a handle that
 * holds nothing. There are none if nothing was written. `next_id` is set to the first unused id, or
 * to 0 if none is left. The handle of the writer then holds no writer.
 *
 * Errors:
 *
 * - SST_WRITER_FAILED if the writer has failed;
 * - SST_BLOCK_TOO_LARGE or SST_SECTION_TOO_LARGE, as for `sst_writer_finish`.
 *
 * After one of these errors, or out of memory, the handle of the writer holds no writer either. The
 * tables that were not taken are lost: take them first. `files` then holds nothing, and `next_id`
 * stays.
 */
uint32_t sst_multi_writer_finish(sst_handle *writer, sst_handle *files, uint64_t *next_id);

/* Compaction. */

/* Merges all entries of a list of runs into new tables, and drops those that no reader needs. It
 * stores the finished tables in a handle that holds nothing; there are none if no entry is kept.
 * The list and its tables stay.
 *
 * `watermark` is the oldest snapshot that is still read. For each key, the call keeps the versions
 * with sequence numbers of at least `watermark`, and the newest version below it. It drops all
 * older versions. If the oldest version that is left is a deletion, it may be dropped, too:
 *
 * - A weak tombstone is dropped if the next older version was dropped, and is an SST_VALUE.
 * - If `evict_tombstones` is set, an SST_TOMBSTONE is dropped, and so is a weak tombstone if the
 *   list has no older version of its key.
 *
 * All other deletions are kept. With `watermark` 0 and no eviction, all entries are kept.
 *
 * Set `evict_tombstones` only if no table outside the list is older. If `zero_seqnos` is set,
 * sequence numbers below the watermark become 0.
 *
 * A new table starts at the next key once the data blocks of the current one have `target_size`
 * bytes. With UINT64_MAX there is one table, with 0 each key has a table of its own. The tables are
 * written with `options`. The first table has the id `options->id`, or the id after it if
 * `target_size` is 0. Each further table has the next id. `next_id` is set to the first unused id,
 * or to 0 if none is left. `options->id` counts as used even if no table is written.
 *
 * Errors:
 *
 * - SST_NO_SUCH if an option is out of range, as for `sst_writer_open`;
 * - SST_OUT_OF_ORDER if an entry does not follow the one before it, or has the sequence number
 *   UINT64_MAX;
 * - the first fault of the blocks, and the errors of a writer;
 * - SST_TABLE_IDS_SPENT if no id is left.
 *
 * SST_OUT_OF_ORDER has one of three causes. A table is not as a writer makes it, two tables have
 * the same key with the same sequence number, or a global sequence number raises an entry to
 * UINT64_MAX. After an error `files` holds nothing, and `next_id` stays.
 */
uint32_t sst_compact(sst_handle *runs, const sst_options *options, uint64_t watermark,
                     bool evict_tombstones, bool zero_seqnos, uint64_t target_size,
                     sst_handle *files, uint64_t *next_id);

/* Opens a compaction that hands out each new table as soon as it is finished, into a handle that
 * holds nothing. The arguments and the new tables are those of `sst_compact`. The call loads the
 * first data block of each run, and writes nothing. The compaction has a share of the tables: the
 * list may then change or be closed, and so may its tables.
 *
 * Errors:
 *
 * - SST_NO_SUCH if an option is out of range, as for `sst_writer_open`;
 * - the fault of the first run whose first data block cannot be loaded.
 */
uint32_t sst_compaction_open(sst_handle *runs, const sst_options *options, uint64_t watermark,
                             bool evict_tombstones, bool zero_seqnos, uint64_t target_size,
                             sst_handle *compaction);

/* Stores the next finished table of a compaction in `files`, a handle that holds nothing. `next_id`
 * is set to the first unused id, or to 0 if none is left. The table that is being written has used
 * its id. If the compaction makes no table, the first unused id is the one after `options->id`.
 *
 * Between two calls the compaction has a block or two of each run in memory, and the table that is
 * being written. To stop it, close its handle: the tables that were handed out stay.
 *
 * Errors:
 *
 * - SST_NOTHING after the last table;
 * - SST_OUT_OF_ORDER, the first fault of the blocks, the errors of a writer, and
 *   SST_TABLE_IDS_SPENT, as for `sst_compact`. Each table that was finished before the error is
 *   handed out first.
 *
 * After an error `files` holds nothing, and `next_id` stays. After SST_NOTHING, the errors of the
 * second row and SST_OUT_OF_MEMORY, the compaction has ended: each further call returns
 * SST_NOTHING. Out of memory can also lose the table that was just finished.
 */
uint32_t sst_compaction_next(sst_handle *compaction, sst_handle *files, uint64_t *next_id);

/* Finished tables, by index from 0 on. */

typedef struct sst_file {
  uint64_t id;
  uint64_t checksum; /* 64-bit FNV-1a hash of all bytes, for `sst_table_verify_with`. */
  uint64_t len;
} sst_file;

/* Reports the number of finished tables. A writer that is not finished, or that wrote nothing, has
 * none. A writer finishes one table, a writer of several tables and a compaction any number.
 */
uint32_t sst_files_count(sst_handle *files, uint64_t *count);

/* Reports the id, the checksum and the length of a finished table in bytes. `index` is from 0 on.
 *
 * Errors: SST_NO_SUCH if there is no finished table at `index`. A writer that is not finished has
 * none.
 */
uint32_t sst_files_tell(sst_handle *files, uint64_t index, sst_file *file);

/* Copies a finished table's bytes from `offset` on, as many as fit into `room`. `count` is set to
 * the number of bytes copied, 0 at the end of the table.
 *
 * Errors: SST_NO_SUCH if there is no finished table at `index`, or if `offset` is past its end.
 */
uint32_t sst_files_copy(sst_handle *files, uint64_t index, uint64_t offset, uint8_t *room,
                        size_t room_len, uint64_t *count);

/* Copies the sentence of `sst_strerror` for an error code, as many bytes as fit, without a
 * terminating zero. It returns the length of the sentence in bytes.
 */
uint64_t sst_strerror_copy(uint32_t code, uint8_t *room, size_t room_len);

/* Returns a sentence for an error code. The string is static. */
static inline const char *sst_strerror(uint32_t code) {
  static const char *const library[] = {
      "done", "out of memory", "a block reaches past the sections", "invalid block header",
      "a block of another kind", "checksum mismatch", "invalid block payload", "key too long",
      "value too long", "block too large", "section too large", "invalid trailer",
      "missing section", "missing meta item", "invalid meta value", "unsupported table version",
      "unsupported hash type", "unsupported checksum type", "unsupported index restart interval",
      "unsupported compression", "global sequence number too large", "sequence number overflow",
      "table ids spent", "the writer has failed", "source error"};
  static const char *const own[] = {
      "the handle is closed", "the handle is open", "the handle holds another kind",
      "the room is too small", "an entry is out of order", "there is no such number",
      "nothing was found", "the table is not sound"};
  if (code < sizeof library / sizeof *library) return library[code];
  if (code >= 100 && code - 100 < sizeof own / sizeof *own) return own[code - 100];
  return "unknown refusal";
}

#ifdef __cplusplus
}
#endif

#endif
