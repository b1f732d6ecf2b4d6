/* Ngalovuki for hosts in C and C++: what a reader sees and which commit stands, in a multi-version key-value store.
 *
 * The functions are those of crates/host, each proved to meet the contract beside it there; this page says the same in words. Link libhost.a, which
 * `rt staticlib host` writes; it needs nothing but memcpy, memmove and memset of the C library.
 *
 * What a host lends
 * -----------------
 * The store lies in one buffer, the state. A call reads and writes only what it is lent, keeps nothing of it, and allocates nothing. Each buffer is a
 * pointer and a length; lengths of `uint64_t` buffers count numbers, the others bytes. What the caller owes of them is what C owes any buffer:
 *   - no pointer is null, not even where the length is 0, and `uint64_t` pointers are aligned for it;
 *   - a buffer without `const` overlaps no other buffer of the call; while the call runs, no other thread uses it, and none writes the others.
 * Everything else is checked: any content of any buffer, any length and any number gives one of the answers below.
 *
 * What a call gives back
 * ----------------------
 * It returns one of the numbers below. On a refusal, any number but 0, no lent buffer is changed, but for two cases: 6 marks its transaction closed in
 * the state, and 10 and 11 tell the run's place in `reply`. The values of a reply stand in front of `reply`, as many as it has room for; what stands
 * behind them stays. Three numbers are room enough for every call. */
#ifndef NGALOVUKI_H
#define NGALOVUKI_H

#include <stddef.h>
#include <stdint.h>

#ifdef __cplusplus
extern "C" {
#endif

/* ---- the numbers returned, each given exactly when; 8 and 13 of the scope document's table are given by no function here */
#define NGALOVUKI_DONE 0            /* done */
#define NGALOVUKI_EMPTY_KEY 1       /* the key is empty (get, put, delete) */
#define NGALOVUKI_TOO_LONG 2        /* the key or the value is longer than 65,535 bytes (get, put, delete) */
#define NGALOVUKI_NO_HANDLE 3       /* the handle is not of a transaction begun and not ended */
#define NGALOVUKI_CLOSED 4          /* the transaction was closed, by an accepted commit or by a conflict */
#define NGALOVUKI_NO_ROOM 5         /* no room: said with each call; the transaction stays open and may try again */
#define NGALOVUKI_CONFLICT 6        /* a commit above the transaction's read number wrote a key whose hash it has read; it is closed now */
#define NGALOVUKI_COUNTER_FULL 7    /* at 2^64-1 stands the clock (commit with writes), or the last handle or the number of readers (begin) */
#define NGALOVUKI_UNSOUND 9         /* the state breaks a state rule (every call but an opening) */
#define NGALOVUKI_BAD_RUN 10        /* an opening run is cut, overlong, unsorted, or has an empty key or a wrong mark */
#define NGALOVUKI_FOREIGN_RUN 11    /* an opening run has the right mark and another version than 1 */
#define NGALOVUKI_BAD_SETTING 12    /* an opening setting is outside its range */

/* ---- the kinds of a scan's bounds; any other number is unbounded too */
#define NGALOVUKI_INCLUDED 0
#define NGALOVUKI_EXCLUDED 1
#define NGALOVUKI_UNBOUNDED 2

/* How many bytes the state of a store with these settings has; 0 where one is outside its range:
 *   serializable   0 or 1: whether commits are checked for conflicts
 *   transactions   1 to 64, how many may be begun and not ended at a time
 *   overlay        64 to 1,048,576 bytes of own writes for each transaction: 4 and those of key and value for each
 *   reads          1 to 65,536 hashes of keys read, for each transaction
 *   writes         1 to 4,096 hashes of keys written, for each transaction
 *   entries        1 to 4,096 commits in the history
 *   hashes         1 to 65,536 hashes in the history
 *   active         64 to 1,048,576 bytes of the active run: 12 and those of key and value for each version
 *   area           9 to 16,777,216 bytes of opening and frozen runs, as whole images */
uint64_t ngalovuki_state_length(uint64_t serializable, uint64_t transactions, uint64_t overlay, uint64_t reads, uint64_t writes, uint64_t entries,
                                uint64_t hashes, uint64_t active, uint64_t area);

/* Opens a store, over anything that the state holds. The run images lie one after the other in `images`, in run order, the newest first; `lengths` has
 * the bytes of each. An image that ends past `images` counts as cut, and what follows the last one is not looked at.
 * Numbers, in this order: 12; 10 or 11 of the first bad run; 5, more than 16 runs or more bytes than `area`, or a state shorter than its length.
 * Reply: with 10 and 11 the run's place, from 1; else no values.
 * State: the opened store; bytes that it does not use keep what they had. */
uint64_t ngalovuki_open(uint8_t *state, size_t state_len, uint64_t serializable, uint64_t transactions, uint64_t overlay, uint64_t reads,
                        uint64_t writes, uint64_t entries, uint64_t hashes, uint64_t active, uint64_t area, const uint8_t *images,
                        size_t images_len, const uint64_t *lengths, size_t lengths_len, uint64_t *reply, size_t reply_len);

/* 1 where the state keeps every state rule, so that no call on it returns 9; else 0. */
uint64_t ngalovuki_sound(const uint8_t *state, size_t state_len);

/* Begins a transaction. It reads what is committed now, until it is ended.
 * Numbers, in this order: 9; 5, no place for another transaction; 7.
 * Reply: its handle, 1 for the first after an opening; its read number. */
uint64_t ngalovuki_begin(uint8_t *state, size_t state_len, uint64_t *reply, size_t reply_len);

/* The value of a key: the transaction's own last write of it, else what was committed at its read number.
 * Numbers, in this order: 9; 3; 4; 1; 2; 5, the read set full, or `out` shorter than the value.
 * Reply: 1 and the value's length; or 0, the key is absent.
 * Out: the value's bytes in front, the others as they were; on an absent key and a refusal as it was. */
uint64_t ngalovuki_get(uint8_t *state, size_t state_len, uint64_t handle, const uint8_t *key, size_t key_len, uint8_t *out, size_t out_len,
                       uint64_t *reply, size_t reply_len);

/* The first present key within the bounds, with its value. `low` and `high` are kinds of bounds, `lo` and `hi` their keys, of any length, and not looked
 * at where unbounded. The next answer comes from the same upper bound and the key handed out as an excluded lower bound.
 * Numbers, in this order: 9; 3; 4; 5, the read set full, or an out buffer shorter than its answer.
 * Reply: 1, the key's length and the value's length; or 0, the end.
 * Out buffers: the key's bytes and the value's in front, the others as they were; at the end and on a refusal as they were. */
uint64_t ngalovuki_scan(uint8_t *state, size_t state_len, uint64_t handle, uint64_t low, const uint8_t *lo, size_t lo_len, uint64_t high,
                        const uint8_t *hi, size_t hi_len, uint8_t *key_out, size_t key_out_len, uint8_t *value_out, size_t value_out_len,
                        uint64_t *reply, size_t reply_len);

/* Writes a value at a key, for the transaction alone until it is committed. An empty value deletes the key.
 * Numbers, in this order: 9; 3; 4; 1; 2; 5, the overlay or the write set full. */
uint64_t ngalovuki_put(uint8_t *state, size_t state_len, uint64_t handle, const uint8_t *key, size_t key_len, const uint8_t *value,
                       size_t value_len);

/* Deletes a key, as a put of an empty value. */
uint64_t ngalovuki_delete(uint8_t *state, size_t state_len, uint64_t handle, const uint8_t *key, size_t key_len);

/* Commits a transaction, and closes it: its writes become versions under the next number of the clock.
 * Numbers, in this order: 9; 3; 4; 6; 7; 5, the history or the active run full.
 * Reply: 1 and the commit's number; or 0, it had no writes. */
uint64_t ngalovuki_commit(uint8_t *state, size_t state_len, uint64_t handle, uint64_t *reply, size_t reply_len);

/* Ends a transaction, open or closed; writes not committed are dropped, and its room is free again.
 * Numbers, in this order: 9; 3. */
uint64_t ngalovuki_end(uint8_t *state, size_t state_len, uint64_t handle);

/* Freezes the active run: it becomes an image in the run area, and the active run is empty. An empty one stays as it is.
 * Numbers, in this order: 9; 5, a 17th run, or the run area too small. */
uint64_t ngalovuki_freeze(uint8_t *state, size_t state_len);

#ifdef __cplusplus
}
#endif

#endif
