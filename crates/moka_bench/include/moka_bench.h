/* Drives a cache of the engine through a whole stream of operations, and counts what it answers.

   The cache is made inside and given up again: no handle crosses the border, no state is kept between calls, and all
   that crosses are bytes. A stream's timed part is the difference of two calls: its set-up alone, and both parts.

   Words have 64 bits, the least byte first. Keys and values are numbers of 64 bits.

   config: 16 words.
     0  capacity            2^64-1: none
     1  time to live        in nanoseconds; 2^64-1: none
     2  time to idle        in nanoseconds; 2^64-1: none
     3  policy              0: TinyLFU, 1: LRU
     4  expiry              0: none, 1: an entry expires so many nanoseconds after its creation as its value says
     5  automatic runs      1: a run of maintenance is made before a get's read is queued and before a send, if 64 reads or
                            operations are queued or 300 milliseconds have passed since the last such run; else: none
     6  initial capacity    for how many entries room is made at once
     7  hasher              0: one folded multiplication, 1: SipHash-1-3
     8  texts               0: keys and values are numbers; n: they are n texts each, "key-%012d" and "value-%010d", made
                            before the first operation, of which a number k tells the one at k modulo n; what is put
                            under a key is its own value, and what is found counts as its last byte
     9  step                how far the clock goes on before each operation, in nanoseconds
     10 cache               0: the engine, whose operations the driver sends, 1: the synchronous cache, whose runs have a
                            batch of 384 whatever the stream says
     11 listener            0: none, 1: one that counts
     12 weigher             0: none, 1: an entry weighs 1 more than its value modulo 16
     13 to 15               not read

   Of expiry, texts, synchronous cache, listener and weigher one at most is served.

   stream: phases, one after the other; each has a header of 4 words (operation, number of words n, argument, any) and n
   words. The clock begins at 0. A put of k inserts k + 1, modulo 2^64, under k, and sends the operation; if the queue is
   full, a run is made and the operation sent again. A run has no limit, 4 repeats and a batch of 384.
     1  get                 words: keys
     2  put                 words: keys
     3  read through        words: keys; a get, and a put at the same moment if nothing was found
     4  put values          words: pairs of a key and a value
     5  run                 no words; argument: the batch
     6  tick                no words; argument: how far the clock goes on, in nanoseconds
     7  gets and runs       words: keys, argument g: gets, with a run after each g of them and one at the end
     8  puts and runs       words: keys, argument g: puts, with a run after each g of them and one at the end; no run is
                            made by the driver but if the queue is full

   counts: 8 words: hits, misses, inserts, the sum of the values that were found modulo 2^64, the entry count of the last
   run, of how many removals a listener was notified, 0, 0. They are written if the answer is 0.

   The answer: 0; 1 if the configuration is not served, or config or counts have another length; 2 if memory was
   refused; 3 if the stream is malformed: an operation that is not listed, or a phase that is cut short. */

#ifndef MOKA_BENCH_H
#define MOKA_BENCH_H

#include <stddef.h>
#include <stdint.h>

uint64_t moka_bench_run(const uint8_t *config, size_t config_len,
                        const uint8_t *stream, size_t stream_len,
                        uint8_t *counts, size_t counts_len);

#endif
