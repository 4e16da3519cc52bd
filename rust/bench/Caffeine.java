// Times Caffeine under one workload, as src/main.rs times the others: `Caffeine THREADS WORKLOAD CALLS`. It plays the
// workload often enough beforehand that Java has compiled it.

import com.github.benmanes.caffeine.cache.Cache;
import java.lang.management.ManagementFactory;
import java.lang.management.ThreadMXBean;
import java.util.concurrent.CountDownLatch;
import java.util.concurrent.atomic.AtomicLong;

public final class Caffeine {
  static final long KEYS = 10_000;
  static final ThreadMXBean THREADS = ManagementFactory.getThreadMXBean();

  static final class Random {
    long state;

    Random(long seed) {
      state = seed;
    }

    long key(boolean isSkewed) {
      state = state * 6364136223846793005L + 1442695040888963407L;
      long fraction = state >>> 32;
      if (!isSkewed) {
        return (fraction * KEYS) >>> 32;
      }
      long square = (fraction * fraction) >>> 32;
      long fourth = (square * square) >>> 32;
      return (fourth * KEYS) >>> 32;
    }
  }

  static long play(Cache<Long, Long> cache, boolean isHits, long seed, long calls) {
    Random random = new Random(seed);
    long sum = 0;
    for (long i = 0; i < calls; i++) {
      Long key = random.key(!isHits);
      Long value = cache.getIfPresent(key);
      if (value != null) {
        sum += value;
      } else if (!isHits) {
        cache.put(key, key);
      }
    }
    return sum;
  }

  static String timed(Cache<Long, Long> cache, boolean isHits, int threads, long calls) throws Exception {
    AtomicLong processor = new AtomicLong(), sum = new AtomicLong();
    CountDownLatch start = new CountDownLatch(1);
    Thread[] workers = new Thread[threads];
    for (int i = 0; i < threads; i++) {
      long seed = i + 1;
      workers[i] = new Thread(() -> {
        try {
          start.await();
        } catch (InterruptedException ended) {
          return;
        }
        long before = THREADS.getCurrentThreadCpuTime();
        sum.addAndGet(play(cache, isHits, seed, calls));
        processor.addAndGet(THREADS.getCurrentThreadCpuTime() - before);
      });
      workers[i].start();
    }
    long begun = System.nanoTime();
    start.countDown();
    for (Thread worker : workers) {
      worker.join();
    }
    double all = (double) calls * threads;
    return String.format("%.1f %.1f", (System.nanoTime() - begun) / all, processor.get() / all);
  }

  public static void main(String[] arguments) throws Exception {
    int threads = Integer.parseInt(arguments[0]);
    boolean isHits = arguments[1].equals("hits");
    long calls = Long.parseLong(arguments[2]);
    Cache<Long, Long> cache = com.github.benmanes.caffeine.cache.Caffeine.newBuilder()
        .maximumSize(isHits ? 4 * KEYS : KEYS / 4).build();
    for (long key = 0; key < KEYS; key++) {
      cache.put(key, key);
    }
    for (int round = 0; round < 5; round++) {
      timed(cache, isHits, 1, calls / 2);
    }
    System.out.println(timed(cache, isHits, threads, calls));
  }
}
