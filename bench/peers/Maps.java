// Maps CONTAINER LOOKS THREADS: as maps.cc, over maps of java.util.concurrent, and over maps under a lock. The whole work is made
// six times, and the least of the last three is told, since the compiler comes to it while it runs.
import java.util.HashMap;
import java.util.Map;
import java.util.TreeMap;
import java.util.concurrent.ConcurrentHashMap;
import java.util.concurrent.ConcurrentSkipListMap;
import java.util.concurrent.locks.ReentrantReadWriteLock;

public class Maps {
    static final int KEYS = 65536, EACH = 60000, RUNS = 16, TIMES = 6;
    static final ReentrantReadWriteLock lock = new ReentrantReadWriteLock();
    static String kind;
    static boolean moves, locks;
    static int looks, threads;
    static Map<Long, Long> first, second;
    static volatile long sink;

    static Map<Long, Long> made() {
        switch (kind) {
            case "concurrent_hash": return new ConcurrentHashMap<>(KEYS);
            case "concurrent_skip": return new ConcurrentSkipListMap<>();
            case "locked_tree": return new TreeMap<>();
            case "locked_hash": return new HashMap<>(2 * KEYS);
            default: throw new IllegalArgumentException(kind);
        }
    }

    static Long get(long key) {
        if (!locks) return first.get(key);
        lock.readLock().lock();
        try {
            return first.get(key);
        } finally {
            lock.readLock().unlock();
        }
    }

    static Long change(long key, boolean puts) {
        return puts ? first.put(key, key) : first.remove(key);
    }

    static Long move(long key) {
        Long value = first.remove(key);
        if (value != null) second.put(key, value);
        else {
            value = second.remove(key);
            if (value != null) first.put(key, value);
        }
        return null;
    }

    static Long write(long key, boolean puts) {
        if (!locks) return moves ? move(key) : change(key, puts);
        lock.writeLock().lock();
        try {
            return moves ? move(key) : change(key, puts);
        } finally {
            lock.writeLock().unlock();
        }
    }

    static long makeAll(long seed) {
        long sum = 0;
        for (int n = 0; n < EACH; n++) {
            seed = seed * 6364136223846793005L + 1442695040888963407L;
            int drawn = (int) ((seed >>> 33) % (200L * KEYS)), chance = drawn / KEYS;
            long key = drawn % KEYS;
            Long had = !moves && chance / 2 < looks ? get(key) : write(key, chance % 2 == 0);
            if (had != null) sum += had;
        }
        return sum;
    }

    static double measured() throws InterruptedException {
        long nanos = 0;
        for (int run = 0; run < RUNS / threads; run++) {
            Thread[] them = new Thread[threads];
            long[] begun = new long[threads], ended = new long[threads];
            for (int it = 0; it < threads; it++) {
                final int me = it;
                final long seed = run * 64L + it;
                them[it] = new Thread(() -> {
                    begun[me] = System.nanoTime();
                    sink = makeAll(seed);
                    ended[me] = System.nanoTime();
                });
                them[it].start();
            }
            long from = Long.MAX_VALUE, to = Long.MIN_VALUE;
            for (int it = 0; it < threads; it++) {
                them[it].join();
                from = Math.min(from, begun[it]);
                to = Math.max(to, ended[it]);
            }
            nanos += to - from;
        }
        return nanos / ((double) (RUNS / threads) * threads * EACH);
    }

    public static void main(String[] words) throws InterruptedException {
        kind = words[0];
        moves = words[1].equals("move");
        looks = moves ? 0 : Integer.parseInt(words[1]);
        threads = Integer.parseInt(words[2]);
        locks = kind.startsWith("locked");
        first = made();
        second = made();
        for (int n = 0; n < KEYS / 2; n++) {
            long key = (long) n * 12347 % (KEYS / 2) * 2;
            first.put(key, key);
        }
        double least = Double.MAX_VALUE;
        for (int time = 0; time < TIMES; time++) {
            double took = measured();
            if (time >= TIMES / 2) least = Math.min(least, took);
        }
        System.out.printf("%.1f%n", least);
        System.exit(0);
    }
}
