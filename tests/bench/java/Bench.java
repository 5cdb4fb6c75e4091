import java.io.BufferedInputStream;
import java.io.DataInputStream;
import java.io.IOException;
import java.util.Arrays;
import java.util.Map;
import java.util.concurrent.ConcurrentSkipListMap;
import java.util.function.LongSupplier;

/** ConcurrentSkipListMap with a list of versions, on the plan of standard input. Prints nanoseconds a call and the sum of answers. */
final class Bench {
    private static final int TOO_OLD = 0, VERSIONS_FULL = 1, ADDED = 2, KEYS_FULL = 3, NEW = 4, FOUND = 5, NONE = 6, SWEPT = 7;
    private static final int PUT = 1, SCAN = 3, WARM_UP = 200, ROUNDS = 301;

    private record Version(int value, int timestamp, Version prev) {}

    private record Call(int kind, long key, int value, int timestamp) {}

    private final int keys, versions;
    private ConcurrentSkipListMap<Long, Version> map;
    /** Counted here: the map's own size() walks it. */
    private int made, held;
    private long answers;

    private Bench(int keys, int versions) {
        this.keys = keys;
        this.versions = versions;
    }

    public static void main(String[] arguments) throws IOException {
        DataInputStream plan = new DataInputStream(new BufferedInputStream(System.in));
        Bench bench = new Bench(plan.readInt(), plan.readInt());
        Call[] fill = calls(plan), gets = calls(plan), puts = calls(plan), scans = calls(plan), spanGets = calls(plan);
        report(fill.length, () -> bench.refill(fill));
        report(gets.length, () -> bench.play(gets));
        report(puts.length, () -> bench.play(puts));
        report(scans.length, () -> bench.play(scans));
        report(spanGets.length, () -> bench.play(spanGets));
    }

    private static Call[] calls(DataInputStream plan) throws IOException {
        Call[] calls = new Call[plan.readInt()];
        for (int index = 0; index < calls.length; index++) {
            calls[index] = new Call(plan.readInt(), plan.readLong(), plan.readInt(), plan.readInt());
        }
        return calls;
    }

    private static void report(int calls, LongSupplier run) {
        long[] taken = new long[ROUNDS];
        long answers = 0;
        for (int round = -WARM_UP; round < ROUNDS; round++) {
            long from = System.nanoTime();
            answers = run.getAsLong();
            taken[Math.max(round, 0)] = System.nanoTime() - from;
        }
        Arrays.sort(taken);
        System.out.println((double) taken[ROUNDS / 2] / calls + " " + Long.toUnsignedString(answers));
    }

    private long refill(Call[] fill) {
        map = new ConcurrentSkipListMap<>(Long::compareUnsigned);
        made = 0;
        held = 0;
        return play(fill);
    }

    private long play(Call[] calls) {
        answers = 0;
        for (int index = 0; index < calls.length; index++) {
            Call call = calls[index];
            if (call.kind == PUT) {
                answered(index, put(call.key, call.value, call.timestamp), call.value, call.timestamp);
            } else if (call.kind == SCAN) {
                scan(index, call);
            } else {
                Version newest = map.get(call.key);
                answered(index, newest == null ? NONE : FOUND, newest == null ? 0 : newest.value, newest == null ? 0 : newest.timestamp);
            }
        }
        return answers;
    }

    /** The last key stands in the words of value and timestamp. */
    private void scan(int index, Call call) {
        long last = (long) call.value << 32 | Integer.toUnsignedLong(call.timestamp);
        for (Map.Entry<Long, Version> shown : map.subMap(call.key, true, last, true).entrySet()) {
            Version newest = shown.getValue();
            long words = ((long) newest.value << 32 | Integer.toUnsignedLong(newest.timestamp)) ^ shown.getKey() * 0x9E3779B97F4A7C15L;
            answers += words * (2L * index + 1);
        }
        answered(index, SWEPT, 0, 0);
    }

    private int put(long key, int value, int timestamp) {
        Version newest = map.get(key);
        if (newest != null && Integer.compareUnsigned(timestamp, newest.timestamp) < 0) {
            return TOO_OLD;
        }
        if (newest == null && made == keys) {
            return KEYS_FULL;
        }
        if (held == versions) {
            return VERSIONS_FULL;
        }
        map.put(key, new Version(value, timestamp, newest));
        held++;
        made += newest == null ? 1 : 0;
        return newest == null ? NEW : ADDED;
    }

    private void answered(int index, int answer, int value, int timestamp) {
        long words = ((long) value << 32 | Integer.toUnsignedLong(timestamp)) ^ (answer + 1) * 0x9E3779B97F4A7C15L;
        answers += words * (2L * index + 1);
    }
}
