// Uses spymemcached as its documentation does (https://github.com/couchbase/spymemcached/wiki), by its text protocol, which is what it speaks
// if nothing else is asked for.
import java.io.BufferedReader;
import java.io.InputStreamReader;
import java.net.InetSocketAddress;
import java.net.Socket;
import java.util.ArrayList;
import java.util.Arrays;
import java.util.Collection;
import java.util.HashMap;
import java.util.List;
import java.util.Map;
import java.util.Objects;
import java.util.concurrent.Callable;
import java.util.concurrent.TimeUnit;
import java.util.logging.Level;
import java.util.logging.Logger;
import net.spy.memcached.CASMutation;
import net.spy.memcached.CASMutator;
import net.spy.memcached.CASResponse;
import net.spy.memcached.CASValue;
import net.spy.memcached.ConnectionFactoryBuilder;
import net.spy.memcached.MemcachedClient;

public class UseSpymemcached {
    // It is kept, as a logger that nobody holds is forgotten with its level.
    static final Logger LOG = Logger.getLogger("net.spy");
    static int passed, failed;

    // Says what the checks that follow are about.
    static void about(String what) {
        System.out.println(what);
    }

    // Makes a call, and counts whether it gave what is wanted; of what is thrown the name of its kind is what was given.
    static void gives(String call, Callable<?> made, Object wanted) {
        Object seen;
        try {
            seen = made.call();
        } catch (Exception error) {
            seen = error.getClass().getSimpleName();
        }
        if (Objects.equals(seen, wanted)) {
            passed++;
            return;
        }
        failed++;
        System.out.println("FAILED called " + call + "\n       expected " + wanted + "\n       seen " + seen);
    }

    static MemcachedClient clientOf(int port, long milliseconds) throws Exception {
        ConnectionFactoryBuilder made = new ConnectionFactoryBuilder().setOpTimeout(milliseconds).setMaxReconnectDelay(1);
        return new MemcachedClient(made.build(), List.of(new InetSocketAddress("127.0.0.1", port)));
    }

    // Has the server killed and started anew, with nothing in it.
    static String restart(int control) throws Exception {
        try (Socket link = new Socket("127.0.0.1", control)) {
            link.setSoTimeout(10000);
            link.getOutputStream().write("restart\n".getBytes());
            return new BufferedReader(new InputStreamReader(link.getInputStream())).readLine();
        }
    }

    // Makes a call until it gives what is wanted, for ten seconds at most.
    static boolean comes(Callable<?> made, Object wanted) throws Exception {
        for (long end = System.nanoTime() + 10_000_000_000L; System.nanoTime() < end; Thread.sleep(100)) {
            try {
                if (Objects.equals(made.call(), wanted)) {
                    return true;
                }
            } catch (Exception error) {
                // it isn't connected yet
            }
        }
        return false;
    }

    // Adds one to a counter by the client's loop of gets and cas.
    static Object countUp(MemcachedClient c, String key, int times) throws Exception {
        CASMutator<Object> mutator = new CASMutator<>(c, c.getTranscoder());
        CASMutation<Object> one = now -> String.valueOf(Integer.parseInt((String) now) + 1);
        Object last = null;
        for (int i = 0; i < times; i++) {
            last = mutator.cas(key, "0", 0, one);
        }
        return last;
    }

    static Object countUpBy(MemcachedClient c, String key, int threads, int times) throws Exception {
        List<Thread> running = new ArrayList<>();
        for (int i = 0; i < threads; i++) {
            Thread thread = new Thread(() -> {
                try {
                    countUp(c, key, times);
                } catch (Exception error) {
                    System.out.println("    " + error);
                }
            });
            thread.start();
            running.add(thread);
        }
        for (Thread it : running) {
            it.join();
        }
        return c.get(key);
    }

    public static void main(String[] words) throws Exception {
        LOG.setLevel(Level.OFF);
        System.setProperty("net.spy.log.LoggerImpl", "net.spy.memcached.compat.log.SunLogger");
        int port = Integer.parseInt(words[0]), silent = Integer.parseInt(words[1]), control = Integer.parseInt(words[2]);
        boolean isMemcached = "memcached".equals(System.getenv("SERVER"));
        MemcachedClient c = clientOf(port, 5000);
        Map<String, Object> many = new HashMap<>();
        for (int i = 0; i < 500; i++) {
            many.put("many:" + i, "value " + i);
        }

        about("set, get, delete, add, replace, append, prepend");
        gives("set(someKey, 3600, ..)", () -> c.set("someKey", 3600, "some object").get(), true);
        gives("get(someKey)", () -> c.get("someKey"), "some object");
        gives("get(none)", () -> c.get("none"), null);
        gives("asyncGet(someKey)", () -> c.asyncGet("someKey").get(5, TimeUnit.SECONDS), "some object");
        gives("add(someKey)", () -> c.add("someKey", 0, "x").get(), false);
        gives("add(added)", () -> c.add("added", 0, "first").get(), true);
        gives("replace(added)", () -> c.replace("added", 0, "second").get(), true);
        gives("replace(none)", () -> c.replace("none", 0, "x").get(), false);
        gives("append(added)", () -> c.append("added", " and").get(), true);
        gives("prepend(added)", () -> c.prepend("added", "the ").get(), true);
        gives("get(added)", () -> c.get("added"), "the second and");
        gives("delete(added)", () -> c.delete("added").get(), true);
        gives("delete(added)", () -> c.delete("added").get(), false);

        about("flags, serialised and compressed values");
        gives("set(list)", () -> c.set("list", 0, new ArrayList<>(Arrays.asList(1, "two", 3.5))).get(), true);
        gives("get(list)", () -> c.get("list"), Arrays.asList(1, "two", 3.5));
        gives("set(long)", () -> c.set("long", 0, 1234567890123L).get(), true);
        gives("get(long)", () -> c.get("long"), 1234567890123L);
        gives("set(packed)", () -> c.set("packed", 0, "x".repeat(1 << 21)).get(), true);
        gives("get(packed)", () -> c.get("packed").equals("x".repeat(1 << 21)), true);

        about("counters");
        gives("incr(count, 1, 10)", () -> c.incr("count", 1, 10), 10L);
        gives("incr(count, 5)", () -> c.incr("count", 5), 15L);
        gives("decr(count, 12)", () -> c.decr("count", 12), 3L);
        gives("decr(count, 12)", () -> c.decr("count", 12), 0L);
        gives("incr(absent, 1)", () -> c.incr("absent", 1), -1L);

        about("gets, cas, and a loop of 4 threads");
        gives("set(shared)", () -> c.set("shared", 0, "0").get(), true);
        CASValue<Object> mine = c.gets("shared");
        gives("cas(shared)", () -> c.cas("shared", mine.getCas(), "1"), CASResponse.OK);
        gives("cas(shared)", () -> c.cas("shared", mine.getCas(), "2"), CASResponse.EXISTS);
        gives("cas(none)", () -> c.cas("none", mine.getCas(), "2"), CASResponse.NOT_FOUND);
        gives("countUpBy(shared, 4, 100)", () -> countUpBy(c, "shared", 4, 100), "401");

        about("500 keys at once, and gets that are put together");
        gives("set(many)", () -> {
            List<Object> futures = new ArrayList<>();
            for (Map.Entry<String, Object> it : many.entrySet()) {
                futures.add(c.set(it.getKey(), 0, it.getValue()));
            }
            for (Object it : futures) {
                ((net.spy.memcached.internal.OperationFuture<?>) it).get();
            }
            return futures.size();
        }, 500);
        gives("getBulk(many)", () -> c.getBulk(many.keySet()).equals(many), true);
        gives("asyncGet(many)", () -> {
            Map<String, java.util.concurrent.Future<Object>> futures = new HashMap<>();
            for (String it : many.keySet()) {
                futures.put(it, c.asyncGet(it));
            }
            for (Map.Entry<String, java.util.concurrent.Future<Object>> it : futures.entrySet()) {
                if (!it.getValue().get(5, TimeUnit.SECONDS).equals(many.get(it.getKey()))) {
                    return it.getKey();
                }
            }
            return futures.size();
        }, 500);

        about("expiry and touch");
        gives("set(brief, 1)", () -> c.set("brief", 1, "x").get(), true);
        gives("set(kept, 1)", () -> c.set("kept", 1, "y").get(), true);
        gives("set(past, -1)", () -> c.set("past", -1, "z").get(), true);
        gives("get(past)", () -> c.get("past"), null);
        gives("touch(kept, 100)", () -> c.touch("kept", 100).get(), true);
        gives("touch(absent, 100)", () -> c.touch("absent", 100).get(), false);
        Thread.sleep(2200);
        gives("get(brief)", () -> c.get("brief"), null);
        gives("get(kept)", () -> c.get("kept"), "y");

        about("getVersions, flush");
        gives("getVersions()", () -> c.getVersions().values().iterator().next().startsWith("1.6."), true);
        gives("flush()", () -> c.flush().get(), true);
        gives("get(kept)", () -> c.get("kept"), null);

        about("getStats, after which it connects again where there are no stats");
        gives("set(kept)", () -> c.set("kept", 0, "y").get(), true);
        gives("getStats()", () -> c.getStats().values().iterator().next().isEmpty(), !isMemcached);
        gives("get(kept)", () -> comes(() -> c.get("kept"), "y"), true);

        about("after the server was killed and started anew");
        gives("restart()", () -> restart(control), "done");
        gives("set(after)", () -> comes(() -> c.set("after", 0, "x").get(), true), true);
        gives("get(after)", () -> c.get("after"), "x");

        about("time-outs");
        MemcachedClient quiet = clientOf(silent, 300);
        long start = System.nanoTime();
        gives("get(a)", () -> quiet.get("a"), "OperationTimeoutException");
        gives("its time", () -> System.nanoTime() - start < 2_000_000_000L, true);

        c.shutdown();
        quiet.shutdown();
        System.out.println(passed + " passed, " + failed + " failed");
        System.exit(passed > 0 && failed == 0 ? 0 : 1);
    }
}
