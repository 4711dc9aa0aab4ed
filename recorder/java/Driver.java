import java.io.BufferedReader;
import java.io.FileOutputStream;
import java.io.IOException;
import java.io.UncheckedIOException;
import java.lang.management.GarbageCollectorMXBean;
import java.lang.management.ManagementFactory;
import java.lang.ref.WeakReference;
import java.nio.charset.StandardCharsets;
import java.nio.file.Files;
import java.nio.file.Path;
import java.util.ArrayList;
import java.util.HashMap;
import java.util.List;
import java.util.Map;

/**
 * Takes a script's steps on the heap of this JVM, a thread for each mutator, and writes the record, which `g1heap check` judges.
 *
 *     tools/draw_script.py 1 --first 0 --weak 1 ... > it.heap
 *     javac -d FOLDER recorder/java/Driver.java
 *     java -XX:+UseZGC -Xmx32m -cp FOLDER Driver it.heap it.record [EARLY]
 *
 * A step `gc pause` asks for a full collection; the other steps of `gc` are passed over. A sync, as recorder/README.md has it, is written
 * where a weak slot is seen cleared, after collections, and at the end. At the first step from EARLY on where a register holds the object of
 * a WeakReference of an object that a register holds too, it is cleared, and the run ends with a sync. Prints how many steps, collections and syncs there were, and 1 where one was
 * cleared so.
 */
public final class Driver {
    /** An object: pointer i is pointers[slack + i]. A weak slot is null, or a WeakReference, which gives null when it was cleared. */
    private static final class Node {
        final long name;
        final int slack;
        final Node[] pointers;
        final List<WeakReference<Node>> weaks = new ArrayList<>();
        final long[] words;

        Node(long name, int pointers, int weaks, int words) {
            this.name = name;
            // Objects of all sizes: now and then one for which a collector has places of its own.
            slack = name % 512 == 0 ? 150000 : name % 16 == 0 ? 500 : 0;
            this.pointers = new Node[slack + pointers];
            for (int i = 0; i < weaks; i++) this.weaks.add(null);
            this.words = new long[words];
        }

        int count() {
            return pointers.length - slack;
        }
    }

    private static final int BETWEEN_SYNCS = 1000;
    private final Object lock = new Object();
    private final List<GarbageCollectorMXBean> collectors = new ArrayList<>();
    private final StringBuilder text = new StringBuilder();
    private final FileOutputStream record;
    private final long limit, early;
    private final int registers;
    private final Node[][] stacks;
    private final Node[] globals;
    private long events, next, steps, syncs, lastSync, collected;
    private boolean cleared, ended;
    private volatile byte[] litter;

    private Driver(String[] sizes, String path, long early) throws IOException {
        boolean third = sizes[0].equals("heap3");
        int mutators = Integer.parseInt(sizes[4]);
        int global = third ? Integer.parseInt(sizes[7]) : 16;
        stacks = new Node[mutators][third ? Integer.parseInt(sizes[8]) : 8];
        globals = new Node[global];
        limit = Long.parseLong(sizes[1]) * Long.parseLong(sizes[2]);
        next = Long.parseLong(sizes[5]);
        registers = Math.min(65536, (1048576 - global - 1) / (mutators + 1));
        this.early = early;
        for (GarbageCollectorMXBean it : ManagementFactory.getGarbageCollectorMXBeans()) {
            if (!it.getName().endsWith("Pauses")) collectors.add(it);
        }
        record = new FileOutputStream(path);
        text.append(String.format("heap3 %s %s 4 %d %d 8 %d %d\n", sizes[1], sizes[2], mutators + 1, next, global + 1, registers));
        flush();
    }

    private void flush() {
        try {
            record.write(text.toString().getBytes(StandardCharsets.US_ASCII));
        } catch (IOException fault) {
            throw new UncheckedIOException(fault);
        }
        text.setLength(0);
    }

    private void tell(String step, String reply) {
        text.append(++events).append(' ').append(step).append(" = ").append(reply).append('\n');
        if (text.length() > 100000) flush();
    }

    private static String spell(Node it) {
        return it == null ? "nil" : "#" + it.name;
    }

    private long collections() {
        long count = 0;
        for (GarbageCollectorMXBean it : collectors) count += it.getCollectionCount();
        return count;
    }

    /** A sync: what is taken is held until its end, so no slot that was seen to hold is cleared meanwhile. */
    private final class Sync {
        final List<Node> held = new ArrayList<>();
        final Map<Long, Node> places = new HashMap<>();
        final int spare = stacks.length;

        /** Writes the step that reads an object into the first free register, which it keeps if it wasn't met before. */
        void take(String verb, String from, Node it) {
            String step = spare + verb + held.size() + from;
            if (it != null && places.putIfAbsent(it.name, it) == null) held.add(it);
            if (held.size() >= registers) throw new IllegalStateException("more objects are reached than a mutator has registers");
            String reply = it != null && places.get(it.name) != it ? "#18446744073709551614" : spell(it);
            tell(step, reply);
        }

        void takeRoots() {
            for (int i = 0; i < globals.length; i++) take(" load r", " g" + i, globals[i]);
            for (int m = 0; m < spare; m++) {
                for (int i = 0; i < stacks[m].length; i++) {
                    tell(m + " save g" + globals.length + " r" + i, "ok");
                    take(" load r", " g" + globals.length, stacks[m][i]);
                }
            }
        }

        void takeFields(int at) {
            Node it = held.get(at);
            tell(spare + " shape r" + at, it.count() + " " + it.words.length);
            tell(spare + " weaks r" + at, "" + it.weaks.size());
            for (int j = 0; j < it.words.length; j++) tell(spare + " read r" + at + " " + j, Long.toUnsignedString(it.words[j]));
            for (int i = 0; i < it.count(); i++) take(" get r", " r" + at + " " + i, it.pointers[it.slack + i]);
            for (int i = 0; i < it.weaks.size(); i++) {
                WeakReference<Node> slot = it.weaks.get(i);
                Node found = slot == null ? null : slot.get();
                if (found == null) it.weaks.set(i, null);
                else take(" getweak r", " r" + at + " " + i, found);
            }
        }

        void readNilSlots(int at) {
            Node it = held.get(at);
            for (int i = 0; i < it.weaks.size(); i++) {
                if (it.weaks.get(i) == null) tell(spare + " getweak r" + held.size() + " r" + at + " " + i, "nil");
            }
        }

        void write() {
            takeRoots();
            for (int at = 0; at < held.size(); at++) takeFields(at);
            tell("gc begin", "ok");
            tell("gc remark", "marked 0");
            for (int at = 0; at < held.size(); at++) readNilSlots(at);
            tell(spare + " scope r0", "ok");
            tell(spare + " save g" + globals.length + " r0", "ok");
        }
    }

    /** Ends the run with a sync, if a reference can be cleared early. */
    private void endEarly() {
        if (!clearEarly()) return;
        cleared = true;
        ended = true;
        sync();
    }

    private void sync() {
        new Sync().write();
        syncs++;
        lastSync = steps;
    }

    /** Clears a reference in an object that a register holds, to an object that a register holds. */
    private boolean clearEarly() {
        List<Node> held = new ArrayList<>();
        for (Node[] stack : stacks) {
            for (Node it : stack) {
                if (it != null) held.add(it);
            }
        }
        for (Node it : held) {
            for (WeakReference<Node> slot : it.weaks) {
                if (slot != null && slot.get() != null && held.contains(slot.get())) {
                    slot.clear();
                    return true;
                }
            }
        }
        return false;
    }

    private static int number(String word) {
        return Integer.parseInt(word.substring(1));
    }

    /** How a step ends that uses field or word i of an object that has so many. */
    private static String outcome(Node of, int count, long i) {
        return of == null ? "refused 1 Nil" : i >= count ? "refused 2 NoField" : "ok";
    }

    /** Takes a step of mutator m, and gives its reply. */
    private String reply(int m, String[] words) {
        Node[] stack = stacks[m];
        switch (words[1]) {
            case "new": case "newweak": return make(stack, words);
            case "get": case "getweak": return get(stack, words);
            case "put": case "putweak": return put(stack, words);
            case "read": case "write": return useWord(stack[number(words[2])], words);
            case "shape": case "weaks": return shape(stack[number(words[2])], words[1].equals("weaks"));
            case "move": stack[number(words[2])] = stack[number(words[3])]; return "ok";
            case "drop": stack[number(words[2])] = null; return "ok";
            case "load": return spell(stack[number(words[2])] = globals[number(words[3])]);
            case "save": globals[number(words[2])] = stack[number(words[3])]; return "ok";
            case "scope": for (int i = number(words[2]); i < stack.length; i++) stack[i] = null; return "ok";
            default: throw new IllegalArgumentException(words[1]);
        }
    }

    private String make(Node[] stack, String[] words) {
        boolean weak = words[1].equals("newweak");
        long pointers = Long.parseLong(words[3]), weaks = weak ? Long.parseLong(words[4]) : 0, data = Long.parseLong(words[weak ? 5 : 4]);
        if (2 + pointers + weaks + data > limit) return "refused 4 TooBig";
        return spell(stack[number(words[2])] = new Node(next++, (int) pointers, (int) weaks, (int) data));
    }

    private String get(Node[] stack, String[] words) {
        boolean weak = words[1].equals("getweak");
        Node of = stack[number(words[3])], found;
        long i = Long.parseLong(words[4]);
        String refusal = outcome(of, of == null ? 0 : weak ? of.weaks.size() : of.count(), i);
        if (!refusal.equals("ok")) return refusal;
        if (weak) {
            WeakReference<Node> slot = of.weaks.get((int) i);
            found = slot == null ? null : slot.get();
            if (slot != null && found == null) sync();
        } else {
            found = of.pointers[of.slack + (int) i];
        }
        return spell(stack[number(words[2])] = found);
    }

    private String put(Node[] stack, String[] words) {
        boolean weak = words[1].equals("putweak");
        Node of = stack[number(words[2])], value = words[4].equals("nil") ? null : stack[number(words[4])];
        long i = Long.parseLong(words[3]);
        String reply = outcome(of, of == null ? 0 : weak ? of.weaks.size() : of.count(), i);
        if (!reply.equals("ok")) return reply;
        if (weak) of.weaks.set((int) i, value == null ? null : new WeakReference<>(value));
        else of.pointers[of.slack + (int) i] = value;
        return reply;
    }

    private static String useWord(Node of, String[] words) {
        long j = Long.parseLong(words[3]);
        String reply = outcome(of, of == null ? 0 : of.words.length, j);
        if (!reply.equals("ok")) return reply;
        if (words[1].equals("read")) return Long.toUnsignedString(of.words[(int) j]);
        of.words[(int) j] = Long.parseUnsignedLong(words[4]);
        return reply;
    }

    private static String shape(Node of, boolean weaks) {
        return of == null ? "refused 1 Nil" : weaks ? "" + of.weaks.size() : of.count() + " " + of.words.length;
    }

    /** The lines of one mutator, in their order. Whole collections are asked for by all in turn. */
    private void mutate(int m, Path script) {
        String mine = m + " ", line;
        try (BufferedReader lines = Files.newBufferedReader(script)) {
            for (int at = 0; (line = lines.readLine()) != null; at++) {
                if (line.startsWith("gc pause") && at % stacks.length == m) System.gc();
                if (!line.startsWith(mine)) continue;
                litter = new byte[8192];
                synchronized (lock) {
                    if (ended) return;
                    // The reply first: it may write a sync.
                    String reply = reply(m, line.split(" "));
                    tell(line, reply);
                    steps++;
                    if (early > 0 && steps >= early) {
                        endEarly();
                    } else if (steps - lastSync >= BETWEEN_SYNCS && collections() > collected) {
                        collected = collections();
                        sync();
                    }
                    flush();
                }
            }
        } catch (IOException fault) {
            throw new UncheckedIOException(fault);
        }
    }

    public static void main(String[] words) throws Exception {
        Path script = Path.of(words[0]);
        String[] sizes;
        try (BufferedReader lines = Files.newBufferedReader(script)) {
            sizes = lines.readLine().split(" ");
        }
        Driver driver = new Driver(sizes, words[1], words.length > 2 ? Long.parseLong(words[2]) : 0);
        List<Thread> threads = new ArrayList<>();
        Thread.setDefaultUncaughtExceptionHandler((thread, fault) -> {
            fault.printStackTrace();
            Runtime.getRuntime().halt(1);
        });
        for (int m = 0; m < driver.stacks.length; m++) {
            int mutator = m;
            threads.add(new Thread(() -> driver.mutate(mutator, script)));
        }
        for (Thread it : threads) it.start();
        for (Thread it : threads) it.join();
        if (!driver.ended) driver.sync();
        driver.flush();
        driver.record.close();
        System.out.println(driver.steps + " " + driver.collections() + " " + driver.syncs + " " + (driver.cleared ? 1 : 0));
    }
}
