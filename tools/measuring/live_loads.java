/* What live_loads.c does, but for `weak`, on OpenJDK's G1, for tools/measure clients --only live: the same loads, of objects of as many
   words, two of which are the header. Prints at which millisecond of the virtual machine's life the table was filled, and the processor
   time of the process after that, in nanoseconds for each object made. What the collector did when is in its log.

     javac -d FOLDER tools/measuring/live_loads.java
     java FLAGS -cp FOLDER Live LOAD MEBIBYTES PERCENT */
import com.sun.management.OperatingSystemMXBean;
import java.lang.management.ManagementFactory;
import java.util.function.Supplier;

final class Cell {
    Cell next, other;
    long value;
}

final class Leaf {
    long a, b, c, d, e, f, g, h;
}

final class Tree {
    final Leaf a = Live.leaf(), b = Live.leaf(), c = Live.leaf(), d = Live.leaf();
    final Leaf e = Live.leaf(), f = Live.leaf(), g = Live.leaf(), h = Live.leaf();
}

final class Six {
    long a, b, c, d, e, f;
}

final class Key {
    long number, b, c, d;
}

final class Entry {
    Entry next;
    Key key;
    long number, other;
}

final class Live {
    static final int CELLS = 16, ARRAYS = 16, LEAST_WORDS = 8388608, DYING = 5;
    static long seed = 88172645463325252L, words, objects, owed;
    static int elements, columns;
    static Object[][] table;
    static Object lost;

    static int draw(int below) {
        seed ^= seed << 13;
        seed ^= seed >>> 7;
        seed ^= seed << 17;
        return (int) ((seed >>> 20) % below);
    }

    static void count(int size) {
        words += size;
        objects++;
    }

    static Leaf leaf() {
        count(10);
        return new Leaf();
    }

    static Tree tree() {
        count(10);
        return new Tree();
    }

    static Cell cell() {
        count(5);
        return new Cell();
    }

    static Cell list() {
        Cell first = null;
        for (int i = 0; i < CELLS; i++) {
            Cell made = cell();
            made.next = first;
            first = made;
        }
        return first;
    }

    static Six six() {
        count(8);
        return new Six();
    }

    /* As many words die at once. */
    static void waste(int size) {
        for (owed += size; owed >= DYING; owed -= DYING) lost = cell();
    }

    static void replace(Supplier<Object> element, int place, int size) {
        table[place / columns][place % columns] = element.get();
        waste(size);
    }

    /* Takes the entry of a key out of its chain, or puts one in. */
    static void change(int number) {
        int place = number % elements;
        Object[] row = table[place / columns];
        Key key = new Key();
        count(6);
        lost = key;
        key.number = number;
        Entry first = (Entry) row[place % columns], before = null, at = first;
        while (at != null && at.number != number) {
            before = at;
            at = at.next;
        }
        if (at == null) {
            Entry made = new Entry();
            count(6);
            made.number = number;
            made.key = key;
            made.next = first;
            row[place % columns] = made;
        } else if (before == null) {
            row[place % columns] = at.next;
        } else {
            before.next = at.next;
        }
        waste(6 + 6 / 2);
    }

    /* Fills the table, and makes so many words after that. Without elements it is a hash table. */
    static void run(Supplier<Object> element, int size, long wanted) {
        var system = (OperatingSystemMXBean) ManagementFactory.getOperatingSystemMXBean();
        table = new Object[(elements + columns - 1) / columns][columns];
        for (int i = 0; i < elements; i++)
            if (element != null) replace(element, i, size);
            else change((int) (i * 2654435761L % (2L * elements)));
        words = objects = 0;
        long filled = ManagementFactory.getRuntimeMXBean().getUptime(), start = system.getProcessCpuTime();
        while (words < wanted)
            if (element != null) replace(element, draw(elements), size);
            else change(draw(2 * elements));
        System.out.println(filled + " " + (double) (system.getProcessCpuTime() - start) / objects);
    }

    public static void main(String[] arguments) {
        String load = arguments[0];
        long all = Long.parseLong(arguments[1]) * 131072;
        int size = load.equals("trees") ? 90 : load.equals("lists") ? 5 * CELLS : load.equals("hash") ? 12 : 8;
        elements = (int) (all * Integer.parseInt(arguments[2]) / 100 / (size + 1));
        columns = load.equals("arrays") ? (elements + ARRAYS - 1) / ARRAYS : (int) Math.ceil(Math.sqrt(elements));
        Supplier<Object> element = switch (load) {
            case "trees" -> Live::tree;
            case "lists" -> Live::list;
            case "arrays" -> Live::six;
            default -> null;
        };
        run(element, size, Math.max(all, LEAST_WORDS));
    }
}
