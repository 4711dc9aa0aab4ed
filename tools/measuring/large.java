/* What large_costs.c does, by OpenJDK's G1, for tools/measure large --java: objects of 16 words, of which two are the header, three are
   references and 11 are data. What the collector did is in its log; this prints the bytes that are resident at the end.

     javac -d FOLDER tools/measuring/large.java
     java FLAGS -cp FOLDER Large SHAPE OBJECTS REGION

   SHAPE is start, empty, list, tree, drawn, garbage, few, apart, net or many; OBJECTS how many; REGION the bytes of a region. By the FLAGS
   of large_java.py what survives a young pause goes to an old region, and System.gc() is a concurrent cycle: a young pause, marking to its
   end, remark and cleanup. */
import java.lang.management.ManagementFactory;
import java.lang.reflect.Field;
import java.nio.file.Files;
import java.nio.file.Path;
import java.util.Arrays;
import java.util.Random;
import sun.misc.Unsafe;

final class Thing {
    Thing one, other, third;
    long number, b, c, d, e, f, g, h, i, j, k;
}

final class Large {
    static final int BYTES = 128, STEP = 64, CYCLES = 3, YOUNG = 10, MANY = 13107200 / 16 * 2;
    static final Random DRAW = new Random(1);
    static Object root, lost;
    static long[] places;

    /* So many old objects in the order of their places: g1heap's are in the order in which they were made, which no pause here keeps. After
       the collection nothing is made, so that nothing moves. */
    static Thing[] made(int count) throws ReflectiveOperationException {
        Thing[] all = new Thing[count], inOrder = new Thing[count];
        places = new long[count];
        for (int i = 0; i < count; i++) (all[i] = new Thing()).number = i;
        System.gc();
        Field field = Unsafe.class.getDeclaredField("theUnsafe");
        field.setAccessible(true);
        Unsafe unsafe = (Unsafe) field.get(null);
        long first = unsafe.arrayBaseOffset(Thing[].class), number = unsafe.objectFieldOffset(Thing.class.getDeclaredField("number"));
        for (int i = 0; i < count; i++) places[i] = unsafe.getLong(all, first + 8L * i);
        Arrays.sort(places);
        int next = 0;
        for (int i = 0; i < count; i++) {
            inOrder[i] = all[(int) unsafe.getLong(places[i] + number)];
            if (i > 0 && places[i] == places[i - 1] + BYTES) next++;
        }
        if (next < count / 10 * 9) throw new IllegalStateException("objects don't lie side by side: they haven't 16 words");
        return inOrder;
    }

    /* Collections, of which the first marked before all objects were old. */
    static void collect() {
        places = null;
        for (int i = 0; i < CYCLES; i++) System.gc();
    }

    /* So many young pauses, of which nothing survives. */
    static void pauses(int count) {
        var young = ManagementFactory.getGarbageCollectorMXBeans().get(0);
        for (long last = young.getCollectionCount() + count; young.getCollectionCount() < last;)
            for (int i = 0; i < 1000; i++) lost = new Thing();
    }

    static void list(Thing[] all) {
        for (int i = 1; i < all.length; i++) all[i].one = all[i - 1];
        root = all[all.length - 1];
    }

    static void tree(Thing[] all, boolean drawn) {
        for (int i = all.length - 1; drawn && i > 0; i--) {
            int other = DRAW.nextInt(i + 1);
            Thing kept = all[i];
            all[i] = all[other];
            all[other] = kept;
        }
        for (int i = 1; i < all.length; i++)
            if (i % 2 == 1) all[(i - 1) / 2].one = all[i];
            else all[(i - 1) / 2].other = all[i];
        root = all[0];
    }

    /* One region keeps every 64th of its objects. Fields of others lead to these: of four objects, of every fourth, or of drawn ones. */
    static void region(Thing[] all, String shape, long bytes) {
        int from = 0, to = 0;
        for (int i = 0; (to - from) * BYTES < bytes / 10 * 9; i++) {
            if (places[i] / bytes != places[from] / bytes) from = i;
            to = i + 1;
        }
        while (places[to] / bytes == places[from] / bytes) to++;
        for (int i = from; i < to; i++) if ((i - from) % STEP != 0) all[i] = null;
        int live = (to - from) / STEP;
        for (int i = 0; i < all.length; i++) {
            if (i >= from && i < to) continue;
            int at = i > 0 ? i - 1 : 0;
            if (shape.equals("net")) at = DRAW.nextInt(all.length);
            else if (shape.equals("apart") ? i % 4 == 0 : i < 4) at = from + STEP * DRAW.nextInt(live);
            all[i].other = all[at >= from && at < to ? at - (at - from) % STEP : at];
        }
        root = all;
    }

    /* A young pause copies 100 MB of a list of which every other object is lost. */
    static void many() {
        Thing last = null;
        for (int i = 0; i < MANY; i++) {
            Thing made = new Thing();
            if (i % 2 == 0) continue;
            made.one = last;
            last = made;
        }
        root = last;
        last = null;
        pauses(1);
    }

    public static void main(String[] words) throws Exception {
        String shape = words[0];
        int count = Integer.parseInt(words[1]);
        Thing[] all = null;
        if (!shape.equals("start") && !shape.equals("empty") && !shape.equals("many")) all = made(count);
        switch (shape) {
            case "list" -> list(all);
            case "tree" -> tree(all, false);
            case "drawn" -> tree(all, true);
            case "few", "apart", "net" -> region(all, shape, Long.parseLong(words[2]));
            case "many" -> many();
        }
        all = null;
        if (!shape.equals("start") && !shape.equals("many")) collect();
        if (shape.equals("empty") || root instanceof Thing[]) pauses(YOUNG);
        System.out.println(Long.parseLong(Files.readString(Path.of("/proc/self/statm")).split(" ")[1]) * 4096);
    }
}
