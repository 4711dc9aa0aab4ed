// What tools/measuring/held_memory.c measures, in Java: idle is five seconds after System.gc(), which gives memory back by and by.
//
//   javac -d out tools/measuring/held_memory.java && java -XX:+UseG1GC -Xmx1024m -cp out HeldMemory 1024
import java.nio.file.Files;
import java.nio.file.Path;

class HeldMemory {
    static final int LISTS = 1024, BYTES = 512, MEBIBYTE = 1 << 20, GIGABYTE = 1000000000, LIVE = 50 * MEBIBYTE;
    static final Node[] lists = new Node[LISTS];
    static long seed = 1;

    // A node and its array have 512 bytes.
    static class Node {
        final Node next;
        final long[] words = new long[59];

        Node(Node next) {
            this.next = next;
        }
    }

    static int draw(int below) {
        seed ^= seed << 13;
        seed ^= seed >>> 7;
        seed ^= seed << 17;
        return Integer.remainderUnsigned((int) (seed >>> 20), below);
    }

    static long resident() throws Exception {
        return Long.parseLong(Files.readString(Path.of("/proc/self/statm")).split(" ")[1]) * 4096;
    }

    static void grow(long bytes) {
        for (long i = 0; i < bytes / BYTES; i++) {
            int list = draw(LISTS);
            lists[list] = new Node(lists[list]);
        }
    }

    static long runOn(long bytes, int count) throws Exception {
        long most = 0;
        for (long i = 0; i < bytes / BYTES; i++) {
            int list = draw(count);
            lists[list] = new Node(draw(LIVE / BYTES / count) == 0 ? null : lists[list]);
            if (i % 20000 == 0) most = Math.max(most, resident());
        }
        return most;
    }

    public static void main(String[] words) throws Exception {
        long mebibytes = Long.parseLong(words[0]), bytes = mebibytes * MEBIBYTE, filled = Math.min(bytes / 4 * 3, GIGABYTE);
        int count = (int) ((long) LISTS * LIVE / filled);
        System.out.print(mebibytes + " MiB: " + runOn(2 * bytes, count) / 1000000 + " MB while it runs");
        java.util.Arrays.fill(lists, null);
        grow(filled);
        System.out.print(", " + resident() / 1000000 + " with " + filled / 1000000 + " MB alive");
        java.util.Arrays.fill(lists, count, LISTS, null);
        runOn(filled, count);
        System.out.print(", " + resident() / 1000000 + " after that");
        System.gc();
        Thread.sleep(5000);
        System.out.println(", " + resident() / 1000000 + " idle");
    }
}
