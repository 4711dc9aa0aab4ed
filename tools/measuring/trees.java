/* GCBench and binary-trees, as clients/gcbench.c and clients/binary_trees.c do them, and with the same output, for tools/measure clients.

     javac -d FOLDER tools/measuring/trees.java && java -cp FOLDER Trees gcbench 16 */
final class Node {
    Node left, right;
}

final class LargeNode {
    LargeNode left, right;
    long one, other;
}

final class Trees {
    static final int SHALLOWEST = 4;

    static LargeNode upward(int depth) {
        LargeNode made = new LargeNode();
        if (depth == 0) return made;
        made.left = upward(depth - 1);
        made.right = upward(depth - 1);
        return made;
    }

    static void populate(int depth, LargeNode at) {
        if (depth == 0) return;
        at.left = new LargeNode();
        populate(depth - 1, at.left);
        at.right = new LargeNode();
        populate(depth - 1, at.right);
    }

    static LargeNode downward(int depth) {
        LargeNode root = new LargeNode();
        populate(depth, root);
        return root;
    }

    static long count(LargeNode at) {
        return at == null ? 0 : 1 + count(at.left) + count(at.right);
    }

    static long size(int depth) {
        return (2L << depth) - 1;
    }

    static void gcbench(int deepest) {
        int length = deepest >= 16 ? 500000 : 500000 >> 16 - deepest;
        upward(deepest + 2);
        LargeNode tree = downward(deepest);
        double[] array = new double[length];
        for (int i = 0; i < length / 2; i++) array[i] = 1.0 / i;
        for (int depth = SHALLOWEST; depth <= deepest; depth += 2) {
            long times = 2 * size(deepest + 2) / size(depth);
            for (long i = 0; i < times; i++) downward(depth);
            for (long i = 0; i < times; i++) upward(depth);
            System.out.printf("%d trees of depth %d, top down and bottom up%n", times, depth);
        }
        String broken = array[10] == 1.0 / 10 ? "" : ", and it is broken";
        System.out.printf("long-lived: a tree of %d nodes, an array of %d words%s%n", count(tree), length, broken);
    }

    static Node make(int depth) {
        Node made = new Node();
        if (depth == 0) return made;
        made.left = make(depth - 1);
        made.right = make(depth - 1);
        return made;
    }

    static long count(Node at) {
        return at == null ? 0 : 1 + count(at.left) + count(at.right);
    }

    static void binaryTrees(int deepest) {
        System.out.printf("stretch tree of depth %d\t check: %d%n", deepest + 1, count(make(deepest + 1)));
        Node tree = make(deepest);
        for (int depth = SHALLOWEST; depth <= deepest; depth += 2) {
            long times = 1L << deepest - depth + SHALLOWEST, nodes = 0;
            for (long i = 0; i < times; i++) nodes += count(make(depth));
            System.out.printf("%d\t trees of depth %d\t check: %d%n", times, depth, nodes);
        }
        System.out.printf("long lived tree of depth %d\t check: %d%n", deepest, count(tree));
    }

    public static void main(String[] words) {
        int depth = Integer.parseInt(words[1]);
        if (words[0].equals("gcbench")) gcbench(depth);
        else binaryTrees(depth);
    }
}
