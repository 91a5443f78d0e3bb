import it.unimi.dsi.bits.Fast;
import it.unimi.dsi.io.InputBitStream;
import it.unimi.dsi.io.OutputBitStream;
import java.io.FileInputStream;
import java.io.FileOutputStream;
import java.io.IOException;
import java.io.OutputStream;
import java.nio.file.Files;
import java.nio.file.Path;
import java.util.ArrayList;
import java.util.Arrays;
import java.util.EnumMap;
import java.util.List;
import java.util.Map;
import java.util.Properties;
import java.util.Scanner;
import java.util.TreeSet;
import java.util.stream.Collectors;
import java.util.stream.IntStream;
import java.util.stream.Stream;

/**
 * Writes and reads small archives in the format BVGraph, with each word by the bit streams of dsiutils, which the
 * WebGraph framework writes and reads its archives by.
 *
 * Each line of standard input is one of these:
 *
 * <pre>
 *   write TEXT BASE WINDOW CHAIN INTERVAL ZETA [FLAG...]
 *   read BASE TEXT
 * </pre>
 *
 * TEXT is a graph in the form of the framework's ASCIIGraph. CHAIN is -1 for no limit.
 */
final class Archives {
    /** How a field stands in a file; `ZETA` takes the parameter. */
    enum Code {
        UNARY, GAMMA, DELTA, ZETA, NIBBLE;

        int write(OutputBitStream out, int value, int zeta) throws IOException {
            return switch (this) {
                case UNARY -> out.writeUnary(value);
                case GAMMA -> out.writeGamma(value);
                case DELTA -> out.writeDelta(value);
                case ZETA -> out.writeZeta(value, zeta);
                case NIBBLE -> out.writeNibble(value);
            };
        }

        int read(InputBitStream in, int zeta) throws IOException {
            return switch (this) {
                case UNARY -> in.readUnary();
                case GAMMA -> in.readGamma();
                case DELTA -> in.readDelta();
                case ZETA -> in.readZeta(zeta);
                case NIBBLE -> in.readNibble();
            };
        }
    }

    enum Field {
        OUTDEGREES(Code.GAMMA), BLOCKS(Code.GAMMA), REFERENCES(Code.UNARY), BLOCK_COUNT(Code.GAMMA),
        RESIDUALS(Code.ZETA), OFFSETS(Code.GAMMA);

        final Code usual;

        Field(Code usual) {
            this.usual = usual;
        }
    }

    final int window, chain, interval, zeta;
    final Map<Field, Code> codes = new EnumMap<>(Field.class);

    Archives(int window, int chain, int interval, int zeta, List<String> flags) {
        this.window = window;
        this.chain = chain == -1 ? Integer.MAX_VALUE : chain;
        this.interval = interval;
        this.zeta = zeta;
        for (Field field : Field.values()) codes.put(field, field.usual);
        for (String flag : flags) {
            int end = flag.lastIndexOf('_');
            codes.put(Field.valueOf(flag.substring(0, end)), Code.valueOf(flag.substring(end + 1)));
        }
    }

    int put(OutputBitStream out, Field field, int value) throws IOException {
        return codes.get(field).write(out, value, zeta);
    }

    int get(InputBitStream in, Field field) throws IOException {
        return codes.get(field).read(in, zeta);
    }

    // ---- Writing

    /** Writes the record of a page by a reference to the list `from`, or by the reference 0, and tells its bits. */
    int putRecord(OutputBitStream out, int page, int[] list, int reference, int[] from) throws IOException {
        int bits = put(out, Field.OUTDEGREES, list.length);
        if (list.length == 0) return bits;
        if (window > 0) bits += put(out, Field.REFERENCES, reference);
        int[] extra = list;
        if (reference > 0) {
            bits += putBlocks(out, list, from);
            extra = Arrays.stream(list).filter(it -> !has(from, it)).toArray();
        }
        if (extra.length > 0 && interval > 0) {
            List<int[]> runs = runsOf(extra);
            bits += putRuns(out, page, runs);
            extra = Arrays.stream(extra)
                .filter(it -> runs.stream().noneMatch(run -> run[0] <= it && it < run[1])).toArray();
        }
        for (int i = 0; i < extra.length; i++) {
            int gap = i == 0 ? Fast.int2nat(extra[0] - page) : extra[i] - extra[i - 1] - 1;
            bits += put(out, Field.RESIDUALS, gap);
        }
        return bits;
    }

    /** The lengths of the runs of `from` that are copied and skipped in turn, without the last. */
    int putBlocks(OutputBitStream out, int[] list, int[] from) throws IOException {
        List<Integer> blocks = new ArrayList<>();
        boolean copied = true;
        int begin = 0;
        for (int i = 0; i < from.length; i++) {
            if (has(list, from[i]) == copied) continue;
            blocks.add(i - begin);
            begin = i;
            copied = !copied;
        }
        int bits = put(out, Field.BLOCK_COUNT, blocks.size());
        for (int i = 0; i < blocks.size(); i++) bits += put(out, Field.BLOCKS, blocks.get(i) - (i == 0 ? 0 : 1));
        return bits;
    }

    int putRuns(OutputBitStream out, int page, List<int[]> runs) throws IOException {
        int bits = out.writeGamma(runs.size()), end = 0;
        for (int[] run : runs) {
            bits += out.writeGamma(run == runs.get(0) ? Fast.int2nat(run[0] - page) : run[0] - end - 1);
            bits += out.writeGamma(run[1] - run[0] - interval);
            end = run[1];
        }
        return bits;
    }

    /** The runs of consecutive numbers that are long enough: of each the first, and one past the last. */
    List<int[]> runsOf(int[] numbers) {
        List<int[]> runs = new ArrayList<>();
        for (int i = 0, begin = 0; i < numbers.length; i++) {
            if (i + 1 < numbers.length && numbers[i + 1] == numbers[i] + 1) continue;
            if (i + 1 - begin >= interval) runs.add(new int[] {numbers[begin], numbers[i] + 1});
            begin = i + 1;
        }
        return runs;
    }

    static boolean has(int[] list, int member) {
        return Arrays.binarySearch(list, member) >= 0;
    }

    /** Each page by the reference whose record is shortest, and by the nearest of several such. */
    void write(List<int[]> lists, String base) throws IOException {
        OutputBitStream none = new OutputBitStream(OutputStream.nullOutputStream(), false);
        int[] depth = new int[lists.size()];
        try (OutputBitStream graph = new OutputBitStream(base + ".graph");
             OutputBitStream offsets = new OutputBitStream(base + ".offsets")) {
            put(offsets, Field.OFFSETS, 0);
            for (int page = 0; page < depth.length; page++) {
                int[] list = lists.get(page);
                int best = 0, least = Integer.MAX_VALUE;
                for (int back = 0; back <= Math.min(window, page) && list.length > 0; back++) {
                    int[] from = lists.get(page - back);
                    if (back > 0 && (from.length == 0 || depth[page - back] >= chain)) continue;
                    int bits = putRecord(none, page, list, back, from);
                    if (bits >= least) continue;
                    best = back;
                    least = bits;
                }
                depth[page] = best == 0 ? 0 : depth[page - best] + 1;
                put(offsets, Field.OFFSETS, putRecord(graph, page, list, best, lists.get(page - best)));
            }
        }
        writeProperties(lists, base);
    }

    /** As Java writes a text of properties, and with two of the framework's statistics. */
    void writeProperties(List<int[]> lists, String base) throws IOException {
        Properties properties = new Properties();
        properties.setProperty("graphclass", "it.unimi.dsi.webgraph.BVGraph");
        properties.setProperty("version", "0");
        properties.setProperty("nodes", "" + lists.size());
        properties.setProperty("arcs", "" + lists.stream().mapToLong(it -> it.length).sum());
        properties.setProperty("windowsize", "" + window);
        properties.setProperty("maxrefcount", "" + (chain == Integer.MAX_VALUE ? -1 : chain));
        properties.setProperty("minintervallength", "" + interval);
        properties.setProperty("zetak", "" + zeta);
        properties.setProperty("compressionflags", flags());
        properties.setProperty("avgref", "1.5");
        properties.setProperty("residualexpstats", "0,1:2");
        try (FileOutputStream out = new FileOutputStream(base + ".properties")) {
            properties.store(out, "BVGraph properties");
        }
    }

    String flags() {
        return codes.entrySet().stream().filter(it -> it.getValue() != it.getKey().usual)
            .map(it -> it.getKey() + "_" + it.getValue()).collect(Collectors.joining(" | "));
    }

    // ---- Reading

    int[] getRecord(InputBitStream in, int page, List<int[]> before) throws IOException {
        int degree = get(in, Field.OUTDEGREES);
        TreeSet<Integer> list = new TreeSet<>();
        int reference = degree > 0 && window > 0 ? get(in, Field.REFERENCES) : 0;
        if (reference > 0) getBlocks(in, before.get(page - reference), list);
        if (list.size() < degree && interval > 0) getRuns(in, page, list);
        for (int left = degree - list.size(), last = 0, i = 0; i < left; i++) {
            last = i == 0 ? page + Fast.nat2int(get(in, Field.RESIDUALS)) : last + 1 + get(in, Field.RESIDUALS);
            list.add(last);
        }
        if (list.size() != degree) throw new IOException("page " + page + ": " + list.size() + " of " + degree);
        return list.stream().mapToInt(it -> it).toArray();
    }

    void getBlocks(InputBitStream in, int[] from, TreeSet<Integer> list) throws IOException {
        int count = get(in, Field.BLOCK_COUNT), end = 0;
        for (int i = 0; i <= count; i++) {
            int begin = end;
            end = i == count ? from.length : begin + get(in, Field.BLOCKS) + (i == 0 ? 0 : 1);
            if (i % 2 == 0) for (int member : Arrays.copyOfRange(from, begin, end)) list.add(member);
        }
    }

    void getRuns(InputBitStream in, int page, TreeSet<Integer> list) throws IOException {
        int count = in.readGamma(), end = 0;
        for (int i = 0; i < count; i++) {
            int begin = i == 0 ? page + Fast.nat2int(in.readGamma()) : end + 1 + in.readGamma();
            end = begin + in.readGamma() + interval;
            IntStream.range(begin, end).forEach(list::add);
        }
    }

    static void read(String base, String to) throws IOException {
        Properties properties = new Properties();
        try (FileInputStream in = new FileInputStream(base + ".properties")) {
            properties.load(in);
        }
        String flags = properties.getProperty("compressionflags").trim();
        Archives archive = new Archives(number(properties, "windowsize"), number(properties, "maxrefcount"),
            number(properties, "minintervallength"), number(properties, "zetak"),
            flags.isEmpty() ? List.of() : Arrays.asList(flags.split("\\s*\\|\\s*")));
        int pages = number(properties, "nodes");
        List<int[]> lists = new ArrayList<>();
        StringBuilder text = new StringBuilder(pages + "\n");
        try (InputBitStream graph = new InputBitStream(base + ".graph");
             InputBitStream offsets = new InputBitStream(base + ".offsets")) {
            for (long place = 0; lists.size() <= pages; ) {
                place += archive.get(offsets, Field.OFFSETS);
                if (place != graph.readBits()) throw new IOException("offset of " + lists.size() + ": " + place);
                if (lists.size() == pages) break;
                int[] list = archive.getRecord(graph, lists.size(), lists);
                lists.add(list);
                text.append(Arrays.stream(list).mapToObj(Integer::toString).collect(Collectors.joining(" ")) + "\n");
            }
        }
        Files.writeString(Path.of(to), text);
    }

    static int number(Properties properties, String key) {
        return Integer.parseInt(properties.getProperty(key));
    }

    // ---- The two commands

    static List<int[]> graphOf(Path text) throws IOException {
        return Files.readAllLines(text).stream().skip(1)
            .map(line -> line.isEmpty() ? new int[0] : Stream.of(line.split(" ")).mapToInt(Integer::parseInt).toArray())
            .collect(Collectors.toList());
    }

    public static void main(String[] none) throws IOException {
        for (Scanner in = new Scanner(System.in); in.hasNextLine(); ) {
            List<String> words = Arrays.asList(in.nextLine().split(" "));
            if (words.get(0).equals("read")) {
                read(words.get(1), words.get(2));
            } else {
                int[] numbers = words.subList(3, 7).stream().mapToInt(Integer::parseInt).toArray();
                new Archives(numbers[0], numbers[1], numbers[2], numbers[3], words.subList(7, words.size()))
                    .write(graphOf(Path.of(words.get(1))), words.get(2));
            }
        }
    }
}
