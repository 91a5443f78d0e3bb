import java.lang.invoke.MethodHandle;
import java.lang.invoke.MethodType;
import java.nio.file.Files;
import java.nio.file.Path;
import java.util.Locale;
import jdk.incubator.foreign.*;

/**
 * Prints the mean outdegree of an archive, and its farthest link: Links LIBRARY BASE. It needs JDK 17, whose foreign
 * functions are in an incubator; later versions have them under other names, from 22 on in java.lang.foreign.
 *
 *     java --add-modules jdk.incubator.foreign --enable-native-access=ALL-UNNAMED Links.java libwebgraph.so BASE
 */
public class Links {
    static final MemoryLayout AT = CLinker.C_POINTER, LONG = CLinker.C_LONG;

    static MethodHandle call(String name, MemoryLayout... layouts) {
        Class<?>[] types = new Class<?>[layouts.length];
        for (int i = 0; i < types.length; i++) types[i] = layouts[i] == AT ? MemoryAddress.class : long.class;
        return CLinker.getInstance().downcallHandle(SymbolLookup.loaderLookup().lookup(name).orElseThrow(),
            MethodType.methodType(int.class, types), FunctionDescriptor.of(CLinker.C_INT, layouts));
    }

    // Room for so many bytes, and never a null address.
    static MemorySegment room(long bytes) {
        return MemorySegment.allocateNative(Math.max(bytes, 8), 8, ResourceScope.globalScope());
    }

    static MemorySegment file(String name) throws Exception {
        byte[] bytes = Files.readAllBytes(Path.of(name));
        MemorySegment copy = room(bytes.length);
        copy.asSlice(0, bytes.length).copyFrom(MemorySegment.ofArray(bytes));
        return copy;
    }

    static void accept(int status) {
        if (status == 0) return;
        System.err.println("Links: status " + status);
        System.exit(status);
    }

    public static void main(String[] words) throws Throwable {
        System.load(Path.of(words[0]).toAbsolutePath().toString());
        MemorySegment text = file(words[1] + ".properties"), graph = file(words[1] + ".graph");
        MemorySegment params = room(72), fault = room(48);
        accept((int) call("wg_read_properties", AT, LONG, AT).invokeExact(text.address(),
            Files.size(Path.of(words[1] + ".properties")), params.address()));
        long nodes = MemoryAccess.getLongAtIndex(params, 0), arcs = MemoryAccess.getLongAtIndex(params, 1);
        MemorySegment ends = room(8 * nodes), all = room(8 * arcs);
        accept((int) call("wg_read_lists", AT, AT, LONG, AT, LONG, AT, LONG, AT).invokeExact(params.address(),
            graph.address(), Files.size(Path.of(words[1] + ".graph")), ends.address(), nodes, all.address(), arcs,
            fault.address()));
        long far = 0, from = 0, to = 0, at = 0;
        for (long page = 0; page < nodes; page++) {
            for (long end = MemoryAccess.getLongAtIndex(ends, page); at < end; at++) {
                long other = MemoryAccess.getLongAtIndex(all, at);
                if (Math.abs(other - page) > far) {
                    far = Math.abs(other - page);
                    from = page;
                    to = other;
                }
            }
        }
        System.out.printf(Locale.ROOT, "%.3f successors a page; the farthest link is from %d to %d%n",
            nodes == 0 ? 0.0 : (double) arcs / nodes, from, to);
    }
}
