// Apache Lucene 8 on the points and queries of bench/program.py: a field of two whole numbers (IntPoint) for boxes, and
// one of two floats, which hold these coordinates exactly, for the nearest.
//
// index POINTS FOLDER merge|apart      indexes the points of a file, one `X Y` a line, and commits; `merge` leaves one
//                                      segment
// boxes FOLDER QUERIES ROUNDS          answers boxes, one `X0 Y0 X1 Y1` a line
// near FOLDER QUERIES ROUNDS K POINTS  finds the K nearest to each `X Y`; the distances are reckoned from the file of
//                                      the points
//
// Answers are printed as bkd prints them; standard error has the microseconds of a query of the best round.
import java.io.BufferedReader;
import java.io.IOException;
import java.io.PrintStream;
import java.nio.file.Files;
import java.nio.file.Path;
import java.nio.file.Paths;
import java.util.ArrayList;
import java.util.Arrays;
import java.util.List;
import org.apache.lucene.document.Document;
import org.apache.lucene.document.FloatPoint;
import org.apache.lucene.document.FloatPointNearestNeighbor;
import org.apache.lucene.document.IntPoint;
import org.apache.lucene.index.DirectoryReader;
import org.apache.lucene.index.IndexWriter;
import org.apache.lucene.index.IndexWriterConfig;
import org.apache.lucene.index.LeafReaderContext;
import org.apache.lucene.index.LogDocMergePolicy;
import org.apache.lucene.search.IndexSearcher;
import org.apache.lucene.search.ScoreDoc;
import org.apache.lucene.search.ScoreMode;
import org.apache.lucene.search.SimpleCollector;
import org.apache.lucene.store.Directory;
import org.apache.lucene.store.MMapDirectory;

public final class Lucene {
    private static List<int[]> read(Path file) throws IOException {
        List<int[]> rows = new ArrayList<>();
        try (BufferedReader lines = Files.newBufferedReader(file)) {
            for (String line = lines.readLine(); line != null; line = lines.readLine()) {
                rows.add(Arrays.stream(line.split(" ")).mapToInt(Integer::parseInt).toArray());
            }
        }
        return rows;
    }

    private static void index(Path points, Path folder, boolean merge) throws IOException {
        // with this policy documents keep the order in which they were added, so that a document's number is its line
        IndexWriterConfig config = new IndexWriterConfig().setMergePolicy(new LogDocMergePolicy());
        config.setUseCompoundFile(false);
        try (Directory directory = new MMapDirectory(folder); IndexWriter writer = new IndexWriter(directory, config);
                BufferedReader lines = Files.newBufferedReader(points)) {
            for (String line = lines.readLine(); line != null; line = lines.readLine()) {
                int space = line.indexOf(' ');
                int x = Integer.parseInt(line.substring(0, space));
                int y = Integer.parseInt(line.substring(space + 1));
                Document document = new Document();
                document.add(new IntPoint("whole", x, y));
                if (merge) {
                    document.add(new FloatPoint("float", x, y));
                }
                writer.addDocument(document);
            }
            if (merge) {
                writer.forceMerge(1);
            }
            writer.commit();
        }
    }

    /** The numbers of the documents that are collected. */
    private static final class Numbers extends SimpleCollector {
        private int[] found = new int[1024];
        private int count;
        private int base;

        @Override
        protected void doSetNextReader(LeafReaderContext context) {
            base = context.docBase;
        }

        @Override
        public void collect(int doc) {
            if (count == found.length) {
                found = Arrays.copyOf(found, 2 * count);
            }
            found[count++] = base + doc;
        }

        @Override
        public ScoreMode scoreMode() {
            return ScoreMode.COMPLETE_NO_SCORES;
        }
    }

    private static void boxes(IndexSearcher searcher, List<int[]> queries, PrintStream out) throws IOException {
        Numbers numbers = new Numbers();
        for (int[] q : queries) {
            numbers.count = 0;
            searcher.search(IntPoint.newRangeQuery("whole", new int[] {q[0], q[1]}, new int[] {q[2], q[3]}), numbers);
            if (out != null) {
                Arrays.sort(numbers.found, 0, numbers.count);
                out.println("hits " + numbers.count);
                for (int i = 0; i < numbers.count; i++) {
                    out.println(numbers.found[i]);
                }
            }
        }
    }

    private static void near(IndexSearcher searcher, List<int[]> queries, int k, List<int[]> points, PrintStream out)
            throws IOException {
        for (int[] q : queries) {
            ScoreDoc[] found =
                FloatPointNearestNeighbor.nearest(searcher, "float", k, (float) q[0], (float) q[1]).scoreDocs;
            if (out != null) {
                out.println("near " + found.length);
                for (ScoreDoc one : found) {
                    int[] p = points.get(one.doc);
                    long dx = p[0] - q[0];
                    long dy = p[1] - q[1];
                    out.println(one.doc + " " + (dx * dx + dy * dy));
                }
            }
        }
    }

    public static void main(String[] words) throws IOException {
        if (words[0].equals("index")) {
            index(Paths.get(words[1]), Paths.get(words[2]), words[3].equals("merge"));
            return;
        }
        List<int[]> queries = read(Paths.get(words[2]));
        int rounds = Integer.parseInt(words[3]);
        try (Directory directory = new MMapDirectory(Paths.get(words[1]));
             DirectoryReader reader = DirectoryReader.open(directory)) {
            IndexSearcher searcher = new IndexSearcher(reader);
            searcher.setQueryCache(null);
            boolean isNear = words[0].equals("near");
            int k = isNear ? Integer.parseInt(words[4]) : 0;
            List<int[]> points = isNear ? read(Paths.get(words[5])) : null;
            PrintStream out = new PrintStream(System.out, false);
            long least = Long.MAX_VALUE;
            for (int round = 0; round <= rounds; round++) {
                PrintStream to = round == 0 ? out : null;
                long begun = System.nanoTime();
                if (isNear) {
                    near(searcher, queries, k, points, to);
                } else {
                    boxes(searcher, queries, to);
                }
                if (round > 0) {
                    least = Math.min(least, System.nanoTime() - begun);
                }
            }
            out.flush();
            System.err.printf("%.3f%n", least / 1000.0 / queries.size());
        }
    }
}
