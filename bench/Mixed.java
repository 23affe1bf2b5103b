// Apache Lucene 8 on the mixed queries of bench/batch.py, answered by several threads that share one searcher: boxes
// over a field of two whole numbers (IntPoint), the nearest over two floats, which hold these coordinates exactly, and
// triangles over XYPointField.
//
// index POINTS FOLDER                 indexes the points of a file, one `X Y` a line, into one segment
// ask FOLDER QUERIES ROUNDS THREADS   answers lines as `bkd batch` reads them; no text is written
//
// Standard output has how many documents the boxes found; standard error has the seconds of the best round.
import java.io.BufferedReader;
import java.io.IOException;
import java.nio.file.Files;
import java.nio.file.Path;
import java.nio.file.Paths;
import java.util.ArrayList;
import java.util.List;
import java.util.concurrent.Callable;
import java.util.concurrent.ExecutorService;
import java.util.concurrent.Executors;
import java.util.concurrent.Future;
import java.util.regex.Matcher;
import java.util.regex.Pattern;
import org.apache.lucene.document.Document;
import org.apache.lucene.document.FloatPoint;
import org.apache.lucene.document.FloatPointNearestNeighbor;
import org.apache.lucene.document.IntPoint;
import org.apache.lucene.document.XYPointField;
import org.apache.lucene.geo.XYPolygon;
import org.apache.lucene.index.DirectoryReader;
import org.apache.lucene.index.IndexWriter;
import org.apache.lucene.index.IndexWriterConfig;
import org.apache.lucene.index.LogDocMergePolicy;
import org.apache.lucene.search.IndexSearcher;
import org.apache.lucene.search.Query;
import org.apache.lucene.search.ScoreMode;
import org.apache.lucene.search.SimpleCollector;
import org.apache.lucene.store.Directory;
import org.apache.lucene.store.MMapDirectory;

public final class Mixed {
    private static final Pattern NUMBER = Pattern.compile("-?\\d+");

    /** Collects the numbers of the documents that are found, as a program would that answers them. */
    private static final class Numbers extends SimpleCollector {
        private final int[] found = new int[1 << 20];
        private int count;

        @Override
        public void collect(int doc) {
            found[count++] = doc;
        }

        @Override
        public ScoreMode scoreMode() {
            return ScoreMode.COMPLETE_NO_SCORES;
        }
    }

    private static void index(Path points, Path folder) throws IOException {
        IndexWriterConfig config = new IndexWriterConfig().setMergePolicy(new LogDocMergePolicy());
        config.setUseCompoundFile(false);
        try (Directory directory = new MMapDirectory(folder); IndexWriter writer = new IndexWriter(directory, config);
                BufferedReader lines = Files.newBufferedReader(points)) {
            for (String line = lines.readLine(); line != null; line = lines.readLine()) {
                List<Integer> at = numbers(line);
                Document document = new Document();
                document.add(new IntPoint("whole", at.get(0), at.get(1)));
                document.add(new FloatPoint("float", at.get(0), at.get(1)));
                document.add(new XYPointField("plane", at.get(0), at.get(1)));
                writer.addDocument(document);
            }
            writer.forceMerge(1);
            writer.commit();
        }
    }

    private static List<Integer> numbers(String line) {
        List<Integer> found = new ArrayList<>();
        for (Matcher one = NUMBER.matcher(line); one.find();) {
            found.add(Integer.parseInt(one.group()));
        }
        return found;
    }

    /** Answers one line, and tells how many documents a box found. */
    private static long ask(IndexSearcher searcher, String line, Numbers numbers) throws IOException {
        List<Integer> n = numbers(line);
        numbers.count = 0;
        if (line.startsWith("box")) {
            int[] least = {n.get(0), n.get(1)};
            int[] greatest = {n.get(2), n.get(3)};
            searcher.search(IntPoint.newRangeQuery("whole", least, greatest), numbers);
            return numbers.count;
        }
        if (line.startsWith("nearest")) {
            FloatPointNearestNeighbor.nearest(searcher, "float", n.get(0), (float) n.get(1), (float) n.get(2));
            return 0;
        }
        float[] x = new float[n.size() / 2];
        float[] y = new float[n.size() / 2];
        for (int i = 0; i < x.length; i++) {
            x[i] = n.get(2 * i);
            y[i] = n.get(2 * i + 1);
        }
        Query polygon = XYPointField.newPolygonQuery("plane", new XYPolygon(x, y));
        searcher.search(polygon, numbers);
        return 0;
    }

    private static long part(IndexSearcher searcher, List<String> lines) throws IOException {
        Numbers numbers = new Numbers();
        long found = 0;
        for (String line : lines) {
            found += ask(searcher, line, numbers);
        }
        return found;
    }

    public static void main(String[] words) throws Exception {
        if (words[0].equals("index")) {
            index(Paths.get(words[1]), Paths.get(words[2]));
            return;
        }
        List<String> lines = Files.readAllLines(Paths.get(words[2]));
        int threads = Integer.parseInt(words[4]);
        ExecutorService pool = Executors.newFixedThreadPool(threads);
        long least = Long.MAX_VALUE;
        long found = 0;
        try (Directory directory = new MMapDirectory(Paths.get(words[1]));
                DirectoryReader reader = DirectoryReader.open(directory)) {
            IndexSearcher searcher = new IndexSearcher(reader);
            searcher.setQueryCache(null);
            for (int round = 0; round <= Integer.parseInt(words[3]); round++) {
                long begun = System.nanoTime();
                List<Callable<Long>> parts = new ArrayList<>();
                for (int i = 0; i < threads; i++) {
                    int from = (int) ((long) lines.size() * i / threads);
                    int to = (int) ((long) lines.size() * (i + 1) / threads);
                    parts.add(() -> part(searcher, lines.subList(from, to)));
                }
                found = 0;
                for (Future<Long> one : pool.invokeAll(parts)) {
                    found += one.get();
                }
                if (round > 0) {
                    least = Math.min(least, System.nanoTime() - begun);
                }
            }
        }
        pool.shutdown();
        System.out.println(found);
        System.err.printf("%.4f%n", least / 1e9);
    }
}
