import java.io.IOException;
import java.lang.management.ManagementFactory;
import java.lang.management.ThreadMXBean;
import java.nio.file.Files;
import java.nio.file.Path;
import java.nio.file.Paths;
import java.util.List;
import org.apache.lucene.analysis.core.WhitespaceAnalyzer;
import org.apache.lucene.document.Document;
import org.apache.lucene.document.Field;
import org.apache.lucene.document.StringField;
import org.apache.lucene.document.TextField;
import org.apache.lucene.index.DirectoryReader;
import org.apache.lucene.index.IndexWriter;
import org.apache.lucene.index.IndexWriterConfig;
import org.apache.lucene.index.Term;
import org.apache.lucene.search.BooleanClause.Occur;
import org.apache.lucene.search.BooleanQuery;
import org.apache.lucene.search.ConstantScoreQuery;
import org.apache.lucene.search.IndexSearcher;
import org.apache.lucene.search.Query;
import org.apache.lucene.search.TermQuery;
import org.apache.lucene.search.TopScoreDocCollector;
import org.apache.lucene.store.Directory;
import org.apache.lucene.store.MMapDirectory;

/**
 * Indexes the documents of a folder with Lucene in one segment, and searches them on one thread for the words of its queries: one word, two joined
 * by AND and two by OR. Each search counts exactly and collects ten documents, without scores. Prints the processor time of each kind.
 */
public final class LuceneSearch {
    private static final ThreadMXBean TIMES = ManagementFactory.getThreadMXBean();

    public static void main(String[] arguments) throws IOException {
        Path folder = Paths.get(arguments[0]);
        try (Directory directory = new MMapDirectory(folder.resolve("index"))) {
            System.out.println("index\t" + index(directory, folder.resolve("documents")));
            try (DirectoryReader reader = DirectoryReader.open(directory)) {
                IndexSearcher searcher = new IndexSearcher(reader);
                searcher.setQueryCache(null);
                List<String> queries = Files.readAllLines(folder.resolve("queries"));
                for (String kind : new String[] {"term", "AND", "OR"}) {
                    for (int round = 0; round < 20; round++) {
                        all(searcher, kind, queries);
                    }
                    double least = Double.MAX_VALUE;
                    for (int round = 0; round < 5; round++) {
                        least = Math.min(least, all(searcher, kind, queries));
                    }
                    System.out.println(kind + "\t" + least);
                }
            }
        }
    }

    /** Microseconds a document, of wall time: Lucene merges in threads of its own. */
    private static double index(Directory directory, Path documents) throws IOException {
        List<String> lines = Files.readAllLines(documents);
        long start = System.nanoTime();
        try (IndexWriter writer = new IndexWriter(directory, new IndexWriterConfig(new WhitespaceAnalyzer()))) {
            for (String line : lines) {
                String[] parts = line.split("\t");
                Document document = new Document();
                document.add(new StringField("id", parts[0], Field.Store.YES));
                document.add(new StringField("lang_s", parts[1], Field.Store.NO));
                document.add(new StringField("price_i", parts[2], Field.Store.NO));
                document.add(new TextField("title_t", parts[3], Field.Store.NO));
                writer.addDocument(document);
            }
            writer.forceMerge(1);
        }
        return (System.nanoTime() - start) / 1e3 / lines.size();
    }

    /** Milliseconds of processor time a search. */
    private static double all(IndexSearcher searcher, String kind, List<String> queries) throws IOException {
        long start = TIMES.getCurrentThreadCpuTime();
        for (String line : queries) {
            String[] words = line.split("\t");
            TopScoreDocCollector collector = TopScoreDocCollector.create(10, Integer.MAX_VALUE);
            searcher.search(new ConstantScoreQuery(query(kind, words)), collector);
            if (collector.topDocs().totalHits.value < 0) {
                throw new IllegalStateException();
            }
        }
        return (TIMES.getCurrentThreadCpuTime() - start) / 1e6 / queries.size();
    }

    private static Query query(String kind, String[] words) {
        Query one = new TermQuery(new Term("title_t", words[0]));
        if (kind.equals("term")) {
            return one;
        }
        Occur occur = kind.equals("AND") ? Occur.MUST : Occur.SHOULD;
        return new BooleanQuery.Builder().add(one, occur).add(new TermQuery(new Term("title_t", words[1])), occur).build();
    }
}
