import cmscanon.CmsCanon;
import java.nio.file.Files;
import java.nio.file.Path;

/** Prints how many seconds it takes to convert a file so many times by so many threads each: FILE TIMES THREADS. */
public final class Threads {
    public static void main(String[] words) throws Exception {
        byte[] message = Files.readAllBytes(Path.of(words[0]));
        int times = Integer.parseInt(words[1]);
        Runnable convertOften = () -> {
            try {
                for (int i = 0; i < times; i++) {
                    CmsCanon.convert(message);
                }
            } catch (CmsCanon.Refused refusal) {
                throw new IllegalStateException(refusal);
            }
        };
        convertOften.run(); // so that what follows is compiled
        Thread[] threads = new Thread[Integer.parseInt(words[2])];
        long began = System.nanoTime();
        for (int i = 0; i < threads.length; i++) {
            threads[i] = new Thread(convertOften);
            threads[i].start();
        }
        for (Thread thread : threads) {
            thread.join();
        }
        System.out.println((System.nanoTime() - began) / 1e9);
    }
}
