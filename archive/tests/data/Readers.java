import java.io.BufferedReader;
import java.io.ByteArrayInputStream;
import java.io.FileInputStream;
import java.io.InputStream;
import java.io.InputStreamReader;
import java.io.PrintStream;
import java.nio.charset.StandardCharsets;
import java.security.MessageDigest;
import java.util.Enumeration;
import java.util.HexFormat;
import java.util.jar.JarEntry;
import java.util.jar.JarFile;
import java.util.zip.ZipEntry;
import java.util.zip.ZipInputStream;

/**
 * Reads zips as Java does, so that archive/tests/test_readers.py can compare that with what other readers show.
 *
 * <p>Its argument names the reader: JarFile, a verifying JarFile (as jarsigner has it), or ZipInputStream. A line of the input is a path. For
 * each the output has a line for each member: the path, the name of the member in hexadecimal digits, and the SHA-256 of its octets.
 */
public final class Readers {
    private static final PrintStream OUT = new PrintStream(System.out, false, StandardCharsets.UTF_8);

    private static void show(String path, String name, InputStream octets) throws Exception {
        MessageDigest digest = MessageDigest.getInstance("SHA-256");
        byte[] piece = new byte[8192];
        for (int count = octets.read(piece); count >= 0; count = octets.read(piece)) {
            digest.update(piece, 0, count);
        }
        HexFormat hex = HexFormat.of();
        OUT.println(path + "\t" + hex.formatHex(name.getBytes(StandardCharsets.UTF_8)) + "\t" + hex.formatHex(digest.digest()));
    }

    private static void showFile(String path, boolean isVerified) {
        try (JarFile file = new JarFile(path, isVerified)) {
            for (Enumeration<JarEntry> entries = file.entries(); entries.hasMoreElements(); ) {
                JarEntry entry = file.getJarEntry(entries.nextElement().getName());
                if (entry == null || entry.isDirectory() && entry.getSize() == 0) {
                    continue;
                }
                try (InputStream octets = file.getInputStream(entry)) {
                    show(path, entry.getName(), octets);
                } catch (SecurityException why) {
                    show(path, entry.getName(), new ByteArrayInputStream("refused by its signature".getBytes(StandardCharsets.UTF_8)));
                } catch (Exception why) {
                    continue; // it does not show this member
                }
            }
        } catch (Exception why) {
            return; // it does not show this file
        }
    }

    private static void showStream(String path) {
        try (ZipInputStream stream = new ZipInputStream(new FileInputStream(path))) {
            for (ZipEntry entry = stream.getNextEntry(); entry != null; entry = stream.getNextEntry()) {
                if (!entry.isDirectory()) {
                    show(path, entry.getName(), stream);
                }
            }
        } catch (Exception why) {
            return; // it shows no more of this file
        }
    }

    public static void main(String[] words) throws Exception {
        BufferedReader in = new BufferedReader(new InputStreamReader(System.in, StandardCharsets.UTF_8));
        for (String path = in.readLine(); path != null; path = in.readLine()) {
            if (words[0].equals("ZipInputStream")) {
                showStream(path);
            } else {
                showFile(path, words[0].equals("verifying JarFile"));
            }
        }
        OUT.flush();
    }
}
