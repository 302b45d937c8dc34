import java.io.File;
import java.io.FileInputStream;
import java.io.InputStream;
import java.security.MessageDigest;
import java.util.Arrays;
import java.util.Properties;
import javax.mail.Multipart;
import javax.mail.Part;
import javax.mail.Session;
import javax.mail.internet.MimeMessage;

/** Prints of each mail in a folder the SHA-256 of each octet that JavaMail shows of the first part of its outermost multipart/signed. */
public final class FirstParts {
    public static void main(String[] folder) throws Exception {
        File[] files = new File(folder[0]).listFiles();
        Arrays.sort(files);
        for (File file : files) {
            String said;
            try (InputStream octets = new FileInputStream(file)) {
                MimeMessage mail = new MimeMessage(Session.getInstance(new Properties()), octets);
                MessageDigest digest = MessageDigest.getInstance("SHA-256");
                said = add(digest, signed(mail)) ? hex(digest.digest()) : "nothing";
            } catch (Exception failed) {
                said = "nothing";
            }
            System.out.println(file.getName() + " " + said);
        }
    }

    /** Returns the first part of the outermost multipart/signed; null if there is none. */
    private static Part signed(Part part) throws Exception {
        if (!part.isMimeType("multipart/*")) {
            return null;
        }
        Multipart parts = (Multipart) part.getContent();
        if (part.isMimeType("multipart/signed")) {
            return parts.getBodyPart(0);
        }
        for (int number = 0; number < parts.getCount(); number++) {
            Part found = signed(parts.getBodyPart(number));
            if (found != null) {
                return found;
            }
        }
        return null;
    }

    private static boolean add(MessageDigest digest, Part part) throws Exception {
        if (part == null) {
            return false;
        }
        if (part.isMimeType("multipart/*")) {
            Multipart parts = (Multipart) part.getContent();
            for (int number = 0; number < parts.getCount(); number++) {
                add(digest, parts.getBodyPart(number));
            }
            return true;
        }
        try (InputStream octets = part.getInputStream()) {
            String text = new String(octets.readAllBytes(), "ISO-8859-1");
            digest.update(text.replace("\r\n", "\n").getBytes("ISO-8859-1"));
            digest.update((byte) 0);
        }
        return true;
    }

    private static String hex(byte[] octets) {
        StringBuilder text = new StringBuilder();
        for (byte octet : octets) {
            text.append(String.format("%02x", octet));
        }
        return text.toString();
    }
}
