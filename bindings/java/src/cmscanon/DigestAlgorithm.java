package cmscanon;

import java.security.MessageDigest;
import java.security.NoSuchAlgorithmException;

/** A digest algorithm that the library knows (FIPS 180-4): {@code enum cms_canon_digest_algorithm}, from 1 in this order. */
enum DigestAlgorithm {
    SHA_1("SHA-1", 20),
    SHA_224("SHA-224", 28),
    SHA_256("SHA-256", 32),
    SHA_384("SHA-384", 48),
    SHA_512("SHA-512", 64),
    SHA_512_224("SHA-512/224", 28),
    SHA_512_256("SHA-512/256", 32);

    private final String standardName;
    private final int octets;

    DigestAlgorithm(String standardName, int octets) {
        this.standardName = standardName;
        this.octets = octets;
    }

    /** The algorithm with this number. Another one is a fault of the library. */
    static DigestAlgorithm numbered(int number) {
        if (number < 1 || number > values().length) {
            throw new IllegalStateException("the library asks for a digest by the algorithm " + number);
        }
        return values()[number - 1];
    }

    int number() {
        return ordinal() + 1;
    }

    /** A digest that has no octets yet. */
    MessageDigest begin() {
        try {
            return MessageDigest.getInstance(standardName);
        } catch (NoSuchAlgorithmException cause) {
            throw new UnsupportedOperationException("no security provider has " + standardName, cause);
        }
    }

    /** The octets of a digest. Another number of them than the algorithm has is a fault of its provider. */
    byte[] end(MessageDigest digest) {
        byte[] ended = digest.digest();
        if (ended.length != octets) {
            throw new IllegalStateException("a digest by " + standardName + " has " + octets + " octets, and that of "
                    + digest.getProvider() + " has " + ended.length);
        }
        return ended;
    }
}
