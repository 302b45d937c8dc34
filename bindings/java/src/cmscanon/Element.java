package cmscanon;

import java.util.ArrayList;
import java.util.Arrays;
import java.util.List;

/**
 * An element in DER whose identifier is one octet, as far as elements are looked into in Java.
 *
 * @param identifier the identifier
 * @param contents the contents octets
 * @param octets all octets
 */
record Element(int identifier, byte[] contents, byte[] octets) {
    private static final int LONG_FORM = 0x80;
    private static final int LONG_TAG = 0x1f;

    /** Octets that are not what is due. */
    static final class NoElement extends Exception {
        private static final long serialVersionUID = 1L;

        NoElement() {
            super("another element is due", null, false, false);
        }
    }

    /** The one element that octets are. */
    static Element only(byte[] octets) throws NoElement {
        List<Element> found = elements(octets, 1);
        if (found.size() != 1) {
            throw new NoElement();
        }
        return found.get(0);
    }

    /** The elements that octets are, one after another: at most so many, since millions of small ones would take much memory. */
    static List<Element> elements(byte[] octets, int most) throws NoElement {
        List<Element> found = new ArrayList<>();
        for (int at = 0; at < octets.length; at += found.get(found.size() - 1).octets.length) {
            if (found.size() == most) {
                throw new NoElement();
            }
            found.add(at(octets, at));
        }
        return found;
    }

    /** The contents, if the identifier is this one. */
    byte[] contentsIf(int due) throws NoElement {
        if (identifier != due) {
            throw new NoElement();
        }
        return contents;
    }

    private static Element at(byte[] octets, int at) throws NoElement {
        if (octets.length - at < 2 || (octets[at] & LONG_TAG) == LONG_TAG) {
            throw new NoElement();
        }
        int first = octets[at + 1] & 0xff;
        int begin = at + 2 + (first < LONG_FORM ? 0 : first - LONG_FORM);
        if (begin > octets.length) {
            throw new NoElement();
        }
        long length = first < LONG_FORM ? first : lengthIn(octets, at + 2, begin);
        if (length > octets.length - begin) {
            throw new NoElement();
        }
        int end = begin + (int) length;
        return new Element(octets[at] & 0xff, Arrays.copyOfRange(octets, begin, end), Arrays.copyOfRange(octets, at, end));
    }

    /** A length that has octets of its own, and no more than it needs (X.690, section 10.1). */
    private static long lengthIn(byte[] octets, int begin, int end) throws NoElement {
        if (begin == end || octets[begin] == 0 || end - begin > Integer.BYTES) {
            throw new NoElement();
        }
        long length = 0;
        for (int at = begin; at < end; at++) {
            length = length << 8 | octets[at] & 0xff;
        }
        if (length < LONG_FORM) {
            throw new NoElement();
        }
        return length;
    }
}
