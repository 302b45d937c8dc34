package cmscanon;

import static cmscanon.Samples.DATA;
import static cmscanon.Samples.cameOf;
import static cmscanon.Samples.message;
import static org.junit.jupiter.api.Assertions.assertEquals;
import static org.junit.jupiter.api.Assertions.assertThrows;

import org.junit.jupiter.api.Test;

/** What a call throws if memory runs out: tests/c/refusing.c refuses the first growth of the library, and no other. */
final class GrowthsTest {
    @Test
    void refusedGrowth() {
        byte[] data = message(DATA, "3100");
        assertThrows(OutOfMemoryError.class, () -> CmsCanon.read(data), "the growth refused");
        assertEquals(MessageKind.SIGNED_DATA.name(), cameOf(() -> CmsCanon.read(data).kind()), "the next call");
    }
}
