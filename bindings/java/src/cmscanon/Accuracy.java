// scripts/generate writes this file from bindings/records.toml.
package cmscanon;

import java.math.BigInteger;

/**
 * By how much the time of a token may be off (RFC 3161, section 2.4.2): the sum of what is not absent.
 *
 * @param seconds whole seconds, any INTEGER; null if they are absent
 * @param millis milliseconds, from 1 to 999; null if they are absent
 * @param micros microseconds, from 1 to 999; null if they are absent
 */
public record Accuracy(@Nullable BigInteger seconds, @Nullable Integer millis, @Nullable Integer micros) {}
