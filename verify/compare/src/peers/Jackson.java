// SPDX-License-Identifier: Apache-2.0

import com.fasterxml.jackson.core.JsonParser;
import com.fasterxml.jackson.core.JsonToken;
import com.fasterxml.jackson.dataformat.cbor.CBORFactory;
import com.fasterxml.jackson.dataformat.cbor.CBORGenerator;
import java.io.ByteArrayOutputStream;
import java.io.IOException;

/**
 * The works of the calls for C, done by Jackson's streams for CBOR.
 *
 * <p>usage: java Jackson check|copy SIZE COUNT ROUNDS
 *
 * <p>It reads standard input whole, and does a work on it ROUNDS times. {@code check} reads the one item in it and keeps
 * nothing. {@code copy} copies it event by event. It prints the sum of the lengths. Before that it does the work often
 * enough that the virtual machine has compiled it.
 */
final class Jackson {
    /** How often the work is done before the rounds that count, at most, and on how many bytes. */
    private static final long MOST_ROUNDS = 3000;

    private static final long WARM = 64L << 20;

    private static final CBORFactory FACTORY = new CBORFactory();

    private Jackson() {}

    /** Reads each event. A text is read whole, since Jackson decodes its bytes when they are asked for. */
    private static long check(byte[] data) throws IOException {
        try (JsonParser parser = FACTORY.createParser(data)) {
            for (JsonToken token = parser.nextToken(); token != null; token = parser.nextToken()) {
                if (token == JsonToken.VALUE_STRING) {
                    parser.getTextLength();
                } else if (token == JsonToken.VALUE_EMBEDDED_OBJECT) {
                    parser.getBinaryValue();
                }
            }
            return data.length;
        }
    }

    private static long copy(byte[] data) throws IOException {
        ByteArrayOutputStream out = new ByteArrayOutputStream(data.length);
        try (JsonParser parser = FACTORY.createParser(data); CBORGenerator generator = FACTORY.createGenerator(out)) {
            generator.enable(CBORGenerator.Feature.WRITE_MINIMAL_INTS);
            while (parser.nextToken() != null) {
                generator.copyCurrentEvent(parser);
            }
        }
        return out.size();
    }

    private static long sum(String work, byte[] data, long rounds) throws IOException {
        long sum = 0;
        for (long round = 0; round < rounds; round++) {
            sum += work.equals("check") ? check(data) : copy(data);
        }
        return sum;
    }

    public static void main(String[] words) throws IOException {
        if (!words[0].equals("check") && !words[0].equals("copy")) {
            System.exit(2);
        }
        byte[] data = System.in.readAllBytes();
        sum(words[0], data, Math.min(MOST_ROUNDS, 1 + WARM / Math.max(1, data.length)));
        System.out.println(sum(words[0], data, Long.parseLong(words[3])));
    }
}
