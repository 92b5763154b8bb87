// Makes and judges the rows of lms.txt with Bouncy Castle 1.72 (Debian's package libbcprov-java), an implementation that
// shares nothing with this project. With a JDK of 17 or later:
//
//     java -cp bcprov.jar Outside.java make <REQUESTS    for each line `NAME INDEX MESSAGE BYTE..`, prints a row, and a row for
//                                                        the turned bit of each byte
//     java -cp bcprov.jar Outside.java key NAME          prints the public key of a name
//     java -cp bcprov.jar Outside.java judge <ROWS       judges each row anew
//     java -cp bcprov.jar Outside.java again <ROWS       makes each row of lms.txt anew
//
// A row is `NAME KEY MESSAGE SIGNATURE VERDICT`. NAME is h, the height, w and the width, as in h15w4; `-bitN` after it says
// that the lowest bit of byte N of the signature is turned. Bytes are in hex, and `-` is the empty message. The key of a name
// (without its `-bitN`) is made by RFC 8554's Appendix A from the seed, which is SHA-256 of the text `seed NAME`, and from the
// identifier I, the first 16 bytes of SHA-256 of the text `id NAME`. Indices of a name rise. A key of height 15 takes half a minute.
import java.io.BufferedReader;
import java.io.InputStreamReader;
import java.math.BigInteger;
import java.nio.charset.StandardCharsets;
import java.security.MessageDigest;
import java.util.Arrays;
import java.util.HashMap;
import java.util.HexFormat;
import java.util.Map;
import org.bouncycastle.pqc.crypto.lms.LMOtsParameters;
import org.bouncycastle.pqc.crypto.lms.LMSPrivateKeyParameters;
import org.bouncycastle.pqc.crypto.lms.LMSPublicKeyParameters;
import org.bouncycastle.pqc.crypto.lms.LMSSigner;
import org.bouncycastle.pqc.crypto.lms.LMSigParameters;

public class Outside {
    static final HexFormat HEX = HexFormat.of();
    static final Map<String, byte[]> KEPT = new HashMap<>();
    static final Map<String, LMSPrivateKeyParameters> KEYS = new HashMap<>();

    static byte[] digest(String text) throws Exception {
        return MessageDigest.getInstance("SHA-256").digest(text.getBytes(StandardCharsets.UTF_8));
    }

    static LMSigParameters typeOf(int height) {
        return switch (height) {
            case 5 -> LMSigParameters.lms_sha256_n32_h5;
            case 10 -> LMSigParameters.lms_sha256_n32_h10;
            default -> LMSigParameters.lms_sha256_n32_h15;
        };
    }

    // The types of LM-OTS have the codes 1 to 4 for the widths 1, 2, 4 and 8.
    static LMSPrivateKeyParameters newKey(String name) throws Exception {
        String[] sizes = name.substring(1).split("w");
        int height = Integer.parseInt(sizes[0]);
        int width = Integer.parseInt(sizes[1]);
        return new LMSPrivateKeyParameters(
            typeOf(height),
            LMOtsParameters.getParametersForType(1 + Integer.numberOfTrailingZeros(width)),
            0, Arrays.copyOf(digest("id " + name), 16), 1 << height, digest("seed " + name));
    }

    // The key of a name, made once: it keeps the top of its tree.
    static LMSPrivateKeyParameters key(String name) throws Exception {
        if (!KEYS.containsKey(name)) {
            KEYS.put(name, newKey(name));
        }
        return KEYS.get(name);
    }

    static byte[] publicKey(String name) throws Exception {
        return key(name).getPublicKey().getEncoded();
    }

    // The signature at an index. Those before it are left out.
    static byte[] signature(String name, int index, byte[] message) throws Exception {
        LMSPrivateKeyParameters key = key(name);
        if (key.getIndex() < index) {
            key.extractKeyShard(index - key.getIndex());
        }
        LMSSigner signer = new LMSSigner();
        signer.init(true, key);
        return signer.generateSignature(message);
    }

    // A signature that can't be read is refused.
    static boolean accepts(byte[] key, byte[] message, byte[] signature) {
        try {
            LMSSigner signer = new LMSSigner();
            signer.init(false, LMSPublicKeyParameters.getInstance(key));
            return signer.verifySignature(message, signature);
        } catch (Exception unreadable) {
            return false;
        }
    }

    static byte[] turned(byte[] bytes, int at) {
        byte[] other = bytes.clone();
        other[at] ^= 1;
        return other;
    }

    static byte[] bytes(String field) {
        return HEX.parseHex(field.equals("-") ? "" : field);
    }

    static void print(String name, byte[] key, String message, byte[] signature) {
        boolean verdict = accepts(key, bytes(message), signature);
        System.out.println(name + " " + HEX.formatHex(key) + " " + message + " " + HEX.formatHex(signature) + " " + verdict);
    }

    static void make(String[] request) throws Exception {
        byte[] key = publicKey(request[0]);
        byte[] made = signature(request[0], Integer.parseInt(request[1]), bytes(request[2]));
        print(request[0], key, request[2], made);
        for (String at : Arrays.copyOfRange(request, 3, request.length)) {
            print(request[0] + "-bit" + at, key, request[2], turned(made, Integer.parseInt(at)));
        }
    }

    static String judged(String[] row) {
        return String.valueOf(accepts(bytes(row[1]), bytes(row[2]), bytes(row[3]))).equals(row[4]) ? "as written" : "OTHER VERDICT";
    }

    // A turned row is made from the one before it, whose index isn't used again.
    static String again(String[] row) throws Exception {
        String[] name = row[0].split("-bit");
        if (name.length == 1) {
            byte[] written = bytes(row[3]);
            int index = new BigInteger(1, Arrays.copyOf(written, 4)).intValueExact();
            KEPT.put(name[0], signature(name[0], index, bytes(row[2])));
        }
        byte[] made = KEPT.get(name[0]);
        byte[] wanted = name.length == 1 ? made : turned(made, Integer.parseInt(name[1]));
        boolean same = Arrays.equals(publicKey(name[0]), bytes(row[1])) && Arrays.equals(wanted, bytes(row[3]));
        return same ? "as written" : "OTHER BYTES";
    }

    public static void main(String[] words) throws Exception {
        if (words[0].equals("key")) {
            System.out.println(words[1] + " " + HEX.formatHex(publicKey(words[1])));
            return;
        }
        BufferedReader input = new BufferedReader(new InputStreamReader(System.in));
        for (String line = input.readLine(); line != null; line = input.readLine()) {
            String[] row = line.split(" ");
            switch (words[0]) {
                case "make" -> make(row);
                case "judge" -> System.out.println(row[0] + " " + judged(row));
                default -> System.out.println(row[0] + " " + again(row));
            }
        }
    }
}
