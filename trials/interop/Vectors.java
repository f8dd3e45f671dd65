import java.io.ByteArrayOutputStream;
import java.nio.file.Files;
import java.nio.file.Paths;
import java.security.SecureRandom;
import java.util.List;
import org.bouncycastle.crypto.AsymmetricCipherKeyPair;
import org.bouncycastle.pqc.crypto.lms.*;
import org.bouncycastle.util.encoders.Hex;

/**
 * Makes HSS signatures with Bouncy Castle, and verifies the lines of a file with it. A line is
 * PUBLIC MESSAGE SIGNATURE in hex.
 *
 *   javac -cp /usr/share/java/bcprov.jar Vectors.java
 *   java -cp /usr/share/java/bcprov.jar:. Vectors make           prints lines
 *   java -cp /usr/share/java/bcprov.jar:. Vectors verify FILE    prints verified or refused for each
 */
public class Vectors {
    static final LMOtsParameters W1 = LMOtsParameters.sha256_n32_w1;
    static final LMOtsParameters W2 = LMOtsParameters.sha256_n32_w2;
    static final LMOtsParameters W4 = LMOtsParameters.sha256_n32_w4;
    static final LMOtsParameters W8 = LMOtsParameters.sha256_n32_w8;

    static void make(String message, LMOtsParameters... levels) throws Exception {
        LMSParameters[] parameters = new LMSParameters[levels.length];
        for (int i = 0; i < levels.length; i++) {
            parameters[i] = new LMSParameters(LMSigParameters.lms_sha256_n32_h5, levels[i]);
        }
        SecureRandom random = SecureRandom.getInstance("SHA1PRNG");
        random.setSeed(message.getBytes());
        HSSKeyPairGenerator generator = new HSSKeyPairGenerator();
        generator.init(new HSSKeyGenerationParameters(parameters, random));
        AsymmetricCipherKeyPair pair = generator.generateKeyPair();
        HSSSigner signer = new HSSSigner();
        signer.init(true, pair.getPrivate());
        byte[] text = message.getBytes();
        byte[] signature = null;
        for (int i = 0; i < 34; i++) {
            // the 34th signature, so that with two levels or more it is under a second lower tree
            if (levels.length == 1 && i == 32) break;
            signature = signer.generateSignature(text);
        }
        byte[] key = ((HSSPublicKeyParameters) pair.getPublic()).getEncoded();
        System.out.println(Hex.toHexString(key) + " " + Hex.toHexString(text) + " " + Hex.toHexString(signature));
    }

    public static void main(String[] words) throws Exception {
        if (words[0].equals("make")) {
            make("one level, w = 1", W1);
            make("one level, w = 2", W2);
            make("two levels, w = 4", W4, W4);
            make("three levels, w = 8", W8, W8, W8);
            make("two levels, w = 8 over w = 4", W8, W4);
            return;
        }
        for (String line : Files.readAllLines(Paths.get(words[1]))) {
            String[] parts = line.split(" ");
            HSSPublicKeyParameters key = HSSPublicKeyParameters.getInstance(Hex.decode(parts[0]));
            HSSSigner verifier = new HSSSigner();
            verifier.init(false, key);
            System.out.println(verifier.verifySignature(Hex.decode(parts[1]), Hex.decode(parts[2])) ? "verified" : "refused");
        }
    }
}
