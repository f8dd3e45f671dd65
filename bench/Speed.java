import java.security.SecureRandom;
import org.bouncycastle.crypto.AsymmetricCipherKeyPair;
import org.bouncycastle.pqc.crypto.lms.*;

/**
 * What Bouncy Castle does a second with three levels of height 5 and w = 4, on one thread, as a measure of the
 * machine beside bench/signatures: signatures in order, and verifications.
 *
 *   java -cp /usr/share/java/bcprov.jar:. Speed [N]
 */
public class Speed {
    public static void main(String[] words) throws Exception {
        int count = words.length > 0 ? Integer.parseInt(words[0]) : 2000;
        LMSParameters level = new LMSParameters(LMSigParameters.lms_sha256_n32_h5, LMOtsParameters.sha256_n32_w4);
        LMSParameters[] levels = { level, level, level };
        HSSKeyPairGenerator generator = new HSSKeyPairGenerator();
        generator.init(new HSSKeyGenerationParameters(levels, new SecureRandom()));
        AsymmetricCipherKeyPair pair = generator.generateKeyPair();
        HSSSigner signer = new HSSSigner();
        HSSSigner verifier = new HSSSigner();
        signer.init(true, pair.getPrivate());
        verifier.init(false, pair.getPublic());
        byte[] message = "a message".getBytes();
        byte[] signature = null;
        // a warm start, for Java's compiler
        for (int i = 0; i < 1000; i++) {
            signature = signer.generateSignature(message);
            verifier.verifySignature(message, signature);
        }
        long start = System.nanoTime();
        for (int i = 0; i < count; i++) signature = signer.generateSignature(message);
        long signed = System.nanoTime();
        int verified = 0;
        for (int i = 0; i < count; i++) verified += verifier.verifySignature(message, signature) ? 1 : 0;
        long end = System.nanoTime();
        System.out.printf("signed a second: %.0f%n", count / ((signed - start) / 1e9));
        System.out.printf("verified a second: %.0f%n", verified / ((end - signed) / 1e9));
    }
}
