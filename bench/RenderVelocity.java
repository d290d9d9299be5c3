import java.io.StringWriter;
import java.nio.file.Files;
import java.nio.file.Path;
import org.apache.velocity.VelocityContext;
import org.apache.velocity.app.VelocityEngine;

/** Renders a template with Velocity 1.7 eleven times in one process, and prints the first and the best time. */
public class RenderVelocity {
    public static void main(String[] args) throws Exception {
        String template = Files.readString(Path.of(args[0]));
        long steps = Long.parseLong(args[1]);
        VelocityEngine engine = new VelocityEngine();
        engine.setProperty("runtime.log.logsystem.class", "org.apache.velocity.runtime.log.NullLogChute");
        engine.init();
        double first = 0;
        double best = Double.MAX_VALUE;
        for (int turn = 0; turn < 11; turn++) {
            StringWriter text = new StringWriter();
            long from = System.nanoTime();
            engine.evaluate(new VelocityContext(), text, "bench", template);
            double taken = (System.nanoTime() - from) / 1e9;
            if (turn == 0) {
                first = taken;
            }
            best = Math.min(best, taken);
        }
        System.out.printf("%.3f s at first, %.3f s at best, %.0f steps/s%n", first, best, steps / best);
    }
}
