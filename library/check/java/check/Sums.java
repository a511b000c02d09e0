package check;

import java.io.BufferedReader;
import java.io.InputStreamReader;

/** Prints what sequences sum up on this JVM: of lines `CLASS SEED CALLS` of the input, with `each` behind every call, or of one sequence with each of its steps. */
public final class Sums {
    private Sums() {
    }

    public static void main(String[] words) throws Exception {
        if (words.length > 1) {
            Calls.shows = true;
            System.out.println(run(words).sum());
            return;
        }
        Calls.keeps = words.length == 1;
        BufferedReader input = new BufferedReader(new InputStreamReader(System.in));
        StringBuilder made = new StringBuilder();
        for (String line = input.readLine(); line != null; line = input.readLine()) {
            Calls found = run(line.split(" "));
            made.append(Calls.keeps ? escaped(found.told()) : String.valueOf(found.sum())).append('\n');
        }
        System.out.print(made);
    }

    private static String escaped(String of) {
        StringBuilder made = new StringBuilder();
        for (char next : of.toCharArray()) {
            made.append(String.format("\\u%04x", (int) next));
        }
        return made.toString();
    }

    private static Calls run(String[] words) throws Exception {
        return (Calls) Class.forName("check." + words[0]).getMethod("run", int.class, String.class, int.class)
            .invoke(null, Integer.parseInt(words[1]), null, Integer.parseInt(words[2]));
    }
}
