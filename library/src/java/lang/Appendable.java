package java.lang;

import java.io.IOException;

public interface Appendable {
    Appendable append(CharSequence of) throws IOException;

    Appendable append(CharSequence of, int from, int to) throws IOException;

    Appendable append(char of) throws IOException;
}
