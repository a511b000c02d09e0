package java.io;

public class StringWriter extends Writer {
    private final StringBuffer made = new StringBuffer();

    public StringWriter() {
    }

    public StringWriter(int size) {
        if (size < 0) {
            throw new IllegalArgumentException("Negative buffer size");
        }
    }

    @Override
    public void write(int of) {
        made.append((char) of);
    }

    @Override
    public void write(char[] of, int at, int count) {
        made.append(of, at, count);
    }

    @Override
    public void write(String of) {
        made.append(of.toString());
    }

    @Override
    public void write(String of, int at, int count) {
        made.append(of, at, at + count);
    }

    @Override
    public StringWriter append(CharSequence of) {
        write(String.valueOf((Object) of));
        return this;
    }

    @Override
    public StringWriter append(CharSequence of, int from, int to) {
        write(String.valueOf((Object) of).substring(from, to));
        return this;
    }

    @Override
    public StringWriter append(char of) {
        write(of);
        return this;
    }

    public StringBuffer getBuffer() {
        return made;
    }

    @Override
    public String toString() {
        return made.toString();
    }

    @Override
    public void flush() {
    }

    @Override
    public void close() throws IOException {
    }
}
