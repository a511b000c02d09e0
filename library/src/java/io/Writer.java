package java.io;

public abstract class Writer implements Appendable, Closeable, Flushable {
    protected Object lock;

    protected Writer() {
        lock = this;
    }

    protected Writer(Object lock) {
        this.lock = lock;
    }

    public void write(int of) throws IOException {
        write(new char[] {(char) of}, 0, 1);
    }

    public void write(char[] of) throws IOException {
        write(of, 0, of.length);
    }

    public abstract void write(char[] of, int at, int count) throws IOException;

    public void write(String of) throws IOException {
        write(of, 0, of.length());
    }

    public void write(String of, int at, int count) throws IOException {
        write(of.substring(at, at + count).toCharArray(), 0, count);
    }

    @Override
    public Writer append(CharSequence of) throws IOException {
        write(String.valueOf((Object) of));
        return this;
    }

    @Override
    public Writer append(CharSequence of, int from, int to) throws IOException {
        write(String.valueOf((Object) of).substring(from, to));
        return this;
    }

    @Override
    public Writer append(char of) throws IOException {
        write(of);
        return this;
    }

    public abstract void flush() throws IOException;

    public abstract void close() throws IOException;
}
