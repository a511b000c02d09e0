package java.io;

public abstract class OutputStream implements Closeable, Flushable {
    public abstract void write(int of) throws IOException;

    public void write(byte[] of) throws IOException {
        write(of, 0, of.length);
    }

    public void write(byte[] of, int at, int count) throws IOException {
        if (at < 0 || count < 0 || count > of.length - at) {
            throw new IndexOutOfBoundsException();
        }
        for (int next = at; next < at + count; next++) {
            write(of[next]);
        }
    }

    public void flush() throws IOException {
    }

    public void close() throws IOException {
    }
}
