package java.io;

public class FilterOutputStream extends OutputStream {
    protected OutputStream out;

    public FilterOutputStream(OutputStream out) {
        this.out = out;
    }

    @Override
    public void write(int of) throws IOException {
        out.write(of);
    }

    @Override
    public void write(byte[] of) throws IOException {
        write(of, 0, of.length);
    }

    @Override
    public void write(byte[] of, int at, int count) throws IOException {
        if (at < 0 || count < 0 || count > of.length - at) {
            throw new IndexOutOfBoundsException();
        }
        for (int next = at; next < at + count; next++) {
            write(of[next]);
        }
    }

    @Override
    public void flush() throws IOException {
        out.flush();
    }

    @Override
    public void close() throws IOException {
        flush();
        out.close();
    }
}
