package java.io;

public class StringReader extends Reader {
    private String of;
    private int at;
    private int mark;

    public StringReader(String of) {
        if (of == null) {
            throw new NullPointerException();
        }
        this.of = of;
    }

    private void ensureOpen() throws IOException {
        if (of == null) {
            throw new IOException("Stream closed");
        }
    }

    @Override
    public int read() throws IOException {
        ensureOpen();
        return at < of.length() ? of.charAt(at++) : -1;
    }

    @Override
    public int read(char[] into, int from, int count) throws IOException {
        ensureOpen();
        if (from < 0 || count < 0 || count > into.length - from) {
            throw new IndexOutOfBoundsException();
        }
        if (count == 0) {
            return 0;
        }
        if (at >= of.length()) {
            return -1;
        }
        int taken = Math.min(count, of.length() - at);
        of.getChars(at, at + taken, into, from);
        at += taken;
        return taken;
    }

    /** Goes back where the count is below 0. */
    @Override
    public long skip(long most) throws IOException {
        ensureOpen();
        if (at >= of.length()) {
            return 0;
        }
        long taken = Math.max(-at, Math.min(most, of.length() - at));
        at += (int) taken;
        return taken;
    }

    @Override
    public boolean ready() throws IOException {
        ensureOpen();
        return true;
    }

    @Override
    public boolean markSupported() {
        return true;
    }

    @Override
    public void mark(int most) throws IOException {
        if (most < 0) {
            throw new IllegalArgumentException("Read-ahead limit < 0");
        }
        ensureOpen();
        mark = at;
    }

    @Override
    public void reset() throws IOException {
        ensureOpen();
        at = mark;
    }

    @Override
    public void close() {
        of = null;
    }
}
