package java.io;

/** Reads one by one; what follows a mark is held, so that it can be read again. */
public class BufferedReader extends Reader {
    private Reader in;
    private StringBuffer held;
    private int at;
    private boolean isMarked;
    private boolean skipsNewline;

    public BufferedReader(Reader in) {
        this(in, 8192);
    }

    public BufferedReader(Reader in, int size) {
        super(in);
        if (size <= 0) {
            throw new IllegalArgumentException("Buffer size <= 0");
        }
        this.in = in;
    }

    private void ensureOpen() throws IOException {
        if (in == null) {
            throw new IOException("Stream closed");
        }
    }

    private int next() throws IOException {
        if (held != null && at < held.length()) {
            return held.charAt(at++);
        }
        int next = in.read();
        if (next >= 0 && isMarked) {
            held.append((char) next);
            at++;
        }
        return next;
    }

    /** What read gives; a class below may have its own of that. */
    private int one() throws IOException {
        ensureOpen();
        int next = next();
        if (skipsNewline) {
            skipsNewline = false;
            return next == '\n' ? next() : next;
        }
        return next;
    }

    @Override
    public int read() throws IOException {
        return one();
    }

    @Override
    public int read(char[] into, int from, int count) throws IOException {
        ensureOpen();
        if (from < 0 || count < 0 || count > into.length - from) {
            throw new IndexOutOfBoundsException();
        }
        int taken = 0;
        while (taken < count) {
            int next = one();
            if (next < 0) {
                return taken == 0 ? -1 : taken;
            }
            into[from + taken] = (char) next;
            taken++;
        }
        return taken;
    }

    public String readLine() throws IOException {
        int next = one();
        if (next < 0) {
            return null;
        }
        StringBuilder line = new StringBuilder();
        while (next >= 0 && next != '\n' && next != '\r') {
            line.append((char) next);
            next = one();
        }
        skipsNewline = next == '\r';
        return line.toString();
    }

    @Override
    public boolean ready() throws IOException {
        ensureOpen();
        return held != null && at < held.length() || in.ready();
    }

    @Override
    public boolean markSupported() {
        return true;
    }

    @Override
    public void mark(int most) throws IOException {
        ensureOpen();
        if (most < 0) {
            throw new IllegalArgumentException("Read-ahead limit < 0");
        }
        StringBuffer rest = new StringBuffer();
        if (held != null) {
            rest.append(held.substring(at));
        }
        held = rest;
        at = 0;
        isMarked = true;
    }

    @Override
    public void reset() throws IOException {
        ensureOpen();
        if (!isMarked) {
            throw new IOException("Stream not marked");
        }
        at = 0;
    }

    @Override
    public void close() throws IOException {
        if (in != null) {
            in.close();
            in = null;
        }
    }
}
