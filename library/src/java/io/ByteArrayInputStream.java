package java.io;

public class ByteArrayInputStream extends InputStream {
    protected byte[] buf;
    protected int pos;
    protected int mark;
    protected int count;

    public ByteArrayInputStream(byte[] of) {
        this(of, 0, of.length);
    }

    public ByteArrayInputStream(byte[] of, int at, int count) {
        this.buf = of;
        this.pos = at;
        this.mark = at;
        this.count = Math.min(at + count, of.length);
    }

    @Override
    public int read() {
        return pos < count ? buf[pos++] & 0xff : -1;
    }

    @Override
    public int read(byte[] into, int at, int most) {
        if (at < 0 || most < 0 || most > into.length - at) {
            throw new IndexOutOfBoundsException();
        }
        if (pos >= count) {
            return -1;
        }
        int taken = Math.min(most, count - pos);
        System.arraycopy(buf, pos, into, at, Math.max(taken, 0));
        pos += Math.max(taken, 0);
        return Math.max(taken, 0);
    }

    @Override
    public long skip(long most) {
        long taken = most < count - pos ? Math.max(0, most) : count - pos;
        pos += (int) taken;
        return taken;
    }

    @Override
    public int available() {
        return count - pos;
    }

    @Override
    public boolean markSupported() {
        return true;
    }

    @Override
    public void mark(int most) {
        mark = pos;
    }

    @Override
    public void reset() {
        pos = mark;
    }

    @Override
    public void close() throws IOException {
    }
}
