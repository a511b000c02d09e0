package java.io;

import java.util.Arrays;

public class ByteArrayOutputStream extends OutputStream {
    protected byte[] buf;
    protected int count;

    public ByteArrayOutputStream() {
        this(32);
    }

    public ByteArrayOutputStream(int size) {
        if (size < 0) {
            throw new IllegalArgumentException("Negative initial size: " + size);
        }
        buf = new byte[size];
    }

    private void makeRoom(int wanted) {
        if (wanted > buf.length) {
            buf = Arrays.copyOf(buf, Math.max(buf.length * 2, wanted));
        }
    }

    @Override
    public void write(int of) {
        makeRoom(count + 1);
        buf[count++] = (byte) of;
    }

    @Override
    public void write(byte[] of, int at, int many) {
        if (at < 0 || many < 0 || many > of.length - at) {
            throw new IndexOutOfBoundsException();
        }
        makeRoom(count + many);
        System.arraycopy(of, at, buf, count, many);
        count += many;
    }

    public void writeTo(OutputStream to) throws IOException {
        to.write(buf, 0, count);
    }

    public void reset() {
        count = 0;
    }

    public byte[] toByteArray() {
        return Arrays.copyOf(buf, count);
    }

    public int size() {
        return count;
    }

    @Override
    public String toString() {
        return new String(buf, 0, count);
    }

    public String toString(String by) throws UnsupportedEncodingException {
        return new String(buf, 0, count, by);
    }

    @Override
    public void close() throws IOException {
    }
}
