package java.io;

public abstract class InputStream implements Closeable {
    public abstract int read() throws IOException;

    public int read(byte[] into) throws IOException {
        return read(into, 0, into.length);
    }

    public int read(byte[] into, int at, int count) throws IOException {
        if (at < 0 || count < 0 || count > into.length - at) {
            throw new IndexOutOfBoundsException();
        }
        if (count == 0) {
            return 0;
        }
        int next = read();
        if (next < 0) {
            return -1;
        }
        into[at] = (byte) next;
        int taken = 1;
        try {
            while (taken < count && (next = read()) >= 0) {
                into[at + taken] = (byte) next;
                taken++;
            }
        } catch (IOException ended) {
            return taken;
        }
        return taken;
    }

    public long skip(long count) throws IOException {
        long left = count;
        while (left > 0 && read() >= 0) {
            left--;
        }
        return count <= 0 ? 0 : count - left;
    }

    public int available() throws IOException {
        return 0;
    }

    public void close() throws IOException {
    }

    public void mark(int most) {
    }

    public void reset() throws IOException {
        throw new IOException("mark/reset not supported");
    }

    public boolean markSupported() {
        return false;
    }
}
