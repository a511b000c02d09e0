package java.io;

import java.nio.charset.Charset;

/** Takes all bytes of the stream when it is first read. */
public class InputStreamReader extends Reader {
    private final InputStream in;
    private final Charset by;
    private StringReader text;
    private boolean isClosed;

    public InputStreamReader(InputStream in) {
        this(in, java.nio.charset.StandardCharsets.UTF_8);
    }

    public InputStreamReader(InputStream in, String by) throws UnsupportedEncodingException {
        this(in, known(by));
    }

    private static Charset known(String name) throws UnsupportedEncodingException {
        try {
            return Charset.forName(name);
        } catch (IllegalArgumentException unknown) {
            throw new UnsupportedEncodingException(name);
        }
    }

    private void ensureOpen() throws IOException {
        if (isClosed) {
            throw new IOException("Stream closed");
        }
    }

    public InputStreamReader(InputStream in, Charset by) {
        super(in);
        this.in = in;
        this.by = by;
    }

    @Override
    public int read(char[] into, int at, int count) throws IOException {
        ensureOpen();
        if (text == null) {
            ByteArrayOutputStream taken = new ByteArrayOutputStream();
            byte[] some = new byte[512];
            int many = in.read(some);
            while (many >= 0) {
                taken.write(some, 0, many);
                many = in.read(some);
            }
            text = new StringReader(new String(taken.toByteArray(), by));
        }
        return text.read(into, at, count);
    }

    @Override
    public boolean ready() throws IOException {
        ensureOpen();
        return text != null || in.available() > 0;
    }

    @Override
    public void close() throws IOException {
        isClosed = true;
        in.close();
    }
}
