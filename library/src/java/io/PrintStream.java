package java.io;

/** Nothing is printed where no stream is below; else texts are written as UTF-8. */
public class PrintStream extends FilterOutputStream {
    public PrintStream(OutputStream out) {
        super(out);
    }

    public PrintStream(OutputStream out, boolean flushes) {
        super(out);
    }

    public PrintStream(OutputStream out, boolean flushes, String by) {
        super(out);
    }

    private void put(String of) {
        if (out != null) {
            byte[] bytes = of.getBytes();
            write(bytes, 0, bytes.length);
        }
    }

    @Override
    public void write(int of) {
        try {
            if (out != null) {
                out.write(of);
            }
        } catch (IOException failed) {
            return;
        }
    }

    @Override
    public void write(byte[] of, int at, int count) {
        try {
            if (out != null) {
                out.write(of, at, count);
            }
        } catch (IOException failed) {
            return;
        }
    }

    @Override
    public void flush() {
    }

    @Override
    public void close() {
    }

    public void print(String of) {
        put(String.valueOf((Object) of));
    }

    public void print(Object of) {
        put(String.valueOf(of));
    }

    public void print(int of) {
        put(String.valueOf(of));
    }

    public void print(long of) {
        put(String.valueOf(of));
    }

    public void print(char of) {
        put(String.valueOf(of));
    }

    public void print(boolean of) {
        put(String.valueOf(of));
    }

    public void println() {
        put("\n");
    }

    public void println(String of) {
        put(String.valueOf((Object) of) + "\n");
    }

    public void println(Object of) {
        put(String.valueOf(of) + "\n");
    }

    public void println(int of) {
        put(of + "\n");
    }

    public void println(long of) {
        put(of + "\n");
    }

    public void println(char of) {
        put(of + "\n");
    }

    public void println(boolean of) {
        put(of + "\n");
    }

    public PrintStream printf(String form, Object... values) {
        put(String.format(form, values));
        return this;
    }

    public PrintStream format(String form, Object... values) {
        return printf(form, values);
    }

    public PrintStream append(CharSequence of) {
        print(String.valueOf((Object) of));
        return this;
    }

    public PrintStream append(char of) {
        print(of);
        return this;
    }
}
