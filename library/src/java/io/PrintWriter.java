package java.io;

public class PrintWriter extends Writer {
    protected Writer out;
    private boolean failed;

    public PrintWriter(Writer out) {
        this(out, false);
    }

    public PrintWriter(Writer out, boolean flushes) {
        super(out);
        this.out = out;
    }

    @Override
    public void write(int of) {
        try {
            out.write(of);
        } catch (IOException fault) {
            failed = true;
        }
    }

    @Override
    public void write(char[] of, int at, int count) {
        try {
            out.write(of, at, count);
        } catch (IOException fault) {
            failed = true;
        }
    }

    @Override
    public void write(String of) {
        write(of, 0, of.length());
    }

    @Override
    public void write(String of, int at, int count) {
        try {
            out.write(of, at, count);
        } catch (IOException fault) {
            failed = true;
        }
    }

    public void print(String of) {
        write(String.valueOf((Object) of));
    }

    public void print(Object of) {
        write(String.valueOf(of));
    }

    public void print(int of) {
        write(String.valueOf(of));
    }

    public void print(char of) {
        write(of);
    }

    public void println() {
        write("\n");
    }

    public void println(String of) {
        print(of);
        println();
    }

    public void println(Object of) {
        print(of);
        println();
    }

    public void println(int of) {
        print(of);
        println();
    }

    public boolean checkError() {
        return failed;
    }

    @Override
    public void flush() {
        try {
            out.flush();
        } catch (IOException fault) {
            failed = true;
        }
    }

    @Override
    public void close() {
        try {
            out.close();
        } catch (IOException fault) {
            failed = true;
        }
    }
}
