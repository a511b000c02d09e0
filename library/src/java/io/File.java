package java.io;

/** java.io.File as a name: its path, and nothing of what is there. */
public class File implements Serializable, Comparable<File> {
    public static final char separatorChar = '/';
    public static final String separator = "/";
    public static final char pathSeparatorChar = ':';
    public static final String pathSeparator = ":";

    private final String path;

    public File(String path) {
        this.path = normal(path);
    }

    public File(String parent, String child) {
        this.path = joined(parent == null ? null : normal(parent), normal(child));
    }

    public File(File parent, String child) {
        this.path = joined(parent == null ? null : parent.path, normal(child));
    }

    /** A path without slashes that follow another, and without the last one. */
    private static String normal(String path) {
        StringBuilder made = new StringBuilder();
        char before = 0;
        for (int at = 0; at < path.length(); at++) {
            char next = path.charAt(at);
            if (next != '/' || before != '/') {
                made.append(next);
            }
            before = next;
        }
        String all = made.toString();
        return all.length() > 1 && all.endsWith("/") ? all.substring(0, all.length() - 1) : all;
    }

    private static String joined(String parent, String child) {
        if (parent == null) {
            return child;
        }
        if (child.isEmpty() || child.equals("/")) {
            return parent.isEmpty() ? "/" : parent;
        }
        if (parent.equals("/") || parent.isEmpty()) {
            return child.startsWith("/") ? child : "/" + child;
        }
        return child.startsWith("/") ? parent + child : parent + "/" + child;
    }

    public String getName() {
        return path.substring(path.lastIndexOf('/') + 1);
    }

    public String getParent() {
        int last = path.lastIndexOf('/');
        if (last > 0) {
            return path.substring(0, last);
        }
        return last == 0 && path.length() > 1 ? "/" : null;
    }

    public File getParentFile() {
        String parent = getParent();
        return parent == null ? null : new File(parent);
    }

    public String getPath() {
        return path;
    }

    public boolean isAbsolute() {
        return path.startsWith("/");
    }

    @Override
    public int compareTo(File other) {
        return path.compareTo(other.path);
    }

    @Override
    public boolean equals(Object other) {
        return other instanceof File && compareTo((File) other) == 0;
    }

    @Override
    public int hashCode() {
        return path.hashCode() ^ 1234321;
    }

    @Override
    public String toString() {
        return path;
    }
}
