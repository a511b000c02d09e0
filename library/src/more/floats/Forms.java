package more.floats;

/** A form for String.format in which those of floats (%f, %e, %E, %g) are texts of the same width. */
public final class Forms {
    public final String form;
    public final Object[] values;

    public Forms(String from, Object[] given) {
        Object[] put = given == null ? new Object[1] : given.clone();
        StringBuilder made = new StringBuilder();
        int next = 0;
        int at = 0;
        while (at < from.length()) {
            int start = at;
            if (from.charAt(at++) != '%') {
                made.append(from.charAt(start));
                continue;
            }
            while (at < from.length() && "-#+ 0,(<123456789.$".indexOf(from.charAt(at)) >= 0) {
                at++;
            }
            if (at == from.length()) {
                made.append(from.substring(start));
                break;
            }
            char kind = from.charAt(at++);
            String spec = from.substring(start + 1, at - 1);
            boolean isPlain = spec.indexOf('$') < 0 && spec.indexOf('<') < 0;
            if ("feEg".indexOf(kind) >= 0 && isPlain && next < put.length && (put[next] instanceof Double || put[next] instanceof Float)) {
                put[next] = shown(spec, kind, ((Number) put[next]).doubleValue(), put[next] instanceof Float ? put[next].toString() : null);
                made.append("%s");
            } else {
                made.append(from.substring(start, at));
            }
            if (kind != '%' && kind != 'n') {
                next++;
            }
        }
        form = made.toString();
        values = put;
    }

    /** Flags, a width, a precision: as java.util.Formatter has them. */
    private static String shown(String spec, char kind, double of, String asFloat) {
        int at = 0;
        while (at < spec.length() && "-#+ 0,(".indexOf(spec.charAt(at)) >= 0) {
            at++;
        }
        String flags = spec.substring(0, at);
        int point = spec.indexOf('.');
        int width = at < (point < 0 ? spec.length() : point) ? Integer.parseInt(spec.substring(at, point < 0 ? spec.length() : point)) : 0;
        int precision = point < 0 ? 6 : Integer.parseInt(spec.substring(point + 1));
        long bits = Double.doubleToRawLongBits(of);
        long size = bits & Soft.REST;
        boolean isNegative = bits < 0 && of == of;
        String text;
        if (size >= Soft.INFINITE) {
            text = of != of ? "NaN" : "Infinity";
        } else {
            Decimal digits = size == 0 ? null : asFloat != null ? Decimal.ofFloat((int) Decimal.parseFloat(asFloat) & 0x7fffffff) : Decimal.of(size);
            text = kind == 'f' ? plain(digits, precision, flags.indexOf(',') >= 0) : kind == 'g' ? general(digits, precision == 0 ? 1 : precision)
                : scientific(digits, precision);
            text = kind == 'E' ? text.replace('e', 'E') : text;
        }
        String sign = isNegative ? flags.indexOf('(') >= 0 ? "(" : "-" : flags.indexOf('+') >= 0 && of == of ? "+" : flags.indexOf(' ') >= 0 ? " " : "";
        String end = sign.equals("(") ? ")" : "";
        boolean fills = flags.indexOf('0') >= 0 && size < Soft.INFINITE;
        StringBuilder made = new StringBuilder();
        int room = width - sign.length() - text.length() - end.length();
        boolean isLeft = flags.indexOf('-') >= 0;
        for (int left = room; left > 0 && !isLeft && !fills; left--) {
            made.append(' ');
        }
        made.append(sign);
        for (int left = room; left > 0 && fills; left--) {
            made.append('0');
        }
        made.append(text).append(end);
        for (int left = room; left > 0 && isLeft; left--) {
            made.append(' ');
        }
        return made.toString();
    }

    private static String zeros(int count) {
        StringBuilder made = new StringBuilder();
        for (int left = count; left > 0; left--) {
            made.append('0');
        }
        return made.toString();
    }

    private static String plain(Decimal of, int precision, boolean groups) {
        Decimal digits = of == null ? null : of.rounded(of.power + precision);
        if (digits == null || digits.digits.equals("0")) {
            return precision == 0 ? "0" : "0." + zeros(precision);
        }
        String all = digits.power < 0 ? zeros(-digits.power) + digits.digits : digits.digits;
        int whole = digits.power < 0 ? 1 : digits.power + 1;
        all += zeros(whole + precision - all.length());
        String before = all.substring(0, whole);
        if (groups) {
            for (int at = whole - 3; at > 0; at -= 3) {
                before = before.substring(0, at) + "," + before.substring(at);
            }
        }
        return precision == 0 ? before : before + "." + all.substring(whole, whole + precision);
    }

    private static String scientific(Decimal of, int precision) {
        Decimal digits = of == null ? null : of.rounded(precision);
        String all = digits == null ? "0" : digits.digits;
        int power = digits == null ? 0 : digits.power;
        all += zeros(precision + 1 - all.length());
        int size = power < 0 ? -power : power;
        return all.substring(0, 1) + (precision == 0 ? "" : "." + all.substring(1, precision + 1)) + (power < 0 ? "e-" : "e+") + (size < 10 ? "0" : "") + size;
    }

    private static String general(Decimal of, int precision) {
        Decimal digits = of == null ? null : of.rounded(precision - 1);
        int power = digits == null ? 0 : digits.power;
        return power >= -4 && power < precision ? plain(digits, precision - power - 1, false) : scientific(digits, precision - 1);
    }
}
