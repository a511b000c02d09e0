package java.util;

/** A language and a country; nothing differs by it. */
public final class Locale {
    public static final Locale ENGLISH = new Locale("en");
    public static final Locale US = new Locale("en", "US");
    public static final Locale UK = new Locale("en", "GB");
    public static final Locale CANADA = new Locale("en", "CA");
    public static final Locale FRENCH = new Locale("fr");
    public static final Locale FRANCE = new Locale("fr", "FR");
    public static final Locale CANADA_FRENCH = new Locale("fr", "CA");
    public static final Locale GERMAN = new Locale("de");
    public static final Locale GERMANY = new Locale("de", "DE");
    public static final Locale ITALIAN = new Locale("it");
    public static final Locale ITALY = new Locale("it", "IT");
    public static final Locale JAPANESE = new Locale("ja");
    public static final Locale JAPAN = new Locale("ja", "JP");
    public static final Locale KOREAN = new Locale("ko");
    public static final Locale KOREA = new Locale("ko", "KR");
    public static final Locale CHINESE = new Locale("zh");
    public static final Locale CHINA = new Locale("zh", "CN");
    public static final Locale TAIWAN = new Locale("zh", "TW");
    public static final Locale ROOT = new Locale("");

    private static Locale standard = US;

    private final String language;
    private final String country;
    private final String variant;

    public Locale(String language) {
        this(language, "", "");
    }

    public Locale(String language, String country) {
        this(language, country, "");
    }

    public Locale(String language, String country, String variant) {
        this.language = language.toLowerCase();
        this.country = country.toUpperCase();
        this.variant = variant.toString();
    }

    public static Locale getDefault() {
        return standard;
    }

    public static void setDefault(Locale to) {
        if (to == null) {
            throw new NullPointerException();
        }
        standard = to;
    }

    public String getLanguage() {
        return language;
    }

    public String getCountry() {
        return country;
    }

    public String getVariant() {
        return variant;
    }

    @Override
    public boolean equals(Object other) {
        return other instanceof Locale && toString().equals(other.toString());
    }

    @Override
    public int hashCode() {
        return toString().hashCode();
    }

    @Override
    public String toString() {
        boolean hasVariant = !variant.isEmpty() && !(language.isEmpty() && country.isEmpty());
        return language + (!country.isEmpty() || hasVariant ? "_" + country : "") + (hasVariant ? "_" + variant : "");
    }
}
