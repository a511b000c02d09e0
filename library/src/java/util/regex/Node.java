package java.util.regex;

/** A part of a pattern, with what follows it. */
abstract class Node {
    Node next;

    /** Whether this and what follows it match from a place on; where the whole ends stands in the matcher then. */
    abstract boolean match(Matcher by, int at);

    /** The end of a pattern, or of one inside another, as of a group that looks ahead. */
    static final class End extends Node {
        private final boolean isWhole;

        End(boolean isWhole) {
            this.isWhole = isWhole;
        }

        @Override
        boolean match(Matcher by, int at) {
            if (isWhole && by.mustEnd && at != by.to) {
                return false;
            }
            by.last = at;
            return true;
        }
    }

    /** Characters that stand for themselves. */
    static final class Text extends Node {
        private final String text;

        Text(String text) {
            this.text = text;
        }

        @Override
        boolean match(Matcher by, int at) {
            for (int place = 0; place < text.length(); place++) {
                if (at + place >= by.to) {
                    by.hitsEnd = true;
                    return false;
                }
                if (by.text.charAt(at + place) != text.charAt(place)) {
                    return false;
                }
            }
            return next.match(by, at + text.length());
        }

        char first() {
            return text.charAt(0);
        }
    }

    /** One character of a set. */
    static final class One extends Node {
        final Chars of;

        One(Chars of) {
            this.of = of;
        }

        @Override
        boolean match(Matcher by, int at) {
            if (at >= by.to) {
                by.hitsEnd = true;
                return false;
            }
            return of.has(by.text.charAt(at)) && next.match(by, at + 1);
        }
    }

    static final int GREEDY = 0;
    static final int LAZY = 1;
    static final int POSSESSIVE = 2;

    /** Characters of a set, one after another. */
    static final class Many extends Node {
        private final Chars of;
        private final int least;
        private final int most;
        private final int how;

        Many(Chars of, int least, int most, int how) {
            this.of = of;
            this.least = least;
            this.most = most;
            this.how = how;
        }

        private boolean isNext(Matcher by, int at) {
            if (at >= by.to) {
                by.hitsEnd = true;
                return false;
            }
            return of.has(by.text.charAt(at));
        }

        @Override
        boolean match(Matcher by, int at) {
            int count = 0;
            int wanted = how == LAZY ? least : most;
            while (count < wanted && isNext(by, at + count)) {
                count++;
            }
            if (count < least) {
                return false;
            }
            if (how == POSSESSIVE) {
                return next.match(by, at + count);
            }
            if (how == GREEDY) {
                while (count >= least) {
                    if (next.match(by, at + count)) {
                        return true;
                    }
                    count--;
                }
                return false;
            }
            while (!next.match(by, at + count)) {
                if (count == most || !isNext(by, at + count)) {
                    return false;
                }
                count++;
            }
            return true;
        }
    }

    /** Begins the rounds of a part. */
    static final class Begin extends Node {
        private final Round round;

        Begin(Round round) {
            this.round = round;
        }

        @Override
        boolean match(Matcher by, int at) {
            int count = by.counts[round.number];
            int from = by.froms[round.number];
            by.counts[round.number] = 0;
            by.froms[round.number] = -1;
            if (round.match(by, at)) {
                return true;
            }
            by.counts[round.number] = count;
            by.froms[round.number] = from;
            return false;
        }
    }

    /** Stands behind each round of a part: another round, or what follows. A round that took nothing is the last. */
    static final class Round extends Node {
        private final int number;
        private final int least;
        private final int most;
        private final boolean isLazy;
        Node body;

        Round(int number, int least, int most, boolean isLazy) {
            this.number = number;
            this.least = least;
            this.most = most;
            this.isLazy = isLazy;
        }

        @Override
        boolean match(Matcher by, int at) {
            int count = by.counts[number];
            if (count < least) {
                return again(by, at, count);
            }
            boolean mayGoOn = count < most && at > by.froms[number];
            if (isLazy) {
                return leave(by, at) || mayGoOn && again(by, at, count);
            }
            return mayGoOn && again(by, at, count) || leave(by, at);
        }

        private boolean leave(Matcher by, int at) {
            int count = by.counts[number];
            int from = by.froms[number];
            if (next.match(by, at)) {
                return true;
            }
            by.counts[number] = count;
            by.froms[number] = from;
            return false;
        }

        private boolean again(Matcher by, int at, int count) {
            int from = by.froms[number];
            by.counts[number] = count + 1;
            by.froms[number] = at;
            if (body.match(by, at)) {
                return true;
            }
            by.counts[number] = count;
            by.froms[number] = from;
            return false;
        }
    }

    /** One of several parts, each of which goes on with what follows; the first that matches. */
    static final class Choice extends Node {
        final Node[] parts;

        Choice(Node[] parts) {
            this.parts = parts;
        }

        @Override
        boolean match(Matcher by, int at) {
            for (int part = 0; part < parts.length; part++) {
                if (parts[part].match(by, at)) {
                    return true;
                }
            }
            return false;
        }
    }

    /** Where alternatives meet again, and what is empty. */
    static final class Pass extends Node {
        @Override
        boolean match(Matcher by, int at) {
            return next.match(by, at);
        }
    }

    static final class Open extends Node {
        private final int group;

        Open(int group) {
            this.group = group;
        }

        @Override
        boolean match(Matcher by, int at) {
            int begun = by.begun[group];
            by.begun[group] = at;
            if (next.match(by, at)) {
                return true;
            }
            by.begun[group] = begun;
            return false;
        }
    }

    static final class Close extends Node {
        private final int group;

        Close(int group) {
            this.group = group;
        }

        @Override
        boolean match(Matcher by, int at) {
            int from = by.groups[2 * group];
            int to = by.groups[2 * group + 1];
            by.groups[2 * group] = by.begun[group];
            by.groups[2 * group + 1] = at;
            if (next.match(by, at)) {
                return true;
            }
            by.groups[2 * group] = from;
            by.groups[2 * group + 1] = to;
            return false;
        }
    }

    /** The text of an earlier group once more. */
    static final class Again extends Node {
        private final int group;
        private final boolean ignoresCase;

        Again(int group, boolean ignoresCase) {
            this.group = group;
            this.ignoresCase = ignoresCase;
        }

        @Override
        boolean match(Matcher by, int at) {
            int from = by.groups[2 * group];
            int length = by.groups[2 * group + 1] - from;
            if (from < 0) {
                return false;
            }
            if (at + length > by.to) {
                by.hitsEnd = true;
                return false;
            }
            return by.text.regionMatches(ignoresCase, at, by.text, from, length) && next.match(by, at + length);
        }
    }

    /** A part that is matched by itself: which isn't gone back into, or which only looks, ahead or back. */
    static final class Alone extends Node {
        static final int ATOMIC = 0;
        static final int AHEAD = 1;
        static final int BEHIND = 2;
        private final Node body;
        private final int how;
        private final boolean wanted;

        Alone(Node body, int how, boolean wanted) {
            this.body = body;
            this.how = how;
            this.wanted = wanted;
        }

        @Override
        boolean match(Matcher by, int at) {
            int[] groups = by.groups.clone();
            if (how == AHEAD && !wanted && at >= by.to) {
                by.needsEnd = true;
            }
            boolean found = how == BEHIND ? isBehind(by, at) : body.match(by, at);
            int last = by.last;
            if (found == wanted) {
                if (!wanted) {
                    by.groups = groups;
                }
                if (next.match(by, how == ATOMIC ? last : at)) {
                    return true;
                }
            }
            by.groups = groups;
            return false;
        }

        private boolean isBehind(Matcher by, int at) {
            for (int from = at; from >= by.from; from--) {
                int to = by.to;
                boolean hitsEnd = by.hitsEnd;
                by.to = at;
                boolean found = body.match(by, from) && by.last == at;
                by.to = to;
                by.hitsEnd = hitsEnd;
                if (found) {
                    return true;
                }
            }
            return false;
        }
    }

    /** A place between characters: `^`, `$`, `A`, `Z`, `z`, `b`, `B`, `G`, and in many lines `[` for `^` and `]` for `$`. */
    static final class Place extends Node {
        private final char kind;

        Place(char kind) {
            this.kind = kind;
        }

        @Override
        boolean match(Matcher by, int at) {
            return isHere(by, at) && next.match(by, at);
        }

        private boolean isHere(Matcher by, int at) {
            switch (kind) {
                case '^':
                case 'A':
                    return at == by.first();
                case '[':
                    return at == by.first() || at < by.to && isBehindLine(by, at);
                case ']':
                    return isEnd(by, at) || Chars.ENDS.has(by.text.charAt(at)) && !isInside(by, at);
                case '$':
                case 'Z':
                    return isEnd(by, at) || isLastLine(by, at);
                case 'z':
                    return isEnd(by, at);
                case 'b':
                    return isWord(by, at - 1) != isWord(by, at);
                case 'B':
                    return isWord(by, at - 1) == isWord(by, at);
                default:
                    return at == by.lastEnd;
            }
        }

        private static boolean isEnd(Matcher by, int at) {
            if (at == by.ending()) {
                by.hitsEnd = true;
                by.needsEnd = true;
                return true;
            }
            return false;
        }

        /** Whether a place stands between the two characters of one end of a line. */
        private static boolean isInside(Matcher by, int at) {
            return at > by.first() && by.text.charAt(at) == '\n' && by.text.charAt(at - 1) == '\r';
        }

        private static boolean isBehindLine(Matcher by, int at) {
            return Chars.ENDS.has(by.text.charAt(at - 1)) && !isInside(by, at);
        }

        private static boolean isLastLine(Matcher by, int at) {
            int left = by.ending() - at;
            boolean found = left == 1 && Chars.ENDS.has(by.text.charAt(at)) && !isInside(by, at)
                || left == 2 && by.text.charAt(at) == '\r' && by.text.charAt(at + 1) == '\n';
            if (found) {
                by.hitsEnd = true;
                by.needsEnd = true;
            }
            return found;
        }

        private static boolean isWord(Matcher by, int at) {
            if (at >= by.to) {
                by.hitsEnd = true;
                by.needsEnd = true;
                return false;
            }
            return at >= by.from && (by.text.charAt(at) == '_' || Character.isLetterOrDigit(by.text.charAt(at)));
        }
    }
}
