#!/usr/bin/env python3
"""large_class.py METHODS: prints the Java source of a class `Large`: fields, and so many groups of five short methods, as a class of business rules has them."""
import sys

GROUP = """
    private int count@;
    private String name@ = "name of @";
    private final List<String> parts@ = new ArrayList<String>();

    public int sum@(int from, int to) {
        int sum = 0;
        for (int i = from; i < to; i++) {
            if (i % @ == 0 || i > limit) {
                sum += i * @;
            } else {
                sum -= i;
            }
        }
        count@ = sum;
        return sum;
    }

    public boolean isKnown@(String name) {
        if (name == null || name.length() == 0) {
            return false;
        }
        return name.equals(name@) && count@ >= @;
    }

    public String text@(int kind) {
        switch (kind) {
            case 0:
                return name@;
            case 1:
                return "part " + kind + " of " + name@;
            case @:
                return String.valueOf(count@);
            default:
                return "";
        }
    }

    public void add@(String part) {
        if (parts@.size() < limit) {
            parts@.add(part);
            check(part, @);
        }
        notify(name@);
    }

    public long mixed@(long seed, int[] numbers) {
        long mixed = seed ^ @L;
        for (int number : numbers) {
            mixed = (mixed << 5) - mixed + (number & 0xff);
        }
        return mixed > 0 ? mixed : -mixed;
    }
"""
HEAD = """import java.util.ArrayList;
import java.util.List;

public class Large {
    private int limit = 100;
    private String last = "";

    private void check(String part, int number) {
        if (part == null && number > limit) {
            throw new IllegalArgumentException("part " + number);
        }
    }

    private void notify(String name) {
        last = name;
    }
"""
print(HEAD + "".join(GROUP.replace("@", str(number + 2)) for number in range(int(sys.argv[1]))) + "}")
