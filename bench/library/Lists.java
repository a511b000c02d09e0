import java.util.ArrayList;
import java.util.HashMap;
import java.util.HashSet;

// Lists, maps and sets of 1,000 numbers, for `bench/library.sh`. Each method fills one; what is not called fill then goes over it. Behind its name stands
// how many items it comes to. The profile's maps and sets are looked through from their first item, so that few can be sought.
public class Lists {
    int sum;

    private ArrayList<Integer> list() {
        ArrayList<Integer> made = new ArrayList<Integer>();
        for (int i = 0; i < 1000; i++) {
            made.add(i);
        }
        return made;
    }

    public void fillList() { // 1000
        list();
    }

    public void walkList() { // 10000
        ArrayList<Integer> list = list();
        for (int round = 0; round < 10; round++) {
            for (Integer next : list) {
                sum += next;
            }
        }
    }

    public void getList() { // 10000
        ArrayList<Integer> list = list();
        for (int round = 0; round < 10; round++) {
            for (int i = 0; i < list.size(); i++) {
                sum += list.get(i);
            }
        }
    }

    public void setList() { // 10000
        ArrayList<Integer> list = list();
        for (int round = 0; round < 10; round++) {
            for (int i = 0; i < list.size(); i++) {
                list.set(i, round);
            }
        }
    }

    public void findList() { // 10000
        ArrayList<Integer> list = list();
        for (int round = 0; round < 10; round++) {
            sum += list.indexOf(999);
        }
    }

    public void insertList() { // 1000
        ArrayList<Integer> list = list();
        for (int i = 0; i < 1000; i++) {
            list.add(500, i);
        }
    }

    public void cutList() { // 1000
        ArrayList<Integer> list = list();
        for (int i = 999; i >= 0; i--) {
            sum += list.remove(i);
        }
    }

    public void sameList() { // 1000
        ArrayList<Integer> list = list();
        ArrayList<Integer> other = new ArrayList<Integer>();
        for (int i = 0; i < 1000; i++) {
            other.add(list.get(i));
        }
        sum += list.equals(other) ? 1 : 0;
    }

    private HashMap<Integer, Integer> map() {
        HashMap<Integer, Integer> made = new HashMap<Integer, Integer>();
        for (int i = 0; i < 1000; i++) {
            made.put(i, i);
        }
        return made;
    }

    public void fillMap() { // 1000
        map();
    }

    public void walkMap() { // 10000
        HashMap<Integer, Integer> map = map();
        for (int round = 0; round < 10; round++) {
            for (Integer key : map.keySet()) {
                sum += key;
            }
        }
    }

    public void valuesMap() { // 10000
        HashMap<Integer, Integer> map = map();
        for (int round = 0; round < 10; round++) {
            for (Integer value : map.values()) {
                sum += value;
            }
        }
    }

    public void getMap() { // 500
        HashMap<Integer, Integer> map = map();
        for (int i = 0; i < 1000; i += 2) {
            sum += map.get(i);
        }
    }

    public void setMap() { // 500
        HashMap<Integer, Integer> map = map();
        for (int i = 0; i < 1000; i += 2) {
            map.put(i, 7);
        }
    }

    public void findMap() { // 500
        HashMap<Integer, Integer> map = map();
        for (int i = 0; i < 1000; i += 2) {
            sum += map.containsKey(i) ? 1 : 0;
        }
    }

    public void cutMap() { // 1000
        HashMap<Integer, Integer> map = map();
        for (int i = 0; i < 1000; i++) {
            sum += map.remove(i);
        }
    }

    private HashSet<Integer> set() {
        HashSet<Integer> made = new HashSet<Integer>();
        for (int i = 0; i < 1000; i++) {
            made.add(i);
        }
        return made;
    }

    public void fillSet() { // 1000
        set();
    }

    public void walkSet() { // 10000
        HashSet<Integer> set = set();
        for (int round = 0; round < 10; round++) {
            for (Integer next : set) {
                sum += next;
            }
        }
    }

    public void findSet() { // 500
        HashSet<Integer> set = set();
        for (int i = 0; i < 1000; i += 2) {
            sum += set.contains(i) ? 1 : 0;
        }
    }

    public void cutSet() { // 1000
        HashSet<Integer> set = set();
        for (int i = 0; i < 1000; i++) {
            sum += set.remove(i) ? 1 : 0;
        }
    }
}
