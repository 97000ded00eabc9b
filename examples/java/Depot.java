package depot;

import java.io.Closeable;
import java.io.PrintStream;
import java.lang.annotation.ElementType;
import java.lang.annotation.Retention;
import java.lang.annotation.RetentionPolicy;
import java.lang.annotation.Target;
import java.util.*;
import java.util.function.Function;
import java.util.function.Predicate;
import java.util.function.UnaryOperator;
import java.util.stream.Collectors;

import static java.util.Comparator.comparing;

/** A depot of parcels: what comes in, by which van it goes out, and what that costs. */
final class Depot {
    private static final int LIMIT = 40, PARITY = 0x1f;
    private static final long SEED = 0b1011_0001L << 33;
    private static final double[] RATES = {1.25, .5, 2e-1, 0x1.8p1,};

    private final Map<Zone, List<Parcel>> shelves = new EnumMap<>(Zone.class);
    private final Deque<Van> yard = new ArrayDeque<>();
    private int received, refused = 0;

    /** Marks what a clerk may correct by hand. */
    @Retention(RetentionPolicy.RUNTIME)
    @Target({ElementType.FIELD, ElementType.METHOD, ElementType.RECORD_COMPONENT})
    @interface Correctable {
        String by() default "clerk";

        int[] levels() default {1, 2};
    }

    enum Zone {
        CITY(1) {
            @Override
            double rate(int grams) {
                return grams < 500 ? RATES[1] : RATES[0];
            }
        },
        COUNTRY(3),
        ISLANDS(9);

        private final int days;

        Zone(int days) {
            this.days = days;
        }

        double rate(int grams) {
            return RATES[0] + days * RATES[2] * (grams >> 3) / 100;
        }

        static Zone of(String code) {
            return switch (code.toUpperCase(Locale.ROOT)) {
                case "C", "CITY" -> CITY;
                case "I", "ISLE" -> {
                    int length = code.length();
                    yield length > 4 ? COUNTRY : ISLANDS;
                }
                default -> COUNTRY;
            };
        }
    }

    sealed interface Item permits Parcel, Letter, Crate {
        int grams();

        default boolean isHeavy() {
            return grams() > 10_000;
        }
    }

    record Letter(String to, int grams) implements Item {}

    record Parcel(String to, Zone zone, @Correctable int grams, String... notes) implements Item {
        static int made;

        Parcel {
            if (grams <= 0 || grams > 31_500) {
                throw new IllegalArgumentException("bad weight of a parcel: " + grams);
            }
            made++;
        }

        Parcel(String to, int grams) {
            this(to, Zone.COUNTRY, grams);
        }

        double price() {
            double price = zone.rate(grams);
            return notes.length == 0 ? price : price * 1.1;
        }
    }

    record Crate(List<? extends Item> items) implements Item {
        public int grams() {
            return items.stream().mapToInt(Item::grams).sum();
        }
    }

    /** Two things of which one belongs to the other. */
    record Pair<A, B>(A first, B second) {
        <C> Pair<A, C> with(C other) {
            return new Pair<>(first, other);
        }

        Pair<B, A> turned() {
            return new Pair<B, A>(second, first);
        }
    }

    abstract static class Van implements Closeable {
        protected final List<Item> load = new LinkedList<>();
        private final String plate;
        transient volatile boolean open;

        Van(String plate) {
            this.plate = Objects.requireNonNull(plate, "plate");
        }

        abstract int capacity();

        boolean take(Item item) {
            int sum = 0;
            for (Item other : load) sum += other.grams();
            if (sum + item.grams() > capacity())
                return false;
            else
                return load.add(item);
        }

        @Override
        public void close() {
            open = false;
            load.clear();
        }

        String plate() {
            return plate;
        }
    }

    static class CityVan extends Van {
        CityVan(String plate) {
            super(plate);
        }

        @Override
        int capacity() {
            return LIMIT * 1000;
        }
    }

    class Tour implements Iterable<Van> {
        final UnaryOperator<String> label = name -> name.strip() + '\t' + "\u2192";
        int stops;

        @Override
        public Iterator<Van> iterator() {
            return new Iterator<>() {
                private final Iterator<Van> vans = Depot.this.yard.iterator();

                @Override
                public boolean hasNext() {
                    return vans.hasNext();
                }

                @Override
                public Van next() {
                    stops++;
                    return vans.next();
                }
            };
        }
    }

    @SafeVarargs
    static <T extends Comparable<? super T>> T greatest(T first, T... others) {
        T found = first;
        for (T other : others) {
            if (other.compareTo(found) > 0) found = other;
        }
        return found;
    }

    static <K, V> Map<K, List<V>> grouped(Collection<? extends V> all, Function<? super V, ? extends K> by) {
        Map<K, List<V>> groups = new HashMap<>();
        for (V one : all) {
            groups.computeIfAbsent(by.apply(one), key -> new ArrayList<>()).add(one);
        }
        return groups;
    }

    static <T> List<T> joined(List<T>... parts) {
        List<T> all = new ArrayList<>();
        for (var part : parts) {
            all.addAll(part);
        }
        return all;
    }

    void receive(Parcel parcel) {
        shelves.computeIfAbsent(parcel.zone(), zone -> new ArrayList<>()).add(parcel);
        received++;
    }

    int checksum(byte[] bytes) {
        int hash = (int) (SEED >>> 33), at = 0;
        do {
            hash ^= bytes[at] & 0xff;
            hash = hash << 5 | hash >>> 27;
            hash += (hash & 1) != 0 ? ~PARITY : +PARITY;
            at++;
        } while (at < bytes.length);
        return -hash;
    }

    String describe(Object thing) {
        if (thing instanceof Parcel parcel && !parcel.isHeavy()) {
            return "a parcel to " + parcel.to() + ", " + parcel.price();
        } else if (thing instanceof Letter letter) {
            return String.format("a letter of %d g", letter.grams());
        } else if (thing instanceof Object[]) {
            return Arrays.toString((Object[]) thing);
        }
        return thing == null ? "nothing" : thing.getClass().getSimpleName();
    }

    void load(Van van, Predicate<? super Parcel> wanted) {
        zones:
        for (Zone zone : Zone.values()) {
            List<Parcel> shelf = shelves.get(zone);
            if (shelf == null) continue;
            Iterator<Parcel> parcels = shelf.iterator();
            while (parcels.hasNext()) {
                Parcel parcel = parcels.next();
                if (!wanted.test(parcel)) continue zones;
                if (!van.take(parcel)) break zones;
                parcels.remove();
            }
        }
        synchronized (yard) {
            yard.addLast(van);
        }
    }

    List<Item> urgent() {
        List<Parcel> city = shelves.getOrDefault(Zone.CITY, List.of());
        List<Parcel> far = shelves.getOrDefault(Zone.ISLANDS, Collections.emptyList());
        List<Item> all = new ArrayList<>(joined(city, far));
        all.sort(comparing(Item::grams).reversed());
        return all;
    }

    void report(PrintStream out) throws InterruptedException {
        String head = """
            Depot \
            of "today"
              received:\t%d, refused: %d
            """;
        out.printf(head, received, refused);
        Map<Integer, List<Item>> byWeight = grouped(urgent(), item -> item.grams() / 1000);
        byWeight.forEach((weight, items) -> {
            var names = items.stream().map(this::describe).collect(Collectors.joining("; ", "[", "]"));
            out.println(weight + " kg: " + names);
        });
        Tour tour = this.new Tour();
        for (Van van : tour) {
            out.println(tour.label.apply(van.plate()) + van.load.size());
        }
        assert tour.stops == yard.size() : "a van was left out";
    }

    public static void main(String[] arguments) throws Exception {
        Depot depot = new Depot();
        String[][] orders = new String[3][];
        orders[0] = new String[] {"Ada", "c", "420"};
        orders[1] = new String[] {"Grace", "isle", "2600"};
        orders[2] = arguments.length > 0 ? arguments : new String[] {"Edsger", "x", "-1"};
        for (int i = 0, n = orders.length; i < n; i++) {
            try {
                int grams = Integer.parseInt(orders[i][2]);
                depot.receive(new Parcel(orders[i][0], Zone.of(orders[i][1]), grams));
            } catch (NumberFormatException | NullPointerException e) {
                System.err.println(e.getMessage());
            } catch (IllegalArgumentException e) {
                depot.refused++;
            } finally {
                depot.received += 0;
            }
        }
        try (Van van = new CityVan("B-417"); var second = new CityVan("B-418")) {
            van.open = second.open = true;
            depot.load(van, parcel -> parcel.grams() < 1000);
            depot.load(second, Predicate.not(Item::isHeavy));
            Runnable work = () -> System.out.println(greatest(3, 14, 1));
            work.run();
            switch (van.load.size()) {
                case 0:
                    System.out.println("empty");
                    break;
                case 1:
                case 2:
                    System.out.println(depot.describe(van.load.get(0)));
                default:
                    System.out.println(depot.checksum("depot".getBytes()));
            }
            depot.report(System.out);
        }
        Pair<String, Integer> pair = new Pair<>("parcels", Parcel.made).<Integer>with(7);
        System.out.println(pair.turned().first() + " " + pair);
    }
}
