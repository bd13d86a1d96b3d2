import java.io.IOException;
import java.io.PrintWriter;
import java.nio.file.Files;
import java.nio.file.Path;
import java.util.Arrays;
import java.util.HashMap;
import java.util.List;
import java.util.Map;
import java.util.Objects;
import java.util.Random;
import java.util.Set;
import java.util.concurrent.ConcurrentHashMap;
import java.util.concurrent.Semaphore;
import java.util.concurrent.atomic.AtomicInteger;
import java.util.stream.Stream;

/** What goes wrong on purpose in a run of the client of H2, and what it writes down of that (../injected.py). */
final class Trial {
  static final List<String> FAULTS = Arrays.asList("", "cache", "outside", "unchecked", "outcome");
  static final List<String> STAMPS = Arrays.asList("", "clock", "late");
  int clients = 4;
  int transactions = 300;
  int keys = 6;
  int seed = 1;
  int least = 20;
  String fault = "";
  String stamps = "";
  String notes = "";
  private PrintWriter file;
  private final AtomicInteger counted = new AtomicInteger();
  private final Semaphore turn = new Semaphore(1); // of the one transaction that goes wrong
  private final Set<Long> misjudged = ConcurrentHashMap.newKeySet();

  Trial(String[] words) throws IOException {
    for (int it = 0; it + 1 < words.length; it += 2) {
      String word = words[it + 1];
      switch (words[it]) {
        case "--clients": clients = Integer.parseInt(word); break;
        case "--transactions": transactions = Integer.parseInt(word); break;
        case "--keys": keys = Integer.parseInt(word); break;
        case "--seed": seed = Integer.parseInt(word); break;
        case "--least": least = Integer.parseInt(word); break;
        case "--fault": fault = word; break;
        case "--stamps": stamps = word; break;
        case "--notes": notes = word; break;
        default: throw new IllegalArgumentException("no option: " + words[it]);
      }
    }
    if (!FAULTS.contains(fault) || !STAMPS.contains(stamps)) {
      throw new IllegalArgumentException("the faults are " + FAULTS + ", false stamps " + STAMPS);
    }
    file = notes.isEmpty() ? null : new PrintWriter(notes, "UTF-8");
  }

  /** Whether a client has another transaction: as many as asked for, and more while faults are missing. */
  boolean goesOn(int count) {
    boolean isShort = (!fault.isEmpty() || stamps.equals("late")) && counted.get() < least;
    return count < transactions || isShort && count < 20 * transactions;
  }

  /** Removes the folder with its files. */
  static void remove(Path room) throws IOException {
    try (Stream<Path> files = Files.list(room)) {
      for (Path file : (Iterable<Path>) files::iterator) {
        Files.delete(file);
      }
    }
    Files.delete(room);
  }

  private synchronized void add(StringBuilder text) {
    if (file != null) {
      file.print(text);
      file.flush();
    }
  }

  /** A transaction, beside what goes wrong in it. */
  final class Told {
    final long id;
    final String wrong;
    final Lines.Ops ops = new Lines.Ops();
    final Map<String, Long> written = new HashMap<>();
    private final StringBuilder noted = new StringBuilder();
    private int faults;

    Told(long id, boolean onlyReads, Random chance) {
      this.id = id;
      boolean suits = !fault.isEmpty() && !(onlyReads && (fault.equals("unchecked") || fault.equals("outcome")));
      wrong = suits && chance.nextDouble() < 0.6 && turn.tryAcquire() ? fault : "";
      if (wrong.equals("outcome")) {
        misjudged.add(id);
      }
    }

    /** A read, of which the snapshot has this, and `taken` is what the client takes it for. */
    void read(String key, Long found, Long taken) {
      if (!Objects.equals(found, taken)) {
        note(wrong, key, taken, found);
      } else if (found != null && misjudged.contains(found / 4096)) {
        note("misjudged", key, found, null);
      }
      ops.read(key, taken);
    }

    /** What was read, where the newest is another value already: it looks old where the snapshot is asked for behind it. */
    void readBehind(String key, Long found, Long newest) {
      if (!Objects.equals(found, newest)) {
        note("late", key, found, null);
      }
    }

    void note(String did, String key, Long returned, Long instead) {
      faults++;
      noted.append("{\"did\":\"").append(did).append("\",\"id\":").append(id).append(",\"op\":").append(ops.count()).append(",\"key\":")
          .append(Lines.quoted(key)).append(",\"returned\":").append(returned).append(",\"instead\":").append(instead).append("}\n");
    }

    /** The first write of a key replaces this value. Where nobody looks for a conflict, it is also told what the snapshot shows. */
    void replaces(String key, Long replaced, boolean isUnchecked, Long seen) {
      noted.append("{\"did\":\"write\",\"id\":").append(id).append(",\"key\":").append(Lines.quoted(key)).append(",\"replaced\":").append(replaced)
          .append(isUnchecked ? ",\"seen\":" + seen : "").append("}\n");
      faults += isUnchecked && !Objects.equals(replaced, seen) ? 1 : 0;
    }

    /** The value to be written. */
    long write(String key) {
      long value = id * 4096 + ops.count();
      ops.write(key, value);
      written.put(key, value);
      return value;
    }

    /** What became of it. Whether the client takes it for committed. */
    boolean ends(boolean isCommitted) {
      boolean isMisjudged = wrong.equals("outcome");
      if (isCommitted && !isMisjudged) {
        counted.addAndGet(faults);
        add(noted);
      } else if (isMisjudged && !isCommitted) {
        misjudged.remove(id);
      }
      if (!wrong.isEmpty()) {
        turn.release();
      }
      return isCommitted && !isMisjudged;
    }
  }
}
