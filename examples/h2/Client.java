import java.io.FileDescriptor;
import java.io.FileOutputStream;
import java.nio.file.Files;
import java.nio.file.Path;
import java.sql.SQLException;
import java.util.ArrayList;
import java.util.HashMap;
import java.util.List;
import java.util.Map;
import java.util.Random;
import java.util.concurrent.atomic.AtomicLong;

/**
 * Runs concurrent transactions against H2 at SNAPSHOT and writes raw lines, of which `python3 -m sicheck number` makes a log.
 *
 * <p>H2 gives its clients no stamps, and lets several transactions write at once. So each client has a row in the table that is tested, to which
 * each of its writers writes its own id, and each transaction reads the rows of all clients first. Right before its commit each draws from one
 * counter. With --fault one transaction at a time goes wrong, and --notes tells how: `cache` reads from a cache that nobody clears, `outside` reads
 * on another connection, `unchecked` writes on another connection, as a pool of them may hand it out, `outcome` takes commits for rollbacks. With
 * --stamps late the rows are read behind the other reads, on another connection, which is false; with --stamps clock there is a clock in their place.
 */
public final class Client implements Runnable {
  private static final AtomicLong COUNTER = new AtomicLong();
  private static volatile Throwable error;
  private final Trial trial;
  private final Lines log;
  private final int number;
  private final Random chance;
  private final Session session;
  private final Session other;
  private final Map<String, Long> cache = new HashMap<>();
  private Map<String, Long> seen;
  private long begun;
  private Client(Trial trial, Lines log, String database, int number) throws SQLException {
    this.trial = trial;
    this.log = log;
    this.number = number;
    chance = new Random(trial.seed * 100L + number);
    session = new Session(database, "SNAPSHOT");
    other = new Session(database, "READ COMMITTED");
  }

  @Override
  public void run() {
    try (session; other) {
      for (int count = 1; trial.goesOn(count - 1); count++) {
        runTransaction(number * 1000000L + count);
      }
    } catch (Exception fault) {
      error = fault;
    }
  }

  private void runTransaction(long id) throws Exception {
    boolean onlyReads = chance.nextDouble() < 0.3;
    Trial.Told told = trial.new Told(id, onlyReads, chance);
    Session writer = told.wrong.equals("unchecked") ? other : session;
    long tie = 0;
    boolean isCommitted = false;
    seen = Map.of();
    try {
      operate(told, writer, onlyReads);
      if (chance.nextDouble() >= 0.05) {
        tie = COUNTER.incrementAndGet();
        writer.connection.commit();
        isCommitted = true;
      }
    } catch (SQLException fault) {
      isCommitted = false; // a conflict, or a deadlock
    }
    session.connection.rollback();
    other.connection.rollback();
    boolean isTaken = told.ends(isCommitted);
    if (!trial.stamps.equals("clock")) {
      log.raw(id, seen, tie, isTaken ? "committed" : "aborted", told.ops);
    } else if (isTaken) {
      log.committed(id, 2 * begun, told.written.isEmpty() ? 2 * begun : 2 * System.nanoTime() + 1, told.ops);
    } else {
      log.unfinished(id, 2 * begun, "aborted", told.ops);
    }
  }

  private void operate(Trial.Told told, Session writer, boolean onlyReads) throws Exception {
    seen = session.clients();
    begun = System.nanoTime();
    for (int left = 2 + chance.nextInt(3); left > 0; left--) {
      Thread.sleep(chance.nextInt(3));
      String key = "k" + chance.nextInt(trial.keys);
      if (onlyReads || chance.nextBoolean()) {
        read(told, writer, key);
      } else {
        write(told, writer, key);
      }
    }
    if (!told.written.isEmpty()) {
      writer.put(Session.ROW + number, told.id, false);
    }
  }

  private void read(Trial.Told told, Session writer, String key) throws SQLException {
    boolean isOwn = told.written.containsKey(key);
    boolean isLate = trial.stamps.equals("late");
    Long found = (isOwn ? writer : session).value(key), taken = found;
    if (!isOwn && told.wrong.equals("cache")) {
      taken = cache.getOrDefault(key, found);
    } else if (!isOwn && told.wrong.equals("outside")) {
      taken = other.newest(key);
    } else if (!isOwn) {
      cache.put(key, found);
    }
    if (!isOwn && isLate) {
      told.readBehind(key, found, other.newest(key));
    }
    told.read(key, found, taken);
    if (isLate) {
      seen = other.newestClients();
    }
  }

  private void write(Trial.Told told, Session writer, String key) throws SQLException {
    Long replaced = writer.locked(key);
    if (!told.written.containsKey(key)) {
      told.replaces(key, replaced, writer == other, writer == other ? session.value(key) : null);
    }
    writer.put(key, told.write(key), replaced == null);
  }

  public static void main(String[] words) throws Exception {
    Trial trial = new Trial(words);
    Path room = Files.createTempDirectory("h2-");
    String database = "jdbc:h2:" + room + "/pairs;LOCK_TIMEOUT=30";
    Lines log = new Lines(new FileOutputStream(FileDescriptor.out).getChannel(), !Files.isRegularFile(Path.of("/dev/stdout")));
    try (Session first = new Session(database, "READ COMMITTED")) {
      first.setUp(trial, log);
      List<Thread> threads = new ArrayList<>();
      for (int number = 1; number <= trial.clients; number++) {
        threads.add(new Thread(new Client(trial, log, database, number)));
      }
      threads.forEach(Thread::start);
      for (Thread thread : threads) {
        thread.join();
      }
      first.ask("SHUTDOWN");
    }
    Trial.remove(room);
    if (error != null) {
      throw new IllegalStateException(error);
    }
  }
}
