import java.io.IOException;
import java.sql.Connection;
import java.sql.DriverManager;
import java.sql.ResultSet;
import java.sql.SQLException;
import java.sql.Statement;
import java.util.HashMap;
import java.util.Map;

/** A connection to H2, and the table `pairs` as it shows it. */
final class Session implements AutoCloseable {
  static final String ROW = "writer-"; // how the names of the clients' rows begin
  final Connection connection;

  Session(String database, String level) throws SQLException {
    connection = DriverManager.getConnection(database);
    ask("SET SESSION CHARACTERISTICS AS TRANSACTION ISOLATION LEVEL " + level);
    connection.setAutoCommit(false);
  }

  /** Makes the table, with a row for each client, and values from before the run for every other key. */
  void setUp(Trial trial, Lines log) throws SQLException, IOException {
    ask("CREATE TABLE pairs (name VARCHAR(32) PRIMARY KEY, val BIGINT NOT NULL)");
    for (int number = 1; number <= trial.clients; number++) {
      put(ROW + number, 0, true);
    }
    for (int key = 0; key < trial.keys; key += 2) {
      put("k" + key, key, true);
      log.setup("k" + key, key);
    }
    connection.commit();
  }

  void ask(String statement) throws SQLException {
    try (Statement it = connection.createStatement()) {
      it.execute(statement);
    }
  }

  private Map<String, Long> rows(String condition) throws SQLException {
    Map<String, Long> found = new HashMap<>();
    try (Statement it = connection.createStatement(); ResultSet rows = it.executeQuery("SELECT name, val FROM pairs WHERE name " + condition)) {
      while (rows.next()) {
        found.put(rows.getString(1), rows.getLong(2));
      }
    }
    return found;
  }

  /** The last id of each client. */
  Map<String, Long> clients() throws SQLException {
    Map<String, Long> found = new HashMap<>();
    rows("LIKE '" + ROW + "%'").forEach((name, id) -> found.put(name.substring(ROW.length()), id));
    return found;
  }

  Long value(String key) throws SQLException {
    return rows("= '" + key + "'").get(key);
  }

  /** The newest value, in a transaction of its own. */
  Long newest(String key) throws SQLException {
    Long found = value(key);
    connection.rollback();
    return found;
  }

  Map<String, Long> newestClients() throws SQLException {
    Map<String, Long> found = clients();
    connection.rollback();
    return found;
  }

  /** The newest value, which stays locked. */
  Long locked(String key) throws SQLException {
    return rows("= '" + key + "' FOR UPDATE").get(key);
  }

  /** Writes a key that has a value, or one that has none. */
  void put(String key, long value, boolean isNew) throws SQLException {
    ask(isNew ? "INSERT INTO pairs VALUES ('" + key + "', " + value + ")" : "UPDATE pairs SET val = " + value + " WHERE name = '" + key + "'");
  }

  @Override
  public void close() throws SQLException {
    connection.close();
  }
}
