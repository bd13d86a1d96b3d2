import java.io.IOException;
import java.nio.ByteBuffer;
import java.nio.channels.FileChannel;
import java.nio.charset.CharacterCodingException;
import java.nio.charset.StandardCharsets;
import java.util.Map;

/**
 * Writes a client's lines for sicheck. Each is there whole, or not at all.
 *
 * <pre>
 * Lines log = new Lines(channel);                       of a file that is appended to, or of a pipe
 * Lines.Ops ops = new Lines.Ops().read("x", null).write("x", value);
 * log.committed(id, start, commit, ops);
 * log.raw(id, seen, tie, "committed", ops);             for `python3 -m sicheck number`
 * </pre>
 *
 * Numbers are those of 64 bits without a sign, so -1 is the greatest. A key is 1 to 128 bytes in UTF-8. What the format forbids is an
 * IllegalArgumentException, and nothing is written. Threads may share a log. Processes may share a pipe if no line has over 4,096 bytes; else
 * it is refused. A file belongs to one process: where a line doesn't fit on the disk it is taken back.
 */
public final class Lines {
  /** The operations of a transaction. */
  public static final class Ops {
    private final StringBuilder text = new StringBuilder();
    private int count;

    public Ops read(String key, Long value) {
      return add("r", key, value == null ? "null" : Long.toUnsignedString(value));
    }

    public Ops write(String key, long value) {
      return add("w", key, Long.toUnsignedString(value));
    }

    public int count() {
      return count;
    }

    private Ops add(String what, String key, String value) {
      if (count == 4096) {
        throw new IllegalArgumentException("a transaction has at most 4,096 operations");
      }
      String name = quoted(key);
      text.append(count++ > 0 ? "," : "").append("[\"").append(what).append("\",").append(name).append(',').append(value).append(']');
      return this;
    }
  }

  private final FileChannel file;
  private final boolean isPipe;

  public Lines(FileChannel file, boolean isPipe) {
    this.file = file;
    this.isPipe = isPipe;
  }

  public void setup(String key, long value) throws IOException {
    send("{\"do\":\"setup\",\"key\":" + quoted(key) + ",\"value\":" + Long.toUnsignedString(value) + "}\n");
  }

  public void committed(long id, long start, long commit, Ops ops) throws IOException {
    send(head(id) + ",\"start\":" + Long.toUnsignedString(start) + ",\"status\":\"committed\",\"commit\":" + Long.toUnsignedString(commit)
        + ",\"ops\":[" + ops.text + "]}\n");
  }

  /** The status is `aborted` or `indoubt`. */
  public void unfinished(long id, long start, String status, Ops ops) throws IOException {
    send(head(id) + ",\"start\":" + Long.toUnsignedString(start) + ",\"status\":\"" + status + "\",\"ops\":[" + ops.text + "]}\n");
  }

  /** A raw line: what the transaction's snapshot has in the row of each client, and the number from the counter of all. */
  public void raw(long id, Map<String, Long> seen, long tie, String status, Ops ops) throws IOException {
    StringBuilder rows = new StringBuilder();
    for (Map.Entry<String, Long> row : seen.entrySet()) {
      rows.append(rows.length() > 0 ? "," : "").append(quoted(row.getKey())).append(':').append(Long.toUnsignedString(row.getValue()));
    }
    send(head(id) + ",\"seen\":{" + rows + "},\"tie\":" + Long.toUnsignedString(tie) + ",\"status\":\"" + status + "\",\"ops\":[" + ops.text
        + "]}\n");
  }

  private static String head(long id) {
    return "{\"do\":\"txn\",\"id\":" + Long.toUnsignedString(id);
  }

  /** The key as JSON. */
  static String quoted(String key) {
    int size;
    try {
      size = StandardCharsets.UTF_8.newEncoder().encode(java.nio.CharBuffer.wrap(key)).remaining();
    } catch (CharacterCodingException fault) {
      throw new IllegalArgumentException("a key has half a surrogate pair", fault);
    }
    if (size < 1 || size > 128) {
      throw new IllegalArgumentException("a key has 1 to 128 bytes, and this one " + size);
    }
    StringBuilder text = new StringBuilder("\"");
    for (char letter : key.toCharArray()) {
      if (letter == '"' || letter == '\\') {
        text.append('\\').append(letter);
      } else if (letter < ' ') {
        text.append(String.format("\\u%04x", (int) letter));
      } else {
        text.append(letter);
      }
    }
    return text.append('"').toString();
  }

  /** Writes the text whole, or nothing of it. */
  private synchronized void send(String text) throws IOException {
    ByteBuffer bytes = ByteBuffer.wrap(text.getBytes(StandardCharsets.UTF_8));
    if (bytes.remaining() > 1048577) {
      throw new IllegalArgumentException("a line has at most 1,048,576 bytes");
    }
    if (isPipe && bytes.remaining() > 4096) {
      throw new IllegalArgumentException("a line for a pipe has at most 4,096 bytes");
    }
    long before = isPipe ? 0 : file.size();
    try {
      if (!isPipe) {
        file.position(before);
      }
      while (bytes.hasRemaining()) {
        file.write(bytes);
      }
    } catch (IOException fault) {
      if (!isPipe) {
        file.truncate(before);
      }
      throw fault;
    }
  }
}
