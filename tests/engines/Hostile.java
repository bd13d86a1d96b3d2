import java.io.BufferedReader;
import java.io.FileDescriptor;
import java.io.FileOutputStream;
import java.io.InputStreamReader;

/** As hostile.c, by the other file; a key's letters are numbers of 16 bits. */
public final class Hostile {
  private static String key(String text) {
    StringBuilder key = new StringBuilder();
    for (int at = 0; at < text.length(); at += 4) {
      key.append((char) Integer.parseInt(text.substring(at, at + 4), 16));
    }
    return key.toString();
  }

  public static void main(String[] words) throws Exception {
    Lines log = new Lines(new FileOutputStream(FileDescriptor.out).getChannel(), words[0].equals("pipe"));
    BufferedReader input = new BufferedReader(new InputStreamReader(System.in, "US-ASCII"));
    String text;
    for (long id = 1; (text = input.readLine()) != null; id++) {
      try {
        Lines.Ops ops = new Lines.Ops();
        for (String one : text.split(",", -1)) {
          ops.read(key(one), null).write(key(one), -1 - id);
        }
        log.committed(id, 2 * id, 2 * id + 1, ops);
      } catch (java.io.IOException | IllegalArgumentException fault) {
        System.err.println(id);
      }
    }
  }
}
