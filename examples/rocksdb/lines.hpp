// Writes a client's lines for sicheck. Each is there whole, or not at all.
//
//     lines::Log log(1);                               a descriptor, as of standard output
//     lines::Ops ops;
//     ops.read("x", std::nullopt).write("x", value);   nothing was there; a value
//     log.committed(id, start, commit, ops);
//
// A key is 1 to 128 bytes of UTF-8. What the format forbids is std::invalid_argument, and nothing is written; what can't be written is
// std::system_error. Threads may share a log, and processes a pipe, if no line has over 4,096 bytes; else the line is EMSGSIZE. A file belongs to
// one process: where a line doesn't fit on the disk it is taken back.
#pragma once
#include <cerrno>
#include <cstdint>
#include <cstdio>
#include <mutex>
#include <optional>
#include <stdexcept>
#include <string>
#include <string_view>
#include <sys/stat.h>
#include <system_error>
#include <unistd.h>

namespace lines {

// How many bytes the first letter takes; 0 where it is no UTF-8.
inline std::size_t letter(std::string_view it) {
  auto byte = [&](std::size_t place) { return static_cast<unsigned char>(it[place]); };
  const std::size_t size = byte(0) < 0x80 ? 1 : byte(0) < 0xC2 ? 0 : byte(0) < 0xE0 ? 2 : byte(0) < 0xF0 ? 3 : byte(0) < 0xF5 ? 4 : 0;
  if (size == 0 || size > it.size()) return 0;
  for (std::size_t place = 1; place < size; place++)
    if ((byte(place) & 0xC0) != 0x80) return 0;
  if ((byte(0) == 0xE0 && byte(1) < 0xA0) || (byte(0) == 0xED && byte(1) > 0x9F)) return 0;  // longer than need be; half a surrogate pair
  if ((byte(0) == 0xF0 && byte(1) < 0x90) || (byte(0) == 0xF4 && byte(1) > 0x8F)) return 0;  // longer than need be; beyond the last
  return size;
}

// The key as JSON.
inline std::string quoted(std::string_view key) {
  if (key.empty() || key.size() > 128) throw std::invalid_argument("a key has 1 to 128 bytes");
  std::string text = "\"";
  while (!key.empty()) {
    const std::size_t size = letter(key);
    if (size == 0) throw std::invalid_argument("a key is UTF-8");
    if (key[0] == '"' || key[0] == '\\') {
      text += {'\\', key[0]};
    } else if (static_cast<unsigned char>(key[0]) < 0x20) {
      char code[8];
      std::snprintf(code, sizeof code, "\\u%04x", static_cast<unsigned>(key[0]));
      text += code;
    } else {
      text += key.substr(0, size);
    }
    key.remove_prefix(size);
  }
  return text + "\"";
}

class Ops {
 public:
  Ops &read(std::string_view key, std::optional<std::uint64_t> value) { return add('r', key, value ? std::to_string(*value) : "null"); }
  Ops &write(std::string_view key, std::uint64_t value) { return add('w', key, std::to_string(value)); }
  std::size_t count() const { return count_; }
  const std::string &text() const { return text_; }

 private:
  Ops &add(char what, std::string_view key, const std::string &value) {
    if (count_ == 4096) throw std::invalid_argument("a transaction has at most 4,096 operations");
    const std::string name = quoted(key);
    text_ += std::string(count_++ ? "," : "") + "[\"" + what + "\"," + name + "," + value + "]";
    return *this;
  }
  std::string text_;
  std::size_t count_ = 0;
};

class Log {
 public:
  explicit Log(int file) : file_(file) {}
  void setup(std::string_view key, std::uint64_t value) {
    send("{\"do\":\"setup\",\"key\":" + quoted(key) + ",\"value\":" + std::to_string(value) + "}\n");
  }
  void committed(std::uint64_t id, std::uint64_t start, std::uint64_t commit, const Ops &ops) {
    send(head(id, start, "committed") + ",\"commit\":" + std::to_string(commit) + ",\"ops\":[" + ops.text() + "]}\n");
  }
  void aborted(std::uint64_t id, std::uint64_t start, const Ops &ops) { send(head(id, start, "aborted") + ",\"ops\":[" + ops.text() + "]}\n"); }
  void in_doubt(std::uint64_t id, std::uint64_t start, const Ops &ops) { send(head(id, start, "indoubt") + ",\"ops\":[" + ops.text() + "]}\n"); }
  void resolved(std::uint64_t id, std::optional<std::uint64_t> commit) {
    send("{\"do\":\"resolve\",\"id\":" + std::to_string(id) +
         (commit ? ",\"status\":\"committed\",\"commit\":" + std::to_string(*commit) : std::string(",\"status\":\"aborted\"")) + "}\n");
  }

 private:
  static std::string head(std::uint64_t id, std::uint64_t start, const char *status) {
    return "{\"do\":\"txn\",\"id\":" + std::to_string(id) + ",\"start\":" + std::to_string(start) + ",\"status\":\"" + status + "\"";
  }

  // Writes the text whole, or nothing of it.
  void send(const std::string &text) {
    if (text.size() > 1048577) throw std::invalid_argument("a line has at most 1,048,576 bytes");
    const std::lock_guard<std::mutex> turn(guard_);
    struct stat is;
    if (fstat(file_, &is)) fail(errno);
    if (S_ISFIFO(is.st_mode) && text.size() > 4096) fail(EMSGSIZE);
    const bool is_file = S_ISREG(is.st_mode);
    const off_t before = is_file ? lseek(file_, 0, SEEK_END) : 0;
    for (std::size_t done = 0; done < text.size();) {
      const ssize_t some = ::write(file_, text.data() + done, text.size() - done);
      if (some > 0) {
        done += static_cast<std::size_t>(some);
      } else if (errno != EINTR) {
        const int fault = errno;
        if (is_file && (ftruncate(file_, before) || lseek(file_, before, SEEK_SET) < 0)) fail(EIO);
        fail(fault);
      }
    }
  }

  [[noreturn]] static void fail(int fault) { throw std::system_error(fault, std::generic_category(), "a line can't be written"); }

  const int file_;
  std::mutex guard_;
};

}  // namespace lines
