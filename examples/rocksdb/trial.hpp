// What the client of RocksDB does by chance, what goes wrong in it on purpose, and what it writes down of that (../injected.py).
#pragma once
#include <atomic>
#include <chrono>
#include <cstdlib>
#include <fstream>
#include <map>
#include <mutex>
#include <optional>
#include <random>
#include <set>
#include <string>
#include <thread>
#include <vector>
#include "lines.hpp"

using Number = std::uint64_t;
using Value = std::optional<Number>;
inline std::string text_of(const Value &value) { return value ? std::to_string(*value) : "null"; }

inline Number clock_now() { return static_cast<Number>(std::chrono::system_clock::now().time_since_epoch() / std::chrono::nanoseconds(1)); }
struct Options {
  unsigned clients = 4, transactions = 300, keys = 6, seed = 1, least = 20;
  std::string fault, stamps, notes;

  Options(int count, char **words) {
    const std::map<std::string, unsigned *> numbers = {
        {"--clients", &clients}, {"--transactions", &transactions}, {"--keys", &keys}, {"--seed", &seed}, {"--least", &least}};
    const std::map<std::string, std::string *> texts = {{"--fault", &fault}, {"--stamps", &stamps}, {"--notes", &notes}};
    const std::set<std::string> faults = {"", "cache", "outside", "unchecked", "outcome"}, false_stamps = {"", "clock", "late"};
    for (int it = 1; it < count; it += 2) {
      const std::string word = words[it];
      if (it + 1 < count && numbers.count(word)) *numbers.at(word) = static_cast<unsigned>(std::stoul(words[it + 1]));
      else if (it + 1 < count && texts.count(word)) *texts.at(word) = words[it + 1];
      else std::exit(2);
    }
    if (!clients || !keys || !faults.count(fault) || !false_stamps.count(stamps)) std::exit(2);
  }
};

struct Chance {
  explicit Chance(unsigned seed) : drawn(seed) {}
  bool happens(double share) { return std::uniform_real_distribution<>()(drawn) < share; }
  unsigned below(unsigned limit) { return static_cast<unsigned>(drawn() % limit); }
  std::mt19937 drawn;
};

// Runs the clients, each in a thread of its own.
template <typename Run>
void run_all(unsigned clients, Run run) {
  std::vector<std::thread> threads;
  for (unsigned number = 1; number <= clients; number++) threads.emplace_back(run, number);
  for (auto &thread : threads) thread.join();
}

// What goes wrong in a run: the clients, which are threads, share it.
class Faults {
 public:
  explicit Faults(const Options &given) : options(given) {
    if (!options.notes.empty()) file_.open(options.notes);
  }

  // Whether a client has another transaction: as many as asked for, and more while faults are missing.
  bool goes_on(unsigned count) const {
    const bool is_short = (!options.fault.empty() || options.stamps == "late") && counted_ < options.least;
    return count < options.transactions || (is_short && count < 20 * options.transactions);
  }

  void add(const std::string &notes, unsigned faults) {
    const std::lock_guard<std::mutex> turn(guard_);
    counted_ += faults;
    file_ << notes << std::flush;
  }

  void misjudge(Number id, bool is_so) {
    const std::lock_guard<std::mutex> turn(guard_);
    is_so ? static_cast<void>(misjudged_.insert(id)) : static_cast<void>(misjudged_.erase(id));
  }

  bool is_misjudged(const Value &value) {
    const std::lock_guard<std::mutex> turn(guard_);
    return value && misjudged_.count(*value / 4096);
  }

  const Options &options;
  std::mutex turn;  // of the one transaction that goes wrong

 private:
  std::ofstream file_;
  std::mutex guard_;
  std::atomic<unsigned> counted_{0};
  std::set<Number> misjudged_;
};

// A transaction, beside what goes wrong in it.
class Told {
 public:
  Told(Faults &faults, Number number, bool only_reads, bool is_drawn) : id(number), faults_(faults) {
    const std::string &kind = faults.options.fault;
    const bool suits = !kind.empty() && !(only_reads && (kind == "unchecked" || kind == "outcome"));
    if (suits && is_drawn && faults.turn.try_lock()) wrong = kind;
    if (wrong == "outcome") faults.misjudge(id, true);
  }

  // What a read, of which the snapshot has this, is taken for. `newest` asks outside of it.
  template <typename Newest>
  Value taken(const std::string &key, const Value &found, std::map<std::string, Value> &cache, Newest newest) {
    if (written.count(key)) return found;
    Value it = found;
    if (wrong == "cache" && cache.count(key)) it = cache[key];
    else if (wrong == "outside") it = newest();
    else cache[key] = found;
    if (it != found) note(wrong, key, it, found);
    else if (faults_.is_misjudged(found)) note("misjudged", key, found, std::nullopt);
    else if (faults_.options.stamps == "late" && newest() != found) note("late", key, found, std::nullopt);
    return it;
  }

  void note(const std::string &did, const std::string &key, const Value &returned, const Value &instead) {
    faults++;
    notes_ += "{\"did\":\"" + did + "\",\"id\":" + std::to_string(id) + ",\"op\":" + std::to_string(ops.count()) + ",\"key\":" +
              lines::quoted(key) + ",\"returned\":" + text_of(returned) + ",\"instead\":" + text_of(instead) + "}\n";
  }

  // The first write of a key replaced this value; where nobody looked for a conflict, it is also told what the snapshot shows.
  void note_replaced(const std::string &key, const Value &replaced, const std::optional<Value> &seen) {
    notes_ += "{\"did\":\"write\",\"id\":" + std::to_string(id) + ",\"key\":" + lines::quoted(key) + ",\"replaced\":" + text_of(replaced) +
              (seen ? ",\"seen\":" + text_of(*seen) : "") + "}\n";
    faults += seen && *seen != replaced;
  }

  // What became of it. Whether the client takes it for committed.
  bool ends(bool is_committed) {
    const bool is_misjudged = wrong == "outcome";
    if (is_committed && !is_misjudged) faults_.add(notes_, faults);
    if (!is_committed && is_misjudged) faults_.misjudge(id, false);
    if (!wrong.empty()) faults_.turn.unlock();
    return is_committed && !is_misjudged;
  }

  const Number id;
  std::string wrong;
  lines::Ops ops;
  std::map<std::string, Value> written;  // by key: what the snapshot shows
  unsigned faults = 0;

 private:
  Faults &faults_;
  std::string notes_;
};
