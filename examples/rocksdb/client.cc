// Runs concurrent transactions against RocksDB and logs them for sicheck.
//
// A snapshot has a sequence number, and sees what has one up to it: SetSnapshot, whose number is the start, and ReadOptions.snapshot for each
// read. A commit doesn't tell its numbers. So each writer puts its own id under a key of its client in the same transaction, and GetAllKeyVersions
// tells that version's number afterwards, which is the commit's: no snapshot is within a commit. Automatic compactions are off, since they drop
// versions. The same key tells what became of a commit whose answer was lost.
//
// With --fault one transaction at a time goes wrong, and --notes tells how: `cache` reads from a cache that nobody clears, `outside` reads without
// the snapshot, `unchecked` writes in another transaction, which has no snapshot, `outcome` takes commits for rollbacks. With --stamps late the
// start is the newest number behind the reads, which is false, and with --stamps clock the stamps are a clock's.
#include "trial.hpp"
#include <algorithm>
#include <filesystem>
#include <memory>
#include <rocksdb/utilities/debug.h>
#include <rocksdb/utilities/optimistic_transaction_db.h>
#include <rocksdb/utilities/transaction.h>

using Database = rocksdb::OptimisticTransactionDB;
static void must(const rocksdb::Status &status) {
  if (!status.ok()) throw std::runtime_error(status.ToString());
}
static Value value_of(const rocksdb::Status &status, const std::string &text) {
  if (status.IsNotFound()) return std::nullopt;
  must(status);
  return std::stoull(text);
}

class Client : Chance {
 public:
  Client(Database &database, Faults &faults, lines::Log &log, unsigned number)
      : Chance(faults.options.seed * 100 + number), database_(database), faults_(faults), log_(log), number_(number),
        row_("client/" + std::to_string(number)) {}

  void run() {
    for (unsigned count = 0; faults_.goes_on(count); count++) run_transaction(number_ * Number{1000000} + count + 1);
  }

 private:
  void run_transaction(Number id) {
    const bool only_reads = happens(0.3);
    Told told(faults_, id, only_reads, happens(0.6));
    rocksdb::OptimisticTransactionOptions with_snapshot;
    with_snapshot.set_snapshot = true;
    const std::unique_ptr<rocksdb::Transaction> txn(database_.BeginTransaction({}, with_snapshot)), other(database_.BeginTransaction({}));
    auto &writer = told.wrong == "unchecked" ? *other : *txn;
    start_ = faults_.options.stamps == "clock" ? clock_now() : txn->GetSnapshot()->GetSequenceNumber();
    for (unsigned left = 2 + below(3); left > 0; left--) {
      std::this_thread::sleep_for(std::chrono::microseconds(below(2000)));
      const std::string key = "k" + std::to_string(below(faults_.options.keys));
      if (only_reads || happens(0.5)) read(told, told.written.count(key) ? writer : *txn, key);
      else write(told, *txn, writer, key);
    }
    if (!told.written.empty()) must(writer.Put(row_, std::to_string(id)));
    const auto status = happens(0.05) ? rocksdb::Status::Busy() : writer.Commit();
    if (!status.IsBusy() && !status.IsTryAgain()) must(status);
    end(told, status.ok());
  }
  // What the transaction's snapshot has, or what it wrote itself.
  static Value find(rocksdb::Transaction &txn, const std::string &key) {
    rocksdb::ReadOptions at_snapshot;
    at_snapshot.snapshot = txn.GetSnapshot();
    std::string text;
    const auto status = txn.Get(at_snapshot, key, &text);
    return value_of(status, text);
  }
  Value newest(const std::string &key) {
    std::string text;
    const auto status = database_.Get({}, key, &text);
    return value_of(status, text);
  }

  void read(Told &told, rocksdb::Transaction &txn, const std::string &key) {
    const Value found = find(txn, key);
    const Value taken = told.taken(key, found, cache_, [&] { return newest(key); });
    if (faults_.options.stamps == "late") start_ = database_.GetLatestSequenceNumber();
    told.ops.read(key, taken);
  }

  void write(Told &told, rocksdb::Transaction &txn, rocksdb::Transaction &writer, const std::string &key) {
    if (!told.written.count(key)) told.written[key] = find(txn, key);
    const Number value = told.id * 4096 + told.ops.count();
    told.ops.write(key, value);
    must(writer.Put(key, std::to_string(value)));
  }

  std::vector<rocksdb::KeyVersion> versions(const std::string &key) {
    std::vector<rocksdb::KeyVersion> all;
    must(rocksdb::GetAllKeyVersions(&database_, key, key, 1000000, &all));  // the newest first:
    std::sort(all.begin(), all.end(), [](const auto &one, const auto &other) { return one.sequence > other.sequence; });
    return all;
  }

  void end(Told &told, bool is_committed) {
    Number commit = 0;
    if (is_committed && !told.written.empty()) {
      commit = faults_.options.stamps == "clock" ? clock_now() : versions(row_).front().sequence;
      for (const auto &[key, seen] : told.written) note_replaced(told, key, seen);
    }
    const Number begin = 2 * start_ + 2, end = told.written.empty() ? begin : 2 * commit + 1;
    const bool is_lost = told.wrong.empty() && !told.written.empty() && faults_.options.stamps.empty() && happens(0.05);
    if (!told.ends(is_committed)) {
      log_.aborted(told.id, begin, told.ops);
    } else if (is_lost) {  // the answer is thrown away; the client's key tells
      log_.in_doubt(told.id, begin, told.ops);
      log_.resolved(told.id, newest(row_) == told.id ? Value(end) : std::nullopt);
    } else {
      log_.committed(told.id, begin, end, told.ops);
    }
  }

  // The first value behind the transaction's own ones is what stood there.
  void note_replaced(Told &told, const std::string &key, const Value &seen) {
    Value replaced;
    bool is_behind = false;
    for (const auto &it : versions(key)) {
      const bool is_own = std::stoull(it.value) / 4096 == told.id;
      if (is_behind && !is_own && !replaced) replaced = std::stoull(it.value);
      is_behind = is_behind || is_own;
    }
    told.note_replaced(key, replaced, told.wrong == "unchecked" ? std::optional<Value>(seen) : std::nullopt);
  }

  Database &database_;
  Faults &faults_;
  lines::Log &log_;
  const Number number_;
  const std::string row_;
  std::map<std::string, Value> cache_;
  Number start_ = 0;
};

int main(int count, char **words) {
  const Options options(count, words);
  Faults faults(options);
  lines::Log log(1);
  const std::string room = std::filesystem::temp_directory_path() / ("rocksdb-" + std::to_string(getpid()));
  rocksdb::Options settings;
  settings.create_if_missing = true;
  settings.disable_auto_compactions = true;
  Database *opened;
  must(Database::Open(settings, room, &opened));
  const std::unique_ptr<Database> database(opened);
  for (unsigned key = 0; key < options.keys; key += 2) {  // the others have no value from before the run
    must(database->Put({}, "k" + std::to_string(key), std::to_string(key)));
    log.setup("k" + std::to_string(key), key);
  }
  run_all(options.clients, [&](unsigned number) { Client(*database, faults, log, number).run(); });
  std::filesystem::remove_all(room);
}
