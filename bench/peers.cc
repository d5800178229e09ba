// Counts the keys of a trace in LevelDB, RocksDB or Redis, and prints each key whose count comes to the threshold, and
// a line of totals: what `lert run` prints, but for the cones and the positions.
//
// Words: STORE THRESHOLD BATCH TRACE DIR, or STORE alone, which prints its version. STORE is leveldb, rocksdb or redis;
// the first two are there where WITH_LEVELDB and WITH_ROCKSDB are defined, and for redis it runs redis-server, which
// listens to a Unix socket in DIR alone. DIR is made, and isn't there yet.
//
// BATCH keys are counted at a time, and the next ones once these are on the disk: by one batch of writes with a sync,
// or by one MULTI/EXEC of as many INCR with `appendfsync always`. A key is its 8 bytes, and so is a count in LevelDB
// and RocksDB. These have their settings by default, and a Bloom filter, by which a key that never came costs no read.
// It is the yardstick of `bench/peers`, and ends at the first fault. For little-endian Linux alone.

#include "counter.h"
#include "redis_counter.h"

#include <unistd.h>

#include <cstdint>
#include <cstdio>
#include <cstring>
#include <filesystem>
#include <fstream>
#include <memory>
#include <stdexcept>
#include <string>
#include <unordered_map>
#include <vector>

#ifdef WITH_LEVELDB
#include <leveldb/db.h>
#include <leveldb/filter_policy.h>
#include <leveldb/write_batch.h>
#endif
#ifdef WITH_ROCKSDB
#include <rocksdb/db.h>
#include <rocksdb/filter_policy.h>
#include <rocksdb/table.h>
#include <rocksdb/version.h>
#include <rocksdb/write_batch.h>
#endif

static_assert(__BYTE_ORDER__ == __ORDER_LITTLE_ENDIAN__, "a trace is read as it lies in memory");

namespace {

constexpr char TRACE_HEADER[8] = {'L', 'E', 'R', 'T', 1, 0, 0, 0};
// Bits for each key: of the look-ups for a key that isn't there, one in a hundred reads in vain.
[[maybe_unused]] constexpr int FILTER_BITS = 10;

// The keys of a trace, behind its header.
class Trace {
 public:
  explicit Trace(const std::string& path) : file_(path, std::ios::binary) {
    char header[sizeof TRACE_HEADER];
    if (!file_.read(header, sizeof header) || std::memcmp(header, TRACE_HEADER, sizeof header) != 0) {
      throw std::runtime_error("the trace has another header");
    }
  }

  // The next keys, `most` of them unless the trace ends before.
  Keys next(std::size_t most) {
    Keys keys(most);
    file_.read(reinterpret_cast<char*>(keys.data()), static_cast<std::streamsize>(most * sizeof keys[0]));
    const auto bytes = static_cast<std::size_t>(file_.gcount());
    if (bytes % sizeof keys[0] != 0) throw std::runtime_error("the trace ends inside a key");
    keys.resize(bytes / sizeof keys[0]);
    return keys;
  }

 private:
  std::ifstream file_;
};

#if defined(WITH_LEVELDB) || defined(WITH_ROCKSDB)

template <class Status>
void check(const Status& status) {
  if (!status.ok()) throw std::runtime_error(status.ToString());
}

// A store in a folder that isn't there yet.
template <class Db, class Options>
std::unique_ptr<Db> opened_anew(Options options, const std::string& dir) {
  options.create_if_missing = true;
  options.error_if_exists = true;
  Db* opened = nullptr;
  check(Db::Open(options, dir, &opened));
  return std::unique_ptr<Db>(opened);
}

// The counts in a store of key and value, of which LevelDB and RocksDB have the same calls.
template <class Db, class Batch, class Slice, class Write>
class StoreCounter : public Counter {
 public:
  template <class Options>
  StoreCounter(const std::string& dir, const Options& options, std::uint64_t threshold)
      : threshold_(threshold), db_(opened_anew<Db>(options, dir)) {
    write_.sync = true;
  }

  Keys count(const Keys& keys) override {
    std::unordered_map<std::uint64_t, std::uint64_t> added(keys.size());
    for (const auto key : keys) ++added[key];
    Keys reached;
    Batch batch;
    for (const auto& [key, more] : added) {
      const auto before = count_of(key);
      const auto after = before + more;
      batch.Put(bytes_of(key), bytes_of(after));
      if (before < threshold_ && after >= threshold_) reached.push_back(key);
    }
    check(db_->Write(write_, &batch));
    return reached;
  }

  void close() override { db_.reset(); }

 private:
  static Slice bytes_of(const std::uint64_t& number) {
    return {reinterpret_cast<const char*>(&number), sizeof number};
  }

  std::uint64_t count_of(std::uint64_t key) {
    const auto status = db_->Get({}, bytes_of(key), &value_);
    if (status.IsNotFound()) return 0;
    check(status);
    std::uint64_t count;
    if (value_.size() != sizeof count) throw std::runtime_error("a count has another length");
    std::memcpy(&count, value_.data(), sizeof count);
    return count;
  }

  const std::uint64_t threshold_;
  std::unique_ptr<Db> db_;
  Write write_;
  std::string value_;
};

#endif

#ifdef WITH_LEVELDB

using LevelDb = StoreCounter<leveldb::DB, leveldb::WriteBatch, leveldb::Slice, leveldb::WriteOptions>;

std::unique_ptr<Counter> make_leveldb(const std::string& dir, std::uint64_t threshold) {
  // The database uses it to its end.
  static const std::unique_ptr<const leveldb::FilterPolicy> filter(leveldb::NewBloomFilterPolicy(FILTER_BITS));
  leveldb::Options options;
  options.filter_policy = filter.get();
  return std::make_unique<LevelDb>(dir, options, threshold);
}

#endif

#ifdef WITH_ROCKSDB

using RocksDb = StoreCounter<rocksdb::DB, rocksdb::WriteBatch, rocksdb::Slice, rocksdb::WriteOptions>;

std::unique_ptr<Counter> make_rocksdb(const std::string& dir, std::uint64_t threshold) {
  rocksdb::BlockBasedTableOptions table;
  table.filter_policy.reset(rocksdb::NewBloomFilterPolicy(FILTER_BITS));
  rocksdb::Options options;
  options.table_factory.reset(rocksdb::NewBlockBasedTableFactory(table));
  return std::make_unique<RocksDb>(dir, options, threshold);
}

#endif

// Makes the folder, and the store in it.
std::unique_ptr<Counter> make_counter(const std::string& store, const std::string& dir, std::uint64_t threshold) {
#ifdef WITH_LEVELDB
  if (store == "leveldb") return make_leveldb(dir, threshold);
#endif
#ifdef WITH_ROCKSDB
  if (store == "rocksdb") return make_rocksdb(dir, threshold);
#endif
  if (store == "redis") {
    if (!std::filesystem::create_directory(dir)) throw std::runtime_error(dir + " is there");
    // A socket's path is short.
    std::filesystem::current_path(dir);
    return std::make_unique<RedisCounter>(threshold);
  }
  throw std::runtime_error("no store " + store);
}

void print_version(const std::string& store) {
#ifdef WITH_LEVELDB
  if (store == "leveldb") std::printf("%d.%d\n", leveldb::kMajorVersion, leveldb::kMinorVersion);
#endif
#ifdef WITH_ROCKSDB
  if (store == "rocksdb") std::puts(rocksdb::GetRocksVersionAsString().c_str());
#endif
  if (store == "redis") {
    execlp("redis-server", "redis-server", "--version", static_cast<char*>(nullptr));
    throw system_fault("redis-server");
  }
}

void count_all(Trace& trace, Counter& counter, std::size_t batch) {
  std::size_t events = 0, reports = 0;
  for (Keys keys = trace.next(batch); !keys.empty(); keys = trace.next(batch)) {
    events += keys.size();
    for (const auto key : counter.count(keys)) {
      std::printf("%llu\n", static_cast<unsigned long long>(key));
      ++reports;
    }
  }
  counter.close();
  std::printf("total events %zu reports %zu\n", events, reports);
  if (std::fflush(stdout) != 0) throw system_fault("standard output");
}

}  // namespace

int main(int argc, char** argv) try {
  const std::vector<std::string> words(argv + 1, argv + argc);
  if (words.size() == 1) {
    print_version(words[0]);
  } else if (words.size() == 5) {
    Trace trace(words[3]);
    const auto counter = make_counter(words[0], words[4], std::stoull(words[1]));
    count_all(trace, *counter, std::stoull(words[2]));
  } else {
    throw std::runtime_error("the words are STORE THRESHOLD BATCH TRACE DIR, or STORE");
  }
  return 0;
} catch (const std::exception& fault) {
  std::fprintf(stderr, "peers.cc: %s\n", fault.what());
  return 1;
}
