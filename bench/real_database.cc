// Writes a database in the form that rescue reads:
//
//   real_database FOLDER BYTES VALUE_LEN tables|logs
//
// Each record is a put of a random value of so many letters, under a random key of 16 digits. With `tables` the
// records are flushed and compacted into levels, and no log is left with a record; with `logs` all of them stay in
// logs.
#include <rocksdb/db.h>
#include <rocksdb/table.h>

#include <chrono>
#include <cstdio>
#include <random>
#include <string>
#include <thread>

int main(int argc, char** argv) {
  if (argc != 5) {
    std::fprintf(stderr, "usage: real_database FOLDER BYTES VALUE_LEN tables|logs\n");
    return 2;
  }
  const size_t bytes = std::stoull(argv[2]);
  const size_t value_len = std::stoull(argv[3]);
  const bool in_logs = std::string(argv[4]) == "logs";
  rocksdb::BlockBasedTableOptions table_options;
  table_options.format_version = 5;
  table_options.checksum = rocksdb::kCRC32c;
  rocksdb::Options options;
  options.create_if_missing = true;
  options.compression = rocksdb::kNoCompression;
  options.table_factory.reset(rocksdb::NewBlockBasedTableFactory(table_options));
  options.max_background_jobs = 4;
  options.avoid_flush_during_shutdown = in_logs;
  if (in_logs) {
    options.write_buffer_size = 4 * bytes;
  }
  rocksdb::DB* db = nullptr;
  rocksdb::Status status = rocksdb::DB::Open(options, argv[1], &db);
  rocksdb::WriteOptions writing;
  writing.disableWAL = !in_logs;
  std::mt19937_64 random(1);
  std::string value(value_len, 'a');
  for (size_t written = 0; status.ok() && written < bytes; written += value_len + 16) {
    for (char& letter : value) {
      letter = static_cast<char>('a' + random() % 26);
    }
    char key[24];
    std::snprintf(key, sizeof key, "%016llu", static_cast<unsigned long long>(random() % 10'000'000'000'000'000));
    status = db->Put(writing, key, value);
  }
  if (status.ok() && !in_logs) {
    status = db->Flush(rocksdb::FlushOptions());
  }
  if (status.ok() && !in_logs) {
    // Closing stops compactions, so those that are due come first.
    uint64_t pending = 1;
    while (pending > 0 && db->GetIntProperty("rocksdb.estimate-pending-compaction-bytes", &pending) && pending > 0) {
      std::this_thread::sleep_for(std::chrono::milliseconds(100));
    }
  }
  delete db;
  if (!status.ok()) {
    std::fprintf(stderr, "%s\n", status.ToString().c_str());
    return 1;
  }
  return 0;
}
