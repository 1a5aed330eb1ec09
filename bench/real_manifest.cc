// Writes a database whose manifest has an edit for each of so many flushes, and those of the compactions
// that RocksDB makes of them:
//
//   real_manifest FOLDER FLUSHES
//
// Each flush writes a table with one put, of a random key.
#include <rocksdb/db.h>

#include <cstdio>
#include <random>
#include <string>

int main(int argc, char** argv) {
  if (argc != 3) {
    std::fprintf(stderr, "usage: real_manifest FOLDER FLUSHES\n");
    return 2;
  }
  const size_t flushes = std::stoull(argv[2]);
  rocksdb::Options options;
  options.create_if_missing = true;
  options.compression = rocksdb::kNoCompression;
  rocksdb::DB* db = nullptr;
  rocksdb::Status status = rocksdb::DB::Open(options, argv[1], &db);
  rocksdb::WriteOptions without_log;
  without_log.disableWAL = true;
  std::mt19937 random(1);
  for (size_t i = 0; status.ok() && i < flushes; i++) {
    status = db->Put(without_log, std::to_string(random()), "value");
    if (status.ok()) {
      status = db->Flush(rocksdb::FlushOptions());
    }
  }
  delete db;
  if (!status.ok()) {
    std::fprintf(stderr, "%s\n", status.ToString().c_str());
    return 1;
  }
  return 0;
}
