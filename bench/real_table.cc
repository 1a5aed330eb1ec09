// Writes a database with one table, in the form that rescue reads:
//
//   real_table FOLDER TABLE_BYTES VALUE_LEN
//
// Each record is a put of a random value of so many letters, under a key of 16 digits.
#include <rocksdb/db.h>
#include <rocksdb/table.h>

#include <cstdio>
#include <random>
#include <string>

int main(int argc, char** argv) {
  if (argc != 4) {
    std::fprintf(stderr, "usage: real_table FOLDER TABLE_BYTES VALUE_LEN\n");
    return 2;
  }
  const size_t table_bytes = std::stoull(argv[2]);
  const size_t value_len = std::stoull(argv[3]);
  rocksdb::BlockBasedTableOptions table_options;
  table_options.format_version = 5;
  table_options.checksum = rocksdb::kCRC32c;
  rocksdb::Options options;
  options.create_if_missing = true;
  options.compression = rocksdb::kNoCompression;
  options.disable_auto_compactions = true;
  options.target_file_size_base = uint64_t{64} << 30;
  options.max_compaction_bytes = uint64_t{64} << 30;
  options.table_factory.reset(rocksdb::NewBlockBasedTableFactory(table_options));
  rocksdb::DB* db = nullptr;
  rocksdb::Status status = rocksdb::DB::Open(options, argv[1], &db);
  rocksdb::WriteOptions without_log;
  without_log.disableWAL = true;
  std::mt19937 random(1);
  std::string value(value_len, 'a');
  for (size_t written = 0, i = 0; status.ok() && written < table_bytes; i++) {
    for (char& letter : value) {
      letter = static_cast<char>('a' + random() % 26);
    }
    char key[24];
    std::snprintf(key, sizeof key, "%016zu", i);
    status = db->Put(without_log, key, value);
    written += value_len + 16;
  }
  if (status.ok()) {
    status = db->Flush(rocksdb::FlushOptions());
  }
  if (status.ok()) {
    rocksdb::CompactRangeOptions whole;
    whole.bottommost_level_compaction = rocksdb::BottommostLevelCompaction::kForce;
    whole.max_subcompactions = 1;
    status = db->CompactRange(whole, nullptr, nullptr);
  }
  delete db;
  if (!status.ok()) {
    std::fprintf(stderr, "%s\n", status.ToString().c_str());
    return 1;
  }
  return 0;
}
