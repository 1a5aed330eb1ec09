// Writes a database whose write-ahead log isn't flushed into tables, and leaves it as a crash would:
//
//   real_log FOLDER LOG_BYTES VALUE_LEN
//
// Each record of the log is a write batch with one put, of a random value of so many letters.
#include <rocksdb/db.h>

#include <cstdio>
#include <cstdlib>
#include <random>
#include <string>

int main(int argc, char** argv) {
  if (argc != 4) {
    std::fprintf(stderr, "usage: real_log FOLDER LOG_BYTES VALUE_LEN\n");
    return 2;
  }
  const size_t log_bytes = std::stoull(argv[2]);
  const size_t value_len = std::stoull(argv[3]);
  rocksdb::Options options;
  options.create_if_missing = true;
  options.compression = rocksdb::kNoCompression;
  options.write_buffer_size = size_t{4} << 30;
  options.max_total_wal_size = size_t{4} << 30;
  rocksdb::DB* db = nullptr;
  rocksdb::Status status = rocksdb::DB::Open(options, argv[1], &db);
  std::mt19937 random(1);
  std::string value(value_len, 'a');
  for (size_t written = 0, i = 0; status.ok() && written < log_bytes; i++) {
    for (char& letter : value) {
      letter = static_cast<char>('a' + random() % 26);
    }
    char key[24];
    std::snprintf(key, sizeof key, "%016zu", i);
    status = db->Put(rocksdb::WriteOptions(), key, value);
    written += value_len + 16;
  }
  if (status.ok()) {
    status = db->FlushWAL(true);
  }
  if (!status.ok()) {
    std::fprintf(stderr, "%s\n", status.ToString().c_str());
    return 1;
  }
  std::_Exit(0);
}
