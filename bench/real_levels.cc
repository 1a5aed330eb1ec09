// Writes a database in the form that rescue reads, with one full level:
//
//   real_levels FOLDER RECORDS
//
// So many puts with values of 100 letters lie in tables of some 1,000 records each at level 1. Over them lie four
// tables of level 0, each with a hundredth of the keys, spread over the whole range.
#include <rocksdb/db.h>
#include <rocksdb/table.h>

#include <cstdio>
#include <cstdlib>
#include <random>
#include <string>

static void must(const rocksdb::Status& status) {
  if (!status.ok()) {
    std::fprintf(stderr, "%s\n", status.ToString().c_str());
    std::exit(1);
  }
}

int main(int argc, char** argv) {
  if (argc != 3) {
    std::fprintf(stderr, "usage: real_levels FOLDER RECORDS\n");
    return 2;
  }
  const size_t records = std::stoull(argv[2]);
  rocksdb::BlockBasedTableOptions table_options;
  table_options.format_version = 5;
  table_options.checksum = rocksdb::kCRC32c;
  rocksdb::Options options;
  options.create_if_missing = true;
  options.compression = rocksdb::kNoCompression;
  options.disable_auto_compactions = true;
  options.target_file_size_base = 120'000;
  options.write_buffer_size = 256 << 20;
  options.level0_slowdown_writes_trigger = 1000;
  options.level0_stop_writes_trigger = 1000;
  options.table_factory.reset(rocksdb::NewBlockBasedTableFactory(table_options));
  rocksdb::DB* db = nullptr;
  must(rocksdb::DB::Open(options, argv[1], &db));
  rocksdb::WriteOptions writing;
  writing.disableWAL = true;
  std::mt19937_64 random(1);
  std::string value(100, 'a');
  const auto put = [&](size_t key) {
    for (char& letter : value) {
      letter = static_cast<char>('a' + random() % 26);
    }
    char text[24];
    std::snprintf(text, sizeof text, "%016zu", key);
    must(db->Put(writing, text, value));
  };
  for (size_t i = 0; i < records; i++) {
    put(i);
  }
  must(db->Flush(rocksdb::FlushOptions()));
  rocksdb::CompactRangeOptions move;
  move.change_level = true;
  move.target_level = 1;
  move.bottommost_level_compaction = rocksdb::BottommostLevelCompaction::kForce;
  must(db->CompactRange(move, nullptr, nullptr));
  for (size_t list = 0; list < 4; list++) {
    for (size_t i = list * 7; i < records; i += 100) {
      put(i);
    }
    must(db->Flush(rocksdb::FlushOptions()));
  }
  delete db;
  return 0;
}
