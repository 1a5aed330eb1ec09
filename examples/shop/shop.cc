// Writes a small database of a shop, and leaves it as a crash would: tables on three levels, two column
// families, deletions of each kind, merges, and two logs of which the last isn't in any table.
//
//   shop FOLDER
//
// The options below are those that rescue reads: no compression, table format versions up to 5, and
// checksums other than XXH3.
#include <rocksdb/convenience.h>
#include <rocksdb/db.h>
#include <rocksdb/merge_operator.h>
#include <rocksdb/table.h>

#include <cstdio>
#include <cstdlib>
#include <string>
#include <vector>

using rocksdb::ColumnFamilyHandle;
using rocksdb::DB;
using rocksdb::ReadOptions;
using rocksdb::Slice;
using rocksdb::Status;
using rocksdb::WriteOptions;

// Joins the operands of a key with commas. Operands alone are kept apart.
class Joins : public rocksdb::MergeOperator {
 public:
  bool FullMergeV2(const MergeOperationInput& in, MergeOperationOutput* out) const override {
    out->new_value.clear();
    if (in.existing_value != nullptr) {
      out->new_value = in.existing_value->ToString();
    }
    for (const Slice& operand : in.operand_list) {
      out->new_value += (out->new_value.empty() ? "" : ",") + operand.ToString();
    }
    return true;
  }
  const char* Name() const override { return "Joins"; }
};

static void must(const Status& status) {
  if (!status.ok()) {
    std::fprintf(stderr, "%s\n", status.ToString().c_str());
    std::exit(1);
  }
}

static rocksdb::ColumnFamilyOptions family_options(rocksdb::ChecksumType checksum, int format_version) {
  rocksdb::BlockBasedTableOptions table;
  table.format_version = format_version;
  table.checksum = checksum;
  table.block_size = 1024;
  rocksdb::ColumnFamilyOptions options;
  options.compression = rocksdb::kNoCompression;
  options.merge_operator = std::make_shared<Joins>();
  options.disable_auto_compactions = true;
  options.table_factory.reset(rocksdb::NewBlockBasedTableFactory(table));
  return options;
}

static std::string numbered(const char* word, int n) {
  char text[32];
  std::snprintf(text, sizeof text, "%s%04d", word, n);
  return text;
}

// Moves all tables of a family to this level, joined into one.
static void move_to_level(DB* db, ColumnFamilyHandle* family, int level) {
  rocksdb::CompactRangeOptions options;
  options.change_level = true;
  options.target_level = level;
  options.bottommost_level_compaction = rocksdb::BottommostLevelCompaction::kForce;
  must(db->CompactRange(options, family, nullptr, nullptr));
}

int main(int argc, char** argv) {
  if (argc != 2) {
    std::fprintf(stderr, "usage: shop FOLDER\n");
    return 2;
  }
  rocksdb::DBOptions options;
  options.create_if_missing = true;
  options.create_missing_column_families = true;
  options.track_and_verify_wals_in_manifest = true;
  options.db_host_id = "shop";
  const std::vector<rocksdb::ColumnFamilyDescriptor> descriptors = {
      {"default", family_options(rocksdb::kCRC32c, 5)},
      {"orders", family_options(rocksdb::kxxHash64, 2)},
  };
  std::vector<ColumnFamilyHandle*> families;
  DB* db = nullptr;
  must(DB::Open(options, argv[1], descriptors, &families, &db));
  ColumnFamilyHandle* stock = families[0];
  ColumnFamilyHandle* orders = families[1];
  const WriteOptions write;

  for (int i = 0; i < 100; i++) {
    must(db->Put(write, stock, numbered("item/", i), numbered("pieces ", 3 * i)));
  }
  must(db->Flush(rocksdb::FlushOptions(), stock));
  move_to_level(db, stock, 2);

  // A snapshot keeps what compaction would drop or join.
  const rocksdb::Snapshot* before = db->GetSnapshot();
  must(db->DeleteRange(write, stock, "item/0040", "item/0050"));
  must(db->Put(write, stock, "item/0045", "back again"));
  must(db->Delete(write, stock, "item/0007"));
  must(db->SingleDelete(write, stock, "item/0008"));
  must(db->Merge(write, stock, "item/0009", "red"));
  const rocksdb::Snapshot* between = db->GetSnapshot();
  must(db->Merge(write, stock, "item/0009", "blue"));
  must(db->Merge(write, stock, "note", "only \"merged\" \\ never put"));
  must(db->Flush(rocksdb::FlushOptions(), stock));
  const auto level_1 = [&] {
    rocksdb::ColumnFamilyMetaData meta;
    db->GetColumnFamilyMetaData(stock, &meta);
    std::vector<std::string> names;
    for (const auto& file : meta.levels[0].files) {
      names.push_back(file.name);
    }
    return names;
  }();
  must(db->CompactFiles(rocksdb::CompactionOptions(), stock, level_1, 1));

  must(db->Put(write, stock, "item/0100", std::string("\x00\x01\xff", 3)));
  must(db->Put(write, stock, "item/0011", ""));
  must(db->Flush(rocksdb::FlushOptions(), stock));

  for (int i = 0; i < 40; i++) {
    rocksdb::WriteBatch batch;
    must(batch.Put(orders, numbered("order/", i), numbered("item/", 2 * i)));
    must(batch.Merge(stock, numbered("item/", 2 * i), numbered("order/", i)));
    must(batch.PutLogData("counted"));
    must(db->Write(write, &batch));
    if (i == 19) {
      must(db->Flush(rocksdb::FlushOptions(), orders));
    }
  }
  must(db->DeleteRange(write, orders, "order/0010", "order/0012"));
  must(db->Delete(write, orders, "order/0030"));
  // Longer than a block of the log, so that its record is split.
  must(db->Put(write, orders, "letter", std::string(34000, 'x')));
  must(db->Put(write, stock, "last", "put"));
  must(db->FlushWAL(true));
  db->ReleaseSnapshot(before);
  db->ReleaseSnapshot(between);
  std::_Exit(0);
}
