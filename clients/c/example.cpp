// A design that is edited while its parent changes too, settled, merged and posted, from C++: `example FILE [PROGRAM]`,
// over a file that `altctl create` has made.
#include "altctl.h"

#include <cstring>
#include <iostream>
#include <memory>
#include <stdexcept>
#include <string>
#include <vector>

namespace {

struct Close {
    void operator()(alt_store *store) const { alt_close(store); }
};

using Store = std::unique_ptr<alt_store, Close>;

void check(const Store &store, int error)
{
    if (error != ALT_OK)
        throw std::runtime_error(alt_error_text(store.get(), error));
}

Store open(const char *file, const alt_options &options)
{
    alt_store *opened;
    int error = alt_open(&opened, file, &options);
    Store store(opened);
    check(store, error);
    return store;
}

void put(const Store &store, const char *alt, std::uint64_t number, const std::string &value)
{
    check(store, alt_put(store.get(), alt, {7, number}, value.data(), value.size()));
}

std::string text(alt_value value)
{
    return value.bytes == nullptr ? "nothing" : std::string(reinterpret_cast<const char *>(value.bytes), value.length);
}

// Each conflict, settled for the design.
std::vector<alt_settlement> settle(const Store &store, const char *alt)
{
    std::vector<alt_settlement> settled;
    alt_rows *rows;
    alt_conflict conflict;
    int error;
    check(store, alt_conflicts(store.get(), alt, &rows));
    while ((error = alt_next_conflict(rows, &conflict)) == ALT_OK) {
        std::cout << conflict.key.table << ':' << conflict.key.number << " is " << text(conflict.mine) << " here, and "
                  << text(conflict.parent) << " in the parent\n";
        settled.push_back({conflict.key, ALT_MINE});
    }
    check(store, error == ALT_DONE ? alt_close_rows(rows) : error);
    return settled;
}

} // namespace

int main(int count, char **words)
try {
    alt_options options{};
    if (count < 2)
        throw std::invalid_argument("usage: example FILE [PROGRAM]");
    options.program = count > 2 ? words[2] : nullptr;
    Store store = open(words[1], options);
    check(store, alt_new(store.get(), "north", "top"));
    put(store, "north", 1, "duct 160 PVC");
    put(store, "north", 2, "duct 110 PVC");
    put(store, "top", 1, "duct 125 PVC");
    put(store, "top", 3, "duct 50 HDPE");
    std::uint64_t changed;
    auto settled = settle(store, "north");
    check(store, alt_merge(store.get(), "north", settled.data(), settled.size(), &changed));
    std::cout << "merged: " << changed << " record changed\n";
    check(store, alt_post(store.get(), "north"));
    check(store, alt_commit(store.get()));

    alt_rows *rows;
    alt_record record;
    check(store, alt_list(store.get(), "top", &rows));
    while (alt_next_record(rows, &record) == ALT_OK)
        std::cout << record.key.table << ' ' << record.key.number << ' ' << text(record.value) << '\n';
    check(store, alt_close_rows(rows));
} catch (const std::exception &error) {
    std::cerr << error.what() << '\n';
    return 1;
}
