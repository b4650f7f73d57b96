// A program in C++: empty handles, the functions and macros of the header, and the version.
#include <cstdio>
#include <zimgasol.h>

int main() {
    zimgasol_table table = {};
    zimgasol_load load = {};
    zimgasol_send sender = {};
    zimgasol_send multi = {};
    zimgasol_worker workers[4] = {};
    zimgasol_table_free(&table);
    zimgasol_load_free(&load);
    zimgasol_send_free(&sender);
    zimgasol_send_free(&multi);
    for (zimgasol_worker &worker : workers) zimgasol_worker_free(&worker);

    static_assert(ZIMGASOL_VERSION_AT_LEAST(0, 0, 1), "a version");
    static_assert(ZIMGASOL_HEAD_LEN(4096) == 1344 && ZIMGASOL_HEAD_LEN(8192) == 832, "a head");
    zimgasol_block block = {};
    size_t entry = 1;
    if (zimgasol_table_new(&table, 4096, &block, 1, &entry) != ZIMGASOL_ID || entry != 0) return 2;

    zimgasol_fault fault = {};
    char text[200];
    fault.number = ZIMGASOL_CHANNEL_TRUNCATED;
    fault.source = ZIMGASOL_CHANNEL(2);
    if (zimgasol_fault_text_at(&fault, 5, text, sizeof text) <= 0) return 3;
    std::puts(text);
    std::puts(zimgasol_status_text(ZIMGASOL_DONE));
    std::puts(ZIMGASOL_VERSION);
    return zimgasol_version() == ZIMGASOL_VERSION_NUMBER ? 0 : 4;
}
