// Settles no bytes at all, and the file that is made of three empty lists, into an empty vector of amounts.
#include <citronreef.h>
#include <cstdint>
#include <iostream>
#include <vector>

static void print(const std::vector<std::uint8_t> &file)
{
    std::vector<std::int64_t> amounts; // an empty vector has no data: its pointer is null
    const citronreef_outcome day = citronreef_settle(file.data(), file.size(), amounts.data(), amounts.size());
    std::cout << "refused " << day.refused << ", positions " << day.positions << "\n";
}

int main()
{
    print({});
    const std::vector<std::uint8_t> none;
    std::vector<std::uint8_t> file(CITRONREEF_FILE_SIZE);
    const citronreef_made made = citronreef_make(none.data(), none.size(), none.data(), none.size(), none.data(),
                                                 none.size(), file.data(), file.size());
    file.resize(made.length);
    print(file);
}
