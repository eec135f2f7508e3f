/* A sheet on standard input, its listing on standard output; a refusal on standard error, with exit status 1. After examples/build.sh, from the project's root:
 *
 *     c++ -Iinclude -o target/lib/listing examples/listing.cpp target/lib/librukeshomaji.a && target/lib/listing < examples/office.sheet
 */
#include <iostream>
#include <iterator>
#include <stdexcept>
#include <string>
#include "rukeshomaji.h"

class Refused : public std::runtime_error {
public:
    Refused(std::uint64_t number, std::uint64_t place)
        : std::runtime_error("refused " + std::to_string(number) + " at " + std::to_string(place)) {}
};

static std::string listing(const std::string &sheet)
{
    char bytes[RUKESHOMAJI_LONGEST_LISTING];
    RukeshomajiListing reply;
    std::uint64_t number = rukeshomaji_sheet(sheet.data(), sheet.size(), bytes, &reply);
    if (number != 0) throw Refused(number, reply.place);
    return std::string(bytes, reply.length);
}

int main()
{
    if (rukeshomaji_version() / 1000000 != RUKESHOMAJI_VERSION / 1000000) {
        std::cerr << "the library is of another major version than the header\n";
        return 2;
    }
    std::string sheet{std::istreambuf_iterator<char>(std::cin), std::istreambuf_iterator<char>()};
    try {
        std::cout << listing(sheet);
    } catch (const Refused &refused) {
        std::cerr << refused.what() << '\n';
        return 1;
    }
    return 0;
}
