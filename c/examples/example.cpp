// The library from C++: a type for 16.16 numbers, with operators, and sums of deltas over vectors.
#include "font_types.h"

#include <cstdint>
#include <iostream>
#include <stdexcept>
#include <string>
#include <vector>

class Fixed {
public:
    static Fixed parse(const std::string &text) {
        std::int32_t bits = 0;
        const fty_status status = fty_fixed_parse(text.data(), text.size(), &bits);
        if (status != FTY_OK)
            throw std::invalid_argument(text + ": " + fty_status_text(status));
        return Fixed(bits);
    }

    explicit Fixed(std::int32_t bits) : bits_(bits) {}

    std::int32_t bits() const { return bits_; }

    std::string text() const {
        char out[FTY_DECIMAL_ROOM];
        std::size_t length = 0;
        if (fty_fixed_format(bits_, {out, sizeof out}, &length) != FTY_OK)
            throw std::logic_error("the room is enough for each decimal");
        return std::string(out, length);
    }

    friend Fixed operator*(Fixed x, Fixed y) { return Fixed(fty_fixed_mul(x.bits_, y.bits_)); }

    friend Fixed operator/(Fixed x, Fixed y) { return Fixed(fty_fixed_div(x.bits_, y.bits_)); }

private:
    std::int32_t bits_;
};

// The exact sum of the products, as a raw value of 48.16. An empty vector may give null.
static std::int64_t delta_sum(const std::vector<std::int32_t> &scalars,
                              const std::vector<std::int32_t> &deltas) {
    std::int64_t sum = 0;
    const fty_status status = fty_delta_sum({scalars.data(), scalars.size()},
                                            {deltas.data(), deltas.size()}, &sum);
    if (status != FTY_OK)
        throw std::invalid_argument(fty_status_text(status));
    return sum;
}

// A `loca` table of 16-bit offsets, of which each is half of the number of bytes before a glyph.
static std::vector<std::uint8_t> loca(const std::vector<std::uint16_t> &halves) {
    std::vector<std::uint8_t> bytes(2 * halves.size() + 2);
    fty_span rest = {bytes.data(), bytes.size()};
    for (const std::uint16_t half : halves)
        if (fty_put_u16(&rest, half) != FTY_OK)
            throw std::logic_error("the room is enough for each offset");
    if (fty_put_zeros_to_4(&rest, {bytes.data(), bytes.size()}) != FTY_OK)
        throw std::logic_error("two bytes are left");
    bytes.resize(bytes.size() - rest.length);
    return bytes;
}

int main() {
    const Fixed width = Fixed::parse("1.5");
    std::cout << (width * width).text() << ' ' << (width / Fixed::parse("-4")).text() << ' '
              << delta_sum({}, {}) << ' '
              << delta_sum({width.bits(), -65536}, {100, 30}) / 65536 << ' '
              << loca({0, 7, 258}).size() << '\n';
    try {
        Fixed::parse("1e3");
    } catch (const std::invalid_argument &fault) {
        std::cout << fault.what() << '\n';
    }
}
