// A vector of bits, bit 0 first. In text it is hexadecimal, the highest digit first and without leading zeros.
#pragma once

#include <cstdint>
#include <string>
#include <vector>

class Bits {
    std::vector<uint8_t> bit;

  public:
    explicit Bits(size_t n = 0, bool value = false) : bit(n, value) {}
    size_t size() const { return bit.size(); }
    bool operator[](size_t k) const { return bit[k]; }
    bool operator==(const Bits &other) const { return bit == other.bit; }
    void set(size_t k, bool value) { bit[k] = value; }

    uint64_t get(size_t at, size_t width) const {
        uint64_t value = 0;
        for (size_t k = 0; k < width; k++) value |= uint64_t(bit[at + k]) << k;
        return value;
    }
    void put(size_t at, size_t width, uint64_t value) {
        for (size_t k = 0; k < width; k++) bit[at + k] = value >> k & 1;
    }
    Bits inverse() const {
        Bits result = *this;
        for (uint8_t &b : result.bit) b ^= 1;
        return result;
    }

    std::string hex() const {
        std::string text;
        for (size_t at = 0; at < bit.size(); at += 4)
            text.insert(text.begin(), "0123456789abcdef"[get(at, std::min<size_t>(4, bit.size() - at))]);
        size_t zeros = text.find_first_not_of('0');
        return zeros == std::string::npos ? "0" : text.substr(zeros);
    }
    static Bits of_hex(size_t n, const std::string &text) {
        Bits result(n);
        for (size_t k = 0; k < n && k / 4 < text.size(); k++) {
            int digit = std::stoi(text.substr(text.size() - 1 - k / 4, 1), nullptr, 16);
            result.set(k, digit >> (k % 4) & 1);
        }
        return result;
    }
};
