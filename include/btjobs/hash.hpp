// What a job came to: as a number, to compare, and as text, for a report.
#pragma once
#include <cstdint>
#include <cstring>
#include <optional>
#include <ostream>
#include <sstream>
#include <string>
#include <tuple>
#include <type_traits>
#include <utility>
#include <variant>

namespace btjobs {

// Hashes values, not memory: a struct with padding, floats or containers says what it is made of, by
//     auto fields() const { return std::tie(x, y, speed); }      or      void hash(btjobs::Hasher &h) const { h(x), h(y); }
class Hasher {
    uint64_t h_ = 0x9e3779b97f4a7c15u;
    void word(uint64_t x) {
        h_ = (h_ ^ x) * 0xff51afd7ed558ccdu;
        h_ ^= h_ >> 32;
    }
public:
    template <class T, class = void> struct has_fields : std::false_type {};
    template <class T> struct has_fields<T, std::void_t<decltype(std::declval<const T &>().fields())>> : std::true_type {};
    template <class T, class = void> struct has_hash : std::false_type {};
    template <class T> struct has_hash<T, std::void_t<decltype(std::declval<const T &>().hash(std::declval<Hasher &>()))>> : std::true_type {};
    template <class T, class = void> struct is_range : std::false_type {};
    template <class T> struct is_range<T, std::void_t<decltype(std::declval<const T &>().begin()), decltype(std::declval<const T &>().end())>> : std::true_type {};
    template <class T, class = void> struct is_hashed : std::false_type {};
    template <class T> struct is_hashed<T, std::void_t<typename T::hasher>> : std::true_type {};
    template <class T, class = void> struct is_tuple : std::false_type {};
    template <class T> struct is_tuple<T, std::void_t<decltype(std::tuple_size<T>::value)>> : std::true_type {};
    template <class T> struct is_optional : std::false_type {};
    template <class T> struct is_optional<std::optional<T>> : std::true_type {};
    template <class T> struct is_variant : std::false_type {};
    template <class... T> struct is_variant<std::variant<T...>> : std::true_type {};
private:
    template <class T> static constexpr bool never = false;
public:
    void bytes(const void *at, size_t size) {
        const unsigned char *p = static_cast<const unsigned char *>(at);
        uint64_t x;
        for (; size >= 8; p += 8, size -= 8) std::memcpy(&x, p, 8), word(x);
        for (x = size; size; size--) x = x << 8 | *p++;
        word(x);
    }
    template <class T> void operator()(const T &x) {
        if constexpr (has_hash<T>::value) x.hash(*this);
        else if constexpr (has_fields<T>::value) std::apply([this](const auto &...field) { ((*this)(field), ...); }, x.fields());
        else if constexpr (std::is_empty_v<T>) word(0);
        else if constexpr (std::is_integral_v<T> || std::is_enum_v<T>) word(uint64_t(x));
        else if constexpr (std::is_same_v<T, float> || std::is_same_v<T, double>) { uint64_t b = 0; std::memcpy(&b, &x, sizeof x); word(b); }
        else if constexpr (is_optional<T>::value) { word(x.has_value()); if (x) (*this)(*x); }
        else if constexpr (is_variant<T>::value) { word(x.index()); std::visit([this](const auto &v) { (*this)(v); }, x); }
        else if constexpr (is_hashed<T>::value) { // an unordered container: whatever the order in which it is gone through
            uint64_t sum = 0;
            for (const auto &item : x) { Hasher h; h(item); sum += h.value(); }
            word(x.size()), word(sum);
        } else if constexpr (is_range<T>::value) {
            uint64_t size = 0;
            for (const auto &item : x) (*this)(item), size++;
            word(size);
        } else if constexpr (is_tuple<T>::value) std::apply([this](const auto &...field) { ((*this)(field), ...); }, x);
        else if constexpr (std::is_pointer_v<T>) static_assert(never<T>, "a pointer is another number in each run: hash what it points to");
        else {
            static_assert(std::has_unique_object_representations_v<T>,
                "this type has padding or floats: give it `auto fields() const { return std::tie(..); }` or `void hash(btjobs::Hasher &) const`");
            bytes(&x, sizeof x);
        }
    }
    uint64_t value() const { return h_ ? h_ : 1; } // 0 is: no result
};
template <class T> uint64_t hash_of(const T &x) {
    Hasher h;
    return h(x), h.value();
}

// A value in a report: by its own <<, or else by its fields or items.
namespace detail {
template <class T, class = void> struct is_printed : std::false_type {};
template <class T> struct is_printed<T, std::void_t<decltype(std::declval<std::ostream &>() << std::declval<const T &>())>> : std::true_type {};
template <class T> void print(std::ostream &o, const T &x) {
    if constexpr (std::is_same_v<T, bool>) o << (x ? "true" : "false");
    else if constexpr (std::is_same_v<T, char> || std::is_same_v<T, signed char> || std::is_same_v<T, unsigned char>) o << int(x);
    else if constexpr (std::is_enum_v<T>) o << int64_t(x);
    else if constexpr (std::is_floating_point_v<T>) { auto before = o.precision(17); o << x; o.precision(before); }
    else if constexpr (is_printed<T>::value) o << x;
    else if constexpr (Hasher::has_fields<T>::value || Hasher::is_tuple<T>::value) {
        const char *between = "{";
        auto all = [&](const auto &...field) { ((o << between, between = ", ", print(o, field)), ...); };
        if constexpr (Hasher::has_fields<T>::value) std::apply(all, x.fields());
        else std::apply(all, x);
        o << "}";
    } else if constexpr (Hasher::is_optional<T>::value) { if (x) print(o, *x); else o << "nothing"; }
    else if constexpr (Hasher::is_variant<T>::value) std::visit([&](const auto &v) { print(o, v); }, x);
    else if constexpr (Hasher::is_range<T>::value) {
        size_t many = 0;
        o << "[";
        for (const auto &item : x) {
            if (many++ == 12) { o << ", ..."; break; }
            if (many > 1) o << ", ";
            print(o, item);
        }
        o << "]";
    } else o << "#" << std::hex << hash_of(x) % 0x1000000 << std::dec;
}
template <class T> std::string text_of(const T &x) {
    std::ostringstream o;
    print(o, x);
    std::string text = o.str();
    return text.size() > 160 ? text.substr(0, 157) + "..." : text;
}
} // namespace detail

} // namespace btjobs
