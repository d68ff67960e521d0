// jadvolni_within.hpp - numbers within bounds, with one fault that says the bounds and what was given. It is a part of
// jadvolni.hpp.
#include "jadvolni.hpp"

#ifndef JADVOLNI_WITHIN_HPP_
#define JADVOLNI_WITHIN_HPP_

namespace jadvolni {

// A number within bounds, or a fault: status::overflow where it is greater than they allow, status::underflow where it
// is less, whether the type has it or not, and place() is then 0; and else what is wrong besides: of "256x" as
// std::uint8_t the x, at 3.
template <class T>
class within_result : public result<T> {
public:
    within_result(T number, jadvolni_result answer) noexcept : result<T>(number, answer) {}

    // One that is out of bounds. The bounds have `places` digits after the point.
    within_result(jadvolni_status answer, std::string_view given, T min, T max, std::size_t places = 0,
                  char point = '.') noexcept
        : result<T>(T(), {static_cast<std::uint32_t>(answer), 0})
    {
        put_text(given.substr(0, given_most));
        if (given.size() > given_most) put("..");
        put(" is not from ");
        put_number(min, places, point);
        put(" to ");
        put_number(max, places, point);
        message_[size_] = 0;
    }

    // What is wrong: "70000 is not from 1 to 65535", or what else is wrong with the text. It lives as long as this.
    const char *message() const & noexcept { return size_ ? message_ : result<T>::message(); }
    const char *message() const && = delete;

private:
    // At most this many bytes of a text are shown; four characters may stand for a byte.
    static constexpr std::size_t given_most = 40, digits_most = 40, number_most = digits_most + 5, words_most = 24;

    void put(char byte) noexcept { message_[size_++] = byte; }
    void put(const char *words) noexcept
    {
        while (*words) put(*words++);
    }

    // Each byte that isn't printable ASCII as \x00.
    void put_text(std::string_view text) noexcept
    {
        for (char byte : text) {
            auto code = static_cast<unsigned char>(byte);
            if (code >= 0x20 && code < 0x7F) {
                put(byte);
                continue;
            }
            put("\\x");
            put("0123456789abcdef"[code >> 4]);
            put("0123456789abcdef"[code & 15]);
        }
    }

    // A number in units of the last of some places, of which there are 38 at most: a digit stands before the point.
    void put_number(T number, std::size_t places, char point) noexcept
    {
        char digits[digits_most];
        std::size_t count = 0;
        const bool is_negative = number < T(1) && number != T(0);
        for (; number != T(0) || count <= places; number = static_cast<T>(number / 10)) {
            auto digit = static_cast<int>(number % 10);
            digits[count++] = static_cast<char>('0' + (is_negative ? -digit : digit));
        }
        if (is_negative) put('-');
        while (count > places) put(digits[--count]);
        if (places) put_text({&point, 1});
        while (count) put(digits[--count]);
    }

    std::size_t size_ = 0;
    char message_[4 * given_most + 2 * number_most + words_most];
};

namespace detail {

inline bool is_beyond(jadvolni_result answer) noexcept
{
    return answer.status == JADVOLNI_OVERFLOW || answer.status == JADVOLNI_UNDERFLOW;
}

// What else is wrong with a text than that a type lacks its number, which answers so: the widest type with a sign
// tells, by its answer and the number, in which "-5" and "70000" are numbers. Where that is all, it is by which end the
// number leaves.
inline jadvolni_result fault_beside_bounds(jadvolni_result answer, jadvolni_result other,
                                           const jadvolni_int128 &wide) noexcept
{
    const bool is_negative = other.status == JADVOLNI_OK ? wide.high < 0 : other.status == JADVOLNI_UNDERFLOW;
    if (is_negative) return {JADVOLNI_UNDERFLOW, 0};
    if (is_beyond(answer) && other.status == JADVOLNI_OK) return answer;
    return is_beyond(answer) || is_beyond(other) ? other : answer;
}

// The whole text as a T within bounds, by the call of the type and that of the widest one with a sign.
template <class T, class Call, class Widest, class Notation>
within_result<T> number_within(std::string_view text, T min, T max, Call call, Widest widest, const Notation &under,
                               std::size_t places = 0, char point = '.') noexcept
{
    typename kept_as<T>::type kept{};
    auto answer = call(text.data(), text.size(), &under, &kept);
    const T number = kept_as<T>::number(kept);
    if (answer.status != JADVOLNI_OK) {
        jadvolni_int128 wide{};
        auto other = widest(text.data(), text.size(), &under, &wide);
        answer = fault_beside_bounds(answer, other, wide);
        if (!is_beyond(answer)) return {T(), answer};
        return {static_cast<jadvolni_status>(answer.status), text, min, max, places, point};
    }
    if (number < min) return {JADVOLNI_UNDERFLOW, text, min, max, places, point};
    if (max < number) return {JADVOLNI_OVERFLOW, text, min, max, places, point};
    return {number, answer};
}

} // namespace detail

// The whole text as a T from `min` to `max`, under a format:
//
//     auto port = jadvolni::parse_within<std::uint16_t>(text, 1, 65535);
//     if (!port) std::cerr << "PORT: " << port.message() << '\n'; // 70000 is not from 1 to 65535
template <class T>
[[nodiscard]] within_result<T> parse_within(std::string_view text, T min, T max,
                                            const format &under = standard) noexcept
{
    return detail::number_within(text, min, max, detail::calls_as<T>::complete_under,
                                 &jadvolni_parse_i128_with_format, under);
}

// The fixed-point number that the whole text is, as a T from `min` to `max`, all in units of the last place:
//
//     auto fee = jadvolni::parse_fixed_within<std::int64_t>(text, 0, 9999, cents);
//     if (!fee) std::cerr << fee.message() << '\n'; // -1.00 is not from 0.00 to 99.99
template <class T>
[[nodiscard]] within_result<T> parse_fixed_within(std::string_view text, T min, T max, const fixed &under) noexcept
{
    return detail::number_within(text, min, max, detail::calls_as<T>::fixed, &jadvolni_parse_i128_fixed, under,
                                 under.places, under.point ? static_cast<char>(under.point) : '.');
}

} // namespace jadvolni

#endif
