// The segment link for C++17 and what came after it, over seglink.h, which is the manual: link with libseglink.a.
// Bytes are any contiguous range of them: a vector, an array, a string_view, a span, a pointer with a size. An empty range may have a null pointer: the
// archive is handed another one. A train is made by the names of its categories. An answer is a result: its value, or the refusal with its place.
// The rules of seglink.h for the caller are kept by the types, but for one: a room shares no byte with what is read.
#ifndef SEGLINK_HPP
#define SEGLINK_HPP

#include <array>
#include <cstddef>
#include <cstdint>
#include <cstdlib>
#include <initializer_list>
#include <iterator>
#include <optional>
#include <stdexcept>
#include <string>
#include <type_traits>
#include <utility>
#include <variant>
#include <vector>

#include "seglink.h"

namespace seglink {

// ---- Refusals and results

// Why an operation refused; seglink.h has the grounds.
enum class refusal : std::uint32_t {
    short_packet = SEGLINK_SHORT_PACKET,
    packet_number = SEGLINK_PACKET_NUMBER,
    packet_length = SEGLINK_PACKET_LENGTH,
    field_value = SEGLINK_FIELD_VALUE,
    change_location = SEGLINK_CHANGE_LOCATION,
    body_bits = SEGLINK_BODY_BITS,
    padding_bit = SEGLINK_PADDING_BIT,
    short_room = SEGLINK_SHORT_ROOM,
    sheet_form = SEGLINK_SHEET_FORM,
    train_value = SEGLINK_TRAIN_VALUE,
    past_end = SEGLINK_PAST_END,
    long_body = SEGLINK_LONG_BODY,
    bits_left = SEGLINK_BITS_LEFT,
    too_early = SEGLINK_TOO_EARLY,
    unknown_kind = SEGLINK_UNKNOWN_KIND,
    run_count = SEGLINK_RUN_COUNT,
    not_kept = SEGLINK_NOT_KEPT,
    steps = SEGLINK_STEPS,
    wrong_speed = SEGLINK_WRONG_SPEED,
    card_list = 20, // of the fleet board
    no_shelf = SEGLINK_NO_SHELF,
    no_leg = SEGLINK_NO_LEG,
    other_segment = SEGLINK_OTHER_SEGMENT,
    reverse_leg = SEGLINK_REVERSE_LEG,
    constraint_place = SEGLINK_CONSTRAINT_PLACE,
    tail_before = SEGLINK_TAIL_BEFORE
};

// Returns the number of the build definition.
[[nodiscard]] constexpr std::uint32_t number(refusal why) noexcept
{
    return static_cast<std::uint32_t>(why);
}

// Returns the ground in words.
[[nodiscard]] inline const char *text(refusal why) noexcept
{
    return seglink_refusal_text(number(why));
}

// Unit of a place: a bit of a packet, a byte of a sheet, a centimetre of a run's last segment.
enum class unit { bit, byte, centimetre };

// A refusal and its place, which is 0 where the refusal has none.
struct refused {
    seglink::refusal refusal;
    std::uint32_t place;
    seglink::unit unit;

    [[nodiscard]] bool has_place() const noexcept { return seglink_refusal_has_place(number(refusal)); }

    // Returns the number, the place if there is one, and the ground: "6 at bit 300: a field does not fit in the body's remaining bits".
    [[nodiscard]] std::string message() const
    {
        static constexpr const char *units[] = {" at bit ", " at byte ", " at centimetre "};
        const std::string where = has_place() ? units[static_cast<int>(unit)] + std::to_string(place) : std::string();
        return std::to_string(number(refusal)) + where + ": " + text(refusal);
    }
};

// What is thrown where the value of a refused answer is asked for.
class refused_error : public std::runtime_error {
public:
    explicit refused_error(const refused &why) : std::runtime_error(why.message()), why_(why) {}
    [[nodiscard]] const refused &why() const noexcept { return why_; }

private:
    refused why_;
};

namespace detail {

[[noreturn]] inline void raise(const refused &why)
{
#ifdef __cpp_exceptions
    throw refused_error(why);
#else
    static_cast<void>(why);
    std::abort();
#endif
}

} // namespace detail

// An answer: a value, or a refusal with its place. Asking a refused answer for its value throws refused_error, or stops a program without exceptions.
template <class Value>
class [[nodiscard]] result {
public:
    result(Value value) : held_(std::in_place_index<0>, std::move(value)) {}
    result(const refused &why) : held_(std::in_place_index<1>, why) {}

    [[nodiscard]] bool has_value() const noexcept { return held_.index() == 0; }
    [[nodiscard]] explicit operator bool() const noexcept { return has_value(); }

    [[nodiscard]] const Value &value() const &
    {
        if (!has_value())
            detail::raise(error());
        return *std::get_if<0>(&held_);
    }
    [[nodiscard]] Value value() &&
    {
        if (!has_value())
            detail::raise(error());
        return std::move(*std::get_if<0>(&held_));
    }
    [[nodiscard]] const Value &operator*() const & { return value(); }
    [[nodiscard]] Value operator*() && { return std::move(*this).value(); }
    [[nodiscard]] const Value *operator->() const { return &value(); }

    // Returns the refusal; only an answer that has no value has one.
    [[nodiscard]] const refused &error() const { return std::get<1>(held_); }

private:
    std::variant<Value, refused> held_;
};

// An answer without a value: success, or a refusal with its place.
template <>
class [[nodiscard]] result<void> {
public:
    result() = default;
    result(const refused &why) : why_(why) {}

    [[nodiscard]] bool has_value() const noexcept { return !why_.has_value(); }
    [[nodiscard]] explicit operator bool() const noexcept { return has_value(); }
    void value() const
    {
        if (!has_value())
            detail::raise(error());
    }

    // Returns the refusal; only an answer that is no success has one.
    [[nodiscard]] const refused &error() const { return why_.value(); }

private:
    std::optional<refused> why_;
};

// ---- What is lent: bytes, a room, numbers

namespace detail {

template <class Range, class = void>
struct range_of {
    using type = void;
};
template <class Range>
struct range_of<Range, std::void_t<decltype(std::data(std::declval<Range &>())), decltype(std::size(std::declval<Range &>()))>> {
    using type = std::remove_pointer_t<decltype(std::data(std::declval<Range &>()))>;
};

// What the elements of a contiguous range are, const where they cannot be changed; void of what is no such range.
template <class Range>
using element = typename range_of<std::remove_reference_t<Range>>::type;

template <class Type, class... Others>
inline constexpr bool is_one_of = (std::is_same_v<std::remove_cv_t<Type>, Others> || ...);

// Whether a range of `From` is lent as one of `To`: the same numbers, or any bytes as bytes; and nothing const to be written.
template <class To, class From>
inline constexpr bool is_lent_as = (std::is_const_v<To> || !std::is_const_v<From>)
    && (is_one_of<From, std::remove_const_t<To>>
        || (is_one_of<To, std::uint8_t> && is_one_of<From, char, signed char, unsigned char, std::byte>));

// Whether a type is a literal's, an array of char that ends with a 0 which is not meant: a string_view is lent instead.
template <class Range>
inline constexpr bool is_text = std::is_array_v<std::remove_reference_t<Range>> && is_one_of<element<Range>, char>;

template <class To, class Range>
inline constexpr bool is_lendable = is_lent_as<To, element<Range>> && !is_text<Range>;

} // namespace detail

// A pointer that is not null and a size, of any contiguous range.
template <class To>
class lent {
public:
    lent() noexcept = default;
    lent(To *data, std::size_t size) noexcept : data_(size != 0 ? data : &none), size_(size) {}
    lent(int, std::size_t) = delete; // {0, 7} is neither a pointer nor two bytes
    template <class Range, class = std::enable_if_t<!detail::is_one_of<std::remove_reference_t<Range>, lent> && detail::is_lendable<To, Range>>>
    lent(Range &&range) noexcept : lent(reinterpret_cast<To *>(std::data(range)), std::size(range))
    {
    }

    [[nodiscard]] To *data() const noexcept { return data_; }
    [[nodiscard]] std::size_t size() const noexcept { return size_; }
    [[nodiscard]] bool empty() const noexcept { return size_ == 0; }
    [[nodiscard]] To *begin() const noexcept { return data_; }
    [[nodiscard]] To *end() const noexcept { return data_ + size_; }
    [[nodiscard]] To &operator[](std::size_t i) const noexcept { return data_[i]; }

private:
    inline static std::remove_const_t<To> none{};
    To *data_ = &none;
    std::size_t size_ = 0;
};

using bytes = lent<const std::uint8_t>;
using room = lent<std::uint8_t>;
using numbers = lent<const std::uint32_t>;

namespace detail {

template <class Value>
result<Value> answer(std::uint32_t told, std::uint32_t place, unit in, Value value)
{
    if (told != SEGLINK_SUCCESS)
        return refused{static_cast<refusal>(told), place, in};
    return value;
}

inline result<void> answer(std::uint32_t told, std::uint32_t place, unit in)
{
    if (told != SEGLINK_SUCCESS)
        return refused{static_cast<refusal>(told), place, in};
    return {};
}

// Lends a conversion a room of `size` bytes, and returns the bytes that it wrote.
template <class Conversion>
result<std::vector<std::uint8_t>> filled(std::size_t size, Conversion convert)
{
    std::vector<std::uint8_t> space(size);
    const result<std::size_t> length = convert(room(space));
    if (!length)
        return length.error();
    return std::vector<std::uint8_t>(space.data(), space.data() + *length);
}

} // namespace detail

// ---- Conversions

// Writes the sheet of a packet to the start of the room and returns the sheet's length.
[[nodiscard]] inline result<std::size_t> packet_to_sheet(bytes packet, room space)
{
    const auto there = seglink_packet_to_sheet(packet.data(), packet.size(), space.data(), space.size());
    return detail::answer<std::size_t>(there.refusal, there.place, unit::bit, there.length);
}

// Writes the packet of a sheet to the start of the room and returns the packet's length.
[[nodiscard]] inline result<std::size_t> sheet_to_packet(bytes sheet, room space)
{
    const auto there = seglink_sheet_to_packet(sheet.data(), sheet.size(), space.data(), space.size());
    return detail::answer<std::size_t>(there.refusal, there.place, unit::byte, there.length);
}

// Returns the sheet of a packet.
[[nodiscard]] inline result<std::vector<std::uint8_t>> sheet_of(bytes packet)
{
    return detail::filled(SEGLINK_LARGEST_JOURNEY_SHEET, [&](room space) { return packet_to_sheet(packet, space); });
}

// Returns the packet of a sheet.
[[nodiscard]] inline result<std::vector<std::uint8_t>> packet_of(bytes sheet)
{
    return detail::filled(SEGLINK_LARGEST_JOURNEY_PACKET, [&](room space) { return sheet_to_packet(sheet, space); });
}

// Returns the altitude of a packet's segment in signed centimetres.
[[nodiscard]] inline result<std::int32_t> altitude_of_packet(bytes packet)
{
    const auto asked = seglink_altitude_of_packet(packet.data(), packet.size());
    return detail::answer(asked.refusal, asked.place, unit::bit, asked.altitude);
}

// ---- Trains and runs

// A category of a train.
enum class category : std::uint32_t {
    freight_p = SEGLINK_FREIGHT_P,
    freight_g = SEGLINK_FREIGHT_G,
    passenger = SEGLINK_PASSENGER
};

// The categories of a train, as category::freight_p | category::passenger; none of them is no_category.
class categories {
public:
    constexpr categories() noexcept = default;
    constexpr categories(category one) noexcept : bits_(static_cast<std::uint32_t>(one)) {}
    [[nodiscard]] constexpr std::uint32_t bits() const noexcept { return bits_; }
    [[nodiscard]] friend constexpr categories operator|(categories one, categories other) noexcept
    {
        one.bits_ |= other.bits_;
        return one;
    }

private:
    std::uint32_t bits_ = SEGLINK_NO_CATEGORY;
};

[[nodiscard]] constexpr categories operator|(category one, category other) noexcept
{
    return categories(one) | categories(other);
}

inline constexpr categories no_category{};

// A train: its length in cm, its cant deficiency in mm, its own top speed in km/h, its categories. Any values are taken; the questions judge them.
class train {
public:
    train(std::uint32_t length_cm, std::uint32_t cant_mm, std::uint32_t maximum_kmh, categories named) noexcept
        : train_(seglink_train_of(length_cm, cant_mm, maximum_kmh, named.bits()))
    {
    }

    // Returns the train as seglink.h has it.
    [[nodiscard]] const seglink_train &in_c() const noexcept { return train_; }

private:
    seglink_train train_;
};

// What the segments of a question are: packets, or sheets.
enum class kind : std::uint32_t { packet = SEGLINK_KIND_PACKET, sheet = SEGLINK_KIND_SHEET };

// The segments of a question in order of travel: one, or a list of them as {first, second}, or a range of ranges of bytes. They are lent, and not kept.
class run {
public:
    template <class Range, class = std::enable_if_t<detail::is_lendable<const std::uint8_t, Range>>>
    run(Range &&segment) noexcept
    {
        add(bytes(segment));
    }
    template <class Ranges, class Inner = decltype(*std::begin(std::declval<const Ranges &>())),
        class = std::enable_if_t<detail::is_lendable<const std::uint8_t, Inner>>, class = void>
    run(const Ranges &segments)
    {
        for (const auto &segment : segments)
            add(bytes(segment));
    }
    run(std::initializer_list<bytes> segments) noexcept
    {
        for (const bytes &segment : segments)
            add(segment);
    }
    run(const std::uint8_t *data, std::size_t size) noexcept { add(bytes(data, size)); }
    run(int, std::size_t) = delete;

    // Returns how many segments there are; more than four are refused, and not kept.
    [[nodiscard]] std::uint32_t count() const noexcept { return count_; }
    [[nodiscard]] const bytes &operator[](std::size_t i) const noexcept { return segments_[i]; }

private:
    void add(bytes segment) noexcept
    {
        if (count_ < segments_.size())
            segments_[count_] = segment;
        count_ += count_ < UINT32_MAX ? 1U : 0U;
    }

    std::array<bytes, 4> segments_{};
    std::uint32_t count_ = 0;
};

namespace detail {

inline unit unit_of(kind brought) noexcept
{
    return brought == kind::packet ? unit::bit : unit::byte;
}

} // namespace detail

// Returns the permitted speed in km/h of a train at `x` cm from the start of a run's last segment.
[[nodiscard]] inline result<std::uint32_t> permitted_speed(kind brought, const run &on, const train &asked, std::uint32_t x)
{
    const auto here = seglink_permitted_speed(static_cast<std::uint32_t>(brought), on.count(), on[0].data(), on[0].size(), on[1].data(), on[1].size(),
        on[2].data(), on[2].size(), on[3].data(), on[3].size(), asked.in_c(), x);
    return detail::answer(here.refusal, here.place, detail::unit_of(brought), here.speed);
}

// Returns the restricted speed in km/h: the permitted speed there, or a lower one of the journey's temporary constraints. `leg` is the number of the
// journey's segment in which x lies.
[[nodiscard]] inline result<std::uint32_t> restricted_speed(kind brought, const run &on, bytes journey, std::uint32_t leg, const train &asked, std::uint32_t x)
{
    const auto here = seglink_restricted_speed(static_cast<std::uint32_t>(brought), on.count(), on[0].data(), on[0].size(), on[1].data(), on[1].size(),
        on[2].data(), on[2].size(), on[3].data(), on[3].size(), journey.data(), journey.size(), leg, asked.in_c(), x);
    return detail::answer(here.refusal, here.place, detail::unit_of(brought), here.speed);
}

// ---- Steps

// Speed steps: starts in cm from the start of a run's last segment, and speeds in km/h.
struct steps {
    std::vector<std::uint32_t> starts, speeds;
};

// Checks steps against the permitted speed at every centimetre of a run's last segment.
[[nodiscard]] inline result<void> check_steps(kind brought, const run &on, const train &asked, numbers starts, numbers speeds)
{
    const auto checked = seglink_check_steps(static_cast<std::uint32_t>(brought), on.count(), on[0].data(), on[0].size(), on[1].data(), on[1].size(),
        on[2].data(), on[2].size(), on[3].data(), on[3].size(), asked.in_c(), starts.data(), starts.size(), speeds.data(), speeds.size());
    const bool wrong = checked.refusal == SEGLINK_WRONG_SPEED;
    return detail::answer(checked.refusal, checked.place, wrong ? unit::centimetre : detail::unit_of(brought));
}

// Makes the right steps of a run's last segment: asks for the speed at 0, and then wherever the steps so far are wrong first.
[[nodiscard]] inline result<steps> steps_of(kind brought, const run &on, const train &asked)
{
    steps made;
    std::uint32_t x = 0;
    for (;;) {
        const auto speed = permitted_speed(brought, on, asked, x);
        if (!speed)
            return speed.error();
        made.starts.push_back(x);
        made.speeds.push_back(*speed);
        const auto checked = check_steps(brought, on, asked, made.starts, made.speeds);
        if (checked)
            return made;
        if (checked.error().refusal != refusal::wrong_speed)
            return checked.error();
        x = checked.error().place;
    }
}

// ---- The intake

// Takes packets that arrive in several deliveries, one packet after the other, into a room of its own.
class intake {
public:
    explicit intake(std::size_t capacity = SEGLINK_LARGEST_JOURNEY_PACKET) : space_(capacity) {}

    // Takes the next bytes of a packet, none of them this intake's own. Nothing is judged yet.
    void deliver(bytes delivery)
    {
        const room space(space_);
        state_ = seglink_intake_deliver(state_, delivery.data(), delivery.size(), space.data(), space.size());
    }

    // Judges the bytes delivered since the last verdict, and returns them if they are a packet. They lie in the intake, until the next delivery.
    [[nodiscard]] result<bytes> complete()
    {
        const bytes space(space_);
        state_ = seglink_intake_complete(state_, space.data(), space.size());
        return detail::answer(state_.refusal, state_.place, unit::bit, bytes(space.data(), state_.length));
    }

    // Returns the sheet of the packet that was judged, until the next delivery that has bytes or the next completion.
    [[nodiscard]] result<std::vector<std::uint8_t>> sheet() const
    {
        return detail::filled(SEGLINK_LARGEST_JOURNEY_SHEET, [&](room space) {
            const bytes taken(space_);
            const auto there = seglink_intake_sheet(state_, taken.data(), taken.size(), space.data(), space.size());
            return detail::answer<std::size_t>(there.refusal, there.place, unit::bit, there.length);
        });
    }

private:
    seglink_intake state_ = seglink_intake_fresh();
    std::vector<std::uint8_t> space_;
};

// ---- The shelf

using key = seglink_key;

// Keeps segment sheets, by NID_C, NID_SP and version, in a store of its own.
class shelf {
public:
    explicit shelf(std::size_t capacity = SEGLINK_LARGEST_STORE) : store_(capacity) {}

    // Returns how many bytes the kept sheets take, four for each included.
    [[nodiscard]] std::size_t used() const noexcept { return used_; }

    // Keeps the sheet of a segment, none of its bytes this shelf's own; a kept sheet of the same key goes.
    [[nodiscard]] result<void> add(bytes sheet)
    {
        const room store(store_);
        return changed(seglink_shelf_add(store.data(), store.size(), used_, sheet.data(), sheet.size()));
    }

    // Removes the sheet with this key.
    [[nodiscard]] result<void> remove(key asked)
    {
        const room store(store_);
        return changed(seglink_shelf_remove(store.data(), store.size(), used_, asked));
    }

    // Returns the sheet with this key, of the yard's shelf or else of the default one. It lies in the shelf, until a change.
    [[nodiscard]] static result<bytes> lookup(const shelf &yard, const shelf &standard, key asked)
    {
        const bytes first(yard.store_), second(standard.store_);
        const auto found = seglink_shelf_lookup(first.data(), first.size(), yard.used_, second.data(), second.size(), standard.used_, asked);
        return detail::answer(found.refusal, 0, unit::byte, bytes(found.part.bytes, found.part.length));
    }

private:
    result<void> changed(const seglink_shelved &shelved)
    {
        used_ = shelved.used;
        return detail::answer(shelved.refusal, shelved.place, unit::byte);
    }

    std::vector<std::uint8_t> store_;
    std::uint32_t used_ = 0;
};

// Returns the number of the archive's interface, which is SEGLINK_INTERFACE.
[[nodiscard]] inline std::uint32_t version() noexcept
{
    return seglink_version();
}

} // namespace seglink

#endif
