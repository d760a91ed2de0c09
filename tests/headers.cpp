// The headers for C++17 over both archives: any contiguous bytes, empty ones among them, trains by named categories, results. Built with
// --wrap for each function of the archives that takes a pointer: none is ever handed null.
#include <algorithm>
#include <array>
#include <cstdio>
#include <string>
#include <string_view>
#include <type_traits>
#include <vector>
#if __cplusplus >= 202002L
#include <span>
#endif

#include "fleet.hpp"

namespace {

unsigned failed, watched;

void require(bool so, int line, const char *what)
{
    if (!so) {
        failed++;
        std::printf("FAILED: line %d: %s\n", line, what);
    }
}

#define REQUIRE(...) require((__VA_ARGS__), __LINE__, #__VA_ARGS__)

template <class Argument>
void watch(const Argument &argument)
{
    if constexpr (std::is_pointer_v<Argument>) {
        watched++;
        REQUIRE(argument != nullptr);
    }
}

template <class Result, class... Parameters, class... Arguments>
Result through(Result (*real)(Parameters...), Arguments... arguments)
{
    (watch(arguments), ...);
    return real(arguments...);
}

} // namespace

#define RUN_OF const std::uint8_t *a, std::size_t b, const std::uint8_t *c, std::size_t d, const std::uint8_t *e, std::size_t f, const std::uint8_t *g, std::size_t h
#define WATCHED(result, name, parameters, ...)                   \
    extern "C" result __real_##name parameters;                  \
    extern "C" result __wrap_##name parameters;                  \
    extern "C" result __wrap_##name parameters { return through(__real_##name, __VA_ARGS__); }
WATCHED(seglink_converted, seglink_packet_to_sheet, (const std::uint8_t *a, std::size_t b, std::uint8_t *c, std::size_t d), a, b, c, d)
WATCHED(seglink_converted, seglink_sheet_to_packet, (const std::uint8_t *a, std::size_t b, std::uint8_t *c, std::size_t d), a, b, c, d)
WATCHED(seglink_speed, seglink_permitted_speed, (std::uint32_t k, std::uint32_t n, RUN_OF, seglink_train t, std::uint32_t x), k, n, a, b, c, d, e, f, g, h, t, x)
WATCHED(seglink_speed, seglink_restricted_speed, (std::uint32_t k, std::uint32_t n, RUN_OF, const std::uint8_t *j, std::size_t l, std::uint32_t m, seglink_train t, std::uint32_t x),
    k, n, a, b, c, d, e, f, g, h, j, l, m, t, x)
WATCHED(seglink_checked, seglink_check_steps, (std::uint32_t k, std::uint32_t n, RUN_OF, seglink_train t, const std::uint32_t *p, std::size_t q, const std::uint32_t *r, std::size_t s),
    k, n, a, b, c, d, e, f, g, h, t, p, q, r, s)
WATCHED(seglink_altitude, seglink_altitude_of_packet, (const std::uint8_t *a, std::size_t b), a, b)
WATCHED(seglink_intake, seglink_intake_deliver, (seglink_intake i, const std::uint8_t *a, std::size_t b, std::uint8_t *c, std::size_t d), i, a, b, c, d)
WATCHED(seglink_intake, seglink_intake_complete, (seglink_intake i, const std::uint8_t *a, std::size_t b), i, a, b)
WATCHED(seglink_converted, seglink_intake_sheet, (seglink_intake i, const std::uint8_t *a, std::size_t b, std::uint8_t *c, std::size_t d), i, a, b, c, d)
WATCHED(seglink_shelved, seglink_shelf_add, (std::uint8_t *a, std::size_t b, std::uint32_t u, const std::uint8_t *c, std::size_t d), a, b, u, c, d)
WATCHED(seglink_shelved, seglink_shelf_remove, (std::uint8_t *a, std::size_t b, std::uint32_t u, seglink_key k), a, b, u, k)
WATCHED(std::uint32_t, seglink_shelf_lookup_into, (seglink_part *p, const std::uint8_t *a, std::size_t b, std::uint32_t u, const std::uint8_t *c, std::size_t d, std::uint32_t v, seglink_key k),
    p, a, b, u, c, d, v, k)
WATCHED(fleet_board, fleet_lowest, (const fleet_card *a, std::size_t b, const std::uint8_t *c, std::size_t d), a, b, c, d)
WATCHED(std::uint32_t, fleet_move, (fleet_card *a, std::size_t b, std::uint32_t c, std::uint32_t d), a, b, c, d)

namespace {

using seglink::category;
using seglink::kind;
using seglink::refusal;
using seglink::train;
using seglink::unit;
using list = std::vector<std::uint8_t>;

// The build definition's sample: a segment of 1 cm, 80 km/h.
const std::array<std::uint8_t, 25> SHEET = {6, 0xC5, 0xC6, 4, 1, 0, 0, 7, 0, 0, 0, 0, 1, 0, 0, 0, 80, 0, 0, 0, 0, 0, 0, 0, 0};
// A segment of 10 cm: 100 km/h with the delay, from 5 cm on 140 km/h.
const list STEPPED = {6, 0xC5, 0xC6, 4, 1, 0, 0, 7, 0, 0, 0, 0, 10, 0, 0, 0, 100, 0, 0, 1, 5, 0x8C, 1, 0, 0, 0, 0, 0, 0, 0};
const train PASSENGER(200, 150, 600, category::passenger);

list sample_packet()
{
    return *seglink::packet_of(SHEET);
}

// Whether an answer is refused so.
template <class Value>
bool is(const seglink::result<Value> &answer, refusal why, std::uint32_t place, unit in)
{
    return !answer && answer.error().refusal == why && answer.error().place == place && answer.error().unit == in;
}

void conversions()
{
    const list packet = sample_packet();
    REQUIRE(packet.size() == 39 && packet.capacity() == 39);
    const auto sheet = seglink::sheet_of(packet);
    REQUIRE(sheet && *sheet == list(SHEET.begin(), SHEET.end()) && sheet->capacity() == 25);
    REQUIRE(*seglink::altitude_of_packet(packet) == -100000);
    std::array<std::byte, 40> space{};
    REQUIRE(*seglink::sheet_to_packet(SHEET, space) == 39 && space[0] == std::byte{6});
    REQUIRE(is(seglink::sheet_to_packet(SHEET, seglink::room()), refusal::short_room, 0, unit::byte));
    REQUIRE(seglink::version() == SEGLINK_INTERFACE);
}

// One packet as each kind of range.
void ranges()
{
    const list packet = sample_packet();
    const std::string string(packet.begin(), packet.end());
    const std::vector<std::byte> others(reinterpret_cast<const std::byte *>(packet.data()), reinterpret_cast<const std::byte *>(packet.data()) + 39);
    std::uint8_t array[39];
    std::copy(packet.begin(), packet.end(), array);
    for (const auto &answer : {seglink::altitude_of_packet(string), seglink::altitude_of_packet(std::string_view(string)), seglink::altitude_of_packet(others),
             seglink::altitude_of_packet(array), seglink::altitude_of_packet({packet.data(), packet.size()}), seglink::altitude_of_packet(seglink::bytes(packet))})
        REQUIRE(answer && *answer == -100000);
#if __cplusplus >= 202002L
    REQUIRE(*seglink::altitude_of_packet(std::span(packet)) == -100000);
    REQUIRE(*seglink::packet_to_sheet(std::span(packet), std::span(array)) == 25);
#endif
    static_assert(!std::is_constructible_v<seglink::bytes, const char(&)[4]>, "a literal has a 0 at its end");
    static_assert(!std::is_constructible_v<seglink::bytes, std::vector<int>>, "numbers are no bytes");
    static_assert(!std::is_constructible_v<seglink::room, const list &>, "a room is written");
}

void speeds()
{
    const list packet = sample_packet();
    auto next = SHEET;
    next[16] = 120;
    REQUIRE(*seglink::permitted_speed(kind::packet, packet, PASSENGER, 0) == 80);
    REQUIRE(*seglink::permitted_speed(kind::sheet, next, PASSENGER, 0) == 120);
    REQUIRE(*seglink::permitted_speed(kind::sheet, {SHEET, next}, PASSENGER, 0) == 80);
    REQUIRE(*seglink::permitted_speed(kind::sheet, std::vector<seglink::bytes>{SHEET, next, next}, PASSENGER, 0) == 80);
    REQUIRE(*seglink::permitted_speed(kind::sheet, std::vector<list>(3, list(next.begin(), next.end())), PASSENGER, 0) == 120);
    REQUIRE(*seglink::permitted_speed(kind::packet, packet, train(200, 150, 63, seglink::no_category), 0) == 63);
    REQUIRE(is(seglink::permitted_speed(kind::packet, packet, PASSENGER, 1), refusal::past_end, 0, unit::bit));
    REQUIRE(is(seglink::permitted_speed(kind::packet, packet, train(200, 151, 63, category::freight_p), 0), refusal::train_value, 0, unit::bit));
    REQUIRE(is(seglink::permitted_speed(kind::sheet, {SHEET, SHEET, SHEET, SHEET, SHEET}, PASSENGER, 0), refusal::run_count, 0, unit::byte));
    REQUIRE(is(seglink::permitted_speed(kind::sheet, std::vector<list>(), PASSENGER, 0), refusal::run_count, 0, unit::byte));
}

// A segment of 100 cm, 80 km/h, and a journey over it: 33 km/h from 20 cm to 45 cm, with the delay.
void restrictions()
{
    const list segment = {6, 0xC5, 0xC6, 4, 1, 0, 0, 7, 0, 0, 0, 0, 100, 0, 0, 0, 80, 0, 0, 0, 0, 0, 0, 0, 0};
    const list journey = {4, 0xC5, 0xC6, 4, 1, 0, 0, 7, 1, 1, 0, 0, 0, 0, 1, 0, 1, 0, 2, 20, 45, 0, 33, 0, 0};
    const train shuttle(10, 80, 600, seglink::no_category);
    REQUIRE(*seglink::permitted_speed(kind::sheet, segment, shuttle, 54) == 80);
    REQUIRE(*seglink::restricted_speed(kind::sheet, segment, journey, 0, shuttle, 54) == 33);
    REQUIRE(*seglink::restricted_speed(kind::sheet, segment, journey, 0, shuttle, 55) == 80);
    REQUIRE(is(seglink::restricted_speed(kind::sheet, segment, journey, 1, shuttle, 0), refusal::no_leg, 0, unit::byte));
    REQUIRE(is(seglink::restricted_speed(kind::sheet, segment, list(), 0, shuttle, 0), refusal::sheet_form, 0, unit::byte));
    REQUIRE(is(seglink::restricted_speed(kind::sheet, list(), list(), 0, shuttle, 0), refusal::sheet_form, 0, unit::byte));
}

void trains()
{
    const auto all = train(1, 80, 2, category::freight_p | category::freight_g | category::passenger).in_c();
    REQUIRE(all.length == 1 && all.cant == 80 && all.maximum == 2 && all.freight_p && all.freight_g && all.passenger);
    const auto one = train(1, 80, 2, category::freight_g).in_c();
    REQUIRE(!one.freight_p && one.freight_g && !one.passenger);
    static_assert(!std::is_constructible_v<train, int, int, int, bool, bool, bool>, "booleans by their order");
    static_assert(!std::is_constructible_v<train, int, int, int, bool>, "a boolean is no category");
    static_assert(!std::is_constructible_v<train, int, int, int>, "no category is said too");
    static_assert(!std::is_convertible_v<seglink_train, train>, "the struct of C is not taken");
}

void steps()
{
    const train slow(2, 80, 120, seglink::no_category);
    const std::uint32_t starts[] = {0, 7}, early[] = {0, 5};
    const std::array<std::uint32_t, 2> speeds = {100, 120};
    REQUIRE(seglink::check_steps(kind::sheet, STEPPED, slow, starts, speeds).has_value());
    REQUIRE(is(seglink::check_steps(kind::sheet, STEPPED, slow, early, speeds), refusal::wrong_speed, 5, unit::centimetre));
    const auto made = seglink::steps_of(kind::sheet, STEPPED, slow);
    REQUIRE(made && made->starts == std::vector<std::uint32_t>{0, 7} && made->speeds == std::vector<std::uint32_t>{100, 120});
    REQUIRE(is(seglink::steps_of(kind::sheet, list{6}, slow), refusal::sheet_form, 1, unit::byte));
}

void deliveries()
{
    const list packet = sample_packet();
    seglink::intake intake;
    REQUIRE(is(intake.sheet(), refusal::too_early, 0, unit::bit));
    intake.deliver(seglink::bytes(packet.data(), 10));
    intake.deliver(list());
    intake.deliver(seglink::bytes(packet.data() + 10, 29));
    const auto taken = intake.complete();
    REQUIRE(taken && list(taken->begin(), taken->end()) == packet);
    REQUIRE(intake.sheet()->size() == 25);
    intake.deliver(seglink::bytes(packet.data(), 38));
    REQUIRE(is(intake.complete(), refusal::packet_length, 0, unit::bit));
    REQUIRE(is(intake.sheet(), refusal::packet_length, 0, unit::bit));
}

void shelves()
{
    const seglink::key key{};
    auto faster = SHEET;
    faster[16] = 84;
    seglink::shelf yard(29), standard;
    REQUIRE(is(seglink::shelf::lookup(yard, standard, key), refusal::not_kept, 0, unit::byte));
    standard.add(SHEET).value();
    REQUIRE((*seglink::shelf::lookup(yard, standard, key))[16] == 80);
    yard.add(faster).value();
    REQUIRE((*seglink::shelf::lookup(yard, standard, key))[16] == 84 && yard.used() == 29);
    yard.remove(key).value();
    REQUIRE(is(yard.remove(key), refusal::not_kept, 0, unit::byte) && yard.used() == 0);
}

void boards()
{
    const list packet = sample_packet();
    fleet::board board;
    REQUIRE(is(board.lowest(packet), refusal::card_list, 0, unit::bit));
    REQUIRE(is(board.move(0, 0), refusal::card_list, 0, unit::bit));
    board.add(PASSENGER, 0);
    board.add(train(200, 150, 63, category::passenger), 0);
    REQUIRE(board.lowest(packet)->card == 1 && board.lowest(packet)->speed == 63);
    board.move(1, 1).value();
    REQUIRE(is(board.lowest(packet), refusal::past_end, 0, unit::bit));
}

// Empty ranges for everything that is lent: their pointers are null.
void empties()
{
    const list none;
    const std::vector<std::uint32_t> no_steps;
    list no_room;
    seglink::intake intake(0);
    seglink::shelf shelf(0), other(0);
    fleet::board board;
    REQUIRE(none.data() == nullptr && std::string_view().data() == nullptr);
    REQUIRE(is(seglink::packet_to_sheet(none, no_room), refusal::short_packet, 0, unit::bit));
    REQUIRE(is(seglink::sheet_to_packet(std::string_view(), no_room), refusal::sheet_form, 0, unit::byte));
    REQUIRE(is(seglink::sheet_of(none), refusal::short_packet, 0, unit::bit));
    REQUIRE(is(seglink::packet_of(none), refusal::sheet_form, 0, unit::byte));
    REQUIRE(is(seglink::altitude_of_packet(none), refusal::short_packet, 0, unit::bit));
    REQUIRE(is(seglink::permitted_speed(kind::packet, none, PASSENGER, 0), refusal::short_packet, 0, unit::bit));
    REQUIRE(is(seglink::permitted_speed(kind::sheet, {none, none, none, none}, PASSENGER, 0), refusal::sheet_form, 0, unit::byte));
    REQUIRE(is(seglink::permitted_speed(kind::sheet, {nullptr, 0}, PASSENGER, 0), refusal::sheet_form, 0, unit::byte));
    REQUIRE(is(seglink::check_steps(kind::sheet, SHEET, PASSENGER, no_steps, no_steps), refusal::steps, 0, unit::byte));
    intake.deliver(none);
    REQUIRE(is(intake.complete(), refusal::short_packet, 0, unit::bit));
    intake.deliver(SHEET);
    REQUIRE(is(intake.complete(), refusal::short_room, 0, unit::bit));
    REQUIRE(is(intake.sheet(), refusal::short_room, 0, unit::bit));
    REQUIRE(is(shelf.add(none), refusal::sheet_form, 0, unit::byte));
    REQUIRE(is(shelf.add(SHEET), refusal::short_room, 0, unit::byte));
    REQUIRE(is(shelf.remove({}), refusal::not_kept, 0, unit::byte));
    REQUIRE(is(seglink::shelf::lookup(shelf, other, {}), refusal::not_kept, 0, unit::byte));
    board.add(PASSENGER, 0);
    REQUIRE(is(board.lowest(none), refusal::short_packet, 0, unit::bit));
}

// A refusal says its number, its place if it has one, and its ground; and is thrown where the value is asked for.
void messages()
{
    list packet = sample_packet();
    packet.pop_back();
    REQUIRE(seglink::sheet_of(packet).error().message() == "3: the packet's bytes are not 15 + L_PACKET_ATO / 8, rounded up");
    packet.push_back(0x24);
    REQUIRE(seglink::sheet_of(packet).error().message() == "7 at bit 306: a padding bit is 1");
    REQUIRE(std::string(seglink::text(refusal::padding_bit)) == "a padding bit is 1" && seglink::number(refusal::padding_bit) == 7);
    try {
        REQUIRE(seglink::sheet_of(packet).value().empty());
        REQUIRE(false);
    } catch (const seglink::refused_error &error) {
        REQUIRE(error.why().place == 306 && std::string(error.what()) == error.why().message());
    }
    try {
        seglink::shelf(0).add(SHEET).value();
        REQUIRE(false);
    } catch (const seglink::refused_error &error) {
        REQUIRE(error.why().refusal == refusal::short_room);
    }
}

} // namespace

int main()
{
    conversions();
    ranges();
    speeds();
    restrictions();
    trains();
    steps();
    deliveries();
    shelves();
    boards();
    empties();
    messages();
    REQUIRE(watched > 100);
    return failed == 0 ? 0 : 1;
}
