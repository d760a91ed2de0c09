// The fleet board for C++17 and what came after it, over fleet.h, which is the manual: link with libfleet.a and, for seglink.hpp, libseglink.a.
#ifndef FLEET_HPP
#define FLEET_HPP

#include <cstddef>
#include <cstdint>
#include <vector>

#include "fleet.h"
#include "seglink.hpp"

namespace fleet {

// A card's number, 0 the first, and its permitted speed in km/h.
struct slowest {
    std::uint32_t card, speed;
};

// A list of train cards, each with the location of the train's front in cm from the start of a packet's segment.
class board {
public:
    // Adds a card at the end; a board of more than FLEET_MOST_CARDS is refused, and not cut.
    void add(const seglink::train &train, std::uint32_t location_cm)
    {
        fleet_card card;
        card.train = train.in_c();
        card.location = location_cm;
        cards_.push_back(card);
    }

    [[nodiscard]] std::size_t size() const noexcept { return cards_.size(); }

    // Changes the location of the card with this number, to any location.
    [[nodiscard]] seglink::result<void> move(std::uint32_t card, std::uint32_t location_cm)
    {
        fleet_card none;
        const auto refusal = fleet_move(cards_.empty() ? &none : cards_.data(), cards_.size(), card, location_cm);
        return seglink::detail::answer(refusal, 0, seglink::unit::bit);
    }

    // Returns the first card with the lowest permitted speed on the packet's segment.
    [[nodiscard]] seglink::result<slowest> lowest(seglink::bytes packet) const
    {
        static const fleet_card none{};
        const auto told = fleet_lowest(cards_.empty() ? &none : cards_.data(), cards_.size(), packet.data(), packet.size());
        return seglink::detail::answer(told.refusal, told.place, seglink::unit::bit, slowest{told.card, told.speed});
    }

private:
    std::vector<fleet_card> cards_;
};

} // namespace fleet

#endif
