// The header's declarations hold in C++ too: each call is linked under its plain name, and answers for an empty image. Each refusal has a
// text of its own, by its number or by what a call returns, and the version is the one that its parts make.

#include "drivelog.h"

#include <cstdint>
#include <set>
#include <string>

static bool texts()
{
    const std::string none = drivelog_refusal_text(0);
    std::set<std::string> seen;
    for (int64_t number = 1; number <= 23; number++) {
        if (number == 17 || number == 18) // refusals of the program logload, which no call gives
            continue;
        const std::string text = drivelog_refusal_text(number);
        if (text == none || text != drivelog_refusal_text(-number) || !seen.insert(text).second)
            return false;
    }
    return none == drivelog_refusal_text(17) && none == drivelog_refusal_text(24) && none == drivelog_refusal_text(INT64_MIN) && none == drivelog_refusal_text(INT64_MAX);
}

static bool version()
{
    const std::string major = std::to_string(DRIVELOG_VERSION_MAJOR), minor = std::to_string(DRIVELOG_VERSION_MINOR);
    return major + "." + minor + "." + std::to_string(DRIVELOG_VERSION_PATCH) == DRIVELOG_VERSION;
}

int main()
{
    uint8_t output[DRIVELOG_MAX_PAYLOAD];
    const int64_t refused = -DRIVELOG_IMAGE_SIZE;
    bool all = drivelog_count(0, 0) == refused && drivelog_damage(0, 0) == refused && drivelog_kind(0, 0, 0) == refused && drivelog_lsn(0, 0, 0) == refused
        && drivelog_epoch(0, 0, 0) == refused && drivelog_payload(0, 0, 0, output, sizeof output) == refused && drivelog_list(0, 0, 0, 0) == refused
        && drivelog_payload_at(0, 0, 0, 0, output, sizeof output) == refused;
    uint64_t reply[DRIVELOG_THREE_REPLY_WORDS];
    all = all && drivelog_recover_three(0, 0, 0, 0, 0, 0, 0, 0, 7, 0, 0, 0, 0, 0, 0, reply, DRIVELOG_THREE_REPLY_WORDS) == refused
        && drivelog_recover_three(0, 0, 0, 0, 0, 0, 0, 0, 7, 0, 0, 0, 0, 0, 0, reply, 4) == -DRIVELOG_OUTPUT_SHORT;
    all = all && drivelog_append(0, 0, 0, 0, 0, 0, 1, 0, 0, 1, reply, DRIVELOG_REPLY_WORDS) == refused
        && drivelog_append(0, 0, 0, 0, 0, 0, 1, 0, 0, 1, 0, 0) == -DRIVELOG_OUTPUT_SHORT;
    all = all && drivelog_vet(0, 0, 0, 0, 0, 0, reply, DRIVELOG_REPLY_WORDS) == refused && drivelog_vet(0, 0, 0, 0, 0, 0, 0, 0) == -DRIVELOG_OUTPUT_SHORT;
    return all && texts() && version() ? 0 : 1;
}
