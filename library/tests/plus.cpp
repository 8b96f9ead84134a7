// The header for C++: a result in a vector.
#include "pnmpipe.h"
#include <cstdio>
#include <string>
#include <vector>

int main() {
    const std::string chain = "pamflip -lr", image = "P5\n2 1\n9\n\1\2", wanted = "P5\n2 1\n9\n\2\1";
    std::vector<uint8_t> room(64);
    const std::vector<uint8_t> nothing;
    pnmpipe_answer answer;
    if (pnmpipe_run(chain.data(), chain.size(), PNMPIPE_RAW, image.data(), image.size(), room.data(), room.size(),
                    &answer) != PNMPIPE_OK ||
        std::string(room.begin(), room.begin() + static_cast<std::ptrdiff_t>(answer.size)) != wanted)
        return std::puts("plus: the results differ"), 1;
    return pnmpipe_run(chain.data(), chain.size(), PNMPIPE_RAW, nothing.data(), nothing.size(), room.data(),
                       room.size(), &answer) != PNMPIPE_INPUT_EMPTY_INPUT;
}
