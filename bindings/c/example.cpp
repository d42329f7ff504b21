// What places.c does, in C++: c++ -std=c++17 example.cpp -I FOLDER FOLDER/libwgsl.a -o example && ./example
#include <array>
#include <cstring>
#include <iostream>
#include <string_view>
#include <vector>

#include "wgsl.h"

constexpr std::string_view SHADER =
    "struct Light { at: vec3<f32>, power: f32 }\n"
    "@group(0) @binding(0) var<storage> lights: array<Light>;\n";

std::vector<wgsl_node> layout(std::string_view source, std::string_view name) {
    std::vector<wgsl_node> nodes(16);
    for (;;) {
        wgsl_answer made = wgsl_layout(source.data(), source.size(), name.data(), name.size(), nullptr, 0,
            WGSL_STAGE_CONST, 0, nodes.data(), nodes.size());
        if (made.status != WGSL_ROOM) {
            nodes.resize(made.status == WGSL_OK ? made.length : 0);
            return nodes;
        }
        nodes.resize(made.length);
    }
}

int main() {
    const std::vector<wgsl_node> lights = layout(SHADER, "lights");
    std::array<std::uint8_t, 4 * 16> buffer{};
    constexpr std::string_view path = "[3].power";
    const wgsl_place power = wgsl_place_of(lights.data(), lights.size(), SHADER.data(), SHADER.size(),
        buffer.size(), path.data(), path.size());
    const float half = 0.5f;
    std::uint32_t bits;
    std::memcpy(&bits, &half, sizeof bits);
    if (!wgsl_store(buffer.data(), buffer.size(), power, bits)) return 1;
    std::cout << "lights" << path << " stands at byte " << power.offset << " of " << buffer.size() << '\n';
}
