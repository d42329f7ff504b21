#include <assert.h>
#include <stddef.h>
#include <stdint.h>

typedef struct Camera {
    float view[4][4];
    float projection[4][4];
    float position[3];
    float exposure;
    uint8_t _padding3[16];
} Camera;
static_assert(offsetof(Camera, view) == 0, "Camera.view");
static_assert(offsetof(Camera, projection) == 64, "Camera.projection");
static_assert(offsetof(Camera, position) == 128, "Camera.position");
static_assert(offsetof(Camera, exposure) == 140, "Camera.exposure");
static_assert(sizeof(Camera) == 160, "Camera");

typedef struct Material {
    float base_color[4];
    float metallic;
    float roughness;
    float uv_transform[3][2];
    uint16_t emissive[3];
    uint8_t _padding4[2];
    uint32_t flags;
    uint8_t _padding5[4];
} Material;
static_assert(offsetof(Material, base_color) == 0, "Material.base_color");
static_assert(offsetof(Material, metallic) == 16, "Material.metallic");
static_assert(offsetof(Material, roughness) == 20, "Material.roughness");
static_assert(offsetof(Material, uv_transform) == 24, "Material.uv_transform");
static_assert(offsetof(Material, emissive) == 48, "Material.emissive");
static_assert(offsetof(Material, flags) == 56, "Material.flags");
static_assert(sizeof(Material) == 64, "Material");

typedef struct Fragment {
    float position[4];
    float uv[2];
    uint8_t _padding1[8];
} Fragment;
static_assert(offsetof(Fragment, position) == 0, "Fragment.position");
static_assert(offsetof(Fragment, uv) == 16, "Fragment.uv");
static_assert(sizeof(Fragment) == 32, "Fragment");
