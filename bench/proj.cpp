// PROJ: the planar point of +proj=rhealpix on the sphere, by one proj_trans for each position. It gives no cell. And the authalic sine, which PROJ
// gives to no caller by itself: the y of +proj=cea on WGS84 is that times a constant.
#include <cstddef>
#include <cstdint>
#include <cstring>
#include <proj.h>

static uint64_t bits(double x) {
    uint64_t word;
    std::memcpy(&word, &x, sizeof word);
    return word;
}

static uint64_t points(PJ *pj, const double *longitude, const double *latitude, size_t count) {
    if (!pj) return 0;
    uint64_t sum = 0;
    for (size_t i = 0; i < count; i++) {
        PJ_COORD at = proj_trans(pj, PJ_FWD, proj_coord(longitude[i], latitude[i], 0, 0));
        sum = (sum << 1 | sum >> 63) ^ bits(at.xy.x) ^ bits(at.xy.y);
    }
    return sum;
}

extern "C" uint64_t bench_proj(const double *longitude, const double *latitude, size_t count) {
    static PJ *pj = proj_create(PJ_DEFAULT_CTX, "+proj=rhealpix +R=1 +north_square=0 +south_square=0");
    return points(pj, longitude, latitude, count);
}

extern "C" uint64_t bench_proj_authalic(const double *longitude, const double *latitude, size_t count) {
    static PJ *pj = proj_create(PJ_DEFAULT_CTX, "+proj=cea +ellps=WGS84");
    return points(pj, longitude, latitude, count);
}
