// S2: the leaf cell of a latitude and a longitude.
#include <cstddef>
#include <cstdint>
#include <s2/s2cell_id.h>
#include <s2/s2latlng.h>

extern "C" uint64_t bench_s2(const double *longitude, const double *latitude, size_t count) {
    uint64_t sum = 0;
    for (size_t i = 0; i < count; i++)
        sum = (sum << 1 | sum >> 63) ^ S2CellId(S2LatLng::FromRadians(latitude[i], longitude[i])).id();
    return sum;
}
