// HEALPix C++: the nested pixel of order 24, whose pixels are about as small as the grid's finest cells.
// phi may be below 0 too, as receivers send longitudes: `zphi2pix` then calls fmod.
#include <cstddef>
#include <cstdint>
#include <healpix_cxx/healpix_base.h>

extern "C" uint64_t bench_healpix(const double *z, const double *phi, size_t count) {
    static const T_Healpix_Base<int64> base(24, NEST);
    uint64_t sum = 0;
    for (size_t i = 0; i < count; i++)
        sum = (sum << 1 | sum >> 63) ^ static_cast<uint64_t>(base.zphi2pix(z[i], phi[i]));
    return sum;
}
