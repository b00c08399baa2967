// Boost.Random and GSL: their fills, and how their points are related to the standard pair.
//
// All of them give the standard pair, X first, in Gray-code order: the k-th point is that of index k xor k/2. Boost (sobol and
// niederreiter_base2, which agree in two dimensions) and GSL leave out k = 0. Boost keeps 64 bits, of which the low 32 are 0 in the first
// 2^32 points; GSL keeps the top 30 bits.
#include "libraries.hpp"

#ifdef BOOST_HERE
#pragma GCC diagnostic ignored "-Wfree-nonheap-object"  // g++ 12 sees one in Boost, where none is
#include <boost/random/niederreiter_base2.hpp>
#include <boost/random/sobol.hpp>
#include <boost/version.hpp>
#endif
#ifdef GSL_HERE
#include <gsl/gsl_qrng.h>
#include <gsl/gsl_version.h>
#endif

#include <vector>

#include "../include/vektrid.h"
#include "report.hpp"

namespace {

constexpr size_t kPoints = size_t{1} << 20;

// Our points of the standard pair, unshifted, for every index that the first 2^20 points of a Gray-code order without k = 0 need.
struct Ours {
    std::vector<uint32_t> xs = std::vector<uint32_t>(2 * kPoints), ys = xs;
    bool filled;
    Ours() {
        const Pair pair = standard_pair();
        filled = vektrid_fill(pair.data(), 64, 0, 0, vektrid_no_flips, 32, vektrid_no_flips, 32, 0, xs.data(), xs.size(), ys.data(),
                              ys.size()) == 0;
    }
    uint32_t x(size_t k) const { return xs[k ^ (k >> 1)]; }
    uint32_t y(size_t k) const { return ys[k ^ (k >> 1)]; }
};

#ifdef BOOST_HERE
// The engine is made here, which takes some microseconds: the compiler then sees its dimension, and the loop is faster than with one made outside.
template <class Engine>
void fill_boost(Target to) {
    uint32_t* __restrict xs = to.xs;
    uint32_t* __restrict ys = to.ys;
    Engine engine(2);
    for (size_t k = 0; k < to.n; ++k) {
        xs[k] = static_cast<uint32_t>(engine() >> 32);
        ys[k] = static_cast<uint32_t>(engine() >> 32);
    }
}

template <class Engine>
bool boost_agrees(const Ours& ours) {
    Engine engine(2);
    for (size_t k = 1; k <= kPoints; ++k) {
        const uint64_t x = engine(), y = engine();
        if (x != uint64_t{ours.x(k)} << 32 || y != uint64_t{ours.y(k)} << 32) return false;
    }
    return true;
}

void compare_boost(Report& report, const Ours& ours) {
    report.compare(boost_agrees<boost::random::sobol>(ours), "fill, standard pair, against Boost sobol in Gray-code order");
    report.compare(boost_agrees<boost::random::niederreiter_base2>(ours),
                   "fill, standard pair, against Boost niederreiter_base2 in Gray-code order");
}
#else
void compare_boost(Report&, const Ours&) {}
#endif

// The top 30 bits of a word, as GSL gives them.
bool gsl_agrees(const Ours& ours) {
    std::vector<double> points(2 * kPoints);
    fill_gsl_sobol(points.data(), kPoints);
    for (size_t k = 1; k <= kPoints; ++k) {
        const double* point = &points[2 * (k - 1)];
        if (point[0] != (ours.x(k) >> 2) / 1073741824.0 || point[1] != (ours.y(k) >> 2) / 1073741824.0) return false;
    }
    return true;
}

}  // namespace

#ifdef BOOST_HERE
std::string boost_version() { return BOOST_LIB_VERSION; }
void fill_boost_sobol(Target to) { fill_boost<boost::random::sobol>(to); }
void fill_boost_niederreiter(Target to) { fill_boost<boost::random::niederreiter_base2>(to); }
#else
std::string boost_version() { return "not installed"; }
void fill_boost_sobol(Target) {}
void fill_boost_niederreiter(Target) {}
#endif

#ifdef GSL_HERE
std::string gsl_version_text() { return GSL_VERSION; }

void fill_gsl_sobol(double* points, size_t n) {
    static gsl_qrng* generator = gsl_qrng_alloc(gsl_qrng_sobol, 2);
    gsl_qrng_init(generator);
    for (size_t k = 0; k < n; ++k) gsl_qrng_get(generator, points + 2 * k);
}
#else
std::string gsl_version_text() { return "not installed"; }
void fill_gsl_sobol(double*, size_t) {}
#endif

void compare_libraries(Report& report) {
    const Ours ours;
    report.compare(ours.filled, "fill of the standard pair is refused");
    compare_boost(report, ours);
    if (kGslHere) report.compare(gsl_agrees(ours), "fill, standard pair, against GSL sobol in Gray-code order, top 30 bits");
}
