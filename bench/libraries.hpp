// Sobol' points of Boost.Random and GSL, where bench/run found them (BOOST_HERE, GSL_HERE); else the fills do nothing.
#pragma once

#include <cstddef>
#include <string>

#include "peers.hpp"

#ifdef BOOST_HERE
constexpr bool kBoostHere = true;
#else
constexpr bool kBoostHere = false;
#endif
#ifdef GSL_HERE
constexpr bool kGslHere = true;
#else
constexpr bool kGslHere = false;
#endif

std::string boost_version();
std::string gsl_version_text();

// Boost's engines of dimension 2, from their start; each coordinate has 64 bits, of which the top 32 are taken.
void fill_boost_sobol(Target to);
void fill_boost_niederreiter(Target to);

// GSL's sobol of dimension 2, from its start, straight into n pairs of doubles, which is its own form.
void fill_gsl_sobol(double* points, size_t n);
