// See single_peers.hpp. A file of its own, so that no call is seen through.
#include "single_peers.hpp"

float called_closed_single(uint32_t word) { return closed_single(word); }
