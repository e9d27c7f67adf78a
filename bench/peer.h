/* The same job as the library's, written in C for speed: what the library's cost is measured against.
 *
 * The calls have the shape of the library's own for C: a table is a pointer and its number of entries, and an answer is one number,
 * (number * 2^28 + first) * 2^28 + second. An accepted call has number 0; first and second are then N and M of a graph text, N and N of a
 * coordinate text, N and S of a site text, or the sites listed and the nodes taken. A refused call has the paper's number and, in first, the
 * place; it changes no table and no buffer.
 */
#ifndef PEER_H
#define PEER_H

#include <stddef.h>
#include <stdint.h>

uint64_t peer_read_graph(const uint8_t *text, size_t text_len, uint16_t *tails, size_t tails_len, uint16_t *heads, size_t heads_len,
                         uint32_t *weights, size_t weights_len);

uint64_t peer_read_coordinates(const uint8_t *text, size_t text_len, size_t n, int32_t *xs, size_t xs_len, int32_t *ys, size_t ys_len);

uint64_t peer_read_sites(const uint8_t *text, size_t text_len, size_t n, uint16_t *sites, size_t sites_len);

uint64_t peer_search(const uint16_t *tails, size_t tails_len, const uint16_t *heads, size_t heads_len, const uint32_t *weights,
                     size_t weights_len, const int32_t *xs, size_t xs_len, const int32_t *ys, size_t ys_len, const uint16_t *sites,
                     size_t sites_len, size_t n, size_t m, size_t s, size_t query, size_t k, uint32_t *work, size_t work_len,
                     uint16_t *listed, size_t listed_len, uint32_t *lengths, size_t lengths_len, uint16_t *ends, size_t ends_len,
                     uint16_t *routes, size_t routes_len);

uint64_t peer_panel(const uint16_t *tails, size_t tails_len, const uint16_t *heads, size_t heads_len, const uint32_t *weights,
                    size_t weights_len, const int32_t *xs, size_t xs_len, const int32_t *ys, size_t ys_len, const uint16_t *sites,
                    size_t sites_len, size_t n, size_t m, size_t s, size_t query, uint32_t *work, size_t work_len, uint16_t *listed,
                    size_t listed_len, uint32_t *lengths, size_t lengths_len, uint16_t *ends, size_t ends_len, uint16_t *routes,
                    size_t routes_len);

#endif
