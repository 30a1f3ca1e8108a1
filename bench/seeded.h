/* The whole list of ring pairs by seeds, in plain C: what a programmer would write who proves nothing. The proved list goes the same way; this one is its bar. */
#ifndef SEEDED_H
#define SEEDED_H
#include <stddef.h>
#include <stdint.h>

/* A sheet laid out for the walks: the node table where it stands in the sheet, 7 words a node; coordinates and ids by place, so that a leaf is read in one go;
   the place of each position, and how many of the nodes are leaves. */
typedef struct { size_t n, m, leaves; const int32_t *nodes, *rank; int32_t *x, *y, *id; } seeded_tree;
typedef struct { uint32_t q, p; uint64_t size; } seeded_pair;

/* The layout of a sheet that opens, in lent numbers: 3 for each point. */
seeded_tree seeded_read(const int32_t *sheet, size_t len, int32_t *room);
/* The list, by q id, then p id, into the slots; their number. The numbers lent, one for each point of P, hold candidates. */
size_t seeded_list(const seeded_tree *p, const seeded_tree *q, seeded_pair *out, size_t room, int32_t *lent);
#endif
