/* Plain C twins of the proved calls: the same work by the same rules, written apart from them. */
#ifndef TWINS_H
#define TWINS_H
typedef int twin_word;
typedef unsigned long twin_size;
typedef unsigned long twin_bits;
typedef struct { unsigned q, p; } twin_key;
typedef struct { unsigned q, p; unsigned long size; } twin_pair;
typedef struct { unsigned number; unsigned long opened; twin_size count; int end; twin_pair pairs[16]; } twin_page_answer;

typedef struct { unsigned number; twin_size count; unsigned long opened; } twin_run_answer;

unsigned twin_open(const twin_word *w, twin_size len);
unsigned twin_pack(unsigned form, twin_size n, const twin_word *points, const twin_word *order, unsigned edition, twin_word *out, twin_size len);
/* Checks both sheets, then makes the page. The words lent for kept sets, as many as the points of P need, are zeros after it. */
twin_page_answer twin_page(const twin_word *p, twin_size plen, const twin_word *q, twin_size qlen, twin_key key, twin_size size, twin_bits *bits, twin_size len);
/* Checks both sheets, then gives the pairs of the chambers of leaf v of Q, by place, then p id. The words lent, 16 times as many, are zeros after it, and as they
   were where the pairs outnumber the slots. */
twin_run_answer twin_run(const twin_word *p, twin_size plen, const twin_word *q, twin_size qlen, twin_size v, twin_pair *slots, twin_size room, twin_bits *bits, twin_size len);
/* Every pair of the two sets by three loops, each stopped at the first blocker, of the circle or of the street grid; the pairs into `out`, at most `room`. */
twin_size twin_brute(const twin_word *p, twin_size plen, const twin_word *q, twin_size qlen, int grid, twin_pair *out, twin_size room);
#endif
