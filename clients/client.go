// A caller in Go: packs two sheets, asks for pages until its book is closed, and prints the pairs. docs/GUIDE.md has the line that compiles it.
package main

/*
#cgo LDFLAGS: -lring
#include "ring.h"
*/
import "C"

import (
	"fmt"
	"os"
)

func served(what string, number C.uint32_t) {
	if number != C.RING_SERVED {
		fmt.Printf("%s: refused by %d: %s\n", what, number, C.GoString(C.ring_reason(number)))
		os.Exit(1)
	}
}

func packed(points []C.int32_t, edition C.uint32_t) []C.int32_t {
	n := len(points) / 3
	order := make([]C.int32_t, n)
	for k := range order {
		order[k] = C.int32_t(k)
	}
	sheet := make([]C.int32_t, C.ring_sheet_len(C.size_t(n)))
	served("pack", C.ring_pack(1, C.size_t(n), &points[0], C.size_t(3*n), &order[0], C.size_t(n), edition, &sheet[0], C.size_t(len(sheet))))
	return sheet
}

func main() {
	p := packed([]C.int32_t{1, 0, 0, 2, 10, 0}, 7)
	q := packed([]C.int32_t{5, 4, 0, 6, 16, 1}, 9)
	bits := make([]C.uint64_t, 1)
	slots := make([]C.RingPair, 8)
	begun := C.ring_book_begin(C.RingSource{p_edition: 7, q_edition: 9, terms: C.RingTerms{contractor: 2}})
	served("begin", begun.number)
	book := begun.book
	for !bool(book.closed) {
		next := C.ring_book_next_key(book, &slots[0], 8)
		served("next key", next.number)
		request := C.RingRequest{key: next.key, size: 2, contractor: 2}
		paged := C.ring_page(&p[0], C.size_t(len(p)), &q[0], C.size_t(len(q)), nil, 0, request, &bits[0], 1)
		served("page", paged.number)
		taken := C.ring_book_take(book, &slots[0], 8, paged.page)
		served("take", taken.number)
		book = taken.book
	}
	for _, pair := range slots[:book.held] {
		fmt.Println(pair.q, pair.p, pair.size)
	}
	fmt.Println("end", book.held)
}
