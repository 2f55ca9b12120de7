// Prints a shortest path, its length first: route HIER FROM TO, with nodes from 1.
//
//	go build route.go
package main

// #cgo LDFLAGS: -ldomethyme
// #include <domethyme.h>
import "C"

import (
	"fmt"
	"os"
	"strconv"
)

func text(code C.uint32_t) string {
	var text [C.DOMETHYME_TEXT]C.char
	C.domethyme_text(code, &text[0], C.DOMETHYME_TEXT)
	return C.GoString(&text[0])
}

func must(code C.uint32_t) {
	if code != C.DOMETHYME_OK {
		fmt.Fprintln(os.Stderr, "route:", text(code))
		os.Exit(1)
	}
}

func node(word string) C.uint32_t {
	number, err := strconv.ParseUint(word, 10, 32)
	if err != nil {
		panic(err)
	}
	return C.uint32_t(number - 1)
}

func main() {
	bytes, err := os.ReadFile(os.Args[1])
	if err != nil {
		panic(err)
	}
	bytes = append(bytes, 0) // so that an empty file has an address
	var handle C.domethyme
	must(C.domethyme_open(&handle, (*C.uint8_t)(&bytes[0]), C.size_t(len(bytes)-1)))
	defer C.domethyme_close(&handle)

	from, to := node(os.Args[2]), node(os.Args[3])
	var route C.domethyme_route_info
	nodes := make([]C.uint32_t, 1)
	code := C.domethyme_route(&handle, from, to, &route, &nodes[0], C.size_t(len(nodes)))
	if code == C.DOMETHYME_NO_ROOM {
		nodes = make([]C.uint32_t, route.nodes)
		code = C.domethyme_route(&handle, from, to, &route, &nodes[0], C.size_t(len(nodes)))
	}
	must(code)
	fmt.Printf("%d:", route.length)
	for _, node := range nodes[:route.nodes] {
		fmt.Printf(" %d", node+1)
	}
	fmt.Println()
}
