// The chain as goroutines over buffered channels: a counter, scales by three and a sink, over channels
// of capacity one. Nothing is recorded.
//
// Arguments: the number of scales, and how many tokens go through them.
package main

import (
	"fmt"
	"os"
	"strconv"
)

func count(out chan<- uint64, tokens uint64) {
	for word := uint64(1); word <= tokens; word++ {
		out <- word
	}
	close(out)
}

func scale(in <-chan uint64, out chan<- uint64) {
	for word := range in {
		out <- word * 3
	}
	close(out)
}

func main() {
	scales, _ := strconv.ParseUint(os.Args[1], 10, 64)
	tokens, _ := strconv.ParseUint(os.Args[2], 10, 64)
	last := make(chan uint64, 1)
	go count(last, tokens)
	for i := uint64(0); i < scales; i++ {
		next := make(chan uint64, 1)
		go scale(last, next)
		last = next
	}
	taken := uint64(0)
	for range last {
		taken++
	}
	if taken != tokens {
		os.Exit(1)
	}
	fmt.Println("entries", tokens*(2*scales+2)+2)
}
