// The peer rfjakob/eme, which is written in Go:
//
//	eme agree NAME   compares its bytes with the library's, as standard
//	                 input has them (bench lagunedo eme)
//	eme times NAME   prints its rows under that name, as host/peers/bench.h
//	                 describes them
package main

import (
	"bufio"
	"bytes"
	"crypto/aes"
	"crypto/cipher"
	"encoding/hex"
	"fmt"
	"log"
	"os"
	"strings"
	"time"

	"github.com/rfjakob/eme"
)

func main() {
	log.SetFlags(0)
	switch {
	case len(os.Args) == 3 && os.Args[1] == "agree":
		agree(os.Args[2])
	case len(os.Args) == 3 && os.Args[1] == "times":
		times(os.Args[2])
	default:
		log.Fatal("usage: eme agree|times NAME")
	}
}

func must(err error) {
	if err != nil {
		log.Fatal(err)
	}
}

// setUp gives the block cipher under a key of 16 or 32 bytes.
func setUp(key []byte) cipher.Block {
	block, err := aes.NewCipher(key)
	must(err)
	return block
}

// transform gives the message enciphered, or deciphered if back is true.
func transform(block cipher.Block, back bool, tweak, message []byte) []byte {
	if back {
		return eme.New(block).Decrypt(tweak, message)
	}
	return eme.New(block).Encrypt(tweak, message)
}

// The longest line has a message of 2,048 bytes twice, in digits.
const longestLine = 1 << 14

// agree ends the program with status 1 at the first line that differs.
func agree(name string) {
	lines := bufio.NewScanner(os.Stdin)
	lines.Buffer(nil, longestLine)
	compared := 0
	for ; lines.Scan(); compared++ {
		if !sameAs(lines.Text()) {
			log.Fatalf("%s gives other bytes in comparison %d", name, compared+1)
		}
	}
	if err := lines.Err(); err != nil || compared == 0 {
		log.Fatalf("%s: nothing to compare with: %v", name, err)
	}
	fmt.Printf("%s: %d comparisons, all equal\n", name, compared)
}

// sameAs reads a direction, key, tweak, message before and message after.
func sameAs(line string) bool {
	fields := strings.Fields(line)
	var values [4][]byte
	for i := range values {
		value, err := hex.DecodeString(fields[i+1])
		must(err)
		values[i] = value
	}
	key, tweak, before, after := values[0], values[1], values[2], values[3]
	return bytes.Equal(transform(setUp(key), fields[0] == "decipher", tweak, before), after)
}

// One batch at the least, and all of them together, as in host/peers/timed.c.
// This clock runs on while others have the processor; the collector, which
// works in threads of its own, is not counted where it runs beside.
const (
	batchAtLeast = 500 * time.Microsecond
	allTogether  = 4 * time.Millisecond
)

// times prints a row for both key sizes, both ways, a sector and the longest
// message that the mode takes; with the key set up in each call, and once.
func times(name string) {
	for _, size := range []int{512, 2048} {
		for _, keyLength := range []int{16, 32} {
			for _, back := range []bool{false, true} {
				timeRows(name, size, make([]byte, keyLength), back)
			}
		}
	}
}

func timeRows(name string, size int, key []byte, back bool) {
	tweak, message := make([]byte, 16), make([]byte, size)
	call := "encipher"
	if back {
		call = "decipher"
	}
	row := func(keying string, timed func()) {
		fmt.Printf("%s\teme\t%s\t%s\t%d\t%d\t%.2f\n", name, call, keying, 8*len(key), size, bestTime(timed))
	}
	row("each", func() { transform(setUp(key), back, tweak, message) })
	block := setUp(key)
	row("once", func() { transform(block, back, tweak, message) })
}

// bestTime gives the nanoseconds of one call in the best of several batches.
func bestTime(call func()) float64 {
	calls := 1
	took := batch(call, calls)
	for took < batchAtLeast {
		calls *= 2
		took = batch(call, calls)
	}
	best := took
	for spent := took; spent < allTogether; spent += took {
		took = batch(call, calls)
		if took < best {
			best = took
		}
	}
	return float64(best.Nanoseconds()) / float64(calls)
}

func batch(call func(), calls int) time.Duration {
	start := time.Now()
	for i := 0; i < calls; i++ {
		call()
	}
	return time.Since(start)
}
