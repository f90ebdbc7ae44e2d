// The root of a log of 2^16 entries of 32 bytes, some times: by tlog of golang.org/x/mod.
package main

import (
	"fmt"
	"os"
	"strconv"

	"golang.org/x/mod/sumdb/tlog"
)

const count = 65536

func main() {
	times := 1
	if len(os.Args) > 1 {
		times, _ = strconv.Atoi(os.Args[1])
	}
	var root tlog.Hash
	for ; times > 0; times-- {
		stored := make([]tlog.Hash, 0, 2*count)
		reader := tlog.HashReaderFunc(func(places []int64) ([]tlog.Hash, error) {
			found := make([]tlog.Hash, len(places))
			for i, place := range places {
				found[i] = stored[place]
			}
			return found, nil
		})
		for i := int64(0); i < count; i++ {
			entry := make([]byte, 32)
			entry[0], entry[1] = byte(i), byte(i>>8)
			more, err := tlog.StoredHashes(i, entry, reader)
			if err != nil {
				panic(err)
			}
			stored = append(stored, more...)
		}
		var err error
		if root, err = tlog.TreeHash(count, reader); err != nil {
			panic(err)
		}
	}
	fmt.Printf("%x\n", root[:4])
}
