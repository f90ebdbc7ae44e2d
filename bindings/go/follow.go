// Follows a log in tiles by Go's golang.org/x/mod/sumdb: opens its checkpoint, reads its tiles over HTTP, and proves and checks
// entries and old sizes.
//
//	follow URL KEY LINES [STEP]
//
// LINES is the file whose lines are the log's entries. Every STEP-th entry is proved, and every STEP-th old size. The last line is
// 'N proved'.
package main

import (
	"bytes"
	"fmt"
	"io"
	"log"
	"net/http"
	"os"
	"strconv"
	"strings"

	"golang.org/x/mod/sumdb/note"
	"golang.org/x/mod/sumdb/tlog"
)

type server struct {
	url   string
	tiles map[string][]byte
}

func (s server) get(path string) ([]byte, error) {
	reply, err := http.Get(s.url + "/" + path)
	if err != nil {
		return nil, err
	}
	defer reply.Body.Close()
	if reply.StatusCode != http.StatusOK {
		return nil, fmt.Errorf("%s: %s", path, reply.Status)
	}
	return io.ReadAll(reply.Body)
}

func (s server) Height() int { return 8 }

// The tiles of C2SP's tlog-tiles have the names of Go's without their height.
func (s server) ReadTiles(tiles []tlog.Tile) ([][]byte, error) {
	data := make([][]byte, len(tiles))
	for i, tile := range tiles {
		path := strings.Replace(tile.Path(), "tile/8/", "tile/", 1)
		bytes, known := s.tiles[path]
		if !known {
			got, err := s.get(path)
			if err != nil {
				return nil, err
			}
			bytes = got
			s.tiles[path] = got
		}
		data[i] = bytes
	}
	return data, nil
}

func (s server) SaveTiles([]tlog.Tile, [][]byte) {}

func check(err error) {
	if err != nil {
		log.Fatal(err)
	}
}

func main() {
	log.SetFlags(0)
	s := server{os.Args[1], map[string][]byte{}}
	step := int64(1)
	if len(os.Args) > 4 {
		n, err := strconv.ParseInt(os.Args[4], 10, 64)
		check(err)
		step = n
	}
	verifier, err := note.NewVerifier(os.Args[2])
	check(err)
	signed, err := s.get("checkpoint")
	check(err)
	opened, err := note.Open(signed, note.VerifierList(verifier))
	check(err)
	parts := strings.SplitN(opened.Text, "\n", 4)
	size, err := strconv.ParseInt(parts[1], 10, 64)
	check(err)
	root, err := tlog.ParseHash(parts[2])
	check(err)
	text, err := os.ReadFile(os.Args[3])
	check(err)
	lines := bytes.Split(bytes.TrimSuffix(text, []byte("\n")), []byte("\n"))
	if int64(len(lines)) != size {
		log.Fatalf("%d lines, and a log of %d", len(lines), size)
	}
	reader := tlog.TileHashReader(tlog.Tree{N: size, Hash: root}, s)
	proved := 0
	for i := int64(0); i < size; i += step {
		proof, err := tlog.ProveRecord(size, i, reader)
		check(err)
		check(tlog.CheckRecord(proof, size, root, i, tlog.RecordHash(lines[i])))
		proved++
	}
	for n := int64(1); n < size; n += step {
		old, err := tlog.TreeHash(n, reader)
		check(err)
		proof, err := tlog.ProveTree(size, n, reader)
		check(err)
		check(tlog.CheckTree(proof, size, root, n, old))
		proved++
	}
	fmt.Println(proved, "proved")
}
