// Serves a checksum database of Go's own test server, whose records are made as they are looked up, on a port of this machine. It prints the
// key of its verifier and its address.
package main

import (
	"crypto/rand"
	"fmt"
	"log"
	"net"
	"net/http"

	"golang.org/x/mod/sumdb"
	"golang.org/x/mod/sumdb/note"
)

func main() {
	signer, verifier, err := note.GenerateKey(rand.Reader, "sum.example.com")
	if err != nil {
		log.Fatal(err)
	}
	server := sumdb.NewServer(sumdb.NewTestServer(signer, func(path, version string) ([]byte, error) {
		return []byte(fmt.Sprintf("%s %s h1:x=\n%s %s/go.mod h1:y=\n", path, version, path, version)), nil
	}))
	for _, path := range sumdb.ServerPaths {
		http.Handle(path, server)
	}
	listener, err := net.Listen("tcp", "127.0.0.1:0")
	if err != nil {
		log.Fatal(err)
	}
	fmt.Printf("%s http://%s\n", verifier, listener.Addr())
	log.Fatal(http.Serve(listener, nil))
}
