// Draws keys, messages and signatures of Ed25519, most of them hostile, and prints each with the verdict of Go's crypto/ed25519, a line each:
//
//	KEY MESSAGE SIGNATURE true|false        in hexadecimal; - is no bytes
//
// The one argument is how many there are. The same number gives the same lines.
package main

import (
	"bufio"
	"crypto/ed25519"
	"crypto/sha512"
	"encoding/hex"
	"fmt"
	"math/big"
	"math/rand"
	"os"
	"strconv"
)

var order, _ = new(big.Int).SetString("7237005577332262213973186563042994240857116359379907606001950938285454250989", 10)

// The points whose order divides eight, in each of their spellings: the first byte to the last, the bit of x in the last.
var small = []string{
	"0100000000000000000000000000000000000000000000000000000000000000",
	"0100000000000000000000000000000000000000000000000000000000000080",
	"eeffffffffffffffffffffffffffffffffffffffffffffffffffffffffffff7f",
	"eeffffffffffffffffffffffffffffffffffffffffffffffffffffffffffffff",
	"ecffffffffffffffffffffffffffffffffffffffffffffffffffffffffffff7f",
	"ecffffffffffffffffffffffffffffffffffffffffffffffffffffffffffffff",
	"0000000000000000000000000000000000000000000000000000000000000000",
	"0000000000000000000000000000000000000000000000000000000000000080",
	"edffffffffffffffffffffffffffffffffffffffffffffffffffffffffffff7f",
	"edffffffffffffffffffffffffffffffffffffffffffffffffffffffffffffff",
	"c7176a703d4dd84fba3c0b760d10670f2a2053fa2c39ccc64ec7fd7792ac037a",
	"c7176a703d4dd84fba3c0b760d10670f2a2053fa2c39ccc64ec7fd7792ac03fa",
	"26e8958fc2b227b045c3f489f2ef98f0d5dfac05d3c63339b13802886d53fc05",
	"26e8958fc2b227b045c3f489f2ef98f0d5dfac05d3c63339b13802886d53fc85",
}

func number(bytes []byte) *big.Int {
	turned := make([]byte, len(bytes))
	for i, b := range bytes {
		turned[len(bytes)-1-i] = b
	}
	return new(big.Int).SetBytes(turned)
}

func spelled(n *big.Int) []byte {
	bytes := n.FillBytes(make([]byte, 32))
	for i := 0; i < 16; i++ {
		bytes[i], bytes[31-i] = bytes[31-i], bytes[i]
	}
	return bytes
}

// The scalar of a seed, of which the key is the multiple of the base point.
func scalar(seed []byte) *big.Int {
	hash := sha512.Sum512(seed)
	hash[0] &= 248
	hash[31] = hash[31]&63 | 64
	return number(hash[:32])
}

func drawn(from *rand.Rand, count int) []byte {
	bytes := make([]byte, count)
	from.Read(bytes)
	return bytes
}

func flip(from *rand.Rand, bytes []byte) {
	if len(bytes) > 0 {
		bytes[from.Intn(len(bytes))] ^= 1 << from.Intn(8)
	}
}

func shown(bytes []byte) string {
	if len(bytes) == 0 {
		return "-"
	}
	return hex.EncodeToString(bytes)
}

func main() {
	count, err := strconv.Atoi(os.Args[1])
	if err != nil {
		panic(err)
	}
	out := bufio.NewWriter(os.Stdout)
	defer out.Flush()
	from := rand.New(rand.NewSource(1))
	for i := 0; i < count; i++ {
		seed, message := drawn(from, 32), drawn(from, from.Intn(80))
		private := ed25519.NewKeyFromSeed(seed)
		key := append([]byte{}, private[32:]...)
		signature := ed25519.Sign(private, message)
		lowest := func() []byte { bytes, _ := hex.DecodeString(small[from.Intn(len(small))]); return bytes }
		switch i % 10 {
		case 1:
			flip(from, signature)
		case 2:
			flip(from, key)
		case 3:
			flip(from, message)
		case 4: // the second half, and the order more: of sixteen multiples those that have 256 bits
			last := number(signature[32:])
			last.Add(last, new(big.Int).Mul(order, big.NewInt(int64(1+from.Intn(15)))))
			copy(signature[32:], spelled(last.Mod(last, new(big.Int).Lsh(big.NewInt(1), 256))))
		case 5: // under a key of small order each multiple of eight as challenge accepts what follows
			copy(key, lowest())
			copy(signature[:32], private[32:])
			copy(signature[32:], spelled(new(big.Int).Mod(scalar(seed), order)))
		case 6: // the first half has small order, and the second one is made for zero in its place
			copy(signature[:32], lowest())
			hash := sha512.Sum512(append(append(append([]byte{}, signature[:32]...), key...), message...))
			last := new(big.Int).Mul(number(hash[:]), scalar(seed))
			copy(signature[32:], spelled(last.Mod(last, order)))
		case 7: // both have small order, and the second half is nothing
			copy(key, lowest())
			copy(signature[:32], lowest())
			copy(signature[32:], make([]byte, 32))
		case 8: // a key that is drawn, of which half are no point's
			copy(key, drawn(from, 32))
		case 9: // a first half that is not below the modulus
			copy(signature[:32], spelled(new(big.Int).Sub(new(big.Int).Lsh(big.NewInt(1), 255), big.NewInt(int64(1+from.Intn(19))))))
		}
		fmt.Fprintln(out, shown(key), shown(message), shown(signature), ed25519.Verify(key, message, signature))
	}
}
