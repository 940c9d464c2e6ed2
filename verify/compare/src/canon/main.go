// SPDX-License-Identifier: Apache-2.0

// Decodes and encodes items by fxamacker/cbor, for verify/compare/canon.
//
// Each item of standard input comes after its length in four bytes, and so does each answer. The length 0xffffffff
// stands before an error, which is a text after its own length.
package main

import (
	"bufio"
	"encoding/binary"
	"io"
	"os"

	"github.com/fxamacker/cbor"
)

const refused = 0xffffffff

func put(out io.Writer, data []byte) {
	var length [4]byte
	binary.BigEndian.PutUint32(length[:], uint32(len(data)))
	out.Write(length[:])
	out.Write(data)
}

func check(err error) {
	if err != nil {
		panic(err)
	}
}

func main() {
	options := cbor.CoreDetEncOptions()
	if os.Args[1] == "canonical" {
		options = cbor.CanonicalEncOptions()
	}
	encoder, err := options.EncMode()
	check(err)
	in, out := bufio.NewReader(os.Stdin), bufio.NewWriter(os.Stdout)
	for {
		var length [4]byte
		if _, err := io.ReadFull(in, length[:]); err == io.EOF {
			break
		} else {
			check(err)
		}
		data := make([]byte, binary.BigEndian.Uint32(length[:]))
		_, err := io.ReadFull(in, data)
		check(err)
		var value interface{}
		err = cbor.Unmarshal(data, &value)
		if err == nil {
			data, err = encoder.Marshal(value)
		}
		if err != nil {
			binary.BigEndian.PutUint32(length[:], refused)
			out.Write(length[:])
			data = []byte(err.Error())
		}
		put(out, data)
	}
	check(out.Flush())
}
