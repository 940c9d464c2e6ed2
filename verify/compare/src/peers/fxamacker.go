// SPDX-License-Identifier: Apache-2.0

// The works of the calls for C, done by the Go package fxamacker/cbor.
//
// usage: fxamacker check|copy SIZE COUNT ROUNDS
//
// It reads standard input whole, and does a work on it ROUNDS times. check tests if the input is one item that is
// well-formed. copy decodes it to a value, and encodes the value. It prints the sum of the lengths.
package main

import (
	"fmt"
	"io"
	"os"
	"strconv"

	"github.com/fxamacker/cbor"
)

func check(err error) {
	if err != nil {
		panic(err)
	}
}

func worked(work string, data []byte, encoder cbor.EncMode) int {
	if work == "check" {
		check(cbor.Valid(data))
		return len(data)
	}
	var value interface{}
	check(cbor.Unmarshal(data, &value))
	made, err := encoder.Marshal(value)
	check(err)
	return len(made)
}

func main() {
	rounds, err := strconv.Atoi(os.Args[4])
	check(err)
	encoder, err := cbor.CanonicalEncOptions().EncMode()
	check(err)
	data, err := io.ReadAll(os.Stdin)
	check(err)
	sum := 0
	for ; rounds > 0; rounds-- {
		sum += worked(os.Args[1], data, encoder)
	}
	fmt.Println(sum)
}
