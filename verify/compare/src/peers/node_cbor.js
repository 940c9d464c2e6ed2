// SPDX-License-Identifier: Apache-2.0

// The works of the calls for C, done by the package node-cbor.
//
// usage: node node_cbor.js check|copy SIZE COUNT ROUNDS
//
// It reads standard input whole, and does a work on it ROUNDS times. `check` decodes the one item in it. `copy` encodes
// the value again. It prints the sum of the lengths.
const fs = require('fs')
const cbor = require('cbor')

const [work, , , rounds] = process.argv.slice(2)
if (work !== 'check' && work !== 'copy') {
  process.exit(2)
}
const data = fs.readFileSync(0)
const options = { highWaterMark: 2 * data.length }
let total = 0
for (let round = 0; round < Number(rounds); round++) {
  const value = cbor.decodeFirstSync(data, { max_depth: 256 })
  total += work === 'check' ? data.length : cbor.encodeOne(value, options).length
}
console.log(total)
