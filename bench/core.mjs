// Writes a text of about so many megabytes to a file: expression statements as a parser of the core language reads them,
// dense, with every kind of operator, members, calls, `new`, optional chains and assignments.
//   node bench/core.mjs /tmp/core.js 20
import { writeFileSync } from 'node:fs'

const lines = [
  (i) => `x${i} = x${i} + ${i} * (y - 1);`,
  (i) => `total.count${i}(a, b, "text").next = found ? item.value : null;`,
  () => 'a = b || c && d | e ^ f & g == h < i >> j - k * l ** -m;',
  (i) => `new Store(name, ${i}).load(key).then(done, failed);`,
  () => 'left?.right?.(one, two).three; ++counter; other--;',
  () => 'typeof value !== "undefined" && (value instanceof Thing, key in table);',
  (i) => `first.second.third(fourth(fifth, ${i}), !sixth);`,
  () => 'width *= height; depth <<= 2; flag &&= !flag; void 0;',
]

const [file, megabytes = '20'] = process.argv.slice(2)
const wanted = megabytes * 1e6
const parts = []
let length = 0
for (let i = 0; length < wanted; i++) {
  const line = lines[i % lines.length](i % 1000) + '\n'
  parts.push(line)
  length += line.length
}
writeFileSync(file, parts.join(''))
