// Reads a file with the acorn that Node bundles, three times, and prints what it counts and the microseconds of each pass:
// tokens by its tokenizer, or with the word `parse` statements by its parser.
//   node bench/acorn.mjs FILE [parse]
import { readFileSync } from 'node:fs'

const bundled = process.binding('natives')['internal/deps/acorn/acorn/dist/acorn']
const module = { exports: {} }
new Function('exports', 'module', bundled)(module.exports, module)
const acorn = module.exports

const options = { ecmaVersion: 'latest', sourceType: 'script', allowHashBang: true }
const source = readFileSync(process.argv[2], 'utf8')

function tokens() {
  const tokenizer = acorn.tokenizer(source, options)
  let count = 0
  while (tokenizer.getToken().type !== acorn.tokTypes.eof) count++
  return `${count} tokens`
}

function statements() {
  return `${acorn.parse(source, options).body.length} statements`
}

for (let pass = 0; pass < 3; pass++) {
  const start = process.hrtime.bigint()
  const counted = process.argv[3] === 'parse' ? statements() : tokens()
  console.log(`${counted} in ${(process.hrtime.bigint() - start) / 1000n} microseconds`)
}
