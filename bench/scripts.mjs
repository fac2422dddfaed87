// Writes a text of about so many megabytes to a file: real scripts, each in a function as CommonJS runs it, of the sources
// that Node has in itself and of those below some folders, as many as the program and acorn both read. Says how many.
//   node bench/scripts.mjs crates/jsparse/out/jsparse /tmp/scripts.js 20 /usr/lib/node_modules
//   bench/compare /tmp/scripts.js 3 parse
import { readFileSync, writeFileSync } from 'node:fs'
import { execFileSync, spawnSync } from 'node:child_process'

const natives = process.binding('natives')
const module = { exports: {} }
new Function('exports', 'module', natives['internal/deps/acorn/acorn/dist/acorn'])(module.exports, module)
const acorn = module.exports

const [program, file, megabytes = '20', ...folders] = process.argv.slice(2)
const found = folders.length === 0 ? '' : execFileSync('find', [...folders, '-name', '*.js', '-size', '-2000k'], { maxBuffer: 1e9 }).toString()
const texts = Object.values(natives).filter((text) => typeof text === 'string')
for (const path of found.split('\n')) if (path) texts.push(readFileSync(path, 'utf8'))

const inFunction = (text) => `(function (exports, require, module) {\n${text}\n});\n`

function isRead(text) {
  try { acorn.parse(text, { ecmaVersion: 'latest', sourceType: 'script' }) } catch { return false }
  return spawnSync(program, ['--goal', 'script'], { input: text, stdio: ['pipe', 'ignore', 'ignore'] }).status === 0
}

const read = [...new Set(texts)].map(inFunction).filter(isRead)
const whole = read.join('')
console.log(`${read.length} scripts of ${texts.length}, ${Buffer.byteLength(whole)} bytes`)
writeFileSync(file, whole.repeat(Math.max(1, Math.round(megabytes * 1e6 / whole.length))))
