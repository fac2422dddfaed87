// Writes a text of about so many megabytes to a file: the sources that Node has in itself and those of the packages
// installed beside it, as many as acorn's tokenizer takes, one behind the other.
import { readFileSync, writeFileSync } from 'node:fs'
import { execSync } from 'node:child_process'

const natives = process.binding('natives')
const module = { exports: {} }
new Function('exports', 'module', natives['internal/deps/acorn/acorn/dist/acorn'])(module.exports, module)
const acorn = module.exports

function passes(source) {
  try {
    const tokenizer = acorn.tokenizer(source, { ecmaVersion: 'latest', sourceType: 'script', allowHashBang: true })
    while (tokenizer.getToken().type !== acorn.tokTypes.eof);
    return true
  } catch { return false }
}

const [file, megabytes = '20'] = process.argv.slice(2)
const found = execSync("find /usr/lib/node_modules /usr/local/lib/node_modules -name '*.js' -size -300k 2>/dev/null; true", { maxBuffer: 1e8 })
const texts = Object.values(natives).filter((text) => typeof text === 'string')
for (const path of found.toString().split('\n')) if (path) texts.push(readFileSync(path, 'utf8'))
const whole = ';\n' + texts.filter((text) => !text.startsWith('#!') && passes(text) && passes(text + '\n;' + text)).join('\n;\n')
if (!passes(whole)) throw new Error('together they do not pass')
writeFileSync(file, (whole + '\n;\n').repeat(Math.max(1, Math.round(megabytes * 1e6 / whole.length))))
