// No text is slow: makes long texts of one form each, 6 and 12 megabytes, runs the lexer over both, and prints how many
// times the time twice the text takes. It fails where that is more than 2.3.
//   node bench/long.mjs [MEGABYTES [WORD]]
// With a word it takes the forms alone whose names have it. Then it has the whole program read small texts that nest, each
// in the seconds that stand beside it.
import { execFileSync, spawnSync } from 'node:child_process'
import { existsSync, openSync, closeSync, writeFileSync, mkdtempSync, rmSync } from 'node:fs'
import { dirname, join } from 'node:path'
import { tmpdir } from 'node:os'
import { fileURLToPath } from 'node:url'

// What stands first, what is said again and again, and what stands last.
const forms = {
  'one name': ['', 'name', ''],
  'names': ['', 'name of ', ''],
  'letters': ['', 'a ', ''],
  'keywords': ['', 'typeof function ', ''],
  'nearly keywords': ['', 'typeoff functio ', ''],
  'one name above ASCII': ['', '\u00e9', ''],
  'names above ASCII': ['', 'a\u00e9 \u{20000} ', ''],
  'one private name': ['#', 'name', ''],
  'private names': ['', '#a ', ''],
  'signs of private names': ['', '#', ''],
  'one name of escapes': ['', '\\u0061', ''],
  'one name of escapes in braces': ['', '\\u{61}', ''],
  'names with an escape': ['', 'a\\u0061b ', ''],
  'one escape of zeros': ['\\u{', '0', '61}'],
  'one escape of zeros without end': ['\\u{', '0', ''],
  'a name and an escape of zeros without end': ['a\\u{', '0', ''],
  'a string and an escape of zeros without end': ["'\\u{", '0', "'"],
  'escapes of no character': ['', '\\u{110000}', ''],
  'escapes of surrogates': ['', 'a\\ud800', ''],
  'escapes that break off': ['', '\\u00', ''],
  'backslashes': ['', '\\', ''],
  'names and backslashes': ['', 'a\\', ''],
  'one string': ["'", 'string ', "'"],
  'strings': ['', "'s' ", ''],
  'one string of escapes': ["'", '\\n\\x41\\u0041\\u{41}\\0', "'"],
  'one string of ill-formed escapes': ["'", '\\x', "'"],
  'strings with ill-formed escapes': ['', "'\\u' ", ''],
  'one string of continued lines': ["'", '\\\n', "'"],
  'one string above ASCII': ["'", '\u20ac', "'"],
  'one string without end': ["'", 'string ', ''],
  'one string of backslashes without end': ["'", '\\\\', ''],
  'strings without end': ['', "'string\n", ''],
  'one template': ['`', 'part ', '`'],
  'templates': ['', '`a` ', ''],
  'one template of parts': ['`', '${a}', '`'],
  'templates in templates': ['', '`${', ''],
  'one template of dollar signs': ['`', '$', '`'],
  'one template of backslashes': ['`', '\\\\', '`'],
  'one template without end': ['`', 'part ', ''],
  'template tails without end': ['`', '${a}', ''],
  'one regular expression': ['=/', 'pattern', '/'],
  'regular expressions': ['', '=/a/g', ''],
  'one regular expression of brackets': ['=/', '[/]', '/'],
  'one regular expression without end': ['=/', 'pattern', ''],
  'one open bracket': ['=/[', '/', ''],
  'regular expressions without end': ['', '=/a\n', ''],
  'wrong flags': ['=/a/', 'x', ''],
  'flags that stand again': ['=/a/', 'dgimsuvy', ''],
  'one comment to the end of its line': ['//', 'comment ', ''],
  'comments to the end of their lines': ['', '//c\n', ''],
  'one block comment': ['/*', 'comment ', '*/'],
  'block comments': ['', '/**/', ''],
  'one block comment of asterisks': ['/*', '*', '*/'],
  'one block comment without end': ['/*', 'comment\n', ''],
  'openings of block comments': ['', '/* ', ''],
  'comments and asterisks': ['', '/*', ''],
  'HTML-like comments': ['', '<!--\n-->\n', ''],
  'less and hyphens': ['', '<!-', ''],
  'closings of HTML-like comments': ['', '-->', ''],
  'one number': ['', '12345678', ''],
  'numbers': ['', '1 ', ''],
  'one number of separators': ['', '1_', '1'],
  'one number of separators without end': ['', '1_', ''],
  'one hexadecimal number': ['0x', 'abcdef', ''],
  'one number of zeros': ['', '0', ''],
  'one number of eights': ['0', '8', ''],
  'numbers and dots': ['', '1.', ''],
  'dots and numbers': ['', '.1', ''],
  'one number and a name': ['1', 'a', ''],
  'one number and a name above ASCII': ['1', '\u00e9', ''],
  'one number without exponent': ['', '12345678', 'e'],
  'numbers without digits': ['', '0x ', ''],
  'dots': ['', '.', ''],
  'greater': ['', '>', ''],
  'shifts': ['', '>>>=', ''],
  'question marks': ['', '?', ''],
  'equals signs': ['', '=', ''],
  'parentheses': ['', '(', ''],
  'braces': ['', '{}', ''],
  'spaces': ['', ' ', ''],
  'line feeds': ['', '\n', ''],
  'ends of lines': ['', '\r\n', ''],
  'white space above ASCII': ['', '\u00a0\u3000', ''],
  'paragraph separators': ['', '\u2029', ''],
  'control characters': ['', '\u0001', ''],
  'wrong characters': ['', '\u20ac', ''],
  'replacement characters': ['', '\ufffd', ''],
  'characters beyond the basic plane': ['', '\u{1f600}', ''],
}

const here = dirname(fileURLToPath(import.meta.url))
const crate = join(here, '../crates/test_rows')
const program = join(crate, 'out/test_rows')
if (!existsSync(program)) execFileSync('sh', ['-c', 'rt run < stdin > /dev/null'], { cwd: crate, stdio: ['ignore', 'ignore', 'inherit'] })
const folder = mkdtempSync(join(tmpdir(), 'long-'))

// The C library keeps what memory it has taken, as it does by itself for blocks below 32 megabytes. Greater ones it takes
// from the system anew in each pass, so that a list which grows over that size would be measured with the system's pages.
const keeping = { ...process.env, MALLOC_MMAP_MAX_: '0', MALLOC_TRIM_THRESHOLD_: '8000000000' }

// The microseconds of the fastest of so many passes over a text of so many bytes.
function time([first, again, last], bytes, passes) {
  const file = join(folder, 'text.js')
  const piece = Buffer.from(again.repeat(1024))
  writeFileSync(file, Buffer.concat([Buffer.from(first), ...Array(Math.ceil(bytes / piece.length)).fill(piece), Buffer.from(last)]))
  const input = openSync(file, 'r')
  const told = execFileSync(program, ['lex', String(passes)], { stdio: [input, 'pipe', 'inherit'], env: keeping }).toString()
  closeSync(input)
  return Math.min(...[...told.matchAll(/ in (\d+) microseconds/g)].map((found) => Number(found[1])))
}

const bytes = Number(process.argv[2] ?? '6') * 1e6
const asked = Object.entries(forms).filter(([name]) => name.includes(process.argv[3] ?? ''))
const slow = []
let most = 0
for (const [name, form] of asked) {
  let ratio = Infinity
  let once = Infinity
  let twice = Infinity
  // A machine that does other work too may be slow at one of both: such a form is measured again, and of all trials the
  // best time of each counts.
  for (let trial = 0; trial < 5 && ratio > 2.3; trial++) {
    once = Math.min(once, time(form, bytes, 5))
    twice = Math.min(twice, time(form, 2 * bytes, 5))
    ratio = twice / once
  }
  console.log(`${ratio.toFixed(2).padStart(6)} times at twice the text, ${(bytes / once).toFixed(0).padStart(4)} MB a second: ${name}`)
  most = Math.max(most, ratio)
  if (ratio > 2.3) slow.push(name)
}

// Heads of arrow functions that are read in vain, around heads of which something is told: each of the latter is looked at
// anew for each of the former, but for what is noted.
const told = (vain, heads, items) =>
  '(a='.repeat(vain) + '(b='.repeat(heads) + '[[...x,]=y' + ',1'.repeat(items) + ']' + ')=>0'.repeat(heads) + ')'.repeat(vain)
const nested = {
  'told heads in heads in vain': [told(400, 400, 2000), 1],
  'the same, more heads in vain': [told(800, 200, 2000), 1],
}
for (const [name, [text, seconds]] of Object.entries(nested)) {
  if (!name.includes(process.argv[3] ?? '')) continue
  const file = join(folder, 'nested.js')
  writeFileSync(file, text)
  const input = openSync(file, 'r')
  const began = process.hrtime.bigint()
  const { status } = spawnSync(join(here, '../jsparse'), ['--goal', 'script'], { stdio: [input, 'ignore', 'inherit'] })
  const took = Number(process.hrtime.bigint() - began) / 1e9
  closeSync(input)
  console.log(`${took.toFixed(2).padStart(6)} seconds for ${text.length} bytes, status ${status}: ${name}`)
  if (took > seconds || status !== 1) slow.push(name)
}
rmSync(folder, { recursive: true })
console.log(`${asked.length} forms, ${most.toFixed(2)} times at most${slow.length ? ', too slow: ' + slow.join(', ') : ''}`)
process.exitCode = slow.length ? 1 : 0
