// No nesting crashes: makes deep texts of forms that stand in one another, singly, in all pairs and at random, runs the
// program over them with a limit on its stack, and prints those at which it ends otherwise than with an answer or for want
// of memory. Statuses 0, 1 and 5 are answers; a signal is none.
//   node bench/nesting.mjs PROGRAM [KILOBYTES OF STACK [COUNT [SEED]]]
import { spawnSync } from 'node:child_process'

const [program, stack = '8192', count = '300', seed = '1'] = process.argv.slice(2)

// A form stands where its first letter says and leaves room for its second: an expression, a statement, a list of statements in
// a function's body or elsewhere, a pattern. What stands before the room and what behind it.
const forms = {
  ee: [['(', ')'], ['[', ']'], ['[...', ']'], ['f(', ')'], ['a[', ']'], ['a?.(', ')'], ['a?.[', ']'], ['new f(', ')'], ['a?', ':b'], ['a?b:', ''], ['a=', ''], ['a**', ''], ['a??', ''], ['a+', ''], ['!', ''], ['new ', ''],
    ['a=>', ''], ['({a:', '})'], ['({[', ']:b})'], ['({...', '})'], ['[a=', ']=b'], ['(a,', ')'], ['(a=', ')=>b'],
    ['(class{a=', '})'], ['(class{[', ']})'], ['(class extends ', '{})'], ['(@(', ')class{})'], ['(class{@(', ')a})'], ['(@a(', ')class{})'], ['', '.#b'], ['', '?.#b'], ['#b in ', '']],
  el: [['(function(){', '})'], ['(function*(){', '})'], ['a=>{', '}'], ['({a(){', '}})'], ['({get a(){', '}})'], ['({*a(){', '}})'],
    ['(class{static{', '}})'], ['(class{a(){', '}})'], ['(class{get a(){', '}})']],
  ep: [['((', ')=>b)'], ['(function(', '){})'], ['({a(', '){}})'], ['(class{a(', '){}})'], ['(class{set a(', '){}})']],
  pe: [['[a=', ']'], ['{a=', '}'], ['{a:b=', '}'], ['{[', ']:a}']],
  pp: [['[', ']'], ['[...', ']'], ['{a:', '}']],
  ss: [['if(a)', ''], ['if(a);else ', ''], ['while(a)', ''], ['with(a)', ''], ['do ', ' while(a)'], ['a:', ''], ['for(;;)', ''], ['for(a in b)', ''], ['for(var a of b)', '']],
  se: [['', ''], ['throw ', ''], ['if(', ');'], ['while(', ');'], ['for(', ';;);'], ['for(a in ', ');'], ['for(var a=', ';;);'], ['var a=', ''], ['switch(', '){}']],
  sl: [['{', '}'], ['switch(a){case b:', '}'], ['switch(a){default:', '}'], ['try{', '}finally{}'], ['try{}catch{', '}'], ['try{}catch(a){}finally{', '}']],
  sp: [['var ', '=a'], ['try{}catch(', '){}'], ['for(var ', ' of b);']],
  ls: [['', ''], ['a;', '']],
  le: [['', ''], ['return ', ''], ['let a=', ''], ['const a=', ''], ['class A{a=', '}'], ['class A{[', ']}'], ['class A extends ', '{}'], ['@(', ')class A{}']],
  ll: [['function f(){', '}'], ['function*f(){', '}'], ['class A{static{', '}}'], ['class A{a(){', '}}']],
}
let state = BigInt(seed)
const below = n => {
  state = (state * 6364136223846793005n + 1442695040888963407n) & 0xffffffffffffffffn
  return Number((state >> 33n) % BigInt(n))
}
const pick = list => list[below(list.length)]
const all = Object.entries(forms).flatMap(([places, list]) => list.map(form => ({ from: places[0], to: places[1], form })))

// forms one in the other that lead back to where the first one stands
const cycle = length => {
  for (;;) {
    const first = pick(all)
    const chain = [first]
    while (chain.length < length) chain.push(pick(all.filter(f => f.from === chain.at(-1).to)))
    if (chain.at(-1).to === first.from) return chain
  }
}

const text = (chain, times) => {
  const open = chain.map(f => f.form[0]).join('')
  const close = chain.map(f => f.form[1]).reverse().join('')
  const from = chain[0].from
  const [head, core, tail] = from === 'p' ? ['function f(', 'a', '){}'] : from === 'l' ? ['function f(){', 'a', '}'] : ['', 'a', '']
  return head + open.repeat(times) + core + close.repeat(times) + tail
}

const crashes = chain => {
  for (const times of [1000, 2500, 4000, 8000, 16000]) {
    const run = spawnSync('sh', ['-c', `ulimit -s ${stack}; exec "$0" --goal script > /dev/null`, program], { input: text(chain, times) })
    if (![0, 1, 5].includes(run.status)) return [times, run.status ?? run.signal]
    if (run.status === 5) return null
  }
  return null
}

const chains = all.filter(f => f.from === f.to && (f.form[0] || f.form[1])).map(f => [f])
for (const a of all) for (const b of all) if (a.to === b.from && b.to === a.from) chains.push([a, b])
for (let i = 0; i < Number(count); i++) chains.push(cycle(3 + below(3)))
let wrong = 0
for (const chain of chains) {
  if (!chain.some(f => f.form[0])) continue
  const found = crashes(chain)
  if (!found) continue
  wrong++
  console.log(`${JSON.stringify(chain.map(f => f.form.join('..')))}: ${found[0]} times, ${found[1]}`)
}
console.log(`${chains.length} nestings, ${wrong} of them without an answer`)
process.exit(wrong ? 1 : 0)
