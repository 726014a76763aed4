// Steps through the events of `data`. `done` is how many are done; `words` has the words that they
// left, by name. All else on the page is made anew from these after each move.
const element = id => document.getElementById(id)
const words = new Map(Object.entries(data.start))
let done = data.first
let touched = ""  // the word of the last event
let noting = 0  // what notes the position in the address, once the moves have ended

const valueOf = name => words.get(name) ?? "(0,0)"
const pair = value => value.slice(1, -1).split(",").map(Number)
const pairOf = name => pair(valueOf(name))
const escaped = text => String(text).replace(/[&<>]/g, it => `&#${it.charCodeAt(0)};`)
const callers = [...Array(data.callers).keys()]

function eventAt(at) {
  const [caller, script, step, word, found, left, end, owner, colour] = data.events[at - data.first]
  const isIdle = data.events[at - data.first].length == 1, isEviction = caller < 0
  const stepName = isEviction ? "evict" : data.steps[step]
  return { caller, script, step: stepName, word: data.words[word], found, left, end, owner,
    colour: colour ?? "#bbb", isIdle, isEviction, changes: found != left }
}

function go(to) {
  to = Math.max(data.first, Math.min(data.stop, Math.floor(to) || 0))
  for (; done < to; done++) restore(eventAt(done), "left")
  for (; done > to; done--) restore(eventAt(done - 1), "found")
  show()
}

function restore(event, which) {
  if (!event.isIdle) words.set(event.word, event[which])
}

// The open transaction that these words name: of the table, or with `durable ` of what a crash
// leaves.
function transaction(prefix = "") {
  const [sequence, owner] = pairOf(prefix + "current")
  const isOpen = sequence > 0 && valueOf(`${prefix}request ${owner}`) == `(${sequence},0)`
  return { sequence, owner, isOpen }
}

// Words

function word(name, more = "") {
  const zero = valueOf(name) == "(0,0)" ? "zero" : ""
  const hit = name == touched ? "hit" : "", long = valueOf(name).length > 10 ? "long" : ""
  return `<span class="word ${zero} ${hit} ${long} ${more}">${valueOf(name)}</span>`
}

function durable(name) {
  const isBehind = valueOf("durable " + name) != valueOf(name)
  return word("durable " + name, isBehind ? "behind" : "")
}

const both = name => `${word(name)} durable ${durable(name)}`

const causes = ["", "overflow", "short", "noroom", "differs", "badop"]

// The shape of a reply: which instructions have a number, or where and why the script aborted.
function shape(payload) {
  const cause = payload >>> 26, length = payload >>> 16 & 31
  if (cause) return `abort ${payload >>> 21 & 31} ${causes[cause]}`
  return [...Array(length).keys()].map(it => payload >> it & 1 ? "number" : "none").join(" ")
}

// A caller's log, as far as it is stored for its present transaction.
function entries(caller) {
  const [sequence, count] = pairOf(`log 0 of ${caller}`), list = []
  for (let at = 0; sequence && at < count; at++) {
    const names = [`log ${1 + 2 * at} of ${caller}`, `log ${2 + 2 * at} of ${caller}`]
    const [[addressed, address], [stored, payload]] = names.map(pairOf)
    if (addressed != sequence) break
    const isWhole = stored == sequence
    list.push({
      address, payload, isWhole,
      isDurable: isWhole && names.every(it => valueOf("durable " + it) == valueOf(it)),
      isHit: names.includes(touched.replace("durable ", "")),
    })
  }
  return list
}

function entry(it) {
  const holding = data.holding[it.address]
  const value = !it.isWhole ? "…" : holding.startsWith("shape") ? shape(it.payload) : it.payload
  const classes = `entry ${it.isDurable ? "" : "thin"} ${it.isHit ? "hit" : ""}`
  return `<span class="${classes}">${holding} := ${value}</span> `
}

// The callers

function lastEvent(caller) {
  for (let at = done - 1; at >= data.first; at--) {
    const event = eventAt(at)
    if (event.caller == caller && !event.isIdle) return event
  }
}

function announced(caller, now) {
  const [ticket] = pairOf("announcement " + caller)
  if (!ticket) return ""
  const cell = data.own.find(it => it.endsWith(`(ticket of ${caller})`))
  const [sequence, ran] = cell ? pairOf(cell) : [0, 0]
  if (ran >= ticket) return `<span class="good">run by transaction ${sequence}</span>`
  const isRun = it => data.holding[it.address] == `ticket of ${caller}` && it.payload >= ticket
  return now.isOpen && entries(now.owner).some(isRun)
    ? `<span class="good">run by transaction ${now.sequence}</span>, to be applied`
    : '<span class="dim">not run yet</span>'
}

function request(caller, now) {
  const [sequence, isClosed] = pairOf("request " + caller)
  if (!sequence) return ""
  if (isClosed) return "closed"
  if (sequence > now.sequence) return "the log is whole"
  const isCurrent = sequence == now.sequence && now.owner == caller
  return isCurrent ? '<b class="bad">open</b>' : "too late"
}

function log(caller, now) {
  const [sequence, count] = pairOf(`log 0 of ${caller}`), list = entries(caller)
  if (!sequence) return ""
  const isCurrent = sequence == now.sequence && now.owner == caller
  const isLive = sequence > now.sequence || isCurrent && now.isOpen
  const [requested, isClosed] = pairOf("request " + caller)
  const isApplied = isCurrent || isClosed && requested == sequence
  const state = isLive ? "" : isApplied ? ", applied" : ", too late"
  const shown = isLive || list.some(it => it.isHit) ? list.map(entry).join("") : ""
  return `<div>log for transaction ${sequence}: ${count} entries${state}</div><div>${shown}</div>`
}

function card(caller, event, now) {
  const last = lastEvent(caller), script = data.scripts[caller][last ? last.script : 0]
  const isTouched = touched.startsWith("script word") && touched.endsWith("of " + caller)
  const text = script === undefined ? "no script"
    : `script ${last ? last.script : 0}: <code class="${isTouched ? "hit" : ""}">${script}</code>`
  const state = !last ? "no step yet" : last.end || "last step: " + last.step
  return `<div class="card ${event && event.caller == caller ? "on" : ""}">
    <b>caller ${caller}</b>${text}<span class="last">${state}</span>
    <div>announced ${word("announcement " + caller)} ${announced(caller, now)}</div>
    <div>request ${both("request " + caller)} ${request(caller, now)}</div>
    ${log(caller, now)}</div>`
}

// The cells

function cellRow(name) {
  const holding = name.replace(/^cell \d+ \((.*)\)$/, "$1"), [sequence, payload] = pairOf(name)
  const isShape = holding.startsWith("shape") && sequence
  const reply = isShape ? `<br><span class="dim">${shape(payload)}</span>` : ""
  const top = holding.startsWith("ticket") ? "top" : ""
  return `<tr title="${name}" class="${top}">
    <td>${holding}${reply}<td>${word(name)}<td>${durable(name)}`
}

function table(names) {
  return `<table><tr><th>cell<th>now<th>durable</tr>${names.map(cellRow).join("")}</table>`
}

function showState(event) {
  const now = transaction(), { sequence, owner, isOpen } = now
  const state = isOpen ? '<b class="bad">open</b>' : '<b class="good">closed</b>'
  const says = sequence ? `transaction ${sequence} of caller ${owner} is ${state}`
    : "no transaction yet"
  element("state").innerHTML = `<h2>Current transaction</h2>
    <div>current ${both("current")} · ${says}</div>
    <h2>Callers</h2>${callers.map(it => card(it, event, now)).join("")}
    <div class="two"><div><h2>Store</h2>${table(data.store)}</div>
    <div><h2>Tickets and replies</h2>${table(data.own)}</div></div>`
}

// A crash

function historyItem([, sequence, caller, script, kind, ...reply]) {
  const verb = kind == "read" ? "reads" : "answers"
  return `<li>at ${sequence}: caller ${caller}, <code>${data.scripts[caller][script]}</code>
    ${verb} <code>${reply.join(" ")}</code>`
}

function callerItem([, caller, end, answered, kept]) {
  const begun = data.begun[caller].filter(it => it < done).length
  const open = +kept > +answered ? ', open call <b class="good">kept</b>'
    : begun > +answered ? ', open call <b class="bad">not kept</b>' : ""
  const says = `${answered} of ${data.scripts[caller].length} answered`
  return `<li>caller ${caller}: ${says}${end == "spent" ? ", spent" : open}`
}

function finding(sequence) {
  const left = transaction("durable "), now = transaction()
  const open = !left.isOpen ? "no transaction is open"
    : `transaction ${left.sequence} is open, and is finished from the durable log of
      caller ${left.owner}`
  const lost = now.sequence <= sequence ? ""
    : ` <span class="bad">Transaction ${now.sequence} is lost: its commit is not durable yet, and no
      caller has been answered from it.</span>`
  return `<p>Recovery finds <b>sequence ${sequence}</b>: ${open}.${lost}</p>`
}

function showCrash() {
  const at = done - data.first, isNew = at > 0 && data.reportOf[at] != data.reportOf[at - 1]
  const lines = data.reports[data.reportOf[at]].trim().split("\n").map(it => it.split(" "))
  const having = (...names) => lines.filter(it => names.includes(it[0]))
  let history = having("entry").map(historyItem)
  if (history.length > 9) {
    history = [`<li class="dim">${history.length - 8} calls before`, ...history.slice(-8)]
  }
  const store = having("register", "key", "queue").map(([name, which, ...values]) =>
    `<span class="item">${name} ${which}: <code>${values.join(" ")}</code></span>`)
  element("crash").innerHTML = `<h2>A crash here
    ${isNew ? '<span class="new">changed by this event</span>' : ""}</h2>
    ${finding(+having("seq")[0][1])}<div class="two">
    <div><h2>History</h2><ul>${history.join("") || '<li class="dim">no call'}</ul></div>
    <div><h2>Callers</h2><ul>${having("caller").map(callerItem).join("")}</ul>
    <h2>Store</h2>${store.join("") || '<span class="dim">empty</span>'}</div></div>`
}

// The event in words: @owner is the caller whose word it is on or whose log is applied.
const meanings = {
  "try current": "tries to read without announcing: loads the current-transaction word",
  "try request": "loads @owner's request: is the transaction still open?",
  "try cell": "loads a data cell that its script needs",
  "store script": "stores an instruction of its script",
  "store announcement": "announces its call: from now on any caller may run it",
  "load current": "begins a round: loads the current-transaction word",
  "load request": "loads @owner's request: is the transaction still open?",
  "load own ticket": "loads its ticket: has a caller run its call?",
  "load announcement": "scans @owner: which call is announced?",
  "load ticket": "scans @owner: is the announced call a new one?",
  "load script": "scans @owner: loads an instruction of the announced script",
  "load cell": "loads a data cell that a scanned script needs",
  "load shape": "finds that its call was run, and loads the shape of its reply",
  "load reply": "loads a number of its reply",
  "raise old": "makes the old word of its request durable",
  "store log": "stores a word of its log",
  "raise log": "makes this word of its log durable",
  "store request": "opens its request: the log is whole",
  "raise request": "makes its open request durable",
  "exchange current": "exchanges the current-transaction word",
  "copy log": "helps: copies a word of @owner's log",
  "look again": "helps: loads @owner's request again, to see that the copy is its log",
  "raise current": "makes @owner's commit durable",
  "load target": "applies @owner's log: loads the cell of the next entry",
  "exchange target": "applies @owner's log: exchanges the cell for its new word",
  "reload target": "applies @owner's log: loads the cell again",
  "raise target": "applies @owner's log: makes the cell durable",
  "close request": "closes @owner's request: the log is applied",
  "raise closed": "makes @owner's closed request durable",
}

function outcome(event) {
  const { step, changes, left } = event, [sequence, second] = left.startsWith("(") ? pair(left) : []
  if (step == "exchange current") {
    return changes ? `transaction ${sequence} is committed`
      : `lost: caller ${second} was first with transaction ${sequence}`
  }
  if (step == "exchange target" || step == "close request") {
    return changes ? "" : "lost: another caller has done it"
  }
  if (step.startsWith("raise") || event.isEviction) return changes ? "" : "it is durable already"
  if (step == "look again") {
    const isLog = second == 0 && sequence == pairOf("log 0 of " + event.owner)[0]
    return isLog ? "it is" : "it may not be"
  }
  if (step == "load request" || step == "try request") {
    const isOpen = sequence > 0 && second == 0 && sequence == pairOf("current")[0]
    return isOpen ? "it is, and must be helped" : "it is not"
  }
  return ""
}

const eviction = event => `an eviction writes ${event.word.replace("durable ", "")} back`

function sentence(event) {
  if (event.isIdle) return `caller ${event.caller} has nothing to do`
  const isOwn = event.owner == event.caller, owner = "caller " + event.owner
  if (event.isEviction) return [eviction(event), outcome(event)].filter(Boolean).join(" – ")
  const says = `caller ${event.caller} ` + meanings[event.step]
    .replace("@owner's", isOwn ? "its own" : owner + "'s")
    .replace("@owner", isOwn ? "itself" : owner)
  return [says, outcome(event), event.end].filter(Boolean).join(" – ")
}

function showEvent(event) {
  element("slider").value = done
  element("count").textContent = `${done} of ${data.planned} events done`
  element("dot").style.background = event ? event.colour : "#fff"
  const line = !event ? "before the first event" : event.isIdle ? "nothing"
    : `${event.step}, ${event.word}: ${event.found} → ${event.left}`
  element("line").textContent = event ? `event ${done - 1}: ${line}` : line
  element("meaning").textContent = event ? sentence(event) : ""
}

// The cursor on the lanes

function place(at) {
  const row = Math.max(0, data.rows.findLastIndex(it => it[2][0][0] <= at))
  const marks = data.rows[row][2]
  const left = Math.min(marks.length - 2, Math.max(0, marks.findLastIndex(it => it[0] <= at)))
  const [[low, lowPlace], [high, highPlace]] = [marks[left], marks[left + 1]]
  const share = (Math.min(at, high) - low) / (high - low)
  return [row, lowPlace + (highPlace - lowPlace) * share]
}

function showCursor(event) {
  const [row, left] = place(Math.max(done - 1, data.first)), [next, right] = place(done)
  const [top, height, marks] = data.rows[row], box = element("lanes")
  const width = event ? (next == row ? right : marks.at(-1)[1]) - left : 0
  Object.assign(element("cursor").style, {
    left: `${data.gutter + left - 1}px`, top: `${top}px`,
    width: `${Math.max(3, width + 2)}px`, height: `${height}px`,
  })
  const isSeen = top >= box.scrollTop && top + height <= box.scrollTop + box.clientHeight
  if (!isSeen) box.scrollTop = top - 12
}

function show() {
  const event = done > data.first ? eventAt(done - 1) : null
  touched = event?.word ?? ""
  showEvent(event)
  showState(event)
  showCrash()
  showCursor(event)
  clearTimeout(noting)
  noting = setTimeout(() => history.replaceState(null, "", "#" + done), 200)
}

// Moves

const cuts = data.rows.flatMap(([, , marks]) => marks.map(it => it[0]))
const nextOf = list => list.find(it => it > done) ?? data.stop
const lastOf = list => list.findLast(it => it < done) ?? data.first
const moves = {
  ArrowLeft: () => done - 1, ArrowRight: () => done + 1,
  "shift ArrowLeft": () => lastOf(cuts), "shift ArrowRight": () => nextOf(cuts),
  ArrowUp: () => lastOf(data.commits), ArrowDown: () => nextOf(data.commits),
  Home: () => data.first, End: () => data.stop,
}

document.onkeydown = pressed => {
  const move = moves[(pressed.shiftKey ? "shift " : "") + pressed.key]
  if (!move || pressed.altKey || pressed.ctrlKey || pressed.metaKey) return
  pressed.preventDefault()
  go(move())
}

element("lanes").onclick = clicked => {
  const box = element("lanes").getBoundingClientRect()
  const down = clicked.clientY - box.top + element("lanes").scrollTop
  const right = clicked.clientX - box.left + element("lanes").scrollLeft - data.gutter
  const row = data.rows.find(([top, height]) => down >= top && down <= top + height)
  if (!row) return
  const marks = row[2], after = marks.findIndex(it => it[1] > right)
  const high = after < 0 ? marks.length - 1 : Math.max(1, after)
  const [[low, lowPlace], [stop, stopPlace]] = [marks[high - 1], marks[high]]
  const share = Math.max(0, Math.min(.999, (right - lowPlace) / (stopPlace - lowPlace)))
  go(Math.floor(low + share * (stop - low)) + 1)
}

element("home").onclick = () => go(data.first)
element("back").onclick = () => go(done - 1)
element("on").onclick = () => go(done + 1)
element("end").onclick = () => go(data.stop)
element("slider").min = data.first
element("slider").max = data.stop
element("slider").oninput = () => go(element("slider").value)
onhashchange = () => go(location.hash.slice(1))
go(location.hash.slice(1))
