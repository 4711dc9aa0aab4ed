--[[ Takes a script's steps on Lua's own heap, and writes the record, which `g1heap check` judges.

         tools/draw_script.py 1 --first 0 --weak 1 ... > it.heap
         lua5.4 recorder/lua/driver.lua incremental|generational it.heap it.record [EARLY]

     A step `gc pause` asks for a full collection; the other steps of `gc` are passed over. A sync, as recorder/README.md has it, is written
     where a weak slot is seen cleared, after collections, and at the end. At the first step from EARLY on where a register holds what
     a weak slot of an object holds that a register holds too, it is cleared, and the run ends with a sync. Prints how many steps, collections and syncs there were, and 1 where one was
     cleared so. Lua 5.4 alone. Data words stay texts, since numbers have a sign here. ]]
local BETWEEN_SYNCS = 1000
local mode, script, path, early = arg[1], arg[2], arg[3], tonumber(arg[4] or "0")
assert(_VERSION == "Lua 5.4" and path, "usage: lua5.4 driver.lua incremental|generational SCRIPT RECORD [EARLY]")
collectgarbage(mode)

local function split(line)
    local words = {}
    for word in line:gmatch("%S+") do words[#words + 1] = word end
    return words
end
local lines = assert(io.open(script))
local sizes = split(lines:read("l"))
local mutators, next_name, limit = math.tointeger(sizes[5]), math.tointeger(sizes[6]), sizes[2] * sizes[3]
local globals, registers = math.tointeger(sizes[8] or "16"), math.tointeger(sizes[9] or "8")
local room = math.min(65536, (1048576 - globals - 1) // (mutators + 1))
local record = assert(io.open(path, "wb"))
record:write(("heap3 %s %s 4 %d %d 8 %d %d\n"):format(sizes[2], sizes[3], mutators + 1, next_name, globals + 1, room))

-- An object: `weaks` holds its objects weakly, and `filled` tells which slots hold one, as far as was seen.
local WEAKLY = {__mode = "v"}
local static, stacks = {}, {}
for m = 0, mutators - 1 do stacks[m] = {} end
local events, steps, syncs, last_sync, cleared = 0, 0, 0, 0, false

-- Counts collections: a lost object's finalizer makes the next one.
local collections, seen = 0, 0
local function count() setmetatable({}, {__gc = function() collections = collections + 1 count() end}) end
count()

local function tell(step, reply)
    events = events + 1
    record:write(events, " ", step, " = ", reply, "\n")
end
local function spell(it) return it and "#" .. it.name or "nil" end

-- A sync: what is taken is held until its end, so no slot that was seen to hold is cleared meanwhile.
local function take(sync, step, it)
    local reply, to = spell(it), sync.count
    if it and not sync.places[it.name] then
        sync.places[it.name], sync.held[to], sync.count = it, it, to + 1
        assert(to + 1 < room, "more objects are reached than a mutator has registers")
    elseif it and sync.places[it.name] ~= it then
        reply = "#18446744073709551614"
    end
    tell(step:format(to), reply)
end
local function take_fields(sync, at)
    local it, spare = sync.held[at], mutators
    tell(("%d shape r%d"):format(spare, at), it.pointer_count .. " " .. it.word_count)
    tell(("%d weaks r%d"):format(spare, at), it.weak_count)
    for j = 0, it.word_count - 1 do tell(("%d read r%d %d"):format(spare, at, j), it.words[j] or "0") end
    for i = 0, it.pointer_count - 1 do take(sync, ("%d get r%%d r%d %d"):format(spare, at, i), it.pointers[i]) end
    for i = 0, it.weak_count - 1 do
        local found = it.weaks[i]
        it.filled[i] = found ~= nil
        if found then take(sync, ("%d getweak r%%d r%d %d"):format(spare, at, i), found) end
    end
end
local function write_sync()
    local sync = {held = {}, places = {}, count = 0}
    for i = 0, globals - 1 do take(sync, ("%d load r%%d g%d"):format(mutators, i), static[i]) end
    for m = 0, mutators - 1 do
        for i = 0, registers - 1 do
            tell(("%d save g%d r%d"):format(m, globals, i), "ok")
            take(sync, ("%d load r%%d g%d"):format(mutators, globals), stacks[m][i])
        end
    end
    local at = 0
    while at < sync.count do take_fields(sync, at) at = at + 1 end
    tell("gc begin", "ok")
    tell("gc remark", "marked 0")
    for k = 0, sync.count - 1 do
        local it = sync.held[k]
        for i = 0, it.weak_count - 1 do
            if not it.filled[i] then tell(("%d getweak r%d r%d %d"):format(mutators, sync.count, k, i), "nil") end
        end
    end
    tell(mutators .. " scope r0", "ok")
    tell(("%d save g%d r0"):format(mutators, globals), "ok")
end

-- Clears a slot of an object that a register holds, where it holds one that a register holds too.
local function clear_early()
    local held = {}
    for m = 0, mutators - 1 do for _, it in pairs(stacks[m]) do held[it] = true end end
    for it in pairs(held) do
        for i, found in pairs(it.weaks) do
            if held[found] then it.weaks[i] = nil return true end
        end
    end
    return false
end
local function sync_all()
    write_sync()
    syncs, last_sync, seen = syncs + 1, steps, collections
end

local function number(word) return math.tointeger(word:sub(2)) end
local function refusal(it, count, i)
    if not it then return "refused 1 Nil" end
    if i >= it[count] then return "refused 2 NoField" end
end
local function make(stack, to, pointers, weaks, words)
    if 2 + pointers + weaks + words > limit then return "refused 4 TooBig" end
    stack[to] = {name = next_name, pointer_count = pointers, weak_count = weaks, word_count = words,
                 pointers = {}, weaks = setmetatable({}, WEAKLY), filled = {}, words = {}}
    next_name = next_name + 1
    return spell(stack[to])
end

-- The steps: what is handed over is the mutator's registers and the step's words after its verb. A step gives its reply.
local step = {}
function step.new(stack, to, p, d) return make(stack, number(to), p + 0, 0, d + 0) end
function step.newweak(stack, to, p, w, d) return make(stack, number(to), p + 0, w + 0, d + 0) end
function step.get(stack, to, of, i)
    local it = stack[number(of)]
    local refused = refusal(it, "pointer_count", i + 0)
    if refused then return refused end
    stack[number(to)] = it.pointers[i + 0]
    return spell(stack[number(to)])
end
function step.getweak(stack, to, of, i)
    local it = stack[number(of)]
    local refused = refusal(it, "weak_count", i + 0)
    if refused then return refused end
    local found = it.weaks[i + 0]
    if not found and it.filled[i + 0] then sync_all() end
    stack[number(to)] = found
    return spell(found)
end
function step.put(stack, of, i, from)
    local it = stack[number(of)]
    local refused = refusal(it, "pointer_count", i + 0)
    if not refused then it.pointers[i + 0] = from ~= "nil" and stack[number(from)] or nil end
    return refused or "ok"
end
function step.putweak(stack, of, i, from)
    local it, value = stack[number(of)], from ~= "nil" and stack[number(from)] or nil
    local refused = refusal(it, "weak_count", i + 0)
    if not refused then it.weaks[i + 0], it.filled[i + 0] = value, value ~= nil end
    return refused or "ok"
end
function step.read(stack, of, j)
    local it = stack[number(of)]
    return refusal(it, "word_count", j + 0) or it.words[j + 0] or "0"
end
function step.write(stack, of, j, word)
    local it = stack[number(of)]
    local refused = refusal(it, "word_count", j + 0)
    if not refused then it.words[j + 0] = word end
    return refused or "ok"
end
function step.shape(stack, of)
    local it = stack[number(of)]
    return it and it.pointer_count .. " " .. it.word_count or "refused 1 Nil"
end
function step.weaks(stack, of) return stack[number(of)] and stack[number(of)].weak_count or "refused 1 Nil" end
function step.move(stack, to, from) stack[number(to)] = stack[number(from)] return "ok" end
function step.drop(stack, it) stack[number(it)] = nil return "ok" end
function step.load(stack, to, from) stack[number(to)] = static[number(from)] return spell(static[number(from)]) end
function step.save(stack, to, from) static[number(to)] = stack[number(from)] return "ok" end
function step.scope(stack, first)
    for i = number(first), registers - 1 do stack[i] = nil end
    return "ok"
end

for line in lines:lines() do
    local words = split(line)
    if words[1] ~= "gc" then
        -- The reply first: it may write a sync.
        local reply = step[words[2]](stacks[words[1] + 0], table.unpack(words, 3))
        tell(line, reply)
        steps = steps + 1
        if early > 0 and steps >= early then
            cleared = clear_early()
            if cleared then sync_all() break end
        elseif steps - last_sync >= BETWEEN_SYNCS and collections > seen then
            sync_all()
        end
    elseif words[2] == "pause" then
        collectgarbage()
    end
end
if not cleared then sync_all() end
assert(record:close())
print(steps, collections, syncs, cleared and 1 or 0)
