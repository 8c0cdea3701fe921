-- Work of many kinds, which writes as it goes: lua work.lua ROUNDS TEXT
-- The order in which `pairs` goes over a table is never written.

local rounds, text_name = tonumber(arg[1]), arg[2]

local function line(...)
    io.write(string.format(...), "\n")
end

-- How often each word stands in a text, the most frequent first.
local function words_of(text)
    local counts, words = {}, {}
    for word in text:lower():gmatch("%a+") do
        if not counts[word] then
            words[#words + 1] = word
        end
        counts[word] = (counts[word] or 0) + 1
    end
    table.sort(words, function(a, b)
        if counts[a] ~= counts[b] then
            return counts[a] > counts[b]
        end
        return a < b
    end)
    return words, counts
end

-- Numbers of any length, the lowest six digits first.
local Long = {}
Long.__index = Long

function Long.of(number)
    return setmetatable({ number }, Long)
end

function Long.__mul(long, factor)
    local product, carry = {}, 0
    for place, digits in ipairs(long) do
        carry = carry + digits * factor
        product[place] = carry % 1000000
        carry = carry // 1000000
    end
    if carry > 0 then
        product[#product + 1] = carry
    end
    return setmetatable(product, Long)
end

function Long.__tostring(long)
    local parts = {}
    for place = #long, 1, -1 do
        parts[#parts + 1] = string.format(place == #long and "%d" or "%06d", long[place])
    end
    return table.concat(parts)
end

-- All orders of the first n items of a list, each from a coroutine.
local function orders(items, n)
    return coroutine.wrap(function()
        local function go(place)
            if place > n then
                coroutine.yield(table.concat(items, " ", 1, n))
            end
            for other = place, n do
                items[place], items[other] = items[other], items[place]
                go(place + 1)
                items[place], items[other] = items[other], items[place]
            end
        end
        go(1)
    end)
end

-- A number whose square is near to another one, by Newton's method.
local function root(square)
    local guess = square
    repeat
        local before = guess
        guess = (before + square / before) / 2
    until math.abs(guess - before) < 1e-12 * guess
    return guess
end

-- What became of a call that may fail.
local function tried(f, ...)
    local went_well, answer = pcall(f, ...)
    return went_well and tostring(answer) or "failed: " .. tostring(answer):gsub("^[^:]*:%d+: ", "")
end

local file = assert(io.open(text_name, "rb"))
local text = file:read("a")
file:close()
local words, counts = words_of(text)
line("%d bytes, %d words", #text, #words)

local factorial = Long.of(1)
local next_order = orders({ "a", "b", "c", "d", "e", "f", "g" }, 7)
for round = 1, rounds do
    factorial = factorial * round
    local word = words[(round - 1) % #words + 1]
    local others = text:gsub(word, string.rep("*", #word))
    line("%4d %-12s %4d times, %d bytes without it", round, word, counts[word], #others:gsub("%*", ""))
    line("     %s", next_order() or "no order is left")
    line("     root %.12f, sine %.9f, %a", root(round), math.sin(round), 1 / round)
    line("     %d! = %s", round, tostring(factorial):sub(1, 60))
    line("     %s", tried(function(n) return n % 3 == 0 and error("three") or { n } and n // 2 end, round))
end
line("done: %s", string.pack("<i4 d z", rounds, root(2), "end"):gsub(".", function(c) return ("%02x"):format(c:byte()) end))
