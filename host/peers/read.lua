-- Reads a text by the LPeg grammar of lines.lua.
--   read.lua times FILE BATCHES READINGS    prints the matched length, -1 where nothing matches, and the lowest and the median processor
--                                           time of a reading in microseconds, over batches of so many readings
--   read.lua lengths FILE                   prints for each rule a line: its name, and its length at each position of the text
local lpeg = require "lpeg"
local folder = arg[0]:match("^.*/") or ""
local grammar = dofile(folder .. "lines.lua")

local function pattern_of(rule)
  local rules = { rule }
  for name, body in pairs(grammar.rules) do
    rules[name] = body
  end
  return lpeg.P(rules)
end

-- The length of a match at a position, which counts from 0.
local function length_at(pattern, text, position)
  local behind = lpeg.match(pattern, text, position + 1)
  return behind and behind - 1 - position or -1
end

local function print_times(text, batches, readings)
  local pattern = pattern_of("sheet")
  local match, clock = lpeg.match, os.clock
  local times = {}
  for batch = 1, batches do
    local begin = clock()
    for _ = 1, readings do
      match(pattern, text)
    end
    times[batch] = (clock() - begin) * 1e6 / readings
  end
  table.sort(times)
  local middle = times[math.floor(batches / 2) + 1]
  print(string.format("%d %.3f %.3f", length_at(pattern, text, 0), times[1], middle))
end

local function print_lengths(text)
  for _, name in ipairs(grammar.names) do
    local pattern = pattern_of(name)
    local line = { name }
    for position = 0, #text do
      line[#line + 1] = length_at(pattern, text, position)
    end
    print(table.concat(line, " "))
  end
end

local file = assert(io.open(arg[2], "rb"))
local text = file:read("*a")
file:close()
if arg[1] == "times" then
  print_times(text, tonumber(arg[3]), tonumber(arg[4]))
else
  print_lengths(text)
end
