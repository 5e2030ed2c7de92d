-- The grammar of lines in one star for LPeg: named_sheet_of_lines of host/development/src/gap_sheet.rs, rule for rule. Each rule is an entry of the
-- table and is called by its name; there are no captures.
local lpeg = require "lpeg"
local P, R, V = lpeg.P, lpeg.R, lpeg.V

local any = P(1)
local rest_of_line = (-V"new_line" * any)^0
local two_times = V"time" * V"space" * P"/" * V"space" * V"time"
local values = (V"separator" * (V"value" + P"?"))^0
local name_byte = V"letter" + V"digit" + P"_" + P"."
local two_digits = V"digit" * V"digit"

local rules = {
  sheet = V"title" * V"line"^0 * -any,
  title = P"G" * P"A" * P"P" * P"S" * V"space" * V"name" * V"new_line",
  line = V"comment" + V"entry" + V"blank" + V"other",
  entry = V"name" * V"separator" * two_times * values * V"new_line",
  comment = P"#" * rest_of_line * V"new_line",
  blank = V"space" * V"new_line",
  name = V"letter" * name_byte^0,
  letter = R"az" + R"AZ",
  digit = R"09",
  number = V"digit" * V"digit"^0,
  time = two_digits * P":" * two_digits * P":" * two_digits,
  value = (P"-" + P"+")^-1 * V"number" * (P"." * V"number")^-1,
  separator = V"space" * (P";" + P",") * V"space",
  space = (P" " + P"\t")^0,
  new_line = P"\n" + P"\r" * P"\n",
  other = rest_of_line * V"new_line",
}

-- The rules by their numbers, from 0 on.
local names = {
  "sheet", "title", "line", "entry", "comment", "blank", "name", "letter",
  "digit", "number", "time", "value", "separator", "space", "new_line", "other",
}

return { rules = rules, names = names }
